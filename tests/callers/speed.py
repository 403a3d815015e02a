#!/usr/bin/env python3
"""How long opening an archive takes from Python, and how long `warc list` takes, which opens it and writes a line for
each record.

Usage: speed.py WARC FOLDER

The archives are a crawl that is repeated, and few records with large blocks. Prints the least of several runs of each.
"""
import os
import subprocess
import sys
import time
from functools import partial
from typing import Callable

import zogwedu

TOP = os.path.dirname(os.path.dirname(os.path.dirname(os.path.abspath(__file__))))
RUNS = 5


def repeated(path: str, times: int) -> None:
    """Writes the crawl of examples/ `times` times."""
    with open(f"{TOP}/examples/crawl.warc", "rb") as crawl, open(path, "wb") as file:
        file.write(crawl.read() * times)


def large_blocks(path: str, count: int, size: int) -> None:
    """Writes records with blocks of this size."""
    head = (
        "WARC/1.1\r\nWARC-Type: resource\r\nWARC-Record-ID: <urn:uuid:00000000-0000-4000-8000-{:012}>\r\n"
        "WARC-Date: 2020-01-01T00:00:00Z\r\nWARC-Target-URI: http://a.example/{}\r\nContent-Length: {}\r\n\r\n"
    )
    with open(path, "wb") as file:
        for number in range(count):
            file.write(head.format(number, number, size).encode() + bytes(size) + b"\r\n\r\n")


def least(work: Callable[[], object]) -> float:
    """The least time of several runs, in seconds."""
    times = []
    for _ in range(RUNS):
        begun = time.perf_counter()
        work()
        times.append(time.perf_counter() - begun)
    return min(times)


def main(warc: str, folder: str) -> None:
    """Measures both archives."""
    path = os.path.join(folder, "speed.warc")
    for name, make in (
        ("many records", partial(repeated, path, 5000)),
        ("large blocks", partial(large_blocks, path, 200, 1 << 20)),
    ):
        make()
        with zogwedu.Archive.open(path) as archive:
            records = len(archive)
        size = os.path.getsize(path) >> 20
        by_python = least(lambda: zogwedu.Archive.open(path).close())
        by_program = least(lambda: subprocess.run([warc, "list", path], stdout=subprocess.DEVNULL, check=True))
        by_replay = least(
            lambda: subprocess.run(
                [warc, "replay", path, "http://nowhere.example/", "2000"],
                stdout=subprocess.DEVNULL,
                stderr=subprocess.DEVNULL,
                check=False,
            )
        )
        os.remove(path)
        print(
            f"{name}: {records} records, {size} MiB: Python opens in {by_python:.3f} s, warc list takes"
            f" {by_program:.3f} s, warc replay {by_replay:.3f} s: {by_python / by_replay:.2f} times the latter"
        )


if __name__ == "__main__":
    main(*sys.argv[1:])
