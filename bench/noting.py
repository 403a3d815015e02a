#!/usr/bin/env python3
"""Measures what it costs a run of warc-collection to note where the members of a compressed file are.

Usage: noting.py WARC [TIMES]

Two .warc.gz with a member for each record, of records of 40 KB and of 5 KB, are read by a job into a new catalogue:
TIMES times (5 if left out) by the collection as it is, and in turns by a copy of it that notes none. Prints a table of
the processor's seconds, each the median, with those of GNU parallel and of the program.
"""
from __future__ import annotations

import gzip
import os
import random
import shutil
import statistics
import sys
import tempfile

from shared import TOP, crawl_record, made_on, put_table, run

# Sizes of bodies, and how many records have them.
FILES = {40_000: 8_000, 5_000: 20_000}
TIMES = 5
NOTES = "        if begin != stop and len(self.begins) < MOST_NOTED:\n"
HEAD = b"HTTP/1.1 200 OK\r\nContent-Type: text/plain\r\n\r\n"


def write(disk: str, size: int, count: int) -> None:
    """Writes records with bodies of random bytes, which no gzip makes smaller."""
    numbers = random.Random(size)
    os.makedirs(disk)
    with open(f"{disk}/a.warc.gz", "wb") as out:
        for number in range(count):
            block = HEAD + numbers.randbytes(size)
            out.write(gzip.compress(crawl_record("response", number, f"http://s.example/{number}", block), 1))


def without_noting(folder: str) -> str:
    """A copy of the collection that notes no member."""
    for name in ("collection", "python/src"):
        shutil.copytree(f"{TOP}/{name}", f"{folder}/{name}")
    path = f"{folder}/collection/zogwedu_collection/members.py"
    with open(path, encoding="utf-8") as file:
        text = file.read()
    if text.count(NOTES) != 1:
        sys.exit(f"{path} notes members in another way")
    with open(path, "w", encoding="utf-8") as file:
        file.write(text.replace(NOTES, "        if False:\n"))
    return folder


def seconds_of(top: str, warc: str, disk: str) -> float:
    """The processor's seconds of a run over a file."""
    program, catalogue = f"{top}/collection", f"{disk}.catalogue"
    words = ["-c", catalogue, "run", "--quiet", "--jobs", "1", "--warc", warc, disk]
    taken = run([sys.executable, program, *words]).processor
    shutil.rmtree(catalogue)
    return taken


def main() -> None:
    warc, times = os.path.abspath(sys.argv[1]), int((sys.argv[2:] or [str(TIMES)])[0])
    with tempfile.TemporaryDirectory(prefix="warc-bench-") as folder:
        rows, other = [], without_noting(f"{folder}/other")
        for size, count in FILES.items():
            disk = f"{folder}/{size}"
            write(disk, size, count)
            pairs = [[seconds_of(top, warc, disk) for top in (other, TOP)] for _ in range(times)]
            without, noted = (statistics.median(column) for column in zip(*pairs))
            share = f"{(noted / without - 1) * 100:+.1f} %"
            rows.append([f"{count:,} records of {size:,} bytes", f"{without:.2f} s", f"{noted:.2f} s", share])
        print(made_on(warc))
        put_table(["Over", "Without", "Members noted", "More"], rows)


if __name__ == "__main__":
    main()
