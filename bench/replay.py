#!/usr/bin/env python3
"""Times archives that answer: opening one beside a listing, replays, growth, and the program's `replay` beside `cat`.

Usage: replay.py REPOSITORY PROGRAM FOLDER

It proves and builds bench/crates/bench_archive, and runs it three times over 1,000,000 tiny records: the least of
each figure counts. Then the program replays a body of 1 GB that has no digest, opening included, and `cat` copies its
archive, both to where nothing is kept: each five times, by turns, and the least time counts. The most memory of the
program is what the system reports of it while it runs once more. The archives are made in FOLDER once and kept. Prints
a table in Markdown.
"""
from __future__ import annotations

import os
import subprocess
import sys
import time
from collections.abc import Sequence

from shared import build, made_on, make, put_table, run

RUNS = 5
OPENINGS = 3
REPLAYS = "100000"


def least_figures(words: Sequence[str]) -> dict[str, dict[int, int]]:
    """By its verb, for each line that the runs of a program print, the least numbers before `ns`, by the count."""
    least: dict[str, dict[int, int]] = {}
    for _ in range(OPENINGS):
        done = subprocess.run(words, check=True, capture_output=True, text=True)
        for line in done.stdout.splitlines():
            count, verb, _, each, _ = line.split(maxsplit=4)
            by_count = least.setdefault(verb, {})
            by_count[int(count)] = min(by_count.get(int(count), 10**12), int(each))
    return least


def most_memory(words: Sequence[str]) -> int:
    """The most memory of a run in kilobytes, without what Python took before it."""
    most = 0
    with open(os.devnull, "wb") as null:
        child = subprocess.Popen(words, stdout=null, stderr=null)
        while child.poll() is None:
            with open(f"/proc/{child.pid}/status", encoding="ascii") as status:
                for line in status:
                    if line.startswith("VmHWM:"):
                        most = int(line.split()[1])
            time.sleep(0.001)
    return most


def opening_rows(program: str, path: str) -> list[list[str]]:
    """What it takes to list, open, replay and grow, in microseconds each."""
    least = least_figures([program, path, REPLAYS])
    return [
        [f"{verb}, {count:,} records", f"{each / 1000:.2f} microseconds each"]
        for verb, by_count in least.items()
        for count, each in sorted(by_count.items())
    ]


def replay_row(program: str, path: str) -> list[str]:
    """What it takes to replay a body of 1 GB, beside a copy of its archive."""
    words = [program, "replay", path, "http://a.example/0", "2021"]
    replays, copies = [], []
    for _ in range(RUNS):
        replays.append(run(words).processor)
        copies.append(run(["cat", path]).processor)
    taken = f"{min(replays):.2f} s, {min(replays) / min(copies):.1f} times `cat`"
    return ["`replay`, a body of 1 GB without a digest", f"{taken}; {most_memory(words) / 1024:.1f} MiB of memory"]


def main() -> None:
    repository, program, folder = sys.argv[1:]
    os.makedirs(folder, exist_ok=True)
    tiny, whole = os.path.join(folder, "tiny.warc"), os.path.join(folder, "plain.warc")
    make(tiny, 1_000_000, 3)
    make(whole, 1, 1_000_000_000, has_digests=False)
    openings = build(repository, "bench_archive", folder)
    print(f"{made_on(program)}\n")
    put_table(["What", "Takes"], [*opening_rows(openings, tiny), replay_row(program, whole)])


main()
