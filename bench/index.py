#!/usr/bin/env python3
"""Times `warc_index` alone: filling, adding one by one, and looking up, in random order; and what it keeps.

Usage: index.py REPOSITORY FOLDER

It proves and builds bench/crates/bench_index, and runs it at 1,000,000 and 10,000,000 records, and at 1,000,000
whose ids and targets all have one hash: at each the run with the least time of three. Printed by the program:
nanoseconds a record. Printed here: the bytes that a record takes beside its texts, which are the most memory of a run
that fills an index alone, without the texts.
"""
from __future__ import annotations

import os
import subprocess
import sys
import time
from collections.abc import Sequence

from shared import build

RUNS = 3


def most_memory(words: Sequence[str]) -> tuple[int, str]:
    """The most memory of a run in bytes, and what it printed."""
    run = subprocess.Popen(words, stdout=subprocess.PIPE, text=True)
    assert run.stdout is not None
    printed = run.stdout.read()
    _, status, usage = os.wait4(run.pid, 0)
    if status != 0:
        sys.exit(f"{words}: status {status}")
    return usage.ru_maxrss * 1024, printed


def main() -> None:
    program = build(sys.argv[1], "bench_index", sys.argv[2])
    for arguments in (["1000000"], ["10000000"], ["1000000", "equal"]):
        best, printed = 1e9, ""
        for _ in range(RUNS):
            begin = time.perf_counter()
            done = subprocess.run([program, *arguments], check=True, capture_output=True, text=True)
            seconds = time.perf_counter() - begin
            if seconds < best:
                best, printed = seconds, done.stdout
        print(" ".join(arguments), printed, sep="\n", end="")
    for count in (1000000, 10000000):
        most, kept = most_memory([program, str(count), "memory"])
        texts = int(kept)
        print(f"{count} records: {texts / count:.0f} bytes of texts each, {(most - texts) / count:.0f} beside them")


main()
