#!/usr/bin/env python3
"""Times `warc_order` alone: filling, adding one by one, and looking up, in random order.

Usage: order.py REPOSITORY FOLDER

It proves and builds bench/crates/bench_order, and runs it at 1,000,000 and 10,000,000 entries, and at 1,000,000
whose texts all have one hash: at each the run with the least time of three. Printed by the program: nanoseconds an
entry.
"""
import subprocess
import sys
import time

from shared import build

RUNS = 3


def main() -> None:
    program = build(sys.argv[1], "bench_order", sys.argv[2])
    for arguments in (["1000000"], ["10000000"], ["1000000", "equal"]):
        best, printed = 1e9, ""
        for _ in range(RUNS):
            begin = time.perf_counter()
            done = subprocess.run([program, *arguments], check=True, capture_output=True, text=True)
            seconds = time.perf_counter() - begin
            if seconds < best:
                best, printed = seconds, done.stdout
        print(" ".join(arguments), printed, sep="\n", end="")


main()
