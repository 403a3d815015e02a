#!/usr/bin/env python3
"""Times `warc_segment` alone: adding continuations whose numbers come in no order, and joining them.

Usage: segment.py REPOSITORY FOLDER

It proves and builds bench/crates/bench_segment, and runs it at 10,000, 100,000 and 1,000,000 segments.
"""
import subprocess
import sys

from shared import build


def main() -> None:
    program = build(sys.argv[1], "bench_segment", sys.argv[2])
    for count in ("10000", "100000", "1000000"):
        done = subprocess.run([program, count], check=True, capture_output=True, text=True)
        print(done.stdout, end="")


main()
