#!/usr/bin/env python3
"""Times what is written by the program and by the Python package: all records selected, rewritten and split.

Usage: written.py PROGRAM FOLDER

The archives have 50,000, 100,000 and 200,000 records of 10 KB: 0.5, 1 and 2 GB. SIZES names other numbers of records,
with spaces between. Each command writes to a file in FOLDER, which is compared with the other's at the first run and
removed at the end. All run five times by turns, and the least processor time counts. The package has to be in
PYTHONPATH. Prints a table in Markdown.
"""
from __future__ import annotations

import filecmp
import os
import subprocess
import sys

from shared import Usage, made_on, make, put_table

RUNS = 5
SIZES = [int(word) for word in os.environ.get("SIZES", "50000 100000 200000").split()]
LENGTH = 10_000
SEGMENT = 1 << 20
IN_PYTHON = """
import os, sys, zogwedu

class Passed:
    def write(self, piece):
        return os.write(1, piece)

with zogwedu.Archive.open(sys.argv[1]) as archive:
    {}
"""


def in_python(what: str, path: str) -> list[str]:
    """Has Python run a call on an archive that it opens."""
    return [sys.executable, "-c", IN_PYTHON.format(what), path]


def commands(program: str, path: str, positions: str) -> dict[str, list[str]]:
    """What is timed, by its name. The program comes before Python."""
    out = "sys.stdout.buffer"
    return {
        "`select` of all": [program, "select", path, positions],
        "the same in Python": in_python(f"archive.select({out}, range(len(archive)))", path),
        "the same in Python, to an object": in_python("archive.select(Passed(), range(len(archive)))", path),
        "`rewrite`": [program, "rewrite", path],
        "`rewrite` in Python": in_python(f"archive.rewrite({out})", path),
        "`split` at 1 MB": [program, "split", path, str(SEGMENT)],
        "`split` in Python": in_python(f"archive.split({out}, {SEGMENT})", path),
    }


def run_into(words: list[str], path: str) -> Usage:
    """Runs a command whose output goes to a file."""
    with open(path, "wb") as out:
        with subprocess.Popen(words, stdout=out) as process:
            _, status, usage = os.wait4(process.pid, 0)
            process.returncode = os.waitstatus_to_exitcode(status)
    if process.returncode:
        sys.exit(f"{words}: status {process.returncode}")
    return Usage(usage.ru_utime + usage.ru_stime, 0.0, usage.ru_maxrss)


def require_same(words: dict[str, list[str]], folder: str) -> None:
    """Has each command write what the program's command of its kind writes."""
    wanted, given = f"{folder}/wanted", f"{folder}/given"
    for name, line in words.items():
        is_program = "Python" not in name
        run_into(line, wanted if is_program else given)
        if not is_program and not filecmp.cmp(wanted, given, shallow=False):
            sys.exit(f"written.py: {name} writes something else than the program")
    os.remove(wanted)
    os.remove(given)


def least_of(words: dict[str, list[str]], folder: str) -> dict[str, float]:
    """The least processor time of each command."""
    out = f"{folder}/given"
    turns = [{name: run_into(line, out).processor for name, line in words.items()} for _ in range(RUNS)]
    os.remove(out)
    return {name: min(turn[name] for turn in turns) for name in words}


def main() -> None:
    program, folder = sys.argv[1:]
    os.makedirs(folder, exist_ok=True)
    times: list[dict[str, float]] = []
    for count in SIZES:
        path, positions = f"{folder}/written{count}.warc", f"{folder}/written{count}"
        make(path, count, LENGTH)
        with open(positions, "w", encoding="ascii") as file:
            file.writelines(f"{number}\n" for number in range(count))
        words = commands(program, path, positions)
        require_same(words, folder)
        times.append(least_of(words, folder))
    print(f"{made_on(program)}; the least processor time of {RUNS} runs by turns\n")
    headings = [f"{os.path.getsize(f'{folder}/written{count}.warc') / 1e9:.2f} GB" for count in SIZES]
    rows = ([name, *(f"{time[name]:.2f} s" for time in times)] for name in times[0])
    put_table(["What is written", *headings], rows)


if __name__ == "__main__":
    main()
