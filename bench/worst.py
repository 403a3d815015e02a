#!/usr/bin/env python3
"""What the worst known input costs for each command, in seconds of processor a megabyte.

Usage: worst.py PROGRAM FOLDER

Hostile archives are made in FOLDER by tests/stress/floods.py, of 4 MB each: good ones of many small records, revisits
that lead to one another, segments of one id, and bytes that are refused. Each command runs over each of them once, and
over its half; the worst time a megabyte counts. Prints a table in Markdown, a line for each command, with how much
longer the whole takes than the half.
"""
from __future__ import annotations

import os
import sys

from shared import made_on, put_table, run

sys.path.insert(0, os.path.join(os.path.dirname(os.path.dirname(os.path.abspath(__file__))), "tests", "stress"))
import floods  # noqa: E402  # pylint: disable=wrong-import-position

SIZE = 4 << 20
URI = "http://a.example/"
# The words of each command after its name; FILE is the archive, LIST a file with the position of its first record.
COMMANDS = {
    "list": ["FILE"],
    "check": ["FILE"],
    "fixity": ["FILE"],
    "fixity --payload": ["FILE"],
    "summary": ["FILE"],
    "captures": ["FILE"],
    "survey": ["FILE"],
    "replay": ["FILE", URI, "9999"],
    "pieces": ["FILE"],
    "salvage --all": ["FILE"],
    "select --closed": ["FILE", "LIST"],
    "select --except --closed": ["FILE", "LIST"],
    "rewrite": ["FILE"],
    "convert": ["FILE"],
    "split": ["FILE", "100"],
}


def seconds(words: list[str]) -> float:
    """The seconds of processor that a command takes, whatever its status is."""
    return run(words, range(5)).processor


def put_floods(folder: str) -> dict[str, tuple[str, str]]:
    """Makes each flood and its half; gives their paths by its name."""
    made = {}
    kinds = {**floods.GOOD, **floods.REVISITS, **floods.SEGMENTS, **floods.PIECES}
    for number, (name, make) in enumerate(kinds.items()):
        paths = [f"{folder}/flood{number}-{part}.warc" for part in ("half", "whole")]
        for path, size in zip(paths, (SIZE // 2, SIZE)):
            with open(path, "wb") as out:
                out.write(make(size))
        made[name] = (paths[0], paths[1])
    return made


def row(program: str, command: str, made: dict[str, tuple[str, str]], chosen: str) -> list[str]:
    """The line of a command: the worst flood, its cost a megabyte, and how much longer it takes than its half."""

    def words(path: str) -> list[str]:
        known = {"FILE": path, "LIST": chosen}
        return [program, *command.split(), *(known.get(word, word) for word in COMMANDS[command])]

    taken = {name: (seconds(words(half)), seconds(words(whole))) for name, (half, whole) in made.items()}
    worst = max(taken, key=lambda name: taken[name][1])
    half, whole = taken[worst]
    growth = whole / max(half, 0.001)
    return [f"`{command}`", f"{whole * (1 << 20) / SIZE:.3f} s", worst, f"{growth:.1f}"]


def main() -> None:
    """Makes the floods, runs all, and prints the table."""
    program, folder = sys.argv[1:]
    os.makedirs(folder, exist_ok=True)
    made = put_floods(folder)
    chosen = f"{folder}/first"
    with open(chosen, "w", encoding="ascii") as out:
        out.write("0\n")
    print(f"{made_on(program)}\n")
    rows = [row(program, command, made, chosen) for command in COMMANDS]
    put_table(["Command", "A megabyte takes", "Of this flood", "Times its half"], rows)


if __name__ == "__main__":
    main()
