#!/usr/bin/env python3
"""Times closed selections and captures beside `list`, over a chain of revisits each of which names the one before it.

Usage: selections.py PROGRAM FOLDER

The chain has 1,000,000 revisits (or LENGTH, from the environment) to one resource. What each command writes is checked
first: the whole chain, if the last revisit is selected with all that it needs, nothing, if what needs the resource is
left out, and a line for each capture. Then each runs five times, all by turns, and the least processor time counts. The
archive is made in FOLDER once and kept. Prints a table in Markdown.
"""
from __future__ import annotations

import os
import subprocess
import sys

from shared import made_on, put_table, run

RUNS = 5
LENGTH = int(os.environ.get("LENGTH", "1000000"))
PROFILE = "http://netpreserve.org/warc/1.1/revisit/identical-payload-digest"


def name(number: int) -> str:
    """The identifier of a record."""
    return f"<urn:uuid:00000000-0000-4000-8000-{number:012x}>"


def record(number: int) -> bytes:
    """The resource, or a revisit that names the record before it."""
    lines = ["WARC/1.1", "WARC-Type: resource" if number == 0 else "WARC-Type: revisit"]
    lines += [
        f"WARC-Record-ID: {name(number)}",
        "WARC-Date: 2020-01-01T00:00:00Z",
        "WARC-Target-URI: http://a.example/",
    ]
    if number:
        lines += [f"WARC-Profile: {PROFILE}", f"WARC-Refers-To: {name(number - 1)}"]
    lines += ["Content-Type: text/plain", f"Content-Length: {0 if number else 4}", "", "" if number else "body"]
    return ("\r\n".join(lines) + "\r\n\r\n").encode("ascii")


def make_chain(path: str) -> None:
    """Makes the archive, unless it is there."""
    if os.path.exists(path):
        return
    with open(f"{path}.new", "wb") as file:
        for number in range(LENGTH + 1):
            file.write(record(number))
    os.replace(f"{path}.new", path)


def written(words: list[str]) -> bytes:
    """What a command writes."""
    return subprocess.run(words, check=True, capture_output=True).stdout


def main() -> None:
    program, folder = sys.argv[1:]
    os.makedirs(folder, exist_ok=True)
    path, last, first = (os.path.join(folder, it) for it in (f"chain{LENGTH}.warc", "last", "first"))
    make_chain(path)
    for at, position in ((last, LENGTH), (first, 0)):
        with open(at, "w", encoding="ascii") as file:
            file.write(f"{position}\n")
    commands = {
        "`list`": [program, "list", path],
        "`select --closed` of the last": [program, "select", "--closed", path, last],
        "`select --except --closed` of the first": [program, "select", "--except", "--closed", path, first],
        "`captures`": [program, "captures", path],
        "`survey`": [program, "survey", path],
    }
    texts = [written(words) for words in commands.values()]
    sizes = [len(text) for text in texts[1:3]]
    if sizes != [os.path.getsize(path), 0]:
        sys.exit(f"selections.py: {sizes} bytes were selected of {os.path.getsize(path)}")
    if texts[3].count(b"\n") != LENGTH + 1:
        sys.exit(f"selections.py: not a line for each of {LENGTH + 1} captures")
    turns = [[run(words).processor for words in commands.values()] for _ in range(RUNS)]
    least = [min(times) for times in zip(*turns)]
    print(f"{made_on(program)}\n")
    rows = [[what, f"{it:.2f} s, {it / least[0]:.1f} times `list`"] for what, it in zip(commands, least)]
    put_table(["Command, over a chain of revisits", "Takes"], rows)


main()
