#!/usr/bin/env python3
"""Times `pieces` over damaged files beside `list` of the same crawl undamaged.

Usage: pieces.py PROGRAM FOLDER

The files are a crawl of 0.5 GB, the same with ten of its blocks a byte too short, 1 GB of zero bytes, and files of 1 MB
of heads of some 60,000 bytes each, all of whose lines hold a version line; what comes after these lines is wrong in
another way in each file. They are made anew in FOLDER, and stay there. What the program writes is checked: each record
but the ten. Then each runs three times, all by turns, and the least processor time counts. Prints a table in Markdown.
"""
from __future__ import annotations

import os
import random
import subprocess
import sys

from shared import made_on, put_table, run

RUNS = 3
SIZE = 512 << 20
HEADERS = (
    "WARC/1.1\r\nWARC-Type: response\r\nWARC-Record-ID: <urn:uuid:00000000-0000-4000-8000-{0:012x}>\r\n"
    "WARC-Date: 2020-01-01T00:00:00Z\r\nWARC-Target-URI: http://a.example/{0}\r\n"
    "Content-Type: application/http; msgtype=response\r\nContent-Length: {1}\r\n\r\n"
)
HTTP = b"HTTP/1.1 200 OK\r\nContent-Type: text/html\r\n\r\n"
DAMAGES = 10
LINE = b"X:WARC/1.1\r\n"
FIELDS = b"WARC-Type: resource\r\nWARC-Record-ID: <urn:x>\r\nWARC-Date: 2020\r\nContent-Length: 9\r\n"
PACKED = {
    "packed": (b"", "1 MB of heads full of version lines"),
    "unclosed": (FIELDS, "the same, with good fields after them and no block"),
    "undated": (FIELDS.replace(b"2020", b"x"), "the same, with a date that can't be read"),
    "torn": (FIELDS + b"x\r\n", "the same, with a line that is no field"),
    "twice": (FIELDS + FIELDS, "the same, with each field twice"),
}


def record(number: int, pool: bytes, chance: random.Random) -> bytes:
    """A page of a crawl."""
    size = chance.choice((300, 2000, 10000, 30000, 80000))
    start = chance.randrange(len(pool) - size)
    block = HTTP + pool[start : start + size]
    return HEADERS.format(number, len(block)).encode("ascii") + block + b"\r\n\r\n"


def make_crawl(folder: str) -> int:
    """Makes the crawl and the damaged one, and answers how many records it has."""
    chance, number, size = random.Random(1), 0, 0
    pool = chance.randbytes(1 << 20)
    with open(f"{folder}/crawl.warc", "wb") as crawl, open(f"{folder}/damaged.warc", "wb") as damaged:
        while size < SIZE:
            text = record(number, pool, chance)
            crawl.write(text)
            damaged.write(text[:-5] + text[-4:] if number % 2000 == 1000 and number < 2000 * DAMAGES else text)
            number, size = number + 1, size + len(text)
    return number


def make_others(folder: str) -> None:
    """Makes the zeros, and the heads that are full of version lines."""
    with open(f"{folder}/zeros", "wb") as zeros:
        zeros.truncate(1 << 30)
    for name, (fields, _) in PACKED.items():
        head = b"WARC/1.1\r\n" + LINE * 5000 + fields + b"\r\n"
        with open(f"{folder}/{name}", "wb") as packed:
            packed.write((head * 20)[: 1 << 20])


def main() -> None:
    program, folder = sys.argv[1:]
    os.makedirs(folder, exist_ok=True)
    count = make_crawl(folder)
    make_others(folder)
    told = subprocess.run([program, "pieces", f"{folder}/damaged.warc"], check=False, capture_output=True).stdout
    lines = [line.split(b"\t") for line in told.splitlines()]
    good = sum(int(line[3]) for line in lines if line[0] == b"records")
    if good != count - DAMAGES or len(lines) != 2 * DAMAGES + 1:
        sys.exit(f"pieces.py: {good} of {count} records are good, in {len(lines)} pieces")
    commands = {"`list` of the crawl": [program, "list", f"{folder}/crawl.warc"]}
    for what, name in (
        ("the crawl", "crawl.warc"),
        ("it with ten damages", "damaged.warc"),
        ("1 GB of zeros", "zeros"),
        *((what, name) for name, (_, what) in PACKED.items()),
    ):
        commands[f"`pieces` of {what}"] = [program, "pieces", f"{folder}/{name}"]
    turns = [[run(words, (0, 2)).processor for words in commands.values()] for _ in range(RUNS)]
    least = [min(times) for times in zip(*turns)]
    print(f"{made_on(program)}\n")
    put_table(["Command", "Takes"], [[what, f"{it:.2f} s"] for what, it in zip(commands, least)])


main()
