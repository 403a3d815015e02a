#!/usr/bin/env python3
"""Hostile bytes, over twice as many of which a command takes at most 2.5 times the time.

They are heads within heads for `pieces`, and for `captures` and `survey` revisits that lead to one another, and
segments of one id, whose series joins or has a gap.

    python3 tests/stress/floods.py WARC [MEGABYTES]

Each kind of flood is made in two sizes: MEGABYTES (2), and half of them. The command runs over both three times, by
turns, and the least processor time counts. Prints a line for each kind, and last a line with the counts. The exit
status is 1 if one takes more than 0.3 s of processor a megabyte, or more than 2.5 times the time of its half.
"""
from __future__ import annotations

import os
import subprocess
import sys
import tempfile
import time
from typing import Callable, Dict, Iterator, Sequence

LINE = b"WARC/1.1\r\n"
INSIDE = b"X:WARC/1.1\r\n"
FIELDS = b"WARC-Type: resource\r\nWARC-Record-ID: <urn:x>\r\nWARC-Date: 2020\r\nContent-Length: 9\r\n"
URI = "http://a.example/"
PROFILE = b"http://netpreserve.org/warc/1.1/revisit/identical-payload-digest"
REVISIT = b"\r\n".join(
    (
        b"WARC/1.1",
        b"WARC-Type: revisit",
        b"WARC-Record-ID: %s",
        b"WARC-Refers-To: %s",
        b"WARC-Date: 2020",
        b"WARC-Target-URI: " + URI.encode(),
        b"WARC-Profile: " + PROFILE,
        b"Content-Length: 0\r\n\r\n\r\n\r\n",
    )
)
SEGMENT = (
    b"WARC/1.1\r\n%sWARC-Record-ID: %s\r\nWARC-Date: 2020\r\nWARC-Target-URI: http://a.example/\r\n"
    b"Content-Length: %d\r\n\r\n%s\r\n\r\n"
)
HEAD = 5000  # lines of a head that is nearly as long as a head may be
RUNS = 3
MOST_SECONDS = 300
SECONDS_A_MEGABYTE = 0.3
MOST_GROWTH = 2.5
NOISE = 0.05  # seconds that a run takes by itself


def heads(lines: bytes, last: bytes = b"") -> Callable[[int], bytes]:
    """Heads of these lines, one after another, each with last lines and an empty line."""
    head = LINE + lines + last + b"\r\n"
    return lambda size: (head * (size // len(head) + 1))[:size]


def endless(part: bytes) -> Callable[[int], bytes]:
    """A part again and again, without an empty line."""
    return lambda size: (part * (size // len(part) + 1))[:size]


def leading(size: int) -> bytes:
    """Good heads whose lengths lead into the heads after them, where no record ends."""
    head = LINE + FIELDS.replace(b"9", b"%d") + b"\r\n"
    made = b"".join(head % (1 + step % 997) for step in range(size // len(head) + 1))
    return made[:size]


def beyond(size: int) -> bytes:
    """Good heads whose lengths lead far beyond the end."""
    return endless(LINE + FIELDS.replace(b"9", b"1000000000") + b"\r\n")(size)


def named(number: int) -> bytes:
    """The identifier of a record."""
    return b"<urn:uuid:00000000-0000-4000-8000-%012x>" % number


def revisits(first_names: Callable[[int], int]) -> Callable[[int], bytes]:
    """Revisits of one URI, each of which names the one before it, and the first what it names among all of them."""

    def make(size: int) -> bytes:
        count = size // len(revisit(0, 0))
        return b"".join(revisit(number, number - 1 if number else first_names(count)) for number in range(count))

    return make


def revisit(number: int, names: int) -> bytes:
    """A revisit that names the record of a number."""
    return REVISIT % (named(number), named(names))


def responses(size: int) -> bytes:
    """HTTP responses whose heads are nearly as long as one may be, and whose bodies are empty."""
    block = b"HTTP/1.1 200 OK\r\n" + b"x: y\r\n" * 10000 + b"\r\n"
    return many(
        lambda number: b"WARC/1.1\r\nWARC-Type: response\r\nWARC-Record-ID: "
        + named(number)
        + b"\r\nWARC-Date: 2020\r\n"
        b"WARC-Target-URI: http://a.example/\r\nContent-Type: application/http; msgtype=response\r\n"
        b"Content-Length: %d\r\n\r\n%s\r\n\r\n" % (len(block), block)
    )(size)


def many(record: Callable[[int], bytes]) -> Callable[[int], bytes]:
    """Records by their numbers, as many as there is room for, but at least one."""

    def make(size: int) -> bytes:
        count = max(size // len(record(0)), 1)
        return b"".join(record(number) for number in range(count))

    return make


def smallest(number: int) -> bytes:
    """A resource with what a record must have, and without a block."""
    return b"WARC/1.0\r\n" + FIELDS.replace(b"urn:x", b"urn:%x" % number).replace(b"9", b"0") + b"\r\n\r\n\r\n"


def same_id(number: int) -> bytes:
    """The same with an id that each has."""
    return smallest(0)


def wrong(number: int) -> bytes:
    """The same, of which four rules find fault."""
    return smallest(number).replace(b"WARC-Date", b"WARC-Truncated: x\r\nWARC-Block-Digest: sha1:x\r\nWARC-Date")


def segment(number: int, block: bytes = b"x") -> bytes:
    """By turns a first segment and a later one, all of one id."""
    if number % 2:
        own = b"WARC-Type: continuation\r\nWARC-Segment-Origin-ID: <urn:x>\r\nWARC-Segment-Number: %d\r\n"
        return SEGMENT % (own % (number // 2 + 2), named(number), len(block), block)
    return SEGMENT % (b"WARC-Type: resource\r\nWARC-Segment-Number: 1\r\n", b"<urn:x>", len(block), block)


def series(total: Callable[[int], int], blocks: Sequence[bytes] = (b"x",)) -> Callable[[int], bytes]:
    """The same, of which the last one states a total, by the number of the later ones. These have one byte each, and
    the first segments these blocks by turns."""

    def make(size: int) -> bytes:
        count = max(size // (len(segment(0)) + len(segment(1))), 1)
        turns = [block for first in blocks for block in (first, b"x")]
        made = [segment(number, turns[number % len(turns)]) for number in range(2 * count)]
        made[-1] = made[-1].replace(b"WARC-Date", b"WARC-Segment-Total-Length: %d\r\nWARC-Date" % total(count))
        return b"".join(made)

    return make


GOOD: Dict[str, Callable[[int], bytes]] = {
    "the smallest records": many(smallest),
    "the smallest records, of one id": many(same_id),
    "small records with four findings": many(wrong),
    "HTTP responses that are all head": responses,
}

SEGMENTS: Dict[str, Callable[[int], bytes]] = {
    "segments of one id": many(segment),
    "segments of one id, with a wrong total": series(lambda count: count),
    "segments of one id, first ones of two lengths": series(lambda count: count, (b"x", b"xx")),
    "segments of one id that join": series(lambda count: count + 1),
    "segments of one id, of which half join": series(lambda count: count + 1, (b"x", b"xx")),
}

PIECES: Dict[str, Callable[[int], bytes]] = {
    "version lines alone": endless(LINE),
    "beginnings of version lines": endless(b"WARC/1."),
    "version lines, an empty line each 55 KB": heads(LINE * 5500),
    "lines that hold version lines": heads(INSIDE * HEAD),
    "the same, and good fields": heads(INSIDE * HEAD, FIELDS),
    "the same, and each field twice": heads(INSIDE * HEAD, FIELDS + FIELDS),
    "the same, and a line that is no field": heads(INSIDE * HEAD, FIELDS + b"x\r\n"),
    "the same, and a date that can't be read": heads(INSIDE * HEAD, FIELDS.replace(b"2020", b"x")),
    "a field again and again between them": heads((b"WARC-Date: 2020\r\n" + INSIDE) * 2000, FIELDS),
    "another field again and again between them": heads((b"WARC-Type: x\r\n" + INSIDE) * 2000),
    "bad lines between them": heads((INSIDE + b"x\r\n") * 4000, FIELDS),
    "bad lines that are version lines between them": heads((INSIDE + LINE) * 2500, FIELDS),
    "fields that are too long when written anew": heads(b"a:WARC/1.1\r\n" * 5400, FIELDS),
    "folds after them": heads((INSIDE + b" y\r\n") * 3500, FIELDS),
    "a value of 60 KB before a version line": heads(b"X: " + b"y" * 60000 + b"WARC/1.1\r\n", FIELDS),
    "heads that are longer than a head may be": heads(INSIDE * 6000, FIELDS),
    "fields without an end": endless(LINE + FIELDS),
    "line ends alone": endless(b"\r\n"),
    "lengths that lead into one another": leading,
    "lengths that lead beyond the end": beyond,
}

REVISITS: Dict[str, Callable[[int], bytes]] = {
    "a chain of revisits, which ends": revisits(lambda count: count),
    "a chain of revisits, in a loop": revisits(lambda count: count - 1),
    "a chain of revisits, whose first names itself": revisits(lambda count: 0),
}


def floods() -> "Iterator[tuple[str, str, Callable[[int], bytes]]]":
    """Each command, and a kind of flood over which it runs."""
    for name, make in PIECES.items():
        yield "pieces", name, make
    for name, make in {**REVISITS, **SEGMENTS}.items():
        yield "captures", name, make
        yield "survey", name, make


def seconds_of(program: str, command: str, path: str) -> float:
    """The seconds of processor that a command takes over a file."""
    before = os.times()
    subprocess.run([program, command, path], stdout=subprocess.DEVNULL, timeout=MOST_SECONDS, check=False)
    after = os.times()
    return after.children_user + after.children_system - before.children_user - before.children_system


def tried(program: str, command: str, folder: str, make: Callable[[int], bytes], size: int) -> "tuple[float, float]":
    """The least seconds over half of a flood and over all of it."""
    paths = [os.path.join(folder, name) for name in ("half", "whole")]
    for path, length in zip(paths, (size // 2, size)):
        with open(path, "wb") as out:
            out.write(make(length))
    taken = [[seconds_of(program, command, path) for path in paths] for _ in range(RUNS)]
    return min(half for half, _ in taken), min(whole for _, whole in taken)


def main() -> int:
    """Tries each kind, and says whether one takes too long."""
    program, megabytes = sys.argv[1], int(sys.argv[2]) if len(sys.argv) > 2 else 2
    begin, slow, count = time.monotonic(), 0, 0
    with tempfile.TemporaryDirectory() as folder:
        for count, (command, name, make) in enumerate(floods(), 1):
            half, whole = tried(program, command, folder, make, megabytes << 20)
            is_slow = whole > SECONDS_A_MEGABYTE * megabytes + NOISE or whole > MOST_GROWTH * half + NOISE
            slow += is_slow
            line = "%-8s %-48s %6.2f s %6.2f s%s"
            print(line % (command, name, half, whole, "  too slow" if is_slow else ""), flush=True)
    print("%d floods in %d s, %d of them too slow" % (count, time.monotonic() - begin, slow))
    return 1 if slow else 0


if __name__ == "__main__":
    sys.exit(main())
