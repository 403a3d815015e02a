#!/usr/bin/env python3
"""Compares `warc fixity --payload` with what is known of crawls that shapes.py makes, whole and with one byte changed.

Usage: payloads.py PROGRAM

shapes.py states each payload digest by hashlib. So all payloads of a whole crawl are good, and requests are unchecked.
Then each byte of each body is changed in turn. The response and each revisit of it are bad; if the response has a
transfer coding, it is `coded`; and if it states a block digest by SHA-1 in base32, its replay gives no body, so the
revisit is unchecked.
"""

from __future__ import annotations

import os
import subprocess
import sys
import tempfile
from typing import Callable, Dict, List, NamedTuple, Tuple

import shapes

SECONDS = 60
BAD, CODED, REVISIT = ("bad", "-"), ("unchecked", "coded"), ("unchecked", "revisit")
Found = Dict[int, Tuple[str, str]]


class Shape(NamedTuple):
    """A crawl: its records, how many state a payload digest, the requests among them, and for each record whose body is
    changed where the body begins in its block, and what isn't good then."""

    records: Callable[[], List[bytes]]
    stated: int
    requests: Tuple[int, ...]
    changed: Dict[int, Found]


SHAPES = (
    Shape(shapes.heritrix, 3, (), {2: {2: BAD}, 5: {5: BAD, 8: BAD}}),
    Shape(shapes.warcprox, 3, (), {1: {1: BAD}, 2: {2: BAD, 3: BAD}}),
    Shape(shapes.browser, 6, (2, 4), {1: {1: BAD}, 3: {3: BAD, 6: BAD}, 5: {5: BAD}}),
    Shape(shapes.warcio, 3, (), {1: {1: CODED}, 2: {2: BAD, 3: REVISIT}}),
)


def told(program: str, path: str) -> Tuple[Found, List[int], int]:
    """What isn't good, the counts of the last line, and the status."""
    done = subprocess.run(
        [program, "fixity", "--payload", path], capture_output=True, text=True, timeout=SECONDS, check=False
    )
    *lines, last = done.stdout.splitlines() or [""]
    rows = [line.split("\t") for line in lines]
    return {int(row[0]): (row[1], row[3]) for row in rows}, [int(it) for it in last.split()[1::2]], done.returncode


def wanted(shape: Shape, found: Found) -> Tuple[Found, List[int], int]:
    """The same, if these payloads and the requests aren't good."""
    all_found = {**found, **{it: ("unchecked", "request") for it in shape.requests}}
    bad = sum(it == BAD for it in found.values())
    counts = [shape.stated, shape.stated - len(all_found), bad, len(all_found) - bad]
    return all_found, counts, 1 if bad else 4 if found else 0


def body_starts(record: bytes, is_response: bool) -> int:
    """Where the body begins in a record."""
    start = record.index(b"\r\n\r\n") + 4
    return record.index(b"\r\n\r\n", start) + 4 if is_response else start


def main(program: str) -> int:
    """Compares, and prints how many archives were tried and differ."""
    tried = differ = 0
    with tempfile.TemporaryDirectory() as folder:
        path = os.path.join(folder, "a.warc")

        def compare(shape: Shape, records: List[bytes], found: Found) -> None:
            nonlocal tried, differ
            with open(path, "wb") as file:
                file.write(b"".join(records))
            tried += 1
            given, right = told(program, path), wanted(shape, found)
            if given != right:
                differ += 1
                print(f"{shape.records.__name__} with {found}: {given}, and not {right}")

        for shape in SHAPES:
            records = shape.records()
            compare(shape, records, {})
            for position, found in shape.changed.items():
                record = records[position]
                for place in range(body_starts(record, b"\r\nWARC-Type: response\r\n" in record), len(record) - 4):
                    changed = record[:place] + bytes((record[place] ^ 1,)) + record[place + 1 :]
                    compare(shape, [*records[:position], changed, *records[position + 1 :]], found)
    print(f"payloads: {tried} archives, {differ} differ")
    return 1 if differ else 0


if __name__ == "__main__":
    sys.exit(main(os.path.abspath(sys.argv[1])))
