#!/usr/bin/env python3
"""Compares the pieces that the library gives with those of the second reading, over small damaged archives.

Usage: cuts.py

Each archive of the suites' scripts of at most 900 bytes is cut at each length and followed by a good record. In each
of at most 1,000 bytes that has three records each byte is changed to 0, to LF, to 255, and by a bit.
"""
from __future__ import annotations

import io
import multiprocessing
import os
import sys
from typing import Iterator, List, Tuple

import archives
import zogwedu

sys.path.insert(0, os.path.join(os.path.dirname(os.path.dirname(os.path.abspath(__file__))), "reference"))
import warc_reference  # noqa: E402

AFTER = (
    b"WARC/1.0\r\nWARC-Type: resource\r\nWARC-Record-ID: <urn:x:after>\r\nWARC-Date: 2020\r\nContent-Length: 1\r\n\r\n"
    b"x\r\n\r\n"
)
MOST_SHOWN = 20


def line(piece: zogwedu.Piece) -> bytes:
    """A piece as `warc pieces` prints it."""
    if piece.fault is None:
        return b"records\t%d\t%d\t%d\n" % (piece.offset, piece.length, piece.count)
    return b"damage\t%d\t%d\t%s\n" % (piece.offset, piece.length, str(piece.fault).encode())


def is_same(data: bytes) -> bool:
    """Whether both find the same pieces."""
    own = b"".join(map(line, zogwedu.pieces(io.BytesIO(data))))
    return own == warc_reference.run("pieces", data, [])[0]


def cuts(data: bytes) -> Iterator[bytes]:
    """It is cut at each length, and a good record follows."""
    return (data[:length] + AFTER for length in range(len(data)))


def changes(data: bytes) -> Iterator[bytes]:
    """Each byte is another one."""
    for place, byte in enumerate(data):
        for other in {0, 10, 255, byte ^ 1} - {byte}:
            yield data[:place] + bytes([other]) + data[place + 1 :]


def has_three_records(data: bytes) -> bool:
    """Whether it is an archive of three records."""
    lines, _, status = warc_reference.run("list", data, [])
    return not status and lines.count(b"\n") == 3


def tried(work: Tuple[bytes, bool]) -> Tuple[int, List[bytes]]:
    """How many texts were compared, and those that differ."""
    data, is_changed = work
    texts = list(changes(data) if is_changed else cuts(data))
    return len(texts), [text for text in texts if not is_same(text)]


def main() -> None:
    """Compares, prints each difference, and last the counts."""
    given = set(archives.archives())
    work = [(data, False) for data in given if len(data) <= 900]
    work += [(data, True) for data in given if len(data) <= 1000 and has_three_records(data)]
    with multiprocessing.Pool() as pool:
        results = list(pool.imap_unordered(tried, work))
    different = [text for _, texts in results for text in texts]
    for text in different[:MOST_SHOWN]:
        print(text)
    print(f"cuts: {sum(count for count, _ in results)} texts, {len(different)} differences")
    sys.exit(1 if different else 0)


if __name__ == "__main__":
    main()
