#!/usr/bin/python3 -IS
"""A stand-in for the program `warc`, so that the collection can be tried where the program wasn't built.

It reads plain records with CRLF and SHA-1 digests, and writes the lines that the collection asks for. It is no reading
of the format: what the program says is right, and the same tests run over the program where it is there.
"""
import base64
import hashlib
import re
import sys
from typing import Callable, Dict, Iterator, List, NamedTuple, Optional, Tuple, Union

FIRST = b"WARC/1.1\r\n"


class Record(NamedTuple):
    """A record: where it begins, its fields by their names, its head and its block."""

    at: int
    fields: Dict[bytes, bytes]
    head: bytes
    block: bytes

    def field(self, name: bytes) -> bytes:
        return self.fields.get(name, b"-")

    def verdict(self, name: bytes) -> bytes:
        """What a digest of the block is worth."""
        stated = self.field(name)
        if not stated.startswith(b"sha1:"):
            return b"unchecked"
        own = b"sha1:" + base64.b32encode(hashlib.sha1(self.block).digest())
        return b"good" if own == stated else b"bad"


def record_at(data: bytes, at: int) -> Optional[Record]:
    """The record at an offset, if there is one."""
    end = data.find(b"\r\n\r\n", at) + 4
    if not data.startswith(FIRST, at) or end < 4:
        return None
    pairs = (line.partition(b": ") for line in data[at:end].split(b"\r\n")[1:-2])
    fields = {name: value for name, _, value in pairs}
    length = fields.get(b"Content-Length", b"")
    stop = end + int(length) if length.isdigit() else len(data)
    if data[stop : stop + 4] != b"\r\n\r\n":
        return None
    return Record(at, fields, data[at:end], data[end:stop])


def pieces_of(data: bytes) -> Iterator[Union[Record, Tuple[int, int]]]:
    """The good records, and the places between them."""
    at = 0
    while at < len(data):
        found = record_at(data, at)
        if found is not None:
            yield found
            at += len(found.head) + len(found.block) + 4
            continue
        begin = at
        while at < len(data) and record_at(data, at) is None:
            at = data.find(FIRST, at + 1) if FIRST in data[at + 1 :] else len(data)
        yield begin, at


def put(line: bytes) -> None:
    sys.stdout.buffer.write(line)


def listed(records: List[Record]) -> None:
    for place, it in enumerate(records):
        words = it.field(b"WARC-Type"), it.field(b"WARC-Date"), it.field(b"WARC-Record-ID")
        put(b"%d\t%d\t%d\t%s\t" % (place, it.at, len(it.block), b"\t".join(words)))
        put(it.field(b"WARC-Target-URI") + b"\n")


def fixity(records: List[Record], name: bytes = b"WARC-Block-Digest", is_payload: bool = False) -> None:
    count = {b"good": 0, b"bad": 0, b"unchecked": 0}
    for place, it in enumerate(records):
        if is_payload and name not in it.fields:
            continue
        verdict, own = it.verdict(name), it.field(b"WARC-Record-ID")[1:-1]
        count[verdict] += 1
        reason = (b"-" if verdict == b"bad" else b"algorithm",) if is_payload else ()
        if verdict != b"good":
            put(b"%d\t" % place + b"\t".join((verdict, own, *reason, it.field(name))) + b"\n")
    put(b"records %d good %d bad %d unchecked %d\n" % (sum(count.values()), *count.values()))


def check(records: List[Record]) -> None:
    for place, it in enumerate(records):
        put(b"%d N4\n" % place if it.verdict(b"WARC-Block-Digest") == b"bad" else b"")


def summary(records: List[Record]) -> None:
    verdicts = [it.verdict(b"WARC-Block-Digest") for it in records]
    size = sum(len(it.head) + len(it.block) + 4 for it in records)
    put(b"records\t%d\ncaptures\t%d\nbytes\t%d\n" % (len(records), len(records), size))
    for verdict in (b"good", b"bad", b"unchecked"):
        put(verdict + b"\t%d\n" % verdicts.count(verdict))


def instant_of(date: bytes) -> bytes:
    """The instant of a date with seconds, in full."""
    return date[:-1].ljust(20, b".").ljust(29, b"0") + b"Z"


def captures(records: List[Record]) -> None:
    for place, it in enumerate(records):
        date = it.field(b"WARC-Date")
        words = date, instant_of(date), it.field(b"WARC-Type"), b"%d" % place, b"-", it.field(b"Content-Type")
        put(b"%d\t%s\t%d\t-\t%s\n" % (place, b"\t".join(words), len(it.block), it.field(b"WARC-Target-URI")))


PARTS: Dict[str, Callable[[List[Record]], None]] = {
    "list": listed,
    "fixity": fixity,
    "check": check,
    "summary": summary,
    "captures": captures,
}


def over_pieces(command: str, data: bytes) -> int:
    """`pieces` and `salvage --all`."""
    is_damaged = False
    for it in pieces_of(data):
        if isinstance(it, Record):
            size = len(it.head) + len(it.block) + 4
            put(b"records\t%d\t%d\t1\n" % (it.at, size) if command == "pieces" else data[it.at : it.at + size])
        else:
            is_damaged = True
            put(b"damage\t%d\t%d\tF1 Bad\n" % (it[0], it[1] - it[0]) if command == "pieces" else b"")
    return 2 if is_damaged else 0


def main(words: List[str]) -> int:
    """Does a command. Returns the exit status."""
    if words == ["--version"]:
        put(b"warc 0.3.0\n")
        return 0
    if words[0] == "instant":
        date = re.sub(rb"^(\d{4})$", rb"\1-01-01T00:00:00Z", words[2].encode())
        if not re.fullmatch(rb"\d{4}-\d\d-\d\dT\d\d:\d\d:\d\d(\.\d+)?Z", date):
            sys.stderr.write("warc: bad date\n")
            return 3
        put(instant_of(date) + b"\n")
        return 0
    data = sys.stdin.buffer.read()
    if words[0] in ("pieces", "salvage"):
        return over_pieces(words[0], data)
    records = list(pieces_of(data))
    for it in records:
        if not isinstance(it, Record):
            sys.stderr.write("warc: F1 Bad at %d\n" % it[0])
            return 2
    good = [it for it in records if isinstance(it, Record)]
    if words[0] == "survey":
        for name, part in PARTS.items():
            put(b"# %s\n" % name.encode())
            part(good)
        put(b"# payloads\n")
        fixity(good, b"WARC-Payload-Digest", True)
    elif words[0] in ("body", "head"):
        place = int(words[2])
        put(good[place].block if words[0] == "body" else good[place].head)
        if words[0] == "body":
            about = place, place, len(good[place].block)
            sys.stderr.write("warc: chosen %d given %d status - truncated no length %d\n" % about)
    elif words[:2] == ["fixity", "--payload"]:
        fixity(good, b"WARC-Payload-Digest", True)
    else:
        PARTS[words[0]](good)
    return 0


if __name__ == "__main__":
    sys.exit(main(sys.argv[1:]))
