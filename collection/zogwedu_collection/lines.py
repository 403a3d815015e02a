"""What the program wrote of a file, line by line, as rows for the catalogue. Rows are tuples, as SQLite takes them."""
from __future__ import annotations

import collections
import dataclasses
import functools
import itertools
import urllib.parse
from typing import Counter, Iterator, List, NamedTuple, Optional, Tuple

from .members import NO_PLACE, PLACE
from .parts import Parts
from .texts import Stored, decoded

WEB_SCHEMES = ("http", "https", "ftp")
# The last columns of a row of `list`.
Columns = Tuple[Optional[int], Optional[int], Optional[int]]
NO_COLUMNS: Columns = (None, None, None)


class RecordRow(NamedTuple):
    """A line of `list`. There is no length of a member that ends where the next record's begins."""

    file: int
    position: int
    offset: int
    length: int
    kind: Stored
    date: Stored
    name: Stored
    target: Optional[Stored]
    hash: Optional[str]
    packed_at: Optional[int] = None
    packed_length: Optional[int] = None
    packed_crc: Optional[int] = None


class CaptureRow(NamedTuple):
    """A line of `captures`."""

    file: int
    position: int
    date: Stored
    instant: Stored
    kind: Stored
    given: Optional[int]
    status: Optional[int]
    media: Optional[Stored]
    length: Optional[int]
    reason: Optional[Stored]
    target: Optional[Stored]


class DigestRow(NamedTuple):
    """A line of `fixity`."""

    file: int
    position: int
    verdict: Stored
    name: Stored
    digest: Optional[Stored]


class PayloadRow(NamedTuple):
    """A line of `fixity --payload`."""

    file: int
    position: int
    verdict: Stored
    name: Stored
    reason: Optional[Stored]
    digest: Stored


class Payloads(NamedTuple):
    """How many payloads have their digests, can't be checked and don't have them, as the last line of `fixity
    --payload` says. Payloads of requests are among those that can't be checked."""

    good: int
    unchecked: int
    bad: int


class FindingRow(NamedTuple):
    """A line of `check`."""

    file: int
    line: int
    position: Optional[int]
    finding: Stored
    field: Optional[Stored]


@dataclasses.dataclass
class Sums:
    """Sums over the records of a file by year and kind, and over its captures by host, for the report."""

    years: Counter[Tuple[bytes, bytes]] = dataclasses.field(default_factory=collections.Counter)
    year_bytes: Counter[Tuple[bytes, bytes]] = dataclasses.field(default_factory=collections.Counter)
    hosts: Counter[str] = dataclasses.field(default_factory=collections.Counter)
    host_bytes: Counter[str] = dataclasses.field(default_factory=collections.Counter)


def blank(value: bytes) -> Optional[Stored]:
    """The text of a column, or None for the `-` of a value that isn't there."""
    return None if value == b"-" else decoded(value)


def number(value: bytes) -> Optional[int]:
    return None if value == b"-" else int(value)


def list_columns(line: bytes) -> List[bytes]:
    """The columns of a line of `list`. An id may hold a tab inside its brackets, and a target may hold tabs."""
    *first, rest = line.split(b"\t", 5)
    if rest.startswith(b"<"):
        name, _, target = rest.partition(b">\t")
        return [*first, name + b">", target]
    name, _, target = rest.partition(b"\t")
    return [*first, name, target]


def record_rows(file: int, parts: Parts, sums: Sums) -> Iterator[RecordRow]:
    """The rows of `list`, each with the hash of its record and the member that holds it alone, where the job wrote
    these."""
    hashes, has_hashes, places = parts.lines("hashes"), parts.has("hashes"), short_places(parts)
    for line in parts.lines("list"):
        position, offset, length, kind, date, name, target = list_columns(line)
        key = date[:4], kind.lower()
        sums.years[key] += 1
        sums.year_bytes[key] += int(length)
        texts = decoded(kind), decoded(date), decoded(name), blank(target)
        hashed = next(hashes, None)
        if hashed is None and has_hashes:
            raise ValueError("a record without a hash")
        own = None if hashed is None else hashed.decode("ascii")
        yield RecordRow(file, int(position), int(offset), int(length), *texts, own, *next(places, NO_COLUMNS))


def short_places(parts: Parts) -> Iterator[Columns]:
    """The places of the records as the catalogue has them, which leaves out a length that the next place says."""
    places = parts.rows("places", PLACE)
    offset, length, crc = next(places, NO_PLACE)
    for after in itertools.chain(places, (NO_PLACE,)):
        is_followed = offset + length == after[0]
        yield NO_COLUMNS if offset < 0 else (offset, None if is_followed else length, crc)
        offset, length, crc = after


def capture_rows(file: int, parts: Parts, sums: Sums) -> Iterator[CaptureRow]:
    """The rows of `captures`."""
    for line in parts.lines("captures"):
        position, date, instant, kind, given, status, media, length, reason, uri = line.split(b"\t", 9)
        target, size = blank(uri), number(length)
        host = host_of(target) if isinstance(target, str) else "-"
        sums.hosts[host] += 1
        sums.host_bytes[host] += size or 0
        about = decoded(date), decoded(instant), decoded(kind), number(given), number(status), blank(media)
        yield CaptureRow(file, int(position), *about, size, blank(reason), target)


def digest_rows(file: int, parts: Parts) -> Iterator[DigestRow]:
    """The rows of `fixity`. Its last line counts all records, and has no tab."""
    for line in parts.lines("fixity"):
        if b"\t" in line:
            position, verdict, name, digest = line.split(b"\t", 3)
            yield DigestRow(file, int(position), decoded(verdict), decoded(name), blank(digest))


def payload_columns(line: bytes) -> List[bytes]:
    """The columns of a line of `fixity --payload`. A digest may hold tabs."""
    return line.split(b"\t", 4)


def payload_rows(file: int, parts: Parts) -> Iterator[PayloadRow]:
    """The rows of `fixity --payload`, but for requests, whose payloads are never judged."""
    for line in parts.lines("payloads"):
        if b"\t" in line:
            position, verdict, name, reason, digest = payload_columns(line)
            if reason != b"request":
                yield PayloadRow(file, int(position), decoded(verdict), decoded(name), blank(reason), decoded(digest))


def payloads_of(parts: Parts) -> Payloads:
    """What the last line of `fixity --payload` counts. A ValueError where the lines before it aren't as many."""
    last, lines = b"", -1
    for last in parts.lines("payloads"):
        lines += 1
    names = last.split(b" ")
    if names[::2] != [b"records", b"good", b"bad", b"unchecked"] or b"\t" in last:
        raise ValueError("no counts of payloads")
    records, good, bad, unchecked = map(int, names[1::2])
    if lines != bad + unchecked or records != good + bad + unchecked:
        raise ValueError("%d payloads aren't good, and their counts are %r" % (lines, last))
    return Payloads(good, unchecked, bad)


def finding_rows(file: int, parts: Parts) -> Iterator[FindingRow]:
    """The rows of `check`."""
    for place, line in enumerate(parts.lines("check")):
        position, finding, *field = line.split(b" ", 2)
        yield FindingRow(file, place, number(position), decoded(finding), decoded(field[0]) if field else None)


def host_of(target: str) -> str:
    """The host of a target of the web, in lower case; for another target its scheme."""
    return host_before_path("/".join(target.split("/", 3)[:3]))


@functools.lru_cache(maxsize=100_000)
def host_before_path(target: str) -> str:
    try:
        parts = urllib.parse.urlsplit(target)
        host = parts.hostname if parts.scheme in WEB_SCHEMES else None
        return host or (parts.scheme + ":" if parts.scheme else "-")
    except ValueError:
        return "-"
