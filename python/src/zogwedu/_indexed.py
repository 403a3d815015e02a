"""The captures of a file, for an index: where each is in the file, and what its heads say. No part is proved."""
import os
from typing import IO, Dict, Iterator, List, NamedTuple, Optional, Tuple

from ._archive import Archive, Record
from ._cdxj import Entry, facts_of
from ._members import GZIP, Damaged, Members, Note
from ._problems import CompressedError
from ._wacz import Package, Unpacked
from ._zip import BadZip

PIECE = 1 << 20
CAPTURES = ("response", "resource", "revisit")
# What follows the block of a record, and isn't counted in an index of a file that isn't compressed.
TAIL = 4


class Indexed(NamedTuple):
    """Captures of a file, and how many have no place of their own in it, since they share a member of gzip with another
    record, or are in several, or in frames of zstd; or in an archive of a package that has no members, or that the
    package compressed once more."""

    entries: List[Entry]
    left_out: int


# Members that hold something: where this ends, the offset and the length in the file, by where it begins.
Places = Dict[int, Tuple[int, int, int]]


def places_of(path: str, kind: Optional[str]) -> Places:
    """Where the members of a file lie that gzip wrote, or those in a package."""
    if kind not in ("gzip", "wacz"):
        return {}
    try:
        with open(path, "rb") as file:
            return places_in_package(file) if kind == "wacz" else places_in(file)
    except Damaged as damaged:
        raise CompressedError("the file changed while it was read", damaged.offset) from damaged
    except BadZip as bad:
        raise CompressedError("the file changed while it was read", bad.offset) from bad


def noting(found: Places, before: int = 0) -> Note:
    """Notes members before whose archive others hold some bytes."""

    def note(offset: int, end: int, begin: int, stop: int) -> None:
        if begin < stop:
            found[before + begin] = before + stop, offset, end - offset

    return note


def places_in(file: IO[bytes]) -> Places:
    found: Places = {}
    for _ in Members(iter(lambda: file.read(PIECE), b""), GZIP, noting(found)):
        pass
    return found


def places_in_package(file: IO[bytes]) -> Places:
    found: Places = {}
    before = 0
    package = Package(lambda count, offset: os.pread(file.fileno(), count, offset), os.fstat(file.fileno()).st_size)
    for entry in package.archives:
        before += sum(map(len, Unpacked(package.read, entry, noting(found, before))))
    return found


def spans_in(archive: Archive) -> Iterator[Tuple[Record, int, int]]:
    """The records of an archive, each with where it begins and ends."""
    before: Optional[Record] = None
    for record in archive:
        if before is not None:
            yield before, before.offset, record.offset
        before = record
    if before is not None:
        yield before, before.offset, archive.length


def indexed(path: str) -> Indexed:
    """The captures of a file that have targets."""
    entries, left_out, name = [], 0, os.path.basename(path)
    with Archive.open(path) as archive:
        places = places_of(path, archive.compressed)
        for record, begin, end in spans_in(archive):
            if record.type.lower() not in CAPTURES or record.target is None:
                continue
            stop, offset, length = places.get(begin, (end, begin, end - begin - TAIL))
            if stop != end or (archive.compressed and begin not in places):
                left_out += 1
                continue
            facts = facts_of(record.type, record.headers, record.http)
            entries.append(Entry(record.target, record.date, facts, offset, length, name))
    return Indexed(entries, left_out)
