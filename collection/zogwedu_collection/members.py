"""Members of gzip that hold one record each: where they lie, as a run notes it, and what they hold, as an answer reads
it, without the rest of their file."""
from __future__ import annotations

import array
import hashlib
import itertools
import os
import struct
from typing import IO, TYPE_CHECKING, Iterator, NamedTuple, Optional, Sequence

from .parts import HASH_DIGITS, MOST_HASHED
from .texts import Trouble

if TYPE_CHECKING:
    from zogwedu import _members
else:
    from . import _members

PIECE = 1 << 20
# How many bytes zlib is given at once.
STEP = 1 << 16
# How many members of a file are noted. Each takes 32 bytes of memory in a job, and 20 more if it holds a record alone.
MOST_NOTED = 1 << 22
# The most continuations that are read in the place of a whole file.
MOST_CONTINUATIONS = 1000
# A member ends with the CRC-32 of what it holds, and with its length.
CRC, FOOT = struct.Struct("<i"), 8
# A place as a job writes it, and what it writes for a record that no member holds alone.
PLACE, NO_PLACE = struct.Struct("<qqi"), (-1, 0, 0)
# What is noted after the last member.
NOWHERE = (1 << 63, 0, 0, 0)


class Place(NamedTuple):
    """A member of a file: where it begins, its length, and the CRC-32 of what it holds, as a signed number."""

    offset: int
    length: int
    crc: int


class Row(NamedTuple):
    """A record as the catalogue has it: its position, where it begins and ends in what its file holds, the length of
    its block, the words that `list` has of it, the hash of these and of its head, and the member that holds it alone,
    where there is one."""

    position: int
    begin: int
    end: int
    length: int
    words: bytes
    hash: Optional[str]
    place: Optional[Place]

    def size(self) -> int:
        return self.end - self.begin

    def read_size(self) -> int:
        """How many bytes of the file are read for it."""
        return self.size() if self.place is None else self.place.length


class NoMember(Trouble):
    """A record can't be read without the rest of its file, or too many would have to be. Whole files are read then."""


class Other(Exception):
    """The bytes of a record aren't those that a run read."""


class Noted:
    """Notes where the members of a file lie, while it is unpacked. Those that hold nothing are left out."""

    def __init__(self, file: IO[bytes]) -> None:
        self.file = file
        self.offsets, self.ends = array.array("q"), array.array("q")
        self.begins, self.stops = array.array("q"), array.array("q")

    def note(self, offset: int, end: int, begin: int, stop: int) -> None:
        """Notes a member, and which bytes of what the file holds are its own. zlib has judged its CRC."""
        if begin != stop and len(self.begins) < MOST_NOTED:
            self.offsets.append(offset)
            self.ends.append(end)
            self.begins.append(begin)
            self.stops.append(stop)

    def places(self, begins: Sequence[int], last_stop: int) -> bytearray:
        """Of each record the place of the member that holds it and no other bytes, as a job writes places. Each record
        stops where the next one begins."""
        places, file, none = bytearray(), self.file.fileno(), PLACE.pack(*NO_PLACE)
        members = zip(self.begins, self.stops, self.offsets, self.ends)
        held, until, offset, end = next(members, NOWHERE)
        for begin, stop in zip(begins, itertools.chain(itertools.islice(begins, 1, None), (last_stop,))):
            while held < begin:
                held, until, offset, end = next(members, NOWHERE)
            crc = os.pread(file, CRC.size, end - FOOT) if (held, until) == (begin, stop) else b""
            places += PLACE.pack(offset, end - offset, *CRC.unpack(crc)) if len(crc) == CRC.size else none
        return places


def place_of(places: bytearray, position: int) -> Optional[Place]:
    """The place of a record, as a job writes places."""
    place = PLACE.unpack_from(places, position * PLACE.size)
    return None if place == NO_PLACE else Place(*place)


def held_by(file: IO[bytes], place: Place, size: int) -> Iterator[bytes]:
    """What a member holds, in pieces, of which the last is given once all is as it was: its CRC, its length and that of
    what it holds. If not, Other is raised."""
    end, left, member, last = place.offset + place.length, size, _members.GZIP.begin(), b""
    if os.pread(file.fileno(), CRC.size, end - FOOT) != CRC.pack(place.crc):
        raise Other("the CRC of a member isn't that of before")
    for at in range(place.offset, end, STEP):
        data = bytes_from(file, at, min(STEP, end - at))
        if member.eof:
            raise Other("a member ends before it did")
        while data and not member.eof:
            yield last
            try:
                last = member.decompress(data, min(PIECE, left + 1))
            except _members.GZIP.error as error:
                raise Other(str(error)) from None
            left -= len(last)
            if left < 0:
                raise Other("a member holds more than before")
            data = member.unconsumed_tail
    if left or not member.eof or member.unused_data:
        raise Other("a member doesn't end where it did")
    yield last


def bytes_from(file: IO[bytes], at: int, count: int) -> bytes:
    """Bytes of a file from an offset on. Other where it ends before."""
    data = os.pread(file.fileno(), count, at)
    if len(data) != count:
        raise Other("the file ends within a record")
    return data


def record_at(file: IO[bytes], row: Row) -> Iterator[bytes]:
    """The bytes of a record, in pieces, by its member, or by its place in a file that isn't compressed. Other where
    they aren't those that a run read, as far as its hash and the CRC say it."""
    plain = (bytes_from(file, at, min(PIECE, row.end - at)) for at in range(row.begin, row.end, PIECE))
    pieces = plain if row.place is None else held_by(file, row.place, row.size())
    beside = min(max(row.size() - row.length, 0), MOST_HASHED)
    digest = hashlib.sha256(row.words + b"\n")
    for piece in pieces:
        digest.update(piece[:beside])
        beside -= min(len(piece), beside)
        yield piece
    if digest.hexdigest()[:HASH_DIGITS] != row.hash:
        raise Other("its head isn't the one of before")
