"""Which records an answer needs, so that no others of their files are read.

What a capture gives depends on the records that it needs. With more records of the same files, in their order, it gives
the same. So each question here is asked too widely rather than too narrowly, and the program decides over what is
found.
"""
from __future__ import annotations

import collections
import dataclasses
import re
from typing import Any, Callable, Deque, Dict, List, Optional, Sequence, Set, Tuple

from .catalogue import Catalogue, Known
from .disk import Stamp
from .members import MOST_CONTINUATIONS, NoMember, Place, Row
from .program import BadDate, instant_of
from .states import READ
from .texts import Stored, Trouble, escaped, path_bytes

# The most records that are read in the place of whole files; of continuations there may be more, up to `MOST_BYTES`.
MOST_RECORDS = 256
MOST_BYTES = 64 << 20
# A longer record of a file that isn't compressed isn't copied: the file itself is opened.
MOST_COPIED = 16 << 20
UUID = re.compile(rb"urn:uuid:[0-9a-f]{8}(?:-[0-9a-f]{4}){3}-[0-9a-f]{12}", re.IGNORECASE)
NO_ID = re.compile(rb"[<> \t]")
# What a revisit names: the id, the target and the date of the record that it means.
Names = List[Optional[Stored]]
Found = Set[Tuple[int, int]]
# Bytes of an archive: the offset, and how many.
Span = Tuple[int, int]
Key = Tuple[Tuple[int, Optional[Stamp], Optional[Tuple[int, ...]]], ...]
NEXT = "(SELECT %s FROM records AS next WHERE next.file = records.file AND next.position = records.position + 1)"
# A member that ends where the next record's begins has no length of its own.
ROWS = (
    "SELECT position, at_offset, %s, length, kind, date, id, target, hash, packed_at,"
    " coalesce(packed_length, %s - packed_at), packed_crc FROM records WHERE file = ? AND "
    % (NEXT % "at_offset", NEXT % "packed_at")
)
# A response or a resource.
IS_STORED = "lower(kind) IN ('response', 'resource')"


def ids_like(name: Stored, is_indexed: bool = True) -> Tuple[str, List[bytes]]:
    """A query for the records with an id, and its values. Those with spaces within their brackets are found if these
    are indexed, as they are from the next run on. Two ids are the same if their bare texts are the same bytes, or the
    same UUID in any case, as the program compares them. SQLite's `lower` knows ASCII alone, and so has to Python's."""
    value = path_bytes(name)
    lower = value.lower()
    # Of a valid id, whose bare text has none of these, it takes away what isn't bare text.
    exactly = "" if UUID.fullmatch(value) else " AND trim(id, '<> \t') = +CAST(? AS TEXT)"
    query = "SELECT file, position FROM records WHERE %s = +CAST(? AS TEXT)" + exactly
    odd = "trim(id, '<>') <> trim(id, '<> \t') AND lower(trim(id, '<> \t'))"
    values = [lower] + ([value] if exactly else [])
    plain = query % "lower(trim(id, '<>'))"
    return (plain + " UNION ALL " + query % odd, values + values) if is_indexed else (plain, values)


@dataclasses.dataclass(frozen=True)
class Selection:
    """Records that make an archive: of each file all, or those of some rows, in their order."""

    files: Tuple[Known, ...]
    rows: Optional[Tuple[Tuple[Row, ...], ...]] = None

    def at(self, number: int, position: int) -> int:
        """Where in the archive a record of the file with this number is."""
        counts = self.counts()
        own = position if self.rows is None else [row.position for row in self.rows[number]].index(position)
        return sum(counts[:number]) + own

    def counts(self) -> List[int]:
        """How many records of each file are in the archive."""
        return [it.records for it in self.files] if self.rows is None else [len(it) for it in self.rows]

    def record_at(self, at: int) -> Tuple[Known, int]:
        """The file of a record of the archive, and its position there."""
        for number, (file, count) in enumerate(zip(self.files, self.counts())):
            if at < count:
                return file, at if self.rows is None else self.rows[number][at].position
            at -= count
        raise Trouble("a record is in none of the joined files")

    def size(self) -> int:
        """How many bytes some records have."""
        return sum(row.size() for rows in self.rows or () for row in rows)

    def in_file(self, spans: Sequence[Span]) -> Optional[List[Span]]:
        """Where spans of the archive of some records are in their file, if it is one that isn't compressed."""
        if self.rows is None or len(self.files) > 1 or any(row.place for row in self.rows[0]):
            return None
        found, at = [], 0
        for row in self.rows[0]:
            found += [(row.begin + it - at, count) for it, count in spans if at <= it < at + row.size()]
            at += row.size()
        return found

    def key(self) -> Key:
        """What the archive is known by: its files, as they were read, and which records of each it has."""
        if self.rows is None:
            return tuple((file.file, file.stamp, None) for file in self.files)
        places = (tuple(row.position for row in rows) for rows in self.rows)
        return tuple((file.file, file.stamp, place) for file, place in zip(self.files, places))


class Chooser:
    """Chooses the records that an answer needs. NoMember where they can't be read by themselves."""

    def __init__(self, catalogue: Catalogue, warc: str, named: Callable[[int, int], Names]) -> None:
        """`named` says what the revisit of a file and a position names."""
        self.catalogue = catalogue
        self.warc = warc
        self.named = named
        self.instants: Dict[str, Optional[str]] = {}

    def alone(self, known: Known, position: int) -> Selection:
        """One record."""
        return self.selection([known], {(known.file, position)})

    def given(self, known: Known, position: int) -> Selection:
        """A record that gives a body, and all that it may be joined with."""
        return self.selection([known], {(known.file, position)} | self.continuations([known]))

    def joined(self, files: Sequence[Known], file: int, position: int) -> Selection:
        """All that a capture of joined files may need, and what that needs."""
        found: Found = {(file, position)}
        waiting: Deque[Tuple[int, int]] = collections.deque(found)
        while waiting:
            new = self.meant(files, *waiting.popleft()) - found
            found |= new
            waiting.extend(new)
            if len(found) > MOST_RECORDS:
                raise NoMember("more than %d records may be needed" % MOST_RECORDS)
        return self.selection(files, found | self.continuations(files))

    def meant(self, files: Sequence[Known], file: int, position: int) -> Found:
        """The captures of files that a revisit may mean; of another capture none."""
        query = "SELECT target, instant FROM captures WHERE file = ? AND position = ? AND lower(kind) = 'revisit'"
        row = self.catalogue.one(query, (file, position))
        if row is None:
            return set()
        name, uri, date = self.named(file, position)
        instant = self.instant(date) if uri else None
        found = self.with_id(files, name) if name else set()
        if uri and instant:
            found |= self.captures(files, "target = ? AND instant = ? AND " + IS_STORED, (uri, instant))
        elif not name or NO_ID.search(path_bytes(name)):
            # It names nothing, and means a record with its target and its payload digest, which isn't later.
            found |= self.captures(files, "target = ? AND instant <= ? AND " + IS_STORED, row)
        return found

    def instant(self, date: Optional[Stored]) -> Optional[str]:
        """The instant of a date; None if it isn't one."""
        if not isinstance(date, str):
            return None
        if date not in self.instants:
            try:
                self.instants[date] = instant_of(self.warc, date)
            except BadDate:
                self.instants[date] = None
        return self.instants[date]

    def with_id(self, files: Sequence[Known], name: Stored) -> Found:
        """The captures with an id."""
        query, values = ids_like(name)
        return self.captures(files, "TRUE", values, "(%s) CROSS JOIN captures USING (file, position)" % query)

    def captures(self, files: Sequence[Known], condition: str, values: Sequence[Any], among: str = "captures") -> Found:
        """The captures of files that meet a condition, as many as may be read. Not all of a file are looked at."""
        words = among, condition, ", ".join("?" * len(files)), MOST_RECORDS + 1
        query = "SELECT file, position FROM %s WHERE %s AND +file IN (%s) LIMIT %d" % words
        rows = self.catalogue.rows(query, (*values, *(it.file for it in files)))
        return {(file, position) for file, position in rows}

    def continuations(self, files: Sequence[Known]) -> Found:
        """All continuations of files."""
        found = {(it.file, place) for it in files if self.is_segmented(it) for place in self.continuations_of(it)}
        if len(found) > MOST_CONTINUATIONS:
            raise NoMember("more than %d continuations may be needed" % MOST_CONTINUATIONS)
        return found

    def continuations_of(self, known: Known) -> List[int]:
        # By the index of continuations: not all records of the file are looked at.
        query = "SELECT position FROM records WHERE +file = ? AND lower(kind) = 'continuation' LIMIT ?"
        return [row[0] for row in self.catalogue.rows(query, (known.file, MOST_CONTINUATIONS + 1))]

    def is_segmented(self, known: Known) -> bool:
        """Whether a file has records with a segment number, as far as the catalogue knows."""
        query = "SELECT value FROM counts WHERE run = ? AND file = ? AND name = 'segmented'"
        return bool(self.catalogue.one(query, (known.read_run, known.file)) != ("0",))

    def selection(self, files: Sequence[Known], found: Found) -> Selection:
        """The archive of these records, in the order of their files."""
        rows = tuple(self.rows(it, sorted(position for file, position in found if file == it.file)) for it in files)
        of_series = len(found) > MOST_RECORDS
        if of_series and sum(row.read_size() for own in rows for row in own) > MOST_BYTES:
            raise NoMember("more than %d bytes would be read" % MOST_BYTES)
        return Selection(tuple(files), rows)

    def rows(self, known: Known, positions: Sequence[int]) -> Tuple[Row, ...]:
        """The records of a file at these positions."""
        if known.state not in READ or known.damaged or known.good_bytes is None:
            raise NoMember("the file isn't good")
        rows = rows_of(self.catalogue, known, positions, known.good_bytes)
        if any(row.hash is None or (row.place is None and row.size() > MOST_COPIED) for row in rows):
            raise NoMember("a record isn't known well enough, or is too long to be copied")
        return rows


def rows_of(catalogue: Catalogue, known: Known, positions: Sequence[int], whole: int) -> Tuple[Row, ...]:
    """The records of a file at these positions, as the catalogue has them. The file holds this number of bytes."""
    query = ROWS + "position IN (%s) ORDER BY position" % ", ".join("?" * len(positions))
    rows = tuple(row_of(row, whole) for row in catalogue.rows(query, (known.file, *positions)))
    if len(rows) != len(positions):
        raise Trouble("%s was read again: try again" % escaped(known.path))
    return rows


def row_of(columns: Sequence[Any], whole: int) -> Row:
    """A record as a row of ROWS has it, of a file that holds this number of bytes."""
    position, begin, end, length, kind, date, name, target, hashed, *place = columns
    words = [path_bytes(it) for it in (kind, date, name, "-" if target is None else target)]
    member = None if None in place else Place(*place)
    return Row(position, begin, whole if end is None else end, length, b"\t".join(words), hashed, member)
