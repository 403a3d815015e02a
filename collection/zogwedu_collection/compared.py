"""A reading of a file against the one before. Archives are written once: records are added to one that is being made,
and no record of a finished one changes. Where the records that were read before aren't the beginning of those that are
there now, the file is altered, until somebody accepts it."""
from __future__ import annotations

import dataclasses
import getpass
import os
from typing import Any, Iterator, Optional, Sequence, Set, Tuple

from .catalogue import OF_A_FILE, Catalogue
from .job import Outcome
from .keys import UNSPELL
from .lines import RecordRow, Sums, digest_rows, record_rows
from .parts import Parts
from .states import DAMAGED, READ
from .texts import counted, now, stored_path

BEFORE = (
    "SELECT records.position, at_offset, length, kind, date, records.id, target, hash, verdict FROM records"
    " LEFT JOIN digests ON digests.file = records.file AND digests.position = records.position"
    " WHERE records.file = ? ORDER BY records.position"
)
UNACCEPTED = ("altered", "rotten")
KEPT = "accepted_on, who, run, state, detail"
OF_BOTH = ("read_on", "size", "modified", "records", "found_sha256")


@dataclasses.dataclass
class Difference:
    """What differs from the reading before: its records, how many of them are missing or other, the position of the
    first one, and how many records follow them. What a repair adds to the records of a damaged file is no growth."""

    before: int = 0
    missing: int = 0
    other: int = 0
    first: int = 0
    more: int = 0
    is_growth: bool = True

    def add(self, position: int, is_missing: bool) -> None:
        if not self.missing + self.other:
            self.first = position
        self.missing += is_missing
        self.other += not is_missing

    def told(self) -> str:
        """A few words about it, or none where nothing is missing or other."""
        missing = self.missing and counted(self.missing, "is missing", "are missing")
        other = self.other and counted(self.other, "is other", "are other")
        parts = " and ".join(str(part) for part in (missing, other) if part)
        return parts and "of %s, %s, the first at position %d" % (counted(self.before, "record"), parts, self.first)


@dataclasses.dataclass(frozen=True)
class Now:
    """The records that are there now, with the positions of those whose blocks are bad and can't be checked."""

    records: Iterator[RecordRow]
    bad: Set[int]
    unchecked: Set[int]

    def is_same(self, before: Sequence[Any], it: RecordRow, has_place: bool) -> bool:
        """Whether a record is that of before. Where no hash was kept, its columns alone are compared. A verdict that
        nothing could be checked says nothing of the bytes, and another version of the program may check more."""
        there = [it.offset, it.length, it.kind, it.date, it.name, it.target]
        if list(before[1:7])[not has_place :] != there[not has_place :]:
            return False
        if before[7] is None or it.hash is None:
            return True
        if before[7] != it.hash or "unchecked" in (before[8], self.verdict(it.position)):
            return bool(before[7] == it.hash)
        return bool((before[8] == "bad") == (it.position in self.bad))

    def verdict(self, position: int) -> str:
        return "unchecked" if position in self.unchecked else "bad" if position in self.bad else "good"


def now_in(parts: Parts) -> Now:
    """What a job found of the records of a file."""
    rows = [(row.position, row.verdict) for row in digest_rows(0, parts)]
    bad = {position for position, verdict in rows if verdict == "bad"}
    return Now(record_rows(0, parts, Sums()), bad, {position for position, _ in rows} - bad)


def difference(catalogue: Catalogue, file: int, parts: Parts) -> Difference:
    """How the records that a job found differ from those of the reading before. Of a file that was damaged then, the
    good records have to be there in their order, since their places aren't those of the file."""
    was_damaged = catalogue.one("SELECT coalesce(damaged, 0) > 0 FROM readings WHERE file = ?", (file,))[0]
    before = catalogue.base.execute(BEFORE, (file,))
    return in_order(before, now_in(parts)) if was_damaged else one_by_one(before, now_in(parts))


def one_by_one(before: Iterator[Tuple[Any, ...]], there: Now) -> Difference:
    """The difference, record by record."""
    found = Difference()
    for row in before:
        it = next(there.records, None)
        found.before += 1
        if it is None or not there.is_same(row, it, True):
            found.add(row[0], it is None)
    found.more = sum(1 for _ in there.records)
    return found


def in_order(before: Iterator[Tuple[Any, ...]], there: Now) -> Difference:
    """The difference, where other records may be between those of before."""
    found = Difference(is_growth=False)
    for row in before:
        found.before += 1
        if not any(there.is_same(row, it, False) for it in there.records):
            found.add(row[0], True)
    found.more = sum(1 for _ in there.records)
    return found


def compare(catalogue: Catalogue, file: int, sha256: Optional[str], parts: Parts, outcome: Outcome) -> bool:
    """Corrects the state of a file by its reading before: altered, or grown where nothing else is to be said. Returns
    whether its records are those of before."""
    if outcome.has_rows():
        found = difference(catalogue, file, parts)
    elif outcome.state in DAMAGED and outcome.pieces is not None:
        count = catalogue.one("SELECT count(*) FROM records WHERE file = ?", (file,))[0]
        found = Difference(count, count)
    else:
        return False
    about = found.told()
    if not about and not found.more and None not in (sha256, outcome.sha256) and sha256 != outcome.sha256:
        about = "the same records in other bytes, as where it was compressed anew"
    if about:
        state = "" if outcome.state == "good" else "; %s: %s" % (outcome.state, outcome.detail)
        outcome.state, outcome.detail = "altered", about + state
    elif found.more and found.is_growth and outcome.state == "good":
        more = counted(found.more, "record") + " more"
        outcome.state, outcome.detail = "grown", "; ".join(filter(None, (more, outcome.detail)))
    return not about and not found.more


def who() -> str:
    """Who gives the command."""
    try:
        name = os.environ.get("SUDO_USER") or getpass.getuser()
    except (KeyError, OSError):
        name = "?"
    return "%s (%d)" % (name, os.getuid())


def accept(catalogue: Catalogue, path: str) -> bool:
    """Takes the new reading of a file for the right one. What both readings were stays known. False where there is no
    new reading that isn't accepted."""
    query = "SELECT file, state, detail, run FROM files WHERE path = ?"
    with catalogue.transaction():
        row = catalogue.one(query, (stored_path(path),))
        if row is None or row[1] not in UNACCEPTED:
            return False
        file, state, detail, run = row
        before, beside = reading_of(catalogue, file), reading_of(catalogue, -file)
        if beside is None:
            return False
        names = [name.replace("found_", "") for name in OF_BOTH]
        columns = ", ".join("%s_%s" % (name, when) for when in ("before", "now") for name in names)
        catalogue.base.execute(
            "INSERT INTO accepted (file, %s, %s) VALUES (%s)" % (KEPT, columns, ", ".join("?" * 16)),
            (file, now(), who(), run, state, detail, *(before or [None] * len(OF_BOTH)), *beside),
        )
        catalogue.base.execute("UPDATE stated SET accepted = found WHERE file = ? AND found <> digest", (file,))
        put_in_place(catalogue, file)
    return True


def reading_of(catalogue: Catalogue, file: int) -> Any:
    """The reading of a file, or the one beside it, which has its number with a minus sign."""
    return catalogue.one("SELECT %s FROM readings WHERE file = ?" % ", ".join(OF_BOTH), (file,))


def drop_beside(catalogue: Catalogue, file: int) -> None:
    """Drops the reading that is beside that of a file."""
    for table in (*OF_A_FILE, "readings"):
        catalogue.base.execute("DELETE FROM %s WHERE file = ?" % table, (-file,))


def put_in_place(catalogue: Catalogue, file: int) -> None:
    """Puts the reading that is beside that of a file in its place."""
    catalogue.base.execute(UNSPELL, (file, file) * 2)
    for table in (*OF_A_FILE, "readings"):
        catalogue.base.execute("DELETE FROM %s WHERE file = ?" % table, (file,))
        catalogue.base.execute("UPDATE %s SET file = ? WHERE file = ?" % table, (file, -file))
    state, detail, records, sha256 = catalogue.one(
        "SELECT found_state, found_detail, records, found_sha256 FROM readings WHERE file = ?", (file,)
    )
    assert state in (*READ, *DAMAGED)
    catalogue.base.execute(
        "UPDATE files SET state = ?, detail = ?, records = ?, sha256 = coalesce(?, sha256) WHERE file = ?",
        (state, detail, records, sha256, file),
    )
