"""Captures over all files: which there are of a URI, and which files may have more that can't be given."""
from __future__ import annotations

import dataclasses
from typing import Any, Iterator, List, Optional, Sequence, Tuple

from .catalogue import ABOUT_ROWS, Catalogue, Known, mark_of
from .program import instant_of
from .states import READ, as_list
from .texts import Stored, Trouble, decoded, escaped, say, stored_path

MOST_NAMED = 20
# The files that captures are given of. An altered one doesn't have the records that were read, or isn't accepted yet.
GIVES = "state NOT IN ('gone', 'altered')"
CAPTURES = (
    "SELECT captures.file, position, instant, kind, given, status, media, length, reason, path, state, read_on, %s"
    " FROM captures JOIN files USING (file) LEFT JOIN readings USING (file) WHERE %s AND " % (ABOUT_ROWS, GIVES)
)
OF_TARGET = "FROM captures JOIN files USING (file) WHERE %s AND target = ?" % GIVES
LATEST = "(SELECT instant %s AND instant <= ? ORDER BY instant DESC LIMIT 1)" % OF_TARGET
# Of captures of one target and one instant in one file the program chooses the last one.
IS_LAST = (
    "position = (SELECT max(position) FROM captures AS other WHERE other.target = captures.target"
    " AND other.instant = captures.instant AND other.file = captures.file)"
)


@dataclasses.dataclass(frozen=True)
class Capture:
    """A line of `captures`, with the file that it is in, the file's state and when it was read, how many of its bytes
    are damaged, and whether it was read so since it changed."""

    file: int
    position: int
    instant: str
    kind: Stored
    given: Optional[int]
    status: Optional[int]
    media: Optional[Stored]
    length: Optional[int]
    reason: Optional[str]
    path: Stored
    state: str
    read_on: Optional[str]
    damaged: int = 0
    is_fresh: bool = True

    def mark(self) -> Optional[str]:
        """Whether the file is damaged, and when it was read, if it couldn't be read since."""
        return mark_of(self.damaged, self.is_fresh, self.read_on)


@dataclasses.dataclass(frozen=True)
class Request:
    """What is asked for: a URI, or one in hexadecimal digits, and a date."""

    uri: str
    is_hex: bool
    date: Optional[str]

    def target(self) -> Stored:
        """The target as the catalogue keeps it."""
        if not self.is_hex:
            return stored_path(self.uri)
        try:
            return decoded(bytes.fromhex(self.uri))
        except ValueError:
            raise Trouble("bad hexadecimal digits") from None


def captures_where(catalogue: Catalogue, condition: str, values: Sequence[Any]) -> List[Capture]:
    return [Capture(*row) for row in catalogue.rows(CAPTURES + condition, values)]


def captures_of(catalogue: Catalogue, target: Stored, instant: Optional[str] = None) -> List[Capture]:
    """The captures of a target: all by their instants, or of the latest instant that isn't after one the last one of
    each file."""
    if instant is None:
        return captures_where(catalogue, "target = ? ORDER BY instant, path, position", (target,))
    condition = "target = ? AND instant = %s AND %s ORDER BY path" % (LATEST, IS_LAST)
    return captures_where(catalogue, condition, (target, target, instant))


def chosen_captures(catalogue: Catalogue, request: Request, warc: Optional[str]) -> List[Capture]:
    """The captures of the latest instant that isn't after the date asked for."""
    instant = instant_of(warc, request.date) if warc is not None and request.date is not None else None
    return captures_as_of(catalogue, request.target(), instant)


def captures_as_of(catalogue: Catalogue, target: Stored, instant: Optional[str]) -> List[Capture]:
    """The captures of a target of the latest instant that isn't after one; all without one. A Trouble says why there is
    none."""
    found = captures_of(catalogue, target, instant)
    if found:
        return found
    if captures_where(catalogue, "target = ? LIMIT 1", (target,)):
        raise Trouble("P2 NotYet", 1)
    raise Trouble("P1 NoCapture", 1)


def end_instant(catalogue: Catalogue, target: Stored, order: str, condition: str = "", *values: str) -> Optional[str]:
    """The first or the last instant (order ASC or DESC) of the captures of a target, of those that meet a condition."""
    query = "SELECT instant %s %s ORDER BY instant %s LIMIT 1" % (OF_TARGET, condition, order)
    row = catalogue.one(query, (target, *values))
    return None if row is None else str(row[0])


def next_instants(catalogue: Catalogue, target: Stored, after: str, most: int) -> List[str]:
    """The instants of the captures of a target after one, each once, as many as are asked for."""
    query = "SELECT DISTINCT instant %s AND instant > ? ORDER BY instant LIMIT ?" % OF_TARGET
    return [row[0] for row in catalogue.rows(query, (target, after, most))]


def captures_at(catalogue: Catalogue, target: Stored, instant: str) -> List[Capture]:
    """The captures of a target of just this instant, the last one of each file."""
    return captures_where(catalogue, "target = ? AND instant = ? AND %s ORDER BY path" % IS_LAST, (target, instant))


def captures_after(catalogue: Catalogue, target: Stored, last: Tuple[str, int, int], most: int) -> List[Capture]:
    """The captures of a target by instant, file and position, after one that has these; as many as are asked for."""
    condition = (
        "target = ? AND (instant, captures.file, position) > (?, ?, ?)"
        " ORDER BY instant, captures.file, position LIMIT ?"
    )
    return captures_where(catalogue, condition, (target, *last, most))


def targets_from(catalogue: Catalogue, front: Stored, most: int) -> List[Tuple[Stored, int, str, str]]:
    """The targets that begin with a text, with how many captures each has, the first and the last instant; as many as
    are asked for."""
    after = front + b"\xff" * 8 if isinstance(front, bytes) else front + "\U0010ffff"
    query = (
        "SELECT target, count(*), min(instant), max(instant) FROM captures JOIN files USING (file)"
        " WHERE %s AND target >= ? AND target < ? GROUP BY target ORDER BY target LIMIT ?" % GIVES
    )
    return [(row[0], row[1], row[2], row[3]) for row in catalogue.rows(query, (front, after, most))]


def may_have(catalogue: Catalogue, target: Stored) -> List[Known]:
    """The files that may have a target, and whose captures of it aren't known or aren't those of its bytes now."""
    has_it = "EXISTS (SELECT 1 FROM captures WHERE captures.file = files.file AND target = ?)"
    # The file has the size and the time of its last good reading, and the target isn't among what was read, all of it.
    is_same = "(readings.size, readings.modified) IS (files.size, files.modified) AND state IN ('failed', 'no-room')"
    is_same += " AND coalesce(damaged, 0) = 0"
    condition = "state NOT IN (%s) AND (%s OR (state <> 'gone' AND NOT (%s))) ORDER BY path" % (
        as_list(READ),
        has_it,
        "readings.run IS NOT NULL AND " + is_same,
    )
    return catalogue.files_where(condition, (target,))


def warn_of_unknown(catalogue: Catalogue, target: Stored) -> None:
    """Names the files that may have captures of a target that can't be given."""
    for line in unknown_files(catalogue, target):
        say(line)


def unknown_files(catalogue: Catalogue, target: Stored) -> Iterator[str]:
    """A line for each file that may have captures of a target that can't be given."""
    unknown = may_have(catalogue, target)
    for it in unknown[:MOST_NAMED]:
        read = ", read on %s" % it.read_on if it.read_on else ""
        yield "may have it: %s (%s%s%s)" % (escaped(it.path), it.state, it.detail and ": " + escaped(it.detail), read)
    if len(unknown) > MOST_NAMED:
        yield "and %d files more that may have it (see warc-collection status)" % (len(unknown) - MOST_NAMED)
