"""Which captures of a URI are listed: some thousands in a part, up to the last one that may be seen."""
from __future__ import annotations

import dataclasses
from typing import Any, Dict, Iterator, List, Optional, Tuple

from .access import Access, Withheld
from .captures import OF_TARGET, Capture, captures_where
from .catalogue import Catalogue
from .listing import capture_values
from .memento import Part, Parts, key_of, path_of
from .replay import is_unresolved
from .texts import Stored

PART = 10_000
# The most bytes that the URIs of a part may have, beside this many for each capture.
MOST_BYTES, FOR_EACH = 16 << 20, 400
# What is said of a capture in place of the reason if another file may have what its own lacks.
ELSEWHERE = "elsewhere"
WITHHELD = "withheld"
GIVEN = "SELECT target, instant FROM captures WHERE file = ? AND position = ?"
# By the form of a list: the columns that are one capture's key, and what compares keys. A list in JSON has each
# capture, the other one each instant.
COLUMNS = {"link": "DISTINCT instant", "json": "instant, captures.file, position"}
KEYS = {"link": ("instant", "?"), "json": ("(instant, captures.file, position)", "(?, ?, ?)")}
ORDERS = {"link": "instant%s", "json": "instant%s, captures.file%s, position%s"}
Key = Tuple[Any, ...]


@dataclasses.dataclass(frozen=True)
class Seen:
    """What a reader may see: by the access rules, and where the reader is."""

    access: Access
    address: Optional[str] = None

    def listed(self, catalogue: Catalogue, capture: Capture) -> Capture:
        """A capture as lists have it: a reason that another file may answer isn't one, and nothing is said of a record
        that it leads to and that the reader may not see."""
        if is_unresolved(capture.reason):
            return dataclasses.replace(capture, reason=ELSEWHERE)
        if capture.given in (None, capture.position):
            return capture
        row = catalogue.one(GIVEN, (capture.file, capture.given))
        if row is None or row[0] is None or self.withheld(row[0], row[1]) is None:
            return capture
        return dataclasses.replace(capture, given=None, status=None, media=None, length=None, reason=WITHHELD)

    def withheld(self, target: Stored, instant: str) -> Optional[Withheld]:
        """Why a capture isn't given."""
        return self.access.decide(target, self.address).withheld_of(instant)


@dataclasses.dataclass(frozen=True)
class Listing:
    """The captures of a target that may be seen, in a form of a list."""

    catalogue: Catalogue
    target: Stored
    form: str
    last: str
    seen: Seen

    def keys(self, comparison: str, key: Key, most: int) -> List[Key]:
        """The keys after a key (`>`), or those up to it backwards (`<=`), as many as are asked for."""
        condition = "AND instant <= ? AND %s %s %s" % (KEYS[self.form][0], comparison, KEYS[self.form][1])
        order = ORDERS[self.form].replace("%s", "" if comparison == ">" else " DESC")
        words = COLUMNS[self.form], OF_TARGET, condition, order
        return self.catalogue.rows("SELECT %s %s %s ORDER BY %s LIMIT ?" % words, (self.target, self.last, *key, most))

    def most(self) -> int:
        """How many captures are in a part: fewer if the target is long, since it is in each of their URIs."""
        return max(1, min(PART, MOST_BYTES // (FOR_EACH + len(path_of(self.target)))))

    def parts(self, key: Optional[Key]) -> Optional[Tuple[Parts, List[Key]]]:
        """The part after a key, or the first one, with the keys of its captures; None if there is no capture in it."""
        begin = key or ("",) if self.form == "link" else key or ("", 0, 0)
        most = self.most()
        own = self.keys(">", begin, most)
        if not own:
            return None
        before = self.keys("<=", begin, most + 1) if key else []
        after = self.keys(">", own[-1], most) if len(own) == most else []
        sides = Part(self.key_text(before[most : most + 1]), before[:most][-1][0], before[0][0]) if before else None
        following = Part(key_of(*own[-1]), after[0][0], after[-1][0]) if after else None
        return Parts(Part(self.key_text([key] if key else []), own[0][0], own[-1][0]), sides, following), own

    def key_text(self, keys: List[Key]) -> str:
        return key_of(*keys[0]) if keys else ""

    def captures(self, keys: List[Key]) -> Iterator[Tuple[str, Dict[str, Any]]]:
        """The captures of a part, with what the catalogue has of each."""
        name, marks = KEYS["json"]
        condition = "target = ? AND %s BETWEEN %s AND %s ORDER BY %s" % (name, marks, marks, ORDERS["json"])
        found = captures_where(self.catalogue, condition.replace("%s", ""), (self.target, *keys[0], *keys[-1]))
        seen = (self.seen.listed(self.catalogue, it) for it in found)
        return ((it.instant, dict(capture_values(it), mark=it.mark())) for it in seen)
