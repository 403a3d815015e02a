"""Near URIs under which there are captures, for a reader to choose from: those with the same key in the form SURT, such
as by http and https. Nothing is guessed: an answer is for a URI byte for byte."""
from __future__ import annotations

import itertools
from typing import Any, Dict, Iterator, List, Optional, Sequence, Tuple

from .access import Access
from .captures import OF_TARGET
from .catalogue import Catalogue
from .keys import MOST_KEYED, key_of, number_of, usual_spellings
from .memento import path_of
from .texts import Stored

# Near URIs that are given, the targets that are looked at for them, and their captures that are counted.
MOST_NEAR, MOST_LOOKED_AT, MOST_COUNTED = 20, 60, 100
SPELLED = "SELECT target FROM spellings WHERE key = ? ORDER BY target LIMIT %d" % MOST_LOOKED_AT
COUNTED = "SELECT count(*), min(instant), max(instant) %s AND instant <= ?" % OF_TARGET
LAST = "(SELECT instant %s AND instant <= ? ORDER BY instant DESC LIMIT 1)" % OF_TARGET
COUNTED_TO = "SELECT count(*), min(instant), %s FROM (SELECT instant %s AND instant <= ? ORDER BY instant LIMIT %d)" % (
    *(LAST, OF_TARGET),
    MOST_COUNTED,
)
Found = Tuple[Stored, int, str, str]


def near_captures(catalogue: Catalogue, target: Stored, access: Access, address: str) -> List[Found]:
    """The near URIs that have captures which a reader may see: how many up to a number, the first and the last
    instant."""
    if len(target) > MOST_KEYED:
        return []
    key = key_of(target)
    spelled = (row[0] for row in catalogue.rows(SPELLED, (number_of(key),)))
    near = (it for it in itertools.chain(usual_spellings(key), spelled) if it != target)
    found = (of_target(catalogue, it, access, address, COUNTED_TO) for it in near)
    return list(itertools.islice((it for it in found if it is not None and key_of(it[0]) == key), MOST_NEAR))


def of_target(
    catalogue: Catalogue, target: Stored, access: Access, address: str, query: str = COUNTED
) -> Optional[Found]:
    """The captures of a target that a reader may see; None if there are none."""
    decision = access.decide(target, address)
    if decision.withheld() is not None:
        return None
    count, first, last = catalogue.one(query, (target, decision.last()) * (query.count("?") // 2))
    return (target, count, first, last) if count else None


def targets_below(catalogue: Catalogue, front: Stored, access: Access, address: str, most: int) -> Iterator[Found]:
    """The targets that begin with a text and have captures that a reader may see, in order. No more are looked at than
    twenty times as many as are wanted."""
    end = front + b"\xff" * 8 if isinstance(front, bytes) else front + "\U0010ffff"
    after, comparison, given = front, ">=", 0
    for _ in range(20):
        query = "SELECT DISTINCT target FROM captures WHERE target %s ? AND target < ? ORDER BY target LIMIT ?"
        rows = [row[0] for row in catalogue.rows(query % comparison, (after, end, most))]
        for found in (of_target(catalogue, it, access, address) for it in rows):
            if found is not None and given < most:
                given += 1
                yield found
        if len(rows) < most or given >= most:
            return
        after, comparison = rows[-1], ">"


def as_rows(found: Sequence[Found]) -> List[Dict[str, Any]]:
    """Targets and their captures, as JSON has them."""
    return [dict(zip(("path", "captures", "first", "last"), (path_of(it[0]), *it[1:]))) for it in found]
