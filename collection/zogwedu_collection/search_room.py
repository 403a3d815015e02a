"""What a reader of the room finds without knowing a URI: pages by their words, hosts, and the pages of a host as a tree
of paths. What is withheld is in no answer, and no number counts it."""
from __future__ import annotations

import re
import threading
import time
import urllib.parse
from typing import Any, Dict, Iterator, Optional, Tuple

from .access import ALWAYS, Access
from .captures import GIVES
from .catalogue import Catalogue
from .desks import name_of
from .memento import path_of
from .near import of_target
from .program import BadDate, instant_of
from .query import BadQuery, query_of
from .responses import Refusal
from .search import FIRST, LAST, Filters, Hit, Search, searching, unread, words_without_texts
from .search_command import hit_values, shown_text
from .search_index import path_in
from .search_options import DEFAULT_HITS, MOST_HITS
from .shelf import PATIENCE_SECONDS
from .texts import Stored, Trouble
from .timemaps import Seen

AT_ONCE = 2  # searches
MOST_OF_QUERY = 20_000  # signs of the path of a request
MOST_OF_DATE = 100
MOST_PERIODS = 50
NAMES = ("q", "host", "type", "from", "before", "most", "after")
NO_INDEX = "there is no index of texts here"
# Hosts and paths in one answer, the targets that are looked at for it, and the seconds that it takes.
MOST_HOSTS, MOST_BRANCHES, MOST_TARGETS, SECONDS = 500, 500, 500_000, 2.0
KEPT_SECONDS = 60.0
ORIGIN = re.compile(r"[A-Za-z][A-Za-z0-9+.-]*:(?://[^/?#]*)?")
STEP = re.compile(r"[^/?]*[/?]?", re.DOTALL)
NEXT = "SELECT target FROM captures WHERE target >= ? ORDER BY target LIMIT 1"
SUMS = (
    "SELECT target, count(*), min(instant), max(instant) FROM captures JOIN files USING (file)"
    " WHERE %s AND target >= ? AND target < ? GROUP BY target ORDER BY target LIMIT ?" % GIVES
)
Sums = Tuple[int, int, str, str]


def has_index(folder: str) -> bool:
    """Whether there is an index."""
    try:
        with open(path_in(folder), "rb"):
            return True
    except OSError:
        return False


# Pages by their words


def fields_of(text: str) -> Dict[str, str]:
    """The fields of a question, each given once. Bytes that are no UTF-8 separate words."""
    if len(text) > MOST_OF_QUERY:
        raise Refusal(414, "the question is too long")
    try:
        pairs = urllib.parse.parse_qsl(text, keep_blank_values=True, errors="replace", max_num_fields=len(NAMES))
    except ValueError:
        raise Refusal(400, "too many fields") from None
    fields = dict(pairs)
    if len(fields) < len(pairs) or not set(fields) <= set(NAMES):
        raise Refusal(400, "the fields are %s, each at most once" % ", ".join(NAMES))
    return fields


def number_in(fields: Dict[str, str], name: str, default: int, least: int) -> int:
    """A number of a field."""
    text = fields.get(name, str(default))
    if not re.fullmatch(r"\d{1,4}", text, re.ASCII) or not least <= int(text) <= MOST_HITS:
        raise Refusal(400, "%s is a number from %d to %d" % (name, least, MOST_HITS))
    return int(text)


def instant_in(warc: str, fields: Dict[str, str], name: str, other: str) -> str:
    """The first instant of what a date names."""
    date = fields.get(name, "")
    if not date:
        return other
    if not date.isascii() or len(date) > MOST_OF_DATE:
        raise Refusal(400, "bad date")
    try:
        return instant_of(warc, date)
    except BadDate as error:
        raise Refusal(400, str(error)) from None


class Finder:
    """Answers searches, no more at once than some."""

    def __init__(self, folder: str, warc: str, has_paths: bool) -> None:
        self.folder = folder
        self.warc = warc
        self.has_paths = has_paths
        self.free = threading.BoundedSemaphore(AT_ONCE)

    def has_index(self) -> bool:
        return has_index(self.folder)

    def answer(self, text: str, seen: Seen) -> Dict[str, Any]:
        """The answer to a question, as JSON has it."""
        fields = fields_of(text)
        if not self.has_index():
            raise Refusal(404, NO_INDEX)
        try:
            query = query_of(fields.get("q", ""))
        except BadQuery as error:
            raise Refusal(400, str(error)) from None
        if not self.free.acquire(timeout=PATIENCE_SECONDS):
            raise Trouble("too many searches at once: try again")
        try:
            filters = self.filters(fields)
            with searching(self.folder) as catalogue:
                found = Search(catalogue, query, filters, seen).found()
                is_open = not seen.access.uris and not seen.access.hosts
                missing = words_without_texts(catalogue, query) if is_open and not found.hits else []
                left = unread(catalogue)[0]
        finally:
            self.free.release()
        more = filters.after + filters.most if found.is_more else None
        hits = [self.values(hit) for hit in found.hits]
        about = {"most": filters.most, "more": more, "left_out": found.left_out, "unread": left, "missing": missing}
        return {"words": query.words(), "found": hits, **about}

    def filters(self, fields: Dict[str, str]) -> Filters:
        """What the fields say of captures."""
        begin, end = (instant_in(self.warc, fields, *it) for it in (("from", FIRST), ("before", LAST)))
        most, after = number_in(fields, "most", DEFAULT_HITS, 1), number_in(fields, "after", 0, 0)
        return Filters(fields.get("host") or None, fields.get("type") or None, begin, end, most, after)

    def values(self, hit: Hit) -> Dict[str, Any]:
        """A hit as the room gets it: without all of its captures."""
        values = hit_values(hit, lambda it: [shown_text(self.named(it.path)), it.position, it.instant])
        del values["captures"]
        return dict(values, periods=values["periods"][:MOST_PERIODS], in_periods=len(hit.periods))

    def named(self, path: Stored) -> Stored:
        return path if self.has_paths else name_of(path)


# Hosts and paths


class Overview:
    """What there is of targets, as far as a reader may see it. It ends by the clock."""

    def __init__(self, catalogue: Catalogue, seen: Seen) -> None:
        self.catalogue = catalogue
        self.seen = seen
        self.end = time.monotonic() + SECONDS
        self.left = MOST_TARGETS

    def is_over(self) -> bool:
        return self.left <= 0 or time.monotonic() > self.end

    def targets(self, front: str, end: str) -> Iterator[Tuple[str, Sums]]:
        """The targets from one text up to another, each with what is to be seen of it: how many captures it has, the
        first and the last instant."""
        rows = self.catalogue.base.execute(SUMS, (front, end, self.left))
        for target, count, first, last in rows:
            self.left -= 1
            found = self.sums_of(target, count, first, last)
            if found is not None:
                yield target, found
            if self.is_over():
                return

    def sums_of(self, target: str, count: int, first: str, last: str) -> Optional[Sums]:
        """What a reader may see of a target."""
        decision = self.seen.access.decide(target, self.seen.address)
        if decision.rule is None or (decision.withheld() is None and decision.last() == ALWAYS):
            return 1, count, first, last
        there = of_target(self.catalogue, target, self.seen.access, self.seen.address or "")
        return None if there is None else (1, *there[1:])

    def origins(self) -> Dict[str, Sums]:
        """The hosts with their schemes, and the schemes without hosts: how many URIs and captures are to be seen of
        each, and between which instants."""
        made: Dict[str, Sums] = {}
        at = ""
        while len(made) <= MOST_HOSTS and not self.is_over():
            row = self.catalogue.one(NEXT, (at,))
            if row is None or not isinstance(row[0], str):  # bytes that are no text come last
                return made
            found = ORIGIN.match(row[0])
            origin = found[0] if found else ""
            front, at = range_of(row[0], origin)
            for _, sums in self.targets(front, at):
                made[origin] = added(made.get(origin), sums)
        self.left = 0
        return made

    def branches(self, front: str) -> Dict[str, Sums]:
        """The targets that begin with a text, by what follows it up to the next slash or question mark."""
        made: Dict[str, Sums] = {}
        for target, sums in self.targets(front, front + "\U0010ffff"):
            found = STEP.match(target, len(front))
            branch = front + (found[0] if found else "")
            if branch not in made and len(made) == MOST_BRANCHES:
                self.left = 0
                break
            made[branch] = added(made.get(branch), sums)
        return made

    def answer(self, made: Dict[str, Sums]) -> Dict[str, Any]:
        """Targets and their numbers, as JSON has them, and whether there may be more."""
        names = ("path", "uris", "captures", "first", "last")
        found = [dict(zip(names, (path_of(front), *sums))) for front, sums in made.items()]
        return {"found": found, "more": self.is_over()}


def range_of(target: str, origin: str) -> Tuple[str, str]:
    """Targets of an origin from one on, as many as follow each other in order; and where they end."""
    if target.startswith(origin + "/") and origin:
        return target, origin + "0"
    if origin and "//" not in origin:
        return target, origin[:-1] + ";"
    return target, target + "\0"


def added(one: Optional[Sums], other: Sums) -> Sums:
    """The sums of both."""
    if one is None:
        return other
    return one[0] + other[0], one[1] + other[1], min(one[2], other[2]), max(one[3], other[3])


class Hosts:
    """The hosts, as far as a reader may see them. They are on the first screen, so an answer serves all readers of the
    same kind for a minute."""

    def __init__(self) -> None:
        self.kept: Dict[bool, Tuple[float, Access, Dict[str, Any]]] = {}

    def answer(self, catalogue: Catalogue, seen: Seen) -> Dict[str, Any]:
        """The answer for a reader."""
        is_on_site, now = seen.access.is_on_site(seen.address), time.monotonic()
        kept = self.kept.get(is_on_site)
        if kept is not None and kept[1] is seen.access and now - kept[0] < KEPT_SECONDS:
            return kept[2]
        overview = Overview(catalogue, seen)
        made = overview.answer(overview.origins())
        self.kept[is_on_site] = now, seen.access, made
        return made


def tree_answer(catalogue: Catalogue, seen: Seen, front: Stored) -> Dict[str, Any]:
    """What comes next after a text, as far as a reader may see it."""
    overview = Overview(catalogue, seen)
    return overview.answer(overview.branches(front) if isinstance(front, str) else {})
