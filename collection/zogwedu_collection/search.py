"""Which pages have words, and when they had them. A finding aid: what a page gives, `replay` and the server say."""
from __future__ import annotations

import contextlib
import dataclasses
import os
import sqlite3
import time
import urllib.parse
from typing import Any, Dict, Iterator, List, Optional, Sequence, Set, Tuple

from .access import one_host
from .catalogue import ABOUT_ROWS, Catalogue, mark_of, whole
from .query import Query
from .search_options import DEFAULT_HITS
from .search_index import (
    FAR,
    NO_INDEX,
    NO_RECORD,
    OF_SCANNER,
    SAME_READING,
    check_version,
    path_in,
    short,
    unpacked_text,
)
from .snippets import Mark, snippet_of
from .texts import Stored, Trouble, shown
from .timemaps import Seen

MOST_SCORED = 500_000  # texts
MOST_OF_HOST = 50_000  # captures of a host whose texts are looked up first
MOST_CAPTURES = 10_000  # of a URI that are looked at
SECONDS = 3.0
STEPS = 200  # of SQLite between two looks at the clock
TITLE_WEIGHT, TEXT_WEIGHT = 8.0, 1.0
FIRST_BATCH, MOST_BATCH = 50, 500  # texts whose captures are looked up at once
SCHEMA = "texts"
TOO_LONG = "the search took more than %d seconds: look for rarer words, or for fewer" % SECONDS
# Captures with a text of the reading that the catalogue has. A gone file gives nothing. Of a revisit with a text of
# other files that holds for all of these too.
READ_FILES = "texts.read AS read JOIN main.readings ON %s JOIN main.files ON files.file = readings.file" % SAME_READING
LOST_WAY = (
    "SELECT 1 FROM texts.ways AS ways WHERE (ways.file, ways.position) = (seen.file, seen.position)"
    " AND NOT EXISTS (SELECT 1 FROM %s WHERE read.file = ways.other AND files.state <> 'gone')" % READ_FILES
)
FROM_SEEN = (
    "FROM texts.seen AS seen JOIN texts.read AS read ON read.file = seen.file JOIN main.readings ON %s"
    " JOIN main.files ON files.file = readings.file AND files.state <> 'gone'"
    " AND (seen.given IS NOT %d OR NOT EXISTS (%s))" % (SAME_READING, FAR, LOST_WAY)
)
SCORED = (
    "SELECT text FROM (SELECT rowid AS text, bm25(words, %s, %s) AS score FROM texts.words"
    " WHERE words MATCH ? %%s LIMIT %d) ORDER BY score, text" % (TITLE_WEIGHT, TEXT_WEIGHT, MOST_SCORED + 1)
)
OF_HOST = "SELECT %s FROM texts.addresses CROSS JOIN texts.seen USING (address) WHERE %s"
OF_TARGET = (
    "SELECT captures.file, position, instant, path, given, read_on, %s FROM captures JOIN files USING (file)"
    " LEFT JOIN readings USING (file) WHERE target = ? AND instant >= ? AND instant < ? AND instant <= ?"
    " AND state <> 'gone' ORDER BY instant, path, position LIMIT %d" % (ABOUT_ROWS, MOST_CAPTURES + 1)
)
FIRST, LAST = "", "\U0010ffff"


@dataclasses.dataclass(frozen=True)
class Filters:
    """Of which hosts, types and instants captures are looked at; how many URIs are wanted, and how many before them
    aren't; and whether a part of each text is wanted, and not of the latest alone."""

    host: Optional[str] = None
    media: Optional[str] = None
    begin: str = FIRST
    end: str = LAST
    most: int = DEFAULT_HITS
    after: int = 0
    is_of_each: bool = False

    def condition(self) -> Tuple[str, List[Any]]:
        """What captures have to meet, and the values of that."""
        parts: List[str] = ["instant >= ? AND instant < ?"]
        values: List[Any] = [short(self.begin), short(self.end)]
        if self.host is not None:
            of_host = self.of_host(self.host)
            parts.append("+" + of_host[0])  # by the texts, which are fewer than what a host has
            values += of_host[1]
        if self.media is not None:
            parts.append("(media = ? OR media LIKE '%/' || ?)")
            values += [self.media.lower()] * 2
        return " AND ".join(parts), values

    def of_host(self, host: str) -> Tuple[str, List[Any]]:
        """What addresses of a host have to meet, or of all hosts below it, and the values of that."""
        own = one_host(host[1:] if host.startswith(".") else host)
        if not host.startswith("."):
            return "host = ?", [own]
        return "(host = ? OR substr(host, ?) = ?)", [own, -len(own) - 1, "." + own]


@dataclasses.dataclass(frozen=True)
class Place:
    """A capture: its file, its position there, its instant, and what is said of what comes from that file."""

    file: int
    path: Stored
    position: int
    instant: str
    mark: Optional[str]
    text: int


@dataclasses.dataclass(frozen=True)
class Shown:
    """The title of a text, a part of it, and where the words are in that."""

    title: str
    snippet: str
    marks: Sequence[Mark]


@dataclasses.dataclass(frozen=True)
class Hit:
    """A URI that has the words: the captures with them, how many instants these have, and of how many; the instants
    between which they were there, and what is shown of the texts."""

    target: Stored
    captures: Sequence[Place]
    count: int
    of: int
    periods: Sequence[Tuple[str, str]]
    texts: Dict[int, Shown]

    def shown(self, place: Optional[Place] = None) -> Shown:
        """What is shown of a capture, or of the latest one."""
        return self.texts[(place or self.latest()).text]

    def latest(self) -> Place:
        """The latest capture with the words; of several one of a file without a mark."""
        last = [it for it in self.captures if it.instant == self.captures[-1].instant]
        return next((it for it in last if it.mark is None), last[-1])


@dataclasses.dataclass(frozen=True)
class Found:
    """The hits, whether there are more, and what the limits left out."""

    hits: Sequence[Hit]
    is_more: bool
    left_out: str


def opened(folder: str) -> Catalogue:
    """A catalogue with its index, which nothing can write to."""
    if not os.path.exists(path_in(folder)):
        raise Trouble(NO_INDEX % shown(folder))
    catalogue = Catalogue(folder, is_read_only=True)
    try:
        uri = "file:%s?mode=ro" % urllib.parse.quote(os.fsencode(path_in(catalogue.folder)))
        with whole(path_in(catalogue.folder)):
            catalogue.base.execute("ATTACH DATABASE ? AS %s" % SCHEMA, (uri,))
            check_version(catalogue.base, catalogue.folder, SCHEMA)
    except BaseException:
        catalogue.base.close()
        raise
    return catalogue


class Origins:
    """Where texts of captures come from, as far as a reader may see that."""

    def __init__(self, catalogue: Catalogue, seen: Seen) -> None:
        self.catalogue = catalogue
        self.seen = seen
        self.marks: Dict[int, Optional[str]] = {}

    def of(self, file: int, position: int, given: Optional[int], is_far: bool) -> List[Tuple[int, int]]:
        """The records to which a capture leads, and the files on which its text rests, beside itself."""
        if is_far:
            return self.ways(file, position)
        return [] if given in (None, position) else [(file, int(given or 0))]

    def ways(self, file: int, position: int) -> List[Tuple[int, int]]:
        """The files on which the text of a revisit rests, with the records that give it."""
        query = "SELECT other, given FROM texts.ways WHERE file = ? AND position = ? ORDER BY other, given"
        return [(other, given) for other, given in self.catalogue.rows(query, (file, position))]

    def is_withheld(self, way: Tuple[int, int]) -> bool:
        """Whether the record of a file to which a capture leads is one that the reader may not see."""
        row = None
        if way[1] != NO_RECORD:
            row = self.catalogue.one("SELECT target, instant FROM captures WHERE file = ? AND position = ?", way)
        return row is not None and row[0] is not None and self.seen.withheld(row[0], row[1]) is not None

    def mark(self, file: int) -> Optional[str]:
        """What is said of what comes from a file."""
        if file not in self.marks:
            self.marks[file] = next((it.mark() for it in self.catalogue.files_where("files.file = ?", (file,))), None)
        return self.marks[file]

    def mark_with(self, own: Optional[str], file: int, ways: Sequence[Tuple[int, int]]) -> Optional[str]:
        """What is said of a capture of a file, with what is said of the other files."""
        marks = [own, *(self.mark(other) for other, _ in ways if other != file)]
        return ", ".join(dict.fromkeys(word for mark in marks if mark for word in mark.split(", "))) or None


class Search:
    """A search by one reader, which ends by the clock."""

    def __init__(self, catalogue: Catalogue, query: Query, filters: Filters, seen: Seen) -> None:
        self.catalogue = catalogue
        self.query = query
        self.filters = filters
        self.seen = seen
        self.end = time.monotonic() + SECONDS
        self.matched: Set[int] = set()
        self.origins = Origins(catalogue, seen)
        self.left_out: List[str] = []

    def is_over(self) -> int:
        return int(time.monotonic() > self.end)

    def check_clock(self) -> None:
        if self.is_over():
            raise Trouble(TOO_LONG)

    def found(self) -> Found:
        """What is found."""
        self.catalogue.base.set_progress_handler(self.is_over, STEPS)
        try:
            with self.catalogue.one_state():
                texts = self.scored()
                hits: List[Hit] = []
                for hit in self.hits(texts):
                    hits.append(hit)
                    if len(hits) > self.filters.after + self.filters.most:
                        break
        except sqlite3.OperationalError as error:
            if "interrupted" in str(error):
                raise Trouble(TOO_LONG) from None
            raise
        finally:
            self.catalogue.base.set_progress_handler(None, 0)
        end = self.filters.after + self.filters.most
        return Found(hits[self.filters.after : end], len(hits) > end, "; ".join(dict.fromkeys(self.left_out)))

    def of_host(self) -> Tuple[str, List[Any]]:
        """What texts have to meet since one host alone is asked for, and the values of that, if it has few captures and
        many texts have the words. Then its texts alone are scored, and not all of these."""
        is_many = "SELECT 1 FROM texts.words WHERE words MATCH ? LIMIT 1 OFFSET %d" % MOST_BATCH
        if self.filters.host is None or self.catalogue.one(is_many, (self.query.match(),)) is None:
            return "", []
        condition, values = self.filters.of_host(self.filters.host)
        # To count captures needs no text, and so nothing beside an index.
        first = "%s LIMIT %d" % (OF_HOST % (1, condition), MOST_OF_HOST + 1)
        if self.catalogue.one("SELECT count(*) FROM (%s)" % first, values)[0] > MOST_OF_HOST:
            return "", []
        # The index is asked for the words alone, and not once for each of these texts.
        return "AND +rowid IN (%s)" % (OF_HOST % ("text", condition)), values

    def scored(self) -> List[int]:
        """The texts that have the words, the best first."""
        condition, values = self.of_host()
        asked = self.query.match(), *values
        texts = [row[0] for row in self.catalogue.base.execute(SCORED % condition, asked)]
        if len(texts) > MOST_SCORED:
            self.left_out.append("of the first %d texts" % MOST_SCORED)
        self.matched = set(texts)
        return texts

    def hits(self, texts: Sequence[int]) -> Iterator[Hit]:
        """A hit for each URI that the reader may see, by its best text."""
        known: Set[int] = set()
        at, size = 0, FIRST_BATCH
        while at < len(texts):
            self.check_clock()
            for address, target in self.addresses_of(texts[at : at + size]):
                if address not in known:
                    known.add(address)
                    hit = self.hit(address, target)
                    if hit is not None:
                        yield hit
            at, size = at + size, MOST_BATCH

    def addresses_of(self, texts: Sequence[int]) -> List[Tuple[int, Stored]]:
        """The URIs that have one of these texts, in their order."""
        condition, values = self.filters.condition()
        query = "SELECT DISTINCT seen.text, address, target %s JOIN texts.addresses USING (address) WHERE %s" % (
            FROM_SEEN,
            "seen.text IN (%s) AND %s" % (", ".join("?" * len(texts)), condition),
        )
        rank = {text: number for number, text in enumerate(texts)}
        rows = sorted(self.catalogue.rows(query, (*texts, *values)), key=lambda row: (rank[row[0]], row[1]))
        return [(row[1], row[2]) for row in rows]

    def hit(self, address: int, target: Stored) -> Optional[Hit]:
        """What a reader may see of a URI that has the words; None if that is nothing."""
        decision = self.seen.access.decide(target, self.seen.address)
        if decision.withheld() is not None:
            return None
        texts = self.texts_of(address)
        rows = self.catalogue.rows(OF_TARGET, (target, self.filters.begin, self.filters.end, decision.last()))
        if len(rows) > MOST_CAPTURES:
            self.left_out.append("of the first %d captures of a URI" % MOST_CAPTURES)
        instants: Dict[str, bool] = {}
        captures: List[Place] = []
        for file, position, instant, path, given, read_on, damaged, is_fresh in rows:
            text, is_far = texts.get((file, position), (None, False))
            ways = self.origins.of(file, position, given, is_far)
            has = text in self.matched and not any(map(self.origins.is_withheld, ways))
            instants[instant] = instants.get(instant, False) or has
            if has and text is not None:
                mark = self.origins.mark_with(mark_of(damaged, bool(is_fresh), read_on), file, ways)
                captures.append(Place(file, path, position, instant, mark, text))
        if not captures:
            return None
        made = Hit(target, captures, sum(instants.values()), len(instants), periods_of(instants), {})
        for place in captures if self.filters.is_of_each else [made.latest()]:
            if place.text not in made.texts:
                made.texts[place.text] = self.shown(place.text)
        return made

    def texts_of(self, address: int) -> Dict[Tuple[int, int], Tuple[Optional[int], bool]]:
        """The texts of the captures of a URI, by their files and positions, and whether each is of another file."""
        condition, values = self.filters.condition()
        columns = "readings.file, seen.position, seen.text, seen.given IS %d" % FAR
        query = "SELECT %s %s JOIN texts.addresses USING (address)" % (columns, FROM_SEEN)
        rows = self.catalogue.rows("%s WHERE address = ? AND %s" % (query, condition), (address, *values))
        return {(row[0], row[1]): (row[2], bool(row[3])) for row in rows}

    def shown(self, text: int) -> Shown:
        """What is shown of a text."""
        self.check_clock()
        title, body = self.catalogue.one("SELECT title, body FROM texts.texts WHERE text = ?", (text,))
        return Shown(title, *snippet_of(unpacked_text(body), self.query))


def periods_of(instants: Dict[str, bool]) -> List[Tuple[str, str]]:
    """From when to when all captures have the words."""
    periods: List[Tuple[str, str]] = []
    was = False
    for instant, has in instants.items():
        if has and was:
            periods[-1] = periods[-1][0], instant
        elif has:
            periods.append((instant, instant))
        was = has
    return periods


def unread(catalogue: Catalogue) -> Tuple[int, int]:
    """How many files have no texts here, or those of an earlier scanner, and how many files there are."""
    query = (
        "SELECT count(*), coalesce(sum(EXISTS (SELECT 1 FROM texts.read AS read JOIN readings ON %s"
        " WHERE readings.file = files.file AND scanner = ?)), 0) FROM files WHERE state <> 'gone'" % SAME_READING
    )
    files, known = catalogue.one(query, (OF_SCANNER,))
    return files - known, files


def words_without_texts(catalogue: Catalogue, query: Query) -> List[str]:
    """The words that no text has, of those that have to be there. What a reader may not see counts as a text, so this
    is for those who may read the files."""
    ask = "SELECT 1 FROM texts.words WHERE words MATCH ? LIMIT 1"
    return [word for word in query.words() if catalogue.one(ask, ('"%s"' % word,)) is None]


@contextlib.contextmanager
def searching(folder: str) -> Iterator[Catalogue]:
    """A catalogue with its index, while it is asked."""
    catalogue = opened(folder)
    try:
        yield catalogue
    finally:
        catalogue.base.close()
