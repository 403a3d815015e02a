"""Packages (WACZ): their archives as one, the good records of those that are damaged, the verdicts on their files, and
their pages. How a package is read is in the Python package's modules of ZIP and of WACZ."""
from __future__ import annotations

import collections
import contextlib
import functools
import itertools
import json
import os
from typing import (
    IO,
    TYPE_CHECKING,
    Any,
    Callable,
    Dict,
    Generator,
    Iterable,
    Iterator,
    List,
    Optional,
    Sequence,
    Tuple,
)

from .access import Access
from .captures import end_instant
from .catalogue import Catalogue
from .damaged import MOST_RUNS, Pieces, TooSlow, counted_pieces, good_of_members, good_records, patience_for
from .memento import digits_of, path_of
from .parts import Parts
from .unpack import Damaged, is_of_gzip, read_at, reason_of
from .unpack import pieces_of as pieces_of_compressed

if TYPE_CHECKING:
    from zogwedu import _members, _wacz, _zip
else:
    from . import _members, _wacz, _zip

Kept = Callable[[Iterator[bytes]], IO[bytes]]
# The states that a file of a package may make worse, and the states that it makes of them.
READABLE = ("good", "findings", "unchecked", "bad")
LIGHT_STATES = ("good", "findings")
PAGES_AT_ONCE = 100


def is_package(file: IO[bytes]) -> bool:
    """Whether a file begins as a package does."""
    return os.pread(file.fileno(), len(_zip.MAGIC), 0) == _zip.MAGIC


def opened(file: IO[bytes]) -> _wacz.Package:
    """A package. Damaged where its ZIP is refused."""
    try:
        return _wacz.Package(functools.partial(read_at, file), os.fstat(file.fileno()).st_size)
    except _zip.BadZip as bad:
        raise Damaged("ZIP: %s" % bad) from None


class Joined:
    """Gives what the archives of a package hold, one after another, in pieces. `begins` is where those begin that hold
    anything, once all are given. `note` hears of each member of gzip, where it is in the file of the package, unless
    that compressed its archive once more."""

    def __init__(self, file: IO[bytes], note: _members.Note = lambda *_places: None) -> None:
        self.package = opened(file)
        self.note = note
        self.begins: List[int] = []

    def __iter__(self) -> Iterator[bytes]:
        at = 0
        for entry in self.package.archives:
            begin = at
            for piece in held_by(self.package, entry, functools.partial(self.noted, begin)):
                at += len(piece)
                yield piece
            if at > begin:
                self.begins.append(begin)

    def noted(self, before: int, offset: int, end: int, begin: int, stop: int) -> None:
        """Passes on a member of an archive before which others hold some bytes."""
        self.note(offset, end, before + begin, before + stop)


def held_by(package: _wacz.Package, entry: _zip.Entry, note: _members.Note = lambda *_places: None) -> Iterator[bytes]:
    """What an archive of a package holds, in pieces."""
    try:
        yield from _wacz.Unpacked(package.read, entry, note)
    except _members.Damaged as damaged:
        raise Damaged("%s: %s" % (_zip.shown(entry.name), reason_of(damaged.why))) from None


def pieces_of(file: IO[bytes], note: _members.Note = lambda *_places: None) -> Optional[Iterable[bytes]]:
    """What a compressed file or a package holds, in pieces, or None for another file. `note` hears of each member of
    gzip that is in the file as it is."""
    return Joined(file, note) if is_package(file) else pieces_of_compressed(file, note)


def has_good_parts(file: IO[bytes]) -> bool:
    """Whether the good parts of a damaged file are looked for."""
    return is_of_gzip(file) or is_package(file)


def good_of_parts(warc: str, file: IO[bytes], kept: Kept, pieces: Pieces) -> Generator[bytes, None, None]:
    """The bytes of all good records in the good members of a file that gzip wrote, or in the archives of a package."""
    made = good_of_package if is_package(file) else good_of_members
    return made(warc, file, kept, pieces)


def good_of_package(warc: str, file: IO[bytes], kept: Kept, pieces: Pieces) -> Generator[bytes, None, None]:
    """The bytes of all good records of a package, in pieces, which are counted. Each archive is read by itself, and
    each run of good members of it, so that no record has bytes of two."""
    package = opened(file)
    for entry in package.archives:
        damages = pieces.damages
        if entry.method == _zip.DEFLATED and next(front_of(package, entry), b"").startswith(_wacz.OF_GZIP):
            with kept(front_of(package, entry)) as copy:
                yield from good_of_members(warc, copy, kept, pieces)
        else:
            yield from good_of_spans(warc, package, entry, kept, pieces)
        if pieces.damages == damages and not _wacz.is_whole(package.read, entry):
            pieces.add_all(Pieces(damages=1, damaged=entry.packed))


def front_of(package: _wacz.Package, entry: _zip.Entry) -> Iterator[bytes]:
    """What an entry holds, in pieces, as far as it can be read, whatever its CRC is."""
    with contextlib.suppress(_zip.BadEntry):
        yield from _zip.content_of(package.read, entry)


def good_of_spans(
    warc: str, package: _wacz.Package, entry: _zip.Entry, kept: Kept, pieces: Pieces
) -> Generator[bytes, None, None]:
    """The bytes of all good records of an archive that isn't compressed once more, which are counted."""
    for span in spans_in(package, entry):
        if span.why is not None:
            pieces.add_all(Pieces(damages=1, damaged=span.length))
            continue
        with kept(held_in(package, entry, span)) as run:
            pieces.add_all(counted_pieces(warc, run))
            yield from good_records(warc, run, patience_for(run))


def spans_in(package: _wacz.Package, entry: _zip.Entry) -> Sequence[_members.Span]:
    """The runs of good members of an archive, and the damages between them. One that isn't compressed by gzip is one
    run, or damage."""
    if is_of_members(package, entry):
        part = _zip.part_of(package.read, entry.begin, entry.packed)
        spans = list(itertools.islice(_members.Spans(part, entry.packed), 2 * MOST_RUNS + 1))
        if len(spans) > 2 * MOST_RUNS:
            raise TooSlow("the members of %s have %d damages and more" % (_zip.shown(entry.name), MOST_RUNS))
        return spans
    try:
        for _ in held_by(package, entry):
            pass
    except Damaged as damage:
        return [_members.Span(0, entry.packed, damage)]
    return [_members.Span(0, entry.packed, None)]


def is_of_members(package: _wacz.Package, entry: _zip.Entry) -> bool:
    """Whether the members of an archive can be read at any place."""
    return entry.method == _zip.STORED and package.read(len(_wacz.OF_GZIP), entry.begin) == _wacz.OF_GZIP


def held_in(package: _wacz.Package, entry: _zip.Entry, span: _members.Span) -> Iterator[bytes]:
    """What a run of good members holds, in pieces, or a whole archive."""
    if not is_of_members(package, entry):
        return held_by(package, entry)
    part = _zip.part_of(package.read, entry.begin, entry.packed)
    return iter(_members.Members(_members.pieces_of(part, span), _members.GZIP))


class About:
    """What a package says of its files and pages: lines for the catalogue, and the state that follows."""

    def __init__(self, file: IO[bytes]) -> None:
        self.package = opened(file)
        self.counts: Dict[str, int] = collections.Counter()

    def resource_lines(self) -> Iterator[bytes]:
        """A line for the verdict on each file."""
        for it in self.package.resources():
            self.counts[it.verdict] += 1
            entry = self.package.entries.get(it.path)
            place = (None, None) if entry is None else (entry.size, entry.begin)
            yield json.dumps([it.path, it.verdict, it.stated, *place]).encode("ascii") + b"\n"

    def page_lines(self) -> Iterator[bytes]:
        """A line for each page."""
        for page in self.package.pages():
            yield json.dumps([page.url, instant_in(page.instant), page.instant, page.title]).encode("ascii") + b"\n"

    def state_of(self, state: str, detail: str) -> Tuple[str, str]:
        """The state of a file and a few words about it, once the files of the package are judged."""
        said = ", ".join("%d %s" % (self.counts[it], it) for it in (*_wacz.SEVERE, *_wacz.LIGHT) if self.counts[it])
        words = "; ".join(filter(None, (detail, said and "files of the package: " + said)))
        if state in READABLE and any(self.counts[it] for it in _wacz.SEVERE):
            return "bad", words
        return "unchecked" if said and state in LIGHT_STATES else state, words


def instant_in(text: Optional[str]) -> Optional[str]:
    """The instant of a page, as the catalogue has instants."""
    instant = _wacz.instant_of(text)
    return None if instant is None else instant.isoformat(timespec="microseconds")[:26] + "000Z"


def clean(value: Any) -> Any:
    """A text that SQLite and PostgreSQL take: JSON may have halves of characters, and zero bytes."""
    if not isinstance(value, str):
        return value
    return value.replace("\0", "\\0").encode("utf-8", "backslashreplace").decode("utf-8")


def load_package(catalogue: Catalogue, file: int, parts: Parts) -> None:
    """Loads the verdicts on the files of a package, and its pages."""
    for table, columns in (("resources", 5), ("pages", 4)):
        words = table, ", ".join("?" * (columns + 2))
        rows = ((file, number, *map(clean, json.loads(line))) for number, line in enumerate(parts.lines(table)))
        catalogue.base.executemany("INSERT INTO %s VALUES (%s)" % words, rows)


def pages_from(catalogue: Catalogue, after: Tuple[int, int], access: Access, address: str) -> Tuple[List[Any], Any]:
    """The pages of all packages after a file and a line, as places to begin, and the last one that was looked at, if
    there are more. Those that a reader may not see aren't among them, nor those without a capture."""
    has_pages = catalogue.one("SELECT count(*) FROM sqlite_master WHERE name = 'pages'")[0]
    query = (
        "SELECT pages.file, line, url, instant, title FROM pages JOIN files USING (file)"
        " WHERE (pages.file, line) > (?, ?) AND state <> 'gone' ORDER BY pages.file, line LIMIT ?"
    )
    rows = catalogue.rows(query, (*after, PAGES_AT_ONCE)) if has_pages else []
    found = [page_row(catalogue, row[2:], access, address) for row in rows]
    return [it for it in found if it is not None], rows[-1][:2] if len(rows) == PAGES_AT_ONCE else None


def page_row(catalogue: Catalogue, row: Sequence[Any], access: Access, address: str) -> Optional[Dict[str, Any]]:
    """A page, and the instant as of which it is to be shown: its own, or that of its first capture if that is later.
    None without a time of its own."""
    url, instant, title = row
    decision = access.decide(url, address)
    if decision.withheld() is not None:
        return None
    first = end_instant(catalogue, url, "ASC", "AND instant <= ?", decision.last())
    if first is None:
        return None
    later = first if instant is not None and instant < first else None
    shown = later or instant
    return {"path": path_of(url), "title": title, "instant": shown and digits_of(shown), "later": later}
