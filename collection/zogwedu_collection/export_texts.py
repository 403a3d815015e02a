"""The texts of pages for other engines: tables for PostgreSQL, as a script for psql, or a line of JSON for each text of
a URI. What a reader elsewhere may not see is left out, with the texts that nothing else has."""
from __future__ import annotations

import contextlib
import dataclasses
import functools
import json
import os
import re
import sqlite3
import sys
import tempfile
import unicodedata
from typing import IO, Any, Callable, Dict, Iterable, Iterator, List, Optional, Sequence, Set, Tuple

from .catalogue import Catalogue
from .disk import temporary_folder, written
from .export import copied
from .memento import path_of
from .search import FROM_SEEN, SCHEMA, Origins, searching, unread
from .search_command import shown_text
from .search_index import FAR, NAME, Index, unpacked_text
from .texts import UNSHOWN, Stored, counted, say
from .timemaps import Seen
from .words import words_of

# A tsvector of PostgreSQL has at most 1,048,575 bytes; a word takes at most 4.5 of them for each sign and space.
MOST_OF_WORDS = 200_000
ADDRESSES = "SELECT address, target, host FROM %s.addresses ORDER BY address" % SCHEMA
OF_ADDRESS = (
    "SELECT readings.file, seen.position, captures.instant, seen.text, seen.media, seen.given IS %d,"
    " captures.given %s"
    " JOIN main.captures ON captures.file = readings.file AND captures.position = seen.position"
    " WHERE seen.address = ? ORDER BY captures.instant, readings.file, seen.position" % (FAR, FROM_SEEN)
)
TABLES = {
    "addresses": "address BIGINT PRIMARY KEY, target TEXT, host TEXT",
    "seen": 'address BIGINT, instant TEXT COLLATE "C", media TEXT, text BIGINT, file BIGINT, position BIGINT,'
    " mark TEXT",
    "seen_files": "file BIGINT PRIMARY KEY, path TEXT",
    "texts": "text BIGINT PRIMARY KEY, title TEXT, body TEXT, words TEXT",
}
INDEXES = (
    "ALTER TABLE texts ADD COLUMN found TSVECTOR GENERATED ALWAYS AS (to_tsvector('simple', words)) STORED;",
    "CREATE INDEX texts_by_words ON texts USING gin (found);",
    "CREATE INDEX addresses_by_target ON addresses (md5(target));",
    "CREATE INDEX addresses_by_host ON addresses (md5(host));",
    "CREATE INDEX seen_by_text ON seen (text, address, instant);",
    "CREATE INDEX seen_by_address ON seen (address, instant);",
)
Put = Callable[[str], Any]


@dataclasses.dataclass(frozen=True)
class Place:
    """A capture that has a text."""

    file: int
    position: int
    instant: str
    text: int
    media: str
    mark: Optional[str]


@functools.lru_cache(maxsize=None)
def unshown() -> re.Pattern[str]:
    """What matches the characters that a terminal obeys, or doesn't show."""
    found = (chr(code) for code in range(sys.maxunicode + 1) if unicodedata.category(chr(code)) in UNSHOWN)
    return re.compile("[%s]+" % "".join(map(re.escape, found)))


def plain(value: Stored) -> str:
    """A text without what is no character for another engine: that is written as its number, after a backslash."""
    text = value.decode("utf-8", "backslashreplace") if isinstance(value, bytes) else value
    return text.encode("utf-8", "backslashreplace").decode("utf-8").replace("\0", "\\x00")


def column(value: Any) -> str:
    """A value as COPY reads it, without a character that a terminal obeys."""
    made = copied(plain(value) if isinstance(value, (str, bytes)) else value)
    return unshown().sub(lambda it: "".join("\\x%02x" % byte for byte in it[0].encode("utf-8")), made)


def row_of(*values: Any) -> str:
    """A row as COPY reads it."""
    return "\t".join(map(column, values)) + "\n"


def put_table(put: Put, table: str, rows: Iterable[str]) -> None:
    put("COPY %s FROM stdin;\n" % table)
    for row in rows:
        put(row)
    put("\\.\n")


class Exporter:
    """Gives the texts that a reader elsewhere may see."""

    def __init__(self, catalogue: Catalogue, seen: Seen) -> None:
        self.catalogue = catalogue
        self.seen = seen
        self.origins = Origins(catalogue, seen)
        self.withheld = 0
        self.cut = 0

    def addresses(self) -> Iterator[Tuple[int, Stored, str, List[Place]]]:
        """The URIs that have texts: number, target, host, and the captures."""
        for address, target, host in self.catalogue.base.execute(ADDRESSES):
            places = list(self.places(address, target))
            if places:
                yield address, target, host, places

    def places(self, address: int, target: Stored) -> Iterator[Place]:
        """The captures of a URI that have a text, by their instants."""
        decision = self.seen.access.decide(target, self.seen.address)
        for file, position, instant, text, media, is_far, given in self.catalogue.rows(OF_ADDRESS, (address,)):
            ways = self.origins.of(file, position, given, bool(is_far))
            if decision.withheld_of(instant) is not None or any(map(self.origins.is_withheld, ways)):
                self.withheld += 1
                continue
            mark = self.origins.mark_with(self.origins.mark(file), file, ways)
            yield Place(file, position, instant, text, media, mark)

    def text(self, text: int) -> Tuple[str, str]:
        """The title of a text, and the text."""
        title, body = self.catalogue.one("SELECT title, body FROM %s.texts WHERE text = ?" % SCHEMA, (text,))
        return title, unpacked_text(body)

    def path(self, file: int) -> Stored:
        path: Stored = self.catalogue.one("SELECT path FROM main.files WHERE file = ?", (file,))[0]
        return path

    # JSON

    def documents(self, put: Put) -> None:
        """A line of JSON for each text of a URI."""
        for _, target, host, places in self.addresses():
            for text in dict.fromkeys(place.text for place in places):
                put(json.dumps(self.document(target, host, [it for it in places if it.text == text])) + "\n")

    def document(self, target: Stored, host: str, places: Sequence[Place]) -> Dict[str, Any]:
        """A text of a URI, with the captures that have it."""
        title, body = self.text(places[0].text)
        return {
            "uri": shown_text(target),
            "uri_path": path_of(target),
            "host": plain(host),
            "type": places[-1].media,
            "first": places[0].instant,
            "last": places[-1].instant,
            "captures": [[shown_text(self.path(it.file)), it.position, it.instant, it.mark] for it in places],
            "title": plain(title),
            "text": plain(body),
        }

    # PostgreSQL

    def script(self, put: Put, temporary: str) -> None:
        """What psql does: it makes the tables, fills them, and makes the indexes; all of it or nothing."""
        put("\\set ON_ERROR_STOP on\nSET client_encoding = 'UTF8';\nBEGIN;\n")
        for table, columns in TABLES.items():
            put("CREATE TABLE %s (%s);\n" % (table, columns))
        with tempfile.TemporaryFile("w+", encoding="utf-8", newline="\n", dir=temporary) as seen:
            texts, files = self.put_addresses(put, seen.write)
            seen.seek(0)
            put_table(put, "seen", seen)
        put_table(put, "seen_files", (row_of(file, self.path(file)) for file in sorted(files)))
        put_table(put, "texts", map(self.text_row, sorted(texts)))
        put("\n".join([*INDEXES, "COMMIT;", "ANALYZE;"]) + "\n")

    def put_addresses(self, put: Put, put_seen: Put) -> Tuple[Set[int], Set[int]]:
        """Writes the URIs, and their captures elsewhere. Returns the texts and the files of these."""
        texts: Set[int] = set()
        files: Set[int] = set()

        def rows() -> Iterator[str]:
            for address, target, host, places in self.addresses():
                for it in places:
                    put_seen(row_of(address, it.instant, it.media, it.text, it.file, it.position, it.mark))
                texts.update(it.text for it in places)
                files.update(it.file for it in places)
                yield row_of(address, target, host)

        put_table(put, "addresses", rows())
        return texts, files

    def text_row(self, text: int) -> str:
        """A text with its words, as the index has them; of many words those that a tsvector has room for."""
        title, body = self.text(text)
        words = " ".join([*words_of(title), *words_of(body)])
        if len(words) > MOST_OF_WORDS:
            self.cut += 1
            words = words[:MOST_OF_WORDS].rpartition(" ")[0]
        return row_of(text, title, body, words)


@contextlib.contextmanager
def copies(folder: str, temporary: str) -> Iterator[Catalogue]:
    """The catalogue and its index as they are now, in copies that are removed afterwards: so that no run waits."""
    with tempfile.TemporaryDirectory(prefix="texts.", dir=temporary) as own:
        with searching(folder) as catalogue:
            for schema, name in (("main", os.path.basename(catalogue.path)), (SCHEMA, NAME)):
                with contextlib.closing(sqlite3.connect(os.path.join(own, name))) as copy:
                    copy.execute("PRAGMA synchronous = OFF")
                    catalogue.base.backup(copy, name=schema)
        with searching(own) as catalogue:
            yield catalogue


def export_texts(folder: str, seen: Seen, path: Optional[str], is_json: bool, temporary: Optional[str]) -> int:
    """Writes the texts to a file, or to standard output. Returns the exit status: 1 if some files have no texts."""
    with contextlib.closing(Index(Catalogue(folder))):
        pass  # what a run that was killed had begun is undone here
    where = temporary_folder(temporary)
    with copies(folder, where) as catalogue:
        exporter = Exporter(catalogue, seen)
        with contextlib.nullcontext(sys.stdout.buffer) if path is None else written(path) as out:
            put_all(exporter, out, is_json, where)
        left, files = unread(catalogue)
    if exporter.withheld:
        say("withheld: %s" % counted(exporter.withheld, "capture"))
    if exporter.cut:
        say("of %s PostgreSQL gets the first words alone" % counted(exporter.cut, "text"))
    if left:
        say("%d of %s have no texts here, or only older ones: run reads them" % (left, counted(files, "file")))
    return 1 if left else 0


def put_all(exporter: Exporter, out: IO[bytes], is_json: bool, temporary: str) -> None:
    """Writes the texts in a form."""

    def put(text: str) -> None:
        out.write(text.encode("utf-8"))

    if is_json:
        exporter.documents(put)
    else:
        exporter.script(put, temporary)
    out.flush()
