"""The index of the texts of pages: a database of its own beside the catalogue, which can be deleted and made anew.

A text is kept once, whatever captures have it. What was seen in a file counts only as long as the catalogue has the
very reading that the texts are of, which each question asks: so a run that is killed between the two databases shows
too little, and never another reading's records.
"""
from __future__ import annotations

import contextlib
import importlib.util
import json
import os
import sqlite3
import time
import zlib
from typing import Any, Dict, Iterator, List, Optional, Sequence, Set, Tuple

from . import scan, words
from .access import host_of, text_of
from .catalogue import BUSY_SECONDS, PATIENCE_SECONDS, Catalogue, without_log
from .disk import Stamp
from .page_texts import NO_PACKAGE
from .parts import Parts
from .texts import Trouble, inform, say, shown
from .words import words_of

VERSION = 2
NAME = "search.sqlite"
SETTING = "text"  # of the catalogue: whether runs read texts
OF_SCANNER = "%d.%d" % (scan.VERSION, words.VERSION)
# Bytes of a page of SQLite. Many texts take 2 or 3 KB: of a page of 4,096 bytes one would leave a third empty.
PAGE = 8192
WAIT_SECONDS = 0.05  # between two looks at whether a reader is done
MOST_SWEPT = 500  # texts in a transaction
# In the place of the record that gives the body of a capture: it is in another file, or no record of a file does.
FAR = NO_RECORD = -1
TABLES = (
    "CREATE TABLE IF NOT EXISTS read (file BIGINT PRIMARY KEY, run BIGINT, size BIGINT, modified BIGINT,"
    " changed BIGINT, scanner TEXT, texts BIGINT, captures BIGINT, without TEXT, why TEXT)",
    "CREATE TABLE IF NOT EXISTS texts (text INTEGER PRIMARY KEY, key BLOB UNIQUE, title TEXT, body BLOB,"
    " characters BIGINT)",
    "CREATE TABLE IF NOT EXISTS addresses (address INTEGER PRIMARY KEY, target UNIQUE, host TEXT)",
    "CREATE TABLE IF NOT EXISTS seen (file BIGINT, position BIGINT, address BIGINT, instant TEXT, media TEXT,"
    " text BIGINT, given BIGINT, PRIMARY KEY (file, position)) WITHOUT ROWID",
    "CREATE INDEX IF NOT EXISTS seen_by_text ON seen (text, address, instant)",
    "CREATE INDEX IF NOT EXISTS seen_by_address ON seen (address)",
    "CREATE INDEX IF NOT EXISTS addresses_by_host ON addresses (host)",
    # Revisits that lack what another file may have, with what they name; the files on which their texts rest, with the
    # records that give them; and what all files were when this was found out.
    "CREATE TABLE IF NOT EXISTS elsewhere (file BIGINT, position BIGINT, is_due BIGINT, is_named BIGINT, name, target,"
    " date, PRIMARY KEY (file, position)) WITHOUT ROWID",
    "CREATE TABLE IF NOT EXISTS ways (file BIGINT, position BIGINT, other BIGINT, given BIGINT,"
    " PRIMARY KEY (file, position, other, given)) WITHOUT ROWID",
    "CREATE INDEX IF NOT EXISTS ways_by_other ON ways (other)",
    "CREATE TABLE IF NOT EXISTS settled (file BIGINT PRIMARY KEY, about TEXT)",
    "CREATE VIRTUAL TABLE IF NOT EXISTS words USING fts5(title, body, content='',"
    " tokenize=\"unicode61 remove_diacritics 0 categories 'L* N* Co M*'\")",
)
# The reading of a file is kept under its number, or with a minus sign beside it until it is accepted.
SAME_READING = (
    "readings.file = abs(read.file) AND readings.run IS read.run"
    " AND (readings.size, readings.modified, readings.changed) IS (read.size, read.modified, read.changed)"
)
NO_NANOSECONDS = ".000000000Z"
NO_INDEX = "no index of texts in %s: warc-collection run --text makes one"
Key = Tuple[int, Optional[int], Optional[int], Optional[int], Optional[int]]


def short(instant: str) -> str:
    """An instant as the index has it: in order, and without what nearly all have."""
    return instant[:-11] if instant.endswith(NO_NANOSECONDS) else instant.rstrip("Z")


def path_in(folder: str) -> str:
    return os.path.join(folder, NAME)


def is_wanted(catalogue: Catalogue) -> bool:
    """Whether runs read the texts of pages."""
    return bool(catalogue.setting(SETTING))


def remove(folder: str) -> None:
    """Removes the index."""
    for ending in ("", "-journal", "-wal", "-shm"):
        with contextlib.suppress(FileNotFoundError):
            os.unlink(path_in(folder) + ending)


def packed(text: str) -> bytes:
    return zlib.compress(text.encode("utf-8", "surrogatepass"))


def unpacked_text(body: bytes) -> str:
    return zlib.decompress(body).decode("utf-8", "surrogatepass")


def check_version(base: sqlite3.Connection, folder: str, schema: str = "main") -> None:
    """Refuses an index of another version."""
    version = base.execute("PRAGMA %s.user_version" % schema).fetchone()[0]
    if version > VERSION:
        raise Trouble("the index of texts in %s is of a later version of warc-collection" % shown(folder))
    if version < VERSION:
        raise Trouble(NO_INDEX % shown(folder))


class Index:
    """The index, for those that write to it: one at a time, with the catalogue's lock."""

    def __init__(self, catalogue: Catalogue, is_made: bool = False) -> None:
        """Opens the index, or makes one."""
        self.catalogue = catalogue
        self.folder = catalogue.folder
        self.is_made = is_made
        if not is_made and not os.path.exists(path_in(self.folder)):
            raise Trouble(NO_INDEX % shown(self.folder))
        self.base = sqlite3.connect(path_in(self.folder), timeout=BUSY_SECONDS, isolation_level=None)
        try:
            self.base.execute("PRAGMA synchronous = FULL")
            self.base.execute("PRAGMA secure_delete = ON")
            if is_made:
                self.base.execute("PRAGMA page_size = %d" % PAGE)  # of a new index
                self.keep_log()
                self.make_tables()
            check_version(self.base, self.folder)
        except BaseException as error:
            self.base.close()
            if isinstance(error, sqlite3.DatabaseError) and not isinstance(error, sqlite3.OperationalError):
                raise Trouble("%s: %s: remove it, and run again" % (shown(path_in(self.folder)), error)) from None
            raise

    def make_tables(self) -> None:
        """Makes what isn't there. An index of version 1 lacked nothing but tables."""
        if self.base.execute("PRAGMA user_version").fetchone()[0] >= VERSION:
            return
        try:
            with self.transaction():
                for statement in TABLES:
                    self.base.execute(statement)
                self.base.execute("PRAGMA user_version = %d" % VERSION)
        except sqlite3.OperationalError as error:
            if "fts5" not in str(error):
                raise
            raise Trouble("this Python's SQLite has no FTS5, which --text needs") from None

    @contextlib.contextmanager
    def transaction(self) -> Iterator[None]:
        self.base.execute("BEGIN IMMEDIATE")
        try:
            yield
            self.base.execute("COMMIT")
        except BaseException:
            if self.base.in_transaction:
                self.base.execute("ROLLBACK")
            raise

    @contextlib.contextmanager
    def part(self) -> Iterator[None]:
        """A part of a transaction, which is undone where it fails."""
        self.base.execute("SAVEPOINT part")
        try:
            yield
        except BaseException:
            if self.base.in_transaction:
                self.base.execute("ROLLBACK TO part")
            raise
        finally:
            if self.base.in_transaction:
                self.base.execute("RELEASE part")

    def keep_log(self) -> None:
        """Keeps changes in a log, as long as the catalogue does. What a run leaves that is killed can then be read by
        those who may write nothing: they couldn't undo a half of a change."""
        if self.catalogue.one("PRAGMA journal_mode")[0] == "wal":
            self.base.execute("PRAGMA journal_mode = WAL")

    def close(self) -> None:
        """Closes the index, without a log: those who may write nothing couldn't open it, since the files of the log go
        with the last who may. A reader is waited for after a change."""
        end = time.monotonic() + (PATIENCE_SECONDS if self.is_made else 0)
        while not without_log(self.base) and time.monotonic() < end:
            time.sleep(WAIT_SECONDS)
        self.base.close()

    # Taking in

    def take_in(self, file: int, run: int, stamp: Stamp, parts: Parts) -> None:
        """Takes in the texts of a reading, in the place of those that are kept under its number. A ValueError where
        they aren't whole, and then nothing is changed."""
        places = self.places_of(file)
        with self.part():
            self.drop_seen(file)
            counts = {"text": 0, "seen": 0}
            end: Dict[str, Any] = {}
            for line in map(json.loads, parts.lines("texts")):
                if line[0] == "end":
                    end = line[1]
                    break
                counts[line[0]] += 1
                self.put_line(file, places, line)
            if (counts["text"], counts["seen"]) != (end.get("texts"), end.get("seen")):
                raise ValueError("the texts of a file aren't whole")
            about = file, run, stamp.size, stamp.modified, stamp.changed, OF_SCANNER, counts["text"], counts["seen"]
            self.base.execute(
                "INSERT INTO read VALUES (?, ?, ?, ?, ?, ?, ?, ?, ?, ?)",
                (*about, json.dumps(end["without"]), end["why"] or None),
            )

    def places_of(self, file: int) -> Dict[int, Tuple[Any, str]]:
        """The targets and the instants of the captures of a file, by their positions."""
        query = "SELECT position, target, instant FROM captures WHERE file = ?"
        return {position: (target, instant) for position, target, instant in self.catalogue.rows(query, (file,))}

    def put_line(self, file: int, places: Dict[int, Tuple[Any, str]], line: List[Any]) -> None:
        """Takes a line of a job: a text, or a capture that has one."""
        if line[0] == "text":
            self.put_text(bytes.fromhex(line[1]), line[2], line[3])
            return
        _, position, given, key, media = line
        target, instant = places[position]
        text = self.number("SELECT text FROM texts WHERE key = ?", bytes.fromhex(key))
        if target is None or text is None:
            raise ValueError("a capture has a text that isn't there")
        other = None if given == position else given
        values = file, position, self.address_of(target), short(instant), media, text, other
        self.base.execute("INSERT INTO seen VALUES (?, ?, ?, ?, ?, ?, ?)", values)

    def number(self, query: str, value: Any) -> Optional[int]:
        row = self.base.execute(query, (value,)).fetchone()
        return None if row is None else int(row[0])

    def put_text(self, key: bytes, title: str, body: str) -> None:
        """Keeps a text, if it isn't there."""
        if self.number("SELECT text FROM texts WHERE key = ?", key) is not None:
            return
        values = key, title, packed(body), len(body)
        text = self.base.execute("INSERT INTO texts (key, title, body, characters) VALUES (?, ?, ?, ?)", values)
        self.put_words(text.lastrowid, title, body)

    def put_words(self, text: Optional[int], title: str, body: str) -> None:
        spelled = " ".join(words_of(title)), " ".join(words_of(body))
        self.base.execute("INSERT INTO words (rowid, title, body) VALUES (?, ?, ?)", (text, *spelled))

    def address_of(self, target: Any) -> int:
        """The number of a target."""
        known = self.number("SELECT address FROM addresses WHERE target = ?", target)
        if known is not None:
            return known
        put = "INSERT INTO addresses (target, host) VALUES (?, ?)"
        return int(self.base.execute(put, (target, host_of(text_of(target)))).lastrowid or 0)

    # Dropping

    def drop_seen(self, file: int) -> None:
        """Drops what is known of a reading, and of the revisits of other files that rest on it. The texts stay until
        they are swept."""
        for place in self.base.execute("SELECT DISTINCT file, position FROM ways WHERE other = ?", (file,)).fetchall():
            self.drop_far(place)
            self.base.execute("UPDATE elsewhere SET is_due = 1 WHERE file = ? AND position = ?", place)
        for table in ("seen", "read", "elsewhere", "ways"):
            self.base.execute("DELETE FROM %s WHERE file = ?" % table, (file,))

    def drop_far(self, place: Tuple[int, int]) -> None:
        """Drops the text of a revisit that was found in other files."""
        self.base.execute("DELETE FROM seen WHERE file = ? AND position = ? AND given = %d" % FAR, place)
        self.base.execute("DELETE FROM ways WHERE file = ? AND position = ?", place)

    def settle(self) -> None:
        """Keeps the readings under the numbers that the catalogue has for them, and drops those that it doesn't have
        any more, with the texts that nothing has."""
        kept = self.readings_there()
        rows = self.base.execute("SELECT file, run, size, modified, changed FROM read").fetchall()
        current = {abs(row[0]) for row in rows if (abs(row[0]), *row[1:]) in kept and row[0] > 0}
        with self.transaction():
            for file, *about in rows:
                if (file, *about) in kept:
                    continue
                if file < 0 and (-file, *about) in kept and -file not in current:
                    self.rename(file, -file)
                else:
                    self.drop_seen(file)
        self.sweep()

    def readings_there(self) -> Set[Key]:
        """The readings that the catalogue has."""
        rows = self.catalogue.rows("SELECT file, run, size, modified, changed FROM readings")
        return {(row[0], row[1], row[2], row[3], row[4]) for row in rows}

    def rename(self, file: int, other: int) -> None:
        """Keeps a reading under another number, since it was accepted."""
        self.drop_seen(other)
        for table in ("seen", "read"):
            self.base.execute("UPDATE %s SET file = ? WHERE file = ?" % table, (other, file))

    def sweep(self) -> None:
        """Drops the texts that no capture has."""
        query = "SELECT text, title, body FROM texts WHERE text NOT IN (SELECT text FROM seen) LIMIT %d" % MOST_SWEPT
        while True:
            with self.transaction():
                rows = self.base.execute(query).fetchall()
                for text, title, body in rows:
                    spelled = " ".join(words_of(title)), " ".join(words_of(unpacked_text(body)))
                    delete = "INSERT INTO words (words, rowid, title, body) VALUES ('delete', ?, ?, ?)"
                    self.base.execute(delete, (text, *spelled))
                    self.base.execute("DELETE FROM texts WHERE text = ?", (text,))
                if len(rows) < MOST_SWEPT:
                    self.base.execute("DELETE FROM addresses WHERE address NOT IN (SELECT address FROM seen)")
                    return

    def tidy(self) -> None:
        """Gives the room back that dropped texts had."""
        self.base.execute("INSERT INTO words (words) VALUES ('optimize')")
        self.base.execute("VACUUM")


def known_files(catalogue: Catalogue) -> Dict[int, Optional[str]]:
    """The files whose texts are known as the scanner reads them now, each with why it has none."""
    if not os.path.exists(path_in(catalogue.folder)):
        return {}
    try:
        with contextlib.closing(Index(catalogue)) as index:
            kept = index.readings_there()
            rows = index.base.execute("SELECT file, run, size, modified, changed, scanner, why FROM read").fetchall()
    except Trouble:  # a run says it, and `search`
        return {}
    return {row[0]: row[6] for row in rows if row[:5] in kept and row[5] == OF_SCANNER}


def take_in_texts(catalogue: Catalogue, run: int, folder: str, names: Sequence[str]) -> None:
    """Takes in the texts that jobs left. The catalogue has their files already; what isn't whole is left out."""
    if not is_wanted(catalogue):
        return
    from .take_in import NOT_WHOLE, outcomes_in, parts_of  # here, since that module uses this one

    with contextlib.closing(Index(catalogue, is_made=True)) as index, index.transaction():
        for name in names:
            try:
                for outcome in outcomes_in(os.path.join(folder, "done", name)):
                    parts = parts_of(folder, name, outcome)
                    file = None if outcome.stamp is None else number_of(catalogue, outcome.path, run, outcome.stamp)
                    if parts.has("texts") and file is not None and outcome.stamp is not None:
                        index.take_in(file, run, outcome.stamp, parts)
            except NOT_WHOLE as error:
                say("the texts that job %s left aren't whole: %s" % (name, error or type(error).__name__))


def number_of(catalogue: Catalogue, path: str, run: int, stamp: Stamp) -> Optional[int]:
    """The number under which the catalogue keeps a reading that it took in, if it did."""
    file = catalogue.file_at(path).file
    query = (
        "SELECT file FROM readings WHERE file IN (?, ?) AND run = ? AND (size, modified, changed) IS (?, ?, ?)"
        " ORDER BY file LIMIT 1"
    )
    row = catalogue.one(query, (file, -file, run, stamp.size, stamp.modified, stamp.changed))
    return None if row is None else int(row[0])


def settle_texts(catalogue: Catalogue, is_tidied: bool = False) -> None:
    """Brings the index to what the catalogue has, where there is one."""
    if os.path.exists(path_in(catalogue.folder)):
        with contextlib.closing(Index(catalogue, is_made=True)) as index:
            index.settle()
            if is_tidied:
                index.tidy()


def lacking_texts(catalogue: Catalogue, package: Optional[str]) -> Set[int]:
    """The files whose last reading gave records, and whose texts aren't known as they are read now. None where they
    can't be read here."""
    if package is None or not is_wanted(catalogue):
        return set()
    query = (
        "SELECT files.file FROM files JOIN readings USING (file) WHERE readings.run IS files.run"
        " AND state NOT IN ('altered', 'gone')"
    )
    known = known_files(catalogue)
    return {file for file, in catalogue.rows(query) if known.get(file, NO_PACKAGE) == NO_PACKAGE}


def package_for_texts(catalogue: Catalogue, wanted: Optional[bool]) -> Optional[str]:
    """The folder that has the Python package, where texts are to be read and it is there. A Trouble where they are
    asked for and it isn't."""
    if wanted is False or not (wanted or is_wanted(catalogue)):
        return None
    found = importlib.util.find_spec("zogwedu")
    if found is not None and found.origin:
        above = os.path.dirname(os.path.abspath(found.origin))
        return above if found.submodule_search_locations is None else os.path.dirname(above)
    if wanted:
        raise Trouble("--text needs the Python package zogwedu")
    say("no texts are read: " + NO_PACKAGE)
    return None


def choose_texts(catalogue: Catalogue, wanted: Optional[bool]) -> None:
    """Notes whether runs read texts from now on. Without them there is no index."""
    if wanted is None:
        return
    if not wanted:
        remove(catalogue.folder)
    elif not is_wanted(catalogue):
        inform("the texts of all files are read once")
    with catalogue.transaction():
        catalogue.set(SETTING, wanted)


def text_counts(catalogue: Catalogue) -> Tuple[int, int, str]:
    """How many files have known texts, how many haven't, and why, for a line of `status`."""
    known = known_files(catalogue)
    files = {file for file, in catalogue.rows("SELECT file FROM files WHERE state <> 'gone'")}
    whole = [file for file in files if file in known and not known[file]]
    reasons = sorted({str(why) for file, why in known.items() if why and file in files})
    return len(whole), len(files) - len(whole), " (%s)" % "; ".join(reasons) if reasons else ""
