"""The catalogue: a folder with the database, the jobs that are under way, and the last report."""
from __future__ import annotations

import contextlib
import dataclasses
import fcntl
import json
import os
import sqlite3
import urllib.parse
from typing import Any, Dict, Iterator, List, Mapping, Optional, Sequence, Tuple

from .disk import Stamp, is_on_local_disk
from .keys import SPELL, key_number
from .states import DAMAGED, READ, as_list
from .texts import Stored, Trouble, say, shown, stored_path

VERSION = 7
CACHE_KIB = 1_000_000
# How long a question waits for the end of a transaction, and a run for a reader before it says that it waits.
BUSY_SECONDS = 600.0
PATIENCE_SECONDS = 10
# Of a server, which has several connections.
READER_SECONDS = 5.0
READER_CACHE_KIB = 8_000

# What SQLite says where a change has to be undone first, or a log has no place for what its readers share.
HALF_DONE = ("attempt to write a readonly database", "unable to open database file")
NOT_MENDED = (
    "a run was killed while it changed the catalogue, and who may only read can't mend it: the next run does, and so"
    " does `warc-collection search` of a user who may write there"
)

# The tables. PostgreSQL takes the same columns, but other keys. A row of `readings` says when the rows of a file in the
# tables of OF_A_FILE were read, and from which bytes. Of a file that is altered, the new reading is beside the one of
# before, under the number of the file with a minus sign, until it is accepted.
TABLES = {
    "settings": "name TEXT PRIMARY KEY, value TEXT",
    "watched": "path TEXT, kind TEXT, given_in TEXT, added TEXT, read_on TEXT, trouble TEXT",
    "runs": "run BIGINT PRIMARY KEY, began TEXT, ended TEXT, scope TEXT, attempts BIGINT, hosts BIGINT,"
    " files_read BIGINT, seconds DOUBLE PRECISION, good BIGINT, unchecked BIGINT, bad BIGINT, no_bytes BIGINT,"
    " payloads_good BIGINT, payloads_unchecked BIGINT, payloads_bad BIGINT",
    "files": "file BIGINT PRIMARY KEY, path TEXT UNIQUE, size BIGINT, modified BIGINT, state TEXT, detail TEXT,"
    " records BIGINT, run BIGINT, changed BIGINT, inode BIGINT, sha256 TEXT, due BIGINT,"
    " seen BIGINT, state_there TEXT, detail_there TEXT",
    "readings": "file BIGINT PRIMARY KEY, run BIGINT, read_on TEXT, size BIGINT, modified BIGINT, changed BIGINT,"
    " inode BIGINT, records BIGINT, good BIGINT, unchecked BIGINT, bad BIGINT, no_bytes BIGINT, bytes BIGINT,"
    " damaged BIGINT, payloads_good BIGINT, payloads_unchecked BIGINT, payloads_bad BIGINT, found_state TEXT,"
    " found_detail TEXT, found_sha256 TEXT, is_hashed BIGINT, seen BIGINT",
    "checks": "run BIGINT, file BIGINT, size BIGINT, modified BIGINT, state TEXT, detail TEXT, host TEXT,"
    " seconds DOUBLE PRECISION, list_status BIGINT, fixity_status BIGINT, check_status BIGINT,"
    " summary_status BIGINT, captures_status BIGINT, sha256 TEXT, good_records BIGINT, good_bytes BIGINT,"
    " damages BIGINT, damaged BIGINT, payloads_status BIGINT, PRIMARY KEY (run, file)",
    "counts": "run BIGINT, file BIGINT, name TEXT, value TEXT, PRIMARY KEY (run, file, name)",
    "changes": "run BIGINT, file BIGINT, change TEXT, state_before TEXT, state_after TEXT, path_before TEXT,"
    " PRIMARY KEY (run, file)",
    "accepted": "file BIGINT, accepted_on TEXT, who TEXT, run BIGINT, state TEXT, detail TEXT, read_on_before TEXT,"
    " size_before BIGINT, modified_before BIGINT, records_before BIGINT, sha256_before TEXT, read_on_now TEXT,"
    " size_now BIGINT, modified_now BIGINT, records_now BIGINT, sha256_now TEXT",
    "acknowledged": "file BIGINT PRIMARY KEY, state TEXT, detail TEXT, size BIGINT, modified BIGINT, who TEXT,"
    " acknowledged_on TEXT, note TEXT",
    "stated": "file BIGINT, algorithm TEXT, manifest TEXT, digest TEXT, stated_on TEXT, found TEXT, accepted TEXT,"
    " PRIMARY KEY (file, algorithm, manifest)",
    "records": "file BIGINT, position BIGINT, at_offset BIGINT, length BIGINT, kind TEXT, date TEXT, id TEXT,"
    " target TEXT, hash TEXT, packed_at BIGINT, packed_length BIGINT, packed_crc BIGINT, PRIMARY KEY (file, position)",
    "captures": "file BIGINT, position BIGINT, date TEXT, instant TEXT, kind TEXT, given BIGINT, status BIGINT,"
    " media TEXT, length BIGINT, reason TEXT, target TEXT, PRIMARY KEY (file, position)",
    "digests": "file BIGINT, position BIGINT, verdict TEXT, id TEXT, digest TEXT, PRIMARY KEY (file, position)",
    "payloads": "file BIGINT, position BIGINT, verdict TEXT, id TEXT, reason TEXT, digest TEXT,"
    " PRIMARY KEY (file, position)",
    "findings": "file BIGINT, line BIGINT, position BIGINT, finding TEXT, field TEXT, PRIMARY KEY (file, line)",
    "years": "file BIGINT, year TEXT, kind TEXT, records BIGINT, bytes BIGINT, PRIMARY KEY (file, year, kind)",
    "hosts": "file BIGINT, host TEXT, captures BIGINT, bytes BIGINT, PRIMARY KEY (file, host)",
    # Of a package: its files, and its pages in their order.
    "resources": "file BIGINT, line BIGINT, path TEXT, verdict TEXT, stated TEXT, bytes BIGINT, at_offset BIGINT,"
    " PRIMARY KEY (file, line)",
    "pages": "file BIGINT, line BIGINT, url TEXT, instant TEXT, stated TEXT, title TEXT, PRIMARY KEY (file, line)",
    # The targets of all files by the numbers of their keys. One that no file has any more may be among them.
    "spellings": "key BIGINT, target TEXT, PRIMARY KEY (key, target)",
}
OF_A_FILE = ("records", "captures", "digests", "payloads", "findings", "years", "hosts", "resources", "pages")
BY_KEY_ALONE = (*OF_A_FILE, "spellings")
INDEXES = (
    "captures_by_target ON captures (target, instant)",
    "records_by_id ON records (lower(trim(id, '<>')))",
    # Those few with spaces within the brackets, which belong to no id.
    "records_of_odd_ids ON records (lower(trim(id, '<> \t'))) WHERE trim(id, '<>') <> trim(id, '<> \t')",
    "records_of_series ON records (target) WHERE lower(kind) = 'continuation'",
)
# Each file that is loaded asks for what was found of it before.
SMALL_INDEXES = ("checks_by_file ON checks (file, run)", "changes_by_file ON changes (file, run)")
# From a catalogue of version 1, which had no readings. Without the time of its last change each file is read once more.
TO_VERSION_2 = (
    *("ALTER TABLE runs ADD COLUMN %s BIGINT" % name for name in ("hosts", "files_read")),
    "ALTER TABLE runs ADD COLUMN seconds DOUBLE PRECISION",
    *("ALTER TABLE runs ADD COLUMN %s BIGINT" % name for name in ("good", "unchecked", "bad", "no_bytes")),
    "ALTER TABLE files ADD COLUMN changed BIGINT",
    "ALTER TABLE files ADD COLUMN inode BIGINT",
    *("ALTER TABLE %s ADD COLUMN sha256 TEXT" % table for table in ("files", "checks")),
    "ALTER TABLE changes ADD COLUMN path_before TEXT",
    "CREATE TABLE readings (file BIGINT PRIMARY KEY, run BIGINT, read_on TEXT, size BIGINT, modified BIGINT,"
    " changed BIGINT, inode BIGINT, records BIGINT, good BIGINT, unchecked BIGINT, bad BIGINT, no_bytes BIGINT)",
    "INSERT INTO readings (file, run, read_on, size, modified, records)"
    " SELECT file, run, began, size, modified, records"
    " FROM files JOIN runs USING (run) WHERE state IN (%s)" % as_list(READ),
)
# From one of version 2, which knew nothing of the good records of a damaged file: it is read once more.
TO_VERSION_3 = (
    *("ALTER TABLE readings ADD COLUMN %s BIGINT" % name for name in ("bytes", "damaged")),
    *(
        "ALTER TABLE checks ADD COLUMN %s BIGINT" % name
        for name in ("good_records", "good_bytes", "damages", "damaged")
    ),
    "UPDATE files SET changed = NULL WHERE state = 'refused'",
)
# From one of version 3, which knew nothing of payloads: those of a file are known once it is read again.
COUNTS_OF_PAYLOADS = ("payloads_good", "payloads_unchecked", "payloads_bad")
TO_VERSION_4 = (
    *(
        "ALTER TABLE %s ADD COLUMN %s BIGINT" % (table, it)
        for table in ("runs", "readings")
        for it in COUNTS_OF_PAYLOADS
    ),
    "ALTER TABLE checks ADD COLUMN payloads_status BIGINT",
)
# From one of version 4, which kept no hash of a record. What wasn't known then stays unknown.
TO_VERSION_5 = (
    "ALTER TABLE records ADD COLUMN hash TEXT",
    "ALTER TABLE files ADD COLUMN due BIGINT",
    *("ALTER TABLE files ADD COLUMN %s_there TEXT" % name for name in ("state", "detail")),
    *("ALTER TABLE %s ADD COLUMN seen BIGINT" % table for table in ("files", "readings")),
    *("ALTER TABLE readings ADD COLUMN found_%s TEXT" % name for name in ("state", "detail", "sha256")),
    "ALTER TABLE readings ADD COLUMN is_hashed BIGINT",
    "UPDATE readings SET found_sha256 = (SELECT sha256 FROM files WHERE files.file = readings.file"
    " AND (files.size, files.modified) IS (readings.size, readings.modified))",
    # It knew nothing of the good members of a damaged file, which is read once more.
    "UPDATE files SET changed = NULL WHERE state = 'gunzip'",
)
# From one of version 5, which knew nothing of members: those of a file are known once it is read again.
TO_VERSION_6 = tuple("ALTER TABLE records ADD COLUMN packed_%s BIGINT" % name for name in ("at", "length", "crc"))
# From one of version 6, which knew nothing of near URIs. It has the length of each member.
TO_VERSION_7 = ("CREATE TABLE spellings (%s) WITHOUT ROWID" % TABLES["spellings"], SPELL % "TRUE")
STEPS = tuple(enumerate((TO_VERSION_2, TO_VERSION_3, TO_VERSION_4, TO_VERSION_5, TO_VERSION_6, TO_VERSION_7), 2))


@dataclasses.dataclass(frozen=True)
class Run:
    """A run: its number, when it began and ended (None where it isn't at its end), and whether it reads all files."""

    number: int
    began: str
    ended: Optional[str]
    scope: str


@dataclasses.dataclass(frozen=True)
class Known:
    """What the catalogue knows of a file: its state, when its rows were read, from which bytes, how many of these are
    damaged, and how many bytes its good records have. The rows of a damaged file are those of its good records."""

    file: int
    path: Stored
    state: str
    detail: str
    read_run: Optional[int]
    read_on: Optional[str]
    stamp: Optional[Stamp]
    records: int
    good_bytes: Optional[int]
    damaged: int
    is_fresh: bool

    def mark(self) -> Optional[str]:
        """What is said of answers from it."""
        return mark_of(self.damaged, self.is_fresh, self.read_on)


# Whether the rows of a file are those of its last reading, and how many of the bytes that were read are damaged.
ABOUT_ROWS = "coalesce(damaged, 0), state IN (%s) OR (state IN (%s) AND readings.run IS files.run)" % (
    as_list(READ),
    as_list(DAMAGED),
)
KNOWN = (
    "SELECT files.file, path, state, detail, readings.run, read_on, readings.size, readings.modified, readings.changed,"
    " readings.inode, readings.seen, readings.records, bytes, %s FROM files LEFT JOIN readings USING (file) WHERE "
    % ABOUT_ROWS
)


def mark_of(damaged: int, is_fresh: bool, read_on: Optional[str]) -> Optional[str]:
    """The mark of what comes from a damaged file, or from an earlier reading of one that couldn't be read since."""
    words = ["damaged"] if damaged else []
    return ", ".join(words if is_fresh else [*words, "read on %s" % read_on]) or None


def known_file(row: Sequence[Any]) -> Known:
    """A file as a row of KNOWN has it."""
    stamp = None if None in row[6:10] else Stamp(*row[6:11])
    about = row[4], row[5], stamp, row[11] or 0, row[12], row[13], bool(row[14])
    return Known(row[0], row[1], row[2], row[3] or "", *about)


def is_busy(error: sqlite3.OperationalError) -> bool:
    """Whether another process has the database."""
    return "locked" in str(error) or "busy" in str(error)


def writable(path: str) -> sqlite3.Connection:
    base = sqlite3.connect(path, timeout=BUSY_SECONDS, isolation_level=None)
    base.execute("PRAGMA cache_size = -%d" % CACHE_KIB)
    base.execute("PRAGMA synchronous = FULL")
    base.create_function("key_number", 1, key_number, deterministic=True)
    return base


def without_log(base: sqlite3.Connection) -> bool:
    """Takes away the log of changes, if there is one and nobody else uses the database; returns whether there is none
    now."""
    try:
        base.execute("PRAGMA busy_timeout = 0")
        return bool(base.execute("PRAGMA journal_mode = DELETE").fetchone()[0] != "wal")
    except sqlite3.OperationalError:
        return False


@contextlib.contextmanager
def whole(path: str) -> Iterator[None]:
    """Says why a database can't be read by one who may only read, though the file can."""
    try:
        yield
    except sqlite3.OperationalError as error:
        if str(error) in HALF_DONE and os.access(path, os.R_OK):
            raise Trouble(NOT_MENDED) from None
        raise


def read_only(path: str) -> sqlite3.Connection:
    """The database for a server: it can't be written to, and a question doesn't wait long."""
    uri = "file:%s?mode=ro" % urllib.parse.quote(os.fsencode(path))
    base = sqlite3.connect(uri, timeout=READER_SECONDS, isolation_level=None, check_same_thread=False, uri=True)
    base.execute("PRAGMA cache_size = -%d" % READER_CACHE_KIB)
    return base


class Catalogue:
    """A folder with the database, the jobs that are under way, and the last report."""

    def __init__(self, folder: str, is_made: bool = False, is_read_only: bool = False) -> None:
        """Opens a catalogue, or makes one. One that is read only may be used by any thread, one at a time."""
        self.folder = os.path.abspath(folder)
        self.path = os.path.join(self.folder, "catalogue.sqlite")
        self.jobs = os.path.join(self.folder, "jobs")
        if is_made:
            os.makedirs(self.jobs, exist_ok=True)
        elif not os.path.exists(self.path):
            raise Trouble("no catalogue in %s: make one by warc-collection run" % shown(self.folder))
        with whole(self.path):
            self.base = read_only(self.path) if is_read_only else writable(self.path)
            self.inode = os.stat(self.path).st_ino
            if not is_read_only and not is_made:
                self.mend()
            version = self.one("PRAGMA user_version")[0]
        if version > VERSION:
            raise Trouble("the catalogue in %s is of a later version of warc-collection" % shown(self.folder))
        if version < VERSION and not is_made:
            raise Trouble("the catalogue in %s is of an earlier version: run warc-collection run" % shown(self.folder))

    def mend(self) -> None:
        """Takes away the log that a run left that was killed. This process would take its files, and leave a mark that
        there is one: then those who may write nothing couldn't open the database before the next run."""
        if self.one("PRAGMA journal_mode")[0] == "wal":
            without_log(self.base)
            self.base.execute("PRAGMA busy_timeout = %d" % (BUSY_SECONDS * 1000))

    def is_there(self) -> bool:
        """Whether the database is still the one at its path."""
        try:
            return os.stat(self.path).st_ino == self.inode
        except OSError:
            return False

    def make_tables(self) -> None:
        """Makes what isn't there, and brings an older catalogue to this version."""
        from .watched import carry_over  # here, since it is about a catalogue

        with self.transaction():
            is_old = self.bring_up_to_date()
            for statement in self.missing():
                self.base.execute(statement)
            if is_old:
                carry_over(self)
            self.base.execute("PRAGMA user_version = %d" % VERSION)

    def missing(self) -> Iterator[str]:
        """What makes the tables and the indexes, where they aren't there. The indexes always stay: without them a
        question that somebody asks during a run reads all rows."""
        for name, columns in TABLES.items():
            ending = " WITHOUT ROWID" if name in BY_KEY_ALONE else ""
            yield "CREATE TABLE IF NOT EXISTS %s (%s)%s" % (name, columns, ending)
        yield from ("CREATE INDEX IF NOT EXISTS " + index for index in (*SMALL_INDEXES, *INDEXES))

    def bring_up_to_date(self) -> bool:
        """Changes the tables of an older catalogue. Returns whether it is one."""
        is_there = self.one("SELECT count(*) FROM sqlite_master WHERE name = 'files'")[0]
        version = self.one("PRAGMA user_version")[0] if is_there else VERSION
        for later, steps in STEPS:
            for statement in steps if version < later else ():
                self.base.execute(statement)
        return bool(version < VERSION)

    def patiently(self, statement: str) -> None:
        """Does a statement that has to wait for readers, however long they take."""
        while True:
            try:
                self.base.execute(statement)
                return
            except sqlite3.OperationalError as error:
                if not is_busy(error):
                    raise
                say("%s waits for another process that uses the catalogue" % statement)

    @contextlib.contextmanager
    def transaction(self) -> Iterator[None]:
        self.patiently("BEGIN IMMEDIATE")
        try:
            yield
            self.patiently("COMMIT")
        except BaseException:
            if self.base.in_transaction:
                self.base.execute("ROLLBACK")
            raise

    @contextlib.contextmanager
    def one_state(self) -> Iterator[None]:
        """Answers of one state of the database, whatever a run takes in meanwhile."""
        self.base.execute("BEGIN")
        try:
            yield
        finally:
            self.base.execute("ROLLBACK")

    @contextlib.contextmanager
    def savepoint(self) -> Iterator[None]:
        """A part of a transaction that is undone where it fails. Where a disk is full SQLite undoes all itself."""
        self.base.execute("SAVEPOINT part")
        try:
            yield
        except BaseException:
            if self.base.in_transaction:
                self.base.execute("ROLLBACK TO part")
                self.base.execute("RELEASE part")
            raise
        self.base.execute("RELEASE part")

    def keep_temporary(self, folder: str) -> None:
        """Has SQLite keep its temporary files in a folder, if its name is UTF-8: it takes no other."""
        with contextlib.suppress(sqlite3.Error, UnicodeEncodeError):
            self.base.execute("PRAGMA temp_store_directory = '%s'" % folder.replace("'", "''"))

    def rows(self, query: str, values: Sequence[Any] = ()) -> List[Tuple[Any, ...]]:
        return self.base.execute(query, values).fetchall()

    def one(self, query: str, values: Sequence[Any] = ()) -> Any:
        return self.base.execute(query, values).fetchone()

    def insert(self, table: str, values: Mapping[str, Any]) -> None:
        """Adds a row, by the names of its columns."""
        words = table, ", ".join(values), ", ".join("?" * len(values))
        self.base.execute("INSERT INTO %s (%s) VALUES (%s)" % words, tuple(values.values()))

    def setting(self, name: str) -> Any:
        row = self.one("SELECT value FROM settings WHERE name = ?", (name,))
        return None if row is None else json.loads(row[0])

    def set(self, name: str, value: Any) -> None:
        self.base.execute("INSERT OR REPLACE INTO settings VALUES (?, ?)", (name, json.dumps(value)))

    def last_run(self) -> Optional[Run]:
        row = self.one("SELECT run, began, ended, scope FROM runs ORDER BY run DESC LIMIT 1")
        return None if row is None else Run(*row)

    def files_where(self, condition: str, values: Sequence[Any] = ()) -> List[Known]:
        return [known_file(row) for row in self.rows(KNOWN + condition, values)]

    def file_at(self, path: str) -> Known:
        """The file of a path. A KeyError where the catalogue has none."""
        found = self.files_where("path = ?", (stored_path(path),))
        if not found:
            raise KeyError(path)
        return found[0]

    def states(self) -> Dict[str, int]:
        """How many files are in each state."""
        return dict(self.base.execute("SELECT state, count(*) FROM files GROUP BY state"))

    @contextlib.contextmanager
    def locked(self) -> Iterator[None]:
        """One run at a time. A run that may change the catalogue keeps its changes in a log of their own, if all that
        use the catalogue are on this machine: then readers don't stop it."""
        with open(os.path.join(self.folder, "lock"), "a", encoding="ascii") as lock:
            try:
                fcntl.flock(lock, fcntl.LOCK_EX | fcntl.LOCK_NB)
            except OSError:
                raise Trouble("another run uses this catalogue") from None
            self.base.execute("PRAGMA busy_timeout = %d" % (PATIENCE_SECONDS * 1000))
            self.set_journal("WAL" if is_on_local_disk(self.folder) else "DELETE")
            self.make_tables()
            try:
                yield
            finally:
                self.set_journal("DELETE")

    def set_journal(self, mode: str) -> None:
        """Sets how changes are kept. Where a reader has the database it stays as it is."""
        with contextlib.suppress(sqlite3.OperationalError):
            self.base.execute("PRAGMA journal_mode = " + mode)
