"""Taking in what jobs found: of each file the whole, or nothing."""
from __future__ import annotations

import contextlib
import dataclasses
import json
import os
import shutil
import sqlite3
from typing import Any, Iterator, List, Optional, Tuple

from .alarm import log_state
from .catalogue import OF_A_FILE, Catalogue
from .compared import UNACCEPTED, compare, drop_beside
from .disk import Stamp
from .job import Outcome, outcome_of
from .jobs import all_files, files_of
from .job_folders import drop_folders, folders_of, names_in
from .keys import SPELL
from .lines import RecordRow, Sums, capture_rows, digest_rows, finding_rows, payload_rows, payloads_of, record_rows
from .manifest import compare_stated
from .moves import settle_moves
from .parts import SURVEY, Parts
from .search_index import take_in_texts
from .states import ABOUT_BYTES, as_list
from .texts import decoded, now, say, shown, stored_path
from .wacz import load_package

MOST_ROWS = 200_000
# The columns of a reading that count something, in the order in which they are counted.
COUNTS = (
    *("records", "good", "unchecked", "bad", "no_bytes", "bytes", "damaged"),
    *("payloads_good", "payloads_unchecked", "payloads_bad"),
)
# What a job's folder that isn't whole, as after a power cut, makes of reading it.
NOT_WHOLE = (
    *(OSError, ValueError, KeyError, TypeError, IndexError, AttributeError, OverflowError),
    *(sqlite3.IntegrityError, sqlite3.DataError, sqlite3.InterfaceError),
)


@dataclasses.dataclass(frozen=True)
class Before:
    """What the catalogue has of a file before a job's outcome is taken in. `rotten` is the size and the time of the
    file if its last reading found rotten bytes, whatever kept it from being read since."""

    file: int
    size: Optional[int]
    modified: Optional[int]
    sha256: Optional[str]
    has_reading: bool
    read_sha256: Optional[str]
    rotten: Optional[Tuple[int, int]]

    def is_still_rotten(self, stamp: Stamp) -> bool:
        return self.rotten == (stamp.size, stamp.modified)

    def has_same_time(self, stamp: Optional[Stamp]) -> bool:
        return stamp is not None and (stamp.size, stamp.modified) == (self.size, self.modified)

    def sha256_of(self, stamp: Stamp, is_same: bool) -> Optional[str]:
        """What is known of the SHA-256 of bytes that were read without it: what was known of the same size and time, or
        of the same records, so that a later reading compares with what was known, and not with nothing."""
        known = self.sha256 if self.has_same_time(stamp) else None
        return known or (self.read_sha256 if is_same else None)


def before_job(catalogue: Catalogue, path: str) -> Before:
    query = (
        "SELECT file, files.size, files.modified, sha256, readings.run IS NOT NULL, found_sha256"
        " FROM files LEFT JOIN readings USING (file) WHERE path = ?"
    )
    row = catalogue.one(query, (stored_path(path),))
    if row is None:
        raise KeyError(path)
    file, size, modified, sha256, has_reading, read_sha256 = row
    last = catalogue.one(
        "SELECT state, size, modified FROM checks WHERE file = ? AND state IN (%s)"
        " AND run > coalesce((SELECT max(run) FROM accepted WHERE file = checks.file), 0) ORDER BY run DESC LIMIT 1"
        % as_list(ABOUT_BYTES),
        (file,),
    )
    rotten = (last[1], last[2]) if last is not None and last[0] == "rotten" else None
    return Before(file, size, modified, sha256, bool(has_reading), read_sha256, rotten)


def take_in_all(catalogue: Catalogue) -> int:
    """Takes in what the jobs of the last run left in its folders, and ends it where all are done. Returns how many
    files are left of the newest list, which has all that the lists before it left."""
    last = catalogue.last_run()
    folders = [] if last is None or last.ended is not None else folders_of(catalogue, last.number)
    if last is None or not folders:
        drop_folders(catalogue, None)
        return 0
    for folder in folders[:-1]:
        take_in(catalogue, last.number, folder)
    left = end_run(catalogue, last.number, folders[-1])
    drop_folders(catalogue, last.number if left else None)
    return left


def end_run(catalogue: Catalogue, run: int, folder: str) -> int:
    """Ends a run whose jobs are all done. Returns how many aren't."""
    take_in(catalogue, run, folder)
    try:
        paths = all_files(folder)
    except (OSError, ValueError, TypeError) as error:
        say("the list of jobs in %s can't be read: %s" % (shown(folder), error))
        return 1
    query = "SELECT path FROM files JOIN checks USING (file) WHERE checks.run = ? AND files.state <> 'unread'"
    done = {path for path, in catalogue.rows(query, (run,))}
    left = sum(stored_path(path) not in done for path in paths)
    if left == 0:
        close_run(catalogue, run)
    return left


def close_run(catalogue: Catalogue, run: int) -> None:
    """Notes the end of a run, which files were moved, and the sums over the whole collection for the report."""
    with catalogue.transaction():
        settle_moves(catalogue, run)
        totals = catalogue.one(
            "SELECT coalesce(sum(good), 0), coalesce(sum(unchecked), 0), coalesce(sum(bad), 0),"
            " coalesce(sum(no_bytes), 0), coalesce(sum(payloads_good), 0), coalesce(sum(payloads_unchecked), 0),"
            " coalesce(sum(payloads_bad), 0) FROM readings JOIN files USING (file) WHERE state <> 'gone'"
        )
        work = catalogue.one(
            "SELECT count(DISTINCT host), count(*), coalesce(sum(seconds), 0) FROM checks WHERE run = ?", (run,)
        )
        catalogue.base.execute(
            "UPDATE runs SET ended = ?, hosts = ?, files_read = ?, seconds = ?, good = ?, unchecked = ?, bad = ?,"
            " no_bytes = ?, payloads_good = ?, payloads_unchecked = ?, payloads_bad = ? WHERE run = ?",
            (now(), *work, *totals, run),
        )


def take_in(catalogue: Catalogue, run: int, folder: str) -> None:
    """Takes in each job that is done."""
    for _ in taken_in(catalogue, run, folder):
        pass


def taken_in(catalogue: Catalogue, run: int, folder: str) -> Iterator[str]:
    """Takes in each job that is done: many in one transaction. What is taken in twice replaces itself. Gives the names
    of the jobs that were taken in."""
    names = names_in(os.path.join(folder, "done"))
    while names:
        for name in take_in_some(catalogue, run, folder, names):
            drop(folder, name)
            yield name


def take_in_some(catalogue: Catalogue, run: int, folder: str, names: List[str]) -> List[str]:
    """Takes in the last of these jobs, and takes them from the list. Returns them."""
    taken: List[str] = []
    found: List[Outcome] = []
    rows = 0
    with catalogue.transaction():
        while names and rows < MOST_ROWS:
            taken.append(names.pop())
            rows += take_in_job(catalogue, run, folder, taken[-1], found)
    take_in_texts(catalogue, run, folder, taken)
    for outcome in found:
        log_state(outcome.state, stored_path(outcome.path), outcome.detail)
    return taken


def drop(folder: str, name: str) -> None:
    """Removes the folder of a job. It loses its name first, so that no half of it is ever taken in."""
    away = os.path.join(folder, "work", "taken." + name)
    shutil.rmtree(away, ignore_errors=True)
    with contextlib.suppress(OSError):
        os.rename(os.path.join(folder, "done", name), away)
    shutil.rmtree(away, ignore_errors=True)


def take_in_job(catalogue: Catalogue, run: int, folder: str, name: str, taken: List[Outcome]) -> int:
    """Takes in what a job found, and adds it to what was taken in. Returns the number of rows. What isn't whole is left
    out, and its files are unread."""
    try:
        paths = [item.path for item in files_of(folder, int(name))]
    except (OSError, ValueError, TypeError):
        paths = []
    try:
        with catalogue.savepoint():
            found = outcomes_in(os.path.join(folder, "done", name))
            if [outcome.path for outcome in found] != paths:
                raise ValueError("the outcomes of its %d files aren't there" % len(paths))
            rows = sum(load_file(catalogue, run, outcome, parts_of(folder, name, outcome)) for outcome in found)
        taken += found
        return rows
    except NOT_WHOLE as error:
        why = error or type(error).__name__
        say("what job %s left isn't whole, and its files are to be read again: %s" % (name, why))
    for path in paths:
        with contextlib.suppress(KeyError):
            file = catalogue.file_at(path).file
            catalogue.base.execute("UPDATE files SET state = 'unread', detail = '' WHERE file = ?", (file,))
    return 1


def outcomes_in(own: str) -> List[Outcome]:
    """What came of the files of a job."""
    with open(os.path.join(own, "outcomes"), "rb") as file:
        return [outcome_of(json.loads(line)) for line in file]


def parts_of(folder: str, name: str, outcome: Outcome) -> Parts:
    """What was written over a file of a job."""
    places = {part: [int(at) for at in place] for part, place in outcome.places.items()}
    return Parts(os.path.join(folder, "done", name, "output"), places)


def judged(before: Before, outcome: Outcome) -> None:
    """Corrects the state by the digest of the whole file: other bytes with the same size and time are rotten."""
    if outcome.state not in ABOUT_BYTES or outcome.stamp is None or not before.has_same_time(outcome.stamp):
        return
    differs = before.sha256 is not None and outcome.sha256 is not None and before.sha256 != outcome.sha256
    is_still = before.is_still_rotten(outcome.stamp) and outcome.sha256 is None
    if differs or is_still:
        outcome.state = "rotten"
        outcome.detail = "its SHA-256 was %s%s" % (before.sha256, ", and is %s" % outcome.sha256 if differs else "")


@dataclasses.dataclass(frozen=True)
class Reading:
    """A reading that is taken in: the number under which its rows are kept, its run, what the bytes were, the state
    that it gave by itself, the SHA-256 of the bytes, and whether it has all rows."""

    file: int
    run: int
    stamp: Stamp
    state: str
    detail: str
    sha256: Optional[str]
    is_whole: bool


def load_file(catalogue: Catalogue, run: int, outcome: Outcome, parts: Parts) -> int:
    """Loads what a job found of a file. Returns the number of rows."""
    before, own = before_job(catalogue, outcome.path), (outcome.state, outcome.detail)
    has_rows, stamp = outcome.has_rows(), outcome.stamp
    judged(before, outcome)
    is_compared = before.has_reading and outcome.state != "rotten"
    is_same = is_compared and compare(catalogue, before.file, before.read_sha256, parts, outcome)
    is_misstated = compare_stated(catalogue, before.file, outcome)
    put_check(catalogue, run, before.file, outcome)
    is_partly_read = outcome.state == "no-room" and outcome.statuses.get("summary") == 0 and not before.has_reading
    rows, is_new = 0, outcome.state in UNACCEPTED and (before.has_reading or is_misstated)
    if has_rows or outcome.state == "altered":
        drop_beside(catalogue, before.file)
    if stamp is not None and (is_partly_read or (has_rows and (is_new or outcome.state != "rotten"))):
        sha256 = outcome.sha256 or before.sha256_of(stamp, is_same)
        reading = Reading(-before.file if is_new else before.file, run, stamp, *own, sha256, has_rows)
        rows = load_rows(catalogue, parts, outcome, reading)
    note_state(catalogue, run, before, outcome)
    note_change(catalogue, run, before.file, outcome)
    return rows + 20


def put_check(catalogue: Catalogue, run: int, file: int, outcome: Outcome) -> None:
    """Notes what a run found of a file."""
    statuses = [outcome.statuses.get(command) for command in SURVEY]
    size_and_time = (None, None) if outcome.stamp is None else (outcome.stamp.size, outcome.stamp.modified)
    pieces = (None,) * 4 if outcome.pieces is None else dataclasses.astuple(outcome.pieces)
    catalogue.base.execute(
        "INSERT OR REPLACE INTO checks (run, file, size, modified, state, detail, host, seconds, list_status,"
        " fixity_status, check_status, summary_status, captures_status, payloads_status, sha256, good_records,"
        " good_bytes, damages, damaged) VALUES (?, ?, ?, ?, ?, ?, ?, ?, ?, ?, ?, ?, ?, ?, ?, ?, ?, ?, ?)",
        (run, file, *size_and_time, outcome.state, outcome.detail, outcome.host, outcome.seconds, *statuses)
        + (outcome.sha256, *pieces),
    )
    catalogue.base.execute("DELETE FROM counts WHERE run = ? AND file = ?", (run, file))


def note_state(catalogue: Catalogue, run: int, before: Before, outcome: Outcome) -> None:
    """Notes the state of a file, and its size and time. The digest is that of bytes with this size and time."""
    put, file, stamp = catalogue.base.execute, before.file, outcome.stamp
    put("UPDATE files SET state = ?, detail = ?, run = ? WHERE file = ?", (outcome.state, outcome.detail, run, file))
    if stamp is None:
        return
    sha256 = outcome.sha256 if outcome.state in ABOUT_BYTES else None
    if outcome.state == "rotten" or (sha256 is None and before.has_same_time(stamp)):
        sha256 = before.sha256
    put(
        "UPDATE files SET size = ?, modified = ?, changed = ?, inode = ?, seen = ?, sha256 = ? WHERE file = ?",
        (*dataclasses.astuple(stamp), sha256, file),
    )


def note_change(catalogue: Catalogue, run: int, file: int, outcome: Outcome) -> None:
    """Notes how a file changed since the run that read it before."""
    before = catalogue.one(
        "SELECT state, size, modified FROM checks WHERE file = ? AND run < ? ORDER BY run DESC LIMIT 1", (file, run)
    )
    query = "SELECT change FROM changes WHERE file = ? AND run < ? ORDER BY run DESC LIMIT 1"
    was_gone = catalogue.one(query, (file, run)) == ("gone",)
    change = change_of(before, outcome, was_gone)
    catalogue.base.execute("DELETE FROM changes WHERE run = ? AND file = ?", (run, file))
    if change != "same" or before[0] != outcome.state:
        catalogue.base.execute(
            "INSERT INTO changes (run, file, change, state_before, state_after) VALUES (?, ?, ?, ?, ?)",
            (run, file, change, before and before[0], outcome.state),
        )


def change_of(before: Any, outcome: Outcome, was_gone: bool) -> str:
    """How a file changed. `before`: its state, size and time as an earlier run had them, or None."""
    if before is None:
        return "new"
    if was_gone:
        return "back"
    stamp = outcome.stamp
    if stamp is None or before[1] is None or (stamp.size, stamp.modified) == before[1:]:
        return "same"
    return "grown" if stamp.size > before[1] else "changed"


def load_rows(catalogue: Catalogue, parts: Parts, outcome: Outcome, reading: Reading) -> int:
    """Loads what the commands wrote of a file, in the place of its rows. Returns the number of records. The numbers of
    lines must be those that `summary` has, so that nothing that was cut off is taken for the whole."""
    file = reading.file
    for table in OF_A_FILE:
        catalogue.base.execute("DELETE FROM %s WHERE file = ?" % table, (file,))
    sums, put = Sums(), catalogue.base.executemany
    summary = parts.summary()
    good, bad, unchecked = (int(summary[name]) for name in ("good", "bad", "unchecked"))
    marks = ", ".join("?" * len(RecordRow._fields))
    records = put("INSERT INTO records VALUES (%s)" % marks, record_rows(file, parts, sums)).rowcount
    captures = put(
        "INSERT INTO captures VALUES (?, ?, ?, ?, ?, ?, ?, ?, ?, ?, ?)", capture_rows(file, parts, sums)
    ).rowcount
    catalogue.base.execute(SPELL % "file = ?", (file,))
    digests = put("INSERT INTO digests VALUES (?, ?, ?, ?, ?)", digest_rows(file, parts)).rowcount
    put("INSERT INTO payloads VALUES (?, ?, ?, ?, ?, ?)", payload_rows(file, parts))
    put("INSERT INTO findings VALUES (?, ?, ?, ?, ?)", finding_rows(file, parts))
    load_package(catalogue, file, parts)
    whole = [int(summary["records"]), int(summary["captures"]), bad + unchecked]
    seen = [max(count, 0) for count in (records, captures, digests)]
    if not reading.is_whole:
        seen[1] = whole[1]
    if seen != whole or good + bad + unchecked != whole[0]:
        raise ValueError("%s records, captures and digests are there, and summary has %s" % (seen, whole))
    load_sums(catalogue, file, sums)
    counts = ((reading.run, abs(file), name, value) for name, value in summary.items())
    put("INSERT INTO counts VALUES (?, ?, ?, ?)", counts)
    damaged = 0 if outcome.pieces is None else outcome.pieces.damaged
    about = good, unchecked, bad - outcome.no_bytes, outcome.no_bytes, int(summary["bytes"]), damaged
    all_counts = (whole[0], *about, *payloads_of(parts)) if reading.is_whole else None
    put_reading(catalogue, reading, all_counts, parts.has("hashes"))
    return whole[0]


def load_sums(catalogue: Catalogue, file: int, sums: Sums) -> None:
    """Loads the sums over the records and captures of a file."""
    years = (
        (file, decoded(year), decoded(kind), count, sums.year_bytes[year, kind])
        for (year, kind), count in sums.years.items()
    )
    catalogue.base.executemany("INSERT INTO years VALUES (?, ?, ?, ?, ?)", years)
    hosts = ((file, host, count, sums.host_bytes[host]) for host, count in sums.hosts.items())
    catalogue.base.executemany("INSERT INTO hosts VALUES (?, ?, ?, ?)", hosts)


def put_reading(catalogue: Catalogue, it: Reading, counts: Optional[Tuple[int, ...]], is_hashed: bool) -> None:
    """Notes when the rows of a file were read, and from which bytes. Without counts they aren't the whole."""
    catalogue.base.execute("DELETE FROM readings WHERE file = ?", (it.file,))
    if counts is not None:
        catalogue.base.execute("UPDATE files SET records = ? WHERE file = ?", (counts[0], it.file))
        about = {"file": it.file, "run": it.run, "read_on": now(), **dataclasses.asdict(it.stamp)}
        found = {"found_state": it.state, "found_detail": it.detail, "found_sha256": it.sha256}
        catalogue.insert("readings", {**about, **dict(zip(COUNTS, counts)), **found, "is_hashed": int(is_hashed)})
