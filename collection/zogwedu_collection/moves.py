"""Files that were moved or removed on purpose: a move is seen by what the file holds, and `forget` drops the rest."""
from __future__ import annotations

import collections
from typing import Dict, List, Sequence, Set, Tuple

from .catalogue import OF_A_FILE, Catalogue
from .discover import Found, all_listed, is_below, plain_paths
from .job_folders import drop_logs
from .keys import UNSPELL, UNSPELL_ALL
from .states import ABOUT_BYTES, READ, as_list
from .texts import real_path
from .watched import end_watch, watched

ABOUT_A_FILE = (*OF_A_FILE, "readings", "checks", "counts", "changes", "accepted", "acknowledged", "stated", "files")
COLUMNS = {"records": "position, at_offset, length, kind, date, id, target", "digests": "position, verdict, id, digest"}


def settle_moves(catalogue: Catalogue, run: int) -> None:
    """Joins each file that is new in a run with the file that is gone and held the same: then it was moved."""
    joined: Set[int] = set()
    for file, before in same_files(catalogue, run).items():
        left = [old for old in before if old not in joined]
        if len(left) == 1:
            join_files(catalogue, run, left[0], file)
            joined.update(left)


def same_files(catalogue: Catalogue, run: int) -> Dict[int, List[int]]:
    """For each file that is new in a run, those that are gone and have its size, its ids and its digests. Where both
    have the SHA-256 of the whole file it decides. A file of which a list states a checksum has to be where it was."""
    rows = catalogue.rows(
        "SELECT new.file, new.sha256, old.file, old.sha256 FROM changes JOIN files AS new ON new.file = changes.file"
        " JOIN readings AS last ON last.file = new.file"
        " JOIN readings AS earlier ON earlier.size = last.size AND earlier.records = last.records"
        " JOIN files AS old ON old.file = earlier.file WHERE changes.run = ? AND change = 'new'"
        " AND new.state IN (%s) AND old.state = 'gone' AND last.records > 0 AND coalesce(earlier.damaged, 0) = 0"
        " AND NOT EXISTS (SELECT 1 FROM stated WHERE stated.file = old.file) ORDER BY new.file" % as_list(READ),
        (run,),
    )
    found: Dict[int, List[int]] = collections.defaultdict(list)
    for file, now, old, before in rows:
        is_same = before == now if before and now else has_same_records(catalogue, old, file)
        found[file] += [old] if is_same else []
    return found


def has_same_records(catalogue: Catalogue, one: int, other: int) -> bool:
    """Whether two files have the same records, by their hashes too where both are known."""
    query = (
        "SELECT 1 FROM records AS one JOIN records AS other USING (position) WHERE one.file = ? AND other.file = ?"
        " AND one.hash <> other.hash LIMIT 1"
    )
    return all(has_same(catalogue, table, one, other) for table in COLUMNS) and (
        catalogue.one(query, (one, other)) is None
    )


def has_same(catalogue: Catalogue, table: str, one: int, other: int) -> bool:
    """Whether two files have the same rows in a table."""
    part = "SELECT %s FROM %s WHERE file = ?" % (COLUMNS[table], table)
    query = "SELECT 1 FROM (%s EXCEPT %s) UNION ALL SELECT 1 FROM (%s EXCEPT %s) LIMIT 1" % (part, part, part, part)
    return catalogue.one(query, (one, other, other, one)) is None


def join_files(catalogue: Catalogue, run: int, before: int, file: int) -> None:
    """Gives a file the history of the one that it was. The path that it had stays with the change."""
    path = catalogue.one("SELECT path, state FROM files WHERE file = ?", (before,))[0]
    catalogue.base.execute("DELETE FROM changes WHERE file = ? AND change = 'gone'", (before,))
    for table in ("checks", "counts", "changes"):
        catalogue.base.execute(
            "UPDATE OR REPLACE %s SET file = ? WHERE file = ? AND run < ?" % table, (file, before, run)
        )
    catalogue.base.execute("UPDATE accepted SET file = ? WHERE file = ?", (file, before))
    forget(catalogue, before)
    catalogue.base.execute(
        "UPDATE changes SET change = 'moved', path_before = ? WHERE run = ? AND file = ?", (path, run, file)
    )


def forget_files(catalogue: Catalogue, paths: Sequence[str]) -> Tuple[List[str], List[str]]:
    """Ends the watch of these folders and lists, and forgets their files, and other files of these paths or below them
    that are gone or outside of the collection. Returns those that were forgotten, and those that stay, since the
    collection has them. Where a list of files can't be read, any file may be in it."""
    forgotten, kept = [], []
    with catalogue.transaction():
        ended = end_watch(catalogue, paths)
        was_listed, lists, whole = set(all_listed(ended, Found())), Found(), watched(catalogue)
        folders, listed = plain_paths(whole), set(all_listed(whole, lists))
        for file, stored, state in catalogue.rows("SELECT file, path, state FROM files ORDER BY path"):
            path = real_path(stored)
            if not (is_below(path, paths) or path in was_listed):
                continue
            is_in = bool(lists.unread) or path in listed or is_below(path, folders)
            if state != "gone" and is_in:
                kept.append(path)
            else:
                forget(catalogue, file)
                forgotten.append(path)
    return forgotten, kept


def forget(catalogue: Catalogue, file: int) -> None:
    """Drops all that is known of a file, also the reading that is beside its own."""
    catalogue.base.execute(UNSPELL, (file, -file) * 2)
    for table in ABOUT_A_FILE:
        catalogue.base.execute("DELETE FROM %s WHERE file IN (?, ?)" % table, (file, -file))


def prune(catalogue: Catalogue, keep: int) -> int:
    """Drops what runs before the last ones found of single files. The sums of each run, and the last that is known of
    each file, stay. Returns the number of rows."""
    oldest = catalogue.one("SELECT max(run) FROM runs")[0] or 0
    dropped = 0
    with catalogue.transaction():
        for table in ("checks", "counts", "changes"):
            last = "SELECT file, max(run) FROM %s GROUP BY file" % table
            if table == "checks":
                about_bytes = "SELECT file, max(run) FROM checks WHERE state IN (%s) GROUP BY file"
                last += " UNION " + about_bytes % as_list(ABOUT_BYTES)
            query = "DELETE FROM %s WHERE run <= ? AND (file, run) NOT IN (%s)" % (table, last)
            dropped += catalogue.base.execute(query, (oldest - keep,)).rowcount
        catalogue.base.execute(UNSPELL_ALL)
    drop_logs(catalogue, oldest - keep)
    catalogue.patiently("VACUUM")
    return dropped
