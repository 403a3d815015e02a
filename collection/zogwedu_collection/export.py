"""The tables as text, for PostgreSQL. They are those of one moment: a copy of the database is read, so that a run isn't
stopped by a long export."""
from __future__ import annotations

import contextlib
import os
import re
import sqlite3
import tempfile
from typing import Iterator, Union

from .catalogue import TABLES, Catalogue
from .disk import replaced

Value = Union[None, int, float, str, bytes]
# A key of PostgreSQL has at most 2,704 bytes, and a text may have more; two texts may have the same MD5. So a text is a
# key by its MD5, and no such key is unique.
TEXT_KEYS = {
    "settings": "md5(name)",
    "files": "md5(path)",
    "counts": "run, file, md5(name)",
    "years": "file, md5(year), md5(kind)",
    "hosts": "file, md5(host)",
    "stated": "file, md5(algorithm), md5(manifest)",
    "spellings": "key",
}
INDEXES = (
    "captures_by_target ON captures (md5(target), instant)",
    "records_by_id ON records (md5(lower(trim(both '<>' from id))))",
    "records_of_series ON records (md5(target)) WHERE lower(kind) = 'continuation'",
    *("%s_by_key ON %s (%s)" % (table, table, key) for table, key in TEXT_KEYS.items()),
)


def copied(value: Value) -> str:
    """A value as PostgreSQL's COPY reads it. Bytes that aren't UTF-8, and zero bytes, are written as \\xHH."""
    if value is None:
        return "\\N"
    if isinstance(value, bytes):
        value = value.decode("utf-8", "backslashreplace")
    text = str(value).replace("\0", "\\x00").replace("\\", "\\\\")
    return text.replace("\t", "\\t").replace("\n", "\\n").replace("\r", "\\r")


def columns_of(table: str) -> str:
    """The columns of a table for PostgreSQL, which has other keys and sorts instants by their bytes."""
    columns = TABLES[table].replace("instant TEXT", 'instant TEXT COLLATE "C"')
    if table in TEXT_KEYS:
        columns = re.sub(r", PRIMARY KEY \([^)]*\)", "", columns)
    return columns.replace("TEXT PRIMARY KEY", "TEXT").replace("TEXT UNIQUE", "TEXT")


def script() -> str:
    """What psql does: it makes the tables, fills them, and makes the indexes."""
    lines = ["\\set ON_ERROR_STOP on", "\\encoding UTF8", "BEGIN;"]
    for table in TABLES:
        lines += ["CREATE TABLE %s (%s);" % (table, columns_of(table)), "\\copy %s FROM '%s.tsv'" % (table, table)]
    return "\n".join([*lines, *("CREATE INDEX %s;" % index for index in INDEXES), "COMMIT;", "ANALYZE;"]) + "\n"


@contextlib.contextmanager
def copy_of(catalogue: Catalogue, folder: str) -> Iterator[sqlite3.Connection]:
    """A copy of the database, which is removed afterwards."""
    with tempfile.TemporaryDirectory(prefix=".copy.", dir=folder) as own:
        copy = sqlite3.connect(os.path.join(own, "catalogue.sqlite"), isolation_level=None)
        with contextlib.closing(copy):
            copy.execute("PRAGMA synchronous = OFF")
            catalogue.base.backup(copy)
            yield copy


def export(catalogue: Catalogue, folder: str) -> None:
    """Writes a file for each table, and a script for psql that makes and fills the tables."""
    os.makedirs(folder, exist_ok=True)
    with copy_of(catalogue, folder) as copy:
        for table in TABLES:
            export_table(copy, table, os.path.join(folder, table + ".tsv"))
    with replaced(os.path.join(folder, "load.sql")) as out:
        out.write(script().encode("utf-8"))


def column_names(table: str) -> str:
    """The columns in the order of TABLES: that of an older catalogue may be another."""
    return ", ".join(re.findall(r"(\w+) (?:TEXT|BIGINT|DOUBLE)", TABLES[table]))


def export_table(base: sqlite3.Connection, table: str, path: str) -> None:
    with replaced(path) as out:
        for row in base.execute("SELECT %s FROM %s" % (column_names(table), table)):
            out.write(("\t".join(map(copied, row)) + "\n").encode("utf-8"))
