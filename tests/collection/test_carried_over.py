"""A catalogue of an earlier version goes on: what it knew is kept, and what it didn't know stays unknown."""
from __future__ import annotations

import gzip
import os
import shutil
import sqlite3

import pytest
from conftest import Collection, put, record, to_read, unchanged

HERE = os.path.dirname(os.path.abspath(__file__))
VERSIONS = ("catalogue-0.2.0.sql", "catalogue-4.sql")
READ_THEN = 1_600_000_000
SEVENTH, EIGHTH = "http://a.example/7", "http://a.example/8"


def archive(collection: Collection, name: str, *parts: bytes) -> str:
    """A file that is as it was when the catalogue was made."""
    path = put(collection.path("disk", name), *parts)
    os.utime(path, (READ_THEN, READ_THEN))
    return path


def carry(collection: Collection, version: str) -> None:
    """Makes a catalogue as an earlier version had it, and its files."""
    os.makedirs(collection.path("catalogue", "jobs"))
    with open(os.path.join(HERE, version), encoding="ascii") as file:
        text = file.read().replace("@TOP@", collection.folder)
    base = sqlite3.connect(collection.path("catalogue", "catalogue.sqlite"))
    base.executescript(text)
    base.close()
    archive(collection, "a.warc", record(1), record(2, b"two"))
    archive(collection, "cut.warc", record(3), record(4, b"four"))
    archive(collection, "damaged.warc", record(5), b"garbage", record(6))


@pytest.mark.parametrize("version", VERSIONS)
def test_a_catalogue_goes_on(collection: Collection, version: str) -> None:
    carry(collection, version)
    assert collection.run("find", "http://a.example/").returncode == 3, "a run brings it to this version"
    done = collection.night()
    assert to_read(done) == 3, "without the time of a reading each file is read once more"
    states = {"a.warc": "good", "cut.warc": "good", "damaged.warc": "refused", "away.warc": "gone"}
    assert collection.states() == states
    assert [it["path"] for it in collection.status()["folders"]] == [collection.path("disk")]
    assert collection.ask("SELECT count(*) FROM runs") == [(3,)]
    assert collection.ask("SELECT name FROM settings WHERE name IN ('paths', 'lists')") == []
    assert collection.night().returncode == 1
    assert collection.run("export", "tables").returncode == 0


def test_an_unmounted_folder_of_before(collection: Collection) -> None:
    carry(collection, "catalogue-4.sql")
    shutil.move(collection.path("disk"), collection.path("off"))
    assert collection.night().returncode == 3
    (folder,) = collection.status()["folders"]
    assert folder["read_on"] is None and not folder["is_there"]
    assert collection.states()["a.warc"] == "good"


def test_files_of_a_folder_that_was_replaced_before(collection: Collection) -> None:
    """An earlier version dropped folders that weren't named again: their files are no longer good for ever."""
    carry(collection, "catalogue-4.sql")
    base = sqlite3.connect(collection.path("catalogue", "catalogue.sqlite"))
    with base:
        base.execute("UPDATE settings SET value = '[\"%s\"]' WHERE name = 'paths'" % collection.path("other"))
    base.close()
    collection.pages("other/b.warc", 1)
    done = collection.night()
    assert done.returncode == 1
    unread = dict.fromkeys(("a.warc", "cut.warc", "damaged.warc"), "unread")
    assert collection.states() == {**unread, "b.warc": "good", "away.warc": "gone"}
    assert "no folder" in collection.detail("a.warc")
    collection.night("disk")
    assert collection.states()["a.warc"] == "good"


@pytest.mark.parametrize("version", VERSIONS)
def test_what_an_earlier_version_read_is_compared(collection: Collection, version: str) -> None:
    """By place, length, type, date, id and target alone: it kept nothing else."""
    carry(collection, version)
    put(collection.path("disk/cut.warc"), record(3))
    put(collection.path("disk/a.warc"), record(1, b"ABC"), record(2, b"two"))
    assert collection.night().returncode == 1
    assert collection.states()["cut.warc"] == "altered"
    assert "of 2 records, 1 is missing, the first at position 1" in collection.detail("cut.warc")
    assert collection.states()["a.warc"] == "good", "which digest was stated wasn't known"


def test_status_counts_what_is_compared_by_less(collection: Collection) -> None:
    carry(collection, "catalogue-4.sql")
    shutil.move(collection.path("disk"), collection.path("off"))
    collection.night()
    assert collection.status()["unhashed"] == 3
    assert b"unhashed\t3\t" in collection.run("status").stdout
    shutil.move(collection.path("off"), collection.path("disk"))
    collection.night()
    assert collection.status()["unhashed"] == 0


def test_a_version_without_members(collection: Collection) -> None:
    """A file is unpacked as a whole until it is read again."""
    carry(collection, "catalogue-5.sql")
    members = [gzip.compress(record(7, b"seven", SEVENTH), 0), gzip.compress(record(8, b"eight", EIGHTH), 0)]
    path = archive(collection, "packed.warc.gz", *members)
    assert to_read(collection.night()) == 0
    good = dict.fromkeys(("a.warc", "cut.warc", "packed.warc.gz"), "good")
    assert collection.states() == {**good, "damaged.warc": "refused", "away.warc": "gone"}
    known = "SELECT count(*) FROM records WHERE packed_at IS NOT NULL"
    assert collection.ask(known) == [(0,)]
    assert collection.run("replay", EIGHTH, "9999").stdout == b"eight"
    torn = members[0][:-1] + b"x" + members[1]
    unchanged(path, torn)
    assert collection.run("replay", EIGHTH, "9999").returncode == 3, "all of it is read"
    unchanged(path, *members)
    collection.night("--all")
    assert collection.ask(known) == [(2,)]
    unchanged(path, torn)
    assert collection.run("replay", EIGHTH, "9999").stdout == b"eight", "one member is read"
    assert collection.run("replay", "--whole", EIGHTH, "9999").returncode == 3


def test_the_version_before(collection: Collection) -> None:
    """It knew nothing of near URIs, and had the length of each member. What was read isn't read again."""
    carry(collection, "catalogue-6.sql")
    targets = "http://a.example/Seven?b&a", "http://a.example/Eight?b&a"
    blocks = zip((7, 8), (b"seven", b"eight"), targets)
    members = [gzip.compress(record(*it), 0) for it in blocks]
    path = archive(collection, "packed.warc.gz", *members)
    assert to_read(collection.night()) == 0
    assert collection.ask("SELECT target FROM spellings ORDER BY target") == [(it,) for it in sorted(targets)]
    unchanged(path, members[0], members[1][:-1] + b"x")
    for _ in range(2):
        assert collection.run("replay", targets[0], "9999").stdout == b"seven", "one member is read"
        unchanged(path, *members)
        collection.night("--all")
        unchanged(path, members[0], members[1][:-1] + b"x")
    lengths = "SELECT packed_length FROM records WHERE packed_at IS NOT NULL ORDER BY position"
    assert collection.ask(lengths) == [(None,), (len(members[1]),)]
