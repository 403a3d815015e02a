"""Two copies of a file: where one can't be read, or isn't to be trusted, the other answers."""
from __future__ import annotations

import os
import shutil

from conftest import URI, Collection, later, put, record, unchanged


def two(collection: Collection, *words: str) -> str:
    """A file with a copy on another disk. Returns the copy."""
    path = collection.put("disk1/a.warc", record(1, b"the page"))
    os.makedirs(collection.path("disk2"))
    copy = collection.path("disk2/a.warc")
    shutil.copy2(path, copy)
    assert collection.night("disk1", "disk2", *words).returncode == 0
    return copy


def judge(collection: Collection, why: bytes) -> None:
    """`replay` and `find` answer from the good copy, and say which one was passed over."""
    done = collection.run("replay", URI, "9999")
    assert (done.returncode, done.stdout) == (0, b"the page"), done.stderr
    assert b"passed over: " in done.stderr and b"disk2/a.warc" in done.stderr and why in done.stderr
    for words in ((URI,), (URI, "9999")):
        done = collection.run("find", *words)
        assert done.returncode == 0 and done.stdout.count(b"a.warc") == 1 and b"disk1" in done.stdout
        assert b"passed over: " in done.stderr and why in done.stderr


def test_both_copies(collection: Collection) -> None:
    two(collection)
    done = collection.run("replay", URI, "9999")
    assert done.stdout == b"the page" and b"agrees: " in done.stderr and b"passed over" not in done.stderr


def test_an_unmounted_copy(collection: Collection) -> None:
    copy = two(collection)
    os.unlink(copy)
    judge(collection, b"No such file")


def test_a_copy_that_changed(collection: Collection) -> None:
    copy = two(collection)
    put(copy, record(1, b"another"))
    later(copy)
    judge(collection, b"changed since run 1 read it")


def test_a_rotten_copy(collection: Collection) -> None:
    copy = two(collection, "--digest")
    unchanged(copy, record(1, b"the PAGE"))
    assert collection.night("--all", "--digest").returncode == 1
    judge(collection, b"rotten")


def test_a_bad_copy(collection: Collection) -> None:
    copy = two(collection)
    bad = record(2, b"x", URI + "x", digest="sha1:" + "A" * 32)
    put(copy, record(1, b"the page"), bad)
    later(copy)
    assert collection.night().returncode == 1
    judge(collection, b"bad")
    os.unlink(collection.path("disk1/a.warc"))
    done = collection.run("replay", URI, "9999")
    assert (done.returncode, done.stdout) == (0, b"the page"), "a bad file answers where no other one does"


def test_an_altered_copy(collection: Collection) -> None:
    copy = two(collection)
    put(copy, record(1, b"THE page"))
    later(copy)
    assert collection.night().returncode == 1
    done = collection.run("replay", URI, "9999")
    assert (done.returncode, done.stdout) == (0, b"the page")
    assert b"disk2/a.warc (altered" in done.stderr
    assert b"disk2" not in collection.run("find", URI).stdout


def test_no_copy_can_be_read(collection: Collection) -> None:
    copy = two(collection)
    os.unlink(copy)
    os.unlink(collection.path("disk1/a.warc"))
    done = collection.run("replay", URI, "9999")
    assert (done.returncode, done.stdout) == (3, b"") and b"No such file" in done.stderr
    assert collection.run("find", URI).stdout.count(b"a.warc") == 2


def test_copies_that_disagree(collection: Collection) -> None:
    collection.put("disk1/a.warc", record(1, b"one"))
    collection.put("disk2/a.warc", record(1, b"two"))
    collection.night("disk1", "disk2")
    done = collection.run("replay", URI, "9999")
    assert (done.returncode, done.stdout) == (1, b"") and b"disagree" in done.stderr
