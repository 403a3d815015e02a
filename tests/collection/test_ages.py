"""When files were read: a dead cron job shows, and each file is read again within a time."""
from __future__ import annotations

import os
import sqlite3
import time

from conftest import Collection, lines, record, to_read, unchanged


def set_back(collection: Collection, days: int) -> None:
    """Makes all that is known `days` older."""
    then = time.strftime("%Y-%m-%dT%H:%M:%SZ", time.gmtime(time.time() - days * 86_400))
    base = sqlite3.connect(collection.path("catalogue/catalogue.sqlite"))
    with base:
        base.execute("UPDATE runs SET began = ?, ended = ? WHERE ended IS NOT NULL", (then, then))
        base.execute("UPDATE readings SET read_on = ?", (then,))
    base.close()


def test_a_dead_cron_job(collection: Collection) -> None:
    collection.pages("disk/a.warc", 2)
    collection.night("disk")
    assert collection.run("status", "--max-age", "2d").returncode == 0
    set_back(collection, 3)
    done = collection.run("status", "--max-age", "2d")
    assert done.returncode == 1
    assert [line for line in lines(done) if line.startswith("late\tlast run\t1\tended ")]
    assert [line for line in lines(done) if line.startswith("oldest\t") and "a.warc\tread on 2" in line]
    assert collection.run("status", "--max-age", "4d").returncode == 0
    found = collection.status()
    assert found["last_run"]["ended"] < found["folders"][0]["read_on"]
    assert found["last_run"]["seconds"] == 0 and found["oldest"]["path"].endswith("a.warc")


def test_no_run_came_to_its_end(collection: Collection) -> None:
    collection.pages("disk/a.warc", 1)
    collection.run("plan", "disk")
    done = collection.run("status", "--max-age", "1d")
    assert done.returncode == 1 and "late\tlast run\t-\tnone came to its end" in lines(done)
    assert collection.run("status", "--max-age", "0d").returncode == 2


def test_each_file_is_read_within_a_time(collection: Collection) -> None:
    """A night later a tenth is due, those first that were read longest ago; and an overdue file in any case."""
    for number in range(10):
        collection.put("disk/%d.warc" % number, record(number, b"x" * 1000))
    collection.night("disk")
    set_back(collection, 1)
    done = collection.night("--within", "11d")
    assert to_read(done) == 1 and b"reread 1 of 10 files, 1.3 of 12.8 kB" in done.stderr
    read = collection.ask("SELECT count(*) FROM checks WHERE run = 2")[0][0]
    assert read == to_read(done)
    again = collection.ask("SELECT file FROM readings WHERE run = 2")
    base = sqlite3.connect(collection.path("catalogue/catalogue.sqlite"))
    with base:
        base.execute("UPDATE readings SET read_on = '2021-01-01T00:00:00Z' WHERE file > 7")
    base.close()
    done = collection.night("--within", "11d")
    assert to_read(done) >= 3 and set(again).isdisjoint(collection.ask("SELECT file FROM readings WHERE run = 3"))


def test_a_file_that_is_read_again_is_compared(collection: Collection) -> None:
    path = collection.put("disk/a.warc", record(1), record(2))
    collection.night("disk")
    unchanged(path, record(1), record(3))
    set_back(collection, 40)
    assert collection.night("--within", "30d").returncode == 1
    assert collection.states() == {"a.warc": "altered"}


def test_all_jobs_keep_to_a_rate(collection: Collection) -> None:
    """Each file is read by two commands, and for its digest."""
    for number in range(4):
        collection.put("disk/%d.warc" % number, record(number, os.urandom(100_000)))
    began = time.monotonic()
    assert collection.night("--digest", "--rate", "400K", "disk").returncode == 0
    assert time.monotonic() - began > 1_200_000 / (400 * 1024)
