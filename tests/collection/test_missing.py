"""A mount that is missing for a night: nothing is taken for gone, and nothing is read again."""
from __future__ import annotations

import os
from collections import Counter

from conftest import Collection, lines, record, to_read


def many(collection: Collection, count: int = 12) -> None:
    for number in range(count):
        collection.put("disk/%d.warc" % number, record(number))
    assert collection.night("--batch", "20", "disk").returncode == 0


def test_an_empty_mount_point(collection: Collection) -> None:
    many(collection)
    os.rename(collection.path("disk"), collection.path("off"))
    os.mkdir(collection.path("disk"))
    done = collection.night()
    assert done.returncode == 3 and b"12 of its 12 files aren't there: see --allow-missing" in done.stderr
    assert set(collection.states().values()) == {"good"}
    done = collection.run("status")
    assert done.returncode == 3 and "--allow-missing" in lines(done)[0]
    os.rmdir(collection.path("disk"))
    os.rename(collection.path("off"), collection.path("disk"))
    done = collection.night()
    assert done.returncode == 0 and to_read(done) == 0


def test_files_that_were_removed(collection: Collection) -> None:
    many(collection)
    os.rename(collection.path("disk"), collection.path("off"))
    os.mkdir(collection.path("disk"))
    assert collection.night("--allow-missing").returncode == 1
    assert set(collection.states().values()) == {"gone"}
    os.rmdir(collection.path("disk"))
    os.rename(collection.path("off"), collection.path("disk"))
    done = collection.night()
    assert done.returncode == 0 and to_read(done) == 0, "what comes back as it was isn't read again"
    assert set(collection.states().values()) == {"good"}
    assert collection.ask("SELECT count(*) FROM changes WHERE change = 'back' AND state_after = 'good'") == [(12,)]


def test_few_files_are_gone_at_once(collection: Collection) -> None:
    many(collection)
    for number in range(10):
        os.unlink(collection.path("disk/%d.warc" % number))
    assert collection.night().returncode == 1
    assert Counter(collection.states().values()) == {"gone": 10, "good": 2}


def test_files_that_were_moved_are_not_missing(collection: Collection) -> None:
    many(collection)
    os.rename(collection.path("disk"), collection.path("new"))
    os.mkdir(collection.path("disk"))
    done = collection.night("--batch", "20", "new")
    assert done.returncode == 0
    assert set(collection.states().values()) == {"good"} and len(collection.states()) == 12
