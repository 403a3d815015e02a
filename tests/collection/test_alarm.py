"""What ends a command with 1, and what is only said."""
from __future__ import annotations

import os

from conftest import Collection, later, lines, of_state, put, record


def test_blocks_that_cannot_be_checked_do_not_ring(collection: Collection) -> None:
    """Most crawlers state no digests: an alarm that rings each night is none."""
    collection.put("disk/a.warc", record(1, digest="-"))
    done = collection.night("disk")
    assert done.returncode == 0
    assert of_state(done, ["unchecked"]), "it is said all the same"
    for words, status in ((("--strict",), 1), (("--fail-on", "unchecked,gone"), 1), (("--fail-on", "gone"), 0)):
        assert collection.run("status", *words).returncode == status
    assert collection.night("--strict").returncode == 1
    assert collection.run("status", "--fail-on", "good").returncode == 2
    assert collection.run("status", "--fail-on", "sad").returncode == 2


def test_severe_states_ring(collection: Collection) -> None:
    collection.put("disk/a.warc", record(1, digest="sha1:" + "A" * 32))
    assert collection.night("disk").returncode == 1
    assert collection.run("status", "--fail-on", "gone").returncode == 0


def test_status_of_what_is_new(collection: Collection) -> None:
    bad = collection.put("disk/bad.warc", record(1, digest="sha1:" + "A" * 32))
    other = collection.pages("disk/other.warc", 1)
    collection.night("disk")
    assert len(lines(collection.run("status", "--new"))) == 1
    collection.night()
    done = collection.run("status", "--new")
    assert (done.returncode, done.stdout) == (0, b""), "nothing has changed"
    put(other, b"garbage")
    later(other)
    collection.night()
    done = collection.run("status", "--new")
    assert done.returncode == 1 and len(lines(done)) == 1 and "other.warc" in lines(done)[0]
    put(bad, record(1))
    later(bad)
    os.unlink(other)
    collection.night()
    done = collection.run("status", "--new")
    assert [line.split("\t")[0] for line in lines(done)] == ["altered", "gone"]
    collection.run("accept", bad)
    assert collection.states()["bad.warc"] == "good"


def test_a_file_that_is_good_again_is_new(collection: Collection) -> None:
    path = collection.put("disk/a.warc", b"garbage")
    collection.night("disk")
    put(path, record(1))
    later(path)
    collection.night()
    done = collection.run("status", "--new")
    assert done.returncode == 0 and lines(done) == ["good\t%s\tbefore: refused" % path]


def test_an_acknowledged_state_is_silent_until_it_changes(collection: Collection) -> None:
    path = collection.put("disk/a.warc", b"garbage")
    collection.night("disk")
    assert collection.run("acknowledge", path, "--note", "a copy is <ordered>").returncode == 0
    done = collection.run("status")
    assert done.returncode == 0 and not of_state(done, ["refused"])
    assert [line for line in lines(done) if line.startswith("acknowledged\t1\t")]
    assert collection.night().returncode == 0
    (look,) = collection.status()["files"]
    assert look["state"] == "refused" and look["note"] == "a copy is <ordered>" and look["acknowledged_by"]
    with open(collection.path("catalogue/report.html"), encoding="utf-8") as file:
        text = file.read()
    assert ">refused</span>" in text and ": a copy is &lt;ordered&gt;</i>" in text
    put(path, b"more garbage")
    later(path)
    assert collection.night().returncode == 1
    assert of_state(collection.run("status"), ["refused"])


def test_a_good_file_is_not_acknowledged(collection: Collection) -> None:
    path = collection.pages("disk/a.warc", 1)
    collection.night("disk")
    assert collection.run("acknowledge", path).returncode == 1
