"""Archives are written once: a file that loses a record, or has another one in its place, is altered until somebody
accepts it."""
from __future__ import annotations

import gzip
import os
from typing import Tuple

import pytest
from conftest import URI, Collection, later, put, record, unchanged


def finished(collection: Collection, name: str = "a.warc", count: int = 3) -> str:
    """A file that was read."""
    path = collection.pages("disk/" + name, count)
    assert collection.night("disk").returncode == 0
    return path


def rewritten(path: str, *parts: bytes) -> None:
    put(path, *parts)
    later(path)


@pytest.mark.parametrize("words", [(), ("--digest",)])
def test_a_cut_file(collection: Collection, words: Tuple[str, ...]) -> None:
    path = collection.pages("disk/a.warc", 3)
    collection.night("disk", *words)
    rewritten(path, *(record(place, b"page %d" % place, URI + str(place)) for place in range(2)))
    done = collection.night(*words)
    assert done.returncode == 1
    assert collection.states() == {"a.warc": "altered"}
    assert "of 3 records, 1 is missing, the first at position 2" in collection.detail("a.warc")
    assert collection.night(*words).returncode == 1, "it stays altered"
    assert collection.run("status").returncode == 1


def test_another_body_of_the_same_length(collection: Collection) -> None:
    """Its digest is the new body's, so that nothing but the head shows it."""
    path = finished(collection)
    rewritten(path, *(record(place, b"PAGE %d" % place, URI + str(place)) for place in range(3)))
    assert collection.night().returncode == 1
    assert "of 3 records, 3 are other, the first at position 0" in collection.detail("a.warc")


@pytest.mark.parametrize("body", [b"PAGE 1", b"page I"])
def test_a_body_that_has_its_digest_no_more(collection: Collection, body: bytes) -> None:
    """The hash of a record has the first bytes of its block too. Where others changed, the verdict alone shows it."""
    path = finished(collection)
    data = open(path, "rb").read()
    rewritten(path, data.replace(b"page 1", body))
    assert collection.night().returncode == 1
    detail = collection.detail("a.warc")
    assert "1 is other, the first at position 1; bad: 1 block" in detail


def test_a_body_without_a_digest(collection: Collection) -> None:
    """Only the digest of the whole file shows it. A run without one doesn't forget what is known."""
    path = collection.put("disk/a.warc", record(1, b"abcdef", digest="-"))
    collection.night("disk", "--digest")
    rewritten(path, record(1, b"abcdeg", digest="-"))
    collection.night()
    assert collection.states() == {"a.warc": "unchecked"}
    assert collection.night("--digest").returncode == 1
    assert collection.states() == {"a.warc": "altered"}
    assert "the same records in other bytes" in collection.detail("a.warc")


def test_a_file_that_grows(collection: Collection) -> None:
    path = finished(collection)
    with open(path, "ab") as out:
        out.write(record(9))
    later(path)
    assert collection.night().returncode == 0
    assert collection.states() == {"a.warc": "grown"}
    assert collection.detail("a.warc") == "1 record more"
    assert collection.night().returncode == 0
    assert collection.states() == {"a.warc": "good"}, "it is said once"
    assert collection.ask("SELECT count(*) FROM records") == [(4,)]


def test_a_worse_state_goes_before_grown(collection: Collection) -> None:
    path = finished(collection)
    with open(path, "ab") as out:
        out.write(record(9, b"xyz", digest="sha1:" + "A" * 32))
    later(path)
    collection.night()
    assert collection.states() == {"a.warc": "bad"}


def test_a_file_that_is_touched(collection: Collection) -> None:
    path = finished(collection)
    later(path)
    assert collection.night("--digest").returncode == 0
    later(path)
    assert collection.night("--digest").returncode == 0
    assert collection.states() == {"a.warc": "good"}


def test_a_file_that_is_compressed_anew(collection: Collection) -> None:
    """Without the digest of the whole file it is good: its records are those of before."""
    data = record(1) + record(2)
    path = collection.put("disk/a.warc.gz", gzip.compress(data, 1))
    collection.night("disk", "--digest")
    rewritten(path, gzip.compress(data, 9))
    assert collection.night().returncode == 0
    rewritten(path, gzip.compress(data[:10], 9) + gzip.compress(data[10:]))
    assert collection.night("--digest").returncode == 1
    assert "compressed anew" in collection.detail("a.warc.gz")
    assert collection.run("accept", path).returncode == 0
    assert collection.night("--digest").returncode == 0


def test_both_readings_are_there_until_one_is_accepted(collection: Collection) -> None:
    path = finished(collection)
    rewritten(path, record(7, b"new", URI + "new"))
    collection.night()
    rows = "SELECT target FROM captures WHERE file = %d ORDER BY position"
    assert [row[0] for row in collection.ask(rows % 1)] == [URI + str(place) for place in range(3)]
    assert collection.ask(rows % -1) == [(URI + "new",)]
    for target in (URI + "0", URI + "new"):
        done = collection.run("find", target)
        assert (done.returncode, done.stdout) == (1, b"")
        assert b"a.warc (altered" in done.stderr
        assert collection.run("replay", target, "9999").returncode == 1
    assert collection.run("accept", path).returncode == 0
    assert collection.states() == {"a.warc": "good"}
    assert collection.run("replay", URI + "new", "9999").stdout == b"new"
    assert collection.run("find", URI + "0").returncode == 1
    (kept,) = collection.ask("SELECT who, detail, records_before, records_now, read_on_before FROM accepted")
    assert kept[0] and "3 records" in kept[1] and kept[2:4] == (3, 1) and kept[4]
    assert collection.night("--all").returncode == 0
    assert collection.ask("SELECT count(*) FROM records") == [(1,)]


def test_nothing_is_accepted_but_altered_files(collection: Collection) -> None:
    path = finished(collection)
    done = collection.run("accept", path, "other.warc")
    assert done.returncode == 1 and done.stderr.count(b"no new reading") == 2


def test_the_old_records_come_back(collection: Collection) -> None:
    path = finished(collection)
    data = open(path, "rb").read()
    rewritten(path, record(7))
    collection.night()
    rewritten(path, data)
    assert collection.night().returncode == 0
    assert collection.states() == {"a.warc": "good"}
    assert collection.ask("SELECT count(*) FROM records") == [(3,)]


def test_a_damaged_file_keeps_its_earlier_rows(collection: Collection) -> None:
    path = finished(collection)
    data = open(path, "rb").read()
    rewritten(path, data.replace(b"WARC-Type: resource\r\n", b"XXXX-Type: resource", 1)[:-9])
    assert collection.night().returncode == 1
    assert collection.states() == {"a.warc": "altered"}
    assert "; refused: " in collection.detail("a.warc")
    assert collection.ask("SELECT count(*) FROM records WHERE file = 1") == [(3,)]
    rewritten(path, b"garbage")
    assert collection.night().returncode == 1
    assert "of 3 records, 3 are missing" in collection.detail("a.warc")
    assert collection.run("accept", path).returncode == 1, "nothing of it can be read"
    assert collection.ask("SELECT count(*) FROM records") == [(3,)]


def test_a_torn_end_is_no_alteration(collection: Collection) -> None:
    """A crawler that was killed leaves a record that isn't whole, after those of before."""
    path = finished(collection)
    with open(path, "ab") as out:
        out.write(record(8) + record(9)[:-5])
    later(path)
    assert collection.night().returncode == 1
    assert collection.states() == {"a.warc": "refused"}
    assert collection.ask("SELECT count(*) FROM records WHERE file = 1") == [(4,)]


def test_a_damaged_file_is_repaired(collection: Collection) -> None:
    """The places of the good records of a damaged file aren't those of the file."""
    good = [record(place, b"page %d" % place, URI + str(place)) for place in range(3)]
    path = collection.put("disk/a.warc", good[0], good[1][:-5], good[2])
    collection.night("disk")
    assert collection.states() == {"a.warc": "refused"}
    rewritten(path, *good)
    assert collection.night().returncode == 0
    assert collection.states() == {"a.warc": "good"}


def test_rotten_bytes_are_accepted(collection: Collection) -> None:
    path = collection.put("disk/a.warc", record(1, b"abcdef", digest="-"))
    collection.night("disk", "--digest")
    unchanged(path, record(1, b"abcdeg", digest="-"))
    assert collection.night("--all", "--digest").returncode == 1
    assert collection.states() == {"a.warc": "rotten"}
    assert collection.run("accept", path).returncode == 0
    for words in ((), ("--digest",)):
        collection.night("--all", *words)
        assert collection.states() == {"a.warc": "unchecked"}


def test_forget_drops_both_readings(collection: Collection) -> None:
    path = finished(collection)
    rewritten(path, record(7))
    collection.night()
    os.unlink(path)
    collection.night()
    assert collection.run("forget", path).returncode == 0
    for table in ("records", "captures", "readings", "files"):
        assert collection.ask("SELECT count(*) FROM " + table) == [(0,)]


def test_export_has_both_readings(collection: Collection) -> None:
    path = finished(collection)
    rewritten(path, record(7))
    collection.night()
    assert collection.run("export", "tables").returncode == 0
    with open(collection.path("tables/readings.tsv"), encoding="utf-8") as file:
        assert sorted(line.split("\t")[0] for line in file) == ["-1", "1"]
