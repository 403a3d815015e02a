"""Damaged files of gzip: the records in their good members are kept, found and replayed."""
from __future__ import annotations

import gzip
from typing import Dict, List

from conftest import URI, Collection, later, lines, record

PAGES = [record(place, b"page %d" % place, URI + str(place)) for place in range(12)]
MEMBERS = [gzip.compress(page) for page in PAGES]


def with_bad_byte(members: List[bytes], place: int) -> bytes:
    """Members of which one has another byte than it was written with."""
    bad = bytearray(members[place])
    bad[len(bad) // 2] ^= 0xFF
    return b"".join(members[:place]) + bytes(bad) + b"".join(members[place + 1 :])


def replayed(collection: Collection, place: int) -> bytes:
    """What is replayed of a page."""
    done: bytes = collection.run("replay", URI + str(place), "9999").stdout
    return done


def counts(collection: Collection) -> Dict[str, int]:
    """What the catalogue counts of the only file."""
    names = "good_records", "good_bytes", "damages", "damaged"
    return dict(zip(names, collection.ask("SELECT %s FROM checks ORDER BY run DESC LIMIT 1" % ", ".join(names))[0]))


def test_one_bad_byte(collection: Collection) -> None:
    """All records but one are kept, with their captures."""
    collection.put("a/a.warc.gz", with_bad_byte(MEMBERS, 3))
    done = collection.night(collection.path("a"))
    assert (done.returncode, collection.states()) == (1, {"a.warc.gz": "gunzip"})
    good = b"".join(PAGES[:3] + PAGES[4:])
    sizes = {"good_records": 11, "good_bytes": len(good), "damages": 1, "damaged": len(MEMBERS[3])}
    assert counts(collection) == sizes
    begin = "damaged after %d bytes: " % sum(map(len, MEMBERS[:3]))
    end = "; 11 good records, %d bytes; 1 damage, %d bytes" % (len(good), len(MEMBERS[3]))
    detail = collection.detail("a.warc.gz")
    assert detail.startswith(begin) and detail.endswith(end)
    assert [replayed(collection, place) for place in (2, 3, 4, 11)] == [b"page 2", b"", b"page 4", b"page 11"]
    found = lines(collection.run("find", URI + "11"))
    assert len(found) == 1 and "\tdamaged" in found[0]
    assert collection.status()["damaged"] == len(MEMBERS[3])


def test_rubbish_after_the_last_member(collection: Collection) -> None:
    collection.put("a/a.warc.gz", b"".join(MEMBERS), b"rubbish")
    assert collection.night(collection.path("a")).returncode == 1
    assert collection.states() == {"a.warc.gz": "gunzip"}
    assert (counts(collection)["good_records"], counts(collection)["damaged"]) == (12, 7)
    assert replayed(collection, 11) == b"page 11"


def test_damaged_records_in_good_members(collection: Collection) -> None:
    """Both damages are counted, and the good records are those of all runs of members."""
    parts = [gzip.compress(PAGES[0] + b"rubbish"), b"xyz", *MEMBERS[2:4], MEMBERS[4][:-1]]
    collection.put("a/a.warc.gz", *parts)
    collection.night(collection.path("a"))
    sizes = {"good_records": 3, "damages": 3, "damaged": 7 + 3 + len(MEMBERS[4]) - 1}
    assert {name: counts(collection)[name] for name in sizes} == sizes
    assert [replayed(collection, place) for place in (0, 2, 3)] == [b"page 0", b"page 2", b"page 3"]


def test_no_record_has_bytes_of_both_sides(collection: Collection) -> None:
    """A record that is cut by a damage isn't closed by the bytes after it, even if they fit."""
    torn = record(20, b"abc" + PAGES[1][:-4], URI + "20")[: -len(PAGES[1])]
    joined = torn + PAGES[1] + PAGES[2]
    collection.put("whole/a.warc", joined)
    collection.night(collection.path("whole"))
    assert collection.ask("SELECT count(*) FROM records") == [(2,)]
    collection.put("a/a.warc.gz", gzip.compress(torn), b"x", *MEMBERS[1:3])
    collection.run("run", "--jobs", "1", collection.path("a"), catalogue="other")
    assert collection.ask("SELECT target FROM records ORDER BY position", catalogue="other") == [
        (URI + "1",),
        (URI + "2",),
    ]


def test_no_good_member(collection: Collection) -> None:
    """A file that is one member is damaged as a whole."""
    collection.put("a/a.warc.gz", gzip.compress(b"".join(PAGES))[:-1])
    assert collection.night(collection.path("a")).returncode == 1
    assert collection.states() == {"a.warc.gz": "gunzip"}
    assert counts(collection)["good_records"] == 0
    assert collection.ask("SELECT count(*) FROM records") == [(0,)]


def test_members_that_hold_too_much(collection: Collection) -> None:
    """The limit on what is unpacked holds, and the file is read again when there is room."""
    large = gzip.compress(record(30, bytes(8 << 20)))
    path = collection.put("a/a.warc.gz", with_bad_byte(MEMBERS, 3), large)
    assert collection.night("--unpacked", "4M", collection.path("a")).returncode == 1
    assert collection.states() == {"a.warc.gz": "no-room"}
    assert collection.detail("a.warc.gz").startswith("damaged after ") and "--unpacked" in collection.detail(path)
    assert collection.ask("SELECT count(*) FROM records") == [(0,)]
    collection.night()
    assert collection.states() == {"a.warc.gz": "gunzip"}
    assert counts(collection)["good_records"] == 12


def test_too_many_damages(collection: Collection) -> None:
    """The program isn't run any number of times. The state stays, and says why nothing is known."""
    collection.put("a/a.warc.gz", (MEMBERS[0] + b"x") * 1001)
    assert collection.night(collection.path("a")).returncode == 1
    assert collection.states() == {"a.warc.gz": "gunzip"}
    assert "its good records aren't known: " in collection.detail("a.warc.gz")


def test_a_good_file_that_is_damaged_later(collection: Collection) -> None:
    """It is altered, as another damaged file is, and keeps its earlier rows until the new ones are accepted."""
    path = collection.put("a/a.warc.gz", *MEMBERS)
    collection.night(collection.path("a"))
    collection.put("a/a.warc.gz", with_bad_byte(MEMBERS, 3))
    later(path)
    assert collection.night().returncode == 1
    assert collection.states() == {"a.warc.gz": "altered"}
    assert "; gunzip: damaged after " in collection.detail("a.warc.gz")
    assert collection.run("accept", path).returncode == 0
    assert collection.states() == {"a.warc.gz": "gunzip"}
    assert [replayed(collection, place) for place in (3, 11)] == [b"", b"page 11"]
    collection.put("a/a.warc.gz", *MEMBERS)
    later(path, 10)
    collection.night()
    assert replayed(collection, 11) == b"page 11"
