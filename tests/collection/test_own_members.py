"""A record that a member of gzip holds alone is read without the rest of its file, and only if its bytes are those that
a run read."""
from __future__ import annotations

import gzip
import os
import sys
from typing import IO, List, Optional, Sequence

import pytest
from conftest import PROJECT, URI, Collection, record, unchanged
from rooms import ID, program

sys.path.insert(0, os.path.join(PROJECT, "collection"))
from zogwedu_collection import members, sample  # noqa: E402
from zogwedu_collection.job import Item, Job  # noqa: E402
from zogwedu_collection.program import Settings  # noqa: E402
from zogwedu_collection.unpack import members_of  # noqa: E402

PAGES = [record(place, b"page %d" % place, URI + str(place)) for place in range(4)]
READ_THEN = 1_600_000_000
MEMBERS = [gzip.compress(page, 0) for page in PAGES]


def places(collection: Collection) -> List[Optional[int]]:
    """Where the members of the only file's records are."""
    return [row[0] for row in collection.ask("SELECT packed_at FROM records ORDER BY position")]


def test_where_members_are(collection: Collection) -> None:
    """Two records in a member, and one in two, have none of their own. Empty members and padding belong to none."""
    empty = gzip.compress(b"")
    parts = [empty, MEMBERS[0], empty, gzip.compress(PAGES[1] + PAGES[2]), gzip.compress(PAGES[3][:50])]
    parts += [gzip.compress(PAGES[3][50:]), MEMBERS[0].replace(b"-000000000000>", b"-000000000009>"), bytes(99)]
    again = gzip.compress(record(9, b"page 9", URI + "9"))
    parts[-2] = again
    path = collection.put("disk/a.warc.gz", *parts)
    assert collection.night("disk").returncode == 0
    first, last = len(empty), os.path.getsize(path) - 99 - len(again)
    assert places(collection) == [first, None, None, None, last]
    rows = collection.ask("SELECT packed_at, packed_length, packed_crc FROM records WHERE packed_at IS NOT NULL")
    with open(path, "rb") as file:
        for (at, length, crc), page in zip(rows, (PAGES[0], record(9, b"page 9", URI + "9"))):
            own = members.Place(at, length, crc)
            assert b"".join(members.held_by(file, own, len(page))) == page
    for place in range(4):
        assert collection.run("replay", URI + str(place), "9999").stdout == b"page %d" % place


def test_files_without_members(collection: Collection) -> None:
    """Neither a file that isn't compressed nor a damaged one has any."""
    collection.put("disk/a.warc", *PAGES)
    collection.put("disk/b.warc.gz", *MEMBERS[:3], MEMBERS[3][:-1])
    collection.night("disk")
    assert places(collection) == [None] * 7
    assert [collection.run("replay", URI + str(place), "9999").stdout for place in (0, 3)] == [b"page 0", b"page 3"]


@pytest.mark.parametrize("name", ("a.warc", "a.warc.gz"))
def test_other_bytes_with_the_same_time(collection: Collection, name: str) -> None:
    """Another head or block, another CRC, or a member that ends elsewhere: nothing is written."""
    parts = MEMBERS if name.endswith(".gz") else PAGES
    path = collection.put("disk/" + name, *parts)
    os.utime(path, (READ_THEN, READ_THEN))
    collection.night("disk")
    head, block = (parts[1].replace(*pair) for pair in ((b"urn:uuid", b"urn:UUID"), (b"page 1", b"page x")))
    others = {"head": head, "moved": parts[1][1:] + b"\r"}
    if name.endswith(".gz"):
        anew = gzip.compress(PAGES[1].replace(b"page 1", b"page x"), 0)
        crc = parts[1][:-8] + bytes([parts[1][-8] ^ 1]) + parts[1][-7:]
        length = parts[1][:-1] + b"\1"
        shorter = gzip.compress(PAGES[1][:-20], 0).ljust(len(parts[1]), b"\0")
        others.update(block=block, anew=anew, crc=crc, length=length, shorter=shorter, none=bytes(len(parts[1])))
    for what, other in others.items():
        assert len(other) == len(parts[1]), what
        unchanged(path, parts[0], other, *parts[2:])
        done = collection.run("replay", URI + "1", "9999")
        assert (done.returncode, done.stdout) == (3, b""), (what, done)
        assert b"a.warc" in done.stderr and b"doesn't have the bytes that run 1 read" in done.stderr, (what, done)
        assert collection.run("replay", URI + "2", "9999").stdout == b"page 2", what
    unchanged(path, *parts)
    assert collection.run("replay", URI + "1", "9999").stdout == b"page 1"


def test_a_member_that_holds_more(collection: Collection) -> None:
    """No more is unpacked than a record had."""
    large = gzip.compress(record(1, bytes(1 << 24), URI + "1"))
    path = collection.put("a.gz", large)
    with open(path, "rb") as file:
        noted = members.Noted(file)
        size = sum(map(len, members_of(file, noted.note)))
        place = members.place_of(noted.places([0], size), 0)
        assert place is not None and place.length == len(large)
        given = 0
        with pytest.raises(members.Other, match="more"):
            for piece in members.held_by(file, place, 1 << 22):
                given += len(piece)
        assert given <= 1 << 22


def state_of(warc: str, folder: str, path: str) -> str:
    """The state that a job gives a file, and why."""
    found = Job(Settings(warc, "", folder), Item(os.path.getsize(path), path), folder, folder).do()
    return "%s %s" % (found.state, found.detail)


def test_places_are_compared_in_a_job(collection: Collection, monkeypatch: pytest.MonkeyPatch) -> None:
    """A fault in the places of members is a file that failed, and nothing of it is taken in."""
    path = collection.put("disk/a.warc.gz", *MEMBERS)
    assert state_of(collection.warc, collection.folder, path) == "good "
    own = members.Noted.places

    def next_ones(self: members.Noted, begins: Sequence[int], last_stop: int) -> bytearray:
        """The members after the right ones."""
        places = own(self, begins, last_stop)
        return places[members.PLACE.size :] + places[-members.PLACE.size :]

    monkeypatch.setattr(members.Noted, "places", next_ones)
    assert state_of(collection.warc, collection.folder, path).startswith("failed members: record ")


def test_facts_are_compared_in_a_job(collection: Collection, monkeypatch: pytest.MonkeyPatch) -> None:
    """So is one in the choosing of records."""
    first = record(1, b"abc", URI, WARC_Segment_Number="1")
    of = {"WARC_Segment_Origin_ID": ID % 1, "WARC_Segment_Number": "2", "WARC_Segment_Total_Length": "6"}
    second = record(2, b"def", URI, WARC_Type="continuation", **of)
    path = collection.put("disk/a.warc.gz", *map(gzip.compress, (second, first, PAGES[3])))
    assert state_of(program(), collection.folder, path) == "good "
    monkeypatch.setattr(sample.Sample, "continuations", lambda *_: set())
    assert state_of(program(), collection.folder, path).startswith("failed members: capture 1 gives other facts")


def test_how_much_is_compared_in_a_job(collection: Collection, monkeypatch: pytest.MonkeyPatch) -> None:
    """Twenty captures, any of them; of long ones fewer."""
    copied: List[int] = []
    copy = sample.Sample.copy

    def counted(self: sample.Sample, position: int, archive: IO[bytes]) -> bool:
        copied.append(position)
        return copy(self, position, archive)

    monkeypatch.setattr(sample.Sample, "copy", counted)
    pages = [gzip.compress(record(place, b"%d" % place, URI + str(place))) for place in range(300)]
    path = collection.put("disk/a.warc.gz", *pages)
    assert state_of(collection.warc, collection.folder, path) == "good "
    assert len(copied) == 20 and max(copied) > 30, copied
    long = [gzip.compress(record(place, bytes(300_000), URI + str(place)), 1) for place in range(30)]
    path = collection.put("disk/b.warc.gz", *long)
    copied.clear()
    assert state_of(collection.warc, collection.folder, path) == "good "
    assert len(copied) == 3
