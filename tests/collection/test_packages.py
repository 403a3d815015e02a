"""Packages (WACZ) in a collection: their archives are one, damaged ones give their good records, the verdicts on their
files make the state, and the room lists their pages."""
from __future__ import annotations

import gzip
import os
import sys
from typing import Any, Dict, List

import pytest
from conftest import TOP, URI, Collection, lines, put, record
from rooms import Room, program, read, response

sys.path.insert(0, os.path.join(TOP, "tests", "reference"))
from packages import DEFLATED, Item, deflated, files_of, packed_files, page_line, wacz_of, zip_of  # noqa: E402

PAGES = [record(place, b"page %d" % place, URI + str(place)) for place in range(6)]
FIRST, SECOND = gzip.compress(PAGES[0]) + gzip.compress(PAGES[1]), b"".join(PAGES[2:4])
ARCHIVES = {"a.warc.gz": FIRST, "b.warc": SECOND}


def replayed(collection: Collection, place: int) -> bytes:
    """What is replayed of a page."""
    done: bytes = collection.run("replay", URI + str(place), "9999").stdout
    return done


def verdicts(collection: Collection) -> Dict[str, str]:
    """The verdict on each file of the package."""
    return {path: verdict for path, verdict in collection.ask("SELECT path, verdict FROM resources")}


def night(collection: Collection, data: bytes, name: str = "a.wacz") -> Any:
    """A run over one package."""
    collection.put("disk/" + name, data)
    return collection.night(collection.path("disk"))


@pytest.mark.parametrize("streamed", [False, True])
def test_archives_are_one(collection: Collection, streamed: bool) -> None:
    done = night(collection, wacz_of(ARCHIVES, page_line(URI + "2", "2020-01-01T00:00:00Z", title="Two"), streamed))
    assert (done.returncode, collection.states()) == (0, {"a.wacz": "good"}), done.stderr
    assert [replayed(collection, place) for place in range(5)] == [b"page 0", b"page 1", b"page 2", b"page 3", b""]
    assert set(verdicts(collection).values()) == {"good"}
    assert collection.ask("SELECT line, url, instant, title FROM pages") == [
        (0, URI + "2", "2020-01-01T00:00:00.000000000Z", "Two")
    ]
    assert collection.ask("SELECT at_offset FROM resources WHERE path = 'archive/a.warc.gz'")[0][0] == 47


def test_files_of_the_package_make_the_state(collection: Collection) -> None:
    done = night(collection, wacz_of(ARCHIVES, wrong=["archive/b.warc"], unlisted=["archive/a.warc.gz"], missing=["x"]))
    assert (done.returncode, collection.states()) == (1, {"a.wacz": "bad"})
    assert collection.detail("a.wacz") == "files of the package: 1 bad, 1 missing, 1 unlisted"
    assert verdicts(collection) == {
        "archive/a.warc.gz": "unlisted",
        "archive/b.warc": "bad",
        "x": "missing",
        "datapackage.json": "good",
    }
    assert replayed(collection, 3) == b"page 3"
    done = night(collection, packed_files(files_of(ARCHIVES)[:-1]))
    assert (done.returncode, collection.states()) == (0, {"a.wacz": "unchecked"})
    assert collection.detail("a.wacz") == "files of the package: 1 absent"
    assert verdicts(collection)["datapackage.json"] == "absent"


def test_hostile_names_and_titles(collection: Collection) -> None:
    page = page_line(URI, "2020-01-01T00:00:00Z", title="\0\ud800\x1b[31m")
    data = wacz_of(ARCHIVES, page, missing=["\ud800", "\\ud800", "\0"])
    assert (night(collection, data).returncode, collection.states()) == (1, {"a.wacz": "bad"})
    counts = collection.ask("SELECT verdict, count(*) FROM resources GROUP BY verdict ORDER BY verdict")
    assert counts == [("good", 4), ("missing", 3)]
    assert collection.ask("SELECT title FROM pages") == [("\\0\ufffd\x1b[31m",)]


@pytest.mark.parametrize(
    "data,words",
    [
        (wacz_of(ARCHIVES)[:-1], "damaged: ZIP: NoEnd: "),
        (zip_of([Item(b"archive/a.warc", SECOND)] * 2), "damaged: ZIP: Twice: two entries are named 'archive/a.warc'"),
        (zip_of([Item(b"archive/../../a.warc", SECOND)]), "damaged: ZIP: Name: "),
        (b"PK\3\4", "damaged: ZIP: NoEnd: "),
    ],
    ids=range(4),
)
def test_refused(collection: Collection, data: bytes, words: str) -> None:
    assert (night(collection, data).returncode, collection.states()) == (1, {"a.wacz": "gunzip"})
    assert collection.detail("a.wacz").startswith(words)
    assert collection.ask("SELECT * FROM resources") == collection.ask("SELECT * FROM records") == []


def test_damaged_members(collection: Collection) -> None:
    """The good members of a damaged archive are kept, and the other archives."""
    members = [gzip.compress(page) for page in PAGES[:3]]
    bad = members[1][:-8] + bytes(8)
    data = wacz_of({"a.warc.gz": members[0] + bad + members[2], "b.warc": PAGES[4]})
    assert (night(collection, data).returncode, collection.states()) == (1, {"a.wacz": "gunzip"})
    assert [replayed(collection, place) for place in range(5)] == [b"page 0", b"", b"page 2", b"", b"page 4"]
    assert collection.ask("SELECT good_records, damages, damaged FROM checks") == [(3, 1, len(bad))]
    assert collection.detail("a.wacz").startswith("damaged: 'archive/a.warc.gz': incorrect data check; 3 good records")
    assert set(verdicts(collection).values()) == {"good"}


def test_bytes_with_another_crc(collection: Collection) -> None:
    """Of an archive that isn't compressed nothing is given; of members of gzip their own CRC decides, also where the
    package has them compressed once more."""
    said = {"crc": 1}
    items = [Item(b"archive/a.warc", PAGES[0], local=said, central=said)]
    items += [Item(b"archive/b.warc.gz", FIRST, local=said, central=said), Item(b"archive/c.warc", PAGES[4])]
    again = b"".join(map(gzip.compress, PAGES[2:4]))
    items.append(Item(b"archive/d.warc.gz", again, DEFLATED, local=said, central=said))
    assert (night(collection, zip_of(items)).returncode, collection.states()) == (1, {"a.wacz": "gunzip"})
    assert [replayed(collection, place) for place in range(5)] == [b"page %d" % place for place in range(5)]
    assert collection.ask("SELECT good_records, damages, damaged FROM checks") == [
        (5, 3, len(PAGES[0]) + len(FIRST) + len(deflated(again))),
    ]
    assert verdicts(collection)["archive/a.warc"] == "bad"


def test_an_archive_that_zstd_compressed(collection: Collection) -> None:
    """It is damage, whatever it holds, and the archives after it are read."""
    packed = b"\x28\xb5\x2f\xfd" + bytes(9)
    items = [Item(b"archive/a.warc", PAGES[0]), Item(b"archive/b.warc.zst", packed)]
    items.append(Item(b"archive/c.warc.gz", gzip.compress(PAGES[4])))
    assert (night(collection, zip_of(items)).returncode, collection.states()) == (1, {"a.wacz": "gunzip"})
    assert [replayed(collection, place) for place in (0, 4)] == [b"page 0", b"page 4"]
    assert collection.ask("SELECT good_records, damages, damaged FROM checks") == [(2, 1, len(packed))]
    assert "'archive/b.warc.zst': compressed by zstd" in collection.detail("a.wacz")


def test_no_record_has_bytes_of_two_archives(collection: Collection) -> None:
    """Joined, these are one good archive: the block of a torn record goes on in the next archive."""
    whole = PAGES[0] + record(7, PAGES[1], URI + "7") + PAGES[2]
    cut = len(PAGES[0]) + len(whole[len(PAGES[0]) :].split(b"WARC/1.1")[1]) + 8
    data = wacz_of({"a.warc": whole[:cut], "b.warc": whole[cut:]})
    assert (night(collection, data).returncode, collection.states()) == (1, {"a.wacz": "refused"})
    assert collection.detail("a.wacz").startswith("an archive of the package isn't one by itself; 3 good records")
    assert [replayed(collection, place) for place in (0, 1, 2, 7)] == [b"page 0", b"page 1", b"page 2", b""]


def test_a_damaged_archive(collection: Collection) -> None:
    data = wacz_of({"a.warc": PAGES[0] + b"rubbish", "b.warc": PAGES[1]})
    assert (night(collection, data).returncode, collection.states()) == (1, {"a.wacz": "refused"})
    assert [replayed(collection, place) for place in (0, 1)] == [b"page 0", b"page 1"]
    assert collection.ask("SELECT good_records, damages, damaged FROM checks") == [(2, 1, 7)]


def test_revisits_lead_into_packages(collection: Collection) -> None:
    """A revisit in another file gives the body of a record in a package."""
    names = {"WARC_Type": "revisit", "WARC_Refers_To": "<urn:uuid:00000000-0000-4000-8000-%012d>" % 3}
    names["WARC_Profile"] = "http://netpreserve.org/warc/1.1/revisit/identical-payload-digest"
    collection.put("disk/b.warc", record(9, b"", URI + "9", date="2021-01-01T00:00:00Z", **names))
    collection.warc = program()
    night(collection, wacz_of(ARCHIVES))
    assert replayed(collection, 9) == b"page 3"


def test_rows_of_an_earlier_reading_go(collection: Collection) -> None:
    night(collection, wacz_of(ARCHIVES, page_line(URI)))
    assert len(collection.ask("SELECT * FROM pages")) == 1
    put(collection.path("disk/a.wacz"), SECOND)
    collection.night(collection.path("disk"))
    collection.run("accept", collection.path("disk/a.wacz"))
    assert collection.ask("SELECT * FROM pages") == collection.ask("SELECT * FROM resources") == []


@pytest.fixture(name="room")
def room_fixture(collection: Collection) -> Room:
    """A room over packages whose pages begin before their captures."""
    made: List[bytes] = []
    for place in range(4):
        made.append(response(place, URI + str(place), "2020-01-01T00:00:00.7%dZ" % place, b"page %d" % place))
    first = [
        page_line(URI + "0", "2020-01-01T00:00:00.3Z", title="<b>\u202e"),
        page_line(URI + "1", "2020-01-01T00:00:01Z"),
        page_line(URI + "none", "2020-01-01T00:00:01Z", title="no capture"),
        page_line(URI + "2", "at noon", title="no time"),
        page_line(URI + "secret", "2020-01-01T00:00:01Z", title="secret"),
    ]
    made.append(response(8, URI + "secret", "2020-01-01T00:00:00Z", b"secret"))
    collection.put("disk/a.wacz", wacz_of({"a.warc": b"".join(made)}, b"".join(first)))
    read(collection)
    return Room(collection, access=put(collection.path("access"), b"block %ssecret\n" % URI.encode()))


def test_pages_in_the_room(room: Room) -> None:
    reply = room.ask("/room/pages/0-0")
    assert (reply.status, reply.get("Content-Type")) == (200, "application/json")
    found = [(it["path"], it["title"], it["instant"], it["later"]) for it in reply.json["found"]]
    assert found == [
        (URI + "0", "<b>\u202e", "20200101000000700000000", "2020-01-01T00:00:00.700000000Z"),
        (URI + "1", None, "20200101000001", None),
        (URI + "2", "no time", None, None),
    ]
    assert reply.json["next"] is None and "secret" not in reply.text
    for place in ("", "0", "0-", "-0", "a-b", "0-0-0", "9" * 20 + "-0"):
        assert room.ask("/room/pages/" + place).status == 400


def test_pages_in_parts(collection: Collection) -> None:
    pages = b"".join(
        page_line(URI + str(number % 4), "2020-01-01T00:00:00Z", title=str(number)) for number in range(250)
    )
    collection.put("disk/a.wacz", wacz_of(ARCHIVES, pages))
    read(collection)
    room, place, titles = Room(collection), "0-0", []
    while place is not None:
        reply = room.ask("/room/pages/" + place).json
        titles += [it["title"] for it in reply["found"]]
        place = reply["next"]
    assert titles == [str(number) for number in range(250)]


def test_a_collection_without_packages(collection: Collection) -> None:
    collection.put("disk/a.warc", *PAGES)
    read(collection)
    assert Room(collection).ask("/room/pages/0-0").json == {"found": [], "next": None}


def test_states_are_shown(collection: Collection) -> None:
    night(collection, wacz_of(ARCHIVES, wrong=["archive/b.warc"]))
    assert any(
        line.startswith("bad\t") and line.count("files of the package: 1 bad")
        for line in lines(collection.run("status"))
    )
