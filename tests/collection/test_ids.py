"""A revisit finds the record that it names in another file, however both spell the id, as the program compares ids."""
from __future__ import annotations

from typing import List, Sequence

import pytest
from conftest import URI, Collection, record
from rooms import Room, new_collection, read, revisit

FIRST, SECOND = "2020-01-01T00:00:00Z", "2021-06-01T12:00:00Z"
UUID = "urn:uuid:0000000A-0000-4000-8000-00000000000b"
# The id of a record, and how a revisit names it.
SAME = {
    "<urn:x:É>": "<urn:x:É>",
    "< urn:x:spaces >": "<urn:x:spaces>",
    "<\turn:x:tabs \t>": "< urn:x:tabs\t>",
    "<urn:x:plain>": "< urn:x:plain >",
    "urn:x:no-brackets": "<urn:x:no-brackets>",
    "<%s>" % UUID.lower(): "<%s>" % UUID.upper(),
    "< %s >" % UUID.replace("b", "c").upper(): UUID.replace("b", "c").lower(),
    "<urn:x:UPPER>": "<urn:x:UPPER>",
}
OTHER = {
    "<urn:x:case>": "<urn:x:CASE>",
    "<urn:x:é>": "<urn:x:É2>",
    "<urn:uuid:0000000d-0000-4000-8000-00000000000>": "<urn:uuid:0000000D-0000-4000-8000-00000000000>",
}


@pytest.fixture(name="spelled", scope="module")
def spelled_fixture(tmp_path_factory: pytest.TempPathFactory) -> Collection:
    """Records with such ids in one file, and revisits of them in another."""
    collection = new_collection(tmp_path_factory)
    records: List[bytes] = []
    revisits: List[bytes] = []
    for number, (own, named) in enumerate([*SAME.items(), *OTHER.items()]):
        records.append(record(number, b"body %d" % number, "%sx%d" % (URI, number), date=FIRST, WARC_Record_ID=own))
        revisits.append(revisit(100 + number, "%sy%d" % (URI, number), SECOND, named))
    collection.put("disk/a.warc", *records[: len(SAME)])
    collection.put("disk/b.warc", *revisits)
    collection.put("disk/c.warc", *records[len(SAME) :])
    read(collection)
    return collection


@pytest.mark.parametrize("ways", [(), ("--whole",)])
@pytest.mark.parametrize("number", range(len(SAME) + len(OTHER)))
def test_ids(spelled: Collection, number: int, ways: Sequence[str]) -> None:
    uri = "%sy%d" % (URI, number)
    reply = Room(spelled, is_whole=bool(ways)).ask("/memento/20210601120000/" + uri)
    done = spelled.run("replay", *ways, uri, "9999")
    if number < len(SAME):
        assert (reply.status, reply.body, done.stdout) == (200, b"body %d" % number, b"body %d" % number), (reply, done)
    else:
        assert reply.status == 404 and done.returncode == 1 and b"P5 Unresolved" in done.stderr


def test_no_other_record_is_in_the_way(spelled: Collection) -> None:
    """A record whose id is another one by its case isn't looked at."""
    from zogwedu_collection.catalogue import Catalogue
    from zogwedu_collection.replay import Replayer

    replayer = Replayer(Catalogue(spelled.path("catalogue")), "warc", None)
    for own, named in OTHER.items():
        bare = named.strip("<> \t")
        assert replayer.with_id(bare, "captures.file <> ?", 0) == []
        assert [it.kind for it in replayer.with_id(own.strip("<>"), "captures.file <> ?", 0)] == ["resource"]


def test_the_package_reads_the_head(tmp_path_factory: pytest.TempPathFactory) -> None:
    """A name in other letters and a folded value; of several fields the first one counts."""
    collection = new_collection(tmp_path_factory)
    collection.put("disk/a.warc", record(1, b"body", URI + "x", date=FIRST, WARC_Record_ID="<urn:x:first>"))
    twice = b"warc-REFERS-to:\r\n\t <urn:x:first>\r\nWARC-Refers-To: "
    collection.put("disk/b.warc", revisit(2, URI, SECOND, "<urn:x:second>").replace(b"WARC-Refers-To: ", twice))
    read(collection)
    assert collection.run("replay", URI, "9999").stdout == b"body"


def test_without_the_package(spelled: Collection) -> None:
    """A line says what is needed, and nothing is written. A body of the file itself needs no package."""
    spelled.put("without/zogwedu.py", b"raise ImportError('no library')")
    without = {"PYTHONPATH": spelled.path("without")}
    done = spelled.run("replay", URI + "y0", "9999", env=without)
    assert (done.returncode, done.stdout) == (3, b"") and b"needs the Python package zogwedu" in done.stderr
    assert spelled.run("replay", URI + "x0", "9999", env=without).stdout == b"body 0"


def test_an_id_is_looked_up_by_an_index(spelled: Collection) -> None:
    """Not by reading all records."""
    from zogwedu_collection.needed import ids_like

    query, values = ids_like("urn:x:spaces")
    plan = spelled.ask("EXPLAIN QUERY PLAN " + query, *values)
    assert len(plan) >= 2 and not [row for row in plan if "SCAN" in row[3] and "INDEX" not in row[3]], plan


@pytest.mark.parametrize("where", ("captures.file <> ?", "captures.file = ?"))
def test_captures_with_an_id_are_looked_up_by_an_index(spelled: Collection, where: str) -> None:
    """Neither all captures are read, nor all of a file."""
    from zogwedu_collection.catalogue import Catalogue
    from zogwedu_collection.replay import Replayer

    catalogue = Catalogue(spelled.path("catalogue"))
    asked: List[str] = []
    catalogue.base.set_trace_callback(asked.append)
    Replayer(catalogue, "warc", None).with_id("urn:x:spaces", where, 1)
    catalogue.base.set_trace_callback(None)
    plan = [row[3] for row in catalogue.rows("EXPLAIN QUERY PLAN " + asked[-1])]
    looks = [row for row in plan if " captures " in row]
    assert looks == ["SEARCH captures USING PRIMARY KEY (file=? AND position=?)"], plan
