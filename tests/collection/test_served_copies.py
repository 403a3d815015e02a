"""Copies that the server passes over: it answers from another one, and says each once. A stand-in for the Python
package reads the archives, since the server's own is built."""
from __future__ import annotations

import os
import sys
from typing import Any, Dict, List

import pytest
from conftest import PROJECT, TOP, URI, Collection, later, put, record

sys.path[:0] = [os.path.join(PROJECT, "collection"), os.path.join(TOP, "tests", "reference")]
import warc_reference  # noqa: E402


class Body:
    """The block of a resource, as the package gives it."""

    status = None
    truncated = False
    undone: Any = ()
    spans: Any = ()  # where it is in its file, which only a server asks

    def __init__(self, given: int, block: bytes) -> None:
        self.given = given
        self.parts = [memoryview(block)]

    def __len__(self) -> int:
        return len(self.parts[0])


class Record:
    def __init__(self, it: warc_reference.Record) -> None:
        self.it = it
        self.headers: Dict[str, str] = {"Content-Type": "text/plain"}

    def body(self, **_how: object) -> Body:
        return Body(self.it.position, self.it.block)


class Package:
    """The parts of the package that a reader of resources needs."""

    class WarcError(Exception):
        pass

    class NoBody(WarcError):
        pass

    class Undecodable(WarcError):
        pass

    class Archive:
        def __init__(self, data: Any) -> None:
            self.archive = warc_reference.Archive(bytes(data))

        def __getitem__(self, position: int) -> Record:
            return Record(self.archive.records[position])

        def __exit__(self, *_why: object) -> None:
            return


class Room:
    """A server's reader over a collection."""

    def __init__(self, collection: Collection) -> None:
        from zogwedu_collection.catalogue import Catalogue
        from zogwedu_collection.shelf import Shelf

        self.collection = collection
        self.catalogue = Catalogue(collection.path("catalogue"), is_read_only=True)
        self.shelf = Shelf(Package, collection.warc, collection.folder, 8, 1 << 20)

    def body(self) -> bytes:
        """What the latest capture gives."""
        from zogwedu_collection.captures import Request, chosen_captures
        from zogwedu_collection.lending import Reader

        chosen = chosen_captures(self.catalogue, Request(URI, False, "9999"), self.collection.warc)
        reader = Reader(self.catalogue, self.collection.warc, self.shelf)
        answer = reader.answer(chosen)
        with self.shelf.lent(answer.selection) as archive:
            content = reader.content(answer, archive)
            return b"".join(reader.pieces(answer, content, 0, sum(map(len, content.parts))))


def two(collection: Collection, blocks: Dict[str, bytes]) -> List[str]:
    paths = [collection.put("%s/a.warc" % disk, record(1, block)) for disk, block in blocks.items()]
    collection.night(*blocks)
    return paths


def passed(capsys: Any) -> List[str]:
    """The lines about copies that were passed over, since the last look."""
    return [line for line in capsys.readouterr().err.splitlines() if "passed over: " in line]


def test_a_copy_that_is_not_there_is_said_once(collection: Collection, capsys: Any) -> None:
    _, second = two(collection, {"disk1": b"the page", "disk2": b"the page"})
    room = Room(collection)
    assert room.body() == b"the page" and passed(capsys) == []
    os.unlink(second)
    for _ in range(3):
        assert room.body() == b"the page"
    (line,) = passed(capsys)
    assert second in line and "No such file" in line


def test_copies_that_the_catalogue_doubts(collection: Collection, capsys: Any) -> None:
    _, second = two(collection, {"disk1": b"the page", "disk2": b"the page"})
    put(second, record(1, b"other"))
    later(second)
    collection.night()
    assert collection.states()["a.warc"] in ("good", "altered")
    assert Room(collection).body() == b"the page"
    put(second, record(1, b"the page", digest="sha1:" + "A" * 32))
    later(second, 9)
    collection.night()
    collection.run("accept", second)
    room = Room(collection)
    assert room.body() == b"the page" and room.body() == b"the page"
    (line,) = passed(capsys)
    assert second in line and line.endswith("it is bad")


def test_no_copy_can_be_read(collection: Collection) -> None:
    from zogwedu_collection.texts import Trouble

    for path in two(collection, {"disk1": b"the page", "disk2": b"the page"}):
        os.unlink(path)
    with pytest.raises(Trouble, match="No such file"):
        Room(collection).body()


def test_copies_that_disagree(collection: Collection) -> None:
    from zogwedu_collection.lending import Unfit

    two(collection, {"disk1": b"one", "disk2": b"two"})
    with pytest.raises(Unfit, match="disagree"):
        Room(collection).body()
