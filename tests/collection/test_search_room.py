"""The room finds pages by their words, hosts, and the pages of a host; and nothing of what is withheld."""
from __future__ import annotations

from pathlib import Path
from typing import Any, Dict, List, Tuple

import pytest
from conftest import PACKAGE, Collection
from rooms import ID, Room, new_collection, program, response, revisit

from zogwedu_collection import search_room

HTML = {"media": b"text/html"}
OPEN, SHUT, LATE = "http://open.example/", "http://shut.example/", "https://late.example/news/"
PAGES = (OPEN + "a/1", OPEN + "a/2?x=1", OPEN + "a/2?x=2", OPEN + "b", "http://open.example:8080/", "dns:open.example")
# They share a collection.
pytestmark = pytest.mark.xdist_group("search_room")


def page(title: str, words: str) -> bytes:
    return ("<title>%s</title><p>%s" % (title, words)).encode()


@pytest.fixture(name="shared", scope="module")
def shared_fixture(tmp_path_factory: pytest.TempPathFactory) -> Collection:
    """A collection with its texts, which no test changes."""
    collection = new_collection(tmp_path_factory)
    collection.warc = program()
    pages = [response(20 + at, uri, "2012-01-01T00:00:00Z", b"page %d" % at) for at, uri in enumerate(PAGES)]
    collection.put(
        "disk/a.warc",
        response(1, OPEN, "2010-01-01T00:00:00Z", page("Open \u202e", "common word <b>of</b> all"), **HTML),
        response(2, SHUT, "2010-01-01T00:00:00Z", page("Shut", "common hidden word"), **HTML),
        revisit(3, OPEN + "way", "2011-01-01T00:00:00Z", ID % 2),
        response(4, LATE, "2010-01-01T00:00:00Z", page("News", "common old news"), **HTML),
        response(5, LATE, "2024-01-01T00:00:00Z", page("News", "common fresh news"), **HTML),
        *pages,
    )
    done = collection.night("--text", "disk", env={"PYTHONPATH": PACKAGE})
    assert done.returncode == 0, done.stderr.decode()
    return collection


@pytest.fixture(name="rules")
def rules_fixture(tmp_path: Path) -> str:
    path = tmp_path / "rules"
    path.write_text("block shut.example\nembargo 5y https://late.example/news/\n", encoding="utf-8")
    return str(path)


def hits(room: Room, question: str) -> List[Any]:
    reply = room.ask("/search/json?" + question)
    assert reply.status == 200, reply
    return list(reply.json["found"])


def test_a_search(shared: Collection) -> None:
    room = Room(shared)
    reply = room.ask("/search/json?q=common+word&host=open.example").json
    assert (reply["words"], reply["more"], reply["unread"], reply["missing"]) == (["common", "word"], None, 0, [])
    uris = {hit["uri"]: hit for hit in reply["found"]}
    assert set(uris) == {OPEN, OPEN + "way"}
    hit = uris[OPEN]
    assert (hit["chosen"], hit["count"], hit["of"]) == (["a.warc", 0, "2010-01-01T00:00:00.000000000Z"], 1, 1)
    assert hit["title"] == "Open \u202e" and hit["uri_path"] == OPEN and "captures" not in hit
    assert [hit["snippet"][begin:end] for begin, end in hit["marks"]] == ["common", "word"]
    assert room.ask("/search/json?q=nothing").json["missing"] == ["nothing"]
    assert shared.folder not in reply.__repr__()


def test_parts_of_an_answer(shared: Collection) -> None:
    room = Room(shared)
    whole = [hit["uri"] for hit in hits(room, "q=common")]
    parts, after = [], 0
    while after is not None:
        reply = room.ask("/search/json?q=common&most=1&after=%d" % after).json
        parts += [hit["uri"] for hit in reply["found"]]
        after = reply["more"]
    assert parts == whole and len(whole) == 4


QUESTIONS: Tuple[Tuple[int, str], ...] = (
    (200, "q=common&from=2010&before=2011&type=html&host=.example&most=5&after=0"),
    (200, "q=%FFcommon%FF"),
    (200, "q=common&host=&type=&from=&before="),
    (400, ""),
    (400, "q="),
    (400, "q=-common"),
    (400, "q=co*"),
    (400, "q=%s" % ("x" * 2001)),
    (400, "q=common&q=word"),
    (400, "q=common&other=1"),
    (400, "q=common&from=tomorrow"),
    (400, "q=common&before=%E2%82%AC"),
    (400, "q=common&most=0"),
    (400, "q=common&most=1001"),
    (400, "q=common&after=-1"),
    (400, "&".join("a%d=" % at for at in range(20))),
    (414, "q=" + "x" * 30_000),
)


@pytest.mark.parametrize("status, question", QUESTIONS, ids=[question[:40] or "none" for _, question in QUESTIONS])
def test_statuses(shared: Collection, status: int, question: str) -> None:
    reply = Room(shared).ask("/search/json?" + question)
    assert reply.status == status, reply


def test_without_an_index(collection: Collection) -> None:
    """There is no form, and the answer says why, without a folder's name."""
    collection.warc = program()
    collection.put("disk/a.warc", response(1, OPEN, "2010-01-01T00:00:00Z", b"word"))
    assert collection.night("disk").returncode == 0
    room = Room(collection)
    reply = room.ask("/search/json?q=word")
    assert reply.status == 404 and "no index" in reply.text and collection.folder not in reply.text
    assert room.ask("/search/json").status == 404 and "no such path" in room.ask("/search/jsonx").text
    assert room.ask("/room/hosts").json["found"][0]["path"] == "http://open.example"


def test_too_many_at_once(shared: Collection, monkeypatch: pytest.MonkeyPatch) -> None:
    monkeypatch.setattr(search_room, "PATIENCE_SECONDS", 0.0)
    room = Room(shared)
    for _ in range(search_room.AT_ONCE):
        assert room.app.finder.free.acquire(blocking=False)
    reply = room.ask("/search/json?q=common")
    assert (reply.status, reply.get("Retry-After")) == (503, "30")
    room.app.finder.free.release()
    assert room.ask("/search/json?q=common").status == 200


def numbers(room: Room, path: str) -> Dict[str, Tuple[int, int, str, str]]:
    """URIs, captures and years by their beginnings."""
    found = room.ask(path).json["found"]
    return {it["path"]: (it["uris"], it["captures"], it["first"][:4], it["last"][:4]) for it in found}


def test_hosts(shared: Collection) -> None:
    assert numbers(Room(shared), "/room/hosts") == {
        "http://open.example": (6, 6, "2010", "2012"),
        "http://open.example:8080": (1, 1, "2012", "2012"),
        "http://shut.example": (1, 1, "2010", "2010"),
        "https://late.example": (1, 2, "2010", "2024"),
        "dns:": (1, 1, "2012", "2012"),
    }


def test_a_tree(shared: Collection) -> None:
    """What follows a text, up to the next slash or question mark."""
    room = Room(shared)
    assert numbers(room, "/room/tree/" + OPEN) == {
        OPEN: (1, 1, "2010", "2010"),
        OPEN + "a/": (3, 3, "2012", "2012"),
        OPEN + "b": (1, 1, "2012", "2012"),
        OPEN + "way": (1, 1, "2011", "2011"),
    }
    assert numbers(room, "/room/tree/" + OPEN + "a/") == {
        OPEN + "a/1": (1, 1, "2012", "2012"),
        OPEN + "a/2?": (2, 2, "2012", "2012"),
    }
    assert numbers(room, "/room/tree/http://none.example/") == {}


def test_what_is_withheld_is_in_no_answer(shared: Collection, rules: str) -> None:
    """No hit, no snippet, no number and no host shows it; and a word of it alone isn't said to be there or not."""
    room = Room(shared, access=rules)
    found = {hit["uri"]: hit for hit in hits(room, "q=common")}
    assert set(found) == {OPEN, LATE}
    assert (found[LATE]["count"], found[LATE]["of"], found[LATE]["last"][:4]) == (1, 1, "2010")
    assert "fresh" not in found[LATE]["snippet"]
    for words in ("hidden", "fresh", "nothing"):
        reply = room.ask("/search/json?q=" + words).json
        assert (reply["found"], reply["missing"], reply["more"], reply["left_out"]) == ([], [], None, "")
    there = numbers(room, "/room/hosts")
    assert "http://shut.example" not in there and there["https://late.example"] == (1, 1, "2010", "2010")
    assert numbers(room, "/room/tree/" + SHUT) == {}
    assert numbers(room, "/room/tree/https://late.example/") == {LATE: (1, 1, "2010", "2010")}


def test_hosts_are_kept_for_a_minute(shared: Collection, tmp_path: Path, rules: str) -> None:
    """New rules count at once, and readers on site see their own."""
    path = tmp_path / "now"
    path.write_text("onsite open.example\n", encoding="utf-8")
    room = Room(shared, access=str(path), networks=["198.51.100.0/24"])
    assert "http://open.example" not in numbers(room, "/room/hosts")
    room.address = "198.51.100.7"
    assert "http://open.example" in numbers(room, "/room/hosts")
    room.address = "192.0.2.1"
    assert "http://open.example" not in numbers(room, "/room/hosts")
    with open(rules, encoding="utf-8") as file:
        path.write_text(file.read(), encoding="utf-8")
    room.app.reload()
    assert {"http://open.example", "http://shut.example"} & set(numbers(room, "/room/hosts")) == {"http://open.example"}


def test_many_targets_end_an_overview(shared: Collection, monkeypatch: pytest.MonkeyPatch) -> None:
    """It says that there may be more."""
    room = Room(shared)
    monkeypatch.setattr(search_room, "KEPT_SECONDS", 0.0)
    assert room.ask("/room/hosts").json["more"] is False
    monkeypatch.setattr(search_room, "MOST_TARGETS", 3)
    assert room.ask("/room/hosts").json["more"] is True
    monkeypatch.setattr(search_room, "MOST_TARGETS", 1000)
    monkeypatch.setattr(search_room, "MOST_BRANCHES", 2)
    reply = room.ask("/room/tree/" + OPEN).json
    assert (len(reply["found"]), reply["more"]) == (2, True)
    monkeypatch.setattr(search_room, "SECONDS", -1.0)
    assert room.ask("/room/hosts").json == {"found": [], "more": True}
