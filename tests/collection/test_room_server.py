"""The room as a server: under which names it answers, with which links, and what its answers say."""
from __future__ import annotations

import os
from typing import Dict

import pytest
from conftest import URI, Collection, record
from rooms import ID, Room, new_collection, read, response, revisit

# They share collections.
pytestmark = pytest.mark.xdist_group("room_server")
FIRST, SECOND = "2020-01-01T00:00:00Z", "2021-06-01T12:00:00Z"
MEMENTO = "/memento/20200101000000/" + URI
LAST_OF_ALL = "/memento/20210601120000/" + URI


@pytest.fixture(name="simple", scope="module")
def simple_fixture(tmp_path_factory: pytest.TempPathFactory) -> Collection:
    """One page, two captures."""
    collection = new_collection(tmp_path_factory)
    collection.put("disk/secret folder/a.warc", response(1, URI, FIRST, b"snow"), response(2, URI, SECOND, b"rain"))
    read(collection)
    return collection


# Names


@pytest.mark.parametrize("host", ["evil.example", "room.example.evil.example", "127.0.0.1", "room.example@x", "a b"])
def test_another_name_is_refused(simple: Collection, host: str) -> None:
    """A page elsewhere whose name leads to this server reads nothing."""
    room = Room(simple)
    for path in ("/", MEMENTO, "/timemap/json/" + URI, "/room/found/http", "/health", "/metrics", "/nothing"):
        assert room.ask(path, host=host).status == 403, path
    whole = room.ask("http://%s%s" % (host.replace(" ", ""), MEMENTO), host="room.example")
    assert whole.status == 403, whole


@pytest.mark.parametrize("host", ["room.example", "ROOM.example:8080", "other.example", "[::1]:80"])
def test_its_own_names(simple: Collection, host: str) -> None:
    room = Room(simple, hosts=["room.example", "other.example", "[::1]"])
    assert room.ask(MEMENTO, host=host).status == 200


def test_a_request_without_a_name(simple: Collection) -> None:
    """HTTP/1.0 has none. Links then have the first name."""
    room, nameless = Room(simple), {"HTTP_HOST": ""}
    assert room.ask(MEMENTO, environ=nameless).status == 400
    reply = room.ask("/timegate/" + URI, environ={**nameless, "SERVER_PROTOCOL": "HTTP/1.0", "SERVER_PORT": "8080"})
    assert reply.get("Location") == "http://room.example:8080" + LAST_OF_ALL


def test_what_a_proxy_says_counts_behind_a_proxy_alone(simple: Collection) -> None:
    said = {"X_FORWARDED_HOST": "room.example", "X_FORWARDED_PROTO": "https", "host": "127.0.0.1:8080"}
    assert Room(simple).ask(MEMENTO, **said).status == 403
    reply = Room(simple, is_behind_proxy=True).ask("/timegate/" + URI, **said)
    assert reply.get("Location") == "https://room.example" + LAST_OF_ALL
    evil = Room(simple, is_behind_proxy=True).ask(MEMENTO, **{**said, "X_FORWARDED_HOST": "evil.example"})
    assert evil.status == 403


FETCHES = (
    ("cross-site", "no-cors", "image", 403),
    ("cross-site", "cors", "empty", 403),
    ("cross-site", "navigate", "iframe", 403),
    ("cross-site", "navigate", "object", 403),
    ("Cross-Site", "no-cors", "script", 403),
    ("cross-site", "navigate", "document", 303),
    ("same-origin", "no-cors", "image", 200),
    ("none", "navigate", "document", 303),
)


@pytest.mark.parametrize("site, mode, use, status", FETCHES)
def test_pages_of_other_sites(simple: Collection, site: str, mode: str, use: str, status: int) -> None:
    """They may lead a reader here, and have nothing from here."""
    fields = {"SEC_FETCH_SITE": site, "SEC_FETCH_MODE": mode, "SEC_FETCH_DEST": use}
    assert Room(simple).ask(MEMENTO, **fields).status == status


def test_names_that_a_server_has_to_be_given() -> None:
    from zogwedu_collection.hosts import site_for
    from zogwedu_collection.texts import Trouble

    for address in (None, "", "0.0.0.0", "::"):
        with pytest.raises(Trouble, match="--host"):
            site_for(address, [], None, False, False)
    assert site_for("127.0.0.1", [], None, False, False).hosts == ("127.0.0.1", "localhost")
    assert site_for("::1", [], None, False, False).hosts == ("[::1]", "localhost")
    assert site_for(None, [], "https://Room.example/a/", False, False).hosts == ("room.example",)
    for name in ("http://room.example", "a b", "*", ""):
        with pytest.raises(Trouble, match="--host"):
            site_for(None, [name], None, False, False)


# What answers say of files


def test_answers_have_names_of_files_and_not_paths(collection: Collection) -> None:
    """Also where something goes wrong."""
    collection.put("disk/secret folder/a.warc", response(1, URI, FIRST, b"snow"))
    collection.put("disk/secret folder/b.warc", revisit(2, URI + "lost", FIRST, ID % 99))
    collection.put("disk/secret folder/c.warc", response(3, URI + "other", FIRST, b"one"))
    collection.put("disk/secret folder/d.warc", response(4, URI + "other", FIRST, b"two"))
    collection.put("disk/secret folder/e.warc", response(5, URI + "changed", FIRST, b"snow"))
    collection.put("disk/secret folder/f.warc", b"no archive")
    read(collection)
    os.truncate(collection.path("disk/secret folder/e.warc"), 20)
    room, whole = Room(collection), Room(collection, has_paths=True)
    asked: Dict[str, int] = {"": 200, "lost": 404, "other": 502, "changed": 503, "nothing": 404}
    for name, status in asked.items():
        for path in ("/memento/20200101000000/", "/room/answer/20200101000000/", "/timemap/json/", "/timegate/"):
            assert "secret folder" not in room.ask(path + URI + name).all
        reply = whole.ask("/room/answer/20200101000000/" + URI + name)
        assert reply.status == status and "secret folder" in reply.all, reply
    assert '"chosen": ["a.warc", 0]' in room.ask("/room/answer/20200101000000/" + URI).all
    assert "f.warc (" in room.ask("/timegate/" + URI + "nothing").text


def test_what_a_reader_needs_comes_before_what_an_operator_needs(collection: Collection) -> None:
    collection.put("disk/a.warc", revisit(2, URI, FIRST, ID % 99))
    collection.put("disk/b.warc", b"no archive")
    read(collection)
    room = Room(collection)
    told, _, details = room.ask("/room/answer/20200101000000/" + URI).text.partition("\n\n")
    assert told == "P5 Unresolved\nA file that may have it can't be read now."
    assert details.startswith("chosen a.warc 0 P5 Unresolved\nmay have it: b.warc (")
    told, _, details = room.ask("/timegate/" + URI + "nothing").text.partition("\n\n")
    assert told == "P1 NoCapture" and details.startswith("may have it: b.warc (")
    collection.put("disk/b.warc", record(9))
    read(collection)
    assert Room(collection).ask("/timegate/" + URI + "nothing").text == "P1 NoCapture\n"


# Links


def test_links_are_absolute(simple: Collection) -> None:
    at = "http://room.example:8080"
    room = Room(simple)
    for path in ("/timegate/" + URI, MEMENTO, "/timemap/link/" + URI, "/memento/20200101000001/" + URI):
        reply = room.ask(path, host="room.example:8080")
        links = reply.get("Link") or reply.text
        assert "<%s/timemap/link/%s>" % (at, URI) in links and "<%s%s>" % (at, MEMENTO) in links, reply
        assert "</" not in links
        assert (reply.get("Location") or at).startswith(at)
    listed = room.ask("/timemap/json/" + URI, host="room.example:8080").json
    assert listed["mementos"]["first"]["uri"] == at + MEMENTO
    assert listed["timemap_uri"]["link_format"] == "%s/timemap/link/%s" % (at, URI)


def test_a_base_url(simple: Collection) -> None:
    """Whether the proxy takes the path away or not."""
    room = Room(simple, hosts=(), base_url="https://room.example/archive/")
    for path in ("/timegate/", "/archive/timegate/"):
        reply = room.ask(path + URI)
        assert reply.get("Location") == "https://room.example/archive" + LAST_OF_ALL, reply
    reply = room.ask("/archive/memento/20200101000000/" + URI, SEC_FETCH_DEST="document", SEC_FETCH_SITE="none")
    assert reply.get("Location") == "https://room.example/archive/#20200101000000/" + URI


def test_a_time_before_the_first_capture_leads_to_the_first(simple: Collection) -> None:
    """As clients of the protocol expect. A memento of that time there is none."""
    room = Room(simple)
    reply = room.ask("/timegate/" + URI, ACCEPT_DATETIME="Thu, 01 Jan 1970 00:00:00 GMT")
    assert (reply.status, reply.get("Location")) == (302, "http://room.example" + MEMENTO), reply
    assert room.ask("/memento/19700101000000/" + URI).text.startswith("P2 NotYet")
    nothing = room.ask("/timegate/" + URI + "x", ACCEPT_DATETIME="Thu, 01 Jan 1970 00:00:00 GMT")
    assert nothing.status == 404


def test_where_the_room_is_has_no_markup(simple: Collection) -> None:
    """Some servers take the path of an application from the head of a request."""
    room = Room(simple)
    room.app.pages.files = dict.fromkeys(room.app.pages.files, b"made")  # as in the file that is installed
    reply = room.ask('/"><script>/', environ={"SCRIPT_NAME": '/"><script>'})
    assert reply.status == 200 and b'"><script>' not in reply.body and b"&quot;&gt;&lt;script&gt;" in reply.body, reply


# What is active


@pytest.mark.parametrize(
    "media", ["text/html", "message/rfc822", "Message/RFC822", "multipart/related", "image/svg+xml"]
)
def test_what_a_browser_could_run_is_saved(collection: Collection, media: str) -> None:
    collection.put("disk/a.warc", response(1, URI, FIRST, b"x", media=media.encode()))
    read(collection)
    assert Room(collection).ask(MEMENTO).get("Content-Disposition") == "attachment"
