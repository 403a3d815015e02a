"""Lists of captures in parts, near spellings, tags and ranges of bodies, and what operators see."""
from __future__ import annotations

import contextlib
import gzip
import json
import os
import re
import shutil
import sqlite3
from typing import Any, Dict, List, Set

import pytest
from conftest import URI, Collection, put, record
from rooms import ID, Room, new_collection, read, response, revisit

# They share collections.
pytestmark = pytest.mark.xdist_group("room_answers")
FIRST, SECOND = "2020-01-01T00:00:00Z", "2021-06-01T12:00:00Z"
MEMENTO = "/memento/20200101000000/" + URI
AT = "http://room.example"
MANY = 25_000
LINK = re.compile(r'<([^>]*)>; rel="([^"]*)"((?:; [a-z]+="[^"]*")*)')


@pytest.fixture(name="long", scope="module")
def long_fixture(tmp_path_factory: pytest.TempPathFactory) -> Collection:
    """A URI with 25,000 captures a second apart, and one with as many of one instant."""
    collection = new_collection(tmp_path_factory)
    collection.put("disk/a.warc", response(1, URI, FIRST, b"x"), response(2, "urn:x:same", FIRST, b"x"))
    read(collection)
    columns = "date, kind, given, status, media, length, reason, target"
    numbers = "WITH RECURSIVE numbers(n) AS (SELECT 2 UNION ALL SELECT n + 1 FROM numbers WHERE n < %d)" % MANY
    instants = "strftime('%Y-%m-%dT%H:%M:%S.000000000Z', 1577836800 + n * (target = ?), 'unixepoch')"
    place = "n + %d * (target = ?)" % (2 * MANY)
    query = "%s INSERT INTO captures (file, position, instant, %s) SELECT file, %s, %s, %s FROM captures, numbers"
    with contextlib.closing(sqlite3.connect(collection.path("catalogue", "catalogue.sqlite"))) as base:
        base.execute(query % (numbers, columns, place, instants, columns), (URI, URI))
        base.commit()
    return collection


def links_in(text: str) -> Dict[str, List[str]]:
    """The links of a list by their relations, with their parameters."""
    found: Dict[str, List[str]] = {}
    for uri, words, more in LINK.findall(text):
        for word in words.split():
            found.setdefault(word, []).append(uri + more)
    return found


def walk(room: Room, path: str) -> List[Dict[str, List[str]]]:
    """The parts of a list, from one on."""
    parts = []
    while path:
        reply = room.ask(path)
        assert reply.status == 200 and reply.get("Content-Length") == str(len(reply.body)), reply
        parts.append(links_in(reply.text))
        assert parts[-1]["self"][0].startswith(AT + path + ";")
        following = [it for it in parts[-1].get("next", []) if "/timemap/" in it]
        path = following[0].partition(";")[0][len(AT) :] if following else ""
    return parts


def test_a_long_list_is_in_parts(long: Collection) -> None:
    """Of 10,000 each, which together are all, each once. They link to each other, and say from when until when they
    are."""
    room = Room(long)
    parts = walk(room, "/timemap/link/" + URI)
    counts = [len(part["memento"]) for part in parts]
    assert counts == [10_000, 10_000, 5_000]
    uris = [it for part in parts for it in part["memento"]]
    assert uris == sorted(set(uris)) and len(uris) == MANY
    assert ["first" in part for part in parts] == [True, False, False]
    assert ["last" in part for part in parts] == [False, False, True]
    for before, after in zip(parts, parts[1:]):
        own = before["self"][0], after["self"][0]
        assert after["prev"] == [own[0]] and before["next"] == [own[1]]
        assert set(before["timemap"]) >= {own[1]} and set(after["timemap"]) >= {own[0]}
    ends = ["; ".join(part["self"][0].split("; ")[2:]) for part in parts]
    assert ends[0] == 'from="Wed, 01 Jan 2020 00:00:00 GMT"; until="Wed, 01 Jan 2020 02:46:40 GMT"'
    assert ends[2] == 'from="Wed, 01 Jan 2020 05:33:21 GMT"; until="Wed, 01 Jan 2020 06:56:40 GMT"'


@pytest.mark.parametrize("uri", [URI, "urn:x:same"])
def test_a_long_list_in_json(long: Collection, uri: str) -> None:
    """Each capture once, also where all are of one instant."""
    room, path, positions = Room(long), "/timemap/json/" + uri, []
    before = ""
    for count in (10_000, 10_000, 5_000):
        reply = room.ask(path)
        listed = reply.json
        assert reply.get("Content-Length") == str(len(reply.body)) and listed["self"] == AT + path
        assert len(listed["mementos"]["list"]) == count and listed.get("prev", "") == before
        positions += [it["position"] for it in listed["mementos"]["list"]]
        before, path = listed["self"], listed.get("next", AT)[len(AT) :]
    assert path == "" and len(set(positions)) == MANY and positions == sorted(positions)


def test_the_captures_on_both_sides_of_one(long: Collection) -> None:
    """The nearest ones, however many there are."""
    reply = Room(long).ask("/timegate/" + URI, ACCEPT_DATETIME="Wed, 01 Jan 2020 00:00:10 GMT")
    links = {name: found[0].partition(";")[0] for name, found in links_in(str(reply.get("Link"))).items()}
    around = {"first": "000000", "prev": "000009", "next": "000011", "last": "065640"}
    wanted = {name: "%s/memento/20200101%s/%s" % (AT, digits, URI) for name, digits in around.items()}
    assert {name: links.get(name) for name in around} == wanted


def test_parts_that_are_none(long: Collection) -> None:
    room = Room(long)
    for form, key in (("link", "x"), ("json", "20200101000000000000000"), ("link", "20200101000000000000000-1-2")):
        assert room.ask("/timemap/%s-after/%s/%s" % (form, key, URI)).status == 400
    assert room.ask("/timemap/link-after/%s/%s" % ("9" * 4 + "0101" + "0" * 15, URI)).status == 404
    assert len(walk(room, "/timemap/link-after/%s/%s" % ("0" * 4 + "0101" + "0" * 15, URI))[0]["memento"]) == 10_000


def test_a_list_of_a_long_uri(collection: Collection) -> None:
    """It has fewer captures in a part: the URI is in each line."""
    uri = "http://a.example/" + "x" * 60_000
    dates = ("2020-01-01T00:0%d:%02dZ" % divmod(second, 60) for second in range(400))
    collection.put("disk/a.warc", *(record(number, b"x", uri, date=date) for number, date in enumerate(dates)))
    read(collection)
    parts = walk(Room(collection), "/timemap/link/" + uri)
    counts = [len(part["memento"]) for part in parts]
    assert sum(counts) == 400 and len(counts) == 2 and counts[0] * len(uri) < 16 << 20


def test_a_capture_that_another_file_answers(collection: Collection) -> None:
    """It isn't listed as one that lacks something; one of which the record is damaged is."""
    collection.put("disk/a.warc", response(1, URI, FIRST, b"snow"))
    collection.put("disk/b.warc", revisit(2, URI, SECOND, ID % 1))
    collection.put("disk/c.warc", record(4, b"x", URI + "bad", digest="sha1:" + "A" * 32))
    read(collection)
    room = Room(collection)
    assert room.ask("/memento/20210601120000/" + URI).body == b"snow"
    listed = room.ask("/timemap/json/" + URI).json["mementos"]["list"]
    assert [it["reason"] for it in listed] == [None, "elsewhere"]
    done = collection.run("find", URI).stdout
    assert b"P5" not in done and b"\trevisit\t-\t-\t-\t-\telsewhere\t-\n" in done
    assert b"P8 BadDigest" in collection.run("find", URI + "bad").stdout


# Near spellings

NEAR: Dict[str, Set[str]] = {
    "https://a.example/": {"http://a.example/"},
    "http://a.example": {"http://a.example/"},
    "http://A.EXAMPLE/": {"http://a.example/"},
    "http://www.a.example/": {"http://a.example/"},
    "https://www.a.example:443": {"http://a.example/"},
    "http://a.example:80/": {"http://a.example/"},
    "http://b.example/path": {"https://www.b.example:443/path/"},
    "http://b.example/path?x": {"http://b.example/path/?x"},
    "http://a.example/other": set(),
    "http://b.example/PATH": {"https://www.b.example:443/path/"},
    "b.example/path": {"https://www.b.example:443/path/"},
    "http://www2.b.example/path/?b&a": {"http://b.example/path/?a&B"},
    "http://a.example:8080/": set(),
    "ftp://a.example/": {"http://a.example/"},
    "urn:x": set(),
}


@pytest.fixture(name="spellings", scope="module")
def spellings_fixture(tmp_path_factory: pytest.TempPathFactory) -> Collection:
    """One URI, and three with more in them."""
    collection = new_collection(tmp_path_factory)
    uris = URI, URI, "https://www.b.example:443/path/", "http://b.example/path/?x", "http://b.example/path/?a&B"
    dates = FIRST, SECOND, FIRST, FIRST, FIRST
    collection.put("disk/a.warc", *(response(number, *pair, b"x") for number, pair in enumerate(zip(uris, dates))))
    read(collection)
    return collection


@pytest.mark.parametrize("uri", NEAR)
def test_near_spellings(spellings: Collection, uri: str) -> None:
    """The answer stays none. Beneath it is a list to choose from."""
    room = Room(spellings)
    for path in ("/timegate/", "/timemap/link/", "/memento/20200101000000/", "/room/answer/20200101000000/"):
        reply = room.ask(path + uri)
        lines = [line.split() for line in reply.text.splitlines() if line.startswith("near: ")]
        assert reply.status == 404 and reply.text.startswith("P1 NoCapture\n"), reply
        assert {line[1] for line in lines} == NEAR[uri]
    found = room.ask("/room/near/" + uri).json["found"]
    assert {it["path"] for it in found} == NEAR[uri]
    if URI in NEAR[uri]:
        assert (found[0]["captures"], found[0]["first"][:10], found[0]["last"][:10]) == (2, FIRST[:10], SECOND[:10])


def test_near_what_is_searched_for(spellings: Collection) -> None:
    """Beside the URIs that begin with a text are others that are near it."""
    room = Room(spellings)
    for text, found, near in (
        ("http://b.example/path/?a", ["http://b.example/path/?a&B"], []),
        ("http://b.example/path?A&b", [], ["http://b.example/path/?a&B"]),
        ("b.example/path/", [], ["https://www.b.example:443/path/"]),
        ("https", ["https://www.b.example:443/path/"], []),
        ("https://www.b.example:443/path", ["https://www.b.example:443/path/"], []),
    ):
        reply = room.ask("/room/found/" + text).json
        assert [[it["path"] for it in reply[name]] for name in ("found", "near")] == [found, near], text


def test_no_near_spelling_of_what_is_there(spellings: Collection) -> None:
    assert Room(spellings).ask("/memento/19990101000000/" + URI).text == "P2 NotYet\n"
    assert Room(spellings).ask("/memento/19990101000000/http://b.example/path/?x").text == "P2 NotYet\n"


# Tags and ranges

LONG = bytes(range(256)) * 12_000


@pytest.fixture(name="films", scope="module")
def films_fixture(tmp_path_factory: pytest.TempPathFactory) -> Collection:
    """A long body in a file, in a compressed one, and in chunks; a short one; and a page that wasn't there."""
    collection = new_collection(tmp_path_factory)
    chunks = b"%x\r\n%s\r\n0\r\n\r\n" % (len(LONG), LONG)
    collection.put(
        "disk/a.warc",
        response(1, URI + "plain", FIRST, LONG, media=b"video/webm"),
        response(2, URI + "chunked", FIRST, chunks, head=b"Transfer-Encoding: chunked\r\n"),
        response(3, URI + "short", FIRST, LONG[:5000]),
        response(4, URI + "missing", FIRST, b"not here", b"404 Not Found"),
        response(5, URI + "empty", FIRST, b""),
    )
    collection.put("disk/b.warc.gz", gzip.compress(response(6, URI + "packed", FIRST, LONG)))
    read(collection)
    return collection


def film(name: str) -> str:
    return "/memento/20200101000000/" + URI + name


RANGES = {
    "bytes=0-0": (0, 1),
    "bytes=100-199": (100, 200),
    "bytes=1000-": (1000, None),
    "bytes=-10": (-10, None),
    "bytes=2-999999999": (2, None),
}


@pytest.mark.parametrize("name", ["plain", "packed", "short"])
@pytest.mark.parametrize("wanted", RANGES)
def test_ranges(films: Collection, name: str, wanted: str) -> None:
    first, last = RANGES[wanted]
    body = LONG[:5000] if name == "short" else LONG
    reply = Room(films).ask(film(name), RANGE=wanted)
    assert reply.status == 206 and reply.body == body[first:last]
    begin = first % len(body)
    said = "bytes %d-%d/%d" % (begin, begin + len(reply.body) - 1, len(body))
    assert (reply.get("Content-Range"), reply.get("Content-Length")) == (said, str(len(reply.body)))


def test_ranges_that_are_none(films: Collection) -> None:
    room = Room(films)
    for wanted in ("bytes=5-1", "bytes=0-1,5-6", "lines=0-1", "bytes=-", "bytes=x-"):
        assert room.ask(film("short"), RANGE=wanted).status == 200
    for name, wanted in (("short", "bytes=5000-"), ("short", "bytes=-0"), ("empty", "bytes=0-")):
        reply = room.ask(film(name), RANGE=wanted)
        size = 5000 if name == "short" else 0
        assert reply.status == 416 and reply.get("Content-Range") == "bytes */%d" % size, reply
    assert room.ask(film("missing"), RANGE="bytes=0-1").status == 404
    decoded = room.ask(film("chunked"), RANGE="bytes=0-1")
    assert decoded.status == 200 and decoded.body == LONG and decoded.get("Accept-Ranges") == "none"
    assert room.ask(film("plain")).get("Accept-Ranges") == "bytes"
    head = room.ask(film("plain"), "HEAD", RANGE="bytes=0-1")
    assert (head.status, head.get("Content-Length"), head.body) == (200, str(len(LONG)), b"")


def test_a_range_of_what_a_reader_began_to_read(films: Collection) -> None:
    room = Room(films)
    tag = str(room.ask(film("plain")).get("ETag"))
    assert room.ask(film("plain"), RANGE="bytes=1-1", IF_RANGE=tag).status == 206
    assert room.ask(film("plain"), RANGE="bytes=1-1", IF_RANGE='"other"').status == 200


@pytest.mark.parametrize("path", ["/memento/20200101000000/", "/room/answer/20200101000000/"])
def test_tags(films: Collection, path: str) -> None:
    """A reader who has the bytes gets an answer that says so, each time it asks. Each capture has a tag of its own."""
    room = Room(films)
    tags = set()
    for name in ("plain", "packed", "short", "chunked", "empty"):
        reply = room.ask(path + URI + name)
        tag = str(reply.get("ETag"))
        tags.add(tag)
        assert reply.get("Cache-Control") == "private, no-cache"
        for field in (tag, "W/" + tag, '"x", %s' % tag, "*"):
            again = room.ask(path + URI + name, IF_NONE_MATCH=field)
            assert (again.status, again.body, again.get("ETag")) == (304, b"", tag), again
            assert again.get("Cache-Control") == "private, no-cache"
        assert room.ask(path + URI + name, IF_NONE_MATCH='"x"').status == 200
    assert len(tags) == 5
    assert room.ask("/timemap/link/" + URI + "plain").get("Cache-Control") == "no-store"


def test_a_tag_is_that_of_the_bytes(collection: Collection) -> None:
    """A file that was read anew has others."""
    path = collection.put("disk/a.warc", response(1, URI, FIRST, b"snow"))
    read(collection)
    tag = str(Room(collection).ask(MEMENTO).get("ETag"))
    put(path, response(1, URI, FIRST, b"rain!"))
    read(collection)
    collection.run("accept", path)
    reply = Room(collection).ask(MEMENTO, IF_NONE_MATCH=tag)
    assert (reply.status, reply.body) == (200, b"rain!")


# Long bodies


def begun(room: Room, path: str) -> Any:
    """The body of an answer that nobody has read."""
    environ = {"REQUEST_METHOD": "GET", "REQUEST_URI": path, "HTTP_HOST": "room.example", "REMOTE_ADDR": "192.0.2.1"}
    return room.app({**environ, "SERVER_PROTOCOL": "HTTP/1.1"}, lambda _status, _headers: None)


@pytest.mark.parametrize("is_whole", [False, True])
@pytest.mark.parametrize("name", ["plain", "packed", "chunked"])
def test_a_slow_reader_keeps_no_archive(films: Collection, name: str, is_whole: bool) -> None:
    """Others have theirs meanwhile, and the slow one has all of it in the end."""
    room = Room(films, is_whole=is_whole, limits={"archives": 1})
    bodies = [begun(room, film(name)) for _ in range(4)]
    assert not any(held.users for held in room.app.shelf.held.values())
    assert room.ask(film("short")).status == room.ask(film("packed")).status == 200
    for body in bodies:
        assert b"".join(body) == LONG
        body.close()


def test_bytes_on_their_way_out_are_counted(films: Collection) -> None:
    """Those of compressed files are in a file without a name; those who go away leave nothing."""
    for is_whole in (False, True):
        room = Room(films, is_whole=is_whole, limits={"unpacked": len(LONG) * (2 + is_whole) + 10_000})
        bodies = [begun(room, film("packed")) for _ in range(2)]
        assert room.app.shelf.counts()[1] >= (2 + is_whole) * len(LONG)
        assert room.ask(film("packed")).status == 503
        for body in bodies:
            body.close()
        assert room.app.shelf.counts()[1] < (1 + is_whole) * len(LONG) and room.ask(film("packed")).body == LONG


def test_a_file_that_changes_while_it_is_sent(collection: Collection, capfd: Any) -> None:
    """No byte of another file goes out."""
    path = collection.put("disk/a.warc", response(1, URI, FIRST, LONG))
    read(collection)
    body = begun(Room(collection), MEMENTO)
    piece = body.read(1 << 20)
    with open(path, "ab") as file:
        file.write(b"more")
    with pytest.raises(OSError):
        body.read(1 << 20)
    assert piece == LONG[: 1 << 20] and "changed" in capfd.readouterr().err
    os.truncate(path, 100)
    with pytest.raises(OSError):
        body.read(10)
    body.close()


# Operators


def test_health(collection: Collection) -> None:
    collection.put("disk/a.warc", response(1, URI, FIRST, b"x"))
    read(collection)
    room = Room(collection)
    ended = collection.ask("SELECT max(ended) FROM runs")[0][0]
    assert room.ask("/health").json == {"is_well": True, "last_run": ended}
    os.rename(collection.path("catalogue/catalogue.sqlite"), collection.path("catalogue/away"))
    reply = room.ask("/health")
    assert reply.status == 503 and collection.folder not in reply.all, reply


def test_another_catalogue_is_taken_up(collection: Collection) -> None:
    """Without a restart."""
    collection.put("disk/a.warc", response(1, URI, FIRST, b"old"))
    read(collection)
    room = Room(collection)
    assert room.ask(MEMENTO).body == b"old"
    collection.put("disk/a.warc", response(1, URI, FIRST, b"newer"))
    os.rename(collection.path("catalogue"), collection.path("away"))
    read(collection)
    assert room.ask(MEMENTO).body == b"newer"
    shutil.rmtree(collection.path("away"))


def test_metrics(films: Collection) -> None:
    room = Room(films, is_whole=True)
    for path in (film("short"), film("short"), film("nothing"), "/timegate/" + URI + "short", "/nothing"):
        room.ask(path)
    text = room.ask("/metrics").text
    for line in (
        'warc_requests_total{kind="memento",status="200"} 2',
        'warc_requests_total{kind="memento",status="404"} 1',
        'warc_requests_total{kind="timegate",status="302"} 1',
        'warc_requests_total{kind="room",status="404"} 1',
        "warc_open_archives 1",
        "warc_unpacked_bytes 0",
        "warc_access_rules_taken 1",
    ):
        assert line in text.splitlines(), text
    assert re.search(r'^warc_request_seconds_total{kind="memento"} \d+\.\d{3}$', text, re.MULTILINE)
    assert URI not in text


def test_the_log(films: Collection, tmp_path: Any) -> None:
    """A line for each answer, whatever a request has in it. One that was moved away is opened anew."""
    path = tmp_path / "log"
    room = Room(films, log=str(path))
    room.ask(film("short"))
    room.ask('/a"b\x1b\n\xff', host="evil.example")
    lines = path.read_text().splitlines()
    when = r"\[\d\d/[A-Z][a-z]{2}/\d{4}:\d\d:\d\d:\d\d \+0000\]"
    assert re.fullmatch(r'192\.0\.2\.1 - - %s "GET %s HTTP/1\.1" 200 5000 \d+\.\d{3}' % (when, film("short")), lines[0])
    assert r'"GET /a%22b\x1b\n' in lines[1] and " 403 " in lines[1] and len(lines) == 2
    os.rename(path, tmp_path / "log.1")
    room.app.reload()
    room.ask(film("short"))
    assert len(path.read_text().splitlines()) == 1


def test_json_of_a_list_says_what_find_says(films: Collection) -> None:
    listed = Room(films).ask("/timemap/json/" + URI + "short").json["mementos"]["list"]
    found = json.loads(films.run("find", "--json", URI + "short").stdout)
    assert {**found, "path": os.path.basename(found["path"])} == {
        key: value for key, value in listed[0].items() if key in found
    }
