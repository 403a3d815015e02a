"""URIs and instants in paths, dates in heads, and links between captures, as RFC 7089 has them."""
from __future__ import annotations

import datetime
import email.utils
import json
from typing import Any, Dict, List, Tuple, Union

import pytest
from zogwedu_collection import memento
from zogwedu_collection.memento import Around, NotOne, Part, Parts, Paths

FIRST, LATER, LAST = ("20%d-01-01T00:00:00.000000000Z" % year for year in (10, 15, 20))
URI = "http://a.example/x?a=b&c=d"
PATHS = Paths("", URI)


@pytest.mark.parametrize(
    "target, path",
    [
        (URI, URI),
        ("http://a.example/%41", "http://a.example/%41"),
        ("x", "x"),
        ("a b", "a%20b"),
        ("http://a.example/a b", "http%3A%2F%2Fa.example%2Fa%20b"),
        ("http://a.example/../b", "http%3A%2F%2Fa.example%2F..%2Fb"),
        ("http://a.example/%2e%2E/b", "http%3A%2F%2Fa.example%2F%252e%252E%2Fb"),
        ("http://a.example/#x", "http%3A%2F%2Fa.example%2F%23x"),
        ("é", "%C3%A9"),
        (b"http://a.example/\xff", "http%3A%2F%2Fa.example%2F%FF"),
    ],
)
def test_a_target_in_a_path_and_back(target: Union[str, bytes], path: str) -> None:
    assert memento.path_of(target) == path
    assert memento.target_in(path) == target


@pytest.mark.parametrize("text", ["", "a b", "%zz", "%4", "<a>", "é", "http://a.example/\x00", "http://a.example/#x"])
def test_what_is_no_target(text: str) -> None:
    with pytest.raises(NotOne):
        memento.target_in(text)


@pytest.mark.parametrize(
    "location, path",
    [
        ("/y", "http://a.example/y"),
        (" y ", "http://a.example/y"),
        ("//b.example/", "http://b.example/"),
        ("https://b.example/z#end", "https://b.example/z"),
        ("?q", "http://a.example/x?q"),
        ("http://[", None),
    ],
)
def test_where_a_location_leads(location: str, path: str) -> None:
    assert memento.referred(URI, location) == path


@pytest.mark.parametrize("instant", [FIRST, "0000-02-29T23:59:59.000000001Z", "9999-12-31T23:59:59.999999999Z"])
def test_an_instant_in_a_path_and_back(instant: str) -> None:
    first, last = memento.instants_of(memento.digits_of(instant))
    assert first <= instant <= last and first[:19] == last[:19]
    assert memento.instants_of(memento.digits_of(instant)[:14]) == (
        instant[:20] + "000000000Z",
        instant[:20] + "999999999Z",
    )


@pytest.mark.parametrize(
    "digits",
    ["", "2020", "20200230000000", "20201301000000", "20200101240000", "20200101006000", "20200101000060", "2" * 23]
    + ["2020010100000000", "２０２００１０１００００００", "+2020010100000"],
)
def test_what_is_no_instant(digits: str) -> None:
    with pytest.raises(NotOne):
        memento.instants_of(digits)


def test_dates_of_http_are_those_of_python() -> None:
    for days in range(0, 150_000, 97):
        day = datetime.datetime(1900, 1, 1, 4, 5, 6, tzinfo=datetime.timezone.utc) + datetime.timedelta(days)
        text = email.utils.format_datetime(day, usegmt=True)
        instant = day.strftime("%Y-%m-%dT%H:%M:%S.000000000Z")
        assert memento.http_date(instant) == text
        assert memento.instants_of_http_date(text)[0] == instant


@pytest.mark.parametrize(
    "text",
    [
        "Fri, 26 Nov 2026 04:49:36 GMT",
        "Thu, 31 Nov 2026 04:49:36 GMT",
        "Thu, 26 Nov 2026 24:49:36 GMT",
        "Thu, 6 Nov 2026 04:49:36 GMT",
        "thu, 26 Nov 2026 04:49:36 GMT",
        "Thu, 26 Nov 2026 04:49:36 UTC",
        "Thu, 26 Nov 2026 04:49:36 GMT x",
        "",
    ],
)
def test_what_is_no_date_of_http(text: str) -> None:
    with pytest.raises(NotOne):
        memento.instants_of_http_date(text)


def test_links_of_a_memento() -> None:
    links = memento.head_links(PATHS, Around(FIRST, LAST, FIRST, LAST), LATER, True)
    relations = [part.split('rel="')[1].split('"')[0] for part in links.split(">;")[1:]]
    assert relations == ["original", "timegate", "timemap", "first prev memento", "memento", "next last memento"]
    assert '<%s>; rel="original"' % URI in links and "/memento/20150101000000/%s>" % URI in links


def test_one_capture_is_the_first_and_the_last() -> None:
    assert memento.relations(Around(FIRST, FIRST), FIRST) == {FIRST: "first last memento"}


def test_a_long_target_has_fewer_links() -> None:
    around = Around(FIRST, LAST, FIRST, LAST)
    for count, wanted in ((10, 6), (5_000, 3), (20_000, 1)):
        links = memento.head_links(Paths("", "http://a.example/" + "x" * count), around, LATER, True)
        assert links.count("rel=") == wanted, count


def test_a_timemap_in_json_is_json() -> None:
    captures: List[Tuple[str, Dict[str, Any]]] = [(FIRST, {"file": 'a"b'}), (LAST, {})]
    parts = Parts(Part("", FIRST, LAST), None, Part(memento.key_of(LAST, 1, 2), LAST, LAST))
    found = json.loads(memento.json_timemap(PATHS, Around(FIRST, LAST), parts, captures))
    assert found["original_uri"] == URI and "prev" not in found
    assert found["next"] == "/timemap/json-after/20200101000000000000000-1-2/" + URI
    assert [it["datetime"] for it in found["mementos"]["list"]] == ["2010-01-01T00:00:00Z", "2020-01-01T00:00:00Z"]
    assert found["mementos"]["list"][0]["file"] == 'a"b'


@pytest.mark.parametrize("form, place", [("link", ()), ("json", (12, 345))])
def test_keys_of_parts(form: str, place: Tuple[int, ...]) -> None:
    """A key means the capture that it was made of, and that of another form none."""
    key = memento.key_of(LATER, *place)
    assert memento.key_in(key, form) == (LATER, *place)
    for text, other in ((key, "json" if form == "link" else "link"), (key + "-1", form), ("", form), (key[1:], form)):
        with pytest.raises(NotOne):
            memento.key_in(text, other)
