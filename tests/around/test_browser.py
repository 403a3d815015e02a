"""The reading room in Chromium: the page alone, and the room over a collection. Parts that are soon at their end."""
from __future__ import annotations

import contextlib
from pathlib import Path
from typing import Iterator, Tuple

import pytest
import test_page
import test_served
import texts
from collection_trial import Trial
from finding import finding
from listener import Listener

from .conftest import built, needs

PARTS = (
    *("building", "charsets", "codings", "damaged", "heads", "hostile", "unguarded", "keyboard", "saved", "long"),
    *("missing", "selection", "faithful", "views", "styles", "texts", "wacz"),
)
Room = Tuple[test_served.Tests, Listener, Trial]


# Two processes at most have a browser for these.
MARKED = [pytest.param(it, marks=pytest.mark.xdist_group(f"page-{at % 2}")) for at, it in enumerate(PARTS)]


@pytest.mark.parametrize("part", MARKED)
def test_part_of_the_page(part: str, warc: str, tmp_path: Path) -> None:
    needs("chromium", "wget")
    tests = test_page.Tests(built("zogwedu.html"), warc, "")
    test_page.try_parts(tests, [part], str(tmp_path))
    assert tests.passed > 0 and tests.failed == 0


@pytest.mark.xdist_group("served-page")
def test_the_same_hits_as_the_collection(warc: str, tmp_path: Path) -> None:
    needs("chromium", "parallel")
    built("out/python/zogwedu/libwarc.so")
    tests = test_page.Tests(built("zogwedu.html"), warc, "")
    texts.same_hits(tests, str(tmp_path))
    assert tests.passed > 0 and tests.failed == 0


@pytest.mark.xdist_group("served-page")
def test_pages_of_packages(warc: str, tmp_path: Path) -> None:
    needs("chromium", "parallel")
    built("out/python/zogwedu/libwarc.so")
    trial = Trial(warc, str(tmp_path))
    tests = test_served.packages(trial)
    assert tests.passed > 0 and tests.failed == 0 and trial.surprises == 0


@pytest.fixture(name="room", scope="module")
def room_fixture(warc: str, tmp_path_factory: pytest.TempPathFactory) -> Iterator[Room]:
    """A browser over a server over a collection."""
    needs("chromium", "parallel")
    built("out/python/zogwedu/libwarc.so")
    trial = Trial(warc, str(tmp_path_factory.mktemp("room")))
    with contextlib.closing(Listener()) as listener:
        test_served.read_crawls(trial, listener)
        with test_served.room(trial) as tests:
            yield tests, listener, trial


@pytest.mark.xdist_group("served-page")
class TestServed:
    """One browser goes from part to part."""

    def judge(self, room: Room) -> None:
        tests, _, trial = room
        failed, tests.failed = tests.failed, 0
        assert tests.passed > 0 and failed == 0 and trial.surprises == 0

    def test_search_and_page(self, room: Room) -> None:
        test_served.search_and_page(room[0], "")
        self.judge(room)

    def test_answers(self, room: Room) -> None:
        test_served.answers(room[0])
        self.judge(room)

    def test_dates(self, room: Room) -> None:
        test_served.dates(room[0])
        self.judge(room)

    def test_narrow(self, room: Room) -> None:
        test_served.narrow(room[0])
        self.judge(room)

    def test_finding(self, room: Room) -> None:
        finding(room[0], "")
        self.judge(room)

    def test_withheld(self, room: Room) -> None:
        tests = test_served.withheld(room[2])
        assert tests.passed > 0 and tests.failed == 0

    def test_hostile(self, room: Room) -> None:
        test_served.hostile(room[0], room[1])
        self.judge(room)

    def test_as_it_is(self, room: Room) -> None:
        test_served.as_it_is(room[0], room[1], room[2].folder)
        self.judge(room)
