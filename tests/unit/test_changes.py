"""What a run makes of a file that it read before: rotten bytes, how a file changed, and which are gone."""
from __future__ import annotations

import dataclasses
from typing import Optional, Tuple

import pytest
from zogwedu_collection.discover import Found, is_below, is_lost
from zogwedu_collection.disk import Stamp, signed
from zogwedu_collection.job import Outcome
from zogwedu_collection.states import ABOUT_BYTES, READ, STATES, TRIED_AGAIN
from zogwedu_collection.take_in import Before, change_of, judged

STAMP = Stamp(100, 7, 8, 9)
BEFORE = Before(1, 100, 7, "old", True, "old", None)


def outcome(state: str = "good", sha256: Optional[str] = None, stamp: Optional[Stamp] = STAMP) -> Outcome:
    """What came of a job."""
    return Outcome("/a.warc", state=state, stamp=stamp, digests={} if sha256 is None else {"sha256": sha256})


@pytest.mark.parametrize("state", READ)
def test_other_bytes_with_the_same_size_and_time_are_rotten(state: str) -> None:
    it = outcome(state, "new")
    judged(BEFORE, it)
    assert (it.state, it.detail) == ("rotten", "its SHA-256 was old, and is new")


@pytest.mark.parametrize(
    "it",
    [
        outcome(sha256="old"),
        outcome(sha256=None),
        outcome("failed", "new"),
        outcome("changing", "new"),
        outcome(sha256="new", stamp=None),
        outcome(sha256="new", stamp=Stamp(101, 7, 8, 9)),
        outcome(sha256="new", stamp=Stamp(100, 8, 8, 9)),
    ],
)
def test_what_is_not_rotten(it: Outcome) -> None:
    state = it.state
    judged(BEFORE, it)
    assert it.state == state


def test_a_first_digest_is_compared_with_nothing() -> None:
    it = outcome(sha256="new")
    judged(dataclasses.replace(BEFORE, sha256=None), it)
    assert it.state == "good"


def test_rotten_bytes_stay_rotten_until_their_digest_is_right() -> None:
    before = dataclasses.replace(BEFORE, rotten=(100, 7))
    unread, right = outcome(), outcome(sha256="old")
    judged(before, unread)
    judged(before, right)
    assert (unread.state, right.state) == ("rotten", "good")


# The state, size and time of before; the size and time now; whether it was gone; and the change.
CHANGES: Tuple[Tuple[Optional[Tuple[str, Optional[int], Optional[int]]], Optional[Stamp], bool, str], ...] = (
    (None, STAMP, False, "new"),
    (None, None, False, "new"),
    (("good", 100, 7), STAMP, True, "back"),
    (("good", 100, 7), STAMP, False, "same"),
    (("good", 100, 7), None, False, "same"),
    (("failed", None, None), STAMP, False, "same"),
    (("good", 99, 6), STAMP, False, "grown"),
    (("good", 101, 6), STAMP, False, "changed"),
    (("good", 100, 6), STAMP, False, "changed"),
)


@pytest.mark.parametrize("before, stamp, was_gone, change", CHANGES)
def test_how_a_file_changed(
    before: Optional[Tuple[str, Optional[int], Optional[int]]], stamp: Optional[Stamp], was_gone: bool, change: str
) -> None:
    assert change_of(before, outcome(stamp=stamp), was_gone) == change


def test_which_files_are_lost() -> None:
    found = Found({"/a/there": STAMP, "/a/away": None}, unread={"/a/locked": "", "/b/file": ""})
    names = ("/a/there", "/a/away", "/a/new", "/a/locked/x", "/a/locked2", "/b/file", "/b/other")
    assert [it for it in names if is_lost(it, found, ["/a"])] == ["/a/away", "/a/new", "/a/locked2"]


@pytest.mark.parametrize(
    "path, folder, is_so",
    [
        ("/a/b", "/a", True),
        ("/a", "/a", True),
        ("/ab", "/a", False),
        ("/a", "/a/b", False),
        ("/a/b", "/", True),
        ("/a/b", "/a/", True),
    ],
)
def test_what_is_below_a_folder(path: str, folder: str, is_so: bool) -> None:
    assert is_below(path, [folder]) is is_so


@pytest.mark.parametrize(
    "number, kept", [(0, 0), (5, 5), (-1, -1), ((1 << 63) - 1, (1 << 63) - 1), (1 << 63, -1 << 63), ((1 << 64) - 1, -1)]
)
def test_inodes_of_64_bits_are_kept(number: int, kept: int) -> None:
    assert signed(number) == kept


def test_each_state_has_its_meaning() -> None:
    assert set(READ) <= set(ABOUT_BYTES) <= set(STATES) and set(TRIED_AGAIN) <= set(STATES)
