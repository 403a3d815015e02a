"""The archives of the scripts and the fronts of some, compared with the second reading of the format.

CASES_EVERY says which archives are compared: each of them, or one in that number.
"""
from __future__ import annotations

import collections
import os
import signal
from typing import Callable, Counter, Iterator, List, Sequence

import pytest
from cases_commands import FRONTS, Place
from cases_script import ARCHIVES, CASES, Case, id_of

import differential
import generate

EVERY = int(os.environ.get("CASES_EVERY", "8"))
LONGEST = 100_000
SAMPLE: List[bytes] = [data for data in ARCHIVES if len(data) <= LONGEST][::EVERY]


@pytest.fixture
def differences(place: Place) -> Iterator[Callable[[int, bytes, Sequence[Sequence[str]]], int]]:
    """What counts the command lines that give something else than the second reading."""
    before = signal.signal(signal.SIGALRM, differential.ring)

    def count(number: int, data: bytes, lines: Sequence[Sequence[str]]) -> int:
        counts: Counter[str] = collections.Counter()
        differential.compare_lines(place.program, str(place.folder), number, data, lines, counts)
        return counts["differences"]

    yield count
    signal.signal(signal.SIGALRM, before)


@pytest.mark.parametrize("number", range(len(SAMPLE)))
def test_archive(number: int, differences: Callable[[int, bytes, Sequence[Sequence[str]]], int]) -> None:
    data = SAMPLE[number]
    assert differences(number, data, generate.command_lines(number, data)) == 0


@pytest.mark.parametrize("case", [case for case in CASES if case.verb in FRONTS], ids=id_of)
def test_fronts(case: Case, differences: Callable[[int, bytes, Sequence[Sequence[str]]], int]) -> None:
    lines = [(FRONTS[case.verb],)]
    same = sum(not differences(end, case.archive[:end], lines) for end in range(len(case.archive)))
    assert b"%d fronts\n" % same == case.wanted
