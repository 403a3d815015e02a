"""The cases of commands: each is run over a file and over a pipe. `-k NAME` tries those under a name."""
from __future__ import annotations

from typing import List

import pytest
from cases_commands import VERBS, Place, answers
from cases_script import CASES, Case, id_of

COMMANDS: List[Case] = [case for case in CASES if case.verb in VERBS]


@pytest.mark.parametrize("case", COMMANDS, ids=id_of)
def test_case(place: Place, case: Case) -> None:
    for answer in answers(place, case):
        assert answer == case.wanted
