"""The cases of calls: each is answered by the Python package, over the library that `make lib` built."""
from __future__ import annotations

import types
from typing import List

import pytest
from cases_calls import VERBS, Calls, answer
from cases_commands import Place
from cases_script import CASES, Case, id_of

CALLS: List[Case] = [case for case in CASES if case.verb in VERBS]


@pytest.mark.parametrize("case", CALLS, ids=id_of)
def test_call(package: types.ModuleType, place: Place, case: Case) -> None:
    assert answer(Calls(package, place), case) == case.wanted
