"""The exit statuses that the help of a command names are those that it is proved to have."""
from __future__ import annotations

import re
from typing import Dict, Set

import make_program
from shared import read

ENDS = "crates/warc_commands/specs/Ends.antt"
EXIT = "crates/warc_arguments/specs/Exit.antt"
CODE = re.compile(r"^code_of (\w+) = (\d)$", re.MULTILINE)
SET = re.compile(r"^(May\w+) status = (.*)$", re.MULTILINE)
COMMAND = re.compile(r"^IsStatusOf \(?command\.(\w+)[^)=]*\)? status =\s+(.*)$", re.MULTILINE)


def proved(ends: str, codes: str) -> Dict[str, Set[int]]:
    """The exit statuses of each command, by what definitions say."""
    numbers = {name: int(number) for name, number in CODE.findall(codes)}
    sets = dict(SET.findall(ends))
    clauses = {name.lower(): sets.get(clause.split(" ")[0], clause) for name, clause in COMMAND.findall(ends)}
    return {name: {numbers[it] for it in re.findall(r"≡ (\w+)", clause)} for name, clause in clauses.items()}


def test_help_names_the_statuses_that_are_proved() -> None:
    named = {it.name: set(it.statuses) for it in make_program.commands()}
    assert named == proved(read(ENDS), read(EXIT))


def test_another_status_is_seen() -> None:
    codes = "code_of Done = 0\ncode_of Failed = 3\n"
    one = "IsStatusOf (command.Write draft) status = status ≡ Done\n"
    two = "IsStatusOf (command.Write draft) status =\n    (status ≡ Done) ⊎ (status ≡ Failed)\n"
    assert proved(one, codes) == {"write": {0}}
    assert proved(two, codes) == {"write": {0, 3}}
