#!/usr/bin/env python3
"""Refuses the program's requests for memory, one after another.

    python3 tests/stress/memory.py WARC

For each command the k-th request is refused, alone and with all later ones, for each k until a run meets none; above
EACH_UP_TO some k are left out. After a refusal the status must be 3, what arrived must be the beginning of the output,
and a count in the message must be the number of bytes that arrived. A run that meets no refusal, or that gets over it,
must give what it always gives. Needs a C compiler: tests/stress/refuse.c is loaded in front of the C library.
"""
import os
import resource
import shutil
import subprocess
import sys
import tempfile
from typing import Iterator, Sequence, Tuple

import system
from system import COMMANDS, Result, Stress, is_failure, words_for

EACH_UP_TO = 150
MOST = 100_000


def library(stress: Stress) -> str:
    """The built library that refuses requests."""
    path = stress.path("refuse.so")
    source = os.path.join(system.HERE, "refuse.c")
    subprocess.run(["cc", "-O1", "-shared", "-fPIC", "-o", path, source], check=True)
    return path


def numbers() -> Iterator[int]:
    """1, 2, 3 .. up to EACH_UP_TO, and then ever fewer."""
    number = 1
    while number < MOST:
        yield number
        number += max(1, (number - EACH_UP_TO) // 20) if number > EACH_UP_TO else 1


def refused(stress: Stress, preload: str, words: Sequence[str], number: int, goes_on: bool) -> Tuple[Result, bool]:
    """Runs the program with a request refused. Returns the result, and whether one was."""
    note = stress.path("note")
    if os.path.exists(note):
        os.remove(note)
    before = [
        "env",
        "REFUSE_AT=%d" % number,
        "REFUSE_NOTE=" + note,
        *(["REFUSE_ON=1"] if goes_on else []),
        "LD_PRELOAD=" + preload,
    ]
    seen = stress.run(words, before)
    return seen, os.path.exists(note)


def refused_requests(stress: Stress) -> None:
    """The k-th request for memory is refused, alone or with all later ones."""
    preload = library(stress)
    if not refused(stress, preload, ["list", stress.archive], 1, False)[1]:
        print("refused requests: not tried, this program doesn't ask the C library for memory")
        return
    for goes_on in (False, True):
        stress.begin("a refused request for memory" + (", and all later ones" if goes_on else ""))
        for command in COMMANDS:
            for number in numbers():
                seen, was_refused = refused(stress, preload, words_for(command, stress.archive), number, goes_on)
                wanted = stress.expected[command]
                is_right = seen == wanted or was_refused and is_failure(seen, wanted.out)
                stress.judge(is_right, (*command, "request", number), seen)
                if not was_refused:
                    break
            else:
                stress.judge(False, (*command, "more requests than"), MOST)
        stress.end()


def refused_words(stress: Stress) -> None:
    """The same while the words of a command line are read."""
    preload = library(stress)
    if not refused(stress, preload, ["list", stress.archive], 1, False)[1]:
        return
    stress.begin("a refused request for memory, other command lines")
    for words in (
        ["--help"],
        ["--version"],
        ["help", "replay"],
        ["list"],
        ["list", "a", "b"],
        ["nothing"],
        ["replay", "--help"],
        ["list", "--quiet", stress.archive],
    ):
        wanted = stress.run(words)
        for number in numbers():
            seen, was_refused = refused(stress, preload, words, number, False)
            is_right = seen == wanted or was_refused and seen.status == 3 and wanted.out.startswith(seen.out)
            stress.judge(is_right, (*words, "request", number), seen)
            if not was_refused:
                break
        else:
            stress.judge(False, (*words, "more requests than"), MOST)
    stress.end()


def main(program: str) -> int:
    root = os.path.join(system.TOP, "out", "stress")
    os.makedirs(root, exist_ok=True)
    folder = tempfile.mkdtemp(prefix="memory-", dir=root)
    resource.setrlimit(resource.RLIMIT_CORE, (0, 0))
    stress = Stress(program, folder)
    try:
        for kind in (system.plain_runs, refused_requests, refused_words):
            kind(stress)
    finally:
        shutil.rmtree(folder)
    print(
        "memory: %d kinds, %d tried, %d surprises"
        % (len(stress.tried), sum(stress.tried.values()), sum(stress.surprises.values()))
    )
    return 1 if stress.surprises else 0


if __name__ == "__main__":
    sys.exit(main(sys.argv[1]))
