#!/usr/bin/env python3
"""Runs the cases of commands over the program before any proof: `rt try --cases` compiles it with checks once, and runs
it for each case over a copy of its archive. Standard output and the exit status are compared, messages aren't.

Usage: unproved.py

`select` and `write` need a second file, and whole command lines have words that no file can hold; test_cases.py tries
these over a built program. The last line says how many cases there are, and the status is 1 if one fails.
"""
from __future__ import annotations

import pathlib
import re
import subprocess
import sys
import tempfile
from concurrent.futures import ThreadPoolExecutor
from typing import Dict, List, NamedTuple

from cases_commands import ALONE, COMMANDS
from cases_script import CASES, TOP, Case

LEFT_OUT = (b"select", b"write", *ALONE)
ENDED = re.compile(r"^case=(\d+) run=(\w[\w-]*)(?: status=(\d+))?(.*)$", re.MULTILINE)
# What a case wants is the output, then the message, if there is one, and the status.
WANTED = re.compile(rb"(.*?)(?:! .*)?= (\d+)\n", re.DOTALL)
AS_IT_IS = b"as it stands\n"
# `rt try` runs each case twice: by an interpreter, which is to give up at once, and compiled with checks.
SECONDS = "60"
# Each part compiles the program for itself, in a minute or two, and then runs a case in about a second.
PARTS = 2


class Run(NamedTuple):
    """A case, its standard output and its status, as they are wanted."""

    case: Case
    out: bytes
    status: int


def words_of(case: Case) -> List[bytes]:
    """The words that the program gets, a copy of the archive among them."""
    words = [case.word(index) for index in range(1, len(case.words))]
    options = [word for word in words if word.startswith(b"--")]
    return [case.verb, *options, b"--", b"{}", *(word for word in words if word not in options)]


def runs() -> List[Run]:
    """The cases that can be tried so."""
    found = []
    for case in CASES:
        wanted = WANTED.fullmatch(case.wanted or b"")
        if case.verb not in COMMANDS or case.verb in LEFT_OUT or wanted is None:
            continue
        if not any(b"\n" in word or b"{}" in word for word in words_of(case)[4:]):
            out = case.archive if wanted[1] == AS_IT_IS else wanted[1]
            found.append(Run(case, out, int(wanted[2])))
    return found


def put(folder: pathlib.Path, number: int, run: Run) -> None:
    """Puts a case into the folder that `rt try` reads."""
    (folder / f"{number}").write_bytes(run.case.archive)
    (folder / f"{number}.args").write_bytes(b"".join(word + b"\n" for word in words_of(run.case)))
    (folder / f"{number}.stdout").write_bytes(run.out)


def wrong(tried: List[Run], said: str) -> List[str]:
    """A line for each case that didn't end as it is wanted."""
    ended: Dict[int, str] = {}
    for number, how, status, rest in ENDED.findall(said):
        is_right = how == "ended" and int(status) == tried[int(number)].status and "output=differs" not in rest
        ended[int(number)] = "" if is_right else f"{how}, status {status}{rest}"
    lines = [(run.case.id, ended.get(number, "it wasn't run")) for number, run in enumerate(tried)]
    return [f"{name}: {why}" for name, why in lines if why]


def said_of(tried: List[Run]) -> str:
    """What `rt try` says of some cases."""
    with tempfile.TemporaryDirectory(prefix="zogwedu-cases-") as name:
        folder = pathlib.Path(name)
        folder.chmod(0o755)
        for number, run in enumerate(tried):
            put(folder, number, run)
        words = ["rt", "try", "--steps", "1", "--seconds", SECONDS, "--cases", name]
        done = subprocess.run(words, cwd=TOP / "crates" / "warc_tool", capture_output=True, check=False)
    return (done.stdout + done.stderr).decode(errors="replace")


def main() -> int:
    """Tries all of them, in parts side by side."""
    tried = runs()
    parts = [tried[first::PARTS] for first in range(PARTS)]
    with ThreadPoolExecutor(PARTS) as pool:
        texts = list(pool.map(said_of, parts))
    lines = [line for part, said in zip(parts, texts) for line in wrong(part, said)]
    print("\n".join([*lines, f"{len(tried)} cases before any proof, {len(lines)} failed"]))
    if lines or not tried:
        print("\n".join(said[-1000:] for said in texts), file=sys.stderr)
    return 1 if lines or not tried else 0


if __name__ == "__main__":
    sys.exit(main())
