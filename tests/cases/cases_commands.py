"""Runs the program as a case says, from a file and from a pipe, and says what came of it in the words of a script."""
from __future__ import annotations

import pathlib
import subprocess
from typing import Dict, Iterator, List, NamedTuple, Optional

from cases_script import Case, ScriptError

MOST_SECONDS = 120
ARCHIVE, POSITIONS, STDIN = b"a.warc", b"positions.txt", b"-"
# Other names of the archive, for words that look like options.
ODD_NAMES = (b"-a", b"--all", b"--payload")
COMMANDS = frozenset(
    b"list check extract replay body captures rewrite convert split head block fixity pieces salvage summary survey "
    b"explain instant select write".split()
)
# What may come before the words of a command.
BEFORE = frozenset((b"length", b"whole"))
# The commands that take no archive.
ALONE = frozenset((b"explain", b"instant"))
LINES = frozenset((b"run", b"refused", b"help"))
# The command that a case asks about each front of its archive, beside the second reading.
FRONTS: Dict[bytes, str] = {b"each-front-opens": "list", b"each-front-salvages": "salvage"}
VERBS = COMMANDS | BEFORE | LINES | {b"opens"}


class Ended(NamedTuple):
    """What a run wrote to both outputs, and its status."""

    out: bytes
    message: bytes
    status: int


class Place(NamedTuple):
    """The program, and the folder that it runs in."""

    program: str
    folder: pathlib.Path


def run(place: Place, line: List[bytes], piped: bytes = b"", name: Optional[bytes] = None) -> Ended:
    """Runs a command line, whose standard input is a pipe with some bytes. The program is called by a name."""
    first = place.program.encode() if name is None else name
    ended = subprocess.run(
        [first, *line],
        executable=place.program,
        cwd=place.folder,
        input=piped,
        capture_output=True,
        timeout=MOST_SECONDS,
        check=False,
    )
    return Ended(ended.stdout, ended.stderr, ended.returncode)


def said(ended: Ended, archive: bytes, length: bool = False) -> bytes:
    """How a run is reported: its output, or that this is the archive unchanged, its message, and its status."""
    if length:
        out = b"%d bytes\n" % len(ended.out)
    elif ended.out and ended.out == archive:
        out = b"as it stands\n"
    else:
        out = ended.out
    message = b"! " + ended.message if ended.message else b""
    return out + message + b"= %d\n" % ended.status


def line_of(case: Case, archive: bytes) -> List[bytes]:
    """The command line of a case: its options, and then, so that each word may begin as it likes, `--`."""
    words = [case.word(index) for index in range(1, len(case.words))]
    options = [word for word in words if word.startswith(b"--")]
    rest = [word for word in words if not word.startswith(b"--")]
    if case.verb == b"write":
        rest += [] if case.given is None else [case.given]
        rest.append(archive)
    elif case.verb == b"select":
        rest = [archive, POSITIONS, *rest]
    elif case.verb not in ALONE:
        rest = [archive, *rest]
    return [case.verb, *options, b"--", *rest]


def put(place: Place, case: Case, names: Iterator[bytes]) -> None:
    """Puts the archive of a case into the folder, and the positions of a selection."""
    for name in names:
        (place.folder / name.decode()).write_bytes(case.archive)
    (place.folder / POSITIONS.decode()).write_bytes(case.given or b"")


def command_answers(place: Place, case: Case, length: bool) -> Iterator[bytes]:
    """What a command answers from a file, and from a pipe, if it takes an archive."""
    if case.given is not None and case.verb not in (b"select", b"write"):
        raise ScriptError(f"{case.id}: nothing reads the given text")
    yield said(run(place, line_of(case, ARCHIVE)), case.archive, length)
    if case.verb not in ALONE:
        yield said(run(place, line_of(case, STDIN), case.archive), case.archive, length)


def opened_answer(ended: Ended) -> bytes:
    """How many records a list has, or why the archive isn't opened."""
    if ended.status:
        return ended.message.replace(b"warc: ", b"", 1)
    return b"%d\n" % ended.out.count(b"\n")


def kind_of(ended: Ended) -> bytes:
    """Whether words are asked for help, or refused."""
    if ended.status == 0 and ended.out and not ended.message:
        return b"asked for\n"
    if ended.status == 3 and not ended.out and ended.message.startswith(b"error: "):
        return b"refused\n"
    return b"status %d: " % ended.status + ended.out + ended.message


def line_answer(place: Place, case: Case, length: bool) -> bytes:
    """What a whole command line answers. Standard input is the given text, or else the archive."""
    words = [case.word(index) for index in range(1, len(case.words))]
    piped = case.archive if case.given is None else case.given
    ended = run(place, words[1:], piped, words[0])
    if case.verb == b"run":
        return said(ended, case.archive, length)
    lacking = [] if case.verb == b"refused" else (case.given or b"").splitlines()
    lines = [b"it lacks: %s\n" % line for line in lacking if line not in ended.out]
    return kind_of(ended) + b"".join(lines)


def answers(place: Place, case: Case) -> List[bytes]:
    """All that a case answers; each has to be what is wanted."""
    length = case.verb == b"length"
    asked = case.after(1) if case.verb in BEFORE else case
    put(place, asked, iter((ARCHIVE, *(ODD_NAMES if asked.verb in LINES else ()))))
    if asked.verb in LINES:
        return [line_answer(place, asked, length)]
    if asked.verb == b"opens":
        lists = run(place, [b"list", ARCHIVE]), run(place, [b"list", STDIN], asked.archive)
        return [opened_answer(ended) for ended in lists]
    if asked.verb not in COMMANDS:
        raise ScriptError(f"{case.id}: no such case")
    return list(command_answers(place, asked, length))
