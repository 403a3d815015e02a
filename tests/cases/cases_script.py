"""Reads scripts of cases. README.md beside this file says what a script may hold."""
from __future__ import annotations

import dataclasses
import pathlib
import re
from typing import Dict, Iterator, List, Optional, Tuple

HERE = pathlib.Path(__file__).resolve().parent
TOP = HERE.parent.parent
ESCAPE = re.compile(rb"\\(?:x(..)|(.))", re.DOTALL)
NAMED = {b"n": b"\n", b"r": b"\r", b"t": b"\t"}
STEPS = (b"archive", b"again", b"file", b"replace", b"by", b"first", b"flood")


class ScriptError(Exception):
    """A script isn't as README.md says."""


def unescaped(text: bytes) -> bytes:
    """A text whose escapes are the bytes that they are written for."""
    return ESCAPE.sub(lambda it: bytes([int(it[1], 16)]) if it[1] else NAMED.get(it[2], it[2]), text)


@dataclasses.dataclass
class Case:
    """The words of a case or a step, the text that is given with them, and the one that is wanted."""

    script: str
    name: str
    number: int
    words: List[bytes]
    given: Optional[bytes] = None
    wanted: Optional[bytes] = None
    archive: bytes = b""
    files: Tuple[str, ...] = ()  # those of the archive, if it is of files

    @property
    def verb(self) -> bytes:
        return self.words[0]

    @property
    def id(self) -> str:
        """What pytest calls it: `-k` finds it by the script, the name and the words."""
        words = b" ".join(self.words)[:60].decode("utf-8", "replace")
        return re.sub(r"[^\w.-]+", "_", f"{self.script}-{self.name}-{self.number}-{words}")

    def word(self, index: int) -> bytes:
        """The word at an index, whose escapes are the bytes that they are written for; `""` is one of no bytes."""
        word = self.words[index]
        return b"" if word == b'""' else unescaped(word)

    def count(self, index: int) -> int:
        """The word at an index as a number."""
        word = self.words[index]
        if not word.isdigit():
            raise ScriptError(f"{self.id}: {word!r} is no number")
        return int(word)

    def after(self, count: int) -> Case:
        """The case without its first words."""
        return dataclasses.replace(self, words=self.words[count:])

    def add(self, mark: bytes, text: bytes) -> None:
        """Adds a line that begins with a mark."""
        if mark in b">.":
            self.wanted = (self.wanted or b"") + unescaped(text) + (b"\n" if mark == b">" else b"")
        else:
            self.given = (self.given or b"") + given_by(mark, text)


def given_by(mark: bytes, text: bytes) -> bytes:
    """What a line of a case adds to the given text."""
    if mark == b"*":
        count, _, text = text.partition(b" ")
        return unescaped(text) * int(count)
    return unescaped(text) + (b"\r\n" if mark == b"|" else b"")


def lines_of(path: pathlib.Path) -> Iterator[Case]:
    """The cases and steps of a script as they are written."""
    name, case = "", None
    for number, line in enumerate(path.read_bytes().split(b"\n"), 1):
        if not line or line.startswith(b"#"):
            continue
        if line[:1] in b"|+*>." and line[1:2] in (b"", b" "):
            if case is None:
                raise ScriptError(f"{path.name}:{number}: no case is before this line")
            case.add(line[:1], line[2:])
            continue
        if case is not None:
            yield case
        case = None if line.startswith(b"== ") else Case(path.stem, name, number, line.split(b" "))
        name = line[3:].decode() if case is None else name
    if case is not None:
        yield case


def link(pattern: bytes, number: int) -> bytes:
    """A record of a chain: in the pattern `#` is its number, `@` the number before it, `%` the number after it."""
    numbers = {b"#": number, b"@": number - 1, b"%": number + 1}
    return re.sub(rb"[#@%]", lambda it: b"%d" % numbers[it[0]], pattern)


def chain(archive: bytes, pattern: bytes, count: int) -> bytes:
    """An archive and a chain of records after it."""
    return archive + b"".join(link(pattern, number) for number in range(1, count + 1))


def replaced(text: bytes, old: bytes, new: bytes) -> bytes:
    """A text with the first of another one replaced, which has to be there."""
    if not old or old not in text:
        raise ScriptError(f"{old!r} isn't there")
    return text.replace(old, new, 1)


def joined(files: Tuple[str, ...]) -> bytes:
    """The bytes of files of the repository, one after another."""
    for name in files:
        if not (TOP / name).is_file():
            raise ScriptError(f"no file {name}")
    return b"".join((TOP / name).read_bytes() for name in files)


class Archives:
    """The archive of a script: given, of files, or made of the last one."""

    def __init__(self, named: Dict[bytes, bytes]) -> None:
        self.named = named
        self.given = self.bytes = self.old = b""
        self.files: Tuple[str, ...] = ()

    def take(self, step: Case) -> None:
        """Does a step."""
        given = step.given or b""
        self.files = tuple(word.decode() for word in step.words[1:]) if step.verb == b"file" else ()
        if step.verb == b"file":
            self.given = self.bytes = joined(self.files)
        elif step.verb in (b"archive", b"again"):
            self.given = self.bytes = self.named[step.words[1]] if step.verb == b"again" else given
        elif step.verb == b"replace":
            self.old = given
        elif step.verb == b"by":
            self.bytes, self.old = replaced(self.given, self.old, given), b""
        elif step.verb == b"first":
            self.bytes = self.given[: step.count(1)]
        else:
            self.bytes = chain(self.given, given, step.count(1))


def scripts() -> List[pathlib.Path]:
    """The scripts, in the order of their names."""
    return sorted(HERE.glob("*.script"))


def named_archives() -> Dict[bytes, bytes]:
    """The archives that any script gives with a name, which each script may give again."""
    named: Dict[bytes, bytes] = {}
    for path in scripts():
        for case in lines_of(path):
            if case.verb == b"archive" and len(case.words) > 1:
                if case.words[1] in named:
                    raise ScriptError(f"{path.name}: another archive has the name {case.words[1]!r}")
                named[case.words[1]] = case.given or b""
    return named


def read_all() -> Tuple[List[Case], List[bytes]]:
    """The cases of all scripts, and the archives that they give and make, each once."""
    named = named_archives()
    cases: List[Case] = []
    given: Dict[bytes, None] = {}
    for path in scripts():
        archives = Archives(named)
        for case in lines_of(path):
            if case.verb in STEPS and case.wanted is None:
                archives.take(case)
                given.setdefault(archives.bytes)
            elif case.wanted is None:
                raise ScriptError(f"{case.id}: nothing is wanted")
            else:
                case.archive, case.files = archives.bytes, archives.files
                cases.append(case)
    return cases, list(given)


def id_of(case: Case) -> str:
    return case.id


CASES, ARCHIVES = read_all()
