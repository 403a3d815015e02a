#!/usr/bin/env python3
"""The archives of the scripts of cases, as files.

Usage: archives.py FOLDER

Every text that a case of a script gives and that begins as an archive becomes a file, and so do its changed and
shortened forms. Most are damaged in some way. tests/cases/README.md says how a script is written.
"""
import glob
import os
import re
import sys
from typing import Dict, Iterator, List, Tuple

TOP = os.path.dirname(os.path.dirname(os.path.dirname(os.path.abspath(__file__))))
ESCAPE = re.compile(rb"\\(?:x(..)|(.))", re.DOTALL)
NAMED = {b"n": b"\n", b"r": b"\r", b"t": b"\t"}


def unescaped(text: bytes) -> bytes:
    """A text whose escapes are the bytes that they are written for."""
    return ESCAPE.sub(lambda it: bytes([int(it[1], 16)]) if it[1] else NAMED.get(it[2], it[2]), text)


def given_by(mark: bytes, text: bytes) -> bytes:
    """What a line of a case adds to the given text."""
    if mark == b"|":
        return unescaped(text) + b"\r\n"
    if mark == b"*":
        count, _, text = text.partition(b" ")
        return unescaped(text) * int(count)
    return unescaped(text) if mark == b"+" else b""


def cases(script: bytes) -> Iterator[Tuple[bytes, bytes]]:
    """The words of each case, and the text that is given with them."""
    words, given = b"", b""
    for line in script.split(b"\n"):
        if not line or line.startswith(b"#"):
            continue
        if line[:1] in (b"|", b"+", b"*", b">", b".") and line[1:2] in (b"", b" "):
            given += given_by(line[:1], line[2:])
            continue
        yield words, given
        words, given = b"" if line.startswith(b"== ") else line, b""
    yield words, given


def texts(script: bytes, named: Dict[bytes, bytes]) -> Iterator[bytes]:
    """The archives that a script speaks of. It may give those again that any script gives with a name."""
    last, old = b"", b""
    for words, given in cases(script):
        word, _, rest = words.partition(b" ")
        if word == b"replace":
            old = given
        elif word == b"by" and old:
            yield last.replace(old, given, 1)
        elif word == b"first" and rest.isdigit():
            yield last[: int(rest)]
        elif word == b"again":
            last = named[rest]
        else:
            if word == b"archive":
                last = given
            yield given


def scripts() -> List[bytes]:
    """The scripts of tests/cases and of the suites."""
    paths = sorted(glob.glob(f"{TOP}/tests/cases/*.script"))
    paths += [f"{TOP}/crates/suites_{name}/stdin" for name in ("failures", "lookups", "texts")]
    found: List[bytes] = []
    for path in paths:
        with open(path, "rb") as script:
            found.append(script.read())
    return found


def archives() -> List[bytes]:
    """All archives of all scripts, each once."""
    named: Dict[bytes, bytes] = {}
    for script in scripts():
        named.update((words[8:], given) for words, given in cases(script) if words.startswith(b"archive "))
    found = {b"": None}
    for script in scripts():
        found.update((text, None) for text in texts(script, named) if text.startswith(b"WARC/"))
    return list(found)


def write(folder: str) -> List[str]:
    """Writes them, and answers their paths."""
    os.makedirs(folder, exist_ok=True)
    paths: List[str] = []
    for number, text in enumerate(archives()):
        paths.append(f"{folder}/{number:04}.warc")
        with open(paths[-1], "wb") as file:
            file.write(text)
    return paths


if __name__ == "__main__":
    print(len(write(sys.argv[1])), "archives")
