"""What the scripts of tools/ share: where the project is, its version, and the crates that the program is built of."""
from __future__ import annotations

import os
import re
import shutil

TOP = os.path.dirname(os.path.dirname(os.path.abspath(__file__)))
WORDS = f"{TOP}/crates/warc_arguments/src/help.rt"


def read(path: str) -> str:
    """The text of a file of the project."""
    with open(f"{TOP}/{path}", encoding="utf-8") as text:
        return text.read()


def matched(found: re.Match[str] | None) -> re.Match[str]:
    """A match that has to be there: a file of the project isn't as a script reads it otherwise."""
    if found is None:
        raise ValueError("a file isn't as this script reads it")
    return found


def put_copy(source: str, to: str, mode: int = 0o755) -> None:
    """Puts a copy of a file in the place of another, which may be a program that runs: it goes on as it was."""
    shutil.copyfile(source, f"{to}.new")
    os.chmod(f"{to}.new", mode)
    os.replace(f"{to}.new", to)


def version() -> str:
    """The version of the program, which is written in one place alone."""
    with open(WORDS, encoding="utf-8") as text:
        return matched(re.search(r'^pub\(crate\) const VERSION: &str = "(.*)";$', text.read(), re.MULTILINE))[1]


def without_comment(line: str) -> str:
    """A line of crates.txt without its comment, as the toolchain reads it; empty if it names no crate."""
    return line.partition("#")[0].strip()


def rows_in(text: str) -> dict[str, tuple[str, list[str]]]:
    """What a line of a list of crates says before its colon, by the crate's name, and which libraries it uses."""
    lines = [line.partition(":") for line in map(without_comment, text.splitlines()) if line]
    return {front.split()[0]: (front, uses.split()) for front, _, uses in lines}


def rows() -> dict[str, tuple[str, list[str]]]:
    """The same of crates.txt."""
    return rows_in(read("crates.txt"))


def groups() -> dict[str, list[str]]:
    """The crates of each group of crates.txt, in order, by the group's title; those before the first by no title."""
    found: dict[str, list[str]] = {}
    title = ""
    for line in read("crates.txt").splitlines():
        if line.startswith("## "):
            title = line[3:]
        if without_comment(line):
            found.setdefault(title, []).append(re.split(r"[ :]", line, maxsplit=1)[0])
    return found


def crates() -> dict[str, list[str]]:
    """The libraries that each crate of crates.txt uses, by its name."""
    return {name: uses for name, (_, uses) in rows().items()}


def below(name: str, uses: dict[str, list[str]]) -> list[str]:
    """A crate and the crates of the project that it is built from, lowest first."""
    found: list[str] = []
    for it in uses[name]:
        if it in uses:
            found += [low for low in below(it, uses) if low not in found]
    return found + [name]
