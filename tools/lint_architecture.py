#!/usr/bin/env python3
"""Makes the list of crates in docs/ARCHITECTURE.md from crates.txt, and looks at the page's picture.

Usage: lint_architecture.py --write

`make lint-docs` fails where the list is another, where the picture has a crate below one that it uses, or lacks one,
and where a crate of crates.txt has no comment or comes before one that it uses.
"""

from __future__ import annotations

import re
import sys
from collections.abc import Iterator

from shared import TOP, crates, groups, read

PAGE = "docs/ARCHITECTURE.md"
# They test and show the library, so the picture leaves them out.
BESIDE = ("suites_", "example_", "warc_vectors")
LIST = re.compile(r"(?<=^## The crates\n\n)(?:(?!## ).*\n)*", re.MULTILINE)


def comment_of(lines: list[str], name: str) -> str:
    """The comment above a crate's line of crates.txt, in one line."""
    at = next(number for number, line in enumerate(lines) if re.match(rf"{name}[ :]", line))
    found: list[str] = []
    while lines[at - 1].startswith("# "):
        at -= 1
        found.insert(0, lines[at][2:])
    return " ".join(found)


def made() -> str:
    """The list of crates, as the page has it."""
    lines = read("crates.txt").splitlines()
    out = ""
    for title, names in groups().items():
        rows = "".join(f"| `{name}` | {comment_of(lines, name)} |\n" for name in names)
        out += f"### {title}\n\n| Crate | What it is |\n|---|---|\n{rows}\n"
    return out


def wrong_lines() -> Iterator[str]:
    """Crates of crates.txt without a comment, and those that come before one that they use."""
    lines, uses = read("crates.txt").splitlines(), crates()
    names = list(uses)
    for name in names:
        if not comment_of(lines, name):
            yield f"crates.txt: no comment above {name}"
        for low in uses[name]:
            if low in uses and names.index(low) > names.index(name):
                yield f"crates.txt: {name} comes before {low}, which it uses"


def wrong_picture(page: str) -> Iterator[str]:
    """Crates that the picture lacks, or that aren't above all that they use."""
    uses = {name: used for name, used in crates().items() if not name.startswith(BESIDE)}
    lines = page.split("```")[1].splitlines()
    at = {name: number for number, line in enumerate(lines) for name in re.findall(r"\bwarc(?:_\w+)?\b(?!\.)", line)}
    for name, used in uses.items():
        if name not in at:
            yield f"its picture lacks {name}"
        for lower in used:
            if lower in uses and at.get(lower, len(lines)) <= at.get(name, -1):
                yield f"its picture has {lower} above {name}, which uses it"


def wrong() -> Iterator[str]:
    """What is wrong with the page and with crates.txt, as lines of the lint."""
    page = read(PAGE)
    if LIST.findall(page) != [made()]:
        yield f"{PAGE}: its crates aren't those of crates.txt: run tools/lint_architecture.py --write"
    for fault in wrong_picture(page):
        yield f"{PAGE}: {fault}"
    yield from wrong_lines()


if __name__ == "__main__" and sys.argv[1:] == ["--write"]:
    text = LIST.sub(lambda _: made(), read(PAGE))
    with open(f"{TOP}/{PAGE}", "w", encoding="utf-8") as out:
        out.write(text)
