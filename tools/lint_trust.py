"""What docs/TRUST.md must be: eight claims of at most 30 words, each with what it rests on, as links that lead there.

Below each claim are a premise, a contract, a case and a planted bug. A link to a file of src/ names a function
of that file, one to a script of cases names a case of it, and one to an edit names a file of must-fail/.
"""
from __future__ import annotations

import os
import re
from collections.abc import Iterator

from shared import TOP, read

PAGE = "docs/TRUST.md"
CLAIMS = 8
WORDS = 30
LINK = re.compile(r"\[([^\]]+)\]\(\.\./([^)]+)\)")
# What each claim rests on, with the files that its links lead to.
CARRIERS = {
    "Contract": r"crates/\w+/src/[\w/]+\.rt",
    "Case": r"crates/suites_\w+/stdin|tests/cases/\w+\.script",
    "Planted bug": r"crates/\w+/must-fail/\w+\.edit",
}


def missing_in(text: str, path: str) -> str | None:
    """What a linked file lacks that the text of the link names."""
    if not os.path.isfile(f"{TOP}/{path}"):
        return f"no file {path}"
    name = " ".join(text.strip("`").split())
    if path.endswith(".rt") and not re.search(rf"\bfn {re.escape(name.split('::')[-1])}\b", read(path)):
        return f"{path} has no function {name}"
    case = rf"^== (?:[\w ]+: )?{re.escape(name)}$"
    if path.endswith(("/stdin", ".script")) and not re.search(case, read(path), re.MULTILINE):
        return f"{path} has no case {name}"
    return None


def faults_of(number: int, claim: str, lines: dict[str, str]) -> Iterator[str]:
    """What is wrong with one claim and the lines below it."""
    if len(claim.split()) > WORDS:
        yield f"claim {number} has {len(claim.split())} words, and {WORDS} are allowed"
    if not lines.get("Premise", "").strip():
        yield f"claim {number} has no premise"
    for name, files in CARRIERS.items():
        links = LINK.findall(lines.get(name, ""))
        if not links:
            yield f"claim {number} has no link to a {name.lower()}"
        for text, path in links:
            wrong = missing_in(text, path) if re.fullmatch(files, path) else f"{path} can't hold a {name.lower()}"
            if wrong:
                yield f"claim {number}: {wrong}"


def claims(page: str) -> list[tuple[str, dict[str, str]]]:
    """The claims of a page, each with the lines below it."""
    parts = re.split(r"^### \d+\. .*$", page.split("\n## What is assumed\n")[0], flags=re.MULTILINE)[1:]
    found = []
    for part in parts:
        claim = " ".join(re.findall(r"^> (.*)$", part, re.MULTILINE))
        items = re.findall(r"^- ([^:\n]+):(.*(?:\n  .*)*)$", part, re.MULTILINE)
        found.append((claim, dict(items)))
    return found


def faults_in(page: str) -> Iterator[str]:
    """What is wrong with a page of claims."""
    found = claims(page)
    if len(found) != CLAIMS:
        yield f"{len(found)} claims, and {CLAIMS} are wanted"
    for number, (claim, lines) in enumerate(found, 1):
        yield from faults_of(number, claim, lines)


def wrong() -> Iterator[str]:
    """The same of docs/TRUST.md, as lines of the lint."""
    for fault in faults_in(read(PAGE)):
        yield f"{PAGE}: {fault}"
