#!/usr/bin/env python3
"""Makes the paths in the table "To change X, touch Y" of CONTRIBUTING.md: the files that have a row's word, or their
folder where it has several, but for pages. A path without the word that somebody wrote there stays.

Usage: lint_changes.py --write

`make lint-docs` fails where a row has other paths, names one that isn't there, or where no file has its word.
"""

from __future__ import annotations

import os
import re
import subprocess
import sys
from collections.abc import Iterator

from shared import TOP, read

PAGE = "CONTRIBUTING.md"
ROW = re.compile(r"^\| ([^|]+) \| ((?:`[^`]+`(?:, )?)+) \| `((?:[^|`]|\\\|)+)` \| [^|]*\|$", re.MULTILINE)
# What the gate shows by itself, what is made, and what only explains, measures or makes data for tests.
LEFT_OUT = re.compile(
    r"crates/\w+/(?:proofs|must-fail)/|crates/(?:suites_|example_|warc_vectors|warc_tool/std)|.*\.warc$"
    r"|(?:CHANGELOG|CONTRIBUTING|README)|.*/CALLING\.md|bench/|examples/|rust/examples/"
    r"|tests/(?:cases|compatibility|page|plants|stress)/"
    r"|docs/(?:NUMBERS|PROGRAM)"
    r"|docs/(?:DECISIONS|SPEED|TRUST|PROMISES|ARCHITECTURE|GLOSSARY|COMPATIBILITY|FIRST-HOUR|FROM_WARCIO)|tools/lint"
)


def rows(page: str) -> list[tuple[str, list[str], str]]:
    """The rows: what is changed, the paths to touch, and the word to search for."""
    part = page.partition("| To change | Touch |")[2]
    return [
        (name, re.findall(r"`([^`]+)`", paths), word.replace("\\|", "|")) for name, paths, word in ROW.findall(part)
    ]


def texts() -> dict[str, str]:
    """The texts that are searched, by their paths."""
    words = ["git", "ls-files", "-co", "--exclude-standard"]
    listed = subprocess.run(words, cwd=TOP, capture_output=True, text=True, check=True)
    found = {}
    for path in listed.stdout.splitlines():
        if not LEFT_OUT.match(path) and os.path.isfile(f"{TOP}/{path}"):
            with open(f"{TOP}/{path}", encoding="utf-8", errors="replace") as file:
                found[path] = file.read()
    return found


def shown(paths: list[str]) -> list[str]:
    """Paths as a row has them: a folder in the place of several files of it, but each page by itself."""
    found = set()
    for path in paths:
        folder = os.path.dirname(path)
        several = sum(os.path.dirname(it) == folder for it in paths) > 1
        found.add(folder if folder not in ("", "docs") and several else path)
    return sorted(it for it in found if not any(it.startswith(f"{other}/") for other in found))


def touched(paths: list[str], word: str, files: dict[str, str]) -> list[str]:
    """The paths that a row of these paths and this word has to have."""
    holders = [path for path, text in files.items() if re.search(word, text, re.MULTILINE)]
    found = shown(holders)
    other = {it for it in paths if not any(path == it or path.startswith(f"{it}/") for path in [*holders, *found])}
    return sorted({*found, *(it for it in other if not any(it.startswith(f"{folder}/") for folder in found))})


def made(page: str, files: dict[str, str]) -> str:
    """A page whose rows have the paths that they have to have."""

    def row(found: re.Match[str]) -> str:
        paths = touched(re.findall(r"`([^`]+)`", found[2]), found[3].replace("\\|", "|"), files)
        return found[0].replace(found[2], ", ".join(f"`{it}`" for it in paths), 1)

    front, title, rest = page.partition("| To change | Touch |")
    table, end, after = rest.partition("\n\n")
    return front + title + ROW.sub(row, table) + end + after


def wrong_in(page: str, files: dict[str, str]) -> Iterator[str]:
    """What is wrong with the table of a page, if these are the files."""
    table = page.partition("| To change | Touch |")[2].partition("\n\n")[0]
    found = rows(page)
    if len(found) != table.count("\n") - 1:
        yield "a row of the table isn't read: it has a name, paths, a word and a note"
    for name, paths, word in found:
        for path in paths:
            if not os.path.exists(f"{TOP}/{path}"):
                yield f"{name}: no file {path}"
        if not any(re.search(word, text, re.MULTILINE) for text in files.values()):
            yield f"{name}: no file has {word}"
        wanted = touched(paths, word, files)
        if paths != wanted:
            yield f"{name}: other files than tools/lint_changes.py --write names, such as {min({*paths} ^ {*wanted})}"


def wrong() -> Iterator[str]:
    """The same of CONTRIBUTING.md, as lines of the lint."""
    for fault in wrong_in(read(PAGE), texts()):
        yield f"{PAGE}: {fault}"


if __name__ == "__main__" and sys.argv[1:] == ["--write"]:
    text = made(read(PAGE), texts())
    with open(f"{TOP}/{PAGE}", "w", encoding="utf-8") as out:
        out.write(text)
