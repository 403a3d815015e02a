#!/usr/bin/env python3
"""How many words the pages have that somebody has to write and keep true: at most MOST, as `wc -w` counts them. Of a
page that is made (docs/NUMBERS.md, docs/PROGRAM.md) only what is written by hand counts: tools/program_page.md. Three
pages have limits of their own. A page but README says in its first line for whom it is.

Usage: lint_words.py      prints them by page
"""
from __future__ import annotations

import glob
import os
import re
from collections.abc import Iterator

import make_numbers
import make_program
from shared import TOP, read

MOST = 45_000
MOST_OF = {"docs/DECISIONS.md": 4_000, "docs/FIRST-HOUR.md": 1_500, "docs/PROMISES.md": 1_800}
FOR_WHOM = re.compile(r"# [^\n]*\n\nFor ")
MADE = (make_numbers.PAGE, make_program.PAGE)


def pages() -> list[str]:
    """The pages, by their paths."""
    return ["README.md", "CONTRIBUTING.md", *(os.path.relpath(it, TOP) for it in sorted(glob.glob(f"{TOP}/docs/*.md")))]


def counts() -> dict[str, int]:
    """How many words each page has that isn't made, and the part of one that is written by hand."""
    written = [page for page in pages() if page not in MADE]
    return {page: len(read(page).split()) for page in [*written, make_program.TEMPLATE]}


def wrong() -> Iterator[str]:
    """Whether the pages have too many words, and which don't say for whom they are."""
    for page in pages():
        if page != "README.md" and not FOR_WHOM.match(read(page)):
            yield f"{page}: doesn't begin with 'For ..', and so with whom it is for"
    words = counts()
    for page, most in MOST_OF.items():
        if words[page] > most:
            yield f"{page}: {words[page]:,} words, and {most:,} are allowed"
    count = sum(words.values())
    if count > MOST:
        yield f"the pages have {count:,} words, and {MOST:,} are allowed: run tools/lint_words.py"


if __name__ == "__main__":
    for name, number in counts().items():
        print(f"{number:6} {name}")
    print(f"{sum(counts().values()):6} in all")
