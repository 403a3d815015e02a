#!/usr/bin/env python3
"""Checks the layout of the page's scripts as no formatter does. Python 3 alone.

Usage: lint_page.py

It reports, a line each, and exits with 1 where there is any: a line of over 120 bytes, a tab, and a function of 40
lines or more. A function begins at a line that ends with a brace, and ends at the brace in the same column, as
clang-format lays it out.
"""
from __future__ import annotations

import glob
import re
import sys
from collections.abc import Iterator

from shared import TOP

WIDTH = 120
LINES = 40
BEGINS = re.compile(r"^ *(?!class )\S.*(?:\)|=>) \{$")
NO_FUNCTION = re.compile(r"^ *(?:if|for|while|switch|} else|else|try|} catch|catch|class)\b")


def wide_lines(lines: list[str]) -> Iterator[tuple[int, str]]:
    """Lines that are too long, and tabs."""
    for number, line in enumerate(lines, 1):
        width = len(line.encode())
        if width > WIDTH:
            yield number, f"{width} bytes"
        if "\t" in line:
            yield number, "a tab"


def long_functions(lines: list[str]) -> Iterator[tuple[int, str]]:
    """Functions that have too many lines."""
    for number, line in enumerate(lines, 1):
        if not BEGINS.match(line) or NO_FUNCTION.match(line):
            continue
        indent = len(line) - len(line.lstrip())
        ends = (at for at in range(number, len(lines)) if re.match(rf"^ {{{indent}}}\}}", lines[at]))
        length = next(ends, len(lines)) - number + 2
        if length >= LINES:
            yield number, f"a function of {length} lines"


def main() -> int:
    """Checks each script and style of the page."""
    found = 0
    for path in sorted(glob.glob(f"{TOP}/page/*.js") + glob.glob(f"{TOP}/page/*.ts")):
        with open(path, encoding="utf-8") as text:
            lines = text.read().split("\n")
        for number, words in [*wide_lines(lines), *long_functions(lines)]:
            print(f"{path[len(TOP) + 1:]}:{number}: {words}")
            found += 1
    return 1 if found else 0


if __name__ == "__main__":
    sys.exit(main())
