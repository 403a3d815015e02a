#!/usr/bin/env python3
"""Breaks the lines of the pages at 120 columns, so that `make lint` finds none that is wider.

Usage: wrap_pages.py [PAGE..]      without a page, all pages that tools/lint_docs.py reads

Paragraphs, quotations and items of lists are filled anew. Blocks of code, tables, headings and pictures stay as they
are. Code and links aren't broken.
"""
from __future__ import annotations

import glob
import os
import re
import sys
from collections.abc import Iterator

from shared import TOP, read

WIDTH = 120
PAGES = (
    "README.md",
    "CONTRIBUTING.md",
    "CHANGELOG.md",
    "docs/*.md",
    "*/README.md",
    "bench/HISTORY.md",
    "tools/program_page.md",
)
# What stays together: code, a link, or a word, with whatever touches them.
TOKEN = re.compile(r"(?:`[^`\n]*`|!?\[[^\]\n]*\]\([^)\s]*\)|[^\s`\[]+|[`\[])+")
# What must not begin a line, since it would begin something else there.
BEGINS = re.compile(r"(?:[-+*]|\d+[.)]|#+|>|\|.*|```.*|=+|-+)$")
ITEM = re.compile(r"^(\s*(?:[-*]|\d+\.) +|> ?)(.*)$")
KEPT = re.compile(r"^(?:#|\||!\[|<|\s*$|```|    )")


def filled(words: list[str], first: str, others: str) -> Iterator[str]:
    """The words as lines, the first one after one text and the others after another."""
    line: list[str] = []
    indent = first
    for word in words:
        if line and len(indent) + len(" ".join([*line, word])) > WIDTH:
            carried = [line.pop()] if BEGINS.match(word) and len(line) > 1 else []
            yield indent + " ".join(line)
            line, indent = carried, others
        line.append(word)
    yield indent + " ".join(line)


def blocks(text: str) -> Iterator[tuple[str, list[str]]]:
    """The parts of a page: lines that are kept as they are, and those of a paragraph, a quotation or an item."""
    in_code = False
    part: list[str] = []
    for line in text.splitlines():
        fence = line.startswith("```")
        if in_code or KEPT.match(line) and not (part and line.startswith("    ")):
            if part:
                yield "text", part
                part = []
            yield "kept", [line]
            in_code ^= fence
            continue
        quoted = part and line.startswith(">") and part[0].startswith(">")
        if part and ITEM.match(line) and not quoted:
            yield "text", part
            part = []
        part.append(line)
    if part:
        yield "text", part


def wrapped(text: str) -> str:
    """A page whose lines are broken."""
    out: list[str] = []
    for kind, lines in blocks(text):
        if kind == "kept" or all(len(line) <= WIDTH for line in lines) and len(lines) > 1:
            out += lines
            continue
        first, rest = "", lines[0]
        found = ITEM.match(lines[0])
        if found:
            first, rest = found[1], found[2]
        others = first if first.startswith(">") else " " * len(first)
        if first.startswith(">"):
            lines = [lines[0], *(line.lstrip("> ") for line in lines[1:])]
        out += filled(TOKEN.findall(" ".join([rest, *lines[1:]])), first, others)
    return "\n".join(out) + "\n"


def main() -> None:
    """Wraps the pages."""
    named = sys.argv[1:] or [it for pattern in PAGES for it in sorted(glob.glob(f"{TOP}/{pattern}"))]
    for path in named:
        page = os.path.relpath(path, TOP) if os.path.isabs(path) else path
        old = read(page)
        new = wrapped(old)
        if new != old:
            with open(f"{TOP}/{page}", "w", encoding="utf-8") as out:
                out.write(new)
            print(page)


if __name__ == "__main__":
    main()
