#!/usr/bin/env python3
"""Makes docs/NUMBERS.md from the table in crates/warc_arguments/src/numbers.rt, from which `warc explain` answers too.

Usage: make_numbers.py

`make lint-docs` fails where the page isn't the table's, where the table isn't in order, or where docs/FORMAT.md names
another number or another name.
"""
from __future__ import annotations

import re
from collections.abc import Iterator

from shared import TOP, matched, read

TABLE = "crates/warc_arguments/src/numbers.rt"
PAGE = "docs/NUMBERS.md"
# What is explained and is no number.
WORD = "date"
ENTRY = re.compile(r'^    \(\n        "(\w+)",\n        "([^"]*)",\n    \),$', re.MULTILINE)
COMMAND = re.compile(r"'((?:z?warc|gunzip|cat|-)[^']*|-)'")
TITLES = {
    "F": ("Why an archive is refused", "An offset follows, and for F4 and F5 the name of a field before it."),
    "G": ("Why segments don't join", "For G1, G3 and G4 the number of a segment follows."),
    "P": ("Why there is no body", "`replay`, `body` and `captures` print these reasons."),
    "M": ("Why a record isn't made", "`write` prints these."),
    "S": (
        "Why a record isn't split",
        "The library reports these. `split` writes such a record whole, and prints none.",
    ),
    "E": ("What isn't there", "`extract`, `head`, `block` and `body` print these."),
    "N": ("What `check` finds", "For N1, N2, N3 and N9 the name of a field follows."),
    "d": ("What a date is", "`warc explain date` prints this. `replay` says `bad date` of any other text."),
}
INTRO = """# Numbers

For whoever sees a number that the program prints: what it means, and what to do. `warc explain F10` prints the same
lines. [FORMAT.md](FORMAT.md) has the exact rules.

This page is made from `crates/warc_arguments/src/numbers.rt`: change that, and run `make numbers`.
"""


def entries() -> list[tuple[str, str, str, str]]:
    """The table: (number, name, what it means, what to do)."""
    found = []
    for number, text in ENTRY.findall(read(TABLE)):
        words, _, rest = text.partition("\n")
        means, _, remedy = rest.partition("\nWhat to do: ")
        found.append((number, words.partition(" ")[2], joined(means), joined(remedy)))
    return found


def joined(lines: str) -> str:
    """Lines as a cell of a table."""
    text = " ".join(lines.split())
    text = text[:1].upper() + text[1:]
    return COMMAND.sub(r"`\1`", text).replace("|", "\\|")


def page() -> str:
    """The text of the page."""
    out = [INTRO]
    rows = entries()
    for letter, (title, note) in TITLES.items():
        out.append(f"## {title}\n\n{note}\n\n| No. | Name | Meaning | What to do |\n|---|---|---|---|")
        out += [
            f"| {number} | {name} | {means} | {remedy} |" for number, name, means, remedy in rows if number[0] == letter
        ]
        out.append("")
    return "\n".join(out)


def place_of(number: str) -> tuple[int, int]:
    """The place of a number in the table: by its letter, then by its digits. The word comes last."""
    return list(TITLES).index(number[0]), 0 if number == WORD else int(number[1:])


def wrong() -> Iterator[str]:
    """What is wrong with the table or the page, a line each."""
    rows = entries()
    order = [place_of(number) for number, *_ in rows]
    if order != sorted(set(order)):
        yield f"{TABLE}: the numbers aren't in order"
    count = int(matched(re.search(r"; (\d+)\] = \[", read(TABLE)))[1])
    if len(rows) != count:
        yield f"{TABLE}: the table says {count} rows, and tools/make_numbers.py reads {len(rows)}"
    for number, name, means, remedy in rows:
        if not (name and means and remedy):
            yield f"{TABLE}: {number} lacks a name, a meaning or what to do"
    named: dict[str, str] = {}
    for line in re.findall(
        r"^\| ([FGPMSEN][0-9, F]*) \| ([A-Z]\w*(?:, [A-Z]\w*)*)", read("docs/FORMAT.md"), re.MULTILINE
    ):
        named.update(zip(line[0].split(", "), line[1].split(", ")))
    named.update({"F12": "TooLong", "F13": "Read", "F14": "Memory"})
    for number, name, *_ in rows:
        if number != WORD and named.get(number) != name:
            yield f"docs/FORMAT.md: {number} is {named.get(number)}, and {TABLE} says {name}"
    for number in sorted(set(named) - {number for number, *_ in rows}):
        if number[1:].isdigit():
            yield f"{TABLE}: lacks {number}"
    if page() != read(PAGE):
        yield f"{PAGE}: isn't made from {TABLE}: run make numbers"


if __name__ == "__main__":
    with open(f"{TOP}/{PAGE}", "w", encoding="utf-8") as out:
        out.write(page())
