"""What README says of speed must be what docs/SPEED.md says: how long `list` and `check` of a crawl take as a ratio to
the plain walk, and how many bytes of memory a record takes, to the nearest ten.
"""
from __future__ import annotations

import re
from collections.abc import Iterator

from shared import matched, read

PAGE = "docs/SPEED.md"
SAID = re.compile(
    r"`list` of a crawl\s+takes (\d\.\d\d)\s+and `check` (\d\.\d\d); a record takes\s+(\d+)\s+bytes\s+of\s+memory"
)
MIB = 1 << 20
RECORDS = 1_000_000  # of the archive of which the most memory is measured


def cell(section: str, command: str) -> str:
    """The first number that a section of the page has of a command."""
    text = read(PAGE).partition(f"\n## {section}\n")[2].partition("\n## ")[0]
    return matched(re.search(rf"^\| `{command}` \| ([\d.]+) \|", text, re.MULTILINE))[1]


def wanted() -> tuple[str, str, str]:
    """What README has to say."""
    memory = int(cell("What a small record costs", "list")) * MIB / RECORDS
    return cell("Commands", "list"), cell("Commands", "check"), str(round(memory, -1))[:-2]


def wrong() -> Iterator[str]:
    """What README says otherwise, a line each."""
    found = SAID.search(read("README.md"))
    if found is None:
        yield "README.md: the sentence about speed isn't as tools/lint_speed.py reads it"
    elif found.groups() != wanted():
        yield f"README.md: {', '.join(found.groups())} of speed, and {PAGE} says {', '.join(wanted())}"
