#!/usr/bin/env python3
"""Looks for what the pages may not hold, and prints a line for each place. Needs Python alone.

- A block of code in README.md or docs/LIBRARY.md is part of a file of crates/example_*, of c/ or of python/ or
  rust/examples, word for word.
- A call or a law that docs/PROMISES.md names after a crate is in this crate.
- docs/TRUST.md is as tools/lint_trust.py says, with the counts of tools/count_specs.py, and docs/ARCHITECTURE.md as
  tools/lint_architecture.py says.
- Each file that has the word of a row of CONTRIBUTING.md's table of changes is in that row (tools/lint_changes.py).
- docs/PROGRAM.md has a section, and README.md a row, for each command of the program and for no other.
- A link, a heading or a path that a page names is there, and each table has a head.
- README.md has at most 9 KB, and the pages have no more words than tools/lint_words.py says.
- CHANGELOG.md has a section for the version, and the packages for Python and Rust have that version.
- docs/TRUST.md names the number of cases that the suites and tests/cases have, and other counts are as
  tools/lint_counts.py says.
- README says of speed what docs/SPEED.md says.
- docs/NUMBERS.md is what tools/make_numbers.py makes, and docs/FORMAT.md has the same numbers and names.
- docs/PROGRAM.md is what tools/make_program.py makes.
- Each crates/NAME/CALLING.md is what tools/make_calling.py makes, and has at most 150 lines.
"""
from __future__ import annotations

import glob
import os
import re
import sys
from collections.abc import Iterator

import count_specs
import lint_architecture
import lint_changes
import lint_counts
import lint_speed
import lint_trust
import lint_words
import make_calling
import make_numbers
import make_program
from shared import TOP, read, version

PAGES = ["README.md", "CONTRIBUTING.md", "CHANGELOG.md", "docs/*.md", "*/README.md"]
EXAMPLES = ["crates/example_*/src/*.rt", "c/*.c", "python/*.py", "rust/examples/*.rs"]
VERSIONS = [
    ("python/pyproject.toml", "version"),
    ("python/src/zogwedu/__init__.py", "__version__"),
    ("rust/Cargo.toml", "version"),
]
MOST = 9 * 1024
# Modules that check something by themselves, each by its function `wrong`.
CHECKS = (
    count_specs,
    lint_architecture,
    lint_changes,
    lint_counts,
    lint_speed,
    lint_trust,
    lint_words,
    make_numbers,
    make_program,
)
# A crate, a colon, and the names of its calls and laws: "`warc`: `open` and `grow` of `Archive`, law `no_faults`".
CALLS = re.compile(
    r"`(warc\w*|example_\w+)`: ((?:laws? )?`[\w:]+`(?:(?:, | and | of |, and | or )(?:laws? )?`[\w:]+`(?!:))*)"
)


def code_elsewhere(page: str) -> Iterator[str]:
    """Blocks of code that no example holds."""
    paths = [path for pattern in EXAMPLES for path in glob.glob(f"{TOP}/{pattern}")]
    sources = [read(os.path.relpath(path, TOP)) for path in paths]
    for block in re.findall(r"^```(?:rust|c|python)\n(.*?)^```$", read(page), re.MULTILINE | re.DOTALL):
        if not any(block in text for text in sources):
            yield f"{page}: no example has this code: {block.splitlines()[0]} .."


def items_of(crate: str) -> set[str]:
    """The names of the functions, types and modules of a crate."""
    paths = glob.glob(f"{TOP}/crates/{crate}/src/**/*.rt", recursive=True)
    source = "".join(read(os.path.relpath(path, TOP)) for path in paths)
    return set(re.findall(r"\b(?:fn|struct|enum|trait|type|const|mod) (\w+)", source))


def calls_elsewhere() -> Iterator[str]:
    """Calls and laws that docs/PROMISES.md names after a crate and that aren't in it."""
    page, count = " ".join(read("docs/PROMISES.md").split()), 0
    for crate, names in CALLS.findall(page):
        items = items_of(crate)
        for name in re.findall(r"\w+", " ".join(re.findall(r"`([^`]*)`", names))):
            count += 1
            if name not in items:
                yield f"docs/PROMISES.md: {crate} has no {name}"
    if not count:
        yield "docs/PROMISES.md: names no calls"


def commands_elsewhere() -> Iterator[str]:
    """Commands that the program has and a page hasn't, or the other way round."""
    own = set(
        re.findall(r'^        name: "(\w+)",\n        about:', read("crates/warc_arguments/src/help.rt"), re.MULTILINE)
    )
    sections = set(re.findall(r"^## warc (\w+)$", read("docs/PROGRAM.md"), re.MULTILINE))
    rows = set(re.findall(r"^\| `warc (\w+)", read("README.md"), re.MULTILINE))
    for page, named in (("docs/PROGRAM.md", sections), ("README.md", rows)):
        for name in sorted(own ^ named):
            yield f"{page}: {'lacks' if name in own else 'has'} the command {name}"


def anchors(page: str) -> set[str]:
    """What a link may name on a page: its headings, as GitHub spells them."""
    titles = re.findall(
        r"^#+ (.*)$", re.sub(r"^```.*?^```$", "", read(page), flags=re.MULTILINE | re.DOTALL), re.MULTILINE
    )
    return {re.sub(r"[^\w -]", "", title.lower()).replace(" ", "-") for title in titles}


def missing_paths(page: str) -> Iterator[str]:
    """Links and paths of the repository that aren't there, and headings that a link names and a page lacks."""
    text = read(page)
    folder = os.path.dirname(page)
    for link, anchor in re.findall(r"\]\(([^)#:]*)(?:#([^)]*))?\)", text):
        path = os.path.normpath(f"{folder}/{link}") if link else page
        if not os.path.exists(f"{TOP}/{path}"):
            yield f"{page}: no file {link}"
        elif anchor and anchor not in anchors(path):
            yield f"{page}: {path} has no heading #{anchor}"
    for path in re.findall(r"`((?:crates|tests|tools|docs|examples|packaging|bench|c|python|rust)/[\w./-]*\w)`", text):
        if not os.path.exists(f"{TOP}/{path}") and "NAME" not in path:
            yield f"{page}: no file {path}"


def broken_tables(page: str, text: str) -> Iterator[str]:
    """Rows that no table has: an empty line ends one."""
    before = ""
    lines = re.sub(r"^```.*?^```$", lambda found: "\n" * found[0].count("\n"), text, flags=re.M | re.S).split("\n")
    for number, line in enumerate(lines, 1):
        begins = line.startswith("|") and not before.startswith("|")
        if begins and not lines[number : number + 1][0].startswith("|---"):
            yield f"{page}:{number}: a row without a table"
        before = line


def cases_in(script: str) -> int:
    """How many words of a script are followed by what is wanted of them. README.md of tests/cases says how it reads."""
    count, is_open = 0, False
    for line in script.split("\n"):
        if line.startswith((">", ".")):
            count, is_open = count + is_open, False
        elif line and not line.startswith(("#", "== ", "|", "+", "*")):
            is_open = True
    return count


def cases_elsewhere() -> Iterator[str]:
    """A number of cases in TRUST that the suites' reports, which the gate compares, and the scripts don't have."""
    count = 0
    for path in glob.glob(f"{TOP}/crates/suites_*/stdout"):
        report = read(os.path.relpath(path, TOP))
        count += sum(map(int, re.findall(r"^(\d+) cases, \d+ steps, 0 failed$", report, re.MULTILINE)))
    for path in glob.glob(f"{TOP}/tests/cases/*.script"):
        count += cases_in(read(os.path.relpath(path, TOP)))
    numbers = re.findall(r"\b(\d[\d,]*)\s+cases\b", read("docs/TRUST.md"))
    for number in numbers:
        if number != f"{count:,}":
            yield f"docs/TRUST.md: {number} cases, and the suites and tests/cases have {count:,}"
    if not numbers:
        yield "docs/TRUST.md: no number of cases"


def versions_elsewhere() -> Iterator[str]:
    """Files of the packages whose version isn't the program's."""
    for path, words in VERSIONS:
        if f'\n{words} = "{version()}"\n' not in read(path):
            yield f"{path}: another version than {version()}"
    if f"\n## {version()} (" not in read("CHANGELOG.md"):
        yield f"CHANGELOG.md: no section for {version()}"


def main() -> None:
    found = [*code_elsewhere("README.md"), *code_elsewhere("docs/LIBRARY.md")]
    found += [*calls_elsewhere(), *commands_elsewhere(), *cases_elsewhere(), *versions_elsewhere()]
    for check in CHECKS:
        found += check.wrong()
    for pattern in PAGES:
        for path in sorted(glob.glob(f"{TOP}/{pattern}")):
            page = os.path.relpath(path, TOP)
            found += [*missing_paths(page), *broken_tables(page, read(page))]
    if len(read("README.md").encode()) > MOST:
        found.append(f"README.md: more than {MOST} bytes")
    found += make_calling.faults()
    print("\n".join(found) or "the pages are as they must be")
    sys.exit(bool(found))


if __name__ == "__main__":
    main()
