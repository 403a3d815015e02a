"""Retired words are found in what a file says to its readers, and not in its code."""
from __future__ import annotations

from typing import List

import lint_retired
import pytest

FOUND = [
    ("a.md", "It tells.\n", ["a.md:1: tells"]),
    ("a.md", "At most so\nmany.\n\nIt lies.\n", ["a.md:1: so many", "a.md:4: lies"]),
    ("a.py", "x = 1  # Stands here\n", ["a.py:1: Stands"]),
    ("a.py", '"""One.\n\nThat of\nthe other."""\n', ["a.py:3: That of the"]),
    ("a.py", 'def f():\n    """Whichever."""\n', ["a.py:2: Whichever"]),
    ("a.py", "# at most so\n# many bytes\n", ["a.py:1: so many"]),
    ("a.js", "const a = '//';  // behind\n/* so\n * many */\n", ["a.js:1: behind", "a.js:2: so many"]),
    ("a.c", '/* told */ char *a = "it\\"s"; // lies\n', ["a.c:1: told", "a.c:1: lies"]),
    ("a.rt", "/// Of one\n/// kind.\nfn f() {}\n", ["a.rt:1: of one kind"]),
    ("A.antt", "-- what stands\nx = 1\n", ["A.antt:1: stands"]),
    ("a.sh", "# tells\nx='# told'  # lies\n", ["a.sh:1: tells", "a.sh:2: lies"]),
    ("a.script", "# A hyphen stands.\n> as it stands\n", ["a.script:1: stands"]),
    ("a.edit", "why: it lies\nold: it lies\n", ["a.edit:1: lies"]),
    ("crates/a/src/a.rt", "/// It takes no\n/// memory.\n", ["crates/a/src/a.rt:1: it takes no memory"]),
    ("crates/a/src/a.rt", "/// The end, or that of the text\n/// behind.\n", ["crates/a/src/a.rt:2: behind"]),
]
CLEAN = [
    ("a.md", "`--behind-proxy` and [a](behind.md)\n```\nit tells\n```\n"),
    ("a.md", "They can be told\napart, in a file that lies, behind a proxy.\n"),
    ("a.py", 'x = "it tells"\ny = told(behind)\n'),
    ("a.js", "const told = 'it lies';\n"),
    ("a.rt", 'fn told() { print("stands // behind") }\n'),
    ("a.warc", "# tells\n"),
    ("crates/a/src/a.rt", "/// A file that fails or lies, of one kind.\n"),
    ("a.rt", "/// A mark takes no memory.\n"),
]


def found(path: str, text: str) -> List[str]:
    return [" ".join(line.split()) for line in lint_retired.found_in(path, text)]


@pytest.mark.parametrize("path, text, lines", FOUND)
def test_a_word_is_found_where_readers_read(path: str, text: str, lines: List[str]) -> None:
    assert [line.lower() for line in found(path, text)] == [line.lower() for line in lines]


@pytest.mark.parametrize("path, text", CLEAN)
def test_code_texts_and_idioms_have_them(path: str, text: str) -> None:
    assert found(path, text) == []
