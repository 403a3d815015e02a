"""The rows of CONTRIBUTING's table of changes: the files that have a word, and what somebody wrote besides."""
from __future__ import annotations

from typing import List

import lint_changes
import pytest

FILES = {
    "crates/a/src/one.rt": "a word",
    "crates/a/src/two.rt": "a word",
    "crates/a/specs/One.antt": "a word",
    "crates/a/specs/Two.antt": "nothing",
    "docs/A.md": "a word",
    "docs/B.md": "a word",
    "Makefile": "a word",
    "page/a.js": "nothing",
}
FOUND = ["Makefile", "crates/a/specs/One.antt", "crates/a/src", "docs/A.md", "docs/B.md"]
PAGE = (
    "front `page/a.js`\n\n| To change | Touch |\n|---|---|---|---|\n"
    "| x | %s | `a word\\|rare` | a note |\n\n`docs/A.md`\n"
)


@pytest.mark.parametrize(
    "written, wanted",
    [
        (["docs/A.md"], FOUND),
        (["crates/a", "docs"], FOUND),
        (["page/a.js", "crates/a/specs/Two.antt"], sorted([*FOUND, "crates/a/specs/Two.antt", "page/a.js"])),
        (["crates/a/src/none.rt"], FOUND),
    ],
)
def test_a_row_has_the_files_of_its_word_and_what_was_written(written: List[str], wanted: List[str]) -> None:
    assert lint_changes.touched(written, "a word|rare", FILES) == wanted
    assert lint_changes.touched(wanted, "a word|rare", FILES) == wanted


def test_a_page_is_made_in_its_table_alone() -> None:
    made = lint_changes.made(PAGE % "`page/a.js`", FILES)
    assert made == PAGE % ", ".join(f"`{it}`" for it in sorted([*FOUND, "page/a.js"]))
    assert not [it for it in lint_changes.wrong_in(made, FILES) if "other files" in it]
    assert [it for it in lint_changes.wrong_in(PAGE % "`docs/A.md`", FILES) if "other files" in it]
