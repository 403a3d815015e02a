"""Counts of the pages are those of the tree."""
from __future__ import annotations

import lint_counts
import pytest

PATTERN = r"tries (\w+) planted bugs"


@pytest.mark.parametrize(
    "text, faults", [("It\ntries three planted bugs.", 0), ("It tries four planted bugs.", 1), ("", 1)]
)
def test_another_number_or_none_is_a_fault(text: str, faults: int) -> None:
    assert len(list(lint_counts.faults("a.md", text, PATTERN, "three"))) == faults


def test_a_list_is_compared_as_a_whole() -> None:
    pattern = r"copy these: ([^.]*)\."
    assert not list(lint_counts.faults("a.md", "copy these: `low`,\n`high`.", pattern, "low high"))
    assert list(lint_counts.faults("a.md", "copy these: `high`.", pattern, "low high"))


def test_the_library_is_what_warc_uses() -> None:
    names = lint_counts.library().split()
    assert names[-1] == "warc" and "warc_commands" not in names and "warc_field" in names
