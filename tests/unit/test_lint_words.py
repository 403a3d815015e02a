"""The words of the pages are counted as wc does, and only what is made is left out."""
from __future__ import annotations

import glob
import os
import subprocess

import lint_words
import pytest
from shared import TOP

MADE = {"docs/NUMBERS.md", "docs/PROGRAM.md"}
TEMPLATE = "tools/program_page.md"


def test_all_that_is_written_by_hand_is_counted() -> None:
    pages = {os.path.relpath(path, TOP) for path in glob.glob(f"{TOP}/docs/*.md")} | {"README.md", "CONTRIBUTING.md"}
    counts = lint_words.counts()
    assert set(counts) == pages - MADE | {TEMPLATE}
    ran = subprocess.run(["wc", "-w", *counts], cwd=TOP, check=True, capture_output=True, text=True)
    assert int(ran.stdout.split()[-2]) == sum(counts.values())


def test_too_many_words_are_a_fault(monkeypatch: pytest.MonkeyPatch) -> None:
    assert list(lint_words.wrong()) == []
    monkeypatch.setattr(lint_words, "MOST", sum(lint_words.counts().values()) - 1)
    assert len(list(lint_words.wrong())) == 1


@pytest.mark.parametrize("page", ["docs/DECISIONS.md", "docs/FIRST-HOUR.md", "docs/PROMISES.md"])
def test_a_page_has_a_limit_of_its_own(monkeypatch: pytest.MonkeyPatch, page: str) -> None:
    monkeypatch.setitem(lint_words.MOST_OF, page, lint_words.counts()[page] - 1)
    assert [fault.split(":")[0] for fault in lint_words.wrong()] == [page]
