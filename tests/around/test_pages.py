"""The command lines that the pages show, and the samples of the programmers' pages."""
from __future__ import annotations

import os
import sys

import pytest

from .conftest import TOP, built, needs, passes

SAMPLES = ("docs/PYTHON.md", "docs/C.md", "docs/FROM_WARCIO.md")


@pytest.mark.parametrize("page", ["README.md", "docs/PROGRAM.md", "docs/FIRST-HOUR.md"])
def test_command_lines(page: str, warc: str) -> None:
    """Each writes what the page shows."""
    needs("gzip", "zstd", "parallel")
    passes([sys.executable, "tools/test_docs.py", warc, page])


@pytest.mark.parametrize("page", SAMPLES)
def test_samples(page: str) -> None:
    """Each sample writes what the page shows."""
    needs("gcc")
    built("out/python/zogwedu/libwarc.so")
    said = passes([sys.executable, "tests/callers/test_samples.py", page])
    assert not said.startswith("0 samples")


def test_each_page_with_samples_is_tried() -> None:
    text = open(os.path.join(TOP, "tests", "callers", "test_samples.py"), encoding="utf-8").read()
    named = text.split("PAGES = [")[1].split("]")[0]
    assert {it.strip('" ') for it in named.split(",")} == {*SAMPLES, "docs/RUST.md"}
