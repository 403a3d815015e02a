"""What the lint of the pages finds in one page."""
from __future__ import annotations

import lint_docs

TABLE = "| What | Limit |\n|---|---|\n| a name | 48 bytes |\n"


def test_an_empty_line_in_a_table_is_found() -> None:
    assert not list(lint_docs.broken_tables("a.md", f"Text.\n\n{TABLE}| a block | 2^40 |\n\nText.\n"))
    assert list(lint_docs.broken_tables("a.md", f"{TABLE}\n| a block | 2^40 |\n")) == ["a.md:5: a row without a table"]


def test_a_row_in_code_is_no_table() -> None:
    assert not list(lint_docs.broken_tables("a.md", f"```\n| a block | 2^40 |\n```\n\n{TABLE}"))
