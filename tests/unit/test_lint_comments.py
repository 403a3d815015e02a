"""A doc comment that says what a call does by the one above it is found, wherever it begins."""
from __future__ import annotations

import lint
import pytest


@pytest.mark.parametrize(
    "text, count",
    [
        ("fn f() {}\n\n/// The same, by another way.\nfn g() {}\n", 1),
        ("impl A {\n    /// Those of a record.\n    fn g() {}\n}\n", 1),
        ("/// Judges a block. \n/// The same holds of none.\nfn g() {}\n", 0),
        ("fn f() {}\n\n/// Thesame.\nfn g() {}\n", 0),
    ],
)
def test_what_it_finds(text: str, count: int) -> None:
    assert len(lint.BY_ANOTHER.findall(text)) == count
