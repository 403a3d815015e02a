"""What a reader must believe: the words of a contract, the definitions that they use, and nothing else."""
from __future__ import annotations

from pathlib import Path
from typing import Set

import count_specs
import pytest
from shared import TOP

CODE = """\
ghost use Rattle.low.specs.Words.{IsGood, IsPart as IsPiece, IsUnused};

/// A private function cites IsUnused.
fn hidden()
    ensures { IsUnused result }
{
}

pub fn shown(text: &[u8]) -> bool
    ensures { IsGood text.now → result ≡ true }
{
    IsPiece
}

pub fn other(text: &[u8]) -> bool
    ensures { IsPiece text.now }
{
}
"""
WORDS = """\
-- Words. IsUnused in a comment.
ghost use Rattle.lower.specs.Deep.{deepest};
IsGood : List → Set
IsGood text = IsPart text → deepest text

-- A comment inside.
IsPart : List → Set
IsPart text = true

IsUnused : Set
IsUnused = true
"""
DEEP = "deepest : List → Set\ndeepest text = true\n"
OF_SHOWN = {("low", "Words", "IsGood"), ("low", "Words", "IsPart"), ("lower", "Deep", "deepest")}


@pytest.fixture(name="specs")
def two_files() -> count_specs.Files:
    texts = {("low", "Words"): WORDS, ("lower", "Deep"): DEEP}
    return {
        it: count_specs.Specs(count_specs.imports_of(text), count_specs.definitions(text)) for it, text in texts.items()
    }


@pytest.mark.parametrize("function, words", [("shown", {"IsGood"}), ("other", {"IsPart"}), ("", {"IsGood", "IsPart"})])
def test_what_a_contract_cites(tmp_path: Path, function: str, words: Set[str]) -> None:
    (tmp_path / "a.rt").write_text(CODE, encoding="utf-8")
    assert {word for _, _, word in count_specs.cited(str(tmp_path / "a.rt"), function)} == words


def test_a_private_function_has_no_contract_for_readers(tmp_path: Path) -> None:
    (tmp_path / "a.rt").write_text(CODE, encoding="utf-8")
    with pytest.raises(ValueError, match="no public function hidden"):
        count_specs.cited(str(tmp_path / "a.rt"), "hidden")


def test_words_reach_through_files(specs: count_specs.Files) -> None:
    assert count_specs.reached(specs, {("low", "Words", "IsGood")}) == OF_SHOWN
    assert [count_specs.lines_of(specs, it) for it in sorted(OF_SHOWN)] == [2, 2, 2]


def test_a_definition_is_printed_with_its_comment() -> None:
    assert list(count_specs.defining(WORDS, {"IsPart"})) == [
        "-- A comment inside.\nIsPart : List → Set\nIsPart text = true"
    ]


def test_the_definitions_of_a_claim_are_those_that_are_counted() -> None:
    specs = count_specs.specs_of(TOP)
    words = list(count_specs.of_claims(specs))[1]
    paragraphs = [it for it in count_specs.texts(specs, words) if not it.startswith("====")]
    printed = {word for it in paragraphs for word in count_specs.definitions(it)}
    assert {word for *_, word in words} <= printed


def test_a_claim_begins_with_words_that_it_rests_on() -> None:
    page = (
        f"{count_specs.HEAD}|---|---|---|---|---|\n| 1 | 3 | 6 | 6 | `IsGood`, `IsPart` of `low`; `high` of `lower` |\n"
    )
    begin = count_specs.beginnings(page)
    assert list(begin) == [1]
    assert list(count_specs.strange(begin[1], OF_SHOWN)) == ["high of lower"]
