"""How a case of a script becomes an example of docs/PROGRAM.md."""
from __future__ import annotations

from typing import Optional, Tuple

import make_program
import pytest
from cases_script import Case

A, B = "examples/a.warc", "examples/b.warc"


def case(words: str, wanted: str, files: Tuple[str, ...] = (A,), given: Optional[bytes] = None) -> Case:
    return Case("examples", "list", 1, words.encode().split(b" "), given, wanted.encode(), b"abc", files)


@pytest.mark.parametrize(
    "asked, shown",
    [
        (case("list", "a line\n= 0\n"), f"$ warc list {A}\na line\n"),
        (case("list", "! warc: no\n= 2\n"), f"$ warc list {A}\nwarc: no\n$ echo $?\n2\n"),
        (case("list", "out\n! warc: no\n= 3\n", (A, B)), f"$ cat {A} {B} | warc list -\nout\nwarc: no\n$ echo $?\n3\n"),
        (case("head 0", "a\r\nb\r\n= 0\n"), f"$ warc head {A} 0 | tr -d '\\r'\na\nb\n"),
        (case("block 0", "abc= 0\n"), f"$ warc block {A} 0; echo\nabc\n"),
        (case("length body --stored 6", "89 bytes\n! said\n= 0\n"), f"$ warc body {A} 6 --stored | wc -c\nsaid\n89\n"),
        (case("select", "= 0\n", given=b"15"), f"$ echo 15 | warc select {A} -\n"),
        (case("select", "= 0\n", given=b"2\n13\n"), f"$ printf '2\\n13\\n' | warc select {A} -\n"),
        (case("write a b", "= 0\n", ()), "$ printf abc | warc write a b /dev/stdin\n"),
        (case("explain F1", "F1\n= 0\n", ()), "$ warc explain F1\nF1\n"),
        (case("list \\x20", "= 0\n"), f"$ warc list {A} ' '\n"),
        (case(f"list {'x' * 50} {'y' * 50}", "= 0\n"), f"$ warc list {A} {'x' * 50} \\\n    {'y' * 50}\n"),
    ],
)
def test_a_case_is_a_command_line_with_what_it_writes(asked: Case, shown: str) -> None:
    assert make_program.example(asked) == shown


def test_a_command_has_an_example() -> None:
    with pytest.raises(ValueError):
        make_program.examples("no-command")


def test_the_template_has_no_more_words_than_are_allowed(monkeypatch: pytest.MonkeyPatch) -> None:
    assert list(make_program.wrong()) == []
    monkeypatch.setattr(make_program, "MOST_WORDS", 10)
    assert [line.partition(":")[0] for line in make_program.wrong()] == [make_program.TEMPLATE]


def test_flags_in_code_are_marked_once() -> None:
    assert make_program.plain("with --all, as 'warc a --all'") == "with `--all`, as `warc a --all`"
