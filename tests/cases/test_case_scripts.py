"""What scripts may say, that each case is tried, and that one fails that is answered otherwise."""
from __future__ import annotations

import dataclasses
import pathlib

import cases_calls
import cases_commands
import pytest
from cases_commands import FRONTS, Place, answers
from cases_script import CASES, Archives, Case, ScriptError, lines_of, link

SCRIPT = rb"""# a comment
== a_name
archive two
| ab\x20
+ c\\
* 2 d\n
list "" \x41
> a line
. and a part
"""


def read(path: pathlib.Path, text: bytes) -> list[Case]:
    """The cases and steps of a script."""
    path.write_bytes(text)
    return list(lines_of(path))


def test_lines_are_read(tmp_path: pathlib.Path) -> None:
    step, case = read(tmp_path / "a.script", SCRIPT)
    assert (step.words, step.given, step.wanted) == ([b"archive", b"two"], b"ab \r\nc\\d\nd\n", None)
    assert (case.name, case.word(1), case.word(2), case.wanted) == ("a_name", b"", b"A", b"a line\nand a part")


def test_links_have_their_numbers() -> None:
    assert link(b"#@% ##", 10) == b"10911 1010"


def test_archives_are_made_of_the_last_one(tmp_path: pathlib.Path) -> None:
    text = b"archive\n+ abc\nreplace\n+ b\nby\n+ xy\nfirst 2\nflood 2\n+ #\nagain old\n"
    archives, seen = Archives({b"old": b"o"}), []
    for step in read(tmp_path / "a.script", text):
        archives.take(step)
        seen.append(archives.bytes)
    assert seen == [b"abc", b"abc", b"axyc", b"ab", b"abc12", b"o"]


def test_an_archive_is_of_files_until_the_next_one(tmp_path: pathlib.Path) -> None:
    abc, both = "examples/abc.warc", b"file examples/abc.warc examples/damaged.warc\n"
    archives, seen = Archives({}), []
    for step in read(tmp_path / "a.script", b"file %s\n" % abc.encode() + both + b"archive\n+ abc\n"):
        archives.take(step)
        seen.append((len(archives.bytes), archives.files))
    assert seen == [(278, (abc,)), (556, (abc, "examples/damaged.warc")), (3, ())]


def test_a_file_that_is_named_has_to_be_there(tmp_path: pathlib.Path) -> None:
    (step,) = read(tmp_path / "a.script", b"file examples/nothing.warc\n")
    with pytest.raises(ScriptError):
        Archives({}).take(step)


def test_a_text_that_is_replaced_has_to_be_there(tmp_path: pathlib.Path) -> None:
    archives = Archives({})
    with pytest.raises(ScriptError):
        for step in read(tmp_path / "a.script", b"archive\n+ abc\nreplace\n+ d\nby\n+ x\n"):
            archives.take(step)


def test_a_word_that_is_no_number_is_refused() -> None:
    with pytest.raises(ScriptError):
        Case("a", "", 1, [b"first", b"x"]).count(1)


def test_each_case_is_tried() -> None:
    tried = {*cases_commands.VERBS, *cases_calls.VERBS, *FRONTS}
    assert [case.id for case in CASES if case.verb not in tried] == []


def test_another_archive_gives_another_answer(place: Place) -> None:
    case = next(case for case in CASES if case.verb == b"list" and case.wanted and case.wanted.endswith(b"= 0\n"))
    other = dataclasses.replace(case, archive=case.archive + case.archive)
    assert case.wanted not in answers(place, other)


def test_a_text_that_nothing_reads_is_refused(place: Place) -> None:
    case = next(case for case in CASES if case.verb == b"list")
    with pytest.raises(ScriptError):
        answers(place, dataclasses.replace(case, given=b"x"))
