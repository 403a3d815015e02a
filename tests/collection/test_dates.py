"""What a date means is asked of the program. Only what it calls a bad date is one: another failure is reported."""
from __future__ import annotations

import os
import shlex
from typing import Sequence

import pytest
from conftest import URI, Collection, record, script
from rooms import program, read, revisit
from zogwedu_collection import program as programs
from zogwedu_collection.program import BadDate, instant_of
from zogwedu_collection.texts import Trouble

FIRST, SECOND = "2020-01-01T00:00:00Z", "2021-06-01T12:00:00Z"
OF_DATE = {"WARC_Refers_To_Target_URI": URI, "WARC_Refers_To_Date": FIRST}


def test_the_program_says_it() -> None:
    assert instant_of(program(), "2021") == "2021-01-01T00:00:00.000000000Z"
    assert instant_of(program(), "2021-06-01T12:00:00.5Z") == "2021-06-01T12:00:00.500000000Z"


@pytest.mark.parametrize("date", ["", "-x", "--help", "20210601", "2021-02-29", "2021\0", "\ud900", "é"])
def test_it_is_no_date(date: str) -> None:
    with pytest.raises(BadDate):
        instant_of(program(), date)


@pytest.mark.parametrize("says", ["echo warc: out of memory after 0 >&2; exit 3", "exit 3", "kill -9 $$"])
def test_another_failure_is_reported(tmp_path: os.PathLike[str], says: str) -> None:
    with pytest.raises(Trouble, match="^warc instant: ") as failed:
        instant_of(script(os.path.join(tmp_path, "warc"), says), "2021")
    assert not isinstance(failed.value, BadDate)


def test_a_program_that_does_not_run(tmp_path: os.PathLike[str]) -> None:
    with pytest.raises(Trouble, match="doesn't run"):
        instant_of(os.path.join(tmp_path, "warc"), "2021")


def test_a_program_that_hangs(tmp_path: os.PathLike[str], monkeypatch: pytest.MonkeyPatch) -> None:
    monkeypatch.setattr(programs, "MOST_SECONDS", 0.2)
    with pytest.raises(Trouble, match="^warc instant takes too long$"):
        instant_of(script(os.path.join(tmp_path, "warc"), "exec sleep 60"), "2021")


@pytest.mark.parametrize("ways", [(), ("--whole",)])
def test_a_replay_reports_it(collection: Collection, ways: Sequence[str]) -> None:
    """A revisit that names its record by URI and date isn't called unresolved where the program couldn't be asked."""
    collection.put("disk/a.warc", record(1, b"body", URI, date=FIRST))
    collection.put("disk/b.warc", revisit(2, URI + "other", SECOND, "-", **OF_DATE))
    read(collection)
    done = collection.run("replay", *ways, URI + "other", "9999")
    assert (done.returncode, done.stdout) == (0, b"body"), done
    failing = '[ "$1 $3" = "instant %s" ] && { echo warc: out of memory after 0 >&2; exit 3; }; exec %s "$@"'
    collection.warc = script(collection.path("failing"), failing % (FIRST, shlex.quote(program())))
    done = collection.run("replay", *ways, URI + "other", "9999")
    assert (done.returncode, done.stdout) == (3, b"") and b"out of memory" in done.stderr, done
