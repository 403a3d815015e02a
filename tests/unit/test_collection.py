"""Nights of warc-collection over a stand-in for the program, which says what the second reading of the format says."""
from __future__ import annotations

import gzip
import os
import shutil
import subprocess
import sys
from pathlib import Path
from typing import Dict

import make_collection
import pytest
from collection_trial import Trial, put, put_script, record, to_read

from .in_node import TOP, without

STAND_IN = f"{TOP}/tests/standin/warc.py"
URI = b"http://a.example/"
WHEN = "2020-01-01T00:00:00Z"
PAGES = [record("resource", number, WHEN, URI + b"%d" % number, b"page %d" % number) for number in range(5)]


@pytest.fixture(name="night")
def night_fixture(tmp_path: Path, monkeypatch: pytest.MonkeyPatch) -> Trial:
    """A catalogue that isn't there yet, and a folder for archives. The package runs as it is: the one file that is
    installed has the room in it, and takes packages of Debian's."""
    if shutil.which("parallel") is None:
        without("GNU parallel")
    program = put_script(str(tmp_path / "program"), f"exec '{sys.executable}' '{TOP}/collection' \"$@\"\n")
    monkeypatch.setenv("COLLECTION_PROGRAM", program)
    return Trial(STAND_IN, str(tmp_path))


def run(night: Trial, *words: str) -> Dict[str, str]:
    """Runs a night over the folder. Returns the state of each file."""
    done = night.run("c", "run", *words, night.path("archives"))
    assert b"Traceback" not in done.stderr and done.returncode in (0, 1), done.stderr
    return night.states("c")


def text(night: Trial, command: str, *words: str) -> bytes:
    """What a command writes."""
    return night.run("c", command, *words).stdout


def test_states(night: Trial) -> None:
    files = {
        "good.warc": PAGES[0],
        "packed.warc.gz": b"".join(map(gzip.compress, PAGES)),
        "unchecked.warc": record("resource", 7, WHEN, URI, b"abc", block_digest="-"),
        "bad.warc": PAGES[1].replace(b"page 1", b"page x"),
        "torn.warc": PAGES[0] + PAGES[1][:-9],
        "torn.warc.gz": gzip.compress(PAGES[0])[:-9],
    }
    for name, data in files.items():
        put(night.path("archives", name), data)
    assert run(night) == {
        "good.warc": "good",
        "packed.warc.gz": "good",
        "unchecked.warc": "unchecked",
        "bad.warc": "bad",
        "torn.warc": "refused",
        "torn.warc.gz": "gunzip",
    }
    assert "1 good record" in night.detail("c")


def test_a_second_night_reads_what_is_new_or_changed(night: Trial) -> None:
    for name, data in (("a.warc", PAGES[0]), ("b.warc", PAGES[1])):
        put(night.path("archives", name), data)
    run(night)
    assert to_read(night.run("c", "run")) == 0
    put(night.path("archives", "b.warc"), PAGES[1] + PAGES[2])
    put(night.path("archives", "c.warc"), PAGES[3])
    assert to_read(night.run("c", "run")) == 2
    assert (night.count("c", "captures"), night.count("c", "records")) == (4, 4)


def test_a_file_that_is_gone(night: Trial) -> None:
    path = put(night.path("archives", "a.warc"), PAGES[0])
    put(night.path("archives", "b.warc"), PAGES[1])
    run(night)
    os.rename(path, night.path("a.warc"))
    assert run(night) == {"a.warc": "gone", "b.warc": "good"}
    os.rename(night.path("a.warc"), path)
    assert run(night) == {"a.warc": "good", "b.warc": "good"}


def test_other_bytes_with_an_old_time_are_rotten(night: Trial) -> None:
    data = record("resource", 1, WHEN, URI, b"abc", block_digest="-")
    path = put(night.path("archives", "a.warc"), data)
    run(night, "--digest")
    before = os.stat(path)
    for body, state in ((b"axc", "rotten"), (b"abc", "unchecked")):
        put(path, data.replace(b"abc", body))
        os.utime(path, ns=(before.st_atime_ns, before.st_mtime_ns))
        assert run(night, "--digest", "--all") == {"a.warc": state}


def test_find_and_replay(night: Trial) -> None:
    put(night.path("archives", "a.warc.gz"), b"".join(map(gzip.compress, PAGES)))
    put(night.path("archives", "torn.warc"), PAGES[2] + PAGES[3][:-9])
    run(night)
    assert text(night, "find", "http://a.example/1").count(b"\n") == 1
    assert text(night, "replay", "http://a.example/1", "2021") == b"page 1"
    assert text(night, "find", "http://a.example/2").count(b"\n") == 2
    assert text(night, "replay", "http://a.example/2", "9999") == b"page 2"
    done = night.run("c", "replay", "http://a.example/1", "2019")
    assert done.stdout == b"" and done.returncode != 0


def test_the_one_file_reads_compressed_files_by_itself(tmp_path: Path) -> None:
    """It has the Python package's module of members inside, and needs no package."""
    path = str(tmp_path / "warc-collection")
    make_collection.make(path)
    code = "import sys; sys.path.insert(0, %r); from zogwedu_collection import unpack; print(unpack._members.__file__)"
    words = [sys.executable, "-I", "-c", code % path]
    done = subprocess.run(words, stdout=subprocess.PIPE, cwd=str(tmp_path), check=True)
    assert done.stdout.decode().strip() == "%s/zogwedu_collection/_members.py" % path
