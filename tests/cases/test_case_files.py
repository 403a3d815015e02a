"""What the program does where its output is a file that it reads, and where a list of positions comes by a pipe."""
from __future__ import annotations

import os
import pathlib
import subprocess
from typing import Any, List

import pytest

CRAWL = pathlib.Path(__file__).resolve().parents[2] / "examples" / "crawl.warc"
SAME_FILE = b"warc: the output is a file that is read\n"
COMMANDS: List[List[str]] = [
    *([name, "a.warc"] for name in ("list", "check", "captures", "rewrite", "convert", "salvage", "survey", "summary")),
    *(["split", "a.warc", "9"], ["block", "a.warc", "2"], ["replay", "a.warc", "http://127.0.0.1:8765/", "9999"]),
    ["write", "resource", "http://a.example/", "2020", "00000000-0000-4000-8000-000000000001", "text/html", "a.warc"],
]


@pytest.fixture(name="folder")
def made_folder(tmp_path: pathlib.Path) -> pathlib.Path:
    """A folder with an archive, another name of it, and a list of positions."""
    (tmp_path / "a.warc").write_bytes(CRAWL.read_bytes())
    (tmp_path / "linked.warc").symlink_to("a.warc")
    (tmp_path / "positions").write_bytes(b"2\n")
    return tmp_path


def run(program: str, folder: pathlib.Path, words: List[str], **files: Any) -> "subprocess.CompletedProcess[bytes]":
    """Runs a command line in the folder."""
    files.setdefault("stdin", subprocess.DEVNULL)
    files.setdefault("stdout", subprocess.PIPE)
    return subprocess.run(
        [program, *words],
        cwd=folder,
        stderr=subprocess.PIPE,
        timeout=60,
        check=False,
        pass_fds=files.pop("fds", ()),
        **files,
    )


def opened(folder: pathlib.Path, name: str, mode: str) -> Any:
    """A file of the folder."""
    return open(folder / name, mode, buffering=0)


def name_of(words: List[str]) -> str:
    """What pytest calls a command line."""
    return words[0]


@pytest.mark.parametrize("words", COMMANDS, ids=name_of)
def test_nothing_is_written_over_the_archive(program: str, folder: pathlib.Path, words: List[str]) -> None:
    for name, mode in (("a.warc", "ab"), ("linked.warc", "r+b")):
        with opened(folder, name, mode) as out:
            done = run(program, folder, words, stdout=out)
        assert (done.returncode, done.stderr) == (3, SAME_FILE)
        assert (folder / "a.warc").read_bytes() == CRAWL.read_bytes()


def test_an_archive_that_the_shell_emptied(program: str, folder: pathlib.Path) -> None:
    with opened(folder, "a.warc", "wb") as out:
        done = run(program, folder, ["convert", "a.warc"], stdout=out)
    assert (done.returncode, done.stderr) == (3, SAME_FILE)


def test_standard_input_and_a_list(program: str, folder: pathlib.Path) -> None:
    for words in (["list", "-"], ["list", "/dev/stdin"], ["head", "-", "0"]):
        with opened(folder, "a.warc", "rb") as source, opened(folder, "a.warc", "ab") as out:
            done = run(program, folder, words, stdin=source, stdout=out)
        assert (done.returncode, done.stderr) == (3, SAME_FILE)
    with opened(folder, "positions", "ab") as out:
        done = run(program, folder, ["select", "a.warc", "positions"], stdout=out)
    assert (done.returncode, done.stderr) == (3, SAME_FILE)
    assert (folder / "positions").read_bytes() == b"2\n"


def test_another_file_is_written(program: str, folder: pathlib.Path) -> None:
    (folder / "copy.warc").write_bytes(CRAWL.read_bytes())
    with opened(folder, "copy.warc", "wb") as out:
        assert run(program, folder, ["salvage", "a.warc"], stdout=out).returncode == 0
    assert (folder / "copy.warc").read_bytes() == CRAWL.read_bytes()
    with open("/dev/null", "r+b") as null:
        assert run(program, folder, ["list", "-"], stdin=null, stdout=null).returncode == 0
        assert run(program, folder, ["explain", "F10"], stdin=null, stdout=null).returncode == 0


def test_a_list_comes_by_a_pipe(program: str, folder: pathlib.Path) -> None:
    wanted = run(program, folder, ["select", "a.warc", "positions"])
    assert wanted.returncode == 0
    numbers = b"".join(b"%d\n" % (number % 18) for number in range(100_000))
    (folder / "long").write_bytes(numbers)
    for listed, by_file in ((b"2\n", "positions"), (numbers, "long")):
        read, write = os.pipe()
        feeder = subprocess.Popen(["cat", by_file], cwd=folder, stdout=write)
        os.close(write)
        done = run(program, folder, ["select", "a.warc", f"/dev/fd/{read}"], fds=(read,))
        os.close(read)
        assert feeder.wait(60) == 0, listed[:9]
        plain = run(program, folder, ["select", "a.warc", by_file])
        assert (done.returncode, done.stdout, done.stderr) == (0, plain.stdout, plain.stderr)


def test_which_of_two_files_failed_is_named(program: str, folder: pathlib.Path) -> None:
    for words, name in ((["select", "gone", "positions"], "gone"), (["select", "a.warc", "lost"], "lost")):
        done = run(program, folder, words)
        line = f"{name}: No such file or directory (os error 2)\n".encode()
        assert (done.returncode, done.stderr) == (3, b"warc: open failed\n" + line)
    done = run(program, folder, ["select", "a.warc", "."])
    assert (done.returncode, done.stderr) == (3, b"warc: read failed after 0\n.: Is a directory (os error 21)\n")
    assert run(program, folder, ["list", "gone"]).stderr == b"warc: open failed\n"
