"""Where crates are proved: outside the checkout, in a folder of this user's own."""
from __future__ import annotations

import os
import sys
from pathlib import Path
from types import SimpleNamespace

import pytest

TOP = os.path.dirname(os.path.dirname(os.path.dirname(os.path.abspath(__file__))))
sys.path.insert(0, f"{TOP}/tools")

import lint  # noqa: E402
import proofs  # noqa: E402
import shared  # noqa: E402


@pytest.fixture(name="cache")
def fixture_cache(tmp_path: Path, monkeypatch: pytest.MonkeyPatch) -> Path:
    """A folder in which checkouts have theirs."""
    monkeypatch.setenv("ZOGWEDU_BUILD", str(tmp_path / "cache"))
    return tmp_path / "cache"


def test_a_checkout_has_a_folder_of_its_own(cache: Path, monkeypatch: pytest.MonkeyPatch) -> None:
    own = proofs.checkout_folder()
    monkeypatch.setattr(proofs, "TOP", str(cache.parent))
    assert os.path.dirname(own) == str(cache)
    assert proofs.checkout_folder() != own


def test_clean_leaves_other_checkouts_that_are_there(cache: Path, monkeypatch: pytest.MonkeyPatch) -> None:
    folders = {}
    for name in ("own", "other", "gone"):
        (cache.parent / name).mkdir()
        monkeypatch.setattr(proofs, "TOP", str(cache.parent / name))
        folders[name] = proofs.checkout_folder()
    (cache.parent / "gone").rmdir()
    monkeypatch.setattr(proofs, "TOP", str(cache.parent / "own"))
    proofs.clean()
    assert [name for name, path in folders.items() if os.path.isdir(path)] == ["other"]


def test_a_folder_that_others_may_write_to_is_refused(cache: Path) -> None:
    cache.mkdir()
    cache.chmod(0o777)
    with pytest.raises(SystemExit, match="alone may write to"):
        proofs.checkout_folder()


def test_without_a_home_it_says_what_to_set(monkeypatch: pytest.MonkeyPatch) -> None:
    for name in ("ZOGWEDU_BUILD", "XDG_CACHE_HOME", "HOME"):
        monkeypatch.delenv(name, raising=False)
    with pytest.raises(SystemExit, match="set ZOGWEDU_BUILD"):
        proofs.checkout_folder()


def test_a_home_that_cannot_be_written_is_named(monkeypatch: pytest.MonkeyPatch) -> None:
    monkeypatch.delenv("ZOGWEDU_BUILD", raising=False)
    monkeypatch.delenv("XDG_CACHE_HOME", raising=False)
    monkeypatch.setenv("HOME", "/proc/nowhere")
    with pytest.raises(SystemExit, match="/proc/nowhere.*set ZOGWEDU_BUILD"):
        proofs.checkout_folder()


@pytest.mark.parametrize("path", ["out/build/crates.txt", "docs/x.rt", "page/y.antt", "crates.d/z.rt"])
def test_what_stops_the_gate_is_found(tmp_path: Path, path: str) -> None:
    (tmp_path / path).parent.mkdir(parents=True, exist_ok=True)
    (tmp_path / path).write_text("")
    assert list(lint.strays(str(tmp_path), [])) == [path]


def test_a_link_is_found(tmp_path: Path) -> None:
    (tmp_path / "out").mkdir()
    (tmp_path / "out" / "libwarc.so").symlink_to("libwarc.so.3")
    (tmp_path / "out" / "folder").symlink_to("..")
    assert sorted(lint.strays(str(tmp_path), [])) == ["out/folder", "out/libwarc.so"]


@pytest.mark.parametrize("path", ["crates.txt", "crates/warc/src/lib.rt", "crates/warc/out/x.rt", ".git/x.rt"])
def test_what_the_gate_reads_is_left(tmp_path: Path, path: str) -> None:
    (tmp_path / path).parent.mkdir(parents=True, exist_ok=True)
    (tmp_path / path).write_text("")
    assert not list(lint.strays(str(tmp_path), []))


class Crate:
    """A crate as the toolchain knows it."""

    def __init__(self, name: str, folder: str) -> None:
        self.name, self.folder = name, folder

    def stamp(self) -> str:
        """A sum of its files: here their text."""
        return Path(self.folder, "src", "lib.rt").read_text(encoding="utf-8")


@pytest.fixture(name="proved")
def fixture_proved(cache: Path, monkeypatch: pytest.MonkeyPatch) -> Path:
    """A checkout of two crates that `rt ci` proved: a library and a program."""
    top = cache.parent / "checkout"
    for name, uses in (("low", ""), ("tool", "low")):
        (top / "crates" / name / "src").mkdir(parents=True)
        (top / "crates" / name / "src" / "lib.rt").write_text(f"{name} {uses}")
        (top / "crates" / name / "out").mkdir()
    (top / "crates.txt").write_text("low:\ntool: low\n")
    (top / "HANDLES").write_text("Handles allowed: none.\n")
    (top / "crates" / "low" / "out" / "rlib" / "low.rlib").mkdir(parents=True)
    (top / "crates" / "low" / "out" / "rlib" / "low.rlib" / "checked.a").write_text("proved")
    (top / "crates" / "tool" / "out" / "tool").write_text("program")
    kit = SimpleNamespace(
        crates_below=lambda at: [Crate(it, f"{at}/crates/{it}") for it in sorted(os.listdir(f"{at}/crates"))]
    )
    for module in (proofs, shared):
        monkeypatch.setattr(module, "TOP", str(top))
    monkeypatch.setattr(proofs, "toolchain", lambda: kit)
    return top


def test_what_a_run_proved_is_taken(proved: Path) -> None:
    tree = proofs.Tree("program")
    assert not tree.take(["low", "tool"])
    proofs.keep_proved(str(proved))
    assert tree.prove(["tool"]) == "all was kept"
    assert Path(tree.folder("low"), "out", "rlib", "low.rlib", "checked.a").read_text() == "proved"
    assert Path(tree.folder("tool"), "out", "tool").read_text() == "program"


def test_what_was_proved_of_other_files_is_left(proved: Path) -> None:
    proofs.keep_proved(str(proved))
    (proved / "crates" / "low" / "src" / "lib.rt").write_text("changed")
    assert not proofs.Tree("program").take(["low", "tool"])


def test_what_two_runs_proved_is_left(proved: Path) -> None:
    proofs.keep_proved(str(proved))
    proofs.keep_built(f"{proved}/crates/low/out", proofs.kept_folder("low"), "low ", "another run")
    assert not proofs.Tree("program").take(["low", "tool"])


def test_what_rt_check_left_is_not_kept(proved: Path) -> None:
    (proved / "crates" / "low" / "out" / "rlib" / "stamp").write_text("low ")
    proofs.keep_proved(str(proved))
    assert not proofs.Tree("program").take(["low", "tool"])


def test_a_crate_that_is_listed_later_has_a_sum(tmp_path: Path) -> None:
    (tmp_path / ".git").mkdir()
    for name in ("low", "tool"):
        (tmp_path / "crates" / name / "src").mkdir(parents=True)
        (tmp_path / "crates" / name / "src" / "lib.rt").write_text("#![tactic(auto)]\n")
    (tmp_path / "crates.txt").write_text("low:\n")
    assert set(proofs.stamps(str(tmp_path))) == {"low"}
    (tmp_path / "crates.txt").write_text("low:\ntool: low\n")
    assert set(proofs.stamps(str(tmp_path))) == {"low", "tool"}


def test_a_proof_has_a_processor_and_memory(monkeypatch: pytest.MonkeyPatch) -> None:
    monkeypatch.delenv("RT_JOBS", raising=False)
    assert 1 <= int(proofs.side_by_side()["RT_JOBS"]) <= len(os.sched_getaffinity(0))
    monkeypatch.setattr(proofs, "MEMORY_OF_A_PROOF", 1 << 60)
    assert proofs.side_by_side()["RT_JOBS"] == "1"
    monkeypatch.setenv("RT_JOBS", "3")
    assert proofs.side_by_side()["RT_JOBS"] == "3"


def test_a_log_of_the_gate_becomes_a_line_for_each_crate(tmp_path: Path, capsys: pytest.CaptureFixture[str]) -> None:
    said = [
        "rt: warc_field proved\n",
        "fn x: proved\n",
        "rt: warc_value is kept: an earlier run\n",
        "2 passed, 0 failed\n",
    ]
    with open(tmp_path / "log", "w", encoding="utf-8") as log:
        assert proofs.report(said, log) == "2 passed, 0 failed"
    lines = capsys.readouterr().out.splitlines()
    assert [line.split()[0] for line in lines] == ["warc_field", "warc_value"]
    assert (tmp_path / "log").read_text() == "".join(said)
