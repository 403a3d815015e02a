"""Programs around `warc`: zwarc, files that other programs write, and the second reading of the format."""
from __future__ import annotations

import shlex
import subprocess
import sys
from pathlib import Path
from typing import Callable

import pytest
import zwarc

from .conftest import needs, passes

# no_room mounts a disk, and failing_calls needs strace: they are in `make stress`.
KINDS = tuple(kind for kind in zwarc.KINDS if kind is not zwarc.no_room)
# Some of the commands: what reads once, what seeks, and what has no answer.
COMMANDS = (("list",), ("captures", zwarc.TARGET), ("replay", zwarc.TARGET, "9999"), ("block", "999"))


@pytest.mark.parametrize("kind", KINDS, ids=[kind.__name__ for kind in KINDS])
def test_zwarc(
    kind: Callable[[zwarc.Trials], None], warc: str, tmp_path: Path, monkeypatch: pytest.MonkeyPatch
) -> None:
    """It gives what warc gives of what files hold, and nothing of what can't be decompressed."""
    needs("gzip", "zstd", "wget")
    monkeypatch.setattr(zwarc, "COMMANDS", COMMANDS)
    monkeypatch.setattr(zwarc, "OTHERS", COMMANDS[1:])
    trials = zwarc.Trials(warc, str(tmp_path))
    trials.kind = kind.__name__
    kind(trials)
    assert trials.tried.total() > 0 and trials.surprises.total() == 0


@pytest.mark.parametrize("name, count", [("differential", 40), ("pieces", 3)])
def test_second_reading(name: str, count: int, warc: str) -> None:
    """The program gives what the second reading does of archives made from seeds."""
    passes([sys.executable, f"tests/stress/{name}.py", warc, str(count), "1"])


@pytest.mark.parametrize(
    "begin, packing", [(b"\x1f\x8b", "gzip"), (b"\x28\xb5\x2f\xfd", "zstd"), (b"PK\x03\x04", "ZIP")]
)
def test_hint_for_a_packed_archive(begin: bytes, packing: str, warc: str, tmp_path: Path) -> None:
    """A refused file that begins as a packed one does is read by the same words after another name."""
    path = tmp_path / "packed"
    path.write_bytes(begin)
    words = ["list", "--hints", str(path)]
    done = subprocess.run([warc, *words], capture_output=True, text=True, check=False)
    assert done.returncode == 2
    assert done.stderr.splitlines()[1:] == [f"this looks like {packing}: zwarc {shlex.join(words)}"]


@pytest.mark.parametrize("name", ["compare", "payloads"])
def test_compatibility(name: str, warc: str) -> None:
    """What comes out of files of other programs is as docs/COMPATIBILITY.md says."""
    needs("wget", "bsdtar", "gzip")
    passes([sys.executable, f"tests/compatibility/{name}.py", warc])
