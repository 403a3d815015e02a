"""What the tests of the collection share: a collection in a new folder, and archives made by hand."""
from __future__ import annotations

import base64
import hashlib
import json
import os
import shutil
import sqlite3
import subprocess
import sys
from typing import Any, Dict, List, Optional, Sequence, Tuple

import pytest

TOP = os.path.dirname(os.path.dirname(os.path.dirname(os.path.abspath(__file__))))
STAND_IN = os.path.join(TOP, "tests", "collection", "standin", "warc.py")
BUILT = os.path.join(TOP, "out", "python")
# The Python package, or a stand-in for it.
PACKAGE = BUILT if os.path.exists(os.path.join(BUILT, "zogwedu", "libwarc.so")) else os.path.dirname(STAND_IN)
URI = "http://a.example/"
MOST_SECONDS = 600
# As the tests are run over a project that was mended, or over one that wasn't.
PROJECT = os.environ.get("COLLECTION_PROJECT", TOP)
USES_WARC = ("run", "plan", "find", "replay", "search")
# Whether answers are by whole files, and not by members: the same tests hold.
IS_WHOLE = bool(os.environ.get("COLLECTION_WHOLE"))
Done = subprocess.CompletedProcess


def program() -> str:
    """The program: the one that WARC names, the one that was built, or the stand-in."""
    built = os.path.join(TOP, "bin", "warc")
    return os.environ.get("WARC") or (built if os.path.exists(built) else STAND_IN)


def sha1(block: bytes) -> str:
    return "sha1:" + base64.b32encode(hashlib.sha1(block).digest()).decode()


def record(number: int, block: bytes = b"abc", target: str = URI, digest: Optional[str] = None, **more: str) -> bytes:
    """A record. Its digest is right if none is given; `-` leaves it out."""
    fields = {
        "WARC-Type": "resource",
        "WARC-Record-ID": "<urn:uuid:00000000-0000-4000-8000-%012d>" % number,
        "WARC-Date": more.pop("date", "2020-01-01T00:00:00Z"),
        "WARC-Target-URI": target,
        "Content-Type": "text/plain",
        "Content-Length": str(len(block)),
        "WARC-Block-Digest": digest or sha1(block),
        **{name.replace("_", "-"): value for name, value in more.items()},
    }
    lines = ["WARC/1.1", *("%s: %s" % pair for pair in fields.items() if pair[1] != "-")]
    return "\r\n".join(lines).encode() + b"\r\n\r\n" + block + b"\r\n\r\n"


def put(path: str, *parts: bytes) -> str:
    """Writes a file."""
    os.makedirs(os.path.dirname(path), exist_ok=True)
    with open(path, "wb") as out:
        out.writelines(parts)
    return path


def script(path: str, text: str) -> str:
    """Writes a program for the shell."""
    put(path, ("#!/bin/sh\n" + text).encode())
    os.chmod(path, 0o755)
    return path


class Collection:
    """A folder with a catalogue and disks."""

    def __init__(self, folder: str) -> None:
        self.folder = folder
        self.warc = program()

    def path(self, *names: str) -> str:
        return os.path.join(self.folder, *names)

    def put(self, name: str, *parts: bytes) -> str:
        return put(self.path(name), *parts)

    def pages(self, name: str, count: int) -> str:
        """A file of good records, each of a URI of its own."""
        return self.put(name, *(record(place, b"page %d" % place, URI + str(place)) for place in range(count)))

    def words(self, command: str, *words: str, catalogue: str = "catalogue") -> List[str]:
        more = ["--warc", self.warc] if command in USES_WARC and "--warc" not in words else []
        more += ["--whole"] if command == "replay" and IS_WHOLE else []
        return [*self.script(), "-c", self.path(catalogue), command, *more, *words]

    def script(self) -> List[str]:
        """What runs the package."""
        return [sys.executable, os.path.join(PROJECT, "collection")]

    def run(self, command: str, *words: str, env: Optional[Dict[str, str]] = None, **more: str) -> Done[bytes]:
        """Runs a command."""
        return self.run_words(self.words(command, *words, **more), env)

    def run_words(self, words: Sequence[str], env: Optional[Dict[str, str]] = None) -> Done[bytes]:
        """Runs a command line."""
        done = subprocess.run(
            words,
            stdin=subprocess.DEVNULL,
            capture_output=True,
            cwd=self.folder,
            env=dict(os.environ, **{"PYTHONPATH": PACKAGE, "PYTHONDONTWRITEBYTECODE": "1", **(env or {})}),
            timeout=MOST_SECONDS,
            check=False,
        )
        assert b"Traceback" not in done.stderr, done.stderr.decode()
        return done

    def night(self, *words: str, **more: Any) -> Done[bytes]:
        """A run."""
        return self.run("run", "--jobs", "2", *words, **more)

    def ask(self, query: str, *values: object, catalogue: str = "catalogue") -> List[Tuple[Any, ...]]:
        base = sqlite3.connect(self.path(catalogue, "catalogue.sqlite"), timeout=60)
        try:
            return base.execute(query, values).fetchall()
        finally:
            base.close()

    def states(self) -> Dict[str, str]:
        """The state of each file, by its name."""
        rows = self.ask("SELECT path, state FROM files")
        return {os.path.basename(os.fsdecode(path)): state for path, state in rows}

    def detail(self, name: str) -> str:
        return str(self.ask("SELECT detail FROM files WHERE path LIKE '%' || ?", name)[0][0])

    def status(self, *words: str) -> Any:
        """What `status --json` says."""
        return json.loads(self.run("status", "--json", *words).stdout)


def to_read(done: Done[bytes]) -> int:
    """How many files a run was to read, by its own line."""
    lines = [line for line in done.stderr.decode().splitlines() if line.endswith(" to read")]
    return int(lines[-1].split()[-3])


def later(path: str, seconds: int = 5) -> None:
    """Makes the time of a file's modification a later one."""
    was = os.stat(path).st_mtime_ns
    os.utime(path, ns=(was, was + seconds * 10**9))


def unchanged(path: str, *parts: bytes) -> None:
    """Writes a file anew, with the time of modification that it had."""
    was = os.stat(path).st_mtime_ns
    put(path, *parts)
    os.utime(path, ns=(was, was))


def lines(done: Done[bytes]) -> List[str]:
    return done.stdout.decode().splitlines()


@pytest.fixture
def collection(tmp_path: Any) -> Collection:
    """A collection in a new folder."""
    if shutil.which("parallel") is None:
        pytest.skip("GNU parallel isn't installed")
    return Collection(str(tmp_path))


def of_state(done: Done[bytes], states: Sequence[str]) -> List[str]:
    """The lines of files in some states."""
    return [line for line in lines(done) if line.split("\t")[0] in states and line.count("/")]
