"""What the trials of warc-collection share: the program as it is installed, archives made by hand, and counts."""
from __future__ import annotations

import base64
import collections
import hashlib
import os
import signal
import sqlite3
import subprocess
import sys
import time
from typing import Counter, Dict, Iterator, List, Optional, Sequence, Set, Tuple

HERE = os.path.dirname(os.path.abspath(__file__))
TOP = os.path.dirname(os.path.dirname(HERE))
PACKAGE = os.path.join(TOP, "out", "python")
MOST_SECONDS = 3600
# What a catalogue has of each file.
TABLES = ("records", "captures", "digests", "payloads", "findings", "years", "hosts")
PROGRAM_COMMANDS = ("run", "plan", "replay", "find")
Done = subprocess.CompletedProcess


def made_program(folder: str) -> str:
    """The one file that is installed, made anew; or another version, which the variable COLLECTION_PROGRAM names."""
    other = os.environ.get("COLLECTION_PROGRAM")
    if other:
        return other
    path = os.path.join(folder, "warc-collection")
    subprocess.run([sys.executable, os.path.join(TOP, "tools", "make_collection.py"), path], check=True)
    return path


def sha1(block: bytes) -> str:
    return "sha1:" + base64.b32encode(hashlib.sha1(block).digest()).decode()


def record(kind: str, number: int, date: str, target: bytes, block: bytes, **fields: str) -> bytes:
    """A record. Its block digest is right, if none is given; `-` leaves it out."""
    digest = fields.pop("block_digest", None) or sha1(block)
    lines = [
        b"WARC/1.1",
        b"WARC-Type: " + kind.encode(),
        b"WARC-Record-ID: <urn:uuid:00000000-0000-4000-8000-%012d>" % number,
        b"WARC-Date: " + date.encode(),
        b"WARC-Target-URI: " + target,
        b"Content-Type: " + fields.pop("content_type", "text/plain").encode(),
        b"Content-Length: %d" % len(block),
    ]
    lines += [b"WARC-Block-Digest: " + digest.encode()] if digest != "-" else []
    lines += [b"%s: %s" % (name.replace("_", "-").encode(), value.encode()) for name, value in fields.items()]
    return b"\r\n".join(lines) + b"\r\n\r\n" + block + b"\r\n\r\n"


def put(path: str, data: bytes) -> str:
    os.makedirs(os.path.dirname(path), exist_ok=True)
    with open(path, "wb") as out:
        out.write(data)
    return path


def put_script(path: str, text: str) -> str:
    put(path, ("#!/bin/sh\n" + text).encode())
    os.chmod(path, 0o755)
    return path


class Trial:
    """The programs, a folder for files, and the counts of what was tried."""

    def __init__(self, warc: str, folder: str) -> None:
        self.warc = os.path.abspath(warc)
        self.folder = folder
        self.script = made_program(folder)
        self.tried: Counter[str] = collections.Counter()
        self.surprises = 0
        self.part = ""
        self.begun = 0.0

    def begin(self, part: str) -> None:
        self.part = part
        self.begun = time.monotonic()

    def judge(self, is_right: bool, what: object, seen: object = "") -> None:
        self.tried[self.part] += 1
        if not is_right:
            self.surprises += 1
            print("surprise: %s: %s: %s" % (self.part, what, str(seen)[:1200]), flush=True)

    def end(self, more: str = "") -> None:
        seconds = time.monotonic() - self.begun
        print("%s: %d tried, %.0f s%s" % (self.part, self.tried[self.part], seconds, more), flush=True)

    def totals(self) -> int:
        """Prints the last line. Returns the exit status."""
        words = len(self.tried), sum(self.tried.values()), self.surprises
        print("collection: %d parts, %d tried, %d surprises" % words)
        return 1 if self.surprises else 0

    def path(self, *names: str) -> str:
        return os.path.join(self.folder, *names)

    def words(self, catalogue: str, command: str, *words: str) -> List[str]:
        is_given = "--warc" in words or command not in PROGRAM_COMMANDS
        more = [] if is_given else ["--warc", self.warc]
        return [self.script, "-c", self.path(catalogue), command, *more, *words]

    def run(
        self,
        catalogue: str,
        command: str,
        *words: str,
        before: Sequence[str] = (),
        env: Optional[Dict[str, str]] = None,
        seconds: float = MOST_SECONDS,
    ) -> Done[bytes]:
        """Runs a command. One that isn't at its end in time is a surprise, and is ended with all that it started."""
        child = subprocess.Popen(
            [*before, *self.words(catalogue, command, *words)],
            stdin=subprocess.DEVNULL,
            stdout=subprocess.PIPE,
            stderr=subprocess.PIPE,
            env={"PYTHONPATH": PACKAGE, **os.environ, **(env or {})},
            start_new_session=True,
        )
        try:
            out, message = child.communicate(timeout=seconds)
        except subprocess.TimeoutExpired:
            os.killpg(child.pid, signal.SIGKILL)
            out, message = child.communicate()
            self.judge(False, "%s isn't at its end after %.0f s" % (command, seconds), message)
            return Done(child.args, 124, out, message)
        self.judge(b"Traceback" not in message, "%s ends in a traceback" % command, message[-600:])
        return Done(child.args, child.returncode, out, message)

    def base(self, catalogue: str) -> sqlite3.Connection:
        return sqlite3.connect(self.path(catalogue, "catalogue.sqlite"), timeout=60)

    def ask(self, catalogue: str, query: str, *values: object) -> List[Tuple[object, ...]]:
        base = self.base(catalogue)
        try:
            return base.execute(query, values).fetchall()
        finally:
            base.close()

    def count(self, catalogue: str, table: str) -> int:
        return int(str(self.ask(catalogue, "SELECT count(*) FROM " + table)[0][0]))

    def states(self, catalogue: str) -> Dict[str, str]:
        """The state of each file, by its name."""
        rows = self.ask(catalogue, "SELECT path, state FROM files")
        return {os.path.basename(os.fsdecode(path)): str(state) for path, state in rows}  # type: ignore[arg-type]

    def detail(self, catalogue: str) -> str:
        """What is said of the files."""
        return " ".join(str(row[0]) for row in self.ask(catalogue, "SELECT detail FROM files ORDER BY path"))


def path_of(stored: object) -> bytes:
    """A path that the catalogue keeps: text, or bytes that aren't UTF-8."""
    return stored if isinstance(stored, bytes) else str(stored).encode("utf-8")


def contents(trial: Trial, catalogue: str) -> Dict[str, Set[Tuple[object, ...]]]:
    """All that a catalogue holds of its files, by their paths and without the runs."""
    queries = {table: "SELECT path, %s.* FROM %s JOIN files USING (file)" % (table, table) for table in TABLES}
    found = {table: {(row[0], *row[2:]) for row in trial.ask(catalogue, query)} for table, query in queries.items()}
    about = "path, state, detail, size, modified, changed, inode, records"
    found["files"] = set(trial.ask(catalogue, "SELECT %s FROM files" % about))
    about = "readings.size, readings.modified, readings.changed, readings.inode, readings.records, good, unchecked, bad"
    about += ", payloads_good, payloads_unchecked, payloads_bad"
    found["readings"] = set(trial.ask(catalogue, "SELECT path, %s FROM readings JOIN files USING (file)" % about))
    return found


def to_read(done: Done[bytes]) -> Optional[int]:
    """How many files a run was to read, by its own line."""
    for line in done.stderr.decode("utf-8", "replace").splitlines():
        if line.endswith(" to read"):
            return int(line.split()[-3])
    return None


def running_with(word: str) -> List[int]:
    """The processes with a word in their command line, other than this one."""
    return [number for number, line in command_lines() if word.encode() in line and number != os.getpid()]


def command_lines() -> Iterator[Tuple[int, bytes]]:
    for name in os.listdir("/proc"):
        if name.isdigit():
            try:
                with open("/proc/%s/cmdline" % name, "rb") as file:
                    yield int(name), file.read()
            except OSError:
                continue
