"""What the trials of `warc-collection serve` share: a server in a process of its own, and requests byte by byte."""
from __future__ import annotations

import contextlib
import os
import re
import select
import signal
import socket
import subprocess
import sys
import time
from typing import Callable, Dict, Iterator, List, Optional, Sequence, Tuple

from collection_trial import TOP, Trial
from memento_client import Client

# The Python package with the library in it.
PACKAGE = os.environ.get("ZOGWEDU_PACKAGE", os.path.join(TOP, "out", "python"))
SERVING = re.compile(rb"serving http://([0-9.]+):(\d+)/")
START_SECONDS = 60
HEAD_OF_REPLY = re.compile(rb"HTTP/1\.[01] (\d{3}) [^\r\n]*\r\n((?:[A-Za-z0-9-]+: [\x20-\x7e]*\r\n)*)\r\n", re.ASCII)


def wait_for(is_so: Callable[[], bool], seconds: float = 60) -> bool:
    """Waits until a condition holds. Returns whether it does."""
    end = time.monotonic() + seconds
    while time.monotonic() < end:
        if is_so():
            return True
        time.sleep(0.05)
    return False


def children_of(process: int) -> List[int]:
    """The processes that a process has started."""
    try:
        with open("/proc/%d/task/%d/children" % (process, process), encoding="ascii") as file:
            return [int(word) for word in file.read().split()]
    except OSError:
        return []


class Served:
    """A server that runs, over a catalogue."""

    def __init__(self, child: subprocess.Popen[bytes], log: str) -> None:
        self.child = child
        self.log = log
        self.host, self.port = self.address()
        self.client = Client(self.host, self.port)

    def said(self) -> bytes:
        """What the server has written to standard error."""
        with open(self.log, "rb") as file:
            return file.read()

    def address(self) -> Tuple[str, int]:
        if not wait_for(lambda: self.child.poll() is not None or b"serving" in self.said(), START_SECONDS):
            raise RuntimeError("the server doesn't begin")
        found = SERVING.search(self.said())
        if found is None:
            raise RuntimeError("the server ended: %r" % self.said())
        return found[1].decode(), int(found[2])

    def worker(self) -> int:
        """The process that answers."""
        found = children_of(self.child.pid)
        if not found:
            raise RuntimeError("no process answers: %r" % self.said())
        return found[0]

    def connected(self) -> socket.socket:
        return socket.create_connection((self.host, self.port), timeout=60)

    def slow_reader(self, path: str) -> socket.socket:
        """A connection that asks for a path, and takes little of the answer before it is read."""
        connection = socket.socket()
        connection.setsockopt(socket.SOL_SOCKET, socket.SO_RCVBUF, 4096)
        connection.connect((self.host, self.port))
        connection.sendall(b"GET %s HTTP/1.0\r\n\r\n" % path.encode())
        return connection

    def raw(self, request: bytes) -> bytes:
        """What a server answers to bytes, up to its end."""
        with self.connected() as connection:
            with contextlib.suppress(OSError):
                connection.sendall(request)
            return received(connection)


def received(connection: socket.socket, seconds: float = 60) -> bytes:
    """What comes until the other side closes."""
    data, end = b"", time.monotonic() + seconds
    while time.monotonic() < end:
        if not select.select([connection], [], [], 1)[0]:
            continue
        try:
            piece = connection.recv(1 << 16)
        except OSError:
            return data
        if not piece:
            return data
        data += piece
    return data


def status_in(reply: bytes) -> Optional[int]:
    """The status of an answer whose head is one: each field on a line, of visible characters."""
    found = HEAD_OF_REPLY.match(reply)
    return None if found is None else int(found[1])


def script_words(trial: Trial, script: Optional[str]) -> List[str]:
    """The program, or one that was changed on purpose: a folder."""
    return [trial.script] if script is None else [sys.executable, script]


@contextlib.contextmanager
def served(
    trial: Trial, catalogue: str, *words: str, script: Optional[str] = None, before: Sequence[str] = ()
) -> Iterator[Served]:
    """A server over a catalogue."""
    whole = [*before, *script_words(trial, script), "-c", trial.path(catalogue), "serve", "--listen", "127.0.0.1:0"]
    with started(trial, [*whole, "--warc", trial.warc, *words]) as server:
        yield server


@contextlib.contextmanager
def started(trial: Trial, words: Sequence[str]) -> Iterator[Served]:
    """A server that a command starts. It must end when it is asked to, and have no fault of its own."""
    log = trial.path("log-%d" % time.monotonic_ns())
    env: Dict[str, str] = dict(os.environ, PYTHONPATH=PACKAGE)
    with open(log, "wb") as out:
        child = subprocess.Popen(words, stderr=out, env=env, start_new_session=True)
    try:
        server = Served(child, log)
        yield server
        trial.judge(b"Traceback" not in server.said(), "a traceback", server.said()[-800:])
    finally:
        with contextlib.suppress(ProcessLookupError):
            os.killpg(child.pid, signal.SIGTERM)
        try:
            child.wait(20)
        except subprocess.TimeoutExpired:
            trial.judge(False, "the server doesn't end")
            os.killpg(child.pid, signal.SIGKILL)
            child.wait()
