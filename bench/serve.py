#!/usr/bin/env python3
"""Measures `warc-collection serve` under load, by Debian's wrk.

Usage: serve.py WARC [REQUESTS]

20 files, one of them compressed, have 500 captures each of 10,000 bytes, in a catalogue of 1,000,000 captures. After a
pass over all of them, wrk asks for captures that are drawn evenly, 100 a second for a minute; then so again beside
2,000 idle connections and 200 readers of a body of 8 MB who take a little of it each second; then, as fast as it can,
until REQUESTS (100,000 if left out) were answered. Prints how long the first answer of each file takes, the latencies,
and the memory of the server before and after. Before that, how long first answers take of a .warc.gz of 1 GB with a
member for each record, by members and by the whole file, and what a run over it takes. PYTHONPATH has to hold the
package that `make python` makes.
"""
from __future__ import annotations

import contextlib
import gzip
import http.client
import os
import random
import re
import resource
import socket
import sqlite3
import statistics
import subprocess
import sys
import tempfile
import threading
import time
from collections.abc import Iterator

from shared import crawl_record

TOP = os.path.dirname(os.path.dirname(os.path.abspath(__file__)))
FILES, EACH, SIZE = 20, 500, 10_000
CATALOGUED = 1_000_000
CONNECTIONS, RATE = 10, 100
SECONDS = 60
IDLE, SLOW, LARGE = 2_000, 200, 8_000_000
# Connections of each address, and how many bytes a slow reader takes in a second.
OF_ADDRESS, TAKEN = 40, 2_000
# The captures of the file with members, how many of them are asked for, and the bytes of their bodies.
PAGES, ASKED, LEAST_PAGE, MOST_PAGE = 25_000, 300, 20_000, 60_000
# Less than the time after which the server closes an idle connection.
IDLE_SECONDS = 30
LIMITS = ["--archives", "32", "--unpacked", "1G"]
HEAD = b"HTTP/1.1 200 OK\r\nContent-Type: text/plain\r\n\r\n"
# Captures are one second apart from here on, as `crawl_record` has them.
BEGINNING = 1_600_000_000
SCRIPT = """
local files, each, pause = %d, %d, %d
function setup(thread) counter = (counter or 0) + 1; thread:set("seed", counter) end
function init() math.randomseed(seed * 7919 + %d) end
function request()
  local number = math.random(0, files * each - 1)
  return wrk.format("GET", os.date("!/memento/%%Y%%m%%d%%H%%M%%S/http://s.example/", %d + number) .. number)
end
if pause > 0 then function delay() return pause end end
"""


def block(number: int) -> bytes:
    """An HTTP response with a body of the size that all have."""
    return HEAD + f"{number} ".encode().ljust(SIZE, b"x")


def path_of(number: int) -> str:
    """The path of a capture."""
    digits = time.strftime("%Y%m%d%H%M%S", time.gmtime(BEGINNING + number))
    return f"/memento/{digits}/http://s.example/{number}"


def write_files(folder: str) -> None:
    """The files, the last of them compressed."""
    os.makedirs(folder)
    for file in range(FILES):
        numbers = range(file * EACH, (file + 1) * EACH)
        data = b"".join(crawl_record("response", it, f"http://s.example/{it}", block(it)) for it in numbers)
        is_packed = file == FILES - 1
        with open(f"{folder}/{file}.warc" + ".gz" * is_packed, "wb") as out:
            out.write(gzip.compress(data) if is_packed else data)


def large_path(number: int) -> str:
    """The path of a large capture, of which there is one in a file."""
    digits = time.strftime("%Y%m%d%H%M%S", time.gmtime(BEGINNING + FILES * EACH + number))
    return f"/memento/{digits}/http://s.example/large{number}"


def write_large(folder: str) -> None:
    """Files of a large capture each."""
    for number in range(FILES):
        data = HEAD + b"y" * LARGE
        with open(f"{folder}/large{number}.warc", "wb") as out:
            out.write(crawl_record("response", FILES * EACH + number, f"http://s.example/large{number}", data))


def page_of(number: int) -> bytes:
    """A body of random bytes, which no gzip makes smaller."""
    numbers = random.Random(number)
    return numbers.randbytes(numbers.randrange(LEAST_PAGE, MOST_PAGE))


def write_members(path: str) -> None:
    """A file of 1 GB, with a member of gzip for each record."""
    with open(path, "wb") as out:
        for number in range(PAGES):
            data = crawl_record("response", number, f"http://s.example/{number}", HEAD + page_of(number))
            out.write(gzip.compress(data, 1))


def first_bodies(folder: str, warc: str, words: list[str]) -> None:
    """The first answers of a file with members: nothing of it is open or in memory of the server."""
    disk, program = f"{folder}/members", words[0]
    os.makedirs(disk)
    write_members(f"{disk}/a.warc.gz")
    begun = time.perf_counter()
    subprocess.run([program, "-c", f"{disk}/c", "run", "--quiet", "--warc", warc, disk], check=True)
    seconds, size = time.perf_counter() - begun, os.path.getsize(f"{disk}/a.warc.gz")
    print(f"a .warc.gz of {size:,} bytes and {PAGES:,} records: read in {seconds:.1f} s", flush=True)
    asked: list[tuple[list[str], int]] = [([], ASKED), (["--whole"], 1)]
    for ways, count in asked:
        listen = [program, "-c", f"{disk}/c", "serve", "--warc", warc, "--listen", "127.0.0.1:0", *ways]
        with started(listen) as (_, port):
            drawn = random.Random(7).sample(range(PAGES), count)
            took = sorted(timed(port, path_of(number), len(page_of(number))) for number in drawn)
        middle, most = statistics.median(took), took[-1 - count // 100]
        print(
            f"first body, {' '.join(ways) or 'by members'}: median {middle:.1f} ms, 99 of 100 {most:.1f} ms", flush=True
        )


def other_captures() -> Iterator[tuple[object, ...]]:
    """Rows of captures in a file that nobody asks for."""
    date, instant = "2020-01-01T00:00:00Z", "2020-01-01T00:00:00.000000000Z"
    for number in range(CATALOGUED - FILES * EACH):
        target = f"http://o{number % 1000}.example/{number}"
        yield 1000, number, date, instant, "response", number, 200, "text/html", SIZE, None, target


def fill(catalogue: str) -> None:
    """Adds captures up to the number that a catalogue is to have."""
    base = sqlite3.connect(f"{catalogue}/catalogue.sqlite")
    base.execute("INSERT INTO files (file, path, state, detail) VALUES (1000, '/nowhere/other.warc', 'good', '')")
    base.executemany("INSERT INTO captures VALUES (?, ?, ?, ?, ?, ?, ?, ?, ?, ?, ?)", other_captures())
    base.commit()
    base.close()


def timed(port: int, path: str, size: int = SIZE) -> float:
    """How many milliseconds an answer takes. It must be a memento."""
    begun = time.perf_counter()
    connection = http.client.HTTPConnection("127.0.0.1", port, timeout=60)
    connection.request("GET", path)
    reply = connection.getresponse()
    if reply.status != 200 or len(reply.read()) != size:
        sys.exit(f"{path}: {reply.status}")
    connection.close()
    return (time.perf_counter() - begun) * 1000


def load(folder: str, port: int, seconds: int, pause: int) -> tuple[int, str]:
    """Has wrk ask for some seconds, each connection with a pause between two requests. Returns how many were answered,
    and what wrk prints."""
    script = f"{folder}/load.lua"
    with open(script, "w", encoding="ascii") as out:
        out.write(SCRIPT % (FILES, EACH, pause, time.time_ns() % 1_000_000, BEGINNING))
    words = ["wrk", "-t1", f"-c{CONNECTIONS}", f"-d{seconds}s", "--timeout", "30s", "--latency", "-s", script]
    text = subprocess.run([*words, f"http://127.0.0.1:{port}/"], capture_output=True, text=True, check=True).stdout
    found = re.search(r"(\d+) requests in", text)
    if found is None or "Non-2xx" in text or "Socket errors" in text:
        sys.exit(text)
    return int(found[1]), text


class Crowd:
    """Idle connections and slow readers, from many addresses of this machine."""

    def __init__(self, port: int) -> None:
        self.port = port
        self.is_over = threading.Event()
        self.idle = [self.connected(number) for number in range(IDLE)]
        self.slow = [self.connected(IDLE + number) for number in range(SLOW)]
        for number, connection in enumerate(self.slow):
            path = large_path(number % FILES)
            connection.sendall(f"GET {path} HTTP/1.1\r\nHost: 127.0.0.1\r\n\r\n".encode())
        for connection in self.slow:  # all of them have begun
            if not connection.recv(TAKEN).startswith(b"HTTP/1.1 200 "):
                sys.exit("a slow reader has no answer")
        self.thread = threading.Thread(target=self.read, daemon=True)
        self.thread.start()

    def connected(self, number: int) -> socket.socket:
        """A connection from the address that is a number's."""
        connection = socket.socket()
        connection.setsockopt(socket.SOL_SOCKET, socket.SO_RCVBUF, 4096)
        connection.bind((f"127.0.1.{1 + number // OF_ADDRESS}", 0))
        connection.connect(("127.0.0.1", self.port))
        return connection

    def read(self) -> None:
        """Takes a little of each body each second."""
        while not self.is_over.wait(1):
            for connection in self.slow:
                if not connection.recv(TAKEN):
                    sys.exit("a slow reader was left")

    def close(self) -> None:
        """Says whether all are still there, and goes away."""
        self.is_over.set()
        self.thread.join()
        for connection in self.idle:
            connection.setblocking(False)
            try:
                sys.exit(f"an idle connection was closed: {connection.recv(1)!r}")
            except BlockingIOError:
                connection.close()
        for connection in self.slow:
            connection.close()


def beside_a_crowd(folder: str, port: int) -> str:
    """The figures of 100 a second beside idle connections and slow readers."""
    begun = time.perf_counter()
    crowd = Crowd(port)
    print(f"{IDLE} idle connections and {SLOW} slow readers: {time.perf_counter() - begun:.1f} s to connect")
    text = figures(load(folder, port, IDLE_SECONDS, CONNECTIONS * 1000 // RATE)[1])
    crowd.close()
    return text


def figures(text: str) -> str:
    """The latencies and the rate that wrk prints."""
    parts = re.findall(r"^\s*(50|75|90|99)%\s+(\S+)", text, re.MULTILINE)
    rate = re.search(r"Requests/sec:\s+(\S+)", text)
    return ", ".join(f"{part}% {value}" for part, value in parts) + f"; {rate[1] if rate else '?'} requests a second"


def memory(process: int) -> str:
    """The memory of the process that answers, by kind."""
    with open(f"/proc/{process}/task/{process}/children", encoding="ascii") as file:
        child = file.read().split()[0]
    with open(f"/proc/{child}/status", encoding="ascii") as file:
        kinds = re.findall(r"^(RssAnon|RssFile|Threads):\s+(\d+)", file.read(), re.MULTILINE)
    return ", ".join(
        f"{name} {int(value) // 1024} MiB" if name != "Threads" else f"{value} threads" for name, value in kinds
    )


def measure(folder: str, server: subprocess.Popen[bytes], port: int, wanted: int) -> None:
    """All figures."""
    cold = [timed(port, path_of(file * EACH)) for file in range(FILES)]
    print(f"first answer of a file: median {statistics.median(cold[:-1]):.1f} ms, compressed {cold[-1]:.1f} ms")
    warm = [timed(port, path_of(number)) for number in range(FILES * EACH)]
    print(f"one pass, one after another: median {statistics.median(warm):.1f} ms; {memory(server.pid)}", flush=True)
    print("100 a second:", figures(load(folder, port, SECONDS, CONNECTIONS * 1000 // RATE)[1]), flush=True)
    print("100 a second beside them:", beside_a_crowd(folder, port), flush=True)
    answered, text = 0, ""
    while answered < wanted:
        count, text = load(folder, port, 20, 0)
        answered += count
    print("as fast as it can:", figures(text))
    print(f"after {answered} requests more: {memory(server.pid)}")


@contextlib.contextmanager
def started(words: list[str]) -> Iterator[tuple[subprocess.Popen[bytes], int]]:
    """A server, and its port."""
    with subprocess.Popen(words, stderr=subprocess.PIPE) as server:
        try:
            assert server.stderr is not None
            found = re.search(rb":(\d+)/", server.stderr.readline())
            if found is None:
                sys.exit("the server doesn't begin")
            yield server, int(found[1])
        finally:
            server.terminate()


def main() -> None:
    warc = os.path.abspath(sys.argv[1])
    wanted = int((sys.argv[2:] or ["100000"])[0])
    resource.setrlimit(resource.RLIMIT_NOFILE, (IDLE + SLOW + 500, resource.getrlimit(resource.RLIMIT_NOFILE)[1]))
    with tempfile.TemporaryDirectory(prefix="warc-bench-") as folder:
        program, catalogue = f"{folder}/warc-collection", f"{folder}/catalogue"
        subprocess.run([sys.executable, f"{TOP}/tools/make_collection.py", program], check=True)
        write_files(f"{folder}/disk")
        write_large(f"{folder}/disk")
        words = [program, "-c", catalogue]
        subprocess.run([*words, "run", "--quiet", "--warc", warc, f"{folder}/disk"], check=True)
        fill(catalogue)
        first_bodies(folder, warc, words)
        listen = [*words, "serve", "--warc", warc, "--listen", "127.0.0.1:0", *LIMITS]
        with started(listen) as (server, port):
            measure(folder, server, port, wanted)


if __name__ == "__main__":
    main()
