"""What the scripts that time share: programs that are proved and built, archives of resources, and runs of commands."""
from __future__ import annotations

import base64
import hashlib
import os
import random
import re
import subprocess
import sys
import time
from collections.abc import Iterable, Sequence
from typing import NamedTuple

TOP = os.path.dirname(os.path.dirname(os.path.abspath(__file__)))
PROGRAMS = os.path.join(TOP, "bench", "crates")
# The identifiers of a crawl's requests begin here.
REQUESTS = 1 << 24


def build(repository: str, name: str, folder: str) -> str:
    """Proves and builds a program of bench/crates/ over the crates of a repository, which its own tools do; gives the
    path of the program in the folder."""
    words = [sys.executable, f"{repository}/tools/proofs.py", "build", PROGRAMS, name, folder]
    if subprocess.run(words, check=False).returncode:
        sys.exit(f"{name} isn't built")
    return os.path.join(folder, name)


def head(number: int, length: int, digest: str | None, has_type: bool = True) -> bytes:
    """The head of record `number`, as common crawlers write it; without a digest where that is None."""
    type_line = "Content-Type: text/plain\r\n" if has_type else ""
    digest_line = f"WARC-Block-Digest: sha1:{digest}\r\n" if digest else ""
    return (
        "WARC/1.1\r\nWARC-Type: resource\r\n"
        f"WARC-Record-ID: <urn:uuid:00000000-0000-4000-8000-{number:012d}>\r\n"
        "WARC-Date: 2020-01-01T00:00:00Z\r\n"
        f"WARC-Target-URI: http://a.example/{number}\r\n"
        f"{digest_line}"
        f"{type_line}Content-Length: {length}\r\n\r\n"
    ).encode()


def make(path: str, count: int, length: int, has_digests: bool = True, typed_each: int = 1) -> None:
    """Makes an archive of `count` records with blocks of one length, unless it is there. One in `typed_each` has a
    Content-Type."""
    if os.path.exists(path):
        return
    block = (b"0123456789abcdef" * (length // 16 + 1))[:length]
    digest = base64.b32encode(hashlib.sha1(block).digest()).decode() if has_digests else None
    with open(path + ".part", "wb", buffering=1 << 20) as out:
        for number in range(count):
            out.write(head(number, length, digest, number % typed_each == 0))
            out.write(block)
            out.write(b"\r\n\r\n")
    os.rename(path + ".part", path)


def crawl_record(kind: str, number: int, target: str, block: bytes, more: Sequence[tuple[str, str]] = ()) -> bytes:
    """A record of a crawl: number sixteen million and up are requests, so that no identifier comes twice."""
    digest = base64.b32encode(hashlib.sha1(block).digest()).decode()
    fields = [
        ("WARC-Type", kind),
        ("WARC-Record-ID", f"<urn:uuid:00000000-0000-4000-8000-{number:012x}>"),
        ("WARC-Target-URI", target),
        ("WARC-Date", time.strftime("%Y-%m-%dT%H:%M:%SZ", time.gmtime(1_600_000_000 + number % REQUESTS))),
        ("WARC-IP-Address", f"192.0.2.{number % 250}"),
        ("WARC-Block-Digest", f"sha1:{digest}"),
        *more,
        ("Content-Type", f"application/http; msgtype={'request' if kind == 'request' else 'response'}"),
        ("Content-Length", str(len(block))),
    ]
    lines = "".join(f"{name}: {value}\r\n" for name, value in fields)
    return f"WARC/1.1\r\n{lines}\r\n".encode() + block + b"\r\n\r\n"


def crawl_target(number: int) -> str:
    """The URI of a page of the crawl."""
    return f"https://www.site{number % 300:03}.example/articles/{number % 17}/page-{number}.html?lang=en"


def make_crawl(path: str, count: int) -> None:
    """Makes an archive as a crawler writes it, unless it is there: `count` visits with a request each. A visit is a
    page of 20,000 to 60,000 random bytes, or, each seventh, a revisit of an earlier page."""
    if os.path.exists(path):
        return
    numbers = random.Random(7)
    noise = numbers.randbytes(120_000)
    response = "HTTP/1.1 200 OK\r\nContent-Type: text/html; charset=utf-8\r\nVary: Accept-Encoding\r\n"
    response += f"X: {'p' * 500}\r\n"
    pages: list[tuple[str, str]] = []
    with open(path + ".part", "wb", buffering=1 << 20) as out:
        for number in range(count):
            target = crawl_target(number)
            if number % 7 == 6:
                target, digest = numbers.choice(pages)
                more = [
                    ("WARC-Profile", "http://netpreserve.org/warc/1.1/revisit/identical-payload-digest"),
                    ("WARC-Refers-To-Target-URI", target),
                    ("WARC-Payload-Digest", digest),
                ]
                out.write(crawl_record("revisit", number, target, f"{response}\r\n".encode(), more))
            else:
                begin = numbers.randrange(60_000)
                body = noise[begin : begin + numbers.randrange(20_000, 60_000)]
                digest = "sha1:" + base64.b32encode(hashlib.sha1(body).digest()).decode()
                pages.append((target, digest))
                block = f"{response}Content-Length: {len(body)}\r\n\r\n".encode() + body
                out.write(crawl_record("response", number, target, block, [("WARC-Payload-Digest", digest)]))
            request = f"GET {target} HTTP/1.1\r\nUser-Agent: crawler\r\nAccept: */*\r\n\r\n".encode()
            out.write(crawl_record("request", REQUESTS + number, target, request))
    os.rename(path + ".part", path)


class Usage(NamedTuple):
    """What a run took: seconds of the processor, for the user and by the system; seconds in all; peak kilobytes."""

    processor: float
    seconds: float
    peak: int


def run(words: Sequence[str], statuses: Sequence[int] = (0,)) -> Usage:
    """Runs a command; what it writes and says is thrown away. Another status than these ends the measuring."""
    begin = time.perf_counter()
    child = os.fork()
    if child == 0:
        null = os.open(os.devnull, os.O_WRONLY)
        os.dup2(null, 1)
        os.dup2(null, 2)
        os.execvp(words[0], list(words))
    _, status, usage = os.wait4(child, 0)
    seconds = time.perf_counter() - begin
    if os.waitstatus_to_exitcode(status) not in statuses:
        sys.exit(f"{' '.join(words)}: status {os.waitstatus_to_exitcode(status)}")
    return Usage(usage.ru_utime + usage.ru_stime, seconds, usage.ru_maxrss)


def put_table(headings: Sequence[str], rows: Iterable[Sequence[str]]) -> None:
    """Prints a table in Markdown."""
    print(f"| {' | '.join(headings)} |\n{'|---' * len(headings)}|")
    for row in rows:
        print(f"| {' | '.join(row)} |", flush=True)


def commit() -> str:
    """The commit on which a script runs, and whether files differ from it."""
    words = ["git", "-C", TOP, "describe", "--always", "--dirty= with changes", "--abbrev=8", "--exclude=*"]
    try:
        return subprocess.run(words, capture_output=True, text=True, check=True).stdout.strip()
    except (OSError, subprocess.CalledProcessError):
        return "unknown"


def made_on(program: str) -> str:
    """Of what, when and where figures are: the commit, the program, the machine and what else it does."""
    with open(program, "rb") as file:
        digest = hashlib.sha256(file.read()).hexdigest()
    with open("/proc/cpuinfo", encoding="utf-8") as text:
        model = re.search(r"model name\s*: (.*)", text.read())
    return (
        f"Commit {commit()}, a program whose SHA-256 begins with {digest[:16]}; {time.strftime('%Y-%m-%d %H:%M %Z')};"
        f" {os.cpu_count()} cores, {model[1] if model else 'unknown'}; load {os.getloadavg()[0]:.1f}"
    )
