#!/usr/bin/env python3
"""Times `fixity` and `fixity --payload` over crawls whose heads state digests by each algorithm, beside the tool that
hashes the whole file.

Usage: digests.py PROGRAM FOLDER

Each crawl has 0.25 GB of HTTP responses of 10 kB and more, with digests of block and payload in the encoding that is
common for the algorithm. They are made in FOLDER and removed one by one. All blocks and payloads have to be good. The
program and the tool (`md5sum`, `sha1sum` and so on) run three times by turns, and the least processor time of each
counts. Prints a table in Markdown.
"""
from __future__ import annotations

import base64
import hashlib
import os
import random
import subprocess
import sys

from shared import made_on, put_table, run

RUNS = 3
SIZE = 256 << 20
SIZES = (10_000, 30_000, 80_000)
HEAD = (
    "WARC/1.1\r\nWARC-Type: response\r\nWARC-Record-ID: <urn:uuid:00000000-0000-4000-8000-{0:012x}>\r\n"
    "WARC-Date: 2020-01-01T00:00:00Z\r\nWARC-Target-URI: http://a.example/{0}\r\n"
    "Content-Type: application/http; msgtype=response\r\nWARC-Block-Digest: {1}\r\nWARC-Payload-Digest: {2}\r\n"
    "Content-Length: {3}\r\n\r\n"
)
HTTP = b"HTTP/1.1 200 OK\r\nContent-Type: text/plain\r\n\r\n"
FIXITY = (["fixity"], ["fixity", "--payload"])
ALGORITHMS = ("md5", "sha1", "sha256", "sha384", "sha512")


def stated(algorithm: str, block: bytes) -> str:
    """The digest of a block as crawlers write it: SHA-1 in base32, others in hexadecimal."""
    digest = hashlib.new(algorithm, block).digest()
    return f"{algorithm}:{base64.b32encode(digest).decode() if algorithm == 'sha1' else digest.hex()}"


def make(path: str, algorithm: str) -> int:
    """Makes a crawl, and answers how many records it has."""
    chance, number, size = random.Random(1), 0, 0
    pool = chance.randbytes(1 << 20)
    with open(path, "wb") as out:
        while size < SIZE:
            length = chance.choice(SIZES)
            start = chance.randrange(len(pool) - length)
            body = pool[start : start + length]
            digests = stated(algorithm, HTTP + body), stated(algorithm, body)
            head = HEAD.format(number, *digests, len(HTTP) + length).encode("ascii")
            text = head + HTTP + body + b"\r\n\r\n"
            out.write(text)
            number, size = number + 1, size + len(text)
    return number


def times(program: str, path: str, algorithm: str) -> list[str]:
    """A row of the table."""
    count = make(path, algorithm)
    for words in FIXITY:
        told = subprocess.run([program, *words, path], check=False, capture_output=True)
        if told.returncode or told.stdout != b"records %d good %d bad 0 unchecked 0\n" % (count, count):
            sys.exit(f"digests.py: {algorithm}: {told.stdout[-200:]!r}")
    commands = (*([program, *words, path] for words in FIXITY), [f"{algorithm}sum", path])
    turns = [[run(words, (0,)).processor for words in commands] for _ in range(RUNS)]
    blocks, payloads, other = (min(each) for each in zip(*turns))
    os.unlink(path)
    cells = [f"{seconds:.2f} s" for seconds in (blocks, payloads, other)]
    return [algorithm, *cells, f"{blocks / other:.1f}", f"{payloads / other:.1f}"]


def main() -> None:
    program, folder = sys.argv[1:]
    os.makedirs(folder, exist_ok=True)
    rows = [times(program, f"{folder}/{algorithm}.warc", algorithm) for algorithm in ALGORITHMS]
    print(f"{made_on(program)}\n")
    put_table(
        ["Digests", "`fixity`", "`fixity --payload`", "the tool, over the file", "Ratio", "with `--payload`"], rows
    )


main()
