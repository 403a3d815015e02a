#!/usr/bin/env python3
"""Times `warc_frame::Decoder` alone, on records that are heads alone.

Usage: decoder.py REPOSITORY FOLDER

It proves and builds bench/crates/bench_decoder. The program reads each archive twenty times; the least of seven runs
counts, reading the archive from the disk once included. Printed per archive: bytes and heads a second.
"""
import os
import subprocess
import sys
import time

from shared import build

RUNS = 7
ROUNDS = 20


def resource(number: int) -> str:
    """A head of seven fields."""
    return (
        "WARC/1.1\r\nWARC-Type: resource\r\n"
        f"WARC-Record-ID: <urn:uuid:00000000-0000-4000-8000-{number:012d}>\r\n"
        "WARC-Date: 2020-01-01T00:00:00Z\r\n"
        f"WARC-Target-URI: http://a.example/page/{number:08d}\r\n"
        "Content-Type: text/plain\r\nContent-Length: 0\r\n\r\n\r\n\r\n"
    )


def response(number: int) -> str:
    """A head of eleven fields, as common crawlers write it."""
    return (
        "WARC/1.1\r\nWARC-Type: response\r\n"
        f"WARC-Record-ID: <urn:uuid:00000000-0000-4000-8000-{number:012d}>\r\n"
        f"WARC-Warcinfo-ID: <urn:uuid:11111111-0000-4000-8000-{number:012d}>\r\n"
        f"WARC-Concurrent-To: <urn:uuid:22222222-0000-4000-8000-{number:012d}>\r\n"
        f"WARC-Target-URI: http://www.example.org/archive/2020/pages/page-{number:08d}.html\r\n"
        "WARC-Date: 2020-01-01T00:00:00Z\r\nWARC-IP-Address: 192.0.2.17\r\n"
        "WARC-Block-Digest: sha1:3I42H3S6NNFQ2MSVX7XZKYAYSCX5QBYJ\r\n"
        "WARC-Payload-Digest: sha1:3I42H3S6NNFQ2MSVX7XZKYAYSCX5QBYJ\r\n"
        "Content-Type: application/http;msgtype=response\r\nContent-Length: 0\r\n\r\n\r\n\r\n"
    )


def main() -> None:
    repository, folder = sys.argv[1:]
    program = build(repository, "bench_decoder", folder)
    for record, count in ((resource, 100_000), (response, 50_000)):
        path = os.path.join(folder, f"heads_{record.__name__}.warc")
        with open(path, "w") as out:
            out.writelines(map(record, range(count)))
        seconds = 1e9
        for _ in range(RUNS):
            with open(path) as archive:
                begin = time.perf_counter()
                subprocess.run([program], stdin=archive, check=True)
                seconds = min(seconds, time.perf_counter() - begin)
        size = os.path.getsize(path)
        print(
            f"{record.__name__}: heads of {size // count} bytes: "
            f"{ROUNDS * size / seconds / 1e6:.0f} MB/s, {ROUNDS * count / seconds:.0f} heads/s"
        )


main()
