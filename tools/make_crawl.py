#!/usr/bin/env python3
"""Makes examples/crawl.warc: two crawls by wget of a site of three pages, which this script serves itself.

Usage: make_crawl.py ARCHIVE

The front page differs between the crawls; the image doesn't, so the second crawl stores a revisit of it; the third page
is sent in chunks. Records get new dates and ids each time, so the archive is kept and not made again by any target.
"""
from __future__ import annotations

import http.server
import struct
import subprocess
import sys
import tempfile
import threading
import time
import zlib
from collections.abc import Sequence

PORT = 8765
SITE = f"http://127.0.0.1:{PORT}/"
FRONT = '<title>Weather</title>\n<p>{}.</p>\n<img src="sky.png" alt="sky">\n<a href="week">The week</a>\n'
WEEK = ["<title>The week</title>\n", "<p>Monday: snow.</p>\n", "<p>Tuesday: sun.</p>\n"]
crawl = {"weather": "Snow"}


def chunk(kind: bytes, data: bytes) -> bytes:
    """A chunk of a PNG image."""
    return struct.pack(">I", len(data)) + kind + data + struct.pack(">I", zlib.crc32(kind + data))


def image() -> bytes:
    """An image of 16 by 16 blue points."""
    rows = zlib.compress((b"\0" + bytes([70, 130, 200]) * 16) * 16)
    return (
        b"\x89PNG\r\n\x1a\n"
        + chunk(b"IHDR", struct.pack(">IIBBBBB", 16, 16, 8, 2, 0, 0, 0))
        + chunk(b"IDAT", rows)
        + chunk(b"IEND", b"")
    )


class Server(http.server.BaseHTTPRequestHandler):
    """Serves the front page, the image and the page in chunks."""

    protocol_version = "HTTP/1.1"

    def answer(self, kind: str, body: bytes) -> None:
        self.send_response(200)
        self.send_header("Content-Type", kind)
        self.send_header("Content-Length", str(len(body)))
        self.end_headers()
        self.wfile.write(body)

    def answer_in_chunks(self, kind: str, pieces: Sequence[str]) -> None:
        self.send_response(200)
        self.send_header("Content-Type", kind)
        self.send_header("Transfer-Encoding", "chunked")
        self.end_headers()
        for piece in [*pieces, ""]:
            self.wfile.write(f"{len(piece):x}\r\n{piece}\r\n".encode())

    def do_GET(self) -> None:
        if self.path == "/":
            self.answer("text/html", FRONT.format(crawl["weather"]).encode())
        elif self.path == "/sky.png":
            self.answer("image/png", image())
        elif self.path == "/week":
            self.answer_in_chunks("text/html", WEEK)
        else:
            self.send_error(404)

    def log_message(self, *words: object) -> None:
        """Says nothing of each request."""


def fetch(folder: str, name: str, more: Sequence[str]) -> bytes:
    """One crawl by wget, to NAME.warc in the folder."""
    words = ["wget", "-q", "-r", "-p", "-e", "robots=off", f"--warc-file={name}", "--no-warc-compression", "--warc-cdx"]
    subprocess.run([*words, "--no-warc-keep-log", *more, SITE], cwd=folder, check=True)
    with open(f"{folder}/{name}.warc", "rb") as archive:
        return archive.read()


def main() -> None:
    server = http.server.ThreadingHTTPServer(("127.0.0.1", PORT), Server)
    threading.Thread(target=server.serve_forever, daemon=True).start()
    with tempfile.TemporaryDirectory() as folder:
        first = fetch(folder, "first", [])
        time.sleep(60)
        crawl["weather"] = "Sun"
        second = fetch(folder, "second", ["--warc-dedup=first.cdx"])
    with open(sys.argv[1], "wb") as archive:
        archive.write(first + second)


main()
