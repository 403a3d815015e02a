"""A small site, crawled by wget over loopback: pages with styles, pictures and links, coded pages, an old charset."""

from __future__ import annotations

import functools
import glob
import gzip
import http.server
import os
import struct
import subprocess
import tempfile
import threading
import zlib
from typing import Any

PAGES = 60
STYLE = """@import url("more.css");
/* The river stations. This sheet was once between <style> and </style>. */
body { font-family: Georgia, serif; max-width: 44em; margin: 2em auto; color: #28303a; \
background: #fdfcf8 url(paper.png); }
h1 { color: #2b5d7e; border-bottom: 2px solid #c9d8e2; padding-bottom: 0.2em; }
nav { background: #e8eff4; padding: 0.4em 1em; border-radius: 4px; }
nav a { margin-right: 1em; color: #2b5d7e; }
figure { margin: 1em 0; } figcaption { color: #777; font-size: 0.9em; }
"""
MORE = (
    "p { line-height: 1.55; } blockquote { border-left: 4px solid #d9b36c; margin-left: 0; padding-left: 1em; "
    "color: #555; }\n"
)
WORDS = (
    "The gauge at the bridge was read each morning at seven. In the wet years the river stood above the second mark "
    "for weeks, and the ferry was drawn up on the grass. "
)


def chunk(kind: bytes, data: bytes) -> bytes:
    return struct.pack(">I", len(data)) + kind + data + struct.pack(">I", zlib.crc32(kind + data))


@functools.lru_cache(maxsize=None)
def picture(number: int, wide: int = 200, high: int = 100) -> bytes:
    """A PNG of hills under a sky, other ones for another number."""
    rows = []
    for y in range(high):
        row = bytearray(b"\0")
        for x in range(wide):
            hill = high * (0.55 + 0.18 * ((x * (number % 7 + 1) // 9) % 40 / 40) + 0.1 * ((x + number * 31) % 60 / 60))
            shade = (150 + y // 2, 185 + y // 3, 215) if y < hill else (70 + (number * 13) % 60, 110 + y // 4, 80)
            row += bytes(min(255, int(it)) for it in shade)
        rows.append(bytes(row))
    return (
        b"\x89PNG\r\n\x1a\n"
        + chunk(b"IHDR", struct.pack(">IIBBBBB", wide, high, 8, 2, 0, 0, 0))
        + chunk(b"IDAT", zlib.compress(b"".join(rows), 6))
        + chunk(b"IEND", b"")
    )


def paper() -> bytes:
    """A PNG of one light point."""
    return (
        b"\x89PNG\r\n\x1a\n"
        + chunk(b"IHDR", struct.pack(">IIBBBBB", 1, 1, 8, 2, 0, 0, 0))
        + chunk(b"IDAT", zlib.compress(bytes([0, 253, 252, 246])))
        + chunk(b"IEND", b"")
    )


def page(number: int, title: str = "Station") -> str:
    links = "".join(f'<a href="/page/{it}">{it}</a>' for it in range(max(1, number - 2), min(PAGES, number + 3)))
    return f"""<!doctype html><html lang="en"><head><meta charset="utf-8"><title>{title} {number}</title>
<link rel="stylesheet" href="/style.css"></head><body><nav><a href="/">All stations</a>{links}</nav>
<h1>River station {number}</h1><p>{WORDS * 3}</p>
<figure><img src="/picture/{number}.png" alt="The valley at station {number}">\
<figcaption>The valley at station {number}</figcaption></figure>
<blockquote>{WORDS}</blockquote><p>{WORDS * (number % 5 + 1)}</p><img src="/gone/{number}.png" alt="lost"></body>\
</html>"""


class Server(http.server.BaseHTTPRequestHandler):
    protocol_version = "HTTP/1.1"

    def answer(self, kind: str, body: bytes, *fields: Any, status: int = 200) -> None:
        self.send_response(status)
        for name, value in (("Content-Type", kind), ("Content-Length", str(len(body))), *fields):
            self.send_header(name, value)
        self.end_headers()
        self.wfile.write(body)

    def do_GET(self) -> None:
        name, _, rest = self.path.lstrip("/").partition("/")
        if name == "":
            items = "".join(f'<li><a href="/page/{it}">Station {it}</a></li>' for it in range(1, PAGES + 1))
            extra = (
                '<li><a href="/chunked">chunked</a></li><li><a href="/packed">packed</a></li><li><a href="/old">old</a>'
                '</li><li><a href="/moved">moved</a></li><li><a href="/empty">empty</a></li><li>'
                '<a href="/notes.txt">notes</a></li>'
            )
            self.answer(
                "text/html; charset=utf-8",
                '<!doctype html><title>River stations</title><link rel="stylesheet" href="/style.css">'
                f"<h1>River stations</h1><ul>{items}{extra}</ul>".encode(),
            )
        elif name == "page" and rest.isdigit():
            self.answer("text/html", page(int(rest)).encode())
        elif name == "picture":
            self.answer("image/png", picture(int(rest.split(".")[0])))
        elif name == "paper.png":
            self.answer("image/png", paper())
        elif name == "style.css":
            self.answer("text/css", STYLE.encode())
        elif name == "more.css":
            self.answer("text/css", MORE.encode())
        elif name == "packed":
            self.answer("text/html", gzip.compress(page(7, "Packed").encode()), ("Content-Encoding", "gzip"))
        elif name == "old":
            self.answer(
                "text/html; charset=iso-8859-1",
                "<title>Ältere Seite</title><p>Größe: 3 × 4 m, naïve façade".encode("latin-1"),
            )
        elif name == "notes.txt":
            self.answer("text/plain; charset=utf-8", (WORDS * 5).encode())
        elif name == "moved":
            self.answer("text/html", b"", ("Location", "/page/1"), status=302)
        elif name == "empty":
            self.answer("text/html", b"")
        elif name == "chunked":
            self.send_response(200)
            self.send_header("Content-Type", "text/html")
            self.send_header("Transfer-Encoding", "chunked")
            self.end_headers()
            text = page(3, "Chunked").encode()
            for piece in [text[at : at + 700] for at in range(0, len(text), 700)] + [b""]:
                self.wfile.write(f"{len(piece):x}\r\n".encode() + piece + b"\r\n")
        else:
            self.answer("text/plain", b"not here", status=404)

    def log_message(self, *words: Any) -> None:
        """Says nothing of each request."""


def crawl(path: str) -> str:
    """Crawls the site twice, the second time with revisits of what didn't change, into one archive."""
    with tempfile.TemporaryDirectory() as folder, open(path, "wb") as archive:
        site, parts = crawl_into(folder, "--no-warc-compression")
        for part in parts:
            with open(part, "rb") as file:
                archive.write(file.read())
    return site


def crawl_into(folder: str, *more: str) -> tuple[str, list[str]]:
    """The same as two archives in a folder, written by wget's defaults, or with more options. Gives their paths."""
    server = http.server.ThreadingHTTPServer(("127.0.0.1", 0), Server)
    threading.Thread(target=server.serve_forever, daemon=True).start()
    site = f"http://127.0.0.1:{server.server_address[1]}/"
    words = [
        "wget",
        "-q",
        "-r",
        "-p",
        "-l",
        "3",
        "-e",
        "robots=off",
        "--header=Accept-Encoding: gzip",
        "--warc-cdx",
        "--no-warc-keep-log",
        *more,
    ]
    for name, dedup in (("first", ()), ("second", ("--warc-dedup=first.cdx",))):
        subprocess.run([*words, f"--warc-file={name}", *dedup, site], cwd=folder, check=False)
    server.shutdown()
    return site, [glob.glob(f"{folder}/{name}.warc*")[0] for name in ("first", "second")]


if __name__ == "__main__":
    import sys

    print(crawl(sys.argv[1]))
