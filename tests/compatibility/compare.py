#!/usr/bin/env python3
"""Opens files of several programs that write WARC, and compares what comes out with the table of docs/COMPATIBILITY.md.

Usage: compare.py [--write] PROGRAM

wget and bsdtar run here, over a site on loopback; the other files are made by shapes.py. A row names who wrote the
files, how many there are, how many open, and what `check`, `fixity`, `fixity --payload` and `captures` say of them.
--write puts the rows that were found into the page. Needs wget and bsdtar (Debian's libarchive-tools).
"""
from __future__ import annotations

import collections
import dataclasses
import glob
import gzip
import http.server
import os
import re
import subprocess
import sys
import tempfile
import threading
from collections.abc import Callable, Iterator

import shapes

TOP = os.path.dirname(os.path.dirname(os.path.dirname(os.path.abspath(__file__))))
PAGE = f"{TOP}/docs/COMPATIBILITY.md"
TITLES = (
    "Written by",
    "Files",
    "Opened",
    "`check`",
    "`fixity`",
    "with `--payload`",
    "Captures with a body",
    "What to do",
)
HEAD = f"| {' | '.join(TITLES)} |\n{'|---' * len(TITLES)}|\n"
SECONDS = 300
WEEK = (b"<title>The week</title>\n", b"<p>Monday: snow.</p>\n")


@dataclasses.dataclass(frozen=True)
class Writer:
    """Who writes files, how they are written into an empty folder, and what to do with what is found."""

    name: str
    write: Callable[[str, str], None]
    advice: str


class Site(http.server.BaseHTTPRequestHandler):
    """A page with a picture, a page in chunks, a compressed page, and a page that has moved."""

    protocol_version = "HTTP/1.1"

    def send(self, kind: str, body: bytes, coding: str = "") -> None:
        """A response with a body."""
        self.send_response(200)
        self.send_header("Content-Type", kind)
        self.send_header("Content-Length", str(len(body)))
        if coding:
            self.send_header("Content-Encoding", coding)
        self.end_headers()
        self.wfile.write(body)

    def do_GET(self) -> None:
        """Answers by the path."""
        if self.path == "/":
            links = b"".join(b'<a href="%s">.</a>' % it for it in (b"week", b"packed", b"moved", b"gone"))
            self.send("text/html", b'<title>Weather</title>\n<img src="sky.png">\n' + links)
        elif self.path == "/sky.png":
            self.send("image/png", shapes.PICTURE)
        elif self.path == "/packed":
            self.send("text/html", gzip.compress(shapes.PAGE, mtime=0), "gzip")
        elif self.path == "/week":
            self.send_response(200)
            self.send_header("Content-Type", "text/html")
            self.send_header("Transfer-Encoding", "chunked")
            self.end_headers()
            for piece in (*WEEK, b""):
                self.wfile.write(b"%x\r\n%s\r\n" % (len(piece), piece))
        elif self.path == "/moved":
            self.send_response(302)
            self.send_header("Location", "/")
            self.send_header("Content-Length", "0")
            self.end_headers()
        else:
            self.send_error(404)

    def log_message(self, *_words: object) -> None:
        """Says nothing."""


def crawl(folder: str, site: str, *words: str) -> None:
    """A crawl of the site by wget, in a folder."""
    command = ["wget", "--quiet", "--recursive", "--page-requisites", "--tries=1", *words, site]
    done = subprocess.run(command, cwd=folder, timeout=SECONDS, check=False)
    if done.returncode not in (0, 8):  # 8: the site answered with an error, as it does for one page
        sys.exit(f"{' '.join(command)} ended with {done.returncode}")


def by_wget(folder: str, site: str) -> None:
    """A crawl in one file, compressed, and in files of 2 KB."""
    crawl(folder, site, "--warc-file=one", "--no-warc-compression")
    crawl(folder, site, "--warc-file=packed")
    crawl(folder, site, "--warc-file=small", "--warc-max-size=2K", "--no-warc-compression")


def by_wget_again(folder: str, site: str) -> None:
    """A second crawl that stores what hasn't changed as revisits: alone, and after the first one."""
    crawl(folder, site, "--warc-file=one", "--no-warc-compression", "--warc-cdx")
    crawl(folder, site, "--warc-file=two", "--no-warc-compression", "--warc-dedup=one.cdx")
    with open(f"{folder}/both.warc", "wb") as out:
        for name in ("one.warc", "two.warc"):
            with open(f"{folder}/{name}", "rb") as file:
                out.write(file.read())
    os.remove(f"{folder}/one.warc")


def by_archivebox(folder: str, site: str) -> None:
    """The command line by which ArchiveBox calls wget."""
    words = ["--adjust-extension", "--convert-links", "--force-directories", "--backup-converted", "--span-hosts"]
    words += ["--no-parent", "-e", "robots=off", "--restrict-file-names=windows", "--compression=auto", "--level=1"]
    crawl(folder, site, *words, "--warc-file=1700000000")


def by_bsdtar(folder: str, _site: str) -> None:
    """Files of a folder, plain and compressed."""
    os.mkdir(f"{folder}/site")
    for name, data in (("a.html", shapes.PAGE), ("sky.png", shapes.PICTURE), ("empty", b"")):
        with open(f"{folder}/site/{name}", "wb") as out:
            out.write(data)
    names = sorted(os.listdir(f"{folder}/site"))
    for words in (["a.warc"], ["b.warc.gz", "--gzip"]):
        command = ["bsdtar", "--format=warc", *words[1:], "-cf", f"../{words[0]}", *names]
        subprocess.run(command, cwd=f"{folder}/site", timeout=SECONDS, check=True)


def made(records: Callable[[], list[bytes]]) -> Callable[[str, str], None]:
    """Writes an archive of these records, plain and compressed."""

    def write(folder: str, _site: str) -> None:
        for name, data in (("a.warc", b"".join(records())), ("a.warc.gz", shapes.packed(records()))):
            with open(f"{folder}/{name}", "wb") as out:
                out.write(data)

    return write


def version_of(program: str) -> str:
    """The version that a program states."""
    done = subprocess.run([program, "--version"], capture_output=True, text=True, check=True)
    found = re.search(r"\d+(?:\.\d+)+", done.stdout)
    return found[0] if found else "?"


def writers() -> list[Writer]:
    """All of them, in the order of the table."""
    wget = f"wget {version_of('wget')}"
    stored = "P10: the server sent it in chunks or compressed; `warc replay --stored`"
    return [
        Writer(wget, by_wget, stored),
        Writer(
            f"{wget} with `--warc-dedup`",
            by_wget_again,
            "N4 and `bad` in revisits mean nothing: wget states the digest of no bytes. "
            "P5: join the file with the first crawl, `cat one.warc two.warc > both.warc`",
        ),
        Writer(f"{wget} as ArchiveBox calls it", by_archivebox, stored),
        Writer(
            f"libarchive's bsdtar {version_of('bsdtar')}",
            by_bsdtar,
            "nothing can be verified: it states no digests. N7: it states no content types",
        ),
        Writer(
            "Heritrix 3 (made)",
            made(shapes.heritrix),
            "it states payload digests alone: `warc fixity --payload` verifies them",
        ),
        Writer(
            "warcprox 2 (made)",
            made(shapes.warcprox),
            "`check` judges no digest in hexadecimal: `fixity` does. P10: `warc replay --stored`",
        ),
        Writer(
            "browser-based crawlers (made)",
            made(shapes.browser),
            "`check` judges no SHA-256: `fixity` does. Payloads of requests are never checked",
        ),
        Writer("warcio and pywb (made)", made(shapes.warcio), "P10: `warc replay --stored`"),
        Writer("crawlers before 2009, WARC/0.18 (made)", made(shapes.draft), "convert it with another tool"),
    ]


def run(program: str, words: list[str]) -> tuple[str, int]:
    """What a command writes, to both outputs, and its status; by zwarc, which reads all files."""
    folder = os.path.dirname(os.path.abspath(program))
    environment = {**os.environ, "PATH": f"{folder}:{os.environ['PATH']}", "LC_ALL": "C"}
    done = subprocess.run(
        [f"{TOP}/shell/zwarc", *words], env=environment, capture_output=True, timeout=SECONDS, check=False
    )
    return (done.stdout + done.stderr).decode(errors="replace"), done.returncode


def counted(names: Iterator[str]) -> str:
    """Names with how often each comes, in order, or a dash."""
    count = collections.Counter(names)
    order = sorted(count.items(), key=lambda it: (it[0][0], int(re.sub(r"\D", "", it[0]) or 0)))
    return ", ".join(f"{name} {number}" for name, number in order) or "-"


def verified(program: str, words: list[str]) -> collections.Counter[str]:
    """How many records of each verdict the last line of a command counts."""
    last = run(program, words)[0].splitlines()[-1].split()
    return collections.Counter({name: int(number) for name, number in zip(last[2::2], last[3::2])})


def shown(verdicts: collections.Counter[str]) -> str:
    """The counts of verdicts that there are, or a dash."""
    return ", ".join(f"{name} {number}" for name, number in verdicts.items() if number) or "-"


def row(writer: Writer, program: str, site: str) -> str:
    """The row of a writer: its files are written, opened and asked."""
    with tempfile.TemporaryDirectory() as folder:
        writer.write(folder, site)
        paths = sorted(glob.glob(f"{folder}/*.warc") + glob.glob(f"{folder}/*.warc.gz"))
        opened, refused, findings, reasons, given = 0, set(), "", "", 0
        blocks: collections.Counter[str] = collections.Counter()
        payloads: collections.Counter[str] = collections.Counter()
        for path in paths:
            text, status = run(program, ["list", path])
            if status:
                refused.add(text.partition("\n")[0].partition(": ")[2] or "?")
                continue
            opened += 1
            findings += run(program, ["check", path])[0]
            blocks += verified(program, ["fixity", path])
            payloads += verified(program, ["fixity", "--payload", path])
            cells = [line.split("\t")[8] for line in run(program, ["captures", path])[0].splitlines() if "\t" in line]
            given += cells.count("-")
            reasons += "".join(f"{cell.split()[0]}\n" for cell in cells if cell != "-")
    found = counted(line.split()[1] for line in findings.splitlines())
    bodies = f"{given}" + (f"; {counted(iter(reasons.split()))}" if reasons else "") if opened else "-"
    first = f"{opened}" + "".join(f"; refused: {it}" for it in sorted(refused))
    cells = [writer.name, f"{len(paths)}", first, found, shown(blocks), shown(payloads), bodies, writer.advice]
    return f"| {' | '.join(cells)} |\n"


def table(program: str) -> str:
    """All rows."""
    server = http.server.ThreadingHTTPServer(("127.0.0.1", 0), Site)
    threading.Thread(target=server.serve_forever, daemon=True).start()
    site = f"http://127.0.0.1:{server.server_address[1]}/"
    try:
        return HEAD + "".join(row(it, program, site) for it in writers())
    finally:
        server.shutdown()


def main() -> int:
    """Compares, or writes."""
    writes = sys.argv[1] == "--write"
    found = table(sys.argv[1 + writes])
    with open(PAGE, encoding="utf-8") as file:
        page = file.read()
    before, _, rest = page.partition(HEAD)
    after = re.sub(r"\A(?:\|.*\n)*", "", rest)
    if writes:
        with open(PAGE, "w", encoding="utf-8") as out:
            out.write(before + found + after)
    elif page != before + found + after:
        print(f"docs/COMPATIBILITY.md has another table than is found:\n{found}", end="")
        return 1
    print(f"{found.count(chr(10)) - 2} writers, as the page says" if not writes else "written")
    return 0


if __name__ == "__main__":
    sys.exit(main())
