"""Heads of records and of HTTP responses, as the page shows them: the library reads them, and the page nothing."""

from __future__ import annotations

import base64
import json
from typing import Any

from hostile import record
from variant import variant

SITE = "http://a.example"
DATE = "2026-01-01T00:00:00Z"
READ = """async (fronts) => {
  const bytes = (text) => Uint8Array.from(atob(text), (it) => it.charCodeAt(0));
  const read = await room.library.heads(fronts.map((front) => ({head: null, front: bytes(front)})));
  return read.map(({http}) => http && [http.status, http.start, asTexts(http.fields, (it) => latin.decode(it))]);
}"""
OK = b"HTTP/1.1 200 OK\r\n"
MANY = b"".join(b"N%d: v\r\n" % number for number in range(256))
# What a block begins with, and what its head says: the status, where the body begins, the fields.
HTTP: tuple[tuple[bytes, Any], ...] = (
    (OK + b"A: b\r\n\r\nx", [200, 25, [["A", "b"]]]),
    (OK + b"\r\n", [200, 19, []]),
    (OK + b"a:b: c \t\r\nA:\r\n\r\n", [200, 33, [["a", "b: c"], ["A", ""]]]),
    (b"HTTP/1.0 404\r\nA: \xe9\r\n\r\n", [404, 22, [["A", "\u00e9"]]]),
    (b"\r\nHTTP/1.1 301 Moved\nLocation: /x\n\n\n", [301, 35, [["Location", "/x"]]]),
    (OK + MANY + b"\r\n", [200, 19 + len(MANY), [[f"N{number}", "v"] for number in range(256)]]),
    # None of these is one. A reader of lines takes the first four for heads.
    (OK + b"no field\r\n\r\n", None),
    (OK + b"A b: c\r\n\r\n", None),
    (OK + MANY + b"N: v\r\n\r\n", None),
    (b"HTTP/1.1 2000 OK\r\n\r\n", None),
    (OK + b"A: " + b"b" * 65536 + b"\r\n\r\n", None),
    (OK + b"A: b\r\n", None),
    (b"HTTP/2 200 OK\r\n\r\n", None),
    (b"HTTP/1.1 20 OK\r\n\r\n", None),
    (b"GET / HTTP/1.1\r\n\r\n", None),
    (b"", None),
)
FOLDED = (
    b"X-Folded: a \r\n \tb\r\nx-folded:\r\n \r\n\tc:d \r\nX-Space: \xc2\xa0e\xc2\xa0\r\nX-Bytes: \xe9\r\nX-None:\r\n"
)
FIELDS = [
    ["X-Folded", "a  b"],
    ["x-folded", "c:d"],
    ["X-Space", "\u00a0e\u00a0"],
    ["X-Bytes", "\u00e9"],
    ["X-None", ""],
]
ODD = {name.lower() for name, _ in FIELDS}
PANEL = "document.getElementById('panel')"
READS = "async readHeads({id, heads}) {"
DIES = " setTimeout(() => { throw new Error(0); }); return;"


def open_tab(browser: Any, position: int, tab: str) -> str:
    """What a tab of a record shows."""
    browser.run(f"room.tab = '{tab}'; openRecord({position}); 0")
    browser.until(f"room.current === {position} && {PANEL}?.dataset.ready === 'yes'", 20)
    return str(browser.run(f"{PANEL}.innerText"))


def made(folder: str) -> str:
    """An archive of two pages, the head of the first of which is odd, and the HTTP head of the second is none."""
    block = OK + b"Content-Type: text/html\r\n\r\n<p>x"
    odd = record(0, f"{SITE}/a", "response", block, DATE).replace(b"\r\nWARC-Date:", b"\r\n" + FOLDED + b"WARC-Date:")
    none = record(1, f"{SITE}/b", "response", OK + b"no field\r\nContent-Type: text/html\r\n\r\n<p>y", DATE)
    with open(f"{folder}/heads.warc", "wb") as out:
        out.writelines([odd, none])
    return f"{folder}/heads.warc"


def after_its_end(tests: Any, folder: str, archive: str) -> None:
    """The worker dies at a head. The page says so, and still shows what is stored."""
    page = variant(tests.page, f"{folder}/headless.html", {READS: READS + DIES})
    browser = tests.opened(archive, page=page)
    try:
        browser.run("openRecord(0); 0")
        browser.until("document.getElementById('status').textContent.includes('The library stopped')", 20)
        words = open_tab(browser, 0, "HTTP head")
        tests.holds("The library stopped, and reads no head" in words, "heads: a library that stopped", words)
        words = open_tab(browser, 0, "Record head")
        tests.holds("X-Space" in words, "heads: a head as it is stored, without the library", words)
    finally:
        browser.close()


def heads(tests: Any, folder: str) -> None:
    """What the page shows of heads is what the library says."""
    archive = made(folder)
    browser = tests.opened(archive)
    try:
        found = browser.run(f"({READ})({json.dumps([base64.b64encode(front).decode() for front, _ in HTTP])})")
        for (front, wanted), read in zip(HTTP, found):
            tests.holds(read == wanted, f"heads: {front[:40]!r}", (read, wanted))
        fields = browser.run("typeOf(room.rows.row(0)).then(({fields}) => fields)")
        odd = [it for it in fields if it[0].lower() in ODD]
        tests.holds(odd == FIELDS, "heads: fields of a record", fields)
        type_of = browser.run("typeOf(room.rows.row(0)).then(({type}) => type)")
        tests.holds(type_of == "text/html", "heads: a content type", type_of)
        words = open_tab(browser, 0, "HTTP head")
        tests.holds(words.strip() == "HTTP/1.1 200 OK\nContent-Type: text/html", "heads: a head of HTTP", words)
        words = open_tab(browser, 1, "HTTP head")
        tests.holds("This record stores no HTTP head" in words, "heads: what is no head of HTTP", words)
    finally:
        browser.close()
    after_its_end(tests, folder, archive)
