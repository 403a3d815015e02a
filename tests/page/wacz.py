"""Packages (WACZ): the archives of one are one archive, its files are compared with its hashes, its pages are places to
begin, and what contradicts itself is refused."""

from __future__ import annotations

import gzip
import json
import os
import sys
from typing import Any

from browser import Browser
from compressed import FILES, SAID, ZSTD, records_of, save

TOP = os.path.dirname(os.path.dirname(os.path.dirname(os.path.abspath(__file__))))
sys.path.insert(0, os.path.join(TOP, "tests", "reference"))
from packages import Item, files_of, packed_files, page_line, wacz_of, zip_of  # noqa: E402

PACKAGE = "document.getElementById('package').innerText"
LINES = "[...document.querySelectorAll('#package .found li')].map((it) => it.innerText)"
IS_COMPARED = f"room.packages.size && !{PACKAGE}.includes('Comparing')"
LIST = "Array.from({length: room.rows.count}, (_, position) => listLine(room.rows.row(position))).join('')"
FRONT = "http://127.0.0.1:8765/"
HOSTILE = "<img src=x onerror='window.hacked=1'>\u202e"


def pages() -> bytes:
    """The pages of the package: one that begins before its capture, one with a hostile title, one without capture."""
    many = b"".join(page_line(f"http://a.example/{number}", title=f"page {number}") for number in range(150))
    return (
        page_line(FRONT, "2026-11-26T04:48:35.600Z", title="Weather")
        + page_line(f"{FRONT}week", "2026-11-26T05:49:00+01:00", title=HOSTILE)
        + page_line("javascript:window.hacked=2", title="odd")
        + many
    )


def opened_and_compared(tests: Any, folder: str, crawl: str, records: list[bytes]) -> Browser:
    """A package of two archives, with a bad hash and files that are missing and not listed, is listed and judged."""
    archives = {"b.warc": b"".join(records[9:]), "a.warc.gz": b"".join(map(gzip.compress, records[:9]))}
    more = {"wrong": ["archive/b.warc"], "unlisted": ["pages/pages.jsonl"], "missing": [f"x/{HOSTILE}"]}
    files = files_of(archives, pages(), **more)
    browser: Browser = tests.opened(save(folder, "crawl.wacz", packed_files(files)))
    browser.until(IS_COMPARED)
    tests.holds(browser.run(LIST) == tests.warc("list", crawl)[0].decode(), "a package is listed")
    names = ["archive/a.warc.gz"] * 9 + ["archive/b.warc"] * 9
    tests.holds(browser.run(FILES) == names and browser.run(f"{SAID} === ''"), "each record has its file")
    said = browser.run(PACKAGE)
    words = ("Package crawl.wacz", "5 files: ", "2 good", "1 bad", "1 missing", "1 unlisted", "not by whom")
    tests.holds(all(word in said for word in words), "files of a package are compared", said)
    tests.holds("show blank" in said and "153 pages" in said, "pages are counted, and scripts are named", said)
    tests.holds(not browser.run("window.hacked") and "⟨U+202E⟩" in said, "names and titles are texts", said)
    return browser


def entry_points(tests: Any, browser: Browser) -> None:
    """A page is shown as of its time, or its first capture; and is found by words."""
    tests.holds(len(browser.run(LINES)) == 100, "a hundred pages at once")
    browser.run("document.querySelector('#package > button').click()")
    tests.holds(len(browser.run(LINES)) == 153, "more pages are shown")
    browser.run("document.querySelector('#package .found .link').click()")
    browser.until("room.current === 2")
    browser.until("document.getElementById('record').innerText.includes('first capture')")
    said = browser.run("document.getElementById('record').innerText")
    tests.holds("its first capture, 0.4 s later" in said, "the first capture after a page's time", said)
    browser.run("document.querySelectorAll('#package .found .link')[1].click()")
    browser.until("room.current === 6")
    tests.holds(browser.run("document.getElementById('moment').value") == "2026-11-26T04:49:00.000Z", "a time in UTC")
    browser.run("document.querySelectorAll('#package .found .link')[2].click()")
    browser.until("document.getElementById('record').innerText.includes('Nothing was captured')")
    tests.holds(not browser.run("window.hacked"), "a URI of a page is no link")
    search = "Object.assign(document.querySelector('#package input'), {value: %s}).dispatchEvent(new Event('input'))"
    browser.run(search % json.dumps("PAGE 149"))
    tests.holds(browser.run(LINES) == ["page 149 http://a.example/149"], "pages are found by words", browser.run(LINES))


def refused(tests: Any, folder: str, records: list[bytes]) -> None:
    """What isn't read, and why. Archives before it are shown, and those after one that isn't what was packed."""
    crawl, half = b"".join(records), b"".join(records[:9])
    said = {"crc": 1}
    packed = b"".join(map(gzip.compress, records[:9]))
    damaged = [Item(b"archive/a.warc", crawl, local=said, central=said), Item(b"archive/b.warc", half)]
    of_members = [Item(b"archive/a.warc.gz", packed, local=said, central=said), Item(b"archive/b.warc", half)]
    of_zstd = [Item(b"archive/a.warc", half), Item(b"archive/b.warc.zst", ZSTD), Item(b"archive/c.warc", crawl)]
    cases = {
        "cut": (wacz_of({"a.warc": crawl})[:-1], 0, "is refused", "NoEnd"),
        "twice": (zip_of([Item(b"archive/a.warc", crawl)] * 2), 0, "is refused", "two entries are named"),
        "crc": (zip_of(damaged), 9, "a.warc isn’t what was packed", "its CRC differs"),
        "zstd": (zip_of(of_zstd), 27, "b.warc.zst is compressed by zstd", "zstd -d a.warc.zst"),
        "members": (zip_of(of_members), 18, "a.warc.gz isn’t what was packed", "good by their own checksums"),
        "torn": (wacz_of({"a.warc.gz": gzip.compress(half)[:-9], "b.warc": crawl}), len(records), "is torn", ""),
    }
    for name, (data, count, short, why) in cases.items():
        browser = tests.opened(save(folder, f"{name}.wacz", data))
        words = browser.run(SAID)
        tests.holds(browser.run("room.rows.count") == count and short in words and why in words, name, words)
        browser.close()


def crossing(tests: Any, folder: str, records: list[bytes]) -> None:
    """Of archives that are one only when they are joined, the record that goes on in the next one is named."""
    whole = b"".join(records)
    cut = len(b"".join(records[:2])) + len(records[2]) - 20
    parts = {"a.warc": whole[:cut], "b.warc": whole[cut:]}
    browser = tests.opened(save(folder, "crossing.wacz", wacz_of(parts)))
    words = browser.run(SAID)
    tests.holds("archive/a.warc isn’t an archive by itself" in words, "a record of two archives", words)
    browser.close()
    paths = [save(folder, name, data) for name, data in parts.items()]
    browser = tests.opened(*paths)
    words = browser.run(SAID)
    tests.holds("a.warc isn’t an archive by itself" in words, "a record of two files", words)
    browser.close()


def wacz(tests: Any, folder: str) -> None:
    """All of it, over the crawl of the examples."""
    crawl = f"{TOP}/examples/crawl.warc"
    records = records_of(tests, crawl)
    browser = opened_and_compared(tests, folder, crawl, records)
    tests.picture(browser, "page-wacz")
    entry_points(tests, browser)
    browser.close()
    refused(tests, folder, records)
    crossing(tests, folder, records)
