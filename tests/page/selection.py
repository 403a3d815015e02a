"""Saving what the list shows: the records that it shows, each once, byte for byte and in the archive's order."""

from __future__ import annotations

import gzip
import os
import shutil
import time
from typing import Any

import hostile
from browser import Browser
from compressed import packed, records_of, save
from variant import variant

TOP = os.path.dirname(os.path.dirname(os.path.dirname(os.path.abspath(__file__))))
SECONDS = 30
MANY = 20_000
MOST_SAVING = 5.0  # seconds until every second one of MANY records is given to the browser
BUTTON = "document.getElementById('save-shown')"
WORDS = "document.getElementById('of-saving').innerText"
STATUS = "document.getElementById('status').textContent"
SEARCH = "room.words = {}; filter()"
NAMES = {
    "<img src=x onerror='window.hacked=1'>.warc.gz": "records-of-_img_src_x_onerror_window.hacked_1_.warc",
    "$(touch hacked).warc.gz": "records-of-_touch_hacked_.warc",
    "gnp\u202eexe.warc.gz": "records-of-gnp_exe.warc",
}
SMALL_LIMIT = {"const LIMIT = 2 * 1024 ** 3;": "const LIMIT = 5000;"}
MAKES_BLOB = "const blob = new Blob(parts);"
NO_BLOB = "const blob = {size: 9, slice: () => ({arrayBuffer: () => Promise.reject(new Error('x'))})};"
MEANWHILE = f"({{click() {{ {BUTTON}.click(); openFiles([new File([], 'other.warc')]); }}}})"
EVERY_SECOND = "room.order = room.order.filter((it) => it % 2); drawSaving()"


def is_saved(event: Any) -> bool:
    return bool(event["method"] == "Browser.downloadProgress" and event["params"]["state"] == "completed")


def saved(browser: Browser, folder: str, button: str = BUTTON) -> tuple[str, bytes]:
    """The name and the bytes of the file that a click on a button saves. The browser says when it is whole."""
    into, before = f"{folder}/saved", len(browser.events)
    shutil.rmtree(into, ignore_errors=True)
    os.mkdir(into)
    behavior = {"behavior": "allow", "downloadPath": into, "eventsEnabled": True}
    browser.ask("Browser.setDownloadBehavior", behavior, session=None)
    browser.run(f"{button}.click()")
    end = time.monotonic() + SECONDS
    while time.monotonic() < end:
        browser.run("0")  # so that the browser's events are read
        if any(is_saved(event) for event in browser.events[before:]):
            (name,) = os.listdir(into)
            with open(f"{into}/{name}", "rb") as file:
                return name, file.read()
        time.sleep(0.05)
    return "nothing was saved", b""


def opened(tests: Any, folder: str, name: str, parts: list[bytes]) -> Browser:
    """A browser in which an archive of one file, or of several in this order, is opened."""
    fronts = [""] if len(parts) == 1 else [f"{number}-" for number in range(len(parts))]
    browser: Browser = tests.opened(*[save(folder, front + name, part) for front, part in zip(fronts, parts)])
    return browser


def shown(browser: Browser) -> list[int]:
    """The positions of the records that the list shows, as it is sorted."""
    return [int(position) for position in browser.run("room.order")]


def all_records(tests: Any, folder: str, records: list[bytes]) -> None:
    """The list shows all records: what is saved is the archive, or its good part, also if it is compressed or long."""
    plain = b"".join(records)
    cases: dict[str, tuple[list[bytes], bytes, str]] = {
        "plain.warc": ([plain], plain, "records-of-plain.warc"),
        "each.warc.gz": ([packed(records)], plain, "records-of-each.warc"),
        "part.warc": ([plain, packed(records), plain], 3 * plain, "records-of-archive.warc"),
        "torn.warc": ([plain[:-500]], b"".join(records[:-1]), "records-of-torn.warc"),
        "torn.warc.gz": ([packed(records)[:-9]], b"".join(records[:-1]), "records-of-torn.warc"),
    }
    for name, (parts, wanted, called) in cases.items():
        browser = opened(tests, folder, name, parts)
        got, data = saved(browser, folder)
        tests.holds((got, data == wanted) == (called, True), f"selection, all of {name}", (got, len(data), len(wanted)))
        words = browser.run(WORDS)
        tests.holds("isn\u2019t compressed" in words and "revisit" not in words, f"selection, words of {name}", words)
        browser.close()
    page = variant(tests.page, f"{folder}/limited.html", SMALL_LIMIT)
    browser = tests.opened(save(folder, "long.warc", plain), page=page)
    got, data = saved(browser, folder)
    tests.holds(data == plain, "selection, all of an archive that is only listed", (got, len(data)))
    browser.close()


def some_records(tests: Any, folder: str, records: list[bytes]) -> None:
    """The list shows some records, in any order: they are saved in the archive's order, each once."""
    filters = {
        "captures": "document.getElementById('only').click()",
        "words": SEARCH.format("'sky.png'"),
        "a type": "document.querySelector('#types .bar').click()",
        "the first": SEARCH.format("latin.decode(room.rows.row(0).id)"),
        "the last": SEARCH.format("latin.decode(room.rows.row(room.rows.count - 1).id)"),
    }
    archives = {
        "some.warc": [b"".join(records)],
        "some.warc.gz": [packed(records)],
        "two.warc": [packed(records[:7]), b"".join(records[7:])],
    }
    for name, parts in archives.items():
        browser = opened(tests, folder, name, parts)
        for words, code in filters.items():
            browser.run("room.filters.clear(); room.words = ''; room.sort = {by: 'position', up: true}; filter()")
            browser.run(code)
            browser.run("sortBy('size')")
            order = shown(browser)
            wanted = b"".join(records[position] for position in sorted(order))
            got, data = saved(browser, folder)
            more = (order, got, len(data), len(wanted))
            tests.holds(0 < len(order) < len(records) and data == wanted, f"selection of {name}, {words}", more)
            said = browser.run(STATUS)
            count = "1 record, " if len(order) == 1 else f"{len(order)} records, "
            tests.holds(f"to be saved: {count}" in said, f"selection of {name}, {words}: how many", said)
        said = browser.run(WORDS)
        tests.holds("A revisit in it may give another reason" in said, f"selection of {name}: what it may give", said)
        browser.close()


def no_records(tests: Any, folder: str, records: list[bytes]) -> None:
    """Where the list shows none, or it isn't known yet where the last record ends, nothing can be saved."""
    browser = tests.opened(save(folder, "none.warc", b"".join(records)))
    tests.holds(not browser.run(f"{BUTTON}.disabled"), "selection: a list that shows records")
    browser.run(SEARCH.format("'nowhere'"))
    tests.holds(browser.run(f"{BUTTON}.disabled"), "selection: a list that shows none")
    browser.run(f"{BUTTON}.disabled = false; {BUTTON}.click()")
    tests.holds("to be saved" not in browser.run(STATUS), "selection: nothing is saved of none")
    browser.run(f"room.listed = false; {SEARCH.format(repr(''))}")
    tests.holds(browser.run(f"{BUTTON}.disabled"), "selection: an archive that is being listed")
    browser.close()
    browser = tests.opened(save(folder, "empty.warc", b""))
    tests.holds(browser.run(f"{BUTTON}.disabled"), "selection: an archive without records")
    browser.close()


def hostile_names(tests: Any, folder: str, records: list[bytes]) -> None:
    """Names of files and of records are texts: the saved file has a plain name, and nothing runs."""
    for name, called in NAMES.items():
        browser = tests.opened(save(folder, name, gzip.compress(b"".join(records))))
        got, data = saved(browser, folder)
        tests.holds((got, data == b"".join(records)) == (called, True), "selection: a hostile name", (got, len(data)))
        browser.close()
    archive = f"{folder}/hostile.warc"
    hostile.make(archive)
    parts, browser = records_of(tests, archive), tests.opened(archive)
    for words in ("'onerror'", "'\\u202e'", "'longlong'", "'javascript:'"):
        browser.run(SEARCH.format(words))
        order = shown(browser)
        data = saved(browser, folder)[1]
        tests.holds(order and data == b"".join(parts[it] for it in order), f"selection: hostile {words}", order)
    tests.holds(browser.run("window.hacked") is None, "selection: nothing runs")
    browser.close()


def changed_file(tests: Any, folder: str, records: list[bytes]) -> None:
    """A file that has changed since it was opened, or a browser without room: nothing is saved, and it says why."""
    archive = save(folder, "changed.warc", b"".join(records))
    browser = tests.opened(archive)
    with open(archive, "ab") as out:
        out.write(b"more")
    os.utime(archive, (1_000_000_000, 1_000_000_000))
    browser.run(f"{BUTTON}.click()")
    browser.until(f"{STATUS}.includes('has changed on disk')", 10)
    tests.holds("Nothing is saved" in browser.run(STATUS), "selection: of a file that has changed")
    browser.close()
    parts = [save(folder, f"changed-{name}.warc", b"".join(records)) for name in "abc"]
    browser = tests.opened(*parts)
    os.utime(parts[1], (1_000_000_000, 1_000_000_000))
    browser.run(f"{BUTTON}.click()")
    browser.until(f"!{STATUS}.startsWith('Reading')", 10)
    said = browser.run(STATUS)
    tests.holds("has changed on disk" in said, "selection: of three files, the second of which has changed", said)
    browser.close()
    page = variant(tests.page, f"{folder}/full.html", {MAKES_BLOB: NO_BLOB})
    browser = tests.opened(save(folder, "full.warc", b"".join(records)), page=page)
    browser.run(f"{BUTTON}.click()")
    browser.until(f"{STATUS}.includes('no room')", 10)
    tests.holds("Nothing is saved" in browser.run(STATUS), "selection: in a browser without room")
    browser.close()


def another_file(tests: Any, folder: str, records: list[bytes]) -> None:
    """Another file is opened while records are saved: what is saved has the name of the archive that they are of."""
    browser = tests.opened(save(folder, "one.warc", b"".join(records)))
    got, data = saved(browser, folder, MEANWHILE)
    wanted = ("records-of-one.warc", True)
    tests.holds((got, data == b"".join(records)) == wanted, "selection: another file meanwhile", (got, len(data)))
    browser.close()


def many_records(tests: Any, folder: str) -> None:
    """Every second one of many records is as many ranges of the file as records."""
    head = (
        b"WARC/1.1\r\nWARC-Type: metadata\r\nWARC-Record-ID: <urn:x:%d>\r\nWARC-Date: 2026\r\nContent-Length: 0\r\n\r\n"
    )
    records = [head % number + b"\r\n\r\n" for number in range(MANY)]
    browser = tests.opened(save(folder, "many.warc", b"".join(records)))
    browser.until(f"!{STATUS}.includes('Looking for findings')", SECONDS)  # which puts all records into the list again
    browser.run(EVERY_SECOND)
    begun = time.monotonic()
    data = saved(browser, folder)[1]
    took = time.monotonic() - begun
    tests.holds(data == b"".join(records[1::2]), "selection: every second record of many", len(data))
    tests.holds(took < MOST_SAVING, "selection: many ranges are saved quickly", took)
    print(f"selection: {MANY // 2} ranges saved in {took:.1f} s", flush=True)
    browser.close()


def selection(tests: Any, folder: str) -> None:
    """All of them."""
    records = records_of(tests, f"{TOP}/examples/crawl.warc")
    for part in (all_records, some_records, no_records, hostile_names, changed_file, another_file):
        part(tests, folder, records)
    many_records(tests, folder)
