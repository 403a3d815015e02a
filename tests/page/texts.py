"""The search of the list in texts: hits with their titles and marked words, a reason for each capture without a text,
hostile pages in bounded time, and the same hits as the collection's search."""

from __future__ import annotations

import collections
import gzip
import json
import os
import subprocess
import sys
import types
from typing import Any

TOP = os.path.dirname(os.path.dirname(os.path.dirname(os.path.abspath(__file__))))
sys.path.insert(0, os.path.join(TOP, "tests", "stress"))
from browser import Browser  # noqa: E402
from collection_trial import record  # noqa: E402
from finding import FAINT, roles, screens  # noqa: E402
from variant import variant  # noqa: E402

HTTP = b"HTTP/1.1 %s\r\nContent-Type: %s\r\n%s\r\n%s"
MEDIA, MEGABYTE = b"text/html", 1 << 20
DATE = "%d-05-01T00:00:00Z"
MILL = (
    b"<title>The fire at the mill</title><p>It burned in the night of 14 March. The whole town came to the river to"
    b" carry water, and by the morning nothing was left of the mill but the wheel and the name of the street."
)
LETTERS = (
    b"<title>Letters to the archive</title><p>My brother worked at the mill until it burned, and was a member of the"
    b" council after that."
)
HACK = "&lt;img src=x onerror='window.hacked=1'&gt;"
TITLE = f"<title>&lt;b&gt;Odd&lt;/b&gt; \u202e</title><p>{HACK} hostile mill \u202e".encode()
# Pages that take some readers a time that grows with the square of their length.
HOSTILE = (
    b"mill" + b"<a" * (MEGABYTE // 2),
    b"<div>" * 100_000 + b"mill",
    b'<!DOCTYPE x [<!ENTITY a "lol">' + b'<!ENTITY b "&a;&a;">' * 20_000 + b"]><p>&b; mill",
    "a\u202e\u2066 ".encode() * 100_000 + b"mill",
    b"m\0i\0ll" + b"\0" * MEGABYTE,
)
# What is looked for, and the positions that have it.
FOUND = {
    "mill burned": [0, 1, 2, 11],
    "MILL -view burn*": [0, 1, 2],
    '"a member"': [2],
    "hostile": [5],
    "mill": [0, 1, 2, 5, 6, 7, 8, 9, 10, 11],
}
SAID = {
    "mi*": "mi*: the beginning of a word has 3 letters or more",
    "-mill": "no word to look for",
}
WHYS = {"no text": 2, "P5": 1, "coded": 1}
SEARCH = "Object.assign(byId('words'), {value: %s}).dispatchEvent(new Event('input')); 0"
HITS = "room.texts.words === %s && room.texts.hits !== null"
PARTS = "room.order.every((it) => room.texts.parts.has(it))"
OVER = "['done', 'full', 'failed'].includes(room.texts.state)"
HANGS = {
    "let body = stored;": "for (;;); let body = stored;",
    "const SECONDS_A_BODY = 20;": "const SECONDS_A_BODY = 0.3;",
}
SMALL = {"const MOST_KEPT = 256 * MEGABYTE;": "const MOST_KEPT = 500;", "AT_ONCE_READ = 32;": "AT_ONCE_READ = 1;"}
# The worker's own scripts, which make no policy here.
TABLES = """((cases) => {
  const globalThis = {};
  %s
  const bytes = (parts) => Uint8Array.from(parts.flatMap(([digits, times]) =>
      Array(times).fill(digits.match(/../g).map((it) => parseInt(it, 16))).flat()));
  return {
    charsets: cases.charsets.map(({body, type}) => textOf(bytes(body), type, MEGABYTE)),
    scan: cases.scan.map(({page}) => scanned(page)),
    search_words: cases.search_words.map(({text}) => wordsOf(text)),
  };
})"""
# Each capture's text that has the words: its file, its position there, and what is shown of it.
SHOWN = """(() => room.order.map((position) => {
  const row = room.rows.row(position), file = fileAt(row.offset);
  const {title, snippet, marks} = room.texts.parts.get(position);
  let before = 0;
  while (fileAt(room.rows.row(before).offset) < file) before += 1;
  return [shown(row.target), room.parts[file].name, position - before, row.date, title, snippet, marks];
}))()"""


def response(
    number: int, path: str, body: bytes, status: bytes = b"200 OK", media: bytes = MEDIA, more: bytes = b""
) -> bytes:
    block = HTTP % (status, media, more, body)
    target = b"http://town.example/" + path.encode()
    return record("response", number, DATE % 2004, target, block, content_type="application/http;msgtype=response")


def revisit(number: int, of: int) -> bytes:
    fields = {"WARC_Refers_To": "<urn:uuid:00000000-0000-4000-8000-%012d>" % of}
    fields["WARC_Profile"] = "http://netpreserve.org/warc/1.1/revisit/identical-payload-digest"
    return record("revisit", number, DATE % 2005, b"http://town.example/mill", b"", **fields)


def archive(folder: str) -> str:
    """An archive with pages, hostile ones too, a coded one, what is no text, and what isn't there."""
    packed, coded = gzip.compress(LETTERS), b"Content-Encoding: gzip\r\n"
    records = [
        response(1, "mill", MILL, media=b"text/html; charset=utf-7"),
        revisit(2, 1),
        response(3, "packed", packed, more=coded),
        response(4, "picture", b"mill", media=b"image/png"),
        response(5, "lost", b"no mill", b"404 Not Found"),
        response(6, "hostile", TITLE, media=b"text/html; charset=utf-8"),
        *(response(10 + number, f"{number}", page) for number, page in enumerate(HOSTILE)),
        record("resource", 20, DATE % 2006, b"urn:x:mill", b"A view of the mill, before it burned"),
        revisit(21, 999),
        response(22, "torn", packed[:20], more=coded),
    ]
    path = f"{folder}/town.warc"
    with open(path, "wb") as out:
        out.write(b"".join(records))
    return path


def look_for(browser: Browser, words: str) -> Any:
    """Types words into the search, and gives the positions of the lines that it leaves, once they are shown."""
    browser.run(SEARCH % json.dumps(words))
    browser.until(HITS % json.dumps(words))
    browser.until(PARTS)
    return browser.run("room.order")


def tables(tests: Any, browser: Browser) -> None:
    """The tables of cases, by the worker's scripts in this browser."""
    cases: dict[str, Any] = {}
    for name in ("charsets", "scan", "search_words"):
        with open(f"{TOP}/tests/unit/{name}.json", encoding="utf-8") as file:
            cases[name] = json.load(file)
    made = browser.run(f"{TABLES % browser.run('WORKER')}({json.dumps(cases)})")
    for case, text in zip(cases["charsets"], made["charsets"]):
        tests.holds(text.endswith(case["text"]), f"texts, charset: {case['name']}", ascii(text[-20:]))
    for case, found in zip(cases["scan"], made["scan"]):
        tests.holds(found == {"title": case["title"], "text": case["text"]}, f"texts, page: {case['name']}", found)
    for case, words in zip(cases["search_words"], made["search_words"]):
        tests.holds(words == case["words"], f"texts, words: {case['name']}", words)


def by_keyboard(tests: Any, browser: Browser) -> None:
    """A reader without a mouse chooses texts, types words, and opens a hit. The focus stays where it is meanwhile."""
    browser.run("byId('in-records').focus()")
    browser.press("ArrowDown")
    tests.holds(browser.run("byId('in-texts').checked && room.texts.isOn"), "texts: chosen by an arrow key")
    browser.until(OVER)
    browser.run("byId('words').focus()")
    browser.ask("Input.insertText", {"text": "mill burned"})
    browser.until(HITS % json.dumps("mill burned"))
    browser.until(PARTS)
    tests.holds(browser.run("document.activeElement.id") == "words", "texts: the focus stays in the field")
    seen = types.SimpleNamespace(browser=browser, holds=tests.holds)
    heard = roles(seen)
    tests.holds(("radio", "texts") in heard and ("radio", "records") in heard, "texts: the switch is heard", heard)
    tests.holds(("group", "Search in") in heard, "texts: what the switch is for is heard", heard)
    tests.holds(("searchbox", "Search texts for words") in heard, "texts: the field is heard", heard)
    is_heard = any(role == "gridcell" and "It burned in the night" in name for role, name in heard)
    tests.holds(is_heard and ("columnheader", "text") in heard, "texts: parts of texts are heard", heard)
    tests.holds(browser.run("byId('shown').role ?? byId('shown').getAttribute('role')") == "status", "a live count")
    browser.press("Enter", "\r")
    browser.press("ArrowDown")
    browser.run("room.tab = 'Facts'")
    browser.press("Enter", "\r")
    browser.until("document.getElementById('panel')?.dataset.ready === 'yes'")
    tests.holds(
        browser.run("room.current") == 0 and browser.run("room.tab") == "Page", "texts: a hit opens its capture"
    )
    browser.until("document.querySelector('iframe.view')?.contentDocument?.body?.innerText.includes('It burned')")
    fits = "parseInt(document.querySelector('.line.current')?.style.height) === lineHeight()"
    browser.until(fits, 5)  # the list is narrower beside a record
    browser.run("leaveRecord()")


def on_screens_and_paper(tests: Any, browser: Browser) -> None:
    """Hits fit on narrow and wide screens, aren't faint in light and dark, and are printed."""
    seen = types.SimpleNamespace(browser=browser, holds=tests.holds)
    browser.run("document.querySelector('.records').scrollIntoView({block: 'end'})")
    tests.picture(browser, "page-texts")
    screens(seen, "texts", tests.pictures, "printed")
    browser.ask("Page.printToPDF", {"printBackground": False})
    browser.ask("Emulation.setEmulatedMedia", {"media": "print"})
    printed = browser.run("byId('printed').innerText")
    tests.holds(printed.count("town.example") == 3 and "burned in the night" in printed, "texts: printed", printed)
    tests.holds(not browser.run(FAINT), "texts: nothing that is printed is faint", browser.run(FAINT))
    browser.ask("Emulation.setEmulatedMedia", {"media": ""})


def hits(tests: Any, browser: Browser) -> None:
    """What is found, what is shown of it, and why captures have no text."""
    for words, positions in FOUND.items():
        found = look_for(browser, words)
        tests.holds(found == positions, f"texts: {words}", found)
    for words, sentence in SAID.items():
        look_for(browser, words)
        tests.holds(browser.run("byId('shown').textContent") == sentence, f"texts: {words}", sentence)
    look_for(browser, "nowhere mill")
    said = browser.run("byId('rows').innerText")
    tests.holds("No text has these words. No text has: nowhere." in said, "texts: words that no text has", said)
    look_for(browser, "hostile")
    cell = browser.run("document.querySelector('.line .found').innerText")
    tests.holds(
        "<b>Odd</b> \u27e8U+202E\u27e9" in cell and "<img src=x" in cell, "texts: titles and parts are texts", cell
    )
    marked = browser.run("[...document.querySelectorAll('.line .found mark')].map((it) => it.textContent)")
    tests.holds(marked == ["hostile"], "texts: the words are marked", marked)
    tests.holds(browser.run("document.querySelectorAll('.line img, .line .found b b').length") == 0, "texts: no markup")
    tests.holds(browser.run("document.querySelectorAll('.line .found bdi').length") == 2, "texts: each in a bdi")
    tests.holds(not browser.run("window.hacked"), "texts: nothing runs")
    whys = browser.run("Object.fromEntries([...room.texts.without].map(([why, {size}]) => [why, size]))")
    tests.holds(whys == WHYS, "texts: reasons", whys)
    said = browser.run("byId('of-texts').textContent")
    tests.holds(said == "10 of 14 captures have a text", "texts: how many there are", said)
    browser.run("[...document.querySelectorAll('#whys button')].find((it) => it.ariaLabel.includes('codings')).click()")
    browser.until("room.filters.has('text') && room.texts.hits === null")
    tests.holds(
        browser.run("room.order") == [13], "texts: captures without a text are shown", browser.run("room.order")
    )
    browser.run("room.filters.clear(); byId('in-records').click()")
    browser.run(SEARCH % json.dumps("packed"))
    browser.until("room.words === 'packed' && room.order.length === 1")
    tests.holds(browser.run("byId('reading').hidden && room.order[0]") == 2, "texts: back to records")
    browser.run("byId('in-texts').click(); room.library.end('it stopped')")
    look_for(browser, "mill")
    said = browser.run("byId('rows').innerText")
    tests.holds(said == "The library stopped, so nothing is replayed.", "texts: without the library", said)


def helpers_that_hang(tests: Any, folder: str, path: str) -> None:
    """A page whose reading doesn't end has no text after some time, and the library answers meanwhile."""
    browser = tests.opened(path, page=variant(tests.page, f"{folder}/hangs.html", HANGS))
    try:
        browser.run("byId('in-texts').click()")
        answer = browser.run("room.library.ask([{position: 0}]).then(([it]) => [it.length, room.texts.state])")
        tests.holds(answer == [len(MILL), "reading"], "texts: the library answers while texts are read", answer)
        browser.until(OVER, 120)
        whys = browser.run("Object.fromEntries([...room.texts.without].map(([why, {size}]) => [why, size]))")
        tests.holds(whys == {"no text": 2, "too slow": 11, "P5": 1}, "texts: what takes too long", whys)
    finally:
        browser.close()


def stops_and_limits(tests: Any, folder: str, path: str) -> None:
    """Reading is stopped, and goes on; it ends once there is no room for more texts."""
    browser = tests.opened(path, page=variant(tests.page, f"{folder}/small.html", SMALL))
    try:
        browser.run("byId('in-texts').click(); byId('stop-texts').focus(); byId('stop-texts').click()")
        browser.until("room.texts.read === 1")
        browser.settle()
        said = browser.run("[room.texts.read, byId('of-texts').textContent, byId('stop-texts').textContent]")
        tests.holds(said == [1, "Stopped: texts of 1 of 14 captures are read", "Go on reading"], "texts: stopped", said)
        browser.run("byId('stop-texts').click()")
        browser.until(OVER)
        said = browser.run("byId('of-texts').textContent")
        is_full = said.startswith("This page keeps no more than 256 MB of texts: those of ")
        tests.holds(is_full and browser.run("room.texts.read < room.texts.captures.length"), "texts: a limit", said)
        tests.holds(browser.run("document.activeElement.id") == "words", "texts: the focus isn't lost with the button")
        tests.holds(look_for(browser, "night") == [0, 1], "texts: what was read is found")
    finally:
        browser.close()


def texts(tests: Any, folder: str) -> None:
    """All of it."""
    path = archive(folder)
    browser = tests.opened(path)
    try:
        tables(tests, browser)
        by_keyboard(tests, browser)
        on_screens_and_paper(tests, browser)
        hits(tests, browser)
    finally:
        browser.close()
    helpers_that_hang(tests, folder, path)
    stops_and_limits(tests, folder, path)


# ---------------------------------------------------------------- beside the collection

MAKE = """import sys
sys.path[:0] = [sys.argv[1], sys.argv[2]]
from conftest import Collection
from test_search import three_crawls
three_crawls(Collection(sys.argv[3]))
"""
MARKS = "document.querySelectorAll('.line .found .of-damaged')"
QUERIES = ("mill", "burned", "MÜHLE", "new mill", "sold", '"the mill" -burned', "mil*", "nowhere")


def by_collection(folder: str, warc: str) -> dict[str, Any]:
    """The hits of each query by the collection's search, over three crawls."""
    package = os.path.join(TOP, "out", "python")
    env = {**os.environ, "PYTHONPATH": package, "PYTHONDONTWRITEBYTECODE": "1"}
    make = [sys.executable, "-c", MAKE, f"{TOP}/tests/collection", f"{TOP}/collection", folder]
    subprocess.run(make, check=True, env=env)
    words = [sys.executable, f"{TOP}/collection", "-c", f"{folder}/catalogue"]
    run = [*words, "run", "--warc", warc, "--jobs", "2", "--quiet", "--text", f"{folder}/disk"]
    subprocess.run(run, env=env, check=False, capture_output=True)  # it ends with 1 for the damaged file
    ask = [*words, "search", "--warc", warc, "--json", "--"]
    asked = (subprocess.run([*ask, query], env=env, check=False, capture_output=True) for query in QUERIES)
    return {query: [json.loads(line) for line in done.stdout.splitlines()] for query, done in zip(QUERIES, asked)}


def by_page(tests: Any, *paths: str) -> dict[str, Any]:
    """The captures that have the words of each query, as the page shows them."""
    browser = tests.opened(*paths)
    try:
        browser.run("byId('in-texts').click()")
        browser.until(OVER)
        found = {query: look_for(browser, query) and browser.run(SHOWN) for query in QUERIES}
        look_for(browser, "new mill")
        is_marked = browser.run(f"{MARKS}.length === (damageMark().length ? room.order.length : 0)")
        tests.holds(is_marked, "same hits: those of a damaged file are marked", paths)
        return found
    finally:
        browser.close()


def compare(tests: Any, name: str, shell: dict[str, Any], page: dict[str, Any]) -> None:
    """The same captures for the same words, and of each URI's chosen capture the same title, part and marks."""
    for query in QUERIES:
        wanted = {(os.path.basename(it[0]), it[1]) for hit in shell[query] for it in hit["captures"]}
        found = {(it[1], it[2]): it for it in page[query]}
        tests.holds(set(found) == wanted, f"same hits, {name}: {query}", (sorted(found), sorted(wanted)))
        for hit in shell[query]:
            it = found.get((os.path.basename(hit["chosen"][0]), hit["chosen"][1]))
            same = it and (it[0], *it[4:]) == (hit["uri"], hit["title"], hit["snippet"], hit["marks"])
            tests.holds(same, f"same part, {name}: {query}", (it, hit))
        counts = collections.Counter(it[0] for it in page[query])
        tests.holds(
            {hit["uri"]: hit["count"] for hit in shell[query]} == dict(counts), f"same numbers, {name}: {query}", counts
        )


def same_hits(tests: Any, folder: str) -> None:
    """Over three crawls, opened one by one and joined, the page finds what the collection's search finds."""
    shell = by_collection(folder, tests.program[0])
    tests.holds(len(shell["mill"]) == 3 and not shell["nowhere"], "same hits: the collection's", shell["mill"])
    paths = [f"{folder}/disk/{name}.warc" for name in ("first", "second", "third")]
    compare(tests, "joined", shell, by_page(tests, *paths))
    alone = [by_page(tests, path) for path in paths]
    compare(tests, "one by one", shell, {query: [it for page in alone for it in page[query]] for query in QUERIES})
