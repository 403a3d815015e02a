#!/usr/bin/env python3
"""Tries the reading room in a real browser: Debian's Chromium, headless.

Usage: test_page.py PAGE PROGRAM [FOLDER]

PAGE is zogwedu.html, and PROGRAM is the program `warc`, with which lists, findings and replays are compared, byte for
byte. Pictures of the main views go to FOLDER, if it is given. Needs chromium and wget. The last line is `N passed, M
failed`.
"""

from __future__ import annotations

import base64
import json
import os
import re
import subprocess
import sys
import tempfile
import time
from collections.abc import Callable, Sequence
from concurrent.futures import ThreadPoolExecutor
from typing import Any

sys.path.insert(0, os.path.dirname(os.path.abspath(__file__)))
import building
import burdens
import charsets
import codings
import compressed
import connections
import faithful
import firefox
import heads
import hostile
import missing
import pieces
import robust
import selection
import stations
import styles
import texts
import unguarded
import wacz
from browser import Browser
from variant import variant

HERE = os.path.dirname(os.path.abspath(__file__))
TOP = os.path.dirname(os.path.dirname(HERE))
MANY = 100_000
MOST_NODES = 120  # lines of the list that are in the page at once
MOST_DRAW = 50  # milliseconds for a jump in the list, most of the time
DATES = ("9999", "2026-11-26T04:49Z", "2000")
STATUS = "document.getElementById('status')"
WITHOUT_SECONDS = f"{STATUS}.textContent = {STATUS}.textContent.replace(/ in [0-9.]+ s, findings after [0-9.]+ s$/, '')"

# A tab is drawn, and so is its view with all its pictures, if it has one.
DRAWN = """(() => {
  const frame = document.querySelector('iframe.view'), page = frame?.contentDocument;
  if (document.getElementById('panel')?.dataset.ready !== 'yes') return false;
  return !frame || (frame.dataset.shown === 'yes' && page.readyState === 'complete' &&
                    [...page.images].every((it) => it.complete));
})()"""

ASKED = """async (questions) => {
  const bytes = (text) => Uint8Array.from(atob(text), (letter) => letter.charCodeAt(0));
  const answers = await room.library.ask(
      questions.map((it) => (it.uri === undefined ? it : {uri: bytes(it.uri), date: it.date})));
  return answers.map((it) => {
    if (!it.body) return {...it, body: null};
    let words = '';
    for (let at = 0; at < it.body.length; at += 0x8000)
      words += String.fromCharCode(...it.body.subarray(at, at + 0x8000));
    return {...it, body: btoa(words)};
  });
}"""


class Tests:
    def __init__(self, page: str, program: str, pictures: str) -> None:
        self.page, self.program, self.pictures = os.path.abspath(page), program.split(), pictures
        self.passed = self.failed = 0

    def holds(self, is_so: Any, words: str, more: Any = "") -> None:
        """Counts a check, and prints one that doesn't hold."""
        if is_so:
            self.passed += 1
        else:
            self.failed += 1
            print(f"FAILED {words} {str(more)[:600]}", flush=True)

    def warc(self, *words: Any) -> tuple[bytes, str, int]:
        run = subprocess.run([*self.program, *words], capture_output=True)
        return run.stdout, run.stderr.decode(errors="replace"), run.returncode

    def picture(self, browser: Browser, name: str) -> None:
        """Takes a picture, if they are wanted. It shows no seconds, which are the machine's."""
        if self.pictures:
            os.makedirs(self.pictures, exist_ok=True)
            said = browser.run(f"{STATUS}.textContent")
            browser.run(WITHOUT_SECONDS)
            browser.picture(f"{self.pictures}/{name}.png")
            browser.run(f"{STATUS}.textContent = {json.dumps(said)}")

    def opened(self, *archive: str, page: str | None = None, **how: Any) -> Browser:
        """A browser in which an archive of one or more files is opened, and its findings are there."""
        browser = Browser(**how)
        browser.go(page or self.page)
        browser.give_file("#file", *archive)
        is_empty = "(room.end === 0 && (room.fault || room.damage))"
        browser.until(f"room.listed && (!room.holds || room.findings !== null || {is_empty})", 600)
        # What is still to be drawn makes the list anew.
        browser.until("room.counts.judged === room.rows.count && !drawing", 600)
        return browser


def facts_line(answer: dict[str, Any]) -> str:
    """The line that the program prints of an answer."""
    if answer.get("reason"):
        return f"warc: {answer['reason']}\n"
    status = "-" if answer["status"] is None else answer["status"]
    truncated = "yes" if answer["truncated"] else "no"
    return (
        f"chosen {answer['chosen']} given {answer['given']} status {status} truncated {truncated} "
        f"length {answer['length']}\n"
    )


def lines_of(browser: Browser) -> bytes:
    lines = browser.run(
        "(() => { const lines = []; for (let p = 0; p < room.rows.count; p += 1)"
        " lines.push(listLine(room.rows.row(p))); return lines.join(''); })()"
    )
    return str(lines).encode("latin-1")


def verdicts_of(browser: Browser) -> list[str]:
    return list(
        browser.run(
            "(() => { const all = []; for (let p = 0; p < room.rows.count; p += 1) all.push(room.rows.row(p).verdict); "
            "return all; })()"
        )
    )


def verdicts_by_program(tests: Tests, archive: str, count: int) -> list[str]:
    """The verdict on each record's block, from the lines of `warc fixity`, which name the blocks that aren't good."""
    lines = tests.warc("fixity", archive)[0].decode("latin-1").split("\n")[:-2]
    named = dict(line.split("\t")[:2] for line in lines)
    return [named.get(str(position), "good") for position in range(count)]


def same_as_program(tests: Tests, name: str, archive: str, given: Any = ()) -> None:
    """List, findings and every replay of an archive equal the program's bytes. Other files that are the same archive
    may be given to the page."""
    browser = tests.opened(*(given or [archive]))
    try:
        out, err, status = tests.warc("list", archive)
        listed = out
        if status != 0:
            tests.holds(
                f"warc: {browser.run('room.fault')}\n" in err, f"{name}: fault", (err, browser.run("room.fault"))
            )
            damaged, archive = archive, f"{archive}.good"
            with open(archive, "wb") as saved:
                saved.write(tests.warc("salvage", damaged, "--all")[0])
            tests.holds(os.path.getsize(archive) == browser.run("room.end"), f"{name}: length of the good records")
            out = tests.warc("list", archive)[0]
            listed = pieces.lines_in_file(tests, damaged, out)
        tests.holds(lines_of(browser) == listed, f"{name}: list", listed[:200])
        verdicts = verdicts_by_program(tests, archive, out.count(b"\n"))
        tests.holds(verdicts_of(browser) == verdicts, f"{name}: verdicts", verdicts[:20])
        tests.holds(
            browser.run("room.counts.verdicts") == [verdicts.count(it) for it in ("good", "bad", "unchecked")],
            f"{name}: counts of verdicts",
        )
        if browser.run("room.findings === null"):
            return
        tests.holds(
            browser.run("room.findingLines").encode("latin-1") == tests.warc("check", archive)[0], f"{name}: findings"
        )
        rows = [line.split(b"\t", 6) for line in out.split(b"\n")[:-1]]
        captures = [row for row in rows if row[3].lower() in (b"response", b"resource", b"revisit")]
        asked: list[dict[str, Any]] = [{"position": position} for position in range(len(rows) + 1)]
        pairs = sorted({(row[6], date) for row in captures for date in (row[4].decode(), *DATES)})[:1200]
        asked += [{"uri": base64.b64encode(uri).decode(), "date": date} for uri, date in pairs]
        asked.append({"uri": base64.b64encode(b"http://nowhere.example/").decode(), "date": "9999"})
        asked.append({"uri": base64.b64encode(b"x").decode(), "date": "2021-02-29"})
        answers = browser.run(f"({ASKED})({json.dumps(asked)})")
        every = [
            ("body", archive, str(it["position"]))
            if "position" in it
            else ("replay", archive, base64.b64decode(it["uri"]), it["date"])
            for it in asked
        ]
        with ThreadPoolExecutor() as pool:
            runs = list(pool.map(lambda words: tests.warc(*words), every))
        for words, answer, (body, told, _) in zip(every, answers, runs):
            mine = base64.b64decode(answer["body"]) if answer["body"] is not None else b""
            tests.holds(
                (mine, facts_line(answer)) == (body, told),
                f"{name}: {words[0]} {words[2:]}",
                (facts_line(answer), told, len(mine), len(body)),
            )
        print(f"{name}: {len(rows)} records, {len(asked)} replays compared", flush=True)
    finally:
        browser.close()


def open_all_tabs(browser: Browser, position: int) -> None:
    """Opens a record, and each of its tabs."""
    browser.run(f"openRecord({position})")
    count = browser.run("document.querySelectorAll('[role=tab]').length")
    for number in range(count):
        browser.run(f"document.querySelectorAll('[role=tab]')[{number}].click()")
        browser.until(DRAWN, 30)


def loads(browser: Browser) -> list[str]:
    """What was asked of the network, and not of this computer alone."""
    urls = [it["params"]["request"]["url"] for it in browser.events if it["method"] == "Network.requestWillBeSent"]
    return [url for url in urls if not re.match(r"(file|blob|data|about|chrome):", url)]


def blocked(browser: Browser) -> list[Any]:
    """Reports of a policy that blocked something."""
    issues = [it["params"]["issue"] for it in browser.events if it["method"] == "Audits.issueAdded"]
    return [it for it in issues if it["code"] == "ContentSecurityPolicyIssue"]


def directive(issue: Any) -> str:
    """Which rule of the policy an issue is about."""
    return str(issue["details"]["contentSecurityPolicyIssueDetails"]["violatedDirective"])


def hostile_archive(tests: Tests, folder: str) -> None:
    """Nothing of a hostile archive runs, and nothing loads."""
    archive = f"{folder}/hostile.warc"
    hostile.make(archive)
    browser = tests.opened(archive)
    try:
        tests.holds(browser.run("room.rows.count") == len(hostile.NAMES) + 2, "hostile: records")
        for position in range(browser.run("room.rows.count")):
            browser.run("room.tab = 'Page'")
            open_all_tabs(browser, position)
        browser.run("room.tab = 'Page'; openRecord(0)")
        browser.until("document.querySelector('iframe.view') !== null")
        browser.until(DRAWN)
        browser.settle()
        tests.picture(browser, "hostile")
        browser.run("document.getElementById('words').value = 'script'; room.words = 'script'; filter()")
        hacked = browser.run("window.hacked")
        tests.holds(hacked is None, "hostile: nothing runs", hacked)
        tests.holds(not loads(browser), "hostile: nothing loads", loads(browser))
        parsed = ("base-uri", "script-src-attr", "script-src-elem", "style-src-attr")
        tried = [it for it in map(directive, blocked(browser)) if it not in parsed]
        tests.holds(not tried, "hostile: the policy has no load to block in the views", tried)
        tests.holds(
            not [it for it in browser.events if it["method"] == "Page.javascriptDialogOpening"], "hostile: no dialog"
        )
        tests.holds(browser.run("location.href").startswith("file:"), "hostile: the page stays")
        wide = browser.run("document.documentElement.scrollWidth <= innerWidth")
        tests.holds(wide, "hostile: a target of 60 KB doesn't widen the page")
        # The frame and its policy alone hold the same, even if nothing is taken out of the page.
        source = json.dumps(hostile.PAGE)
        browser.run(f"document.querySelector('iframe.view').srcdoc = asHtml(EMPTY_VIEW + {source}); 0")
        browser.until("document.querySelector('iframe.view').contentDocument?.readyState === 'complete'")
        browser.settle()
        hacked = browser.run("window.hacked")
        tests.holds(hacked is None, "hostile, not rewritten: nothing runs", hacked)
        reached = [
            it
            for it in browser.events
            if it["method"] in ("Network.responseReceived",) and "evil.example" in it["params"]["response"]["url"]
        ]
        tests.holds(not reached, "hostile, not rewritten: nothing is reached")
        tried = [it for it in map(directive, blocked(browser)) if it not in parsed]
        tests.holds(len(tried) > 5, "hostile, not rewritten: the policy reports what it blocks", tried)
        tests.holds(browser.run("location.href").startswith("file:"), "hostile, not rewritten: the page stays")
        print(f"hostile: {len(tried)} loads blocked and reported, all of the page that wasn't rewritten", flush=True)
    finally:
        browser.close()


def small_record(number: int) -> bytes:
    block = b"number %d" % number
    return (
        b"WARC/1.1\r\nWARC-Type: resource\r\nWARC-Record-ID: <urn:x:%d>\r\nWARC-Date: 20%02d-%02d-01T00:00:00Z\r\n"
        b"WARC-Target-URI: http://host%d.example/page/%d\r\nContent-Type: text/plain\r\n"
        b"Content-Length: %d\r\n\r\n%s\r\n\r\n"
        % (number, number % 25, number % 12 + 1, number % 40, number, len(block), block)
    )


def many_rows(tests: Tests, folder: str) -> None:
    """100,000 records: only lines that are seen are drawn, jumps are quick, and a search finds."""
    archive = f"{folder}/many.warc"
    with open(archive, "wb") as out:
        for number in range(MANY):
            out.write(small_record(number))
    browser = tests.opened(archive)
    try:
        tests.holds(browser.run("room.rows.count") == MANY, "many: records")
        draw = browser.run(
            """(async () => {
              const list = document.getElementById('rows'), times = [];
              let nodes = 0;
              for (let turn = 0; turn < 60; turn += 1) {
                const begun = performance.now();
                list.scrollTop = (turn * 7919 % 100) / 100 * list.scrollHeight;
                drawRows();
                list.offsetHeight;
                times.push(performance.now() - begun);
                nodes = Math.max(nodes, document.querySelectorAll('.line').length);
                await new Promise((done) => requestAnimationFrame(done));
              }
              times.sort((a, b) => a - b);
              return [times[30], nodes];
            })()"""
        )
        tests.holds(draw[1] <= MOST_NODES, "many: only lines that are seen are drawn", draw)
        tests.holds(draw[0] <= MOST_DRAW, "many: a jump in the list is quick", draw)
        begun = time.monotonic()
        browser.run("document.getElementById('words').value = '/page/777'; room.words = '/page/777'; filter()")
        found = browser.run("room.order.length")
        took = time.monotonic() - begun
        tests.holds(found == 111, "many: the search finds", found)
        browser.run("room.words = ''; filter(); sortBy('target')")
        first = browser.run("latin.decode(room.rows.row(room.order[0]).target)")
        tests.holds(first == "http://host0.example/page/0", "many: sorted by target", first)
        browser.run("sortBy('position')")
        browser.run("document.querySelector('#hosts .bar').click()")
        tests.holds(browser.run("room.order.length") == MANY // 40, "many: a plot filters the list")
        browser.run("document.querySelector('#hosts .bar').click()")
        self_time = browser.run("room.listedIn")
        print(
            f"many: listed in {self_time:.0f} ms, a jump {draw[0]:.1f} ms, {draw[1]} lines drawn, "
            f"first search {took * 1000:.0f} ms",
            flush=True,
        )
        tests.picture(browser, "many")
    finally:
        browser.close()


def resource(number: int, block: bytes) -> bytes:
    return (
        b"WARC/1.1\r\nWARC-Type: resource\r\nWARC-Record-ID: <urn:x:%d>\r\nWARC-Date: 2026\r\n"
        b"WARC-Target-URI: http://a.example/%d\r\n"
        b"Content-Type: text/plain\r\nContent-Length: %d\r\n\r\n%s\r\n\r\n" % (number, number, len(block), block)
    )


def in_segments(tests: Tests, folder: str) -> None:
    """Archives that are long enough for helpers: with blocks that look like records, with a block longer than a
    segment, torn, and damaged in the middle. The list is the program's, and the fault too."""
    inner, small = b"".join(small_record(number) for number in range(4000)), b"x" * 9000
    plain = b"".join(resource(number, small) for number in range(5000))
    archives = {
        "inner": b"".join(resource(number, inner) for number in range(40)),
        "plain": plain,
        "torn": plain[:-5000],
        "long": resource(0, b"y" * 40_000_000) + plain[:8_000_000],
        "changed": plain[:30_000_000] + b"?" + plain[30_000_001:],
    }
    for name, data in archives.items():
        archive = f"{folder}/segments-{name}.warc"
        with open(archive, "wb") as file:
            file.write(data)
        browser = tests.opened(archive)
        try:
            out, err, status = tests.warc("list", archive)
            if status != 0:
                tests.holds(
                    f"warc: {browser.run('room.fault')}\n" in err,
                    f"segments, {name}: fault",
                    (err, browser.run("room.fault")),
                )
                with open(f"{archive}.good", "wb") as saved:
                    saved.write(tests.warc("salvage", archive, "--all")[0])
                tests.holds(
                    os.path.getsize(f"{archive}.good") == browser.run("room.end"),
                    f"segments, {name}: length of the good records",
                )
                out = pieces.lines_in_file(tests, archive, tests.warc("list", f"{archive}.good")[0])
            tests.holds(lines_of(browser) == out, f"segments, {name}: list", browser.run("room.rows.count"))
            print(f"segments, {name}: {len(data):,} bytes listed in {browser.run('room.listedIn'):.0f} ms", flush=True)
        finally:
            browser.close()
        os.remove(archive)


def by_keyboard(tests: Tests, archive: str) -> None:
    """A reader without a mouse gets to a record and through its tabs; each control has a name."""
    browser = tests.opened(archive)
    try:
        browser.run("document.getElementById('list').focus()")
        for _ in range(3):
            browser.press("ArrowDown")
        tests.holds(browser.run("room.current") == 2, "keyboard: arrows", browser.run("room.current"))
        tests.holds(
            browser.run("document.getElementById('list').getAttribute('aria-activedescendant')") == "current-line",
            "keyboard: the list says its line",
        )
        browser.press("Enter", "\r")
        browser.until("document.getElementById('panel')?.dataset.ready === 'yes'", 30)
        tests.holds(
            browser.run("document.activeElement.id") == "record",
            "keyboard: focus goes to the record",
            browser.run("document.activeElement.id"),
        )
        browser.run("document.getElementById('tab-0').focus()")
        browser.press("ArrowRight")
        browser.until("document.getElementById('panel')?.dataset.ready === 'yes'", 30)
        tests.holds(
            browser.run("document.activeElement.id + document.activeElement.getAttribute('aria-selected')")
            == "tab-1true",
            "keyboard: tabs by arrows",
        )
        for place in ("#types .bar", "#only"):
            browser.run(f"document.querySelector('{place}').focus()")
            browser.press("Enter", "\r")
            tests.holds(
                browser.run(f"document.activeElement.matches('{place}')"),
                f"keyboard: the focus stays at {place}",
                browser.run("document.activeElement.outerHTML.slice(0, 99)"),
            )
        browser.run("room.filters.clear(); drawPlots(); filter(); document.querySelector('#types .bar').focus()")
        browser.press("ArrowDown")
        tests.holds(
            browser.run("document.activeElement === document.querySelectorAll('#types .bar')[1]"),
            "keyboard: arrows lead from bar to bar",
        )
        tests.holds(
            browser.run("document.querySelectorAll('#types .bar[tabindex=\"0\"]').length") == 1,
            "keyboard: one stop for all bars of a plot",
        )
        for leave in ("Enter", "Escape"):
            browser.run("openRecord(2)")
            browser.until("document.getElementById('panel')?.dataset.ready === 'yes'", 30)
            browser.run("document.querySelector('.close').focus()")
            browser.press(leave, "\r" if leave == "Enter" else "")
            tests.holds(
                browser.run("document.activeElement.id + document.getElementById('record').hidden") == "listtrue",
                f"keyboard: {leave} closes a record and leads to the list",
                browser.run("document.activeElement.id"),
            )
        browser.run("document.activeElement.blur()")
        browser.press("/", "/")
        tests.holds(
            browser.run("document.activeElement.id") == "words",
            "keyboard: / goes to the search",
            browser.run("document.activeElement.id"),
        )
        nameless = browser.nameless()
        tests.holds(not nameless, "each control has a name", nameless)
    finally:
        browser.close()


def follows_links(tests: Tests, browser: Browser, site: str) -> None:
    """From the view of page 12, a link leads to page 13, and Back leads to page 12 again. A link that leads nowhere
    says so."""
    title = "document.querySelector('#record h2').textContent"

    def click(link: str) -> None:
        browser.until(
            "document.querySelector('iframe.view')?.contentDocument?.querySelector('a[href]') && "
            "document.getElementById('panel').dataset.ready === 'yes'",
            30,
        )
        browser.until(DRAWN, 30)
        browser.run(
            "[...document.querySelector('iframe.view').contentDocument.querySelectorAll('a[href]')].find((it) => "
            f"it.title.endsWith('{link}')).click()"
        )

    click("/page/13")
    browser.until(f"{title} === '{site}page/13'", 30)
    browser.run("history.back()")
    browser.until(f"{title} === '{site}page/12'", 30)
    tests.passed += 2
    browser.until("Boolean(document.querySelector('iframe.view')?.contentDocument?.querySelector('a[href]'))", 30)
    browser.run(
        "capturesOf(typed('x')); room.captures.delete([...room.captures.keys()].find((it) => "
        "it.endsWith('/page/11'))); 0"
    )
    click("/page/11")
    browser.until("document.getElementById('panel').innerText.includes('The archive has no capture of')", 10)
    tests.holds(browser.run(title) == f"{site}page/12", "view: a link that leads nowhere stays")
    browser.run("room.captures = null; scrollTo(0, 0)")


def views(tests: Tests, archive: str, site: str) -> None:
    """The main views over a crawl: pictures and styles of the moment, what is missing, coded pages, reasons in
    words."""
    browser = tests.opened(archive)
    where = (
        "(() => { for (let p = 0; p < room.rows.count; p += 1) { const row = room.rows.row(p); "
        "if (row.kind === '%s' && latin.decode(row.target).endsWith('%s')) return p; } return -1; })()"
    )

    def show(kind: str, end: str) -> str:
        browser.run(f"room.tab = 'Page'; openRecord({browser.run(where % (kind, end))})")
        browser.until(DRAWN, 60)
        return str(browser.run("document.getElementById('panel').innerText"))

    try:
        tests.picture(browser, "overview")
        words = show("response", "/page/12")
        tests.holds(
            "4 pictures and styles from the archive" in words and "1 missing" in words,
            "view: pictures and styles",
            words[:400],
        )
        source = browser.run("document.querySelector('iframe.view').contentDocument.documentElement.outerHTML")
        tests.holds(
            'src="blob:' in source and "line-height" in source, "view: a style that a style names, and a picture"
        )
        tests.holds(
            not re.search(r"(src|href)=\"http|url\(.?http", source), "view: no reference leads out", source[:600]
        )
        colour = browser.run(
            "getComputedStyle(document.querySelector('iframe.view').contentDocument.querySelector('h1')).color"
        )
        tests.holds(colour == "rgb(43, 93, 126)", "view: a sheet with the end of a style element in a comment", colour)
        drawn = browser.run(
            "[...document.querySelector('iframe.view').contentDocument.images].map((it) => it.naturalWidth)"
        )
        tests.holds(drawn == [200, 120], "view: a picture is drawn, and a mark for one that is missing", drawn)
        tests.holds(
            browser.run("document.querySelector('iframe.view').getAttribute('sandbox')") == "allow-same-origin",
            "view: a sandbox without scripts",
        )
        browser.run("scrollTo(0, 0)")
        tests.picture(browser, "page")
        follows_links(tests, browser, site)
        words = show("revisit", "/page/12")
        tests.holds("This is a revisit" in words, "view: where a revisit leads", words[:300])
        for end in ("/packed", "/chunked"):
            words = show("response", end)
            tests.holds(
                "P10 Coded" in words and "Decoded by this browser" in words,
                f"view: {end} is decoded, and says so",
                words[:300],
            )
        tests.picture(browser, "coded")
        words = show("response", "/moved")
        tests.holds("sent the reader on to" in words, "view: a redirect says where", words[:300])
        words = show("response", "/empty")
        tests.holds("The body is empty" in words, "view: an empty body", words[:300])
        browser.run(
            "document.getElementById('uri').value = 'http://nowhere.example/'; "
            "document.getElementById('as-of').requestSubmit()"
        )
        browser.until("document.getElementById('record').innerText.includes('P1 NoCapture')", 30)
        tests.holds(
            "Nothing was captured of this URI" in browser.run("document.getElementById('record').innerText"),
            "as of: a reason in words",
        )
        browser.run(
            f"document.getElementById('uri').value = '{site}page/12'; document.getElementById('moment').value = '9999';"
            " document.getElementById('as-of').requestSubmit()"
        )
        browser.until(
            "document.getElementById('panel')?.dataset.ready === 'yes' && "
            "document.getElementById('panel').innerText.includes('chooses this capture')",
            30,
        )
        tests.passed += 1
        tests.holds(
            browser.run("room.library.openings") == 1,
            "views: the archive is opened once",
            browser.run("room.library.openings"),
        )
        tests.holds(not loads(browser), "views: nothing loads", loads(browser))
        errors = [
            it["params"]["exceptionDetails"] for it in browser.events if it["method"] == "Runtime.exceptionThrown"
        ]
        tests.holds(not errors, "views: no error", errors[:1])
        printed = browser.ask("Page.printToPDF", {"printBackground": False})["data"]
        tests.holds(len(printed) > 5000, "views: prints")
    finally:
        browser.close()
    browser = tests.opened(archive, dark=True)
    try:
        browser.run(f"openRecord({browser.run(where % ('response', '/page/12'))})")
        browser.until(DRAWN, 60)
        browser.run("scrollTo(0, 0)")
        tests.picture(browser, "dark")
        dark = browser.run("getComputedStyle(document.body).backgroundColor")
        tests.holds(dark != "rgb(251, 250, 247)", "dark: other colours", dark)
    finally:
        browser.close()


def saved_bytes(tests: Tests, folder: str, archive: str) -> None:
    """A download has exactly the bytes that the program gives."""
    browser = tests.opened(archive)
    try:
        browser.ask("Browser.setDownloadBehavior", {"behavior": "allow", "downloadPath": folder}, session=None)
        browser.run("room.tab = 'Page'; openRecord(4)")
        browser.until("document.getElementById('panel')?.dataset.ready === 'yes'", 30)
        browser.run(
            "[...document.querySelectorAll('.actions button')].find((it) => "
            "it.textContent === 'Save the exact bytes').click()"
        )
        path, end, wanted = f"{folder}/sky.png", time.monotonic() + 20, tests.warc("body", archive, "4")[0]
        while not (os.path.exists(path) and os.path.getsize(path) >= len(wanted)) and time.monotonic() < end:
            browser.run("0")
            time.sleep(0.1)
        with open(path, "rb") as saved:
            tests.holds(saved.read() == wanted, "download: the exact bytes")
    except OSError as error:
        tests.holds(False, "download", error)
    finally:
        browser.close()


def too_long(tests: Tests, folder: str, archive: str) -> None:
    """An archive over the limit is listed, its records are shown, and the page says that it isn't replayed."""
    page = variant(tests.page, f"{folder}/limited.html", {"const LIMIT = 2 * 1024 ** 3;": "const LIMIT = 5000;"})
    browser = tests.opened(archive, page=page)
    try:
        tests.holds(lines_of(browser) == tests.warc("list", archive)[0], "too long: list")
        tests.holds(
            "too long to be replayed" in browser.run("document.getElementById('status').textContent"),
            "too long: says so",
        )
        browser.run("room.tab = 'Page'; openRecord(2)")
        browser.until("document.getElementById('panel')?.dataset.ready === 'yes'", 30)
        words = browser.run("document.getElementById('panel').innerText")
        tests.holds("as it is stored" in words and "HTTP/1.1 200 OK" in words, "too long: the block", words[:300])
    finally:
        browser.close()


def damaged(tests: Tests, folder: str) -> None:
    """A damaged archive: where and why, and its good part."""
    archive = f"{folder}/torn.warc"
    with open(f"{TOP}/examples/crawl.warc", "rb") as whole, open(archive, "wb") as out:
        out.write(whole.read()[:-500])
    browser = tests.opened(archive)
    try:
        words = browser.run("document.getElementById('damage').innerText")
        tests.holds(
            "F11 Truncated" in words and "The file ends before its last record does" in words, "damaged: why", words
        )
        tests.holds("17 records" in words, "damaged: its good part", words)
        tests.picture(browser, "damaged")
    finally:
        browser.close()


def compare_all(tests: Tests, folder: str, crawled: str) -> None:
    """The worked archives, odd ones, and the crawl."""
    archives = sorted(f"{TOP}/examples/{name}" for name in os.listdir(f"{TOP}/examples") if name.endswith(".warc"))
    odd = {
        "split": tests.warc("split", f"{TOP}/examples/crawl.warc", "100")[0],
        "empty": b"",
    }
    for name, data in odd.items():
        with open(f"{folder}/{name}.warc", "wb") as out:
            out.write(data)
    for archive in [*[copied(it, folder) for it in archives], *[f"{folder}/{name}.warc" for name in odd], crawled]:
        same_as_program(tests, os.path.basename(archive), archive)


ALL = (
    *("building", "charsets", "codings", "compare", "compressed", "damaged", "heads", "hostile", "unguarded"),
    *("connections", "firefox", "burdens", "robust", "faithful", "views", "keyboard", "saved", "selection", "pieces"),
    *("missing", "long", "many", "segments", "styles", "texts", "wacz", "unguarded-leaks"),
)
OVER_A_CRAWL = {"compare", "pieces", "views"}


def parts(tests: Tests, folder: str, crawled: str, where: str) -> dict[str, Callable[[], None]]:
    """Each part, by its name. Those over a crawl need one, and the address of its site."""
    small = f"{TOP}/examples/crawl.warc"
    return {
        "building": lambda: building.building(tests, folder),
        "charsets": lambda: charsets.charsets(tests),
        "codings": lambda: codings.codings(tests),
        "compare": lambda: compare_all(tests, folder, crawled),
        "compressed": lambda: compressed.compressed(tests, folder, same_as_program),
        "damaged": lambda: damaged(tests, folder),
        "heads": lambda: heads.heads(tests, folder),
        "hostile": lambda: hostile_archive(tests, folder),
        "unguarded": lambda: unguarded.unguarded(tests, folder),
        "unguarded-leaks": lambda: unguarded.unguarded_leaks(tests, folder),
        "connections": lambda: connections.no_connections(tests, folder),
        "firefox": lambda: firefox.in_firefox(tests, folder),
        "burdens": lambda: burdens.burdens(tests, folder),
        "robust": lambda: robust.robust(tests, folder),
        "faithful": lambda: faithful.faithful(tests, folder),
        "views": lambda: views(tests, crawled, where),
        "keyboard": lambda: by_keyboard(tests, small),
        "styles": lambda: styles.styles(tests),
        "texts": lambda: texts.texts(tests, folder),
        "saved": lambda: saved_bytes(tests, folder, small),
        "selection": lambda: selection.selection(tests, folder),
        "wacz": lambda: wacz.wacz(tests, folder),
        "pieces": lambda: pieces.pieces(tests, folder, crawled, same_as_program),
        "missing": lambda: missing.missing(tests),
        "long": lambda: too_long(tests, folder, small),
        "many": lambda: many_rows(tests, folder),
        "segments": lambda: in_segments(tests, folder),
    }


def try_parts(tests: Tests, names: Sequence[str], folder: str) -> None:
    """Tries parts in a folder. A browser that ends is a check that doesn't hold."""
    crawled = f"{folder}/stations.warc"
    where = stations.crawl(crawled) if OVER_A_CRAWL & set(names) else ""
    every = parts(tests, folder, crawled, where)
    for name in names:
        try:
            every[name]()
        except (RuntimeError, OSError) as error:
            tests.holds(False, name, error)


def main() -> None:
    tests = Tests(sys.argv[1], sys.argv[2], (sys.argv[3:] or [""])[0])
    names = os.environ.get("PAGE_TESTS", ",".join(ALL)).split(",")
    with tempfile.TemporaryDirectory(prefix="zogwedu-page-test-") as folder:
        try_parts(tests, names, folder)
    print(f"{tests.passed} passed, {tests.failed} failed")
    sys.exit(1 if tests.failed else 0)


def copied(archive: str, folder: str) -> str:
    """A copy in a folder where the test may write."""
    path = f"{folder}/{os.path.basename(archive)}"
    with open(archive, "rb") as whole, open(path, "wb") as out:
        out.write(whole.read())
    return path


if __name__ == "__main__":
    main()
