#!/usr/bin/env python3
"""Tries the reading room over a collection in Debian's Chromium, headless, and in Firefox where it is there.

Usage: test_served.py PROGRAM [FOLDER]

PROGRAM is the program `warc`, with which the collection is read. A picture of the room goes to FOLDER, if it is given.
Needs chromium, and what `make python` makes; where that isn't there, nothing is tried, and a line says so. The last
line is `N passed, M failed`.
"""

from __future__ import annotations

import base64
import contextlib
import gzip
import itertools
import os
import sys
import tempfile
from collections.abc import Iterator
from typing import Any

HERE = os.path.dirname(os.path.abspath(__file__))
sys.path[:0] = [HERE, *(os.path.join(os.path.dirname(HERE), name) for name in ("stress", "reference"))]
import firefox
from browser import Browser
from collection_trial import Trial, put, record
from finding import finding
from listener import Listener
from packages import page_line, wacz_of
from serve_trial import PACKAGE, Served, served, wait_for

FIRST, SECOND = "2020-01-01T00:00:00Z", "2021-06-01T12:00:00Z"
MONTH = "2020-%02d-01T00:00:00Z"
TOP = b"http://site.example/"
PROFILE = "http://netpreserve.org/warc/1.1/revisit/identical-payload-digest"
PICTURE = base64.b64decode(
    "iVBORw0KGgoAAAANSUhEUgAAAAEAAAABCAYAAAAfFcSJAAAADUlEQVR42mNk+M9QDwADhgGAWjR9awAAAABJRU5ErkJggg=="
)
FRONT = b"""<!doctype html><html><head><title>Front</title><link rel=stylesheet href="style.css"></head><body>
<h1>%s</h1><p>A page of a site that isn't there any more.</p>
<img id=picture src="/picture.png" width=80 height=60 alt=""> <a id=more href="more?a=b&amp;c=d">More of it</a>
<a id=gone href="http://gone.example/">Elsewhere</a></body></html>"""
STYLE = b"h1 { color: rgb(1, 100, 2); border-bottom: 3px solid } body { background: #f6f1e4; font-family: serif }"
SHOWN = "document.querySelector('iframe.view')?.dataset.shown === 'yes'"
MARKUP = "odd <b>markup</b> \u202e".encode()
LAST = "last.localhost"  # what the browser connects to once a page has had its turn
IN_VIEW = "document.querySelector('iframe.view').contentDocument"
LOOK_FOR = """document.getElementById('find-words').value = arguments[0];
document.getElementById('find-form').requestSubmit();"""


def evil(port: int) -> bytes:
    """A page that tries to run, to load, to post, to navigate the top, and to read what the room stores."""
    at = b"http://127.0.0.1:%d/" % port
    script = b"parent.ran = 1; top.location = '%s'; fetch('%s'); localStorage.evil = 1" % (at, at)
    return (
        b'<!doctype html><body onload="%s"><h1>Evil</h1><script>%s</script><script src=%sa.js></script>'
        b'<img src=%sb.png onerror="%s"><link rel=stylesheet href=%sc.css><link rel=preconnect href=%s>'
        b"<iframe src=%sd></iframe><object data=%se></object><embed src=%sf><video src=%sg autoplay></video>"
        b"<form id=f action=%sh method=post target=_top><input name=a value=b><button id=post>x</button></form>"
        b"<meta http-equiv=refresh content='0;url=%si'><base href=%s>"
        b"<a id=top href='javascript:%s' target=_top>x</a><svg onload=\"%s\"><use href=%sj#x /></svg>"
    ) % (script, script, at, at, script, at, at, at, at, at, at, at, at, at, script, script, at)


def response(number: int, date: str, path: bytes, media: bytes, body: bytes, more: bytes = b"") -> bytes:
    head = b"HTTP/1.1 200 OK\r\nContent-Type: %s\r\n%s\r\n" % (media, more)
    return record("response", number, date, TOP + path, head + body, content_type="application/http;msgtype=response")


def revisit(number: int, date: str, path: bytes, of: str) -> bytes:
    fields = {"WARC_Profile": PROFILE, "WARC_Refers_To": of}
    return record("revisit", number, date, TOP + path, b"", **fields)


def elsewhere(number: int, target: bytes, day: str) -> bytes:
    """A page of another host."""
    block = b"HTTP/1.1 200 OK\r\nContent-Type: text/html\r\n\r\n<title>The mill</title><p>It burned before %s."
    date, content_type = f"{day}T00:00:00Z", "application/http;msgtype=response"
    return record("response", number, date, target, block % day.encode(), content_type=content_type)


def collection(folder: str, port: int) -> None:
    """Two crawls of a site: the second has its picture in the first, and is compressed. A third is of two others."""
    first = [
        response(1, FIRST, b"", b"text/html", FRONT % b"Snow"),
        response(2, FIRST, b"picture.png", b"image/png", PICTURE),
        response(3, FIRST, b"style.css", b"text/css", STYLE),
    ]
    packed = gzip.compress(b"<h1>Packed</h1>")
    of = "<urn:uuid:00000000-0000-4000-8000-%012d>"
    second = [
        response(11, SECOND, b"", b"text/html", FRONT % b"Rain"),
        revisit(12, SECOND, b"picture.png", of % 2),
        response(13, SECOND, b"more?a=b&c=d", b"text/html; charset=utf-8", "<h1>Mehr für alle</h1>".encode()),
        response(14, SECOND, b"packed", b"text/html", packed, b"Content-Encoding: gzip\r\n"),
        revisit(15, SECOND, b"lost", of % 999),
        response(16, SECOND, b"evil", b"text/html", evil(port)),
        record("resource", 17, SECOND, "http://site.example/\u00fc \u202e".encode(), MARKUP),
    ]
    first += [response(30 + it, MONTH % (it + 1), b"often", b"text/html", b"<h1>%d</h1>" % it) for it in range(12)]
    put(os.path.join(folder, "first.warc"), b"".join(first))
    put(os.path.join(folder, "second.warc.gz"), gzip.compress(b"".join(second)))
    pages = itertools.product((b"http://river.example/", b"http://town.example/mill"), ("2018-03-01", "2019-04-01"))
    third = b"".join(elsewhere(50 + number, *it) for number, it in enumerate(pages))
    put(os.path.join(folder, "third.warc"), third)


class Tests:
    """What passed and what failed, in one browser over one server."""

    def __init__(self, browser: Browser, server: Served) -> None:
        self.browser = browser
        self.at = f"http://{server.host}:{server.port}/"
        self.passed = self.failed = 0

    def holds(self, is_so: Any, words: str, more: Any = "") -> None:
        """Counts a check, and prints one that doesn't hold."""
        self.passed += bool(is_so)
        self.failed += not is_so
        if not is_so:
            print(f"FAILED {words} {str(more)[:600]}", flush=True)

    def go(self, path: str) -> None:
        self.browser.ask("Page.navigate", {"url": self.at + path})
        self.browser.until("document.readyState === 'complete' && typeof served === 'object'")

    def text(self) -> str:
        return str(self.browser.run("document.body.innerText"))

    def shows(self, words: str, seconds: int = 30) -> bool:
        """Waits until a view has a heading."""
        code = f"{SHOWN} && {IN_VIEW}.querySelector('h1')?.textContent === {words!r}"
        return self.becomes(code, seconds)

    def becomes(self, code: str, seconds: int = 30) -> bool:
        try:
            self.browser.until(code, seconds)
            return True
        except RuntimeError:
            return False

    def in_view(self, code: str) -> Any:
        return self.browser.run(f"{IN_VIEW}.{code}")


def search_and_page(tests: Tests, folder: str) -> None:
    """A search, a page with its picture from another file, a point in time, a link, and back."""
    browser = tests.browser
    tests.go("")
    browser.run("byId('uri').value = 'http://site.example/'; byId('find').click()")
    tests.holds(tests.becomes("document.querySelectorAll('.found li').length === 9"), "search by prefix", tests.text())
    tests.holds("U+202E" in tests.text(), "signs that turn a text are shown by their numbers", tests.text())
    browser.run("byId('uri').value = 'SITE.example'; byId('find').click()")
    near = "[...document.querySelectorAll('.found a')].map((it) => it.textContent).join() === 'http://site.example/'"
    tests.holds(tests.becomes(near), "a near URI beside a search", tests.text())
    browser.run("byId('uri').value = 'http://site.example/'")
    browser.run("byId('moment').value = ''; byId('ask').requestSubmit()")
    tests.holds(tests.shows("Rain"), "the latest page", tests.text())
    tests.holds(tests.in_view("getElementById('picture').naturalWidth") == 1, "its picture of another file")
    color = f"getComputedStyle({IN_VIEW}.querySelector('h1')).color"
    tests.holds(browser.run(color) == "rgb(1, 100, 2)", "its style of another file", browser.run(color))
    tests.holds("second.warc.gz" in browser.run("document.body.textContent"), "which file it is from", tests.text())
    tests.holds("Links on this page (2)" in tests.text(), "no count of links that lead somewhere", tests.text())
    if folder:
        os.makedirs(folder, exist_ok=True)
        browser.picture(f"{folder}/served.png")
    browser.run("document.querySelector('.line-of button').click()")
    tests.holds(tests.shows("Snow"), "an earlier point in time", tests.text())
    tests.holds(browser.run("byId('moment').value").startswith("2020-01-01"), "its date in the form")
    browser.run("history.back()")
    tests.holds(tests.shows("Rain"), "back to the later one", tests.text())
    tests.in_view("getElementById('more').click()")
    tests.holds(tests.shows("Mehr für alle"), "a link", tests.text())
    browser.run("history.back()")
    tests.holds(tests.shows("Rain"), "back to the page", tests.text())
    tests.in_view("getElementById('gone').click()")
    tests.holds(tests.becomes("document.body.innerText.includes('P1 NoCapture')"), "a link to what isn't there")


def answers(tests: Tests) -> None:
    """A date, a coded page, a reason, and a page that a browser asks the server for."""
    browser = tests.browser
    tests.go("#20200601000000/http://site.example/")
    tests.holds(tests.shows("Snow"), "a page as of a date", tests.text())
    tests.go("#99991231235959/http://site.example/packed")
    tests.holds(tests.shows("Packed"), "a coded page", tests.text())
    tests.go("#99991231235959/http://site.example/lost")
    tests.holds(tests.becomes("document.body.innerText.includes('P5 Unresolved')"), "a reason", tests.text())
    tests.holds("Choose another capture" in tests.text(), "what a reader can do", tests.text())
    tests.holds("The only capture of this URI" in tests.text(), "which capture has no body", tests.text())
    whole = str(browser.run("document.body.textContent"))
    tests.holds("chosen second.warc.gz" in whole and "/second.warc.gz" not in whole, "no folders", whole)
    tests.go("#20190101000000/http://site.example/")
    tests.holds(tests.becomes("document.body.innerText.includes('P2 NotYet')"), "too early", tests.text())
    tests.holds("All 2 captures of this URI are later" in tests.text(), "which captures are later", tests.text())
    tests.go("memento/20210601120000/http://site.example/")
    tests.holds(tests.shows("Rain"), "a memento in the browser leads to the room", tests.text())
    tests.holds(browser.run("location.pathname") == "/", "the room's address", browser.run("location.href"))


def dates(tests: Tests) -> None:
    """A reader's date means what it means to the program, in each of its forms; what is no date is named as that."""
    ask = "byId('uri').value = '%s'; byId('moment').value = '%s'; byId('ask').requestSubmit()"
    titles = {
        "2020": "Snow",
        "2021-06": "Snow",
        "2021-06-01": "Snow",
        "2021-06-01T11:59Z": "Snow",
        "2021-06-01T12:00Z": "Rain",
        "2021-06-01T12:00:00Z": "Rain",
        "2021-06-01T11:59:59.999999999Z": "Snow",
        "9999": "Rain",
    }
    for date, title in titles.items():
        tests.go("")
        tests.browser.run(ask % ("http://site.example/", date))
        tests.holds(tests.shows(title), f"a date, {date}", tests.text())
    said = "byId('status').textContent.startsWith('A date is written')"
    for words in (
        "soon",
        "2021-02-29",
        "2021-06-01T24:00Z",
        "2021-06-01 12:00",
        "20210601",
        "-",
        "\u0662" * 4,
        "1" * 200,
    ):
        tests.go("")
        tests.browser.run(ask % ("http://site.example/", words))
        tests.holds(tests.becomes(said, 10), f"what is no date, {words}", tests.text())
    tests.browser.run(ask % ("", "soon"))
    tests.holds(tests.becomes("byId('status').textContent === 'Which URI?'", 10), "no URI", tests.text())


def narrow(tests: Tests) -> None:
    """On a narrow screen nothing is beyond its edge, each field is beside its name, and a page begins in sight."""
    browser, box = tests.browser, "getBoundingClientRect()"
    metrics = {"width": 360, "height": 750, "deviceScaleFactor": 1, "mobile": False}
    browser.ask("Emulation.setDeviceMetricsOverride", metrics)
    tests.go("#99991231235959/http://site.example/")
    tests.holds(tests.shows("Rain"), "narrow: the page", tests.text())
    top = browser.run(f"document.querySelector('iframe.view').{box}.top")
    tests.holds(top < 620, "narrow: a page begins in sight", top)
    for field in ("uri", "moment"):
        apart = browser.run(f"byId('{field}').{box}.top - document.querySelector('[for={field}]').{box}.top")
        tests.holds(abs(apart) < 15, f"narrow: the field {field} is beside its name", apart)
    tests.holds(browser.run("document.documentElement.scrollWidth") <= 360, "narrow: nothing is beyond the edge")
    tests.holds(browser.run("byId('ask').contains(byId('status'))"), "short answers are in the form")
    tests.go("#?http://site.example/")
    found = "document.querySelector('.found')"
    tests.holds(tests.becomes(f"{found}?.children.length === 9"), "narrow: a search", tests.text())
    tests.holds(browser.run(f"{found}.scrollHeight <= {found}.clientHeight"), "narrow: what is found isn't in a box")
    browser.ask("Emulation.setDeviceMetricsOverride", {**metrics, "width": 1440, "height": 1000})


def hostile(tests: Tests, listener: Listener) -> None:
    """A page that tries to get out does nothing of it."""
    browser = tests.browser
    tests.go("#99991231235959/http://site.example/evil")
    browser.run("localStorage.secret = 'kept'")
    tests.holds(tests.shows("Evil"), "the page is shown", tests.text())
    tests.holds(
        browser.run(f"{IN_VIEW}.querySelector('script, iframe, object, embed, link, meta[name]')") is None, "parts"
    )
    browser.run(f"for (const node of {IN_VIEW}.querySelectorAll('a, button')) node.click()")
    heard = listener.until_now(browser, LAST)
    tests.holds(browser.run("typeof ran") == "undefined", "nothing ran")
    tests.holds(browser.run("localStorage.evil") is None, "nothing was stored")
    tests.holds(browser.run("location.href").startswith(tests.at), "the top stays", browser.run("location.href"))
    tests.holds(not heard, "no connection", heard)
    policy = browser.run("fetch('/').then((it) => it.headers.get('content-security-policy'))")
    tests.holds("unsafe-inline" not in policy.split("script-src")[1].split(";")[0], "no inline script", policy)
    for kind in ("iframe", "object", "embed"):
        address = "/memento/20210601120000/http://site.example/evil"
        made = f"const it = document.createElement('{kind}'); it.src = it.data = '{address}'; document.body.append(it);"
        browser.run("(() => { try { %s } catch { /* the policy forbids it */ } })()" % made)
    heard = listener.until_now(browser, LAST)
    tests.holds(not heard and browser.run("typeof ran") == "undefined", "nothing after all", heard)


def as_it_is(tests: Tests, listener: Listener, folder: str) -> None:
    """The same page without a room, which must be counted."""
    path = put(os.path.join(folder, "evil.html"), evil(listener.port))
    tests.browser.ask("Page.navigate", {"url": "file://" + path})
    wait_for(lambda: len(listener.hosts) > 2, 60)
    tests.holds(len(listener.hosts) > 2, "the page as it is gets out", len(listener.hosts))


def packages(trial: Trial) -> Tests:
    """The pages of a package, before a URI is typed: a hundred at once, as of their first captures."""
    title = "<img src=x onerror='ran = 1'>\u202e %d"
    uris = [TOP + b"%d" % number for number in range(150)]
    made = (
        response(number, FIRST, b"%d" % number, b"text/html", b"<h1>Page %d</h1>" % number) for number in range(150)
    )
    pages = (page_line(uri.decode(), "2019-12-31T23:59:59.6Z", title=title % number) for number, uri in enumerate(uris))
    put(os.path.join(trial.path("packed"), "a.wacz"), wacz_of({"a.warc": b"".join(made)}, b"".join(pages)))
    trial.run("p", "run", "--quiet", trial.path("packed"))
    with served(trial, "p") as server:
        browser = Browser()
        with contextlib.closing(browser):
            tests, lines = Tests(browser, server), "document.querySelectorAll('.found li').length"
            tests.go("")
            tests.holds(tests.becomes(f"{lines} === 100"), "pages of a package", tests.text())
            first = str(browser.run("document.querySelector('.found li').innerText"))
            tests.holds("first captured later" in first and "<img" in first and "U+202E" in first, "a page", first)
            tests.holds("show blank" in tests.text(), "what scripts build is blank", tests.text())
            browser.run("[...document.querySelectorAll('#record button')].pop().click()")
            tests.holds(tests.becomes(f"{lines} === 150"), "more pages", tests.text())
            browser.run("[...document.querySelectorAll('.found a')].pop().click()")
            tests.holds(tests.shows("Page 149"), "a page as of its first capture", tests.text())
            browser.run("history.back()")
            tests.holds(tests.becomes(f"{lines} === 100"), "back to the pages", tests.text())
            tests.holds(browser.run("typeof ran") == "undefined", "nothing ran")
    return tests


def read_crawls(trial: Trial, listener: Listener) -> None:
    """Makes a collection of two crawls, with their texts."""
    collection(trial.path("disk"), listener.port)
    trial.run("c", "run", "--quiet", "--text", trial.path("disk"), env={"PYTHONPATH": PACKAGE})


@contextlib.contextmanager
def room(trial: Trial, *words: str) -> Iterator[Tests]:
    """A browser in the room over the collection."""
    with served(trial, "c", *words) as server:
        browser = Browser()
        try:
            yield Tests(browser, server)
        finally:
            browser.close()


def withheld(trial: Trial) -> Tests:
    """What the access rules withhold isn't found, isn't shown, and isn't a part of another page."""
    rules = put(trial.path("rules"), b"block %spicture.png\nblock %smore\n" % (TOP, TOP))
    with room(trial, "--access", rules) as tests:
        try_withheld(tests)
    return tests


def try_withheld(tests: Tests) -> None:
    """The same, in a room that has the rules."""
    browser = tests.browser
    tests.go("")
    browser.run("byId('uri').value = 'http://site.example/'; byId('find').click()")
    tests.holds(tests.becomes("document.querySelectorAll('.found li').length === 7"), "withheld: found", tests.text())
    browser.run("byId('moment').value = ''; byId('ask').requestSubmit()")
    tests.holds(tests.shows("Rain"), "withheld: a page that may be seen", tests.text())
    tests.holds("not%20in%20the%20archive" in tests.in_view("getElementById('picture').src"), "withheld: its picture")
    tests.in_view("getElementById('more').click()")
    said = "document.body.innerText.includes('withheld: this URI is blocked')"
    tests.holds(tests.becomes(said), "withheld: a link", tests.text())
    tests.holds(browser.run("document.querySelector('iframe.view')") is None, "withheld: no view", tests.text())


def in_firefox(tests: Tests, folder: str) -> None:
    """Hosts, words, a page and a calendar in Firefox, where it can be had."""
    if not firefox.is_there():
        return
    browser = firefox.Firefox()
    try:
        browser.ask("WebDriver:Navigate", {"url": tests.at})
        browser.until("return document.querySelectorAll('table.hosts tbody tr').length === 3")
        if folder:
            browser.picture(f"{folder}/first-screen-firefox.png")
        browser.run(LOOK_FOR, "snow site")
        browser.until("return document.querySelectorAll('ol.hits > li mark').length > 1")
        if folder:
            browser.picture(f"{folder}/words-firefox.png")
        browser.run("document.querySelector('ol.hits h3 a').click()")
        browser.until(f"return {SHOWN} && {IN_VIEW}.querySelector('h1').textContent === 'Snow'")
        browser.ask("WebDriver:Navigate", {"url": f"{tests.at}#99991231235959/{TOP.decode()}often"})
        browser.until("return Boolean(document.querySelector('table.calendar button'))")
        browser.run("document.querySelector('table.calendar button').click()")
        browser.until("return document.querySelectorAll('.timeline li a').length === 1")
        tests.holds(True, "Firefox: hosts, words, a page and a calendar")
    except RuntimeError as error:
        tests.holds(False, "Firefox: hosts, words, a page and a calendar", error)
    finally:
        browser.close()


def main() -> int:
    program, folder = sys.argv[1], (sys.argv[2:] or [""])[0]
    if not os.path.exists(os.path.join(PACKAGE, "zogwedu", "__init__.py")):
        print("the room over a collection: left out, since make python wasn't run")
        return 0
    with tempfile.TemporaryDirectory(prefix="warc-served-") as made, contextlib.closing(Listener()) as listener:
        trial = Trial(program, made)
        read_crawls(trial, listener)
        with room(trial) as tests:
            search_and_page(tests, folder)
            answers(tests)
            dates(tests)
            narrow(tests)
            finding(tests, folder)
            in_firefox(tests, folder)
            hostile(tests, listener)
            as_it_is(tests, listener, made)
        every = tests, packages(trial), withheld(trial)
    failed = sum(it.failed for it in every) + trial.surprises
    print(f"{sum(it.passed for it in every)} passed, {failed} failed")
    return 1 if failed else 0


if __name__ == "__main__":
    sys.exit(main())
