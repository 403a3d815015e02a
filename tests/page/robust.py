"""What breaks a page: names that hide calls, many types, workers that die, a file that changes, texts that turn."""

from __future__ import annotations

import os
from typing import Any

import leaks
from burdens import SITE, Site, show
from hostile import record
from stations import picture
from variant import variant

TITLE = "document.querySelector('#record h2')?.textContent"
PANEL = "document.getElementById('panel')?.innerText ?? ''"
FRAME = "document.querySelector('iframe.view').contentDocument"
# Asks as the page does, but answers for a record, or for a URI, only after `go`.
WAITING = """async function (questions) {
  const answers = await Library.prototype.ask.call(this, questions);
  if (questions[0].position === %d || questions[0].date === '9999') await new Promise((done) => { window.go = done; });
  return answers;
}"""
KINDS = 130_000
TURNED = "gnp\u202eexe.\u200b"


def kind_record(number: int) -> bytes:
    """A record of a type of its own."""
    return (
        b"WARC/1.1\r\nWARC-Type: kind-%d\r\nWARC-Record-ID: <urn:x:%d>\r\nWARC-Date: 2026-01-01T00:00:00Z\r\n"
        b"Content-Length: 0\r\n\r\n\r\n\r\n" % (number, number)
    )


def clobbered(tests: Any, folder: str) -> None:
    """Names in a page hide nothing that the reading room calls: links work, and a form keeps no attribute that acts."""
    positions = dict(zip((case.name for case in leaks.CASES), leaks.make(f"{folder}/clobber.warc")))
    browser = tests.opened(f"{folder}/clobber.warc")
    try:
        show(browser, positions["clobber-document"])
        click = "new MouseEvent('click', { bubbles: true, cancelable: true })"
        browser.run(f"Document.prototype.querySelector.call({FRAME}, '#click').dispatchEvent({click}); 0")
        browser.until(f"{TITLE} === '{SITE}/known'", 10)
        tests.holds(True, "clobbered: a link leads on")
        for name in ("clobber-form", "clobber-attributes"):
            show(browser, positions[name])
            names = browser.run(
                f"[...Document.prototype.querySelectorAll.call({FRAME}, 'form, form *')].flatMap((it) =>"
                " Element.prototype.getAttributeNames.call(it)).filter((it) => /^(on|action|name)/.test(it))"
            )
            tests.holds(not names, f"clobbered: {name} keeps nothing that acts or hides", names)
    except RuntimeError as error:
        tests.holds(False, "clobbered", error)
    finally:
        browser.close()


def many_kinds(tests: Any, folder: str) -> None:
    """More types than a call takes parameters: the plot has the most frequent ones, and says how many are left."""
    with open(f"{folder}/kinds.warc", "wb") as out:
        out.writelines(map(kind_record, range(KINDS)))
    browser = tests.opened(f"{folder}/kinds.warc")
    try:
        browser.run("drawAll()")
        tests.holds(browser.run("document.querySelectorAll('#types .bar').length") == 100, "kinds: 100 bars")
        words = browser.run("document.getElementById('types').innerText")
        tests.holds(f"and {KINDS - 100:,} more" in words, "kinds: how many more", words[-60:])
    except RuntimeError as error:
        tests.holds(False, "kinds", error)
    finally:
        browser.close()


SMALLER = {
    "const PIECE = 16 * MEGABYTE;": "const PIECE = 2 * MEGABYTE;",
    "const LEAST_SHARED = 32 * MEGABYTE;": "const LEAST_SHARED = 4 * MEGABYTE;",
    "const PATIENCE = 60000;": "const PATIENCE = 700;",
}
HELPER = "async respond({list, find, judge, seek}) {"
SECOND = " this.tasks = (this.tasks ?? 0) + 1; if (this.tasks === 2) "
DEATHS = {
    "with an error": "{ setTimeout(() => { throw new Error(0); }); return new Promise(() => {}); }",
    "in silence": "return new Promise(() => {});",
}


def long_archive(path: str) -> str:
    """An archive that is long enough for helpers, once its pieces are smaller."""
    with open(path, "wb") as out:
        for number in range(2400):
            out.write(record(number, f"{SITE}/{number}", "resource", b"x" * 10_000, "2026-01-01T00:00:00Z"))
    return path


def dying_helpers(tests: Any, folder: str) -> None:
    """Each helper dies at its second task: all records are listed, and all blocks are judged."""
    archive = long_archive(f"{folder}/long.warc")
    for name, death in DEATHS.items():
        page = variant(tests.page, f"{folder}/dying.html", {**SMALLER, HELPER: HELPER + SECOND + death})
        try:
            browser = tests.opened(archive, page=page)
        except RuntimeError as error:
            tests.holds(False, f"helpers that die {name}", error)
            continue
        rows = browser.run("[room.rows.count, room.counts.judged, room.findings !== null, room.isStopped]")
        tests.holds(rows == [2400, 2400, True, False], f"helpers that die {name}: all is judged", rows)
        browser.close()


def another_file(tests: Any, folder: str) -> None:
    """Another file is opened while the first is judged: it is there at once, and nothing comes of the first."""
    page = variant(tests.page, f"{folder}/smaller.html", SMALLER)
    first, site = long_archive(f"{folder}/first.warc"), Site()
    site.add("a", "<p id=last>x")
    second = site.save(f"{folder}/second.warc")
    browser = tests.opened(second, page=page)
    try:
        for wait in ("room.file.size > 1e6", "room.rows.count > 100", "room.listed", "room.counts.judged > 0"):
            browser.give_file("#file-again", first)
            browser.until(wait, 20)
            browser.give_file("#file-again", second)
            browser.until("room.file.size < 1e6 && room.isOpen && room.findings !== null", 20)
            browser.settle()
            rows = browser.run("[room.rows.count, room.counts.judged, room.isStopped]")
            tests.holds(rows == [1, 1, False], f"another file, once {wait}", rows)
    except RuntimeError as error:
        tests.holds(False, "another file", error)
    finally:
        browser.close()


def late_answer(tests: Any, folder: str) -> None:
    """Another file is opened while a question waits: the answer, which is the first archive's, isn't shown in it."""
    site = Site()
    site.add("a", "a page")
    first = site.save(f"{folder}/asked.warc")
    for uri in ("a", "nowhere"):
        browser = tests.opened(first)
        ask = f"openAsOf(typed('{SITE}/{uri}'), '9999', true).catch((error) => {{ window.wrong = String(error); }})"
        browser.run(f"{ask}; openFiles([new File([], 'other.warc')])")
        browser.until("room.isOpen && room.findings !== null", 20)
        browser.settle()
        seen = browser.run("[document.getElementById('record').hidden, window.wrong ?? '']")
        tests.holds(seen == [True, ""], f"an answer that comes late, on {uri}", seen)
        browser.close()


def late_view(tests: Any, folder: str) -> None:
    """A page is opened while another waits for its answer: the one that comes late takes no addresses from it, and
    isn't shown. A question that fails says so."""
    site = Site()
    for name in ("first", "second"):
        site.add(f"{name}.png", picture(3), "image/png")
        site.add(name, f"<img src=/{name}.png><p id=last>x")
    browser, first, second = (
        tests.opened(site.save(f"{folder}/late.warc")),
        site.positions["first"],
        site.positions["second"],
    )
    try:
        show(browser, second)
        browser.run(f"room.library.ask = {WAITING % first}; openRecord({first}); 0")
        browser.until("document.querySelector('[role=tab]') !== null && room.current === %d" % first, 10)
        show(browser, second)
        browser.run(f"window.go(); 0")
        browser.settle()
        seen = browser.run(f"room.urls.includes({FRAME}.images[0].src)")
        tests.holds(seen, "late view: the pictures of the one that is shown stay")
        browser.run(f"room.library.ask = {WAITING % first}; openAsOf(typed('{SITE}/first'), '9999', true); 0")
        show(browser, second)
        browser.run("window.go(); 0")
        browser.settle()
        tests.holds(
            browser.run(TITLE) == f"{SITE}/second", "late view: an answer doesn't replace what was opened since"
        )
        browser.run("room.library.ask = () => Promise.reject(new Error('it stopped')); 0")
        browser.run(f"openAsOf(typed('{SITE}/first'), '9998', true); 0")
        browser.until("document.getElementById('status').textContent.includes('it stopped')", 5)
        tests.holds(True, "late view: a question that fails says so")
    except RuntimeError as error:
        tests.holds(False, "late view", error)
    finally:
        browser.close()


def drag(browser: Any, kind: str, place: Any, path: str) -> None:
    """Drags a file from outside of the browser over a place of the page, or drops it there."""
    data = {"items": [], "files": [path], "dragOperationsMask": 1}
    browser.ask("Input.dispatchDragEvent", {"type": kind, "x": place[0], "y": place[1], "data": data})


def move(browser: Any, kind: str, place: Any) -> None:
    """Moves, presses or releases the mouse at a place of the page."""
    button = {"x": place[0], "y": place[1], "button": "left", "buttons": 1, "clickCount": 1}
    browser.ask("Input.dispatchMouseEvent", {"type": kind, **button})


def dropped(tests: Any, folder: str) -> None:
    """A file that is dropped on a view is opened, and a picture that is dragged out of a view isn't."""
    site = Site()
    site.add("p.png", picture(3), "image/png")
    site.add("a", "<img src=/p.png><p id=last>x")
    archive = site.save(f"{folder}/dropped.warc")
    browser, number = tests.opened(archive), "room.library.opened"
    try:
        show(browser, 1)
        box = "document.querySelector('iframe.view').getBoundingClientRect()"
        left, top = browser.run(f"[{box}.x, {box}.y]")
        move(browser, "mousePressed", (left + 30, top + 30))
        for step in range(12):
            move(browser, "mouseMoved", (left + 30 - 9 * step, top + 30 - 20 * step))
        move(browser, "mouseReleased", (left + 30 - 99, top + 30 - 220))
        browser.settle()
        tests.holds(browser.run(number) == 1, "dropped: a picture of the view is no file", browser.run(number))
        show(browser, 1)
        left, top = browser.run(f"[{box}.x, {box}.y]")
        for kind in ("dragEnter", "dragOver", "drop"):
            drag(browser, kind, (left + 60, top + 60), archive)
        browser.until(f"{number} === 2", 5)
        tests.holds(True, "dropped: a file on a view")
    except RuntimeError as error:
        tests.holds(False, "dropped", error)
    finally:
        browser.close()


def dying_worker(tests: Any, folder: str) -> None:
    """The worker dies at a question: the page says so, and a file can be opened again in a new one."""
    asked = "const answers = await archive.ask(questions);"
    dies = " if (questions[0].position === 3) { setTimeout(() => { throw new Error(0); }); return; }"
    site = Site()
    for number in range(5):
        site.add(str(number), f"<p id=last>page {number}")
    page = variant(tests.page, f"{folder}/dead.html", {asked: asked + dies})
    archive = site.save(f"{folder}/dead.warc")
    browser = tests.opened(archive, page=page)
    try:
        browser.run("room.tab = 'Page'; openRecord(3); 0")
        browser.until("document.getElementById('status').textContent.includes('The library stopped')", 20)
        browser.give_file("#file-again", archive)
        browser.until("room.isOpen && !room.isStopped", 20)
        show(browser, 2)
        tests.holds(True, "worker: another in the place of one that died")
    except RuntimeError as error:
        tests.holds(False, "worker: another in the place of one that died", error)
    finally:
        browser.close()


def changed_file(tests: Any, folder: str) -> None:
    """A file that changes while it is open is named as that."""
    site = Site()
    site.add("a", "a page")
    site.add("b", "another page")
    archive = site.save(f"{folder}/changed.warc")
    browser = tests.opened(archive)
    try:
        with open(archive, "ab") as out:
            out.write(b"more")
        os.utime(archive, (1_000_000_000, 1_000_000_000))
        browser.run("openRecord(1); 0")
        browser.until("document.getElementById('record').innerText.includes('has changed on disk')", 10)
        tests.holds(True, "a file that changes is named as that")
    except RuntimeError as error:
        tests.holds(
            False,
            "a file that changes is named as that",
            (error, browser.run("document.getElementById('record').innerText")),
        )
    finally:
        browser.close()


def revisit(number: int) -> bytes:
    """A revisit as wget 1.21 writes it, with the digest of no bytes over a head."""
    written: bytes = record(number, f"{SITE}/again", "revisit", b"HTTP/1.1 200 OK\r\n\r\n", "2026-01-03T00:00:00Z")
    return written.replace(b"Digest: sha1:", b"Digest: sha1:3I42H3S6NNFQ2MSVX7XZKYAYSCX5QBYJ\r\nX-Digest: ")


def seen_by_use(tests: Any, folder: str) -> None:
    """Hosts in UTF-8, signs that turn a text, a frame without an address, later captures alone, revisits by wget."""
    path, parts = f"{folder}/use.warc", []
    page = b"HTTP/1.1 200 OK\r\nContent-Type: text/html\r\n\r\n<p id=last>x<iframe srcdoc='y'></iframe>"
    for number, target in enumerate(("http://m\u00fcller.example/a", f"{SITE}/{TURNED}", f"{SITE}/again")):
        parts.append(record(number, target, "response", page, "2026-01-01T00:00:00Z"))
    with open(path, "wb") as out:
        out.writelines([*parts, revisit(3), revisit(4)])
    browser = tests.opened(path)
    try:
        words = browser.run("document.getElementById('hosts').innerText")
        tests.holds("m\u00fcller.example" in words, "use: a host in UTF-8", words)
        words = browser.run("document.getElementById('rows').innerText")
        tests.holds(
            "gnp\u27e8U+202E\u27e9exe.\u27e8U+200B\u27e9" in words and "\u202e" not in words,
            "use: signs that turn a text",
            words,
        )
        show(browser, 0)
        links = browser.run(
            f"[...{FRAME}.querySelectorAll('a')].map((it) => [it.textContent, it.hasAttribute('href')])"
        )
        tests.holds(links == [["A frame that isn\u2019t shown here", False]], "use: a frame without an address", links)
        browser.run(f"openAsOf(typed('{SITE}/again'), '2000', true); 0")
        browser.until("document.getElementById('record').innerText.includes('P2 NotYet')", 10)
        words = browser.run("document.getElementById('record').innerText")
        tests.holds(
            "2026-01-01T00:00:00Z response" in words and "warc captures" not in words,
            "use: the captures, where all are later",
            words,
        )
        browser.run("document.querySelector('#record .plain-list button').click()")
        browser.until(f"{TITLE} === '{SITE}/again'", 10)
        words = browser.run("document.getElementById('verdicts').innerText")
        tests.holds(
            "All 2 bad blocks are revisits by wget 1.21" in words, "use: why blocks of a whole crawl are bad", words
        )
    except RuntimeError as error:
        tests.holds(False, "use", error)
    finally:
        browser.close()


def robust(tests: Any, folder: str) -> None:
    """All of them."""
    for part in (clobbered, many_kinds, dying_helpers, another_file, late_answer, late_view, dropped):
        part(tests, folder)
    for part in (dying_worker, changed_file, seen_by_use):
        part(tests, folder)
