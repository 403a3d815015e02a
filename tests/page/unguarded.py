"""The hostile pages in a reading room without any policy, so that only what is done to a page itself protects it: a
listener to which all their hosts lead must hear nothing."""

from __future__ import annotations

import json
import re
from typing import Any

import hostile
import leaks
from listener import Listener
from variant import variant

VIEW_POLICY = """<meta http-equiv="Content-Security-Policy" content="${VIEW_POLICY}">`"""
OWN_POLICY = re.compile(r'<meta http-equiv="Content-Security-Policy" content="default-src[^"]*">')
LAST = "last.example"
SHOWN = """document.getElementById('panel')?.dataset.ready === 'yes' &&
  document.querySelector('iframe.view:not([data-shown])') === null"""


def without_policy(page: str, path: str) -> str:
    """Writes the page without its own policy and the one of its views."""
    with open(variant(page, path, {VIEW_POLICY: "`"}), encoding="utf-8", newline="") as file:
        text, count = OWN_POLICY.subn("", file.read())
    if count != 1:
        raise RuntimeError(f"the page has {count} policies")
    with open(path, "w", encoding="utf-8", newline="") as out:
        out.write(text)
    return path


def try_archive(tests: Any, page: str, archive: str, names: dict[int, str]) -> None:
    """Opens records of an archive, and sees what the listener hears of each; then a page as it is, which it hears."""
    listener = Listener()
    browser = tests.opened(archive, page=page, flags=[f"--host-resolver-rules=MAP *.example 127.0.0.1:{listener.port}"])
    try:
        for position, name in names.items():
            browser.run(f"room.tab = 'Page'; openRecord({position})")
            browser.until(SHOWN, 30)
            heard = listener.until_now(browser, LAST)
            tests.holds(not heard, f"without a policy: {name}", heard)
        tests.holds(browser.run("window.hacked") is None, "without a policy: nothing runs")
        source = json.dumps(hostile.PAGE)
        browser.run("byId('record').replaceChildren(emptyFrame(() => {}))")
        browser.until("document.querySelector('iframe.view[data-shown]') !== null")
        browser.run(f"document.querySelector('iframe.view').srcdoc = {source}; 0")
        browser.until("document.querySelector('iframe.view').contentDocument?.readyState === 'complete'")
        heard = listener.until_now(browser, LAST)
        tests.holds("evil.example" in heard, "without a policy: the page as it is connects", heard)
    finally:
        browser.close()
        listener.close()


def unguarded(tests: Any, folder: str) -> None:
    """All pages of the hostile archive."""
    page = without_policy(tests.page, f"{folder}/unguarded.html")
    hostile.make(f"{folder}/unguarded.warc")
    try_archive(tests, page, f"{folder}/unguarded.warc", {at: it[0][:60] for at, it in enumerate(hostile.NAMES)})


def unguarded_leaks(tests: Any, folder: str) -> None:
    """All pages that try to connect."""
    page = without_policy(tests.page, f"{folder}/unguarded-leaks.html")
    positions = leaks.make(f"{folder}/unguarded-leaks.warc")
    names = dict(zip(positions, (case.name for case in leaks.CASES)))
    try_archive(tests, page, f"{folder}/unguarded-leaks.warc", names)
