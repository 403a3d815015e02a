"""Opens each page that tries to connect, and counts what the browser did on the network: it must be nothing.

The browser resolves every name below the cases' zone to a listener on this computer. A page without the protection is
opened last, and then each case as it is, so that the listener is seen to count. The browser's own log of the network
must name no host of a case either: it has connections, requests and look-ups.
"""

from __future__ import annotations

import re
from typing import Any

import leaks
from browser import Browser
from listener import Listener

LAST = f"last.{leaks.ZONE}"  # what the browser connects to once a case has had its turn
READY = """document.getElementById('panel')?.dataset.ready === 'yes' &&
  document.querySelector('iframe.view:not([data-shown])') === null"""
SHOWN = "document.querySelector('iframe.view[data-shown], img.picture') !== null"
CLICK = """(() => {
  const page = document.querySelector('iframe.view')?.contentDocument;
  if (!page) return;
  for (const it of Document.prototype.querySelectorAll.call(page, '[id=click], a')) {
    it.dispatchEvent(new MouseEvent('click', { bubbles: true, cancelable: true, view: it.ownerDocument.defaultView }));
  }
})()"""


def flags_for(listener: Listener, log: str) -> list[str]:
    """What makes a browser reach the listener for each name of the zone, and keep a log."""
    rules = f"MAP *.{leaks.ZONE} 127.0.0.1:{listener.port}"
    return [f"--host-resolver-rules={rules}", f"--log-net-log={log}", "--net-log-capture-mode=Everything"]


def show(browser: Any, position: int) -> None:
    """Opens the record at a position, and waits until its page is shown."""
    browser.run(f"room.tab = 'Page'; openRecord({position})")
    browser.until(READY, 30)


def visit(browser: Any, folder: str, case: leaks.Case) -> None:
    """Opens the page of a case as it is, without the reading room."""
    kinds = {"application/xhtml+xml": "xhtml", "image/svg+xml": "svg"}
    path = f"{folder}/control-{case.name}.{kinds.get(case.media, 'html')}"
    with open(path, "w", encoding="utf-8") as page:
        page.write(case.page)
    browser.ask("Page.navigate", {"url": f"file://{path}"})


def names_in_log(path: str) -> set[str]:
    """The cases whose hosts a browser's log of the network names: for a connection, a request or a look-up."""
    with open(path, encoding="utf-8", errors="replace") as log:
        return set(re.findall(rf"([\w-]+)\.{re.escape(leaks.ZONE)}", log.read()))


def try_cases(tests: Any, browser: Any, listener: Listener, positions: list[int]) -> None:
    """No case connects: neither when it is shown nor when its links are clicked."""
    for case, position in zip(leaks.CASES, positions):
        show(browser, position)
        words = browser.run("document.getElementById('panel').innerText.slice(0, 300)")
        tests.holds(browser.run(SHOWN), f"connections: {case.name} is shown", words)
        browser.settle()
        browser.run(CLICK)
        hosts = listener.until_now(browser, LAST)
        tests.holds(not hosts, f"connections: {case.name}", hosts)


def protected(tests: Any, folder: str, listener: Listener) -> None:
    """No case connects in the reading room, and the browser's log names none of their hosts."""
    archive, log = f"{folder}/leaks.warc", f"{folder}/protected.json"
    positions = leaks.make(archive)
    browser = tests.opened(archive, flags=flags_for(listener, log))
    try:
        try_cases(tests, browser, listener, positions)
        visit(browser, folder, leaks.Case("alive", leaks.hint("alive")))
        browser.until("document.readyState === 'complete'")
        alive = listener.until_now(browser, LAST)
        tests.holds(
            alive == [f"alive.{leaks.ZONE}"], "connections: the same browser connects without protection", alive
        )
    finally:
        browser.close()
    named = names_in_log(log)
    tests.holds(named == {"alive", "last"}, "connections: the browser's log names no host of a case", named)


def control(tests: Any, folder: str, listener: Listener) -> None:
    """The same pages without the reading room do connect."""
    log, connected = f"{folder}/control.json", []
    browser = Browser(flags=flags_for(listener, log))
    try:
        for case in leaks.CASES:
            visit(browser, folder, case)
            browser.until("document.readyState === 'complete'")
            if f"{case.name}.{leaks.ZONE}" in listener.until_now(browser, LAST):
                connected.append(case.name)
    finally:
        browser.close()
    tests.holds("link-preconnect" in connected, "connections: the control is counted", connected)
    tests.holds(set(connected) <= names_in_log(log), "connections: the control is in the browser's log")
    print(
        f"connections: {len(connected)} of {len(leaks.CASES)} cases connect by their page alone, none in the reading "
        "room"
    )


def no_connections(tests: Any, folder: str) -> None:
    """No page of the hostile archive connects, and the same pages connect without the protection."""
    listener = Listener()
    try:
        protected(tests, folder, listener)
        control(tests, folder, listener)
    finally:
        listener.close()
