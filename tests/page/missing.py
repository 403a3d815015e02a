"""Browsers that lack something: what the page says, and what it does all the same."""

from __future__ import annotations

import base64
import gzip
import json
import os
import zlib
from typing import Any

from browser import Browser
from codings import GIVES

EXAMPLE = os.path.join(os.path.dirname(os.path.dirname(os.path.dirname(os.path.abspath(__file__)))), "examples")
NO_WIDE_MEMORY = "WebAssembly.validate = () => false"
NO_WORKER = "delete globalThis.Worker"
NO_DECOMPRESSION = "delete globalThis.DecompressionStream"
BODY = b"<p>Snow.</p>\n"
OPENED = "document.getElementById('status').textContent"


def lacking(script: str) -> Browser:
    """A browser in which a script takes something away before the page begins."""
    browser = Browser()
    browser.ask("Page.addScriptToEvaluateOnNewDocument", {"source": script})
    return browser


def refused(tests: Any, script: str, words: str, name: str) -> None:
    """The page opens nothing, and says why."""
    browser = lacking(script)
    try:
        browser.go(tests.page)
        said = browser.run("document.body.innerText")
        is_right = "This browser can’t run the library." in said and words in said
        tests.holds(is_right and browser.run("!document.getElementById('file')"), f"missing, {name}: says so", said)
    finally:
        browser.close()


def without_scripts(tests: Any) -> None:
    """Without JavaScript one line is shown that says so."""
    browser = Browser()
    try:
        browser.ask("Emulation.setScriptExecutionDisabled", {"value": True})
        browser.go(tests.page)
        shown = browser.run("document.querySelector('noscript p')?.innerText")
        tests.holds(shown == "This page needs JavaScript.", "missing, JavaScript: says so", shown)
    finally:
        browser.close()


def coded(coding: str, body: bytes) -> str:
    """A block of HTTP whose body is coded, in base64."""
    head = f"HTTP/1.1 200 OK\r\nContent-Encoding: {coding}\r\n\r\n".encode()
    return base64.b64encode(head + body).decode()


def without_decompression(tests: Any) -> None:
    """What gzip wrote is decoded all the same; of another coding the page says that it can't be, and the rest works."""
    browser = lacking(NO_DECOMPRESSION)
    try:
        browser.go(tests.page)
        blocks = [coded("gzip", gzip.compress(BODY)), coded("deflate", zlib.compress(BODY))]
        found = browser.run(f"({GIVES})({json.dumps(blocks)})")
        tests.holds(found[0] == {"gives": BODY.hex(), "undone": ["gzip"]}, "missing, decompression: gzip", found)
        tests.holds(found[1] == {"fails": "deflate"}, "missing, decompression: deflate", found)
        browser.give_file("#file", f"{EXAMPLE}/crawl.warc")
        browser.until(f"room.listed && !{OPENED}.includes('…')", 60)
        tests.holds(browser.run("room.rows.count") == 18, "missing, decompression: lists", browser.run(OPENED))
    finally:
        browser.close()


def missing(tests: Any) -> None:
    """Each of what a browser may lack."""
    refused(tests, NO_WIDE_MEMORY, "Firefox from 134 on", "64-bit WebAssembly")
    refused(tests, NO_WORKER, "Worker is not defined", "workers")
    without_scripts(tests)
    without_decompression(tests)
