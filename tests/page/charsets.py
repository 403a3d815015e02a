"""Which charset a page has: what it names itself, in the first of its elements `meta` that names one, as the browser's
own parser finds it."""

from __future__ import annotations

import base64
import json
from typing import Any

from browser import SLOWNESS, Browser

READS = """(pages) => pages.map(([body, type]) => {
  const begun = performance.now(), text = textOf(Uint8Array.from(atob(body), (it) => it.charCodeAt(0)), type, 100000);
  return [text, performance.now() - begun];
})"""
CZECH, RUSSIAN, FRENCH = b"\xe8", b"\xc4", "\u00e9".encode()  # in windows-1250, koi8-r and UTF-8
NAMED = b"<meta charset=koi8-r>"
QUICK = 2000  # milliseconds in which the charset of any page is found
# What a page begins with, the word that follows it, and what a reader sees of that.
PAGES = (
    (b"", FRENCH, "\u00e9"),
    (b"", CZECH, "\u00e8"),
    (NAMED, RUSSIAN, "\u0434"),
    (b'<meta name=keywords content="x; charset=koi8-r"><meta charset=windows-1250>', CZECH, "\u010d"),
    (b'<meta name=description content="of charset=utf-16"><meta charset=utf-8>', FRENCH, "\u00e9"),
    (b'<a title="<meta charset=koi8-r>">', FRENCH, "\u00e9"),
    (b'<body data-x="<meta charset=koi8-r>"><meta charset=windows-1250>', CZECH, "\u010d"),
    (b"<!-->" + NAMED, RUSSIAN, "\u0434"),
    (b"<!-- " + NAMED + b" -->", FRENCH, "\u00e9"),
    (b"<script>'" + NAMED + b"'</script>", FRENCH, "\u00e9"),
    (b"<title>" + NAMED + b"</title>", FRENCH, "\u00e9"),
    (b"<p>text</p>" + NAMED, RUSSIAN, "\u0434"),
    (b"<meta charset=none><meta charset=''><meta>" + NAMED, RUSSIAN, "\u0434"),
    (NAMED + b"<meta charset=windows-1250>", RUSSIAN, "\u0434"),
    (b"<META HTTP-EQUIV=Content-Type CONTENT='text/html; charset=KOI8-R'>", RUSSIAN, "\u0434"),
    (b"<meta http-equiv=content-type content='text/html;charset = \"koi8-r\"; x'>", RUSSIAN, "\u0434"),
    (b"<meta http-equiv=content-type content='charset; charset=koi8-r'>", RUSSIAN, "\u0434"),
    (b"<meta http-equiv=refresh content='1; charset=koi8-r'>", FRENCH, "\u00e9"),
    (b"<meta charset=utf-16le>", FRENCH, "\u00e9"),
    (b"<p>" + b" " * 16384 + NAMED, FRENCH, "\u00e9"),
    (b"<style>" + b"a{" * 8000 + b"</style>" + NAMED, RUSSIAN, "\u0434"),
    (b"<p style='color:" + b"(" * 16000 + b"'>" + NAMED, RUSSIAN, "\u0434"),
    (b"<b>" * 5000 + NAMED, RUSSIAN, "\u0434"),
    (b"<meta charset=none>" * 800 + NAMED, RUSSIAN, "\u0434"),
)


def charsets(tests: Any) -> None:
    """Each page is read by the charset that it names."""
    browser = Browser()
    try:
        browser.go(tests.page)
        bodies = [[base64.b64encode(front + word).decode(), "text/html"] for front, word, _ in PAGES]
        found = browser.run(f"({READS})({json.dumps(bodies)})")
        for (front, _, wanted), (text, took) in zip(PAGES, found):
            tests.holds(text.endswith(wanted), f"charsets: {front[:60]!r}", text[-20:])
            tests.holds(took < QUICK * SLOWNESS, f"charsets: {front[:60]!r} is quick", took)
        ran = browser.run("performance.getEntriesByType('resource').length")
        tests.holds(ran == 0, "charsets: nothing loads", ran)
    finally:
        browser.close()
