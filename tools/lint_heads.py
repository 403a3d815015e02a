#!/usr/bin/env python3
"""Finds heads of WARC or HTTP that code which isn't proved reads by hand: the library reads them, in C, in Python and
in the page.

Usage: lint_heads.py [FOLDER]      the top of the repository; without it, the folder above this file

It looks at each text in the code of page/, collection/ and python/, also of a regular expression, but not at comments.
It reports, a line each, and exits with 1 where there is any: a text that begins with a name of a field of a record
(WARC-), with HTTP/1 or with Content-Length, and one in which lines end with CR LF, unless NAMED has it, with the
reason. It also reports what NAMED has and no file.
"""
from __future__ import annotations

import ast
import os
import re
import sys
from collections.abc import Iterator

from shared import TOP

FOLDERS = ("page", "collection", "python")
BEGINS = re.compile(r"[\s^(?:]*(?:WARC-(?!collection\b)|HTTP/1|Content-Length)", re.IGNORECASE)
CRLF = re.compile(r"\r\n|\\r\\?\??\\n|\\x0d\\x0a", re.IGNORECASE)
BY_NAME = "asks for a field of a head that the library has read, by its name"
OWN_ANSWER = "a field of an answer of the server itself"
CHUNKS = "undoes chunks, which are no head"
MADE = "makes a head with the hash of a file, so that the library judges the file"
# The texts of each file that may be there, and why.
NAMED: dict[str, dict[str, str]] = {
    "collection/zogwedu_collection/access.py": {
        r"[\t\r\n]|^[\x00-\x20]+|[\x00-\x20]+$": "characters that browsers take out of a URI"
    },
    "collection/zogwedu_collection/bodies.py": {"Content-Length": OWN_ANSWER},
    "collection/zogwedu_collection/hosts.py": {
        "HTTP/1.0": "the version of a request of the server, as waitress has it"
    },
    "collection/zogwedu_collection/replay.py": {
        "WARC-Refers-To": BY_NAME,
        "WARC-Refers-To-Target-URI": BY_NAME,
        "WARC-Refers-To-Date": BY_NAME,
    },
    "collection/zogwedu_collection/responses.py": {"Content-Length": OWN_ANSWER},
    "collection/zogwedu_collection/room.py": {"Content-Length": OWN_ANSWER},
    "collection/zogwedu_collection/serve.py": {
        "HTTP/1.1 503 Service Unavailable\r\nContent-Length: 0\r\nRetry-After: 30\r\nConnection: close\r\n\r\n": (
            "an answer of the server itself"
        )
    },
    "collection/zogwedu_collection/wsgi.py": {"Content-Length": OWN_ANSWER},
    "page/body.js": {"WARC-Block-Digest": BY_NAME},
    "page/elements.js": {r"\r\n": "a head that is shown whole, with the line ends of a page"},
    "page/record.js": {"WARC-Block-Digest": BY_NAME},
    "page/segments.js": {
        r"\r\n\r\n${RECORD}1.": "a guess where a record begins, to divide a file; the library says whether one does"
    },
    "page/style.js": {r"\r\n?|\f": "line ends of a style, as browsers read them"},
    "page/wacz.js": {
        r"WARC/1.1\r\nWARC-Type: metadata\r\nWARC-Date: 2020-01-01\r\n": MADE,
        r"WARC-Record-ID: <urn:uuid:00000000-0000-4000-8000-000000000001>\r\n": MADE,
        r"WARC-Block-Digest: ${algorithm}:${digits}\r\nContent-Length: ${entry.size}\r\n\r\n": MADE,
    },
    "python/src/zogwedu/__main__.py": {"WARC-Segment-Number": BY_NAME},
    "python/src/zogwedu/_archive.py": {"WARC-Segment-Number": BY_NAME},
    "python/src/zogwedu/_cdxj.py": {"WARC-Payload-Digest": BY_NAME},
    "python/src/zogwedu/_decoding.py": {
        r"([0-9A-Fa-f]{1,15})[ \t]*(?:;[^\n]*)?\r?\n": CHUNKS,
        r"\r?\n": CHUNKS,
    },
    "python/src/zogwedu/_heads.py": {"HTTP/1.": "makes the text of a version that the library has read"},
    "python/src/zogwedu/_surt.py": {r"[\t\r\n]": "characters that are taken out of a URL"},
}
# What a script of the page is made of: comments, texts, and regular expressions, which a slash begins that divides
# nothing.
TOKENS = re.compile(
    r"//[^\n]*|/\*.*?\*/"
    r"|'(?P<single>(?:\\.|[^'\\\n])*)'|\"(?P<double>(?:\\.|[^\"\\\n])*)\"|`(?P<template>(?:\\.|[^`\\])*)`"
    r"|(?:[=(,:;!&|?{}\[>]|\breturn\b)\s*/(?![*/])(?P<regex>(?:\\.|\[(?:\\.|[^\]\\\n])*\]|[^/\\\[\n])+)/",
    re.DOTALL,
)


def texts_of_page(source: str) -> Iterator[tuple[int, str]]:
    """The texts of a script, and their lines. Those of a regular expression are as they are written."""
    at = 0
    while (found := TOKENS.search(source, at)) is not None:
        at = found.end()
        if found.lastgroup is not None:
            yield source.count("\n", 0, at) + 1, found[found.lastgroup].replace("\\/", "/")


def texts_of_python(source: str) -> Iterator[tuple[int, str]]:
    """The texts of a module, and their lines, but for those that stand alone, which explain."""
    tree = ast.parse(source)
    explain = {id(it.value) for it in ast.walk(tree) if isinstance(it, ast.Expr)}
    for node in ast.walk(tree):
        if isinstance(node, ast.Constant) and isinstance(node.value, (str, bytes)) and id(node) not in explain:
            value = node.value if isinstance(node.value, str) else node.value.decode("latin-1")
            yield node.lineno, value


READERS = {".js": texts_of_page, ".py": texts_of_python}


def found_in(path: str, source: str) -> Iterator[tuple[int, str]]:
    """The texts of a file by which it may read a head, and their lines."""
    for line, text in READERS[os.path.splitext(path)[1]](source):
        if BEGINS.match(text) or CRLF.search(text):
            yield line, text


def paths_in(top: str) -> Iterator[str]:
    """The files that are looked at, from the top."""
    for folder in FOLDERS:
        for at, _, names in os.walk(os.path.join(top, folder)):
            paths = (os.path.relpath(os.path.join(at, name), top) for name in names)
            yield from (path for path in paths if os.path.splitext(path)[1] in READERS and "node_modules" not in path)


def findings(top: str) -> Iterator[str]:
    """A line for each text that isn't named, and for each that is and isn't there."""
    left = {path: set(texts) for path, texts in NAMED.items()}
    for path in sorted(paths_in(top)):
        with open(os.path.join(top, path), encoding="utf-8") as file:
            found = list(found_in(path, file.read()))
        for line, text in found:
            if text not in NAMED.get(path, {}):
                yield f"{path}:{line}: {text!r}: does it read a head by hand? The library does, proved"
        left.get(path, set()).difference_update(text for _, text in found)
    for path, texts in left.items():
        yield from (f"tools/lint_heads.py: {path} doesn't have {text!r}" for text in sorted(texts))


def main(words: list[str]) -> int:
    """Looks at all files."""
    found = list(findings(words[0] if words else TOP))
    print("".join(f"{line}\n" for line in found), end="")
    return 1 if found else 0


if __name__ == "__main__":
    sys.exit(main(sys.argv[1:]))
