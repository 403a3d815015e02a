"""Pages as text and texts as words: tables of cases, hostile pages, and what another parser answers."""
from __future__ import annotations

import codecs
import glob
import importlib
import json
import os
import random
import subprocess
import sys
from typing import Any, Dict, Iterator, List, Tuple

import pytest
from zogwedu_collection.charset import CODECS, text_of
from zogwedu_collection.scan import APART, UNSEEN, WITH_ALT, scanned
from zogwedu_collection.words import places_of, words_of

from .in_node import TOP, without

HTML = "{http://www.w3.org/1999/xhtml}"
HIDDEN = {HTML + name for name in (*UNSEEN, "template", "title")}
DOCUMENTS = "/usr/share/doc/**/*.html"
MOST_DOCUMENTS, MOST_BYTES, MADE = 40, 60_000, 600
# What made pages are made of. What html5lib 1.1 reads otherwise than the standard isn't: templates, zero bytes, MathML.
PIECES = (
    *("<p>", "</p>", "<b>", "</b>", '<div class="x">', "</div>", "<br/>", "<i>", "<h1>", '</h1 x="y">', "<ul><li>"),
    *("<script>", "</script>", "<style>", "</style>", "<title>", "</title>", "<textarea>", "</textarea>", "<xmp>"),
    *("</xmp>", "<iframe>", "</iframe>", "<noscript>", "</noscript>", "<scr", "ipt>"),
    *("<!--", "-->", "--!>", "<!-->", "<!--->", "</", "<?x", "<!x", "</1>", "<![CDATA[", "]]>", "</ul>", "<x-y>"),
    *("<a href=x>", '<a b="', '"', "'", ">", "<", "=", "/", '<img alt="al t">', "<img alt=q/>", "<span/>"),
    *("&amp;", "&lt", "&notit;", "&#65;", "&#x", "word", "x1 ", "y2", "z3 ", " ", "\n"),
)
# Pages of a megabyte or of 100,000 elements, each of which takes some parser a time that grows with its square.
HOSTILE: Dict[str, str] = {
    "tags without an end": "'<a' * (M // 2)",
    "tags in a tag": "'<a ' * (M // 3)",
    "comments without an end": "'<!--' * (M // 4)",
    "ends without an end": "'</' * (M // 2)",
    "attributes without an end": "'<a b=\"' * (M // 6)",
    "attributes": "'<a ' + 'b=\"x\" ' * (M // 6) + 'c>t'",
    "attributes without values": "'<a ' + 'b ' * (M // 2) + '>t'",
    "equals signs": "'<a ' + '= ' * (M // 2) + '>'",
    "spaces in a tag": "'<a' + ' ' * M",
    "less-than signs": "'<' * M",
    "nested elements": "'<div>' * 100000 + 'x' + '</div>' * 100000",
    "nested pictures": "'<svg><desc>' * 100000 + '</svg>' * 100000 + '</desc>' * 100000",
    "nested templates": "'<template>' * 100000 + '</template>' * 100000 + 'x'",
    "scripts in scripts": "'<script><!--' + '<script ' * 100000 + '</script>' * 100000",
    "ends of other names": "'<title>' + '</titl' * 100000",
    "a long number": "'&#' + '9' * M + ';'",
    "a long name": "'&' + 'a' * M",
    "references": "'&amp;' * (M // 5)",
    "entities of entities": "'<!DOCTYPE x [<!ENTITY a \"lol\">' + '<!ENTITY b \"&a;&a;\">' * 50000 + ']><p>&b;'",
    "controls of direction": "'a\\u202e\\u2066' * (M // 3)",
    "zero bytes": "'\\0' * M",
    "accents": "'a' + '\\u0301' * M",
    "metas": "'<meta charset=none>' * 50000",
    "signs that are long words": "'\\ufdfa' * (M // 4)",
    "Han": "'\\u6771' * (M // 4)",
}
SECONDS_OF_PROCESSOR, BYTES_OF_MEMORY = 20, 1 << 30
CHILD = """
import resource, sys
resource.setrlimit(resource.RLIMIT_CPU, ({seconds}, {seconds}))
resource.setrlimit(resource.RLIMIT_AS, ({memory}, {memory}))
sys.path[:0] = ["{top}/collection"]
from zogwedu_collection.charset import text_of
from zogwedu_collection.scan import MOST_CHARACTERS, MOST_OF_TITLE, scanned
from zogwedu_collection.words import MOST_OF_WORD, words_of
M = 1 << 20
found = scanned(text_of(({page}).encode("utf-8"), "text/html"))
words = words_of(found.text)
assert len(found.title) <= MOST_OF_TITLE and len(found.text) <= MOST_CHARACTERS
assert all(len(word) <= MOST_OF_WORD for word in words)
"""


def name_of(case: Any) -> str:
    return str(case["name"])


def cases(name: str) -> List[Dict[str, Any]]:
    """The cases of a table."""
    with open(f"{TOP}/tests/unit/{name}.json", encoding="utf-8") as file:
        return list(json.load(file))


def body_of(case: Dict[str, Any]) -> bytes:
    """The body of a case: parts in hexadecimal digits, each with how often it comes."""
    return b"".join(bytes.fromhex(digits) * times for digits, times in case["body"])


@pytest.mark.parametrize("case", cases("scan"), ids=name_of)
def test_text_of_a_page(case: Dict[str, Any]) -> None:
    found = scanned(case["page"])
    assert (found.title, found.text, found.is_cut) == (case["title"], case["text"], False)


@pytest.mark.parametrize("case", cases("search_words"), ids=name_of)
def test_words(case: Dict[str, Any]) -> None:
    assert words_of(case["text"]) == case["words"]
    # What is a word once stays that word.
    assert words_of(" ".join(case["words"])) == case["words"]


@pytest.mark.parametrize("case", cases("charsets"), ids=name_of)
def test_charset(case: Dict[str, Any]) -> None:
    text = text_of(body_of(case), case["type"])
    assert text.endswith(case["text"]), ascii(text[-20:])


def test_labels_of_no_charset() -> None:
    """Those that browsers know are 222; Python knows others, and none of these decodes a page."""
    assert len(CODECS) == 222
    for label in ("utf-7", "rot13", "zlib_codec", "base64", "unicode_escape", "idna", "hz", "iso2022_kr", "cp037"):
        assert codecs.lookup(label) and label not in CODECS


def test_places_of_words() -> None:
    """Each word is where its place says, and words are the same with their places and without."""
    for case in cases("search_words"):
        text = scanned(case["text"]).text
        found = list(places_of(text))
        assert [word for word, _, _ in found] == words_of(text)
        assert all(words_of(text[begin:end]).count(word) for word, begin, end in found)
    assert list(places_of("Stra\u00dfe \u00bd")) == [("strasse", 0, 6), ("1", 7, 8), ("2", 7, 8)]


def test_a_long_page_is_cut() -> None:
    found = scanned("<p>" + "word " * 1_000_000)
    assert found.is_cut and len(found.text) == 2_000_000
    assert not scanned("<p>" + " " * 3_000_000).is_cut


@pytest.mark.parametrize("name", HOSTILE)
def test_hostile_pages(name: str) -> None:
    """A page's text and its words take no more than a time and memory, whatever it is."""
    limits = {"seconds": SECONDS_OF_PROCESSOR, "memory": BYTES_OF_MEMORY, "top": TOP, "page": HOSTILE[name]}
    done = subprocess.run([sys.executable, "-c", CHILD.format(**limits)], capture_output=True, check=False)
    assert done.returncode == 0, done.stderr.decode()[-2000:]


def seen_in(root: Any) -> Iterator[str]:
    """What a reader sees of a tree."""
    stack: List[Tuple[Any, bool]] = [(root, False)]
    while stack:
        node, is_over = stack.pop()
        name = node.tag.rpartition("}")[2] if isinstance(node.tag, str) else ""
        is_hidden = not name or node.tag in HIDDEN or name in ("script", "style")
        apart = " " if name in APART else ""
        if is_over or is_hidden:
            yield apart + (node.tail or "")
            continue
        yield apart + (node.get("alt", "") + " " if name in WITH_ALT else "") + (node.text or "")
        stack.append((node, True))
        stack += [(child, False) for child in reversed(list(node))]


def judged(page: str) -> Tuple[str, List[str]]:
    """The title and the words of a page, by the tree that html5lib makes of it."""
    try:
        html5lib = importlib.import_module("html5lib")
    except ImportError:
        without("python3-html5lib")
    root = html5lib.parse(page, scripting=False)
    title = next(root.iter(HTML + "title"), None)
    text = "".join(seen_in(root)).translate({0xAD: None, 0x2060: None, 0xFEFF: None})
    return " ".join(("" if title is None else title.text or "").split())[:300], words_of(text)


def as_judged(page: str) -> Tuple[str, List[str]]:
    found = scanned(page)
    return found.title, words_of(found.text)


def test_documents_as_another_parser_reads_them() -> None:
    paths = sorted(filter(os.path.isfile, glob.glob(DOCUMENTS, recursive=True)))
    random.Random(1).shuffle(paths)
    for path in paths[:MOST_DOCUMENTS]:
        with open(path, "rb") as file:
            page = text_of(file.read(MOST_BYTES), "text/html")
        assert as_judged(page) == judged(page), path


@pytest.mark.filterwarnings("ignore")
def test_made_pages_as_another_parser_reads_them() -> None:
    """The letters are the same. Which words a stray end tag separates, only a tree can say."""
    numbers = random.Random(7)
    for _ in range(MADE):
        page = "<body>" + "".join(numbers.choice(PIECES) for _ in range(numbers.randrange(3, 25)))
        (title, words), (other, others) = as_judged(page), judged(page)
        assert (title, "".join(words)) == (other, "".join(others)), page
