#!/usr/bin/env python3
"""Measures the search of warc-collection: what it takes to read texts, to keep them and to find them.

Usage: search.py [TEXTS..]

For each number of TEXTS (50,000 if left out; the published figures are of 50,000 and 200,000) makes a catalogue of as
many texts, each in four captures of half as many URIs. Two of five are pages of this machine's /usr/share/doc and of
Rust's documents, 20,000 at most; the others are drawn, and all of them where there are no more pages. A drawn text has
620 words, some 4,300 characters. They come from a list of 120,000 words, the words of these pages first, as often as
words are (Zipf); and every second one is a word that the text has already, so that 40 % of its words differ from each
other, as in real pages of that length (35 to 40 %).

Prints the processor time of extracting and loading a page of 18 KB, over the HTML files of /usr/share/doc; the bytes of
the index for a character and for a capture, as runs leave it and after `prune`; and the times of searches, the median
of nine, with what a reader sees of the first twenty hits. It needs neither the program nor the Python package.
"""
from __future__ import annotations

import collections
import contextlib
import glob
import hashlib
import itertools
import json
import math
import os
import random
import sqlite3
import statistics
import sys
import tempfile
import time
from collections.abc import Callable, Iterator
from typing import Any

from shared import TOP, commit, put_table

sys.path.insert(0, os.path.join(TOP, "collection"))
from zogwedu_collection.access import EVERYTHING  # noqa: E402
from zogwedu_collection.catalogue import Catalogue  # noqa: E402
from zogwedu_collection.disk import Stamp  # noqa: E402
from zogwedu_collection.page_texts import NoText, key_of, text_in  # noqa: E402
from zogwedu_collection.parts import Parts  # noqa: E402
from zogwedu_collection.query import query_of  # noqa: E402
from zogwedu_collection.scan import PageText  # noqa: E402
from zogwedu_collection.search import Filters, Search, searching  # noqa: E402
from zogwedu_collection.search_index import Index, path_in, settle_texts  # noqa: E402
from zogwedu_collection.timemaps import Seen  # noqa: E402
from zogwedu_collection.words import words_of  # noqa: E402

TEXTS, VOCABULARY, WORDS = 50_000, 120_000, 620
MOST_PAGES, MOST_OF_PAGE = 20_000, 200_000  # bytes
REPEATED = 0.5  # of the words of a drawn text
CAPTURES_A_TEXT, TEXTS_A_URI, TEXTS_A_FILE = 4, 2, 500
PAGE = 18_000  # bytes
COMMON, RARE, SOME = "comm", "rareword", "twohundred"
TIMES = 9
STAMP = Stamp(1, 1, 1, 1, 1)
DOCUMENTS, RUST = "/usr/share/doc/**/*.html", "~/.rustup/toolchains/*/share/doc/rust/html/**/*.html"


def pages(pattern: str) -> Iterator[bytes]:
    """HTML files, in an order that is the same each time and mixes them."""
    found = sorted(filter(os.path.isfile, glob.glob(os.path.expanduser(pattern), recursive=True)))
    random.Random(10).shuffle(found)
    for path in found:
        with open(path, "rb") as file:
            yield file.read(MOST_OF_PAGE)


def page_texts() -> list[PageText]:
    """The texts of pages of this machine, each once."""
    found: dict[str, PageText] = {}
    for body in itertools.chain(pages(DOCUMENTS), pages(RUST)):
        if len(found) == MOST_PAGES:
            break
        with contextlib.suppress(NoText):
            made = text_in(body, "text/html", "text/html")
            found[key_of(made)] = made
    return list(found.values())


def vocabulary(real: list[PageText]) -> list[str]:
    """Words, the most frequent ones first: those of texts, and then made ones."""
    counts = collections.Counter(itertools.chain.from_iterable(words_of(it.text) for it in real))
    made = dict.fromkeys(word for word, _ in counts.most_common(VOCABULARY))
    numbers = random.Random(11)
    while len(made) < VOCABULARY:
        length = 2 + int(math.log(len(made) + 1, 6)) + numbers.randrange(3)
        made["".join(numbers.choices("etaoinshrdlcumwfgypbvk", k=length))] = None
    return list(made)


class Drawn:
    """Draws texts."""

    def __init__(self, words: list[str]) -> None:
        self.numbers = random.Random(12)
        self.words = words
        self.weights = list(itertools.accumulate(1 / (rank + 2.7) for rank in range(len(words))))

    def text(self) -> PageText:
        chosen = self.numbers.choices(self.words, cum_weights=self.weights, k=WORDS)
        for place in range(1, WORDS):
            if self.numbers.random() < REPEATED:
                chosen[place] = chosen[int(self.numbers.random() * place)]
        return PageText(" ".join(chosen[:6]), " ".join(chosen), False)


def texts(count: int, real: list[PageText], words: list[str]) -> Iterator[PageText]:
    """Texts, of which 60 % have a common word, 200 another one, and one a rare one."""
    drawn, left = Drawn(words), iter(real)
    every = max(count // 200, 1)
    for number in range(count):
        of_page = next(left, None) if number % 5 < 2 else None
        made = of_page or drawn.text()
        more = [COMMON] if number % 10 < 6 else []
        more += [SOME] if number % every == 0 else []
        more += [RARE] if number == count // 2 else []
        yield PageText(made.title, " ".join([made.text, *more]), False)


def put_file(catalogue: Catalogue, index: Index, file: int, some: list[PageText], path: str) -> None:
    """A file with captures of texts, as a run takes it in."""
    rows: list[tuple[Any, ...]] = []
    lines: list[list[Any]] = []
    position = 0
    for number, text in enumerate(some):
        lines.append(["text", key_of(text), text.title, text.text])
        for time_of in range(CAPTURES_A_TEXT):
            target = f"http://site{file % 300}.example/{file}/{number // TEXTS_A_URI}"
            instant = f"20{(number % TEXTS_A_URI) * 4 + time_of:02}-05-01T00:00:00.000000000Z"
            rows.append((file, position, instant, instant, "response", position, 200, "text/html", 9, None, target))
            lines.append(["seen", position, position, key_of(text), "text/html"])
            position += 1
    lines.append(["end", {"texts": len(some), "seen": position, "without": {}, "why": ""}])
    with catalogue.transaction():
        catalogue.insert("files", {"file": file, "path": f"/{file}.warc", "state": "good", "run": 1})
        reading = {"file": file, "run": 1, "size": 1, "modified": 1, "changed": 1, "records": position}
        catalogue.insert("readings", reading)
        catalogue.base.executemany("INSERT INTO captures VALUES (?, ?, ?, ?, ?, ?, ?, ?, ?, ?, ?)", rows)
    with open(path, "wb") as out:
        out.writelines(json.dumps(line).encode() + b"\n" for line in lines)
    index.take_in(file, 1, STAMP, Parts(path, {"texts": [0, os.path.getsize(path)]}))


def load(folder: str, all_texts: Iterator[PageText]) -> tuple[float, int]:
    """Makes the catalogue and its index. Returns the processor time of taking in, and the characters."""
    catalogue = Catalogue(folder, is_made=True)
    catalogue.make_tables()
    index, spent, characters = Index(catalogue, is_made=True), 0.0, 0
    for file in itertools.count(1):
        some = list(itertools.islice(all_texts, TEXTS_A_FILE))
        if not some:
            break
        begin = time.process_time()
        put_file(catalogue, index, file, some, f"{folder}/lines")
        spent += time.process_time() - begin
        characters += sum(len(text.title) + len(text.text) for text in some)
    index.close()
    return spent, characters


def of_a_page(folder: str) -> tuple[float, float]:
    """The milliseconds of processor time that extracting and loading take for as many bytes as a page has, and the
    bytes of the index for a character of these pages."""
    catalogue = Catalogue(folder, is_made=True)
    catalogue.make_tables()
    index, bodies = Index(catalogue, is_made=True), list(pages(DOCUMENTS))
    begin = time.process_time()
    with index.transaction():
        for body in bodies:
            hashlib.sha256(body).digest()
            made = text_in(body, "text/html", "text/html")
            index.put_text(bytes.fromhex(key_of(made)), made.title, made.text)
    spent = time.process_time() - begin
    query = "SELECT sum(characters + length(title)) FROM texts"
    characters = index.base.execute(query).fetchone()[0]
    index.close()
    return spent / (sum(map(len, bodies)) / PAGE) * 1000, os.path.getsize(path_in(folder)) / characters


def median_of(ask: Callable[[], Any]) -> float:
    """The median of several times, in milliseconds."""
    found = []
    for _ in range(TIMES):
        begin = time.process_time()
        ask()
        found.append((time.process_time() - begin) * 1000)
    return statistics.median(found)


def searches(folder: str, frequent: str) -> Iterator[tuple[str, str]]:
    """How long searches take."""
    asked: dict[str, tuple[str, dict[str, Any]]] = {
        "a rare word": (RARE, {}),
        "a word of 200 texts": (SOME, {}),
        "a word of 60 % of the texts": (COMMON, {}),
        "the same, of a host": (COMMON, {"host": "site7.example"}),
        "the same, of a host that isn't there": (COMMON, {"host": "none.example"}),
        "the same, of a suffix that all hosts have": (COMMON, {"host": ".example"}),
        "this one and the most frequent word, without a rare one": (f"{COMMON} {frequent} -{RARE}", {}),
        "a beginning of three letters": ("abc*", {}),
    }
    with searching(folder) as catalogue:
        for name, (words, filters) in asked.items():
            search = Search(catalogue, query_of(words), Filters(**filters), Seen(EVERYTHING))

            def ask(search: Search = search) -> None:
                search.end = time.monotonic() + 60
                search.found()

            yield name, f"{median_of(ask):.1f} ms"


def sizes(folder: str, characters: int, count: int) -> Iterator[tuple[str, str]]:
    """The bytes of the index, for a character and for a capture."""
    query = "SELECT sum(pgsize) FROM dbstat WHERE name LIKE 'seen%' OR name LIKE '%addresses%'"
    whole, seen = os.path.getsize(path_in(folder)), 0
    with contextlib.closing(sqlite3.connect(path_in(folder))) as base:
        # Without SQLite's table of pages it isn't known apart.
        with contextlib.suppress(sqlite3.OperationalError):
            seen = base.execute(query).fetchone()[0] or 0
    yield "the index", f"{whole / 1e6:.0f} MB"
    yield "texts and words, a character", f"{(whole - seen) / characters:.2f} bytes"
    yield "a capture", f"{seen / (count * CAPTURES_A_TEXT):.0f} bytes" if seen else "not known"


def of_texts(folder: str, count: int, real: list[PageText], words: list[str]) -> Iterator[tuple[str, str]]:
    """What a number of texts takes."""
    spent, characters = load(folder, texts(count, real, words))
    yield f"loading {count:,} texts, {characters / 1e6:.0f} M characters", f"{spent:.0f} s"
    yield from sizes(folder, characters, count)
    yield from searches(folder, words[0])
    settle_texts(Catalogue(folder), is_tidied=True)
    for name, size in sizes(folder, characters, count):
        yield f"after `prune`: {name}", size


def measured(folder: str, counts: list[int]) -> Iterator[tuple[str, str]]:
    """All that is measured, as it is known."""
    spent, size = of_a_page(f"{folder}/pages")
    yield "extracting and loading 18 KB of HTML", f"{spent:.1f} ms"
    yield "texts and words of these pages, a character", f"{size:.2f} bytes"
    real = page_texts()
    characters = sum(len(it.title) + len(it.text) for it in real)
    yield "pages of this machine", f"{len(real):,}, {characters / 1e6:.0f} M characters"
    words = vocabulary(real)
    for count in counts:
        yield from of_texts(f"{folder}/{count}", count, real, words)


def main() -> None:
    """Measures all."""
    counts = list(map(int, sys.argv[1:])) or [TEXTS]
    print(
        f"Commit {commit()}; Python {sys.version.split()[0]}, SQLite {sqlite3.sqlite_version}; load {os.getloadavg()}"
    )
    with tempfile.TemporaryDirectory(dir=os.environ.get("TMPDIR")) as folder:
        put_table(("What", "Processor time, or size"), measured(folder, counts))


if __name__ == "__main__":
    main()
