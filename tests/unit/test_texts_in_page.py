"""The page's texts: pages as text, charsets and words by its scripts, held to the tables of cases that the collection's
modules have, and to what these give for pages and letters that are made."""
from __future__ import annotations

import glob
import gzip
import html.entities
import json
import os
import random
import unicodedata
from typing import Any, Dict, List, Tuple

import build_page
import pytest
from zogwedu_collection.charset import text_of
from zogwedu_collection.query import BadQuery, query_of
from zogwedu_collection.scan import scanned
from zogwedu_collection.snippets import snippet_of
from zogwedu_collection.words import SPELLINGS, places_of, words_of

from .in_node import in_node, without
from .test_page_text import DOCUMENTS, HOSTILE, PIECES, body_of, cases

SCRIPTS = ("shared.js", "members.js", "stored.js", "text_scan.js", "text_words.js", "text_query.js")
MADE, MOST_DOCUMENTS, MOST_BYTES = 2000, 20, 60_000
LETTERS = range(0x20000)  # the planes that have words; others are signs of Han
SECONDS = 20  # of the processor, in which any page is read
# Charsets whose tables node lacks, or has otherwise than browsers do: tests/page/texts.py reads these.
OF_BROWSERS = ("bytes of its own", "Japanese of Unix", "Chinese", "Korean", "latin1 is windows-1252")
SCANNED = "(pages) => pages.map((page) => scanned(page))"
WORDS = "(texts) => texts.map((text) => wordsOf(text))"
SPELLED = "(codes) => codes.map((code) => spelling(String.fromCodePoint(code)))"
PLACES = "(texts) => texts.map((text) => placesOf(text).map(({word, begin, end}) => [word, begin, end]))"
CHARSETS = """(bodies) => bodies.map(([parts, type]) => {
  const body = Buffer.concat(parts.flatMap(([digits, times]) => Array(times).fill(Buffer.from(digits, 'hex'))));
  return textOf(new Uint8Array(body), type, body.length);
})"""
FOUND = """(texts, queries) => {
  const made = texts.map((text) => searchable({title: text[0], text: text[1]}));
  return queries.map((asked) => {
    try {
      const query = queryOf(asked), terms = (list) => list.map((it) => [it.words, it.isPrefix]);
      const hits = made.map((words) => hasAll(words, query));
      const parts = texts.map(([, text], at) => hits[at] ? snippetOf(text, query) : null);
      return [terms(query.wanted), terms(query.without), parts.map((it) => it && [it.text, it.marks])];
    } catch (error) {
      if (!(error instanceof BadQuery)) throw error;
      return error.message;
    }
  });
}"""
HOSTILE_PAGES = """(pages) => pages.map((make) => {
  const M = 1 << 20, page = new Function('M', `return ${make}`)(M), begun = process.cpuUsage();
  const made = scanned(textOf(new TextEncoder().encode(page), 'text/html', 32 * M)), words = searchable(made);
  const {text} = snippetOf(made.text, queryOf('nowhere'));
  const {user, system} = process.cpuUsage(begun);
  return [(user + system) / 1e6, made.title.length, made.text.length, words.length + text.length];
})"""


def in_page(function: str, *values: object) -> Any:
    """What a function gives after the scripts that the worker has for texts."""
    if not os.path.exists(build_page.INFLATER):
        without("node-pako")
    before = f"const ENTITIES = {json.dumps(html.entities.html5)};\n"
    return in_node(SCRIPTS, function, *values, before=build_page.inflater() + before)


def as_in_page(page: str) -> Dict[str, str]:
    """The text of a page by Python."""
    found = scanned(page)
    return {"title": found.title, "text": found.text}


def differing(names: List[Any], mine: List[Any], others: List[Any]) -> List[Tuple[Any, Any, Any]]:
    assert len(names) == len(mine) == len(others)
    return [it for it in zip(names, mine, others) if it[1] != it[2]][:5]


def test_texts_of_pages() -> None:
    table = cases("scan")
    found = in_page(SCANNED, [case["page"] for case in table])
    wanted = [{"title": case["title"], "text": case["text"]} for case in table]
    assert not differing([case["name"] for case in table], found, wanted)


def test_pages_as_python_reads_them() -> None:
    """Documents, and pages made of odd pieces."""
    numbers = random.Random(11)
    pieces = (
        *PIECES,
        "<svg>",
        "</svg>",
        "<desc>",
        "<template x>",
        "</template>",
        "<math>",
        "<mi/>",
        "\0",
        "<plaintext>",
    )
    pages = ["".join(numbers.choice(pieces) for _ in range(numbers.randrange(3, 30))) for _ in range(MADE)]
    pages += ["<svg>" * count + "</svg>" * 3 + "<style/>x" for count in (2, 3, 4, 66, 67, 70)]
    paths = sorted(filter(os.path.isfile, glob.glob(DOCUMENTS, recursive=True)))
    for path in numbers.sample(paths, min(len(paths), MOST_DOCUMENTS)):
        with open(path, "rb") as file:
            pages.append(text_of(file.read(MOST_BYTES), "text/html"))
    assert not differing(pages, in_page(SCANNED, pages), list(map(as_in_page, pages)))


def test_charsets() -> None:
    table = [case for case in cases("charsets") if case["name"] not in OF_BROWSERS]
    texts = in_page(CHARSETS, [[case["body"], case["type"]] for case in table])
    assert [case["name"] for case, text in zip(table, texts) if not text.endswith(case["text"])] == []
    pages = [case for case in table if len(body_of(case)) < 1000]
    mine = in_page(CHARSETS, [[case["body"], case["type"]] for case in pages])
    assert not differing(pages, mine, [text_of(body_of(case), case["type"]) for case in pages])


def test_words() -> None:
    table = cases("search_words")
    found = in_page(WORDS, [case["text"] for case in table])
    assert not differing([case["name"] for case in table], found, [case["words"] for case in table])


def test_each_letter() -> None:
    """Each character is spelled as Python spells it, but for those that one of both doesn't know."""
    known = [code for code in LETTERS if unicodedata.category(chr(code)) not in ("Cn", "Cs")]
    assert not differing(list(map(hex, known)), in_page(SPELLED, known), [SPELLINGS[code] for code in known])


def test_places_of_words() -> None:
    texts = [scanned(case["text"]).text for case in cases("search_words")] + ["Stra\u00dfe \u00bd", "a\u00dfb-c d"]
    wanted = [[list(it) for it in places_of(text)] for text in texts]
    assert not differing(texts, in_page(PLACES, texts), wanted)


def made_texts() -> List[Tuple[str, str]]:
    """Titles and texts of some words, so that many have what is looked for."""
    numbers = random.Random(5)
    words = [
        "the",
        "them",
        "mill",
        "burned",
        "M\u00fchle",
        "stra\u00dfe",
        "\u6771\u4eac",
        "won't",
        "of",
        "\u0451\u043b\u043a\u0430",
    ]
    some = [" ".join(numbers.choice(words) for _ in range(numbers.randrange(0, 120))) for _ in range(60)]
    return [*((some[at - 1][:40], text) for at, text in enumerate(some)), ("The end", "begins here")]


QUERIES = (
    *("mill", "MILL burned", '"the mill"', "-mill the", 'the -"mill of"', "mil*", "mi*", "muhle", "STRASSE", "won't"),
    *(
        "\u4eac",
        "\u6771\u4eac*",
        '"\u6771 \u4eac"',
        "\u0435\u043b\u043a\u0430",
        '"open of the',
        "bur* -str*",
        "of of of",
    ),
    *(
        "",
        '"',
        "*",
        "-x",
        "\U0001f600",
        "x" * 2001,
        "a " * 33,
        "AND",
        "NEAR(the mill)",
        "title:mill",
        "nowhere",
        "won*",
        "the-mil*",
        '"end begins"',
    ),
)


def by_python(texts: List[Tuple[str, str]], asked: str) -> Any:
    """What Python's query is, and the part of each text that has it, by what the index is made of."""
    try:
        query = query_of(asked)
    except BadQuery as error:
        return str(error)

    def has(term: Any, text: str) -> bool:
        words, is_prefix = term
        return f" {' '.join(words)}{'' if is_prefix else ' '}" in f" {' '.join(words_of(text))} "

    def is_hit(text: Tuple[str, str]) -> bool:
        there = [any(has(term, part) for part in text) for term in query.wanted]
        return all(there) and not any(has(term, part) for term in query.without for part in text)

    terms = [[[list(words), is_prefix] for words, is_prefix in part] for part in (query.wanted, query.without)]
    parts = [snippet_of(text[1], query) if is_hit(text) else None for text in texts]
    return [*terms, [it and [it[0], [list(mark) for mark in it[1]]] for it in parts]]


def test_queries_and_parts_of_texts() -> None:
    texts = made_texts()
    wanted = [by_python(texts, asked) for asked in QUERIES]
    assert sum(isinstance(it, list) and any(it[2]) for it in wanted) > 15
    assert not differing(list(QUERIES), in_page(FOUND, texts, QUERIES), wanted)


def test_hostile_pages() -> None:
    """Each takes few seconds of the processor, whatever it is, and its text is no longer than it may be."""
    makes = [as_javascript(page) for page in HOSTILE.values()]
    for name, (took, title, text, _) in zip(HOSTILE, in_page(HOSTILE_PAGES, makes)):
        assert took < SECONDS and title <= 300 and text <= 2_000_000, (name, took)


def as_javascript(page: str) -> str:
    """The expression of a page in Python, as JavaScript has it: a text times a number."""
    parts = []
    for part in page.split(" + "):
        text, _, times = part.partition(" * ")
        count = times.replace("//", "/") or "1"
        parts.append(f"{text}.repeat(Math.floor({count}))")
    return " + ".join(parts)


@pytest.mark.parametrize("page", ["<p>" + "word " * 600_000], ids=["3 MB"])
def test_a_long_page_is_cut(page: str) -> None:
    (found,) = in_page(SCANNED, [page])
    assert found == as_in_page(page) and len(found["text"]) == 2_000_000


# The texts of captures, over a library that answers what a table says, and a file of the blocks.
READER = """
const bytes = (text) => new TextEncoder().encode(text);
const asField = ([name, value]) => [bytes(name), bytes(value)];
async function textsOver(records) {
  const blocks = records.map((it) => it.stored ? Buffer.from(it.stored, 'hex') : bytes(it.body ?? ''));
  const starts = blocks.map((_, at) => blocks.slice(0, at).reduce((sum, it) => sum + it.length, 0));
  const archive = {
    file: new Blob(blocks), isOver: false, newHelpers: () => ({stop() {}}), asked: [],
    async ask([{position, most}]) {
      archive.asked.push([position, most]);
      const {given = position, reason, status = null, body = '', length = body.length} = records[position];
      return [reason ? {given, reason} : {given, status, length, body: length > most ? null : bytes(body)}];
    },
  };
  const read = ({head, front}, {http, fields = []}) =>
      ({fields: head && fields.map(asField), http: front && {status: http, start: 0, fields: fields.map(asField)}});
  const heads = {read: ([it]) => [read(it, records[heads.turn])]};
  const texts = new Texts({heads, inTurn: (act) => act()}, archive);
  const task = texts.task.bind(texts);
  texts.task = (place, answer) => Object.assign(heads, {turn: place.position}) && task(place, answer);
  const places = blocks.map((block, position) => (
      {position, offset: starts[position], blockStart: starts[position], blockLength: block.length}));
  return {texts, places, archive};
}
"""
READ_ALL = """async (records, queries) => {
  const {texts, places, archive} = await textsOver(records), all = [];
  await texts.find('mill');
  for (const place of places) {
    const {outcomes, hits} = await texts.read([place]);
    all.push([outcomes.map((it) => [it.position, it.why]), hits]);
  }
  const found = [];
  for (const asked of queries) {
    const {hits, missing, why} = await texts.find(asked);
    found.push([hits.sort((a, b) => a - b), missing, why, await texts.parts(hits)]);
  }
  return {all, found, kept: texts.all.length, asked: archive.asked.length};
}"""
FULL = """async (count) => {
  const body = Array.from({length: 50000}, (_, at) => `word${at}`).join(' ');
  const records = Array.from({length: count}, (_, at) => ({status: 200, http: 200, body: `${at} ${body}`}));
  const {texts, places} = await textsOver(records);
  texts.kept = MOST_KEPT - 900000;
  const found = await texts.read(places);
  return [found.isFull, found.outcomes.length, texts.all.length];
}"""
HTML = [["Content-Type", "text/html"]]
GZIPPED = gzip.compress(b"<title>Packed</title>a mill in a member").hex()
RECORDS: List[Dict[str, Any]] = [
    {"status": 200, "http": 200, "fields": HTML, "body": "<title>The mill</title>It burned."},
    {"given": 0, "status": 200},
    {"given": 3, "status": 200},
    {"status": 200, "http": 200, "fields": [["content-type", "text/plain"]], "body": "The mill was sold."},
    {"status": 200, "http": 200, "fields": [["Content-Type", "image/png"]], "body": "mill"},
    {"status": 404, "http": 404, "fields": HTML, "body": "no mill"},
    {"reason": "P4 NoReferent"},
    {"reason": "P10 Coded", "http": 200, "fields": [*HTML, ["Content-Encoding", "gzip"]], "stored": GZIPPED},
    {"fields": [["Content-Type", "text/plain"]], "body": "A resource of the mill."},
    {"status": 200, "http": 200, "fields": HTML, "body": "<title>The mill</title><p>It burned."},
    {"reason": "P10 Coded", "http": 200, "fields": [*HTML, ["Content-Encoding", "gzip"]], "stored": GZIPPED[:60]},
    {"status": 200, "http": 200, "fields": HTML, "body": "", "length": 1 << 30},
    {"status": 200, "http": 200, "fields": HTML, "body": "<p> "},
    {"status": 200, "http": 200, "body": "<html>a mill without a type"},
    {"reason": "P10 Coded", "http": 200, "fields": [*HTML, ["Content-Encoding", "x"]], "stored": "00"},
    {"status": 200, "http": 200, "fields": [["Content-Type", "image/png"], *HTML], "body": "<p>a mill"},
    {"status": 200, "http": 200, "fields": [*HTML, ["Content-Type", "image/png"]], "body": "<p>a mill"},
]
# What is said of each as it is read, and which of them have the word that is looked for meanwhile.
SAID = [
    *([[[0, ""]], [0]], [[[1, ""]], [1]], [[], []], [[[3, ""], [2, ""]], [3, 2]], [[[4, "no text"]], []]),
    *([[[5, "no text"]], []], [[[6, "P4"]], []], [[[7, ""]], [7]], [[[8, ""]], [8]], [[[9, ""]], [9]]),
    *(
        [[[10, "coded"]], []],
        [[[11, "too long"]], []],
        [[[12, "empty"]], []],
        [[[13, ""]], [13]],
        [[[14, "coded"]], []],
    ),
    *([[[15, "no text"]], []], [[[16, "no text"]], []]),
]


def over_reader(function: str, *values: object) -> Any:
    """What a function gives after the scripts that read and search texts."""
    before = f"const HELPERS = 2, ENTITIES = {json.dumps(html.entities.html5)};\n"
    scripts = (*SCRIPTS, "text_reader.js")
    return in_node(
        scripts,
        f"(...values) => {{ {READER}; return ({function})(...values); }}",
        *values,
        before=build_page.inflater() + before,
    )


def test_texts_of_captures() -> None:
    """A text or a reason for each; a revisit has the text of what it gives, also if that comes later."""
    found = over_reader(READ_ALL, RECORDS, ["burned", "the mill -sold", "nowhere mil*", "mi*", "-mill", "in packed"])
    assert found["all"] == SAID and found["asked"] == len(RECORDS)
    assert found["kept"] == 5  # the same text is kept once
    hits = [it[0] for it in found["found"]]
    assert hits == [[0, 1, 9], [0, 1, 8, 9], [], [], [], [7]]
    assert [it[1:3] for it in found["found"][2:5]] == [
        *([["nowhere"], ""], [[], "mi*: the beginning of a word has 3 letters or more"]),
        [[], "no word to look for"],
    ]
    (shown,) = found["found"][5][3]
    assert shown == {"position": 7, "title": "Packed", "snippet": "a mill in a member", "marks": [[7, 9]]}


def test_texts_that_are_too_many() -> None:
    """No more are read once there is no room."""
    is_full, outcomes, kept = over_reader(FULL, 20)
    assert is_full and outcomes == kept < 5
