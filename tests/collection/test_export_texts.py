"""The texts of pages for PostgreSQL and for other engines, read back as these read them."""
from __future__ import annotations

import json
import os
import re
from pathlib import Path
from typing import Any, Dict, List, Optional

import pytest
from conftest import Collection
from rooms import ID, new_collection, response, revisit
from test_search import CITY, DAY, HTML, MILL, night, page

from zogwedu_collection import export_texts
from zogwedu_collection.access import EVERYTHING
from zogwedu_collection.export_texts import column, plain
from zogwedu_collection.search import searching
from zogwedu_collection.timemaps import Seen

HOSTILE = "a\tb\\N\\.\r\n\\. \u202eend\u0007 \U0001f600 \"quoted\" 'x' \x1b[31m"
SHUT, WAY = "http://shut.example/", "http://way.example/"
pytestmark = pytest.mark.xdist_group("export_texts")


@pytest.fixture(name="shared", scope="module")
def shared_fixture(tmp_path_factory: pytest.TempPathFactory) -> Collection:
    """Two crawls that no test changes."""
    collection = new_collection(tmp_path_factory)
    collection.put(
        "disk/1.warc",
        response(1, MILL, DAY % 2004, page("The mill", "It burned."), **HTML),
        response(2, SHUT, DAY % 2004, page("Shut", "hidden word"), **HTML),
        response(3, CITY, DAY % 2005, HOSTILE.encode()),
    )
    collection.put(
        "disk/2.warc",
        revisit(4, MILL, DAY % 2005, ID % 1),
        revisit(5, WAY, DAY % 2005, ID % 2),
        response(6, MILL, DAY % 2024, page("Late", "fresh word"), **HTML),
        response(7, "http://copy.example/", DAY % 2006, page("The mill", "It burned."), **HTML),
    )
    assert night(collection, "--text", "disk").returncode == 0
    return collection


# What PostgreSQL's documentation of COPY says of its text format
LETTERS = {b"b": b"\b", b"f": b"\f", b"n": b"\n", b"r": b"\r", b"t": b"\t", b"v": b"\v"}
ESCAPE = re.compile(rb"\\(x[0-9A-Fa-f]{1,2}|[0-7]{1,3}|.)", re.DOTALL)


def unescaped(found: re.Match[bytes]) -> bytes:
    """The byte of an escape."""
    word = found[1]
    if word[:1] == b"x" and len(word) > 1:
        return bytes([int(word[1:], 16)])
    return bytes([int(word, 8) & 255]) if word.isdigit() else LETTERS.get(word, word)


def value_of(field: bytes) -> Optional[str]:
    return None if field == b"\\N" else ESCAPE.sub(unescaped, field).decode("utf-8")


def tables_of(script: bytes) -> Dict[str, List[List[Optional[str]]]]:
    """The rows that a script for psql copies, by the names of the tables."""
    tables: Dict[str, List[List[Optional[str]]]] = {}
    rows: Optional[List[List[Optional[str]]]] = None
    for line in script.split(b"\n"):
        begun = re.fullmatch(rb"COPY (\w+) FROM stdin;", line) if rows is None else None
        if begun:
            rows = tables[begun[1].decode()] = []
        elif line == b"\\.":
            rows = None
        elif rows is not None:
            rows.append([value_of(field) for field in line.split(b"\t")])
    return tables


def exported(collection: Collection, *words: str, status: int = 0) -> bytes:
    done = collection.run("export", "--text", *words)
    assert done.returncode == status, done.stderr.decode()
    return done.stdout


def documents(collection: Collection, *words: str) -> Dict[str, List[Any]]:
    """The lines of JSON, by the URIs."""
    made: Dict[str, List[Any]] = {}
    for line in exported(collection, "--json", *words).splitlines():
        values = json.loads(line)
        made.setdefault(values["uri"], []).append(values)
    return made


def test_tables(shared: Collection) -> None:
    """A text is there once, with each capture of each URI that has it."""
    script = exported(shared)
    tables = tables_of(script)
    assert list(tables) == ["addresses", "seen", "seen_files", "texts"]
    texts = {row[1]: row for row in tables["texts"]}
    targets = {row[0]: row[1] for row in tables["addresses"]}
    paths = {row[0]: os.path.basename(row[1] or "") for row in tables["seen_files"]}
    assert texts["The mill"][2:] == ["It burned.", "the mill it burned"] and len(texts) == 4
    seen = sorted(
        [paths[it[4]], str(it[5]), targets[it[0]], str(it[1])[:4]]
        for it in tables["seen"]
        if it[3] == texts["The mill"][0]
    )
    assert seen == [
        ["1.warc", "0", MILL, "2004"],
        ["2.warc", "0", MILL, "2005"],
        ["2.warc", "3", "http://copy.example/", "2006"],
    ]
    assert [row[2] for row in tables["addresses"] if row[1] == CITY] == ["www.town.example"]
    assert texts[""][2] == " ".join(HOSTILE.split())
    assert not re.search(rb"[\x00-\x08\x0b-\x1f\x7f]|\xe2\x80\xae", script)
    assert script.endswith(b"COMMIT;\nANALYZE;\n") and b"\nBEGIN;\n" in script


def test_lines_of_json(shared: Collection) -> None:
    """A line for each text of a URI, with the captures that have it."""
    found = documents(shared)
    first, second = found[MILL]
    assert {name: first[name] for name in ("uri_path", "host", "type", "title", "text")} == {
        "uri_path": MILL,
        "host": "town.example",
        "type": "text/html",
        "title": "The mill",
        "text": "It burned.",
    }
    assert [[os.path.basename(it[0]), it[1], it[2][:4], it[3]] for it in first["captures"]] == [
        ["1.warc", 0, "2004", None],
        ["2.warc", 0, "2005", None],
    ]
    assert (first["first"][:4], first["last"][:4], second["title"]) == ("2004", "2005", "Late")
    assert found[CITY][0]["text"] == " ".join(HOSTILE.split()) and set(found) == {
        *(MILL, CITY, SHUT, WAY, "http://copy.example/"),
    }
    assert exported(shared, "--json").isascii()


def test_what_is_withheld_is_not_exported(shared: Collection, tmp_path: Path) -> None:
    """Neither a URI, nor a capture, nor a text; a text that another URI has stays."""
    rules = tmp_path / "rules"
    rules.write_text("block shut.example\nblock copy.example\nembargo 5y town.example\n", encoding="utf-8")
    found = documents(shared, "--access", str(rules))
    assert set(found) == {MILL, CITY} and [it["title"] for it in found[MILL]] == ["The mill"]
    done = shared.run("export", "--text", "--access", str(rules))
    assert b"withheld: 4 captures" in done.stderr and done.returncode == 0
    tables = tables_of(done.stdout)
    assert len(tables["addresses"]) == 2 and len(tables["texts"]) == 2 and len(tables["seen"]) == 3
    for word in (b"hidden", b"shut", b"fresh", b"copy.example", b"way.example"):
        assert word not in done.stdout
    rules.write_text("block town.example\nblock shut.example\n", encoding="utf-8")
    assert [it["title"] for it in documents(shared, "--access", str(rules))["http://copy.example/"]] == ["The mill"]


def test_a_file_is_whole_or_not_there(shared: Collection, tmp_path: Path) -> None:
    """It replaces another file once it is whole. The copies of the databases don't stay."""
    out, own = tmp_path / "out", tmp_path / "own"
    own.mkdir()
    words = str(out), "--temporary", str(own)
    assert exported(shared, *words) == b"" and out.read_bytes() == exported(shared)
    out.write_text("before", encoding="utf-8")
    missing = shared.run("export", "--text", str(out), "--temporary", str(tmp_path / "none"))
    assert (missing.returncode, out.read_text(encoding="utf-8")) == (3, "before")
    assert os.listdir(own) == [] and sorted(os.listdir(tmp_path)) == ["out", "own"]
    whole = out.parent / "full"
    assert shared.run("export", "--text", str(whole / "out")).returncode == 3
    assert shared.run("export", "--text", "/dev/full").returncode == 3


STATUSES = (
    (2, ("--text", "--manifest", "x")),
    (2, ("--json", "tables")),
    (2, ("--access", "x", "tables")),
    (2, ("--temporary", "x", "tables")),
    (2, ()),
    (3, ("--text", "--access", "none")),
)


@pytest.mark.parametrize("status, words", STATUSES, ids=[" ".join(words) or "none" for _, words in STATUSES])
def test_statuses(shared: Collection, status: int, words: Any) -> None:
    done = shared.run("export", *words)
    assert (done.returncode, done.stdout) == (status, b"") and done.stderr


def test_files_without_texts(collection: Collection) -> None:
    """They are counted, and the status is 1; without an index it is 3."""
    collection.put("disk/1.warc", response(1, MILL, DAY % 2004, page("The mill", "It burned."), **HTML))
    night(collection, "disk")
    assert collection.run("export", "--text").returncode == 3
    night(collection, "--text")
    collection.put("disk/2.warc", response(2, CITY, DAY % 2004, page("City", "word"), **HTML))
    assert collection.night(env={"PYTHONPATH": ""}).returncode == 0
    done = collection.run("export", "--text", "--json")
    assert (done.returncode, done.stdout.count(b"\n")) == (1, 1) and b"1 of 2 files have no texts" in done.stderr


VALUES = (
    ("\0", "\\x00"),
    ("\ud800", "\\ud800"),
    (b"a\xff", "a\\xff"),
    ("\\N", "\\N"),
    ("\u202e\u2066", "\u202e\u2066"),
    ("\x07f", "\x07f"),
    ("\t\n\r\b", "\t\n\r\b"),
    ("", ""),
)


@pytest.mark.parametrize("value, wanted", VALUES, ids=[ascii(value) for value, _ in VALUES])
def test_values(value: Any, wanted: str) -> None:
    """What no engine takes is written as its number, and all else comes back."""
    field = column(value).encode("utf-8")
    assert value_of(field) == wanted and plain(value) == wanted
    assert not re.search(rb"[\x00-\x1f\x7f]", field) and "\u202e".encode() not in field
    assert value_of(column(None).encode()) is None and value_of(column("None").encode()) == "None"


def test_many_words(shared: Collection, monkeypatch: pytest.MonkeyPatch) -> None:
    """A text with more words than a tsvector takes is whole, and its words are cut between two."""
    monkeypatch.setattr(export_texts, "MOST_OF_WORDS", 13)
    written: List[str] = []
    with searching(shared.path("catalogue")) as catalogue:
        exporter = export_texts.Exporter(catalogue, Seen(EVERYTHING))
        exporter.script(written.append, shared.folder)
    rows = {row[1]: row[2:] for row in tables_of("".join(written).encode())["texts"]}
    assert rows["The mill"] == ["It burned.", "the mill it"] and exporter.cut == 4
