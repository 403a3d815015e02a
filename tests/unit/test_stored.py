"""Stored bytes as the page reads them: heads of HTTP, coded bodies, charsets, and what goes into a selection."""
from __future__ import annotations

import json
import os
from typing import Any, Dict, List, Sequence, Tuple

import build_page
import pytest

from .in_node import TOP, in_node, without

SCRIPTS = ("shared.js", "elements.js", "members.js", "words.js", "stored.js")
OPTIONAL = ("br", "zstd")  # codings that not every node undoes
TAKEN_BY_NODE = {"deflate with other bytes after it"}  # browsers refuse it

BYTES = """
const bytesOf = (hex) => Uint8Array.from(Buffer.from(hex, 'hex'));
const pairsOf = (fields) => fields.map((field) => field.map(bytesOf));
"""
DECODED = """async (cases) => {
  const found = [];
  for (const {body: stored, fields} of cases) {
    try {
      const head = httpHead({status: 200, start: 0, fields: pairsOf(fields)}, new Uint8Array());
      const {body, steps} = await decoded(bytesOf(stored), head);
      found.push({gives: body, undone: steps});
    } catch (error) {
      found.push({fails: error.coding ?? String(error)});
    }
  }
  return found;
}"""
HEAD = """(fields, block) => {
  const head = httpHead({status: 204, start: 19, fields: pairsOf(fields)}, bytesOf(block));
  return [head.status, head.text, head.fields, head.get('b'), head.get('none'), fieldOf(head.fields, 'B')];
}"""
TEXTS = "(pairs) => pairs.map(([body, type]) => textOf(bytesOf(body), type, 1000))"


def in_page(function: str, *values: object) -> Any:
    """What a function gives after the scripts that read stored bytes."""
    if not os.path.exists(build_page.INFLATER):
        without("node-pako")
    return in_node(SCRIPTS, function, *values, before=build_page.inflater() + BYTES)


def as_bytes(fields: Sequence[Tuple[str, str]]) -> List[List[str]]:
    """The fields of a head as the library gives them, in hexadecimal digits."""
    return [[part.encode("latin-1").hex() for part in field] for field in fields]


def has_optional(case: Dict[str, Any]) -> bool:
    """Whether a case has a coding that node may not know."""
    named = ",".join(value for name, value in case["fields"] if name.lower().endswith("encoding"))
    return any(coding in named.split(",") for coding in OPTIONAL)


def test_codings() -> None:
    """Each of the cases that Python's tests and the browser's read, too."""
    with open(f"{TOP}/tests/callers/codings.json", encoding="utf-8") as file:
        cases = [case for case in json.load(file) if not has_optional(case)]
    found = in_page(DECODED, [{"body": case["body"], "fields": as_bytes(case["fields"])} for case in cases])
    wanted = [{name: case[name] for name in ("fails", "undone", "gives") if name in case} for case in cases]
    differ = {case["name"] for case, one, other in zip(cases, found, wanted) if one != other}
    assert len(cases) > 25 and differ <= TAKEN_BY_NODE


def test_a_head_of_http() -> None:
    """What the library read of it, as texts. Of several fields with a name all values count, or the first one."""
    fields = [("A", "1"), ("b", "\xe9"), ("B", "3")]
    text = "HTTP/1.1 204 \xe9 ..\r\n"
    found = in_page(HEAD, as_bytes(fields), (text + "body").encode("latin-1").hex())
    assert found == [204, text, [list(field) for field in fields], "\xe9, 3", "", "\xe9"]


def test_a_body_without_a_head() -> None:
    assert in_page("() => decoded(new Uint8Array(), null).catch((error) => whyOf(error))") == "there is no HTTP head"


def test_charsets() -> None:
    """What names a charset but for a page itself, which a browser's parser reads: tests/page/charsets.py."""
    word, page = "Grüße", "<html><meta charset=%s>Grüße"
    bodies = [
        (word.encode(), "text/plain", word),
        (word.encode("latin-1"), "text/plain", word),
        (word.encode("utf-16"), "text/plain", word),
        (b"\xfe\xff" + word.encode("utf-16-be"), "text/plain; charset=utf-8", word),
        (word.encode("cp437"), "text/plain; charset=ibm866", "Gr\u0411\u0441e"),
        ((page % "windows-1252").encode(), "text/html; charset=utf-8", page % "windows-1252"),
        (b'@charset "koi8-r"; /*\xc4*/', "text/css", '@charset "koi8-r"; /*\u0434*/'),
    ]
    found = in_page(TEXTS, [(body.hex(), kind) for body, kind, _ in bodies])
    assert found == [text for _, _, text in bodies]
