"""How the page asks its module for heads: where it puts bytes, and how it reads what the module put beside them. What
the module itself says is tried in Chromium, by tests/page/heads.py."""
from __future__ import annotations

import os
from typing import Any

import build_page

from .in_node import in_node, without

SCRIPTS = ("shared.js", "members.js", "search.js", "heads.js", "instance.js", "keeper.js", "helpers.js", "worker.js")
# A module that puts the fields `1=22` and `=4` of a head that begins with `+`, and of HTTP also the status 299 and a
# body at 9. It has too little memory at first, and puts what it doesn't say there after each.
MODULE = """
globalThis.navigator ??= {};
Object.assign(globalThis, {postMessage: (message) => { globalThis.said = message; }, Worker: undefined});
let calls = 0;
class Fake {
  constructor() {
    const memory = new WebAssembly.Memory({initial: 1}), view = () => new DataView(memory.buffer);
    const end = (outcome, state, count) => {
      view().setBigUint64(Number(outcome), BigInt(state), true);
      view().setBigUint64(Number(outcome) + 8, BigInt(count), true);
    };
    const state = (units, at) => units < 1024n ? 2 : view().getUint8(Number(at)) === 43 ? 0 : 1;
    this.exports = {
      memory,
      page_fields(heap, units, at, length, lengths, room, texts, most, text, textRoom, outcome) {
        calls += 1;
        end(outcome, state(units, at), 2);
        [1, 2, 0, 1, 9, 9].forEach((it, number) => view().setUint32(Number(lengths) + 4 * number, it, true));
        [49, 50, 50, 52, 57].forEach((it, number) => view().setUint8(Number(texts) + number, it));
      },
      page_http(heap, units, at, length, http, fields, room, text, textRoom, outcome) {
        end(outcome, state(units, at), 2);
        [9, 0, 0].forEach((it, number) => view().setBigUint64(Number(http) + 8 * number, BigInt(it), true));
        view().setUint32(Number(http) + 24, 299, true);
        [1, 1, 3, 2, 5, 0, 6, 1].forEach(
            (it, number) => view().setBigUint64(Number(fields) + 8 * number, BigInt(it), true));
      },
    };
  }
}
WebAssembly.Instance = Fake;
"""
READ = """(heads) => {
  const bytes = (text) => text === null ? null : new TextEncoder().encode(text);
  const texts = (fields) => fields && fields.map((field) => field.map((it) => new TextDecoder().decode(it)));
  const reader = new HeadReader(null);
  return reader.read(heads.map(([head, front]) => ({head: bytes(head), front: bytes(front)})))
      .map(({fields, http}) => [texts(fields), http && [http.status, http.start, texts(http.fields)]]);
}"""
MANY = """(count) => {
  const reader = new HeadReader(null), head = new Uint8Array([43]);
  const read = Array.from({length: count}, () => reader.read([{head, front: null}])[0].fields.length);
  return [read.every((it) => it === 2), reader.instance.spent <= MOST_READING + MEGABYTE, calls >= count];
}"""
DESK = """() => {
  const desk = Object.create(Desk.prototype);
  Object.assign(desk, {heads: new HeadReader(null), openings: 7, queue: new Promise(() => {}), archive: null});
  desk.hear({id: 5, heads: [{head: new Uint8Array([43]), front: null}]});
  return new Promise((done) => setTimeout(() => done([said.id, said.openings, said.answers[0].fields.length])));
}"""


def in_worker(function: str, *values: object) -> Any:
    """What a function gives after the scripts of the page's worker, over that module."""
    if not os.path.exists(build_page.INFLATER):
        without("node-pako")
    return in_node(SCRIPTS, function, *values, before=build_page.inflater() + MODULE)


def test_what_the_module_puts() -> None:
    fields, http = [["1", "22"], ["", "4"]], [299, 9, [["b", "de"], ["", "g"]]]
    heads = [("+head", None), (None, "+bcdefg"), ("+", "+bcdefghij"), ("-", "-"), ("", "")]
    wanted = [[fields, None], [None, http], [fields, http], [None, None], [None, None]]
    assert in_worker(READ, heads) == wanted


def test_heads_that_are_longer_than_the_buffers() -> None:
    assert in_worker(READ, [("+" * 70000, None), ("+", None)]) == [[[["1", "22"], ["", "4"]], None]] * 2


def test_the_module_is_started_anew() -> None:
    """Before it has spent much more memory than heads may take."""
    assert in_worker(MANY, 5000) == [True, True, True]


def test_heads_wait_for_nothing() -> None:
    """They are read while an archive is opened, which all other questions wait for."""
    assert in_worker(DESK) == [5, 7, 2]
