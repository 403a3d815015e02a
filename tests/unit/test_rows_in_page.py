"""The rows of the page, in node: they come in pieces, whose offsets begin anew."""
from __future__ import annotations

from .in_node import in_node

ADDED = """(bases) => {
  const rows = new Rows(), numbers = new DataView(new ArrayBuffer(ROW_BYTES));
  [10n, 15n, 4n].forEach((number, place) => numbers.setBigUint64(8 * place, number, true));
  bases.forEach((base) => rows.add({base, count: 1, rows: numbers.buffer.slice(0), words: new ArrayBuffer(0)}));
  return bases.map((_, at) => [rows.row(at).offset, rows.row(at).blockStart, rows.offset(at), rows.blockLength(at)]);
}"""


def test_offsets_are_those_in_the_file() -> None:
    assert in_node(["shared.js", "library.js"], ADDED, [0, 1000]) == [[10, 15, 10, 4], [1010, 1015, 1010, 4]]
