"""The good members of a damaged file that gzip wrote, as the page finds them: the same as Python's module of members,
in damaged files of many kinds; and no hostile file costs more than its length allows."""
from __future__ import annotations

import gzip
import os
import random
import zlib
from typing import Any, Dict, List, Sequence, Tuple

import build_page
import pytest
from zogwedu_collection.unpack import members_in, spans_of

from .in_node import in_node, without

SCRIPTS = ("shared.js", "members.js", "search.js", "unpack.js")
RECORDS = [b"WARC/1.1\r\nNumber: %d\r\n\r\n%s\r\n\r\n" % (number, b"abc" * number * number) for number in range(6)]
MEMBERS = [gzip.compress(record) for record in RECORDS]
MOST_TRIED = 4
WINDOW = 4 << 20
COUNTING = """
const inflate = zlib.inflate;
let offered = 0;
zlib.inflate = (stream, how) => {
  offered += stream.avail_in;
  return inflate(stream, how);
};
"""
JOINED = """async (all, limit) => {
  const found = [];
  for (const files of all) {
    offered = 0;
    const given = files.map(([name, hex, letters, rest]) => {
      const parts = [Buffer.from(hex, 'hex'), new Uint8Array(letters).fill(65), Buffer.from(rest, 'hex')];
      return new File(parts, name);
    });
    const joining = new Joining(given, limit, () => false, () => {}), joined = await joining.join();
    const {gaps, damage, parts} = joining, bytes = new Uint8Array(await joined.arrayBuffer());
    found.push({bytes, gaps, damage, offered, starts: parts.map((it) => it.start)});
  }
  return found;
}"""
LIMIT = 1 << 26


def joined(
    files: Sequence[Sequence[Tuple[str, bytes]]], limit: int = LIMIT, letters: int = 0, rest: bytes = b""
) -> List[Dict[str, Any]]:
    """What the page joins of some lists of files: the bytes, the gaps, and what ends the reading. Each file may have a
    number of letters after its bytes, and a rest after these."""
    if not os.path.exists(build_page.INFLATER):
        without("node-pako")
    given = [[(name, data.hex(), letters, rest.hex()) for name, data in it] for it in files]
    found: List[Dict[str, Any]] = in_node(SCRIPTS, JOINED, given, limit, before=build_page.inflater() + COUNTING)
    for it in found:
        it["bytes"] = bytes.fromhex(it["bytes"])
    return found


def each(datas: Sequence[bytes]) -> List[Dict[str, Any]]:
    """The same of files that are opened alone."""
    return joined([[("a.warc.gz", data)] for data in datas])


def places(found: Dict[str, Any]) -> List[Tuple[int, int, int]]:
    """The place and the length of each gap in its file, and its place in what was joined."""
    return [(gap["offset"], gap["length"], gap["place"]) for gap in found["gaps"]]


def by_python(data: bytes, folder: Any) -> Tuple[bytes, List[Tuple[int, int, int]]]:
    """The bytes and the gaps as Python's module of members has them."""
    path = folder / "a.warc.gz"
    path.write_bytes(data)
    held, gaps = b"", []
    with open(path, "rb") as file:
        for span in spans_of(file):
            if span.why is None:
                held += b"".join(members_in(file, span))
            else:
                gaps.append((span.offset, span.length, len(held)))
    return held, gaps


def with_fields(data: bytes) -> bytes:
    """A member whose head has a name, a comment, more fields and a sum."""
    head = b"\x1f\x8b\x08\x1e\0\0\0\0\2\3" + b"\3\0abc" + b"a name\0" + b"a comment\0"
    head += (zlib.crc32(head) & 0xFFFF).to_bytes(2, "little")
    return head + gzip.compress(data)[10:]


def changed(data: bytes, at: int) -> bytes:
    return data[:at] + bytes([data[at] ^ 0xE0]) + data[at + 1 :]


def block_of(data: bytes, length: int) -> bytes:
    """The beginning of a block of deflate that is stored: it has this length, and isn't the last."""
    return b"\0" + length.to_bytes(2, "little") + (0xFFFF - length).to_bytes(2, "little") + data


def damaged_files() -> List[bytes]:
    """Files with one damage or several, of each kind."""
    whole, begin, empty = b"".join(MEMBERS), sum(map(len, MEMBERS[:3])), gzip.compress(b"")
    files = [changed(whole, begin + at) for at in (0, 1, 2, 3, 12, len(MEMBERS[3]) - 8, len(MEMBERS[3]) - 1)]
    files += [changed(whole, 20), changed(changed(whole, 20), begin + 20), changed(whole, len(whole) - 1)]
    files += [whole[:-cut] for cut in (1, 8, len(MEMBERS[5]) - 1)]
    for rest in (b"x", b"rubbish\n", b"\x1f", b"\x1f\x8b\x08", b"\0\0x", b"\0" * 5000 + b"x", b"\n\0\0", b"\0" * 9):
        files += [MEMBERS[0] + rest, MEMBERS[0] + rest + MEMBERS[1], MEMBERS[0] + rest + MEMBERS[1] + rest]
    other, stored = gzip.compress(b"no record"), gzip.compress(RECORDS[0] + MEMBERS[1] + MEMBERS[2], 0)
    files += [MEMBERS[0] + b"x" + other + MEMBERS[1], MEMBERS[0] + other + b"x" + empty + MEMBERS[1], b"\x1f\x8b" * 9]
    files += [stored + b"x", stored[:-1] + b"x", MEMBERS[0][:-1] + with_fields(RECORDS[1])]
    for flags in (b"\4", b"\x08", b"\x10", b"\x1f"):
        files.append(MEMBERS[0][:-1] + b"\x1f\x8b\x08" + flags + bytes(5) + b"\3\xff\xff" + b"n" * 70_000 + MEMBERS[1])
    return files


def test_each_kind_of_damage(tmp_path: Any) -> None:
    files = damaged_files()
    for number, (data, found) in enumerate(zip(files, each(files))):
        assert (found["bytes"], places(found)) == by_python(data, tmp_path), number
        assert found["damage"] is None


def test_random_damage(tmp_path: Any) -> None:
    chance, files = random.Random(7), []
    for _ in range(300):
        parts = [chance.choice((*MEMBERS, gzip.compress(b""), bytes(3), b"x", gzip.compress(b"y"))) for _ in range(9)]
        data = bytearray(MEMBERS[0] + b"".join(parts))
        for _ in range(chance.randrange(4)):
            data[chance.randrange(2, len(data))] = chance.choice((0, 8, 0x1F, 0x8B, 0xFF))
        files.append(bytes(data))
    for made, found in zip(files, each(files)):
        assert (found["bytes"], places(found)) == by_python(made, tmp_path), made.hex()


def test_what_a_gap_says() -> None:
    """What is wrong, why, and in which file. A member that isn't whole is damaged if others follow."""
    torn, whole = MEMBERS[1][:-3], MEMBERS[2]
    files = [("c.warc.gz", MEMBERS[0] + b"x"), ("a.warc.gz", MEMBERS[0] + torn), ("b.warc", b"plain")]
    files.append(("d.warc.gz", changed(MEMBERS[1], len(MEMBERS[1]) - 8) + whole))
    (found,) = joined([files])
    said = [(gap["kind"], gap["name"], gap["why"]) for gap in found["gaps"]]
    assert said == [
        ("torn", "a.warc.gz", "the file ends in a member"),
        ("other", "c.warc.gz", "bytes that gzip didn\u2019t write"),
        ("damaged", "d.warc.gz", "incorrect data check"),
    ]
    long = b"\x1f\x8b\x08\0\0\0\0\0\0\3" + block_of(b"", 60000)
    (found_first,) = each([MEMBERS[0] + long + whole])
    assert [(gap["kind"], gap["why"]) for gap in found_first["gaps"]] == [("damaged", said[0][2])]
    held = [RECORDS[0], b"plain", RECORDS[0], RECORDS[2]]
    starts = [len(b"".join(held[:number])) for number in range(4)]
    assert (found["bytes"], found["starts"], found["damage"]) == (b"".join(held), starts, None)
    assert [gap["place"] for gap in found["gaps"]] == [starts[1], starts[3], starts[3]]


def test_a_member_after_more_than_is_read_at_once() -> None:
    """Its head may begin in what is read, and end in what is read next."""
    for letters in range(WINDOW - 4, WINDOW + 2):
        (found,) = joined([[("a.warc.gz", MEMBERS[0])]], letters=letters, rest=MEMBERS[1])
        assert places(found) == [(len(MEMBERS[0]), letters, len(RECORDS[0]))] and found["bytes"] == b"".join(
            RECORDS[:2]
        )


def test_a_long_member(tmp_path: Any) -> None:
    """Good members of any length follow a damage, and their bytes are read once more at most."""
    long = gzip.compress(b"WARC/" + random.Random(5).randbytes(1 << 20))
    data = MEMBERS[0] + b"x" + long + b"x" + MEMBERS[1]
    (found,) = each([data])
    assert (found["bytes"], places(found)) == by_python(data, tmp_path)
    assert len(found["gaps"]) == 2 and found["offered"] < 6 * len(data)


def test_what_ends_the_reading() -> None:
    """More damages than are passed over, and more bytes than may be decompressed."""
    most = 1000
    many = (MEMBERS[0] + b"x") * (most + 9)
    (found,) = each([many])
    assert (len(found["gaps"]), found["damage"]["kind"]) == (most, "other")
    assert found["damage"]["offset"] == len(MEMBERS[0]) + most * (len(MEMBERS[0]) + 1)
    long = MEMBERS[0] + b"x" + gzip.compress(b"WARC/" + bytes(900_000)) + MEMBERS[1]
    (found,) = joined([[("a.warc.gz", long), ("b.warc", b"after it")]], 500_000)
    assert (found["bytes"], found["damage"]["kind"], len(found["gaps"])) == (RECORDS[0], "long", 1)
    assert found["damage"]["offset"] == len(MEMBERS[0]) + 1


GOOD = gzip.compress(b"WARC/")
MOST_OF_BEGINNING = 512


def late_failures(heads: int, tail: int) -> bytes:
    """Heads of members each of which begins as a record does, and fails at the end of the last of `tail` blocks."""
    unit = 32
    found = b""
    for number in range(heads):
        length = heads * unit - number * unit - 15
        found += (b"\x1f\x8b\x08\0\0\0\0\0\0\3" + block_of(b"WARC/", length)).ljust(unit, b"a")
    return found + block_of(b"b" * 65000, 65000) * tail


@pytest.mark.parametrize(
    "head", [b"\x1f", b"\x1f\x8b\x08", b"\x1f\x8b\x08\0", b"\x1f\x8b\x08\4" + bytes(6) + b"\xff\xff"]
)
def test_heads_and_nothing_else(head: bytes) -> None:
    """What zlib is offered grows with the file: the beginnings of members, and what is read of the good ones."""
    sizes = (1 << 16, 1 << 18)
    per_byte = []
    for size, found in zip(sizes, each([GOOD + head * (size // len(head)) + GOOD * 2 for size in sizes])):
        assert places(found) == [(len(GOOD), size // len(head) * len(head), 5)] and found["bytes"] == b"WARC/" * 3
        per_byte.append(found["offered"] / size)
    assert per_byte[1] < max(MOST_OF_BEGINNING / len(head) + 10, 10) and per_byte[1] < 1.2 * per_byte[0] + 1


ENDED = """async (size) => {
  const bytes = new Uint8Array(size).map((_, at) => [0x1f, 0x8b, 8, 0][at % 4]), all = size / 4;
  let isOver = false;
  const search = new Search(new Blob([bytes]), 1000, () => isOver, () => {});
  setTimeout(() => { isOver = true; });
  await search.next(0);
  return search.tried < all;
}"""


def test_a_search_hears_that_it_is_over() -> None:
    """While it has many places to try."""
    if not os.path.exists(build_page.INFLATER):
        without("node-pako")
    assert in_node(SCRIPTS, ENDED, 1 << 18, before=build_page.inflater())


def test_members_that_fail_late() -> None:
    """Without a bound a thousand of them would inflate all of the file."""
    for tail in (8, 32):
        data = GOOD + late_failures(1000, tail) + b"rubbish" + GOOD * 2
        (found,) = each([data])
        assert (len(found["gaps"]), found["bytes"]) == (1, b"WARC/" * 3)
        assert found["offered"] / len(data) < 2 + 2 * MOST_TRIED + 2 + MOST_OF_BEGINNING * 1000 / len(data)


def test_a_member_that_never_ends() -> None:
    packed = zlib.compressobj(9, zlib.DEFLATED, zlib.MAX_WBITS | 16)
    large = packed.compress(b"WARC/") + packed.compress(bytes(30_000_000)) + packed.flush(zlib.Z_FULL_FLUSH)
    (found,) = each([GOOD + large + GOOD])
    assert (len(found["gaps"]), found["bytes"]) == (1, b"WARC/" * 2)


BETWEEN = """(sides) => {
  const of = (start, stop) => {
    const runs = Float64Array.of(start, stop), damages = Float64Array.of(stop, 1, 7, start);
    return {runs, damages, faults: new Map([[7, 'F7']]), records: 2};
  };
  const none = {runs: new Float64Array(), damages: new Float64Array(), faults: new Map(), records: 0};
  const keeper = {pieces: (start, stop) => start === stop ? none : of(start, stop)};
  const {runs, damages, faults, records} = piecesBetween(keeper, Float64Array.from(sides));
  const known = new Damages({damages, faults}, [{why: 'torn', offset: 4, name: 'a'}, {why: 'x', offset: 9, name: 'b'}]);
  const all = Array.from({length: known.count}, (_, number) => known.at(number));
  return [[...runs], [...damages], records, all.map(({fault, gap}) => [fault, gap?.offset])];
}"""


def test_pieces_between_gaps() -> None:
    """Each side of a gap is asked for alone. A gap is a damage of its own, also where nothing is between two."""
    scripts = ("shared.js", "elements.js", "library.js", "members.js", "instance.js", "keeper.js")
    if not os.path.exists(build_page.INFLATER):
        without("node-pako")
    before = build_page.inflater() + "globalThis.navigator ??= {};\n"
    runs, damages, records, words = in_node(scripts, BETWEEN, [0, 5, 5, 9], before=before)
    assert (runs, records) == ([0, 5, 5, 9], 4)
    assert damages == [5, 1, 7, 0, 5, 0, -1, 0, 5, 0, -2, 0, 9, 1, 7, 5]
    assert words == [
        ["F7", None],
        ["no good member at byte 4 of a", 4],
        ["no good member at byte 9 of b", 9],
        ["F7", None],
    ]
