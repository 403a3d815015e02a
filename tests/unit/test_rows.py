"""Properties of warc-collection's small parts, over names and rows that hypothesis makes.

Names are shown without a character that a terminal obeys, and no two names alike; rows come back from the text for
PostgreSQL; columns come back from the lines of the program; compressed members are taken apart as Python's gzip does;
words reach a command through the shell as they were. ROWS_COUNT is the number of examples of each, which are others in
each run where it is given.
"""
from __future__ import annotations

import gzip
import io
import os
import sqlite3
import subprocess
import tempfile
import unicodedata
from typing import Any, Dict, List, Optional, Tuple, Union
from unittest import mock

import pytest

pytest.importorskip("hypothesis")

from hypothesis import HealthCheck, given, settings  # noqa: E402
from hypothesis import strategies as st  # noqa: E402
from zogwedu_collection import catalogue, export, lines, needed, parts, runs, texts, unpack  # noqa: E402
from zogwedu_collection.members import NO_PLACE, PLACE  # noqa: E402

from .in_node import TOP  # noqa: E402

os.environ["HYPOTHESIS_STORAGE_DIRECTORY"] = os.path.join(TOP, "out", "hypothesis")
Value = Union[None, int, str, bytes]
COUNT = int(os.environ.get("ROWS_COUNT", "100"))
NAMES = st.one_of(st.binary(min_size=1), st.text(min_size=1).map(lambda name: name.encode("utf-8", "replace")))
PLAIN = st.binary().map(lambda value: value.replace(b"\n", b"").replace(b"\t", b""))
TABBED = st.binary().map(lambda value: value.replace(b"\n", b""))
# Half of the characters are those that a shell, a line or a URI gives a meaning.
ODD = st.sampled_from("\t\n\r\0\\{}'\"$` =[]:/@")
TEXTS = st.text(st.one_of(ODD, st.characters(blacklist_categories=("Cs",))))
WORDS = TEXTS.map(lambda word: word.replace("\0", ""))
TARGETS = TEXTS.map(lambda target: "http://" + target)
SIZES = st.integers(0, 1 << 48)
ANY_TIME: Dict[str, Any] = {
    "deadline": None,
    "suppress_health_check": list(HealthCheck),
    "derandomize": "ROWS_COUNT" not in os.environ,
}
FAST = settings(max_examples=COUNT, **ANY_TIME)
SLOW = settings(max_examples=max(COUNT // 10, 1), **ANY_TIME)


def unescaped(shown: str) -> bytes:
    """The name that was shown: the escapes are undone."""
    out, rest = b"", shown
    while rest:
        size, piece = first_piece(rest)
        out, rest = out + piece, rest[size:]
    return out


def first_piece(shown: str) -> Tuple[int, bytes]:
    """The first character or escape: how long it is, and its bytes."""
    if shown[0] != "\\":
        return 1, shown[0].encode("utf-8")
    if shown[1] in "nrt\\":
        return 2, {"n": b"\n", "r": b"\r", "t": b"\t", "\\": b"\\"}[shown[1]]
    size = {"x": 4, "u": 6, "U": 10}[shown[1]]
    code = int(shown[2:size], 16)
    return size, bytes([code]) if shown[1] == "x" else chr(code).encode("utf-8")


@FAST
@given(NAMES)
def test_names_are_shown_safely(name: bytes) -> None:
    shown = texts.escaped(texts.decoded(name))
    assert not [it for it in shown if unicodedata.category(it) in ("Cc", "Cf", "Cs", "Zl", "Zp")]
    assert unescaped(shown) == name


@FAST
@given(NAMES.filter(lambda name: b"\0" not in name))
def test_paths_come_back(name: bytes) -> None:
    assert os.fsencode(texts.real_path(texts.stored_path(os.fsdecode(name)))) == name


def uncopied(cell: str) -> Optional[str]:
    """A cell as PostgreSQL reads it."""
    if cell == "\\N":
        return None
    names, out, rest = {"t": "\t", "n": "\n", "r": "\r", "\\": "\\"}, "", cell
    while rest:
        out += names[rest[1]] if rest[0] == "\\" else rest[0]
        rest = rest[2 if rest[0] == "\\" else 1 :]
    return out


@FAST
@given(st.one_of(st.none(), st.integers(-(1 << 62), 1 << 62), TEXTS, st.binary()))
def test_cells_come_back(value: Value) -> None:
    cell = export.copied(value)
    assert not set("\t\n\r\0") & set(cell)
    text = value.decode("utf-8", "backslashreplace") if isinstance(value, bytes) else value
    assert uncopied(cell) == (None if text is None else str(text).replace("\0", "\\x00"))


@FAST
@given(SIZES, SIZES, SIZES, PLAIN, PLAIN, TABBED.filter(lambda name: b">" not in name), TABBED)
def test_lines_of_list_come_back(
    position: int, offset: int, length: int, kind: bytes, date: bytes, name: bytes, target: bytes
) -> None:
    columns = [b"%d" % position, b"%d" % offset, b"%d" % length, kind, date, b"<" + name + b">", target]
    assert lines.list_columns(b"\t".join(columns)) == columns


@FAST
@given(SIZES, st.sampled_from([b"bad", b"unchecked"]), PLAIN, PLAIN, TABBED)
def test_lines_of_payloads_come_back(position: int, verdict: bytes, name: bytes, reason: bytes, digest: bytes) -> None:
    columns = [b"%d" % position, verdict, name, reason, digest]
    line = b"\t".join(columns)
    assert lines.payload_columns(line) == columns
    assert parts.payload_verdict(line) == (b"" if reason == b"request" else verdict)


@pytest.mark.parametrize(
    "lines, wanted",
    [
        (b"records 0 good 0 bad 0 unchecked 0\n", (0, 0, False)),
        (b"records 1 good 1 bad 0 unchecked 0\n", (0, 0, True)),
        (b"0\tunchecked\tx\trequest\ty\nrecords 1 good 0 bad 0 unchecked 1\n", (0, 0, True)),
        (b"0\tbad\tx\t-\ty\tz\n1\tunchecked\tx\tcoded\ty\nrecords 2 good 0 bad 1 unchecked 1\n", (1, 1, True)),
    ],
)
def test_payloads_are_tallied(lines: bytes, wanted: Tuple[int, int, bool]) -> None:
    tally = parts.Tally(None)
    tally.read(io.BytesIO(b"# payloads\n" + lines), ("payloads",))
    assert (tally.bad_payloads, tally.unchecked_payloads, tally.states_payloads) == wanted


@SLOW
@given(st.integers(0, 3), st.integers(0, 3), st.integers(0, 3), st.integers(0, 9), st.binary(max_size=9))
def test_counts_of_payloads_come_back(good: int, bad: int, unchecked: int, cut: int, end: bytes) -> None:
    text = b"0\tbad\tx\t-\ty\n" * bad + b"0\tunchecked\tx\tcoded\ty\tz\n" * unchecked
    text += b"records %d good %d bad %d unchecked %d\n" % (good + bad + unchecked, good, bad, unchecked)
    assert counts_in(text) == (good, unchecked, bad)
    torn = text[: len(text) - 1 - cut] + end
    assert torn == text or counts_in(torn) in (None, (good, unchecked, bad))
    assert counts_in(text.partition(b"\n")[2]) in (None, (good, unchecked, bad) if not bad + unchecked else None)


def counts_in(text: bytes) -> Optional[Tuple[int, ...]]:
    """The counts in what the program wrote, or None where it isn't whole."""
    with tempfile.TemporaryDirectory() as folder:
        try:
            return tuple(lines.payloads_of(parts_in(folder, payloads=text)))
        except ValueError:
            return None


def parts_in(folder: str, **texts_of: bytes) -> parts.Parts:
    """What a job wrote, by the names of its parts."""
    written = parts.Parts(os.path.join(folder, "output"))
    with open(written.path, "wb") as out:
        for name, text in texts_of.items():
            written.places[name] = [out.tell(), out.tell() + len(text)]
            out.write(text)
    return written


@FAST
@given(st.one_of(TEXTS, TARGETS))
def test_each_target_has_a_host(target: str) -> None:
    assert isinstance(lines.host_of(target), str)


@SLOW
@given(st.lists(st.binary(max_size=5000), min_size=1, max_size=4), st.integers(0, 3000), st.integers(1, 6000))
def test_members_are_taken_apart(blocks: List[bytes], padding: int, piece: int) -> None:
    data = b"".join(gzip.compress(block) for block in blocks)
    with mock.patch.object(unpack, "PIECE", piece):
        assert b"".join(unpack.members_of(io.BytesIO(data + bytes(padding)))) == b"".join(blocks)
        for zeros, end in ((0, b"x"), (0, b"\x1f\x8b"), (padding, b"\x1f")):
            assert damage(data + bytes(zeros) + end) == "damaged after %d bytes" % (len(data) + zeros)


@SLOW
@given(st.binary(max_size=3000), st.data())
def test_cut_members_are_damaged(block: bytes, data: st.DataObject) -> None:
    first, second = gzip.compress(b"first"), gzip.compress(block)
    cut = data.draw(st.integers(1, len(second) - 1))
    assert damage(first + second[:cut]) == "damaged after %d bytes" % len(first)


def damage(data: bytes) -> Optional[str]:
    """What is said of damaged members."""
    try:
        b"".join(unpack.members_of(io.BytesIO(data)))
    except unpack.Damaged as error:
        return str(error).partition(":")[0]
    return None


@SLOW
@given(st.lists(WORDS, min_size=1, max_size=3))
def test_words_reach_a_command(words: List[str]) -> None:
    words = [*words, *(word + "'{= 1 =}" for word in words)]
    command = runs.for_parallel(words)
    assert "{" not in command
    done = subprocess.run(["sh", "-c", "printf '%s\\0' " + command], stdout=subprocess.PIPE, check=True)
    assert done.stdout == b"".join(word.encode() + b"\0" for word in words)


@given(st.lists(st.tuples(st.booleans(), st.integers(0, 1), st.integers(1, 99)), min_size=1))
def test_places_of_members_come_back(members: List[Tuple[bool, int, int]]) -> None:
    """Also without the lengths that the next row says, of members with and without other bytes between them."""
    places, listed, at = [], [], 0
    for position, (is_alone, gap, length) in enumerate(members):
        places.append((at + gap, length, -position) if is_alone else NO_PLACE)
        listed.append(b"%d\t%d\t0\tresource\t2020\t<a:b>\t-\n" % (position, position))
        at += gap + length
    base = sqlite3.connect(":memory:")
    base.execute("CREATE TABLE records (%s)" % catalogue.TABLES["records"])
    marks = ", ".join("?" * len(lines.RecordRow._fields))
    with tempfile.TemporaryDirectory() as folder:
        written = parts_in(folder, list=b"".join(listed), places=b"".join(PLACE.pack(*place) for place in places))
        rows = lines.record_rows(1, written, lines.Sums())
        base.executemany("INSERT INTO records VALUES (%s)" % marks, rows)
    found = base.execute(needed.ROWS + "TRUE ORDER BY position", (1,))
    read = [needed.row_of(columns, len(places)).place for columns in found]
    assert read == [None if place == NO_PLACE else place for place in places]
    lengths = base.execute("SELECT packed_length FROM records ORDER BY position").fetchall()
    follows = [one[0] and other[:2] == (True, 0) for one, other in zip(members, members[1:])]
    assert [it is None for it, in lengths[:-1]] == [it or not one[0] for it, one in zip(follows, members)]
    base.close()


@FAST
@given(st.integers(1, 9), st.integers(1, PLACE.size - 1), st.booleans())
def test_torn_places_are_refused(count: int, cut: int, is_short: bool) -> None:
    """Neither a part that is cut nor a file that ends before its last part is taken for the whole."""
    listed, places = b"0\t0\t0\tresource\t2020\t<a:b>\t-\n" * count, PLACE.pack(7, 8, 9) * count
    with tempfile.TemporaryDirectory() as folder:
        torn = parts_in(folder, list=listed, places=places[:-cut])
        torn.places["places"][1] += cut if is_short else 0
        with pytest.raises(ValueError, match="isn't whole"):
            list(lines.record_rows(1, torn, lines.Sums()))
