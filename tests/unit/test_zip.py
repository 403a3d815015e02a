"""The strict reader of ZIP: each fault of its structure refuses the whole file, by its name, and so does each byte of
the heads that is changed, unless what comes out is the same."""
from __future__ import annotations

import io
import itertools
import os
import random
import struct
import sys
import zipfile
import zlib
from typing import TYPE_CHECKING, Any, Callable, Dict, List, Sequence

import build_page
import pytest

from .in_node import TOP, in_node, without

sys.path.insert(0, os.path.join(TOP, "tests", "reference"))
from packages import DEFLATED, ONES, STREAMED, Item, wide_field, zip_of  # noqa: E402

if TYPE_CHECKING:
    from zogwedu import _zip
else:
    from zogwedu_collection import _zip

TEXT = bytes(range(256)) * 9
ONE, TWO = Item(b"a/one", TEXT), Item("b/zwei-\u00e4".encode(), TEXT[::-1], DEFLATED)


def reading(data: bytes, size: int = 1 << 60) -> Callable[[int, int], bytes]:
    """Reads bytes in memory, of which there may be fewer than there were."""
    return lambda count, at: data[at : min(at + count, size)]


def entries_in(data: bytes) -> List[_zip.Entry]:
    """The entries of a ZIP in memory."""
    return _zip.entries_of(reading(data), len(data))


def contents_of(data: bytes) -> Dict[str, bytes]:
    """The names and the bytes of all entries."""
    return {it.name: b"".join(_zip.content_of(reading(data), it)) for it in entries_in(data)}


def fault_of(data: bytes) -> str:
    """The fault of a ZIP, or none."""
    try:
        entries_in(data)
    except _zip.BadZip as bad:
        assert str(bad).isprintable() and str(bad).isascii() and 0 <= bad.offset <= len(data)
        return bad.fault
    return ""


GOOD = {"a/one": TEXT, "b/zwei-\u00e4": TEXT[::-1]}
WIDE_END = {"here": 0xFFFF, "entries": 0xFFFF, "length": ONES, "offset": ONES}


FORMS = [
    zip_of([ONE, TWO]),
    zip_of([it._replace(flags=1 << 11 | STREAMED) for it in (ONE, TWO)]),
    zip_of([ONE, TWO], comment=b"a comment"),
    zip_of([ONE, TWO], comment=b"PK\5\6" + bytes(99)),
    zip_of([ONE, TWO], wide={}),
    zip_of([ONE, TWO], wide={}, **WIDE_END),
    zip_of([ONE._replace(local={"packed": ONES, "size": ONES, "extra": wide_field(len(TEXT), len(TEXT))}), TWO]),
    zip_of([ONE._replace(central={"size": ONES, "extra": wide_field(len(TEXT))}), TWO]),
    zip_of([ONE._replace(central={"offset": ONES, "extra": b"UT\1\0x" + wide_field(0)}), TWO]),
    zip_of([ONE._replace(central={"offset": ONES, "extra": wide_field(0, 7, 8)}), TWO]),
    zip_of([ONE._replace(local={"extra": b"UT\1\0x"}, central={"comment": b"x"}), TWO]),
]


@pytest.mark.parametrize("number", range(len(FORMS)))
def test_forms_of_good_files(number: int) -> None:
    assert contents_of(FORMS[number]) == GOOD


def test_files_of_another_writer() -> None:
    """Python's zipfile writes; it isn't asked to read."""
    for force in (False, True):
        for method in (zipfile.ZIP_STORED, zipfile.ZIP_DEFLATED):
            out = io.BytesIO()
            with zipfile.ZipFile(out, "w", method) as made:
                for name, data in GOOD.items():
                    with made.open(name, "w", force_zip64=force) as entry:
                        entry.write(data)
                made.mkdir("folder") if hasattr(made, "mkdir") else made.writestr("folder/", b"")
            assert contents_of(out.getvalue()) == {**GOOD, "folder/": b""}

    class Stream(io.RawIOBase):
        """Takes bytes and can't go back."""

        def __init__(self) -> None:
            self.data = b""

        def writable(self) -> bool:
            return True

        def write(self, piece: Any) -> int:
            self.data += bytes(piece)
            return len(piece)

    stream: Any = Stream()
    with zipfile.ZipFile(stream, "w", zipfile.ZIP_DEFLATED) as made:
        for name, data in GOOD.items():
            made.writestr(name, data)
    assert contents_of(stream.data) == GOOD


def with_entry(**said: Any) -> bytes:
    """A ZIP, what the directory says of whose first entry is wrong."""
    return zip_of([ONE._replace(central=said), TWO])


def with_own(**said: Any) -> bytes:
    """A ZIP, what the head of whose first entry says is wrong."""
    return zip_of([ONE._replace(local=said), TWO])


def named(name: bytes) -> bytes:
    """A ZIP with an entry of a name."""
    return zip_of([ONE, Item(name, b"abc")])


TWO_ENDS = zip_of([ONE], comment=struct.pack("<4s4H2IH", b"PK\5\6", 0, 0, 0, 0, 0, 0, 0))
FAULTS = {
    "NoEnd": [b"", b"PK\3\4", zip_of([ONE, TWO])[:-1], zip_of([ONE], comment_length=1), zip_of([ONE]) + b"x"],
    "TwoEnds": [TWO_ENDS],
    "Spans": [
        zip_of([ONE], disk=1),
        zip_of([ONE], directory_disk=1),
        zip_of([ONE, TWO], here=1),
        with_entry(disk=1),
        with_entry(disk=0xFFFF),
        zip_of([ONE], wide={"disks": 2}),
        zip_of([ONE], wide={"of_disk": 1}),
    ],
    "Place": [
        b"MZ" + zip_of([ONE, TWO]),
        zip_of([ONE], before_end=b"x"),
        zip_of([ONE], length=0),
        zip_of([ONE], offset=ONES),
        zip_of([ONE], wide={}, locator=5),
        zip_of([ONE], wide={}, locator=1 << 63),
        zip_of([ONE], wide={"rest": 45}),
        zip_of([ONE], wide={"rest": 1 << 63}),
        zip_of([ONE], wide={"entries": 2, "here": 2}),
        zip_of([ONE], wide={"offset": 1 << 62}, offset=ONES),
        zip_of([ONE], wide={}, entries=2, here=2),
    ],
    "TooMany": [
        zip_of([Item(b"%d" % number) for number in range(_zip.MOST_ENTRIES + 1)]),
        zip_of([Item(b"%d" % number, central={"comment": bytes(65535)}) for number in range(257)]),
    ],
    "Entry": [
        zip_of([ONE], here=2, entries=2),
        zip_of([ONE, TWO], here=1, entries=1),
        with_entry(sign=b"PK\1\3"),
        with_entry(size=ONES),
        with_entry(size=ONES, packed=ONES, extra=wide_field(len(TEXT))),
        with_entry(offset=ONES, extra=wide_field()),
        with_entry(extra=wide_field(1) * 2),
        with_entry(extra=b"UT"),
        with_entry(extra=b"UT\2\0x"),
        with_entry(extra=b"\1\0\xff\xff"),
    ],
    "Name": [
        named(name)
        for name in (
            *(b"", b"/", b"//", b"/etc/passwd", b"a//b", b"./a", b"a/.", b"..", b"../a", b"a/../b", b"a/.."),
            *(b"a\\b", b"C:/a", b"C:", b"a\0b", b"a\nb", b"a\x7fb", "a\u009bb".encode(), b"\xff", b"a" * 1025),
        )
    ],
    "Twice": [zip_of([ONE, ONE]), zip_of([Item(b"x"), Item(b"x/")]), zip_of([Item(b"x"), TWO, Item(b"x", b"y")])],
    "Coded": [
        *(zip_of([ONE._replace(flags=1 << flag)]) for flag in (0, 6, 13)),
        *(zip_of([ONE._replace(method=method)]) for method in (1, 9, 12, 14, 93, 99)),
    ],
    "Size": [with_entry(size=5), with_entry(packed=5), zip_of([Item(b"x/", b"y")])],
    "Local": [
        with_own(sign=b"PK\3\5"),
        with_own(name=b"a/two"),
        with_own(name=b"a/one\0"),
        with_own(name=b""),
        with_own(method=DEFLATED),
        with_own(flags=1),
        with_own(flags=STREAMED),
        with_own(crc=1),
        with_own(crc=0),
        with_own(size=1),
        with_own(packed=0),
        with_own(size=ONES),
        with_own(size=ONES, packed=ONES, extra=wide_field(len(TEXT), 5)),
        with_own(extra=b"UT"),
        zip_of([ONE._replace(flags=STREAMED, local={"crc": 5})]),
        with_entry(offset=1),
        with_entry(offset=0x7FFFFFFF),
        with_entry(offset=ONES, extra=wide_field((1 << 64) - 1)),
    ],
}


def overlapping() -> List[bytes]:
    """ZIPs in which entries share bytes: one within the other, and one that goes on into the directory."""
    inner = zip_of([Item(b"in", b"abc")])
    begin = inner.index(b"PK\1\2")
    outer = Item(b"out", inner[:begin])
    at = len(b"out") + 30
    shared = zip_of([outer, Item(b"in", b"abc", central={"offset": at})])
    long = zip_of([Item(b"a", b"abc"), Item(b"b", b"abc", flags=STREAMED)])
    cut = long.replace(b"PK\7\10" + long.split(b"PK\7\10")[1][:12], b"")
    size = len(long) - len(cut)
    end = cut.rindex(b"PK\5\6")
    moved = cut[: end + 16] + struct.pack("<I", cut.index(b"PK\1\2")) + cut[end + 20 :]
    assert size == 16 and fault_of(long) == ""
    return [shared, moved]


FAULTS["Overlap"] = overlapping()


@pytest.mark.parametrize("fault", FAULTS)
def test_faults(fault: str) -> None:
    assert {number: fault_of(data) for number, data in enumerate(FAULTS[fault])} == dict.fromkeys(
        range(len(FAULTS[fault])), fault
    )


def damaged(item: Item, **said: int) -> str:
    """Why the bytes of an entry aren't what both its heads say of them."""
    data = zip_of([item._replace(local=said, central=said)])
    (entry,) = entries_in(data)
    with pytest.raises(_zip.BadEntry) as raised:
        list(_zip.content_of(reading(data), entry))
    return str(raised.value.why)


def test_bytes_that_differ_from_their_heads() -> None:
    assert "CRC" in damaged(ONE, crc=5)
    assert "CRC" in damaged(TWO, crc=5)
    assert "fewer" in damaged(TWO, size=len(TEXT) + 1)
    assert "more" in damaged(TWO, size=len(TEXT) - 1)
    assert "more" in damaged(TWO, size=0)
    for data, why in ((b"\xff" * 9, "invalid"), (b"", "isn't whole"), (b"\1\0\0\xff\xff" + b"more", "other bytes")):
        item = Item(b"x", data)
        assert why in damaged(item, method=DEFLATED, size=0, crc=zlib.crc32(b""))


def test_a_bomb_ends_at_its_size() -> None:
    """What is inflated is given up once it is longer than the directory says."""
    packer = zlib.compressobj(9, zlib.DEFLATED, -15)
    bomb = b"".join(packer.compress(bytes(1 << 20)) for _ in range(64)) + packer.flush()
    item = Item(b"x", bomb)
    said = {"method": DEFLATED, "size": 1000, "crc": 0}
    data = zip_of([item._replace(local=said, central=said)])
    (entry,) = entries_in(data)
    given = 0
    with pytest.raises(_zip.BadEntry):
        for piece in _zip.content_of(reading(data), entry):
            given += len(piece)
    assert given <= 1000


def shrinking(data: bytes, size: int, first: int) -> Callable[[int, int], bytes]:
    """Reads bytes in memory, of which there are fewer after some reads."""
    sizes = itertools.chain(itertools.repeat(len(data), first), itertools.repeat(size))
    return lambda count, at: data[at : min(at + count, next(sizes))]


def test_a_file_that_becomes_shorter() -> None:
    """Whenever it does, it is refused, or its entries are."""
    data, whole = zip_of([ONE, TWO]), list(GOOD.values())
    for size, first in itertools.product(range(0, len(data), 97), range(8)):
        read = shrinking(data, size, first)
        with pytest.raises((_zip.BadZip, _zip.BadEntry)) as raised:
            found = [b"".join(_zip.content_of(read, it)) for it in _zip.entries_of(read, len(data))]
            assert found == whole
            raise _zip.BadZip("", "it was read before that", 0)
        assert raised.value.args


def test_each_changed_byte() -> None:
    """A byte that is changed is refused, or changes nothing of names and bytes; nothing else is ever raised."""
    small = [Item(b"a", b"abc"), Item(b"b", b"abcabcabc", DEFLATED), Item(b"c", b"", flags=STREAMED)]
    whole = {"a": b"abc", "b": b"abcabcabc", "c": b""}
    chance = random.Random(1)
    for data in (zip_of(small), zip_of(small, wide={}, **WIDE_END)):
        for at in range(len(data)):
            for value in {data[at] ^ 1, data[at] ^ 0x80, 0, 255, chance.randrange(256)} - {data[at]}:
                changed = data[:at] + bytes([value]) + data[at + 1 :]
                try:
                    found = contents_of(changed)
                except (_zip.BadZip, _zip.BadEntry):
                    continue
                assert found == whole, at


IN_PAGE = """async (files) => {
  const found = [];
  for (const file of files) {
    const bytes = Uint8Array.from(Buffer.from(file, 'hex')), names = {};
    try {
      for (const entry of await entriesOf(new Blob([bytes]))) {
        const pieces = [];
        for await (const piece of contentOf(entry)) pieces.push(piece);
        names[entry.name] = Buffer.concat(pieces).toString('hex');
      }
      found.push(names);
    } catch (error) {
      if (!(error instanceof BadZip || error instanceof BadEntry)) throw error;
      found.push(error.fault ?? String(error.message));
    }
  }
  return found;
}"""


def in_page(files: Sequence[bytes]) -> List[Any]:
    """What the page's reader finds in ZIP files: names with their bytes, a fault, or why bytes differ."""
    if not os.path.exists(build_page.INFLATER):
        without("node-pako")
    scripts = ("shared.js", "members.js", "zip.js")
    return list(in_node(scripts, IN_PAGE, [data.hex() for data in files], before=build_page.inflater()))


def test_good_files_in_the_page() -> None:
    wanted = {name: data.hex() for name, data in GOOD.items()}
    assert in_page(FORMS) == [wanted] * len(FORMS)


def test_faults_in_the_page() -> None:
    """The page refuses the same files, for the same faults."""
    pairs = [(fault, data) for fault, many in FAULTS.items() for data in many if len(data) < 1 << 20]
    pairs.append(("TooMany", FAULTS["TooMany"][0]))
    assert in_page([data for _, data in pairs]) == [fault for fault, _ in pairs]


def test_bytes_that_differ_in_the_page() -> None:
    chance, small = random.Random(2), [Item(b"a", b"abc"), Item(b"b", b"abcabcabc", DEFLATED), Item(b"c", b"")]
    data, changed = zip_of(small, wide={}, **WIDE_END), []
    for at in range(len(data)):
        changed += [data[:at] + bytes([data[at] ^ 1 << chance.randrange(8)]) + data[at + 1 :]]
    for found, its in zip(in_page(changed), changed):
        try:
            wanted: Any = {name: content.hex() for name, content in contents_of(its).items()}
        except _zip.BadZip as bad:
            wanted = bad.fault
        except _zip.BadEntry as bad_entry:
            assert isinstance(found, str), bad_entry
            continue
        assert found == wanted
