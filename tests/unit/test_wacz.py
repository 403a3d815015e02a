"""Packages: the verdicts on their files, their pages, and packages in a package, whatever JSON in them says."""
from __future__ import annotations

import gzip
import hashlib
import json
import os
import sys
from typing import TYPE_CHECKING, Any, Dict, List

import pytest

TOP = os.path.dirname(os.path.dirname(os.path.dirname(os.path.abspath(__file__))))
sys.path.insert(0, os.path.join(TOP, "tests", "reference"))
from packages import DEFLATED, Item, files_of, hash_of, packed_files, page_line, wacz_of, zip_of  # noqa: E402

if TYPE_CHECKING:
    from zogwedu import _members, _wacz, _zip
else:
    from zogwedu_collection import _members, _wacz, _zip

ONE, TWO = b"WARC one", gzip.compress(b"WARC ") + gzip.compress(b"two")
ARCHIVES = {"b.warc.gz": TWO, "a.warc": ONE}


def reading(data: bytes) -> _members.Read:
    """Reads bytes in memory."""
    return lambda count, at: data[at : at + count]


def package_of(data: bytes) -> _wacz.Package:
    """A package in memory."""
    return _wacz.Package(reading(data), len(data))


def verdicts_of(data: bytes) -> Dict[str, str]:
    """The verdict on each file."""
    return {it.path: it.verdict for it in package_of(data).resources()}


def held_by(data: bytes) -> Dict[str, bytes]:
    """What each archive holds, in their order."""
    package = package_of(data)
    return {entry.name: b"".join(_wacz.Unpacked(package.read, entry)) for entry in package.archives}


def with_json(text: bytes, digest: bytes = b"") -> bytes:
    """A package with this datapackage.json."""
    more = [Item(b"datapackage-digest.json", digest)] if digest else []
    return zip_of([Item(b"archive/a.warc", ONE), Item(b"datapackage.json", text, DEFLATED), *more])


def listing(*resources: object) -> bytes:
    """A datapackage.json that lists these."""
    return json.dumps({"resources": resources}).encode()


@pytest.mark.parametrize("streamed", [False, True])
def test_archives_in_the_order_of_their_names(streamed: bool) -> None:
    data = wacz_of(ARCHIVES, page_line("http://a.example/"), streamed)
    assert list(held_by(data).items()) == [("archive/a.warc", ONE), ("archive/b.warc.gz", b"WARC two")]
    assert set(verdicts_of(data).values()) == {"good"}


def test_verdicts() -> None:
    files: Dict[str, Any] = {
        "wrong": ["archive/a.warc"],
        "unlisted": ["archive/b.warc.gz"],
        "missing": ["archive/c.warc", "../\ud800"],
    }
    data = packed_files([*files_of(ARCHIVES, **files), ("x/y", b"more")])
    found = verdicts_of(data)
    assert found == {
        "archive/a.warc": "bad",
        "archive/b.warc.gz": "unlisted",
        "archive/c.warc": "missing",
        "../\ud800": "missing",
        "x/y": "unlisted",
        "datapackage.json": "good",
    }


@pytest.mark.parametrize(
    "verdict,said",
    [
        ("good", {"hash": hash_of(ONE)}),
        ("good", {"hash": hash_of(ONE).upper(), "bytes": len(ONE)}),
        ("good", {"hash": "md5:" + hashlib.md5(ONE).hexdigest(), "bytes": True}),
        ("good", {"hash": "sha1:" + hashlib.sha1(ONE).hexdigest()}),
        ("good", {"hash": "SHA512:" + hashlib.sha512(ONE).hexdigest()}),
        ("bad", {"hash": hash_of(b"other")}),
        ("bad", {"hash": hash_of(ONE), "bytes": len(ONE) + 1}),
        ("bad", {"bytes": 0}),
        ("unchecked", {}),
        ("unchecked", {"hash": None, "bytes": "8"}),
        ("unchecked", {"hash": hash_of(ONE)[:-1]}),
        ("unchecked", {"hash": "sha384:" + "0" * 96}),
        ("unchecked", {"hash": hash_of(ONE)[7:]}),
        ("unchecked", {"stats": {"hash": hash_of(b"other"), "bytes": 1}, "hashing": "sha256"}),
    ],
)
def test_statements(verdict: str, said: Dict[str, Any]) -> None:
    assert verdicts_of(with_json(listing({"path": "archive/a.warc", **said})))["archive/a.warc"] == verdict


def test_of_two_statements_the_worse_one_counts() -> None:
    good, bad, none = ({"path": "archive/a.warc", "hash": it} for it in (hash_of(ONE), hash_of(b""), None))
    for many, verdict in (
        ([good, bad], "bad"),
        ([none, bad], "bad"),
        ([good, none], "unchecked"),
        ([good] * 2, "good"),
    ):
        assert verdicts_of(with_json(listing(*many)))["archive/a.warc"] == verdict


def test_a_description_that_says_nothing() -> None:
    texts = [b"", b"[]", b"null", b"{", b"\xff", b'{"resources": {}}', b'{"resources": [1, null, {"path": 5}, {}]}']
    texts += [b"[" * 100_000, b'{"a":' * 100_000, b'{"resources": ' + b"[" * 200_000, b"9" * 10_000]
    for text in texts:
        assert verdicts_of(with_json(text)) == {"archive/a.warc": "unlisted", "datapackage.json": "absent"}


def test_a_package_without_description() -> None:
    assert verdicts_of(zip_of([Item(b"archive/a.warc", ONE)])) == {
        "archive/a.warc": "unlisted",
        "datapackage.json": "absent",
    }
    long = with_json(listing({"path": "archive/a.warc"})[:-1] + b" " * _wacz.MOST_JSON + b"}")
    assert verdicts_of(long)["archive/a.warc"] == "unlisted"


def test_the_description_by_its_digest() -> None:
    text = listing({"path": "archive/a.warc", "hash": hash_of(ONE)})
    for digest, verdict in (
        ({"path": "datapackage.json", "hash": hash_of(text)}, "good"),
        ({"path": "datapackage.json", "hash": hash_of(text + b" ")}, "bad"),
        ({"path": "datapackage.json"}, "unchecked"),
        ([], "unchecked"),
    ):
        data = with_json(text, json.dumps(digest).encode())
        assert verdicts_of(data) == {"archive/a.warc": "good", "datapackage.json": verdict}
    signed = {"hash": hash_of(text), "signedData": {"domain": "a.example", "signature": "x"}}
    assert package_of(with_json(text, json.dumps(signed).encode())).signer() == "a.example"
    assert package_of(with_json(text, b'{"signedData": [1]}')).signer() is None


def test_damage_is_bad() -> None:
    """A CRC that differs, in a file that is listed and in one that isn't."""
    said = {"crc": 5}
    damaged = Item(b"archive/a.warc", ONE, local=said, central=said)
    other = damaged._replace(name=b"other")
    data = zip_of(
        [damaged, other, Item(b"datapackage.json", listing({"path": "archive/a.warc", "hash": hash_of(ONE)}))]
    )
    assert verdicts_of(data) == {"archive/a.warc": "bad", "other": "bad", "datapackage.json": "absent"}
    with pytest.raises(_members.Damaged) as raised:
        held_by(data)
    assert raised.value.offset == 0 and "CRC" in str(raised.value.why)


def test_damaged_archives() -> None:
    for archive, why, offset in (
        (TWO[:-1], "isn't whole", len(gzip.compress(b"WARC "))),
        (TWO + b"x" * 20, "incorrect header", len(TWO)),
        (TWO + b"\0\0x", "other bytes", len(TWO) + 2),
        (TWO[:-8] + bytes(8), "incorrect data check", len(gzip.compress(b"WARC "))),
        (b"\x28\xb5\x2f\xfd" + bytes(9), "zstd", None),
    ):
        data = zip_of([Item(b"archive/a.warc.gz", archive)])
        (entry,) = package_of(data).archives
        pieces = _wacz.Unpacked(reading(data), entry)
        with pytest.raises(_members.Damaged) as raised:
            list(pieces)
        assert why in str(raised.value.why)
        assert raised.value.offset == (entry.offset if offset is None else entry.begin + offset)
        assert pieces.whole <= 8


def test_packages_in_a_package() -> None:
    inner = {"one.wacz": wacz_of(ARCHIVES), "two.wacz": wacz_of({"a.warc": TWO}, wrong=["archive/a.warc"])}
    outer = listing(*({"path": name, "hash": hash_of(data)} for name, data in inner.items()))
    data = packed_files([*inner.items(), ("datapackage.json", outer)])
    assert list(held_by(data).items()) == [
        ("one.wacz/archive/a.warc", ONE),
        ("one.wacz/archive/b.warc.gz", b"WARC two"),
        ("two.wacz/archive/a.warc", b"WARC two"),
    ]
    assert {name: it for name, it in verdicts_of(data).items() if it != "good"} == {
        "two.wacz/archive/a.warc": "bad",
        "datapackage.json": "absent",
    }
    deeper = packed_files([("three.wacz", data)])
    for wrong, fault in (
        (zip_of([Item(b"one.wacz", inner["one.wacz"], DEFLATED)]), "Coded"),
        (packed_files([("one.wacz", inner["one.wacz"][:-1])]), "NoEnd"),
        (packed_files([("one.wacz", inner["one.wacz"]), ("one.wacz/archive/a.warc", ONE)]), "Twice"),
        (deeper, "NoArchive"),
    ):
        with pytest.raises(_zip.BadZip) as raised:
            package_of(wrong)
        assert raised.value.fault == fault


def test_where_a_package_in_a_package_is_cut() -> None:
    """The offset of its fault is the one in the whole file."""
    inner = wacz_of(ARCHIVES)[:-1]
    data = packed_files([("a", b"before it"), ("one.wacz", inner)])
    with pytest.raises(_zip.BadZip) as raised:
        package_of(data)
    assert (raised.value.fault, raised.value.offset) == ("NoEnd", data.index(inner) + len(inner))


@pytest.mark.parametrize(
    "names", [[], ["a.warc"], ["archive/a.arc"], ["Archive/a.warc"], ["archive/a/b.warc"], ["archive/.warc/"]]
)
def test_no_archive(names: List[str]) -> None:
    with pytest.raises(_zip.BadZip) as raised:
        package_of(packed_files([(name, b"") for name in names]))
    assert raised.value.fault == "NoArchive"


def test_pages() -> None:
    first = page_line("http://a.example/", "2020-01-01T00:00:00Z", title="A", text="long" * 1000)
    first += b"\r\n\n[]\nnot JSON\n{}\n" + page_line("http://b.example/", title=5, size=7)
    more = page_line("http://c.example/\x1b[31m", "2021-01-01T00:00:00.123Z").rstrip()
    files = [*files_of(ARCHIVES, first), ("pages/extraPages.jsonl", more)]
    pages = package_of(packed_files(files)).pages()
    assert [tuple(it) for it in pages] == [
        ("http://a.example/", "2020-01-01T00:00:00Z", "A"),
        ("http://b.example/", None, None),
        ("http://c.example/\x1b[31m", "2021-01-01T00:00:00.123Z", None),
    ]
    assert (pages.others, pages.is_cut) == (3, False)


def test_pages_that_are_too_many_or_too_long(monkeypatch: pytest.MonkeyPatch) -> None:
    monkeypatch.setattr(_wacz, "MOST_PAGES", 2)
    monkeypatch.setattr(_wacz, "MOST_LINE", 500)
    lines = [page_line("http://a.example/", text="x" * 500), page_line("u" * 70_000), page_line("http://b.example/")]
    pages = package_of(wacz_of(ARCHIVES, b"".join(lines))).pages()
    assert ([it.url for it in pages], pages.others, pages.is_cut) == (["http://b.example/"], 2, False)
    pages = package_of(wacz_of(ARCHIVES, lines[2] * 3)).pages()
    assert (len(list(pages)), pages.others, pages.is_cut) == (2, 0, True)


def test_pages_that_are_damaged_are_not_there() -> None:
    said = {"crc": 5}
    data = zip_of(
        [Item(b"archive/a.warc", ONE), Item(b"pages/pages.jsonl", page_line("urn:x"), local=said, central=said)]
    )
    assert not list(package_of(data).pages())


def test_lines_in_pieces_of_any_length() -> None:
    text = b"one\n\ntwo\r\n" + b"x" * 30 + b"\nthree"
    for count in range(1, 20):
        pieces = iter([text[at : at + count] for at in range(0, len(text), count)])
        assert list(_wacz.lines_of(pieces)) == [b"one", b"two", b"x" * 30, b"three"]
