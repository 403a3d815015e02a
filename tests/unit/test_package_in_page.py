"""Packages as the page's worker reads them: the archives, the verdicts and the pages are those that Python gives."""
from __future__ import annotations

import gzip
import hashlib
import importlib
import json
import os
import sys
import tempfile
from typing import TYPE_CHECKING, Any, List, Sequence

import build_page

from .in_node import TOP, in_node, without

sys.path.insert(0, os.path.join(TOP, "tests", "reference"))
from packages import DEFLATED, Item, files_of, hash_of, packed_files, page_line, wacz_of, zip_of  # noqa: E402

if TYPE_CHECKING:
    from zogwedu import _wacz
else:
    from zogwedu_collection import _wacz

_files: Any = importlib.import_module("zogwedu_collection._files")
SCRIPTS = ("shared.js", "members.js", "search.js", "zip.js", "wacz.js", "unpack.js")
# The library judges a block by the digest that its head states; here node does.
READ = """async (files) => {
  const crypto = require('crypto');
  const judge = async ({file, ranges: [{from, to}], rows}) => {
    const bytes = Buffer.from(await file.slice(from, to).arrayBuffer()), view = new DataView(rows);
    const [, begin, length] = [0, 8, 16].map((at) => Number(view.getBigUint64(at, true)));
    const [, algorithm, digits] = /WARC-Block-Digest: (\\w+):(\\w+)\\r\\n/.exec(bytes.subarray(0, begin).toString());
    if (bytes.length !== begin + length) throw new Error('the block has another length');
    const found = crypto.createHash(algorithm.toLowerCase()).update(bytes.subarray(begin)).digest('hex');
    return [found === digits.toLowerCase() ? 0 : 1];
  };
  const found = [];
  for (const file of files) {
    const named = Object.assign(new Blob([Uint8Array.from(Buffer.from(file, 'hex'))]), {name: 'a.wacz'});
    const opening = new Opening([named], () => false, () => {}), archives = await opening.archives();
    const joining = new Joining(archives, 1e9, () => false, () => {}), joined = await joining.join();
    const said = [];
    for (const it of opening.packages)
      said.push({resources: await it.resources(judge), pages: await it.pages(), signer: await it.signer()});
    const bytes = new Uint8Array(await joined.arrayBuffer());
    const damage = joining.damage ?? opening.damage ?? joining.gaps[0] ?? null, {gaps} = joining;
    found.push({bytes, names: joining.parts.map(({name}) => name), damage, gaps, said});
  }
  return found;
}"""
ONE, TWO = b"WARC one", gzip.compress(b"WARC ") + gzip.compress(b"two")
OF_ZSTD = b"\x28\xb5\x2f\xfd" + bytes(9)
ARCHIVES = {"b.warc.gz": TWO, "a.warc": ONE}


def in_page(files: Sequence[bytes]) -> List[Any]:
    """What the page's worker finds in packages."""
    if not os.path.exists(build_page.INFLATER):
        without("node-pako")
    return list(in_node(SCRIPTS, READ, [data.hex() for data in files], before=build_page.inflater()))


def test_as_in_python() -> None:
    inner = wacz_of(ARCHIVES, page_line("http://b.example/"))
    whole = {"resources": [{"path": "one.wacz", "hash": hash_of(inner)}, {"path": "archive/a.warc", "bytes": 5}]}
    many = [("one.wacz", inner), ("archive/a.warc", ONE), ("datapackage.json", json.dumps(whole).encode())]
    pages = page_line("http://a.example/", "2020-01-01T00:00:00Z", title="A", text="x" * 9) + b"\n[]\n{}\nno\n"
    bad = {"wrong": ["archive/a.warc"], "unlisted": ["archive/b.warc.gz"], "missing": ["archive/c.warc"]}
    sha1 = {"path": "archive/a.warc", "hash": "SHA1:" + hashlib.sha1(ONE).hexdigest(), "bytes": len(ONE)}
    digest = {"hash": hash_of(b""), "signedData": {"domain": "a.example"}}
    said = {"crc": 5}
    files = [
        wacz_of(ARCHIVES),
        wacz_of(ARCHIVES, pages, streamed=True),
        packed_files([*files_of(ARCHIVES, pages, **bad), ("x/y", b"more"), ("pages/extraPages.jsonl", b"")]),
        packed_files(many),
        packed_files([("archive/\U0001f600.warc", ONE), ("archive/\uffee.warc", TWO)]),
        packed_files([("archive/a.warc", ONE), ("datapackage.json", json.dumps({"resources": [sha1]}).encode())]),
        packed_files([("archive/a.warc", ONE), ("datapackage-digest.json", json.dumps(digest).encode())]),
        packed_files([("archive/a.warc", ONE), ("datapackage.json", b"[" * 100_000)]),
        zip_of([Item(b"archive/a.warc", ONE), Item(b"other", b"abc", local=said, central=said)]),
    ]
    for data, found in zip(files, in_page(files)):
        package = _wacz.Package(lambda count, at, data=data: data[at : at + count], len(data))  # type: ignore[misc]
        held = b"".join(piece for entry in package.archives for piece in _wacz.Unpacked(package.read, entry))
        assert (bytes.fromhex(found["bytes"]), found["damage"]) == (held, None)
        assert found["names"] == [entry.name for entry in package.archives]
        (its,) = found["said"]
        verdicts = {it.path: it.verdict for it in package.resources()}
        assert {it["path"]: it["verdict"] for it in its["resources"]} == verdicts
        own = package.pages()
        listed = [(page.url, page.instant or "", page.title or "") for page in own]
        assert [(it["url"], it["moment"], it["title"]) for it in its["pages"]["list"]] == listed
        assert (its["pages"]["others"], its["signer"] or None) == (own.others, package.signer())


def damaged_packages() -> List[bytes]:
    """Packages with an archive that isn't what was packed, between two others: stored and deflated, as it is and
    compressed by gzip, with its members whole or not; and with one that zstd compressed, whether it is or not."""
    three = b"".join(gzip.compress(b"WARC %d" % number, mtime=0) for number in range(3))
    torn = three[:40] + bytes([three[40] ^ 1]) + three[41:]
    said = {"crc": 5}
    items = [
        Item(b"archive/b.warc.gz", three, local=said, central=said),
        Item(b"archive/b.warc.gz", torn, local=said, central=said),
        Item(b"archive/b.warc.gz", torn),
        Item(b"archive/b.warc", ONE, local=said, central=said),
        Item(b"archive/b.warc", ONE, DEFLATED, local=said, central=said),
        Item(b"archive/b.warc.gz", three, DEFLATED, local=said, central=said),
        Item(b"archive/b.warc.zst", OF_ZSTD),
        Item(b"archive/b.warc.zst", OF_ZSTD, DEFLATED),
        Item(b"archive/b.warc.zst", OF_ZSTD, local=said, central=said),
    ]
    return [zip_of([Item(b"archive/a.warc", ONE), item, Item(b"archive/c.warc.gz", TWO)]) for item in items]


def test_what_is_good_of_damaged_archives() -> None:
    """What comes after it is read too. The bytes and the places of damages are those that Python gives."""
    files = damaged_packages()
    for data, found in zip(files, in_page(files)):
        with tempfile.TemporaryFile(buffering=0) as file, tempfile.TemporaryFile(buffering=0) as out:
            file.write(data)
            joined = _files.join_package(file, out, _files.Upon.GO_ON)
            held = os.pread(out.fileno(), 1 << 20, 0)
        assert bytes.fromhex(found["bytes"]) == held and held.startswith(ONE) and held.endswith(b"WARC two")
        assert found["names"] == [part.name for part in joined.parts] and len(joined.parts) == 3
        gaps = [(it["place"], it["offset"], it["length"]) for it in found["gaps"]]
        assert len(gaps) == 1 and found["damage"] == found["gaps"][0]
        package = _wacz.Package(lambda count, at, data=data: data[at : at + count], len(data))  # type: ignore[misc]
        own = package.archives[1].begin if found["damage"]["kind"] == "damaged" else 0
        assert gaps == [(gap.at, gap.damage.offset - own, gap.damage.length) for gap in joined.gaps]
    kinds = [it["damage"]["kind"] for it in in_page(files)]
    assert kinds == ["members", "damaged", "damaged", "entry", "entry", "members", *["unread"] * 3]


def test_damage() -> None:
    said = {"crc": 5}
    damaged = Item(b"archive/b.warc", ONE, local=said, central=said)
    files = [
        zip_of([Item(b"archive/a.warc", ONE), damaged, Item(b"archive/c.warc", ONE)]),
        wacz_of({"a.warc": ONE, "b.warc.gz": TWO[:-1]}),
        wacz_of(ARCHIVES)[:-1],
        zip_of([Item(b"archive/a.warc", ONE)] * 2),
        wacz_of({"a.warc": ONE, "b.warc": OF_ZSTD}),
    ]
    found = in_page(files)
    kinds = ["entry", "torn", "zip", "zip", "unread"]
    assert [it["damage"]["kind"] for it in found] == kinds
    assert [bytes.fromhex(it["bytes"]) for it in found] == [ONE * 2, ONE + b"WARC ", b"", b"", ONE]
    assert found[0]["damage"]["name"] == "archive/b.warc" and "CRC" in found[0]["damage"]["why"]
    assert found[3]["damage"]["why"].startswith("Twice: two entries are named")
