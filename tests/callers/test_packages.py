#!/usr/bin/env python3
"""Packages (WACZ) in Python: their archives as one, the verdicts on their files, their pages, and what is refused."""
import contextlib
import gzip
import io
import json
import os
import subprocess
import sys
import tempfile
import unittest
from typing import Any, Iterator, List, Tuple

import zogwedu

TOP = os.path.dirname(os.path.dirname(os.path.dirname(os.path.abspath(__file__))))
sys.path.insert(0, os.path.join(TOP, "tests", "reference"))
from packages import DEFLATED, Item, files_of, hash_of, packed_files, page_line, wacz_of, zip_of  # noqa: E402

with open(f"{TOP}/examples/crawl.warc", "rb") as crawl_file:
    CRAWL = crawl_file.read()
FRONT = "http://127.0.0.1:8765/"
with zogwedu.Archive(CRAWL) as crawl_archive:
    MIDDLE = crawl_archive[9].offset
    NINTH = crawl_archive[9].id
PAGES = page_line(FRONT, "2026-11-26T04:48:35.600Z", title="Weather") + page_line("http://b.example/", "2020-01-01")
SEAM = {"a.warc.gz": gzip.compress(CRAWL[:MIDDLE]), "b.warc": CRAWL[MIDDLE:]}
HEAD = (
    "WARC/1.1\r\nWARC-Type: resource\r\nWARC-Record-ID: <urn:uuid:00000000-0000-4000-8000-{:012}>\r\n"
    "WARC-Date: 2020-01-01T00:00:00.750Z\r\nWARC-Target-URI: http://a.example/{}\r\nContent-Length: {}\r\n\r\n"
)


def record(number: int, block: bytes = b"abc") -> bytes:
    """A record."""
    return HEAD.format(number, number, len(block)).encode() + block + b"\r\n\r\n"


@contextlib.contextmanager
def written(data: bytes) -> Iterator[str]:
    """The path of a file with these bytes."""
    with tempfile.TemporaryDirectory() as folder:
        path = f"{folder}/a.wacz"
        with open(path, "wb") as out:
            out.write(data)
        yield path


def run(*words: str, stdin: bytes = b"") -> Tuple[int, bytes, bytes]:
    """Runs a command of the package."""
    done = subprocess.run(
        [sys.executable, "-m", "zogwedu", *words], input=stdin, capture_output=True, check=False, cwd=TOP
    )
    return done.returncode, done.stdout, done.stderr


class Archives(unittest.TestCase):
    def test_archives_are_joined(self) -> None:
        for streamed in (False, True):
            with written(wacz_of(SEAM, PAGES, streamed)) as path:
                with open(path, "rb") as file, zogwedu.Archive.open(path) as archive:
                    self.assertEqual((len(archive), archive.compressed), (18, "wacz"))
                    self.assertEqual(archive.list_text(), zogwedu.Archive(CRAWL).list_text())
                    self.assertEqual(archive.replay(f"{FRONT}sky.png", "9999").given, 4)
                    names = [archive.source(position) for position in range(18)]
                    self.assertEqual(names, ["archive/a.warc.gz"] * 9 + ["archive/b.warc"] * 9)
                    self.assertRaises(zogwedu.NoRecord, archive.source, 18)
                    self.assertRaises(ValueError, archive.grow)
                    for other in (file, io.BytesIO(file.read())):
                        other.seek(0)
                        self.assertEqual(zogwedu.Archive.open(other).list_text(), archive.list_text())
                self.assertEqual(len(zogwedu.Archive.open(path, mmap=False)), 18)
        self.assertIsNone(zogwedu.Archive(CRAWL).source(0))

    def test_empty_archives_among_others(self) -> None:
        data = wacz_of({"a.warc": b"", **{f"b{number}.warc": record(number) for number in range(3)}, "c.warc": b""})
        with written(data) as path, zogwedu.Archive.open(path) as archive:
            self.assertEqual([archive.source(it.position) for it in archive], [f"archive/b{i}.warc" for i in range(3)])

    def test_no_record_has_bytes_of_two_archives(self) -> None:
        """Joined, these are one good archive: the block of a torn record goes on in the next archive."""
        whole = record(1) + record(2, record(3)) + record(4)
        cut = whole.index(b"WARC/", whole.index(b"WARC/", 9) + 9)
        self.assertEqual(len(zogwedu.Archive(whole)), 3)
        with written(wacz_of({"a.warc": whole[:cut], "b.warc": whole[cut:]})) as path:
            with self.assertRaises(zogwedu.Refused) as raised:
                zogwedu.Archive.open(path)
            self.assertEqual((raised.exception.name, raised.exception.offset), ("F11 Truncated", cut))
            with zogwedu.Archive.open(path, front=True) as archive:
                self.assertEqual((len(archive), str(archive.fault)), (1, f"F11 Truncated at {cut}"))
            found = zogwedu.pieces(path)
            self.assertEqual(
                [(it.offset, it.count) for it in found if it.fault is None],
                [(0, 1), (cut, 1), (len(whole) - len(record(4)), 1)],
            )
            status, out, err = run("join", path)
            self.assertEqual((status, out), (2, b""))
            self.assertEqual(err.decode(), f"zogwedu: archive/a.warc: F11 Truncated at {cut}\n")

    def test_the_fault_is_that_of_the_archive(self) -> None:
        damaged = record(5).replace(b"WARC-Date: 2020", b"WARC-Date: 20x0")
        with written(wacz_of({"a.warc": record(1), "b.warc": record(2) + damaged, "c.warc": record(3)})) as path:
            with self.assertRaises(zogwedu.Refused) as raised:
                zogwedu.Archive.open(path)
            with zogwedu.Archive.open(path, front=True) as archive:
                self.assertEqual((len(archive), str(archive.fault)), (2, str(raised.exception)))
            out = io.BytesIO()
            self.assertEqual(zogwedu.salvage(path, out).records, 3)
            self.assertEqual(out.getvalue(), record(1) + record(2) + record(3))
        with written(wacz_of({"a.warc": damaged})) as path:
            self.assertEqual(run("join", path), (0, damaged, b""))


class Refused(unittest.TestCase):
    def refused(self, data: bytes, text: str) -> zogwedu.CompressedError:
        """Has a package refused, everywhere in the same words."""
        with written(data) as path:
            with self.assertRaises(zogwedu.CompressedError) as raised:
                zogwedu.Archive.open(path)
            self.assertIn(text, str(raised.exception))
            line = f"zogwedu: {raised.exception}\n".encode()
            for command in (["join"], ["wacz"], ["wacz", "--verdicts"]):
                is_zip = str(raised.exception).startswith("refused zip")
                if is_zip or command == ["join"]:
                    self.assertEqual(run(*command, path), (2 if is_zip else 3, b"", line))
            return raised.exception

    def test_a_zip_that_contradicts_itself(self) -> None:
        good = wacz_of(SEAM)
        self.refused(good[:-1], "refused zip at")
        self.refused(zip_of([Item(b"archive/a.warc", CRAWL)] * 2), "Twice: two entries are named 'archive/a.warc'")
        self.refused(zip_of([Item(b"../\x1b[31m.warc", CRAWL)]), r"Name: '../\x1b[31m.warc'")
        self.refused(zip_of([Item(b"a.txt")]), "NoArchive")

    def test_damaged_archives(self) -> None:
        packed = SEAM["a.warc.gz"]
        error = self.refused(
            wacz_of({"a.warc.gz": packed[:-1]}), "damaged wacz at 47: 'archive/a.warc.gz': it isn't whole"
        )
        self.assertIsInstance(error.__cause__, EOFError)
        said = {"crc": 1}
        item = Item(b"archive/a.warc", CRAWL, local=said, central=said)
        self.refused(zip_of([item]), "damaged wacz at 0: 'archive/a.warc': its CRC differs")
        self.refused(wacz_of({"a.warc": b"\x28\xb5\x2f\xfd" + bytes(20)}), "compressed by zstd, which isn't read")

    def test_the_good_members_of_a_damaged_archive(self) -> None:
        members = [gzip.compress(record(number)) for number in range(4)]
        members[1] = members[1][:20] + b"xx" + members[1][22:]
        data = wacz_of({"a.warc.gz": b"".join(members), "b.warc": record(9)})
        self.refused(data, "damaged wacz at")
        with written(data) as path:
            out = io.BytesIO()
            salvaged = zogwedu.salvage(path, out)
            self.assertEqual(out.getvalue(), b"".join(map(record, (0, 2, 3, 9))))
            (damage,) = salvaged.damage
            self.assertIsInstance(damage.fault, zogwedu.CompressedError)
            self.assertEqual(damage.fault and damage.fault.offset, data.index(members[1]))
            with zogwedu.Archive.open(path, front=True) as archive:
                self.assertEqual((len(archive), type(archive.fault)), (1, zogwedu.CompressedError))

    def test_an_archive_of_which_nothing_is_read(self) -> None:
        said = {"crc": 1}
        torn = Item(b"archive/b.warc", record(1), local=said, central=said)
        for item in (torn, Item(b"archive/b.warc.zst", b"\x28\xb5\x2f\xfd" + bytes(20))):
            data = zip_of([Item(b"archive/a.warc", record(2)), item, Item(b"archive/c.warc", record(3))])
            with written(data) as path:
                out = io.BytesIO()
                salvaged = zogwedu.salvage(path, out)
                self.assertEqual((out.getvalue(), len(salvaged.damage)), (record(2) + record(3), 1))
                with zogwedu.Archive.open(path, front=True) as archive:
                    self.assertEqual((len(archive), type(archive.fault)), (1, zogwedu.CompressedError))


class Packages(unittest.TestCase):
    DATA = wacz_of(
        SEAM, PAGES, wrong=["archive/b.warc"], unlisted=["pages/pages.jsonl"], missing=["a\x1b\u202e\t"], title="T"
    )

    def test_what_is_in_it(self) -> None:
        with written(self.DATA) as path, zogwedu.Wacz(path) as package:
            self.assertEqual(package.archives, ["archive/a.warc.gz", "archive/b.warc"])
            self.assertEqual(
                {it.path: it.verdict for it in package.resources()},
                {
                    "a\x1b\u202e\t": "missing",
                    "archive/a.warc.gz": "good",
                    "archive/b.warc": "bad",
                    "pages/pages.jsonl": "unlisted",
                    "datapackage.json": "good",
                },
            )
            self.assertEqual((package.description["title"], package.signer), ("T", None))
            for _ in range(2):
                self.assertEqual([it.url for it in package.pages()], [FRONT, "http://b.example/"])
            self.assertEqual(repr(package), f"<zogwedu.Wacz {path}, 2 archives>")
        self.assertRaises(TypeError, zogwedu.Wacz, b"PK")

    def test_lines(self) -> None:
        with written(self.DATA) as path:
            status, out, err = run("wacz", path)
            verdicts = run("wacz", "--verdicts", path)
        digests = [hash_of(SEAM["a.warc.gz"]), hash_of(SEAM["b.warc"] + b"x")]
        lines = [
            "archive\tarchive/a.warc.gz\t9",
            "archive\tarchive/b.warc\t9",
            f"resource\tmissing\ta\\x1b\\u{{202e}}\\t\t{hash_of(b'')}",
            f"resource\tgood\tarchive/a.warc.gz\t{digests[0]}",
            f"resource\tbad\tarchive/b.warc\t{digests[1]}",
            "resource\tunlisted\tpages/pages.jsonl\t-",
        ]
        found = out.decode().split("\n")
        self.assertEqual((status, err, found[:6]), (1, b"", lines))
        self.assertTrue(found[6].startswith("resource\tgood\tdatapackage.json\tsha256:"))
        pages = [f"page\t{FRONT}\t2026-11-26T04:48:35.600Z\tWeather", "page\thttp://b.example/\t2020-01-01\t-", ""]
        self.assertEqual(found[7:], pages)
        said = "missing a\\x1b\\u{202e}\\t\nbad archive/b.warc\n"
        said += "5 files of the package: 2 good, 1 bad, 1 missing, 1 unlisted\n"
        self.assertEqual(verdicts, (1, said.encode(), b""))

    def test_statuses(self) -> None:
        good = wacz_of(SEAM)
        with written(good) as path:
            self.assertEqual([run(*command, path)[0] for command in (["wacz"], ["wacz", "--verdicts"])], [0, 0])
            self.assertEqual(run("join", path), (0, CRAWL, b""))
            self.assertEqual(run("join", "-", stdin=good), (0, CRAWL, b""))
            self.assertEqual(run("wacz", f"{path}.none")[0], 3)
        for files in (files_of(SEAM)[:-1], [*files_of(SEAM), ("x", b"")], files_of(SEAM)[:-2]):
            with written(packed_files(files)) as path:
                self.assertEqual([run(*command, path)[0] for command in (["wacz"], ["wacz", "--verdicts"])], [4, 4])
        with written(wacz_of({"a.warc": CRAWL[:-1]})) as path:
            status, out, err = run("wacz", path)
            self.assertEqual((status, err[:21]), (2, b"zogwedu: F11 Truncate"))
            self.assertTrue(out.startswith(b"archive\tarchive/a.warc\t-\nresource\tgood\t"))

    def test_a_package_of_packages(self) -> None:
        inner = {
            "one.wacz": wacz_of({"a.warc": CRAWL[:MIDDLE]}),
            "two.wacz": wacz_of({"a.warc": CRAWL[MIDDLE:]}, PAGES),
        }
        listed = [{"path": name, "hash": hash_of(data), "bytes": len(data)} for name, data in inner.items()]
        whole = json.dumps({"profile": "multi-wacz-package", "resources": listed}).encode()
        with written(packed_files([*inner.items(), ("datapackage.json", whole)])) as path:
            with zogwedu.Archive.open(path) as archive, zogwedu.Wacz(path) as package:
                self.assertEqual((len(archive), archive.source(17)), (18, "two.wacz/archive/a.warc"))
                self.assertEqual(len(list(package.pages())), 2)
                self.assertEqual({it.verdict for it in package.resources()}, {"good", "absent"})


class EntryPoints(unittest.TestCase):
    def test_the_first_capture_after(self) -> None:
        with zogwedu.Archive(CRAWL) as archive:
            asked: List[Tuple[Any, Any]] = [
                ("2026-11-26T04:48:35.600Z", zogwedu.Entry("2026-11-26T04:48:36Z", 0.4)),
                ("2026-11-26T05:48:35.600+01:00", zogwedu.Entry("2026-11-26T04:48:36Z", 0.4)),
                ("2026-11-26T04:48:36Z", zogwedu.Entry("2026-11-26T04:48:36Z", None)),
                ("2026-11-27T00:00:00.5Z", zogwedu.Entry("2026-11-27T00:00:00.5Z", None)),
                ("2026-11-27T01:00:00+01:00", zogwedu.Entry("2026-11-27T00:00:00.000000Z", None)),
                ("2026-11-27 00:00:00.1234567890123z", zogwedu.Entry("2026-11-27T00:00:00.123456Z", None)),
                ("yesterday", None),
                ("2026-13-26T04:48:36Z", None),
                ("0001-01-01T00:00:00+23:00", None),
                (None, None),
            ]
            for instant, wanted in asked:
                with self.subTest(instant):
                    found = zogwedu.entry_point(archive, zogwedu.Page(FRONT, instant, None))
                    self.assertEqual(found, wanted)
                    if found is not None:
                        self.assertGreater(len(archive.replay(FRONT, found.date)), 0)
            self.assertIsNone(zogwedu.entry_point(archive, zogwedu.Page("urn:none", "2026-11-27T00:00:00Z", None)))
            coded = zogwedu.entry_point(archive, zogwedu.Page(f"{FRONT}week", "2027-01-01T00:00:00Z", None))
            self.assertEqual(coded, zogwedu.Entry("2027-01-01T00:00:00Z", None))


class Indexes(unittest.TestCase):
    """`cdxj` over a package: each line leads to its member in the file of the package."""

    def index(self, data: bytes) -> Tuple[List[bytes], int]:
        """The members to which the lines lead, and the exit status."""
        with written(data) as path:
            status, out, said = run("cdxj", path)
            found = []
            for line in out.splitlines():
                fields = json.loads(line.split(b" ", 2)[2])
                begin = int(fields["offset"])
                found.append(gzip.decompress(data[begin : begin + int(fields["length"])]))
                self.assertEqual(fields["filename"], "a.wacz")
        self.assertEqual(b"captures without" in said, status == 1)
        return sorted(found), status

    def test_members(self) -> None:
        members = [gzip.compress(record(number)) for number in range(5)]
        whole = {"b.warc.gz": b"".join(members[:3]), "a.warc.gz": members[3] + gzip.compress(b"") + members[4]}
        self.assertEqual(self.index(wacz_of(whole, PAGES)), ([record(number) for number in range(5)], 0))

    def test_records_without_a_member(self) -> None:
        """They are in an archive that isn't compressed, or that the package compressed once more."""
        member = gzip.compress(record(1))
        items = [Item(b"archive/a.warc", record(0)), Item(b"archive/b.warc.gz", member)]
        items.append(Item(b"archive/c.warc.gz", gzip.compress(record(2)), DEFLATED))
        self.assertEqual(self.index(zip_of(items)), ([record(1)], 1))


if __name__ == "__main__":
    unittest.main()
