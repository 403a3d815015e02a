#!/usr/bin/env python3
"""What the Python package refuses in words: an output that is the file which is read, dates, positions, and arguments
of other types."""
import contextlib
import gzip
import io
import mmap
import os
import subprocess
import sys
import tempfile
import unittest
import uuid
from datetime import date, datetime
from typing import Any, Callable, Dict, Iterator, List, Tuple, Type

import zogwedu

TOP = os.path.dirname(os.path.dirname(os.path.dirname(os.path.abspath(__file__))))
CRAWL = f"{TOP}/examples/crawl.warc"
FRONT = "http://127.0.0.1:8765/"
WRITES: Dict[str, Callable[[zogwedu.Archive, Any], None]] = {
    "rewrite": lambda archive, out: archive.rewrite(out),
    "convert": lambda archive, out: archive.convert(out),
    "split": lambda archive, out: archive.split(out, 50),
    "select": lambda archive, out: archive.select(out, [0]),
}


def content_of(path: str) -> bytes:
    """The bytes of a file."""
    with open(path, "rb") as file:
        return file.read()


@contextlib.contextmanager
def copied(packed: bool = False) -> Iterator[str]:
    """The path of a copy of the crawl, compressed or not."""
    with tempfile.TemporaryDirectory() as folder:
        path = f"{folder}/a.warc"
        with open(path, "wb") as out:
            out.write(gzip.compress(content_of(CRAWL)) if packed else content_of(CRAWL))
        yield path


class SameFile(unittest.TestCase):
    def refuse_all(self, archive: zogwedu.Archive, out: Any) -> None:
        """Has each write of an archive refused."""
        for name, write in WRITES.items():
            with self.subTest(name), self.assertRaises(ValueError) as raised:
                write(archive, out)
            self.assertIn("the file that is written is the one that is read", str(raised.exception))

    def test_nothing_is_written_over_the_file_that_is_read(self) -> None:
        for mapped in (True, False):
            with copied() as path, zogwedu.Archive.open(path, mmap=mapped) as archive:
                os.link(path, f"{path}.hard")
                os.symlink(path, f"{path}.symbolic")
                for other in (path, f"{path}.hard", f"{path}.symbolic"):
                    with open(other, "r+b") as out, open(other, "ab", buffering=0) as end:
                        self.refuse_all(archive, out)
                        self.refuse_all(archive, end)
                        self.refuse_all(archive, out.fileno())
                self.assertEqual(content_of(path), content_of(CRAWL))

    def test_a_file_that_was_emptied_by_its_mode_ends_no_process(self) -> None:
        code = (
            "import sys, zogwedu\n"
            "archive = zogwedu.Archive.open(sys.argv[1])\n"
            "out = open(sys.argv[1], 'wb')\n"
            "for write in (archive.convert, archive.rewrite, lambda it: archive.split(it, 9),\n"
            "              lambda it: archive.select(it, [0])):\n"
            "    try:\n"
            "        write(out)\n"
            "    except ValueError as error:\n"
            "        print(error)\n"
        )
        with copied() as path:
            run = subprocess.run([sys.executable, "-c", code, path], capture_output=True, check=False, text=True)
        line = "the file that is written is the one that is read\n"
        self.assertEqual((run.returncode, run.stdout, run.stderr), (0, line * 4, ""))

    def test_a_file_object_and_a_compressed_file(self) -> None:
        with copied() as path, open(path, "rb") as file, zogwedu.Archive.open(file) as archive:
            with open(path, "r+b") as out:
                self.refuse_all(archive, out)
        with copied(packed=True) as path, zogwedu.Archive.open(path) as archive:
            before = content_of(path)
            with open(path, "r+b") as out, gzip.open(path, "ab") as packed:
                self.refuse_all(archive, out)
                self.refuse_all(archive, packed)
            self.assertEqual(content_of(path)[: len(before)], before)

    def test_a_mapping_of_the_callers(self) -> None:
        """The library itself sees that bytes are mapped from the file that it is to write."""
        with copied() as path, open(path, "r+b") as out:
            with mmap.mmap(out.fileno(), 0, access=mmap.ACCESS_READ) as mapped, zogwedu.Archive(mapped) as archive:
                for name, write in WRITES.items():
                    with self.subTest(name), self.assertRaises(zogwedu.WarcError) as raised:
                        write(archive, out)
                    self.assertEqual(raised.exception.code, 207)
                with open(f"{path}.other", "wb") as other:
                    archive.rewrite(other)
            self.assertEqual(content_of(path), content_of(CRAWL))
            self.assertEqual(len(zogwedu.Archive.open(f"{path}.other")), 18)

    def test_a_block_that_is_mapped_from_the_file_that_is_written(self) -> None:
        block = bytes(range(256)) * 2000
        with tempfile.NamedTemporaryFile(suffix=".warc") as out:
            out.write(block)
            out.seek(0)
            with mmap.mmap(out.fileno(), 0, access=mmap.ACCESS_READ) as mapped:
                zogwedu.make(out.fileno(), "resource", "http://a.example/", "2020", "text/plain", mapped)
            with zogwedu.Archive.open(out.name) as archive:
                self.assertEqual((len(archive), bytes(archive[0].block), archive.check()), (1, block, []))

    def test_another_file_of_the_name_is_written(self) -> None:
        with copied() as path, zogwedu.Archive.open(path) as archive:
            os.rename(path, f"{path}.old")
            with open(path, "wb") as out:
                archive.select(out, range(18))
            self.assertEqual(content_of(path), content_of(f"{path}.old"))

    def test_a_file_that_grew_stays_refused(self) -> None:
        with copied() as path, zogwedu.Archive.open(path) as archive:
            with open(path, "ab") as out:
                out.write(content_of(CRAWL))
            self.assertEqual(archive.grow(), 18)
            with open(path, "r+b") as out:
                self.refuse_all(archive, out)


class Dates(unittest.TestCase):
    def test_a_text_that_is_no_date(self) -> None:
        with zogwedu.Archive.open(CRAWL) as archive:
            for text in ("yesterday", "20261126044836", "2026-11-26 04:48", ""):
                with self.assertRaises(zogwedu.BadDate) as raised:
                    archive.replay(FRONT, text)
                self.assertIsInstance(raised.exception, ValueError)
                self.assertEqual((raised.exception.code, raised.exception.text), (205, "bad date"))
                self.assertIn(repr(text), str(raised.exception))
                self.assertIn("YYYY-MM-DDThh:mm:ssZ", str(raised.exception))

    def test_a_day(self) -> None:
        with zogwedu.Archive.open(CRAWL) as archive:
            self.assertEqual(
                archive.replay(FRONT, date(2026, 11, 27)).chosen, archive.replay(FRONT, "2026-11-27").chosen
            )
            with self.assertRaises(zogwedu.NoBody) as raised:
                archive.replay(FRONT, date(2026, 11, 26))
            self.assertEqual(raised.exception.name, "P2 NotYet")
        out = io.BytesIO()
        zogwedu.make(out, "resource", "http://a.example/", date(20, 1, 2), "text/plain", b"")
        self.assertEqual(zogwedu.Archive(out.getvalue())[0].date, "0020-01-02")

    def test_other_types(self) -> None:
        with zogwedu.Archive.open(CRAWL) as archive:
            for other in (None, 2026, 2026.5, datetime(2026, 1, 1).time()):
                with self.assertRaises(TypeError) as raised:
                    archive.replay(FRONT, other)  # type: ignore[arg-type]
                self.assertIn(f"not {other!r}", str(raised.exception))


class Arguments(unittest.TestCase):
    def refused(self, kind: Type[Exception], text: str, call: Callable[[], object]) -> None:
        """Has a call raise an exception of this type, whose message has a text."""
        with self.assertRaises(kind) as raised:
            call()
        self.assertNotIn("ArgumentError", type(raised.exception).__name__)
        self.assertIn(text, str(raised.exception))

    def test_positions_that_are_of_no_record(self) -> None:
        with zogwedu.Archive.open(CRAWL) as archive:
            asked: List[Tuple[str, Callable[[], object]]] = [
                ("99", lambda: archive[99]),
                ("-19", lambda: archive[-19]),
                ("99", lambda: archive.select(io.BytesIO(), [5, 99])),
                ("-1", lambda: archive.select(io.BytesIO(), [5, -1])),
                ("99", lambda: archive.stated_verdict(99)),
                ("-1", lambda: archive.payload_verdict(-1)),
            ]
            for text, call in asked:
                with self.subTest(text):
                    self.refused(zogwedu.NoRecord, f"E1 NoRecord: no record has the position {text}, of 18", call)

    def test_positions_of_other_types(self) -> None:
        with zogwedu.Archive.open(CRAWL) as archive:
            wrong: Tuple[Any, ...] = ("x", 1.0, None, b"1")
            for other in wrong:
                text = f"a position is an integer, not {other!r}"
                self.refused(TypeError, text, lambda: archive[other])
                self.refused(TypeError, text, lambda: archive.stated_verdict(other))
                self.refused(TypeError, text, lambda: archive.payload_verdict(other))
                self.refused(TypeError, text, lambda: archive.select(io.BytesIO(), [other]))
            half: Any = 1.5
            self.refused(TypeError, "a size is an integer, not 1.5", lambda: archive.split(io.BytesIO(), half))
            self.refused(ValueError, "not 0", lambda: archive.split(io.BytesIO(), 0))

    def test_codings_that_are_undone(self) -> None:
        with zogwedu.Archive.open(CRAWL) as archive:
            wrong: List[Any] = ["tranfer", "content", ""]
            for word in wrong:
                self.refused(ValueError, repr(word), lambda: archive[2].body(decoded=word))
                self.refused(ValueError, repr(word), lambda: archive.replay(FRONT, "9999", decoded=word))
            other: Any = 5
            self.refused(TypeError, "not 5", lambda: archive[2].body(decoded=other))

    def test_bytes_are_no_path(self) -> None:
        data: Any = content_of(CRAWL)
        for file in (data, data[:4], bytearray(data), memoryview(data)):
            self.refused(TypeError, "Archive(data)", lambda: zogwedu.Archive.open(file))
            self.refused(TypeError, "io.BytesIO(data)", lambda: zogwedu.pieces(file))
            self.refused(TypeError, "io.BytesIO(data)", lambda: zogwedu.salvage(file, io.BytesIO()))
        path: Any = CRAWL
        self.refused(TypeError, "Archive.open(path)", lambda: zogwedu.Archive(path))
        nothing: Any = None
        self.refused(TypeError, "not None", lambda: zogwedu.Archive(nothing))

    def test_texts_of_other_types(self) -> None:
        nothing: Any = None
        with zogwedu.Archive.open(CRAWL) as archive:
            self.refused(TypeError, "a URI is a text or bytes, not None", lambda: archive.replay(nothing, "9999"))
            self.refused(TypeError, "a URI is a text or bytes, not None", lambda: archive.captures(nothing))
        draft: List[Any] = ["resource", "http://a.example/", "2020", "text/plain", b"abc"]
        names = ("a kind", "a URI", "a date", "a media type")
        for place, name in enumerate(names):
            words: List[Any] = [None if place == at else word for at, word in enumerate(draft)]
            self.refused(TypeError, f"{name} is", lambda: zogwedu.make(io.BytesIO(), *words))
        self.refused(TypeError, "a block is bytes, not 'abc'", lambda: zogwedu.make(io.BytesIO(), *[*draft[:4], "abc"]))

    def test_an_id_that_is_a_uuid(self) -> None:
        own = uuid.UUID(int=7)
        out = io.BytesIO()
        zogwedu.make(out, "resource", "http://a.example/", "2020", "text/plain", b"", uuid=own)
        self.assertEqual(zogwedu.Archive(out.getvalue())[0].id, f"<urn:uuid:{own}>")
        wrong: Any = 7
        draft: List[Any] = [io.BytesIO(), "resource", "http://a.example/", "2020", "text/plain", b""]
        self.refused(TypeError, "a UUID is", lambda: zogwedu.make(*draft, uuid=wrong))
        self.refused(zogwedu.NotMade, "M2 Text", lambda: zogwedu.make(*draft, uuid=""))

    def test_a_closed_archive_is_not_entered(self) -> None:
        archive = zogwedu.Archive.open(CRAWL)
        archive.close()
        with self.assertRaises(zogwedu.Closed):
            with archive:
                self.fail("it was entered")


if __name__ == "__main__":
    unittest.main()
