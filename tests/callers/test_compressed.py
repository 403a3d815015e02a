#!/usr/bin/env python3
"""Compressed archives: what they hold is read as if they weren't, and damage to them is an error with its offset."""
import gzip
import http.server
import importlib.util
import io
import json
import os
import shutil
import subprocess
import sys
import tempfile
import threading
import types
import unittest
import zlib
from typing import Any, Callable, Dict, Iterator, List, Optional, Tuple, Type, Union
from unittest import mock

import zogwedu
from zogwedu import _members

TOP = os.path.dirname(os.path.dirname(os.path.dirname(os.path.abspath(__file__))))
CRAWL = f"{TOP}/examples/crawl.warc"
FRONT = "http://127.0.0.1:8765/"
HOW: Tuple[Dict[str, bool], ...] = ({}, {"mmap": False})
HAS_ZSTD = importlib.util.find_spec("zstandard") is not None


def contents(path: str) -> bytes:
    """The bytes of a file."""
    with open(path, "rb") as file:
        return file.read()


def records() -> List[bytes]:
    """The records of the crawl, each as it is stored."""
    data = contents(CRAWL)
    with zogwedu.Archive(data) as archive:
        begins = [record.offset for record in archive] + [len(data)]
    return [data[begin:end] for begin, end in zip(begins, begins[1:])]


def with_fields(data: bytes) -> bytes:
    """A member whose head has a name, a comment, more fields and a sum."""
    head = b"\x1f\x8b\x08\x1e\0\0\0\0\2\3" + b"\3\0abc" + b"a name\0" + b"a comment\0"
    head += (zlib.crc32(head) & 0xFFFF).to_bytes(2, "little")
    return head + gzip.compress(data)[10:]


def answers(archive: zogwedu.Archive) -> List[Any]:
    """What an archive answers of its records, its blocks and a page."""
    blocks = [bytes(record.block) for record in archive]
    return [archive.list_text(), archive.check(), archive.fixity(), blocks, bytes(archive.replay(FRONT, "9999"))]


class Slow(io.RawIOBase):
    """Gives one byte at a time, as a pipe may."""

    def __init__(self, data: bytes) -> None:
        self.data = io.BytesIO(data)

    def readable(self) -> bool:
        return True

    def readinto(self, room: Any) -> int:
        return self.data.readinto(memoryview(room)[:1])


class Failing(io.RawIOBase):
    """Fails after some bytes."""

    def __init__(self, data: bytes) -> None:
        self.data = data

    def readable(self) -> bool:
        return True

    def readinto(self, room: Any) -> int:
        if not self.data:
            raise OSError(5, "Input/output error")
        count = min(len(room), len(self.data))
        room[:count], self.data = self.data[:count], self.data[count:]
        return count


class Site(http.server.BaseHTTPRequestHandler):
    """Two pages."""

    def do_GET(self) -> None:
        page = b'<a href="/b">b</a>' if self.path == "/" else b"b" * 5000
        self.send_response(200)
        self.send_header("Content-Type", "text/html")
        self.send_header("Content-Length", str(len(page)))
        self.end_headers()
        self.wfile.write(page)

    def log_message(self, *_words: object) -> None:
        """Nothing."""


class InFolder(unittest.TestCase):
    """A folder for files."""

    def setUp(self) -> None:
        folder = tempfile.TemporaryDirectory()
        self.addCleanup(folder.cleanup)
        self.folder = folder.name

    def file(self, data: bytes, name: str = "a.warc.gz") -> str:
        path = f"{self.folder}/{name}"
        with open(path, "wb") as file:
            file.write(data)
        return path

    def refused(self, data: bytes, offset: int, cause: Type[Exception], **how: bool) -> zogwedu.CompressedError:
        """The error for a damaged file, which has this offset and this cause."""
        with self.assertRaises(zogwedu.CompressedError) as raised:
            zogwedu.Archive.open(self.file(data), **how)
        error = raised.exception
        self.assertEqual((error.offset, type(error.__cause__)), (offset, cause))
        self.assertIsInstance(error, zogwedu.WarcError)
        self.assertIn(f" at {offset}: ", str(error))
        return error


class Whole(InFolder):
    @classmethod
    def setUpClass(cls) -> None:
        with zogwedu.Archive.open(CRAWL) as archive:
            cls.wanted = answers(archive)

    wanted: List[Any]

    def forms(self) -> Iterator[Tuple[str, bytes]]:
        """The crawl, compressed in different ways."""
        data, parts = contents(CRAWL), [gzip.compress(record) for record in records()]
        empty = gzip.compress(b"")
        yield "a member for each record", b"".join(parts)
        yield "one member", gzip.compress(data, 9)
        yield "stored", gzip.compress(data, 0)
        yield "empty members", empty + empty.join(parts) + empty * 1000
        yield "zero bytes after the last member", b"".join(parts) + bytes(3_000_000)
        yield "one zero byte after the last member", b"".join(parts) + b"\0"
        yield "members that cut records", b"".join(gzip.compress(data[at : at + 99]) for at in range(0, len(data), 99))
        yield "fields in a member's head", with_fields(data[:5000]) + with_fields(data[5000:])

    def test_forms(self) -> None:
        for name, packed in self.forms():
            opened: List[Callable[[], zogwedu.Archive]] = [
                lambda: zogwedu.Archive.open(self.file(packed, "misnamed.warc")),
                lambda: zogwedu.Archive.open(self.file(packed), mmap=False),
                lambda: zogwedu.Archive.open(self.file(packed), front=True),
                lambda: zogwedu.Archive.open(io.BytesIO(packed)),
                lambda: zogwedu.Archive.open(io.BytesIO(packed), mmap=False),
                lambda: zogwedu.Archive.open(Slow(packed[:50_000])),
            ]
            for number, how in enumerate(opened):
                with self.subTest(name, how=number), how() as archive:
                    self.assertEqual((archive.compressed, archive.fault), ("gzip", None))
                    self.assertEqual(answers(archive), self.wanted)

    def test_a_pipe(self) -> None:
        for name, packed in self.forms():
            path = self.file(packed)
            with self.subTest(name), subprocess.Popen(["cat", path], stdout=subprocess.PIPE) as cat:
                with zogwedu.Archive.open(cat.stdout) as archive:
                    self.assertEqual((archive.compressed, answers(archive)), ("gzip", self.wanted))
            os.mkfifo(f"{self.folder}/pipe")
            with self.subTest(name), subprocess.Popen(f"cat {path} > {self.folder}/pipe", shell=True):
                with zogwedu.Archive.open(f"{self.folder}/pipe") as archive:
                    self.assertEqual((archive.compressed, answers(archive)), ("gzip", self.wanted))
            os.remove(f"{self.folder}/pipe")

    def test_a_file_object_is_read_from_where_it_is(self) -> None:
        with open(self.file(b"front" + gzip.compress(contents(CRAWL))), "rb") as file:
            file.seek(5)
            with zogwedu.Archive.open(file) as archive:
                self.assertEqual(answers(archive), self.wanted)

    def test_no_records(self) -> None:
        for data in (gzip.compress(b""), gzip.compress(b"") * 3):
            with zogwedu.Archive.open(self.file(data)) as archive:
                self.assertEqual((len(archive), archive.compressed), (0, "gzip"))

    def test_uncompressed_files_are_read_as_they_are(self) -> None:
        for opened in (zogwedu.Archive.open(CRAWL), zogwedu.Archive.open(io.BytesIO(contents(CRAWL)))):
            with opened as archive:
                self.assertEqual((archive.compressed, answers(archive)), (None, self.wanted))
        self.assertIsNone(zogwedu.Archive(contents(CRAWL)).compressed)
        for data in (b"\x1f", b"\x1f\x8c\x08", b"\x28\xb5\x2f"):
            for source in (self.file(data), io.BytesIO(data)):
                with self.assertRaises(zogwedu.Refused):
                    zogwedu.Archive.open(source)

    def test_a_refusal_is_that_of_the_library(self) -> None:
        damaged = contents(f"{TOP}/examples/damaged.warc")
        with self.assertRaises(zogwedu.Refused) as raised:
            zogwedu.Archive.open(self.file(gzip.compress(damaged)))
        self.assertEqual((raised.exception.name, raised.exception.offset), ("F10 End", 274))
        with self.assertRaises(zogwedu.Refused):
            zogwedu.Archive.open(self.file(gzip.compress(gzip.compress(contents(CRAWL)))))

    @unittest.skipUnless(shutil.which("wget"), "needs wget")
    def test_a_crawl_by_wget(self) -> None:
        server = http.server.ThreadingHTTPServer(("127.0.0.1", 0), Site)
        threading.Thread(target=server.serve_forever, daemon=True).start()
        uri = f"http://127.0.0.1:{server.server_port}/"
        words = ["wget", "-q", "-r", "--delete-after", "--no-directories", f"--warc-file={self.folder}/crawl", uri]
        subprocess.run(words, check=False, cwd=self.folder)
        server.shutdown()
        server.server_close()
        plain = subprocess.run(["gzip", "-dc", f"{self.folder}/crawl.warc.gz"], capture_output=True, check=True).stdout
        with zogwedu.Archive.open(f"{self.folder}/crawl.warc.gz") as archive, zogwedu.Archive(plain) as wanted:
            self.assertEqual((archive.list_text(), archive.fixity()), (wanted.list_text(), wanted.fixity()))
            self.assertEqual(bytes(archive.replay(f"{uri}b", "9999")), b"b" * 5000)


class Damaged(InFolder):
    def setUp(self) -> None:
        super().setUp()
        self.members = [gzip.compress(record) for record in records()]
        self.begins = [sum(map(len, self.members[:count])) for count in range(len(self.members))]
        self.whole = b"".join(self.members)

    def test_torn_in_a_member(self) -> None:
        for number in (0, 5, 17):
            begin, end = self.begins[number], self.begins[number] + len(self.members[number])
            for cut in (begin + 2, begin + 9, begin + 11, begin + 40, end - 9, end - 8, end - 1):
                for how in HOW:
                    with self.subTest(member=number, cut=cut, how=how):
                        error = self.refused(self.whole[:cut], begin, EOFError, **how)
                        self.assertEqual(str(error), f"damaged gzip at {begin}: it isn't whole")

    def test_torn_in_the_first_bytes_of_a_later_member(self) -> None:
        self.refused(self.whole[: self.begins[5] + 1], self.begins[5], EOFError)

    def test_torn_at_the_end_of_a_member(self) -> None:
        with zogwedu.Archive.open(self.file(self.whole[: self.begins[5]])) as archive:
            self.assertEqual((len(archive), archive.fault), (5, None))

    def test_changed(self) -> None:
        begin, end = self.begins[5], self.begins[6]
        for place in (begin, begin + 1, begin + 2, begin + 3, begin + 50, end - 8, end - 5, end - 4, end - 1):
            with self.subTest(place=place):
                changed = bytearray(self.whole)
                changed[place] ^= 0xE0
                error = self.refused(bytes(changed), begin, zlib.error)
                self.assertNotIn("Error -3", str(error))

    def test_other_bytes_after_the_last_member(self) -> None:
        length = len(self.whole)
        for rest in (b"abc", b"WARC/1.1\r\n", b"\n\n", contents(CRAWL), b"\x1f\x8d"):
            self.refused(self.whole + rest, length, zlib.error)
        for rest in (b"a", b"\x1f", b"\x1f\x8b"):
            self.refused(self.whole + rest, length, EOFError)
        for zeros in (1, 100, 3_000_000):
            self.refused(self.whole + bytes(zeros) + b"a", length + zeros, ValueError)
            self.refused(self.whole + bytes(zeros) + gzip.compress(b""), length + zeros, ValueError)

    def test_the_front(self) -> None:
        for rest, offset in ((self.whole[self.begins[5] : -1], self.begins[17]), (b"abc", self.begins[5])):
            for how in HOW:
                path = self.file(self.whole[: self.begins[5]] + rest)
                with zogwedu.Archive.open(path, front=True, **how) as archive:
                    fault = archive.fault
                    assert isinstance(fault, zogwedu.CompressedError)
                    self.assertEqual((fault.offset, len(archive)), (offset, self.begins.index(offset)))
                    assert fault.__cause__ is not None
                    self.assertIsNone(fault.__cause__.__traceback__)  # it would keep what was read
                    self.assertEqual(archive.compressed, "gzip")

    def test_no_byte_of_a_damaged_member_is_in_the_front(self) -> None:
        changed = gzip.compress(contents(CRAWL))
        changed = changed[:-8] + bytes(4) + changed[-4:]
        with zogwedu.Archive.open(self.file(self.members[0] + changed), front=True) as archive:
            self.assertEqual((len(archive), archive.length), (1, len(records()[0])))

    def test_a_record_that_a_damaged_member_cuts(self) -> None:
        data = contents(CRAWL)
        path = self.file(gzip.compress(data[:5000]) + gzip.compress(data[5000:])[:-1])
        with zogwedu.Archive.open(path, front=True) as archive:
            fault = archive.fault
            assert isinstance(fault, zogwedu.Refused)
            self.assertEqual(fault.name, "F11 Truncated")
            self.assertIsInstance(fault.__cause__, zogwedu.CompressedError)

    def test_a_read_that_fails_is_no_torn_file(self) -> None:
        for count in (2, 5, 2000):
            with self.assertRaises(OSError) as raised:
                zogwedu.Archive.open(Failing(self.whole[:count]))
            self.assertEqual(raised.exception.errno, 5)


class Indexes(InFolder):
    """`cdxj`: each line leads to its record."""

    def index(self, data: bytes, *words: str) -> Tuple[List[str], "subprocess.CompletedProcess[str]"]:
        """The lines of an index."""
        whole = [sys.executable, "-m", "zogwedu", "cdxj", *words, self.file(data)]
        done = subprocess.run(whole, capture_output=True, text=True, check=False)
        self.assertNotIn("Traceback", done.stderr)
        return done.stdout.splitlines(), done

    def wanted(self) -> List[bytes]:
        """The records that have a line."""
        with zogwedu.Archive.open(CRAWL) as archive:
            kinds = [record.type in ("response", "resource", "revisit") and bool(record.target) for record in archive]
        return [record for record, is_one in zip(records(), kinds) if is_one]

    def test_each_line(self) -> None:
        members = b"".join(gzip.compress(record) + gzip.compress(b"") for record in records()) + bytes(9)
        for data, tail in ((members, b""), (contents(CRAWL), b"\r\n\r\n")):
            lines, done = self.index(data)
            self.assertEqual((done.returncode, lines), (0, sorted(lines)), done.stderr)
            found = []
            for line in lines:
                fields = json.loads(line.split(" ", 2)[2])
                begin, length = int(fields["offset"]), int(fields["length"])
                part = data[begin : begin + length]
                found.append(part + tail if tail else zlib.decompress(part, zlib.MAX_WBITS | 16))
                self.assertIn(b"WARC-Target-URI: " + fields["url"].encode(), found[-1].replace(b"<", b""))
            self.assertEqual(sorted(found), sorted(self.wanted()))
            elevens, _ = self.index(data, "--cdx11")
            self.assertEqual(elevens[0], " CDX N b a m s k r M S V g")
            self.assertEqual([line.split(" ")[:2] for line in elevens[1:]], [it.split(" ")[:2] for it in lines])
            self.assertEqual({len(line.split(" ")) for line in elevens[1:]}, {11})

    def test_records_without_a_place(self) -> None:
        lines, done = self.index(gzip.compress(contents(CRAWL)))
        self.assertEqual((lines, done.returncode), ([], 1))
        self.assertIn("%d captures without" % len(self.wanted()), done.stderr)

    def test_captures_that_share_a_member(self) -> None:
        """None of them has a place of its own, nor has the one with which the member begins."""
        one, other, alone = self.wanted()[:3]
        lines, done = self.index(gzip.compress(one + other) + gzip.compress(alone))
        self.assertEqual((len(lines), done.returncode), (1, 1), lines)
        self.assertIn("2 captures without", done.stderr)

    def test_files_that_are_refused(self) -> None:
        for data, status in ((contents(CRAWL)[:-1], 2), (gzip.compress(contents(CRAWL))[:-1], 3)):
            lines, done = self.index(data)
            self.assertEqual((lines, done.returncode), ([], status))


class GoodMembers(InFolder):
    """The members on both sides of a damage, and no other bytes."""

    def setUp(self) -> None:
        super().setUp()
        self.records = records()
        self.members = [gzip.compress(record) for record in self.records]
        self.lengths = [len(member) for member in self.members]

    def salvaged(self, data: bytes) -> Tuple[bytes, List[Tuple[Optional[int], Optional[int]]]]:
        """What is written of a file, and the place and the length in it of each damage of its members."""
        found = []
        for source in (self.file(data), io.BytesIO(data), Slow(data)):
            out = io.BytesIO()
            zogwedu.salvage(source, out)
            faults = [it.fault for it in zogwedu.pieces(self.file(data))]
            places = [(it.offset, it.length) for it in faults if isinstance(it, zogwedu.CompressedError)]
            found.append((out.getvalue(), places))
        self.assertEqual(found[0], found[1])
        self.assertEqual(found[0], found[2])
        return found[0]

    def test_one_bad_byte(self) -> None:
        """All records but one are there, wherever the byte is."""
        begin = sum(self.lengths[:5])
        wanted = b"".join(self.records[:5] + self.records[6:])
        for place in (0, 1, 2, 3, 12, 60, self.lengths[5] - 8, self.lengths[5] - 4, self.lengths[5] - 1):
            with self.subTest(place=place):
                changed = bytearray(b"".join(self.members))
                changed[begin + place] ^= 0xE0
                self.assertEqual(self.salvaged(bytes(changed)), (wanted, [(begin, self.lengths[5])]))

    def test_the_first_member_and_the_last(self) -> None:
        whole = b"".join(self.members)
        first = bytearray(whole)
        first[20] ^= 0xFF
        self.assertEqual(self.salvaged(bytes(first)), (b"".join(self.records[1:]), [(0, self.lengths[0])]))
        last = len(whole) - self.lengths[-1]
        wanted = b"".join(self.records[:-1])
        for cut in (1, 8, self.lengths[-1] - 1):
            self.assertEqual(self.salvaged(whole[:-cut]), (wanted, [(last, self.lengths[-1] - cut)]))

    def test_other_bytes_between_members_and_after_them(self) -> None:
        for rest in (b"x", b"rubbish\n", b"\x1f", b"\x1f\x8b\x08", b"\0\0x", b"\0" * 5000 + b"x", b"\n\0\0"):
            length = self.lengths[0]
            with self.subTest(rest=rest[:9]):
                end = self.salvaged(self.members[0] + rest)
                self.assertEqual(end, (self.records[0], [(length, len(rest))]))
                both = self.salvaged(self.members[0] + rest + self.members[1])
                self.assertEqual(both, (b"".join(self.records[:2]), [(length, len(rest))]))
        for zeros in (1, 4096, 9000):
            data = b"".join(self.members[:2]) + bytes(zeros)
            self.assertEqual(self.salvaged(data), (b"".join(self.records[:2]), []))

    def test_no_record_has_bytes_of_both_sides(self) -> None:
        """A record that is cut by a damage isn't closed by the bytes after it, even if they fit."""
        head, block = b"\r\n".join(self.records[0].split(b"\r\n")[:8]), self.records[1]
        lines = [line for line in head.split(b"\r\n") if not line.startswith((b"Content-Length", b"WARC-Block"))]
        torn = b"\r\n".join([*lines, b"Content-Length: %d" % (len(block) - 4), b"", b""])
        data = gzip.compress(torn) + b"x" + self.members[1] + self.members[2]
        self.assertEqual(len(zogwedu.Archive(torn + block + self.records[2])), 2)
        self.assertEqual(self.salvaged(data)[0], block + self.records[2])
        pieces = zogwedu.pieces(io.BytesIO(data))
        self.assertEqual([(it.offset, it.count) for it in pieces], [(0, 0), (len(torn), 0), (len(torn), 2)])
        fault = zogwedu.pieces(io.BytesIO(self.members[0] + b"x" + gzip.compress(block + b"damage")))[-1].fault
        assert fault is not None
        self.assertEqual(fault.text, f"F1 Version at {len(self.records[0]) + len(block)}")

    def test_the_command(self) -> None:
        """It writes a new file, and names the damage with its place in the compressed file."""
        data, out = b"".join(self.members[:2]) + b"rubbish" + b"".join(self.members[2:]), f"{self.folder}/out.warc"
        words = [sys.executable, "-m", "zogwedu", "salvage", self.file(data), out]
        done = subprocess.run(words, capture_output=True, text=True, check=False)
        begin, place = sum(map(len, self.records[:2])), sum(self.lengths[:2])
        said = f"zogwedu: damage {begin} 0 damaged gzip at {place}: incorrect header check, 7 compressed bytes\n"
        self.assertEqual((done.returncode, done.stderr), (2, said))
        self.assertEqual((contents(out), done.stdout), (contents(CRAWL), f"18 records, {len(contents(CRAWL))} bytes\n"))
        self.assertEqual(subprocess.run(words, capture_output=True, check=False).returncode, 3)
        words[-2:] = [CRAWL, f"{self.folder}/good.warc"]
        self.assertEqual(subprocess.run(words, capture_output=True, check=False).returncode, 0)
        words[-2:] = [self.file(data), "-"]
        written = subprocess.run(words, capture_output=True, check=False)
        self.assertEqual((written.returncode, written.stdout), (2, contents(CRAWL)))
        counts = f"zogwedu: salvaged 18 records, {len(contents(CRAWL))} bytes\n"
        self.assertEqual(written.stderr.decode(), said + counts)
        rest = len(contents(CRAWL)) - begin
        rows = f"records\t0\t{begin}\t2\n{said[9:].replace(' ', '@', 3)}records\t{begin}\t{rest}\t16\n"
        done = subprocess.run([*words[:3], "pieces", words[4]], capture_output=True, text=True, check=False)
        self.assertEqual((done.returncode, done.stdout, done.stderr), (2, rows.replace("@", "\t"), ""))

    def test_the_commands_over_other_files(self) -> None:
        """A good archive is one piece; a file that isn't there, and one that would be read and written, are refused."""
        size = len(contents(CRAWL))
        for words, wanted in (
            (["pieces", CRAWL], (0, f"records\t0\t{size}\t18\n")),
            (["pieces", f"{self.folder}/none"], (3, "")),
            (["salvage", f"{self.folder}/none", "-"], (3, "")),
        ):
            words = [sys.executable, "-m", "zogwedu", *words]
            done = subprocess.run(words, capture_output=True, text=True, check=False)
            self.assertEqual((done.returncode, done.stdout), wanted, done.stderr)
        path = self.file(contents(CRAWL))
        with open(path, "ab") as out:
            words = [sys.executable, "-m", "zogwedu", "salvage", path, "-"]
            done = subprocess.run(words, stdout=out, stderr=subprocess.PIPE, text=True, check=False)
        self.assertEqual((done.returncode, len(contents(path))), (3, size))
        self.assertIn("the file that is written is the one that is read", done.stderr)

    def test_a_member_in_the_data_of_another(self) -> None:
        """It is found only where the outer one is damaged; what the outer one holds is read once if it isn't."""
        outer = self.records[0] + self.members[1] + self.members[2]
        for level in (0, 9):
            packed = gzip.compress(outer, level)
            self.assertEqual(self.salvaged(packed + b"x")[1], [(len(packed), 1)])
        packed = gzip.compress(outer, 0)[:-1] + b"x"
        self.assertEqual(self.salvaged(packed)[0], b"".join(self.records[1:3]))

    def test_heads_that_say_much(self) -> None:
        """A member is found whatever its head says, if that isn't much. A name without an end is none."""
        bad = self.members[0][:-1]
        self.assertEqual(self.salvaged(bad + with_fields(self.records[1]))[0], self.records[1])
        for flags in (b"\4", b"\x08", b"\x10", b"\x1f"):
            head = b"\x1f\x8b\x08" + flags + b"\0\0\0\0\0\3" + b"\xff\xff" + b"n" * 70_000
            self.assertEqual(self.salvaged(bad + head + self.members[1])[0], self.records[1])

    def test_another_member_is_no_record(self) -> None:
        """After a damage a member counts that begins as a record; without one any does."""
        other = gzip.compress(b"no record")
        data = self.members[0] + b"x" + other + self.members[1]
        self.assertEqual(self.salvaged(data)[1], [(self.lengths[0], 1 + len(other))])
        self.assertEqual(self.salvaged(self.members[0] + other + b"x")[1], [(self.lengths[0] + len(other), 1)])


class Counting:
    """Inflates, and counts the bytes that it is given."""

    given = 0

    def __init__(self) -> None:
        self.own = zlib.decompressobj(zlib.MAX_WBITS | 16)

    def decompress(self, data: Any, *most: int) -> bytes:
        Counting.given += len(data)
        return self.own.decompress(data, *most)

    def __getattr__(self, name: str) -> Any:
        return getattr(self.own, name)


def block_of(data: bytes, length: int) -> bytes:
    """The beginning of a block of deflate that is stored: it has this length, and isn't the last."""
    return b"\0" + length.to_bytes(2, "little") + (0xFFFF - length).to_bytes(2, "little") + data


def late_failures(heads: int, tail: int) -> bytes:
    """Heads of members each of which begins as a record does, and fails at the end of the last of `tail` blocks."""
    unit = 32
    found = b""
    for number in range(heads):
        length = heads * unit - number * unit - 15
        found += (b"\x1f\x8b\x08\0\0\0\0\0\0\3" + block_of(b"WARC/", length)).ljust(unit, b"a")
    return found + block_of(b"b" * 65000, 65000) * tail


class Attacks(unittest.TestCase):
    """What zlib is given grows with the file and no faster, whatever that holds."""

    GOOD = gzip.compress(b"WARC/")
    # For each byte of the file: what is inflated, what the failed tries may inflate, and the beginnings that are tried.
    MOST = 2 + 2 * _members.MOST_TRIED + _members.MOST_OF_BEGINNING

    def spans(self, middle: bytes) -> List[_members.Span]:
        """The spans of a file with this between good members."""
        data = self.GOOD + middle + self.GOOD * 2
        Counting.given = 0
        with mock.patch.object(_members, "GZIP", _members.GZIP._replace(begin=Counting)):
            found = list(_members.Spans(lambda count, offset: data[offset : offset + count], len(data)))
        self.per_byte = Counting.given / len(data)
        return found

    def test_heads_and_nothing_else(self) -> None:
        for head in (
            b"\x1f\x8b\x08",
            b"\x1f\x8b\x08\0",
            b"\x1f\x8b\x08\x08",
            b"\x1f\x8b\x08\4" + bytes(6) + b"\xff\xff",
        ):
            for length in (1 << 16, 1 << 18):
                middle = head * (length // len(head))
                found = self.spans(middle)
                places = [(it.offset, it.length) for it in found]
                end = len(self.GOOD) + len(middle)
                self.assertEqual(places[1:], [(len(self.GOOD), len(middle)), (end, 2 * len(self.GOOD))])
                self.assertLess(self.per_byte, self.MOST / len(head) + 10)

    def test_members_that_fail_late(self) -> None:
        """Without a bound a thousand of them would inflate all of the file."""
        for tail in (8, 32):
            found = self.spans(late_failures(1000, tail) + b"rubbish")
            self.assertEqual((len(found), found[-1].length), (3, 2 * len(self.GOOD)))
            self.assertLess(self.per_byte, 2 + 2 * _members.MOST_TRIED + 1)

    def test_a_damage_after_each_member(self) -> None:
        for unit in (self.GOOD + b"x", self.GOOD + b"\0x", self.GOOD + self.GOOD[:-1]):
            found = self.spans(unit * 1000)
            self.assertEqual(sum(it.length for it in found if it.why is None), 1003 * len(self.GOOD))
            self.assertLess(self.per_byte, 2 * self.MOST)
        self.spans((self.GOOD + b"\x1f\x8b\x08\4" + bytes(6) + b"\xff\xff") * 5000)
        self.assertLess(self.per_byte, 2 * self.MOST)

    def test_a_member_that_never_ends(self) -> None:
        """It is inflated step by step, and nothing of it is kept."""
        packed = zlib.compressobj(9, zlib.DEFLATED, zlib.MAX_WBITS | 16)
        large = packed.compress(b"WARC/") + packed.compress(bytes(30_000_000)) + packed.flush(zlib.Z_FULL_FLUSH)
        found = self.spans(large)
        self.assertEqual([it.why is None for it in found], [True, False, True])


class Growing(InFolder):
    def test_grow(self) -> None:
        members = [gzip.compress(record) for record in records()]
        for how in HOW:
            path = self.file(b"".join(members[:5]))
            archive = zogwedu.Archive.open(path, **how)
            with open(path, "ab") as file:
                file.write(members[5] + members[6][:-1])
            with self.assertRaises(zogwedu.CompressedError):
                archive.grow()
            self.assertEqual(len(archive), 5)
            with open(path, "ab") as file:
                file.write(members[6][-1:])
            self.assertEqual((archive.grow(), len(archive), archive.compressed), (2, 7, "gzip"))
            self.file(b"".join(members[:4]))
            with self.assertRaises(zogwedu.Changed):
                archive.grow()
            archive.close()

    def test_a_file_that_is_compressed_meanwhile(self) -> None:
        data = contents(CRAWL)
        with zogwedu.Archive.open(self.file(data)) as archive:
            self.file(gzip.compress(data + data), "b.warc.gz")
            os.replace(f"{self.folder}/b.warc.gz", f"{self.folder}/a.warc.gz")
            self.assertEqual((archive.grow(), archive.compressed), (18, "gzip"))


class Zstandard(InFolder):
    def packed(self) -> List[bytes]:
        """The records of the crawl, a frame for each."""
        module = importlib.import_module("zstandard")
        return [module.compress(record) for record in records()]

    @unittest.skipUnless(HAS_ZSTD, "needs zstandard")
    def test_frames(self) -> None:
        frames, skipped = self.packed(), b"\x50\x2a\x4d\x18\x03\0\0\0abc"
        with zogwedu.Archive.open(CRAWL) as archive:
            wanted = answers(archive)
        for data in (b"".join(frames), frames[0] + skipped + b"".join(frames[1:]), b"".join(frames) + skipped):
            for source in (self.file(data), io.BytesIO(data), Slow(data)):
                with zogwedu.Archive.open(source) as archive:
                    self.assertEqual((archive.compressed, answers(archive)), ("zstd", wanted))
        begin = len(b"".join(frames[:17]))
        self.refused(b"".join(frames)[:-1], begin, EOFError)
        self.refused(b"".join(frames)[: begin + 2], begin, EOFError)
        error = importlib.import_module("zstandard").ZstdError
        for rest in (b"\0\0\0\0\0", b"WARC/1.1\r\n"):
            self.refused(b"".join(frames) + rest, len(b"".join(frames)), error)

    def test_without_a_module(self) -> None:
        with mock.patch.dict(sys.modules, {"zstandard": None, "compression.zstd": None}):
            error = self.refused(b"\x28\xb5\x2f\xfd" + bytes(9), 0, ModuleNotFoundError)
        self.assertIn("zstandard", str(error))

    @unittest.skipUnless(HAS_ZSTD, "needs zstandard")
    def test_the_module_of_python(self) -> None:
        """By a stand-in with its names, over the package, since few machines have Python 3.14."""
        package = importlib.import_module("zstandard")
        module = types.ModuleType("compression.zstd")
        asked = []

        def decompressor(options: Any) -> Any:
            asked.append(options)
            return package.ZstdDecompressor(max_window_size=1 << options["most"]).decompressobj()

        names = {"ZstdDecompressor": decompressor, "ZstdError": package.ZstdError}
        names["DecompressionParameter"] = types.SimpleNamespace(window_log_max="most")
        vars(module).update(names)
        parts = {"compression": types.ModuleType("compression"), "compression.zstd": module}
        with mock.patch.dict(sys.modules, parts):
            with zogwedu.Archive.open(self.file(b"".join(self.packed()))) as archive:
                self.assertEqual(len(archive), 18)
        self.assertEqual(asked, [{"most": 27}] * 18)


BOMB = """
import os, re, resource, sys, zogwedu
limit, path = int(sys.argv[1]), sys.argv[2]
resource.setrlimit(resource.RLIMIT_FSIZE, (limit, limit))
try:
    archive = zogwedu.Archive.open(path)
    print(len(archive), archive.length)
except OSError as error:
    print(error)
# Not what getrusage says: a new process has that of the one that started it.
most = re.search(r"VmHWM:\\s*(\\d+)", open("/proc/self/status").read())[1]
print(most, os.listdir(os.environ["TMPDIR"]))
"""


class Room(InFolder):
    """Memory is that of an uncompressed file; the disk is the limit of what a small file becomes."""

    def bomb(self) -> str:
        """A good archive of 300 MB in a third of a megabyte. It is made once."""
        if os.path.exists(f"{self.folder}/a.warc.gz"):
            return f"{self.folder}/a.warc.gz"
        head = records()[0].partition(b"\r\n\r\n")[0]
        head = b"\r\n".join(
            line for line in head.split(b"\r\n") if not line.startswith((b"Content-Length", b"WARC-Block"))
        )
        with gzip.open(self.file(b""), "wb") as out:
            out.write(head + b"\r\nContent-Length: 300000000\r\n\r\n")
            for _ in range(300):
                out.write(bytes(1_000_000))
            out.write(b"\r\n\r\n")
        return f"{self.folder}/a.warc.gz"

    def opened(self, limit: int, temporary: str) -> List[str]:
        """The lines that BOMB prints, with files of at most `limit` bytes."""
        words = [sys.executable, "-c", BOMB, str(limit), self.bomb()]
        environment = {**os.environ, "TMPDIR": temporary}
        return subprocess.run(words, capture_output=True, check=True, env=environment, text=True).stdout.splitlines()

    def test_a_small_file_that_becomes_large(self) -> None:
        with tempfile.TemporaryDirectory() as temporary:
            front, memory = self.opened(1 << 30, temporary)
            self.assertEqual(front.split()[0], "1")
            self.assertGreater(int(front.split()[1]), 300_000_000)
            self.assertEqual(memory.split(" ", 1)[1], "[]")
            mapped = int(front.split()[1]) >> 10  # pages that were read, which the system drops where it needs them
            self.assertLess(int(memory.split()[0]), mapped + (64 << 10))
            for limit in (10_000_000, int(front.split()[1]) - 1):
                failure, memory = self.opened(limit, temporary)
                self.assertLess(int(memory.split()[0]), 64 << 10)
                self.assertEqual(failure, f"[Errno 27] File too large: '{temporary}'")
                self.assertEqual(memory.split(" ", 1)[1], "[]")

    def test_a_full_folder(self) -> None:
        with tempfile.TemporaryDirectory() as temporary:
            words = ["mount", "-t", "tmpfs", "-o", "size=1m", "tmpfs", temporary]
            if subprocess.run(words, capture_output=True, check=False).returncode:
                self.skipTest("no small disk can be made here")
            try:
                failure, memory = self.opened(1 << 30, temporary)
            finally:
                subprocess.run(["umount", temporary], check=True)
        self.assertEqual(failure, f"[Errno 28] No space left on device: '{temporary}'")
        self.assertEqual(memory.split(" ", 1)[1], "[]")

    def test_nothing_stays_open(self) -> None:
        whole, torn = gzip.compress(contents(CRAWL)), gzip.compress(contents(CRAWL))[:-1]
        before = os.listdir("/proc/self/fd")
        for how in HOW:
            zogwedu.Archive.open(self.file(whole), **how).close()
            with self.assertRaises(zogwedu.CompressedError):
                zogwedu.Archive.open(self.file(torn), **how)
            with zogwedu.Archive.open(self.file(torn), front=True, **how) as archive:
                self.assertEqual(len(archive), 0)
        self.assertEqual(os.listdir("/proc/self/fd"), before)

    def test_members_in_pieces_of_any_length(self) -> None:
        data = gzip.compress(b"abc") + gzip.compress(b"") + gzip.compress(os.urandom(40_000)) + bytes(9)
        wanted = gzip.decompress(data)
        for size in (1, 2, 7, 20, 16_384, len(data)):
            pieces = iter([data[at : at + size] for at in range(0, len(data), size)])
            self.assertEqual(b"".join(_members.Members(pieces, _members.GZIP)), wanted)


class Command(InFolder):
    def run_unpack(self, data: bytes) -> Tuple[int, str, Union[str, None]]:
        words = [sys.executable, "-m", "zogwedu", "unpack", self.file(data), f"{self.folder}/out"]
        done = subprocess.run(words, capture_output=True, check=False, text=True)
        return done.returncode, done.stdout, done.stderr

    def test_unpack(self) -> None:
        whole = gzip.compress(contents(CRAWL))
        self.assertEqual(self.run_unpack(whole[:-1]), (3, "", "zogwedu: damaged gzip at 0: it isn't whole\n"))
        self.assertFalse(os.path.exists(f"{self.folder}/out"))
        self.assertEqual(self.run_unpack(whole), (0, "8 bodies\n", ""))


if __name__ == "__main__":
    unittest.main()
