#!/usr/bin/env python3
"""What the Python package does beyond what compare.py compares: closing, growing, headers, decoding, writing, files."""
import array
import copy
import gzip
import importlib
import importlib.util
import io
import itertools
import json
import mmap
import os
import pickle
import subprocess
import sys
import tempfile
import threading
import tracemalloc
import unittest
from datetime import datetime, timedelta, timezone
from functools import partial
from typing import Any, Callable, Dict, Iterable, List, Optional, Set, Tuple, Union

import zogwedu
from zogwedu._decoding import decode

HERE = os.path.dirname(os.path.abspath(__file__))
TOP = os.path.dirname(os.path.dirname(os.path.dirname(os.path.abspath(__file__))))
CRAWL = f"{TOP}/examples/crawl.warc"
FRONT = "http://127.0.0.1:8765/"


def stored(head: str, body: bytes, uri: str = "http://a.example/x", number: int = 1) -> bytes:
    """A record with an HTTP response."""
    block = head.encode() + b"\r\n\r\n" + body
    warc = (
        f"WARC/1.1\r\nWARC-Type: response\r\nWARC-Record-ID: <urn:uuid:00000000-0000-4000-8000-{number:012}>\r\n"
        f"WARC-Date: 2020-01-01T00:00:00Z\r\nWARC-Target-URI: {uri}\r\nContent-Length: {len(block)}\r\n\r\n"
    )
    return warc.encode() + block + b"\r\n\r\n"


def http_of(record: zogwedu.Record) -> zogwedu.Http:
    """What the HTTP head of a record says. It has one."""
    http = record.http
    assert http is not None
    return http


class Closing(unittest.TestCase):
    def test_close_with_views_is_an_error_and_leaves_it_open(self) -> None:
        archive = zogwedu.Archive.open(CRAWL)
        view = archive[2].block
        with self.assertRaises(zogwedu.ViewsAlive):
            archive.close()
        self.assertEqual(bytes(view[:4]), b"HTTP")
        self.assertEqual(archive[2].type, "response")
        view.release()
        archive.close()
        archive.close()

    def test_a_closed_archive_answers_nothing(self) -> None:
        archive = zogwedu.Archive.open(CRAWL)
        record, body = archive[2], archive.replay(FRONT, "9999")
        archive.close()
        for ask in (lambda: len(archive), lambda: archive[0], lambda: record.head, lambda: body.data, archive.check):
            with self.assertRaises(zogwedu.Closed):
                ask()

    def test_views_of_bytes_stay_valid(self) -> None:
        with zogwedu.Archive.open(CRAWL, mmap=False) as archive:
            view = archive[2].block
        self.assertEqual(bytes(view[:4]), b"HTTP")

    def test_views_are_read_only(self) -> None:
        with zogwedu.Archive.open(CRAWL) as archive:
            with self.assertRaises(TypeError):
                archive[2].block[0] = 1
            with self.assertRaises(TypeError):
                zogwedu.Archive(bytearray(stored("HTTP/1.1 200 OK", b"a")))[0].block[0] = 1

    def test_close_beside_other_threads(self) -> None:
        for _ in range(20):
            archive, closed = zogwedu.Archive.open(CRAWL), []

            def work() -> None:
                try:
                    while True:
                        archive.replay(FRONT, "9999")
                        archive.fixity()
                except zogwedu.Closed:
                    closed.append(True)

            threads = [threading.Thread(target=work) for _ in range(3)]
            for thread in threads:
                thread.start()
            archive.close()
            for thread in threads:
                thread.join()
            self.assertEqual(len(closed), 3)

    def test_a_loop_in_with_may_keep_views(self) -> None:
        with zogwedu.Archive.open(CRAWL) as archive:
            for record in archive:
                data = record.block
        self.assertEqual(len(data), 163)
        with self.assertRaises(zogwedu.Closed):
            len(archive)

    def test_with_does_not_hide_an_exception(self) -> None:
        with self.assertRaises(RuntimeError):
            with zogwedu.Archive.open(CRAWL) as archive:
                data = archive[2].block
                raise RuntimeError(len(data))

    def test_a_mapping_goes_with_its_last_view(self) -> None:
        def is_mapped() -> bool:
            with open("/proc/self/maps", encoding="utf-8", errors="replace") as maps:
                return "crawl.warc" in maps.read()

        with zogwedu.Archive.open(CRAWL) as archive:
            data = archive[2].block
            self.assertTrue(is_mapped())
        self.assertTrue(is_mapped())
        self.assertEqual(bytes(data[:4]), b"HTTP")
        del data
        self.assertFalse(is_mapped())

    def test_loops_beside_a_close_end_in_closed(self) -> None:
        for _ in range(200):
            archive = zogwedu.Archive.open(CRAWL)
            seen: List[Union[int, str]] = []

            def work() -> None:
                try:
                    while True:
                        seen.append(sum(1 for _ in archive))
                except zogwedu.Closed:
                    seen.append("closed")

            threads = [threading.Thread(target=work) for _ in range(2)]
            for thread in threads:
                thread.start()
            archive.close()
            for thread in threads:
                thread.join()
            self.assertEqual(seen.count("closed"), 2)
            self.assertEqual(set(seen) - {"closed", 18}, set())

    def test_a_mapping_that_is_passed_stays_the_callers(self) -> None:
        with open(CRAWL, "rb") as file, mmap.mmap(file.fileno(), 0, access=mmap.ACCESS_READ) as mapped:
            with zogwedu.Archive(mapped) as archive:
                self.assertEqual(len(archive), 18)
            self.assertEqual(mapped[:4], b"WARC")

    def test_an_archive_is_not_copied(self) -> None:
        archive = zogwedu.Archive.open(CRAWL)
        copies: List[Callable[[object], object]] = [copy.copy, copy.deepcopy, pickle.dumps]
        for make in copies:
            with self.assertRaises(TypeError):
                make(archive)
        self.assertEqual(len(archive), 18)

    def test_an_archive_that_is_left_open_is_freed(self) -> None:
        for _ in range(200):
            zogwedu.Archive.open(CRAWL)


class Reading(unittest.TestCase):
    def test_sequence(self) -> None:
        with zogwedu.Archive.open(CRAWL) as archive:
            self.assertEqual([record.position for record in archive], list(range(len(archive))))
            self.assertEqual(archive[-1].position, len(archive) - 1)
            with self.assertRaises(IndexError):
                archive[len(archive)]

    def test_sequence_of_records(self) -> None:
        with zogwedu.Archive.open(CRAWL) as archive, zogwedu.Archive.open(CRAWL) as other:
            self.assertEqual([record.position for record in archive[2:8:3]], [2, 5])
            self.assertEqual([record.position for record in archive[::-1]], list(range(17, -1, -1)))
            self.assertEqual([record.position for record in reversed(archive)], list(range(17, -1, -1)))
            self.assertIn(archive[3], archive)
            self.assertNotIn(archive[3], other)
            self.assertNotIn("3", archive)
            self.assertEqual((archive[3], archive.index(archive[3])), (archive[3], 3))
            self.assertNotEqual(archive[3], archive[4])
            self.assertNotEqual(archive[3], other[3])
            self.assertEqual(len({archive[3], archive[3], archive[4]}), 2)
            with self.assertRaises(TypeError):
                archive.captures(5)  # type: ignore[arg-type]

    def test_items_of_any_size(self) -> None:
        some = stored("HTTP/1.1 200 OK", b"a" * (8 - len(stored("HTTP/1.1 200 OK", b"")) % 8))
        wanted = zogwedu.Archive(some)[0]
        for kind in "HIQ":
            record = zogwedu.Archive(array.array(kind, some))[0]
            self.assertEqual((bytes(record.head), bytes(record.block)), (bytes(wanted.head), bytes(wanted.block)))

    def test_a_digest_with_a_tab(self) -> None:
        text = stored("HTTP/1.1 200 OK", b"a").replace(b"WARC-Date", b"WARC-Block-Digest: sha256:ab\tcd\r\nWARC-Date")
        block = zogwedu.Archive(text).fixity().blocks[0]
        self.assertEqual(block.digest, "sha256:ab\tcd")
        self.assertEqual(block.id, "urn:uuid:00000000-0000-4000-8000-000000000001")

    def test_a_pipe_and_a_file_object(self) -> None:
        read, write = os.pipe()
        with open(CRAWL, "rb") as file:
            data = file.read()
        with os.fdopen(write, "wb") as into:

            def feed() -> None:
                into.write(data)
                into.close()

            feeder = threading.Thread(target=feed)
            feeder.start()
            with os.fdopen(read, "rb") as pipe, zogwedu.Archive.open(pipe) as archive:
                self.assertEqual(len(archive), 18)
            feeder.join()
        self.assertEqual(len(zogwedu.Archive.open(io.BytesIO(data))), 18)
        with self.assertRaises(TypeError):
            zogwedu.Archive.open(io.StringIO(""))

    def test_a_fifo_by_its_path(self) -> None:
        with tempfile.TemporaryDirectory() as folder:
            os.mkfifo(f"{folder}/fifo")
            with open(CRAWL, "rb") as file:
                data = file.read()

            def feed() -> None:
                with open(f"{folder}/fifo", "wb") as into:
                    into.write(data)

            feeder = threading.Thread(target=feed)
            feeder.start()
            self.assertEqual(len(zogwedu.Archive.open(f"{folder}/fifo")), 18)
            feeder.join()

    def test_front(self) -> None:
        with open(CRAWL, "rb") as file:
            data = file.read()
        whole = zogwedu.Archive(data, front=True)
        self.assertEqual((len(whole), whole.fault, whole.length), (18, None, len(data)))
        for position in (0, 1, 9, 17):
            at = zogwedu.Archive(data)[position].offset
            front = zogwedu.Archive(data[:at] + b"x" + data[at:], front=True)
            self.assertEqual((len(front), front.length, str(front.fault)), (position, at, f"F1 Version at {at}"))
            self.assertEqual(front.list_text(), zogwedu.Archive(data[:at]).list_text())
        cut = zogwedu.Archive(data[:-1], front=True)
        self.assertEqual((len(cut), str(cut.fault)), (17, f"F11 Truncated at {len(data) - 1}"))
        fault = zogwedu.Archive.open(f"{TOP}/examples/damaged.warc", front=True).fault
        assert fault is not None
        self.assertEqual(fault.offset, 274)

    def test_verdicts(self) -> None:
        with zogwedu.Archive.open(CRAWL) as archive:
            verdicts = [record.verdict for record in archive]
            fixity = archive.fixity()
        self.assertEqual(
            [verdicts.count(name) for name in ("good", "bad", "unchecked")], [fixity.good, fixity.bad, fixity.unchecked]
        )
        self.assertEqual(
            [(it.position, it.verdict) for it in fixity.blocks],
            [(number, name) for number, name in enumerate(verdicts) if name != "good"],
        )

    def test_a_verdict_is_kept(self) -> None:
        archive = zogwedu.Archive.open(CRAWL)
        asked, unasked = archive[13], archive[13]
        self.assertEqual(asked.verdict, "bad")
        archive.close()
        self.assertEqual(asked.verdict, "bad")
        with self.assertRaises(zogwedu.Closed):
            unasked.verdict

    def test_dates(self) -> None:
        with zogwedu.Archive.open(CRAWL) as archive:
            east = timezone(timedelta(hours=2))
            dates: List[Union[str, bytes, datetime]] = ["2026-11-26T04:49Z", b"2026-11-26T04:49:00Z"]
            dates += [datetime(2026, 11, 26, 4, 49), datetime(2026, 11, 26, 6, 49, tzinfo=east)]
            for date in dates:
                self.assertEqual(archive.replay(FRONT, date).chosen, 2)
            with self.assertRaises(zogwedu.WarcError):
                archive.replay(FRONT, "yesterday")

    def test_reasons(self) -> None:
        with zogwedu.Archive.open(CRAWL) as archive:
            with self.assertRaises(zogwedu.NoBody) as raised:
                archive.replay("http://nowhere.example/", "2021")
            self.assertEqual(raised.exception.name, "P1 NoCapture")
            with self.assertRaises(zogwedu.NoBody) as raised:
                archive[15].body()
            self.assertEqual((raised.exception.name, raised.exception.given), ("P10 Coded", 6))

    def test_captures(self) -> None:
        with zogwedu.Archive.open(CRAWL) as archive:
            self.assertEqual([record.position for record in archive.captures(FRONT + "sky.png")], [4, 13])
            self.assertEqual(archive.captures("http://nowhere.example/"), [])

    def test_empty(self) -> None:
        with tempfile.NamedTemporaryFile() as file, zogwedu.Archive.open(file.name) as archive:
            self.assertEqual((len(archive), archive.check()[0].number), (0, "N12"))

    def test_text_that_is_no_utf8(self) -> None:
        archive = zogwedu.Archive(stored("HTTP/1.1 200 OK", b"a").replace(b"/x", b"/\xff"))
        target = archive[0].target
        assert target is not None
        self.assertEqual(target.encode("utf-8", "surrogateescape"), b"http://a.example/\xff")
        self.assertEqual(bytes(archive.replay(target, "2021")), b"a")


class Growing(unittest.TestCase):
    def test_grows_or_stays(self) -> None:
        with open(CRAWL, "rb") as file:
            whole = file.read()
        first = zogwedu.Archive(whole)[9].offset
        for is_mapped in (True, False):
            with tempfile.NamedTemporaryFile() as file:
                file.write(whole[:first])
                file.flush()
                archive = zogwedu.Archive.open(file.name, mmap=is_mapped)
                old, records = archive[2].block, list(archive)
                file.write(whole[first : first + 100])
                file.flush()
                with self.assertRaises(zogwedu.Refused):
                    archive.grow()
                self.assertEqual(len(archive), 9)
                file.write(whole[first + 100 :])
                file.flush()
                self.assertEqual((archive.grow(), len(archive), archive.grow()), (9, 18, 0))
                self.assertEqual(bytes(old), bytes(archive[2].block))
                self.assertEqual([it.verdict for it in records], [it.verdict for it in archive][:9])
                old.release()
                archive.close()

    def test_from_nothing(self) -> None:
        with tempfile.NamedTemporaryFile() as file:
            archive = zogwedu.Archive.open(file.name)
            file.write(stored("HTTP/1.1 200 OK", b"a"))
            file.flush()
            self.assertEqual(archive.grow(), 1)
            archive.close()

    def test_a_text_is_of_all_records_after_growth(self) -> None:
        """Also where the same text was asked for before."""
        with open(CRAWL, "rb") as crawl:
            whole = crawl.read()
        for text in (zogwedu.Archive.list_text, zogwedu.Archive.check, zogwedu.Archive.fixity):
            with tempfile.NamedTemporaryFile() as file, zogwedu.Archive.open(file.name) as archive:
                text(archive)
                file.write(whole)
                file.flush()
                archive.grow()
                self.assertEqual(text(archive), text(zogwedu.Archive(whole)))

    def grown(self, old: bytes, new: bytes, **how: bool) -> Tuple[zogwedu.Archive, Union[int, zogwedu.WarcError]]:
        with tempfile.NamedTemporaryFile() as file:
            file.write(old)
            file.flush()
            archive = zogwedu.Archive.open(file.name, **how)
            file.seek(0)
            file.truncate(0)
            file.write(new)
            file.flush()
            try:
                return archive, archive.grow()
            except zogwedu.WarcError as error:
                return archive, error

    def test_fewer_or_other_bytes_are_refused(self) -> None:
        with open(CRAWL, "rb") as file:
            whole = file.read()
        last = zogwedu.Archive(whole)[17]
        at = last.offset + len(last.head)
        for new in (b"", whole[:700], whole[:-1], whole[: last.offset]):
            archive, answer = self.grown(whole, new, mmap=False)
            self.assertIsInstance(answer, zogwedu.Changed)
            self.assertEqual((len(archive), bytes(archive[17].block)), (18, whole[at:-4]))
        other = whole[: at - 8] + b"X" + whole[at - 7 :]
        for new in (other, other + whole):
            archive, answer = self.grown(whole, new, mmap=False)
            self.assertIsInstance(answer, zogwedu.Changed)
            self.assertEqual((len(archive), bytes(archive[17].block)), (18, whole[at:-4]))
        self.assertEqual(self.grown(whole, whole, mmap=False)[1], 0)
        self.assertEqual(self.grown(whole, whole + whole, mmap=False)[1], 18)
        self.assertEqual(self.grown(b"", whole, mmap=False)[1], 18)

    def test_a_mapped_file_that_became_shorter_is_refused(self) -> None:
        with open(CRAWL, "rb") as file:
            whole = file.read()
        with tempfile.NamedTemporaryFile() as file:
            file.write(whole)
            file.flush()
            archive = zogwedu.Archive.open(file.name)
            file.truncate(700)
            with self.assertRaises(zogwedu.Changed):
                archive.grow()
            self.assertEqual(len(archive), 18)

    def test_what_was_read_is_not_mapped_later(self) -> None:
        with tempfile.NamedTemporaryFile() as file:
            archive = zogwedu.Archive.open(file.name, mmap=False)
            file.write(stored("HTTP/1.1 200 OK", b"a"))
            file.flush()
            self.assertEqual(archive.grow(), 1)
            with open("/proc/self/maps", encoding="utf-8", errors="replace") as maps:
                self.assertNotIn(os.path.basename(file.name), maps.read())

    def test_threads_grow_and_leave_one_mapping(self) -> None:
        with open(CRAWL, "rb") as file:
            whole = file.read()
        for _ in range(30):
            with tempfile.NamedTemporaryFile() as file:
                file.write(whole)
                file.flush()
                archive = zogwedu.Archive.open(file.name)
                file.write(whole)
                file.flush()
                threads = [threading.Thread(target=archive.grow) for _ in range(4)]
                for thread in threads:
                    thread.start()
                for thread in threads:
                    thread.join()
                self.assertEqual(len(archive), 36)
                with open("/proc/self/maps", encoding="utf-8", errors="replace") as maps:
                    self.assertEqual(maps.read().count(os.path.basename(file.name)), 1)
                archive.close()

    def test_bytes_do_not_grow(self) -> None:
        with self.assertRaises(ValueError):
            zogwedu.Archive(b"").grow()


class Heads(unittest.TestCase):
    def test_headers(self) -> None:
        extra = b"X-A: one\r\nx-a:  two\r\nX-Fold: a\r\n  b\r\nX-Empty:\r\nWARC-Date"
        record = zogwedu.Archive(stored("HTTP/1.1 200 OK", b"a").replace(b"WARC-Date", extra, 1))[0]
        headers = record.headers
        self.assertEqual((headers["x-A"], headers.get_all("X-a"), headers["X-EMPTY"]), ("one", ["one", "two"], ""))
        self.assertEqual(headers["x-fold"], "a b")
        self.assertEqual(
            list(headers),
            [
                "WARC-Type",
                "WARC-Record-ID",
                "X-A",
                "X-Fold",
                "X-Empty",
                "WARC-Date",
                "WARC-Target-URI",
                "Content-Length",
            ],
        )
        self.assertEqual([name for name, _ in headers.fields][2:4], ["X-A", "x-a"])
        self.assertEqual((len(headers), len(headers.fields)), (8, 9))
        self.assertIn("warc-type", headers)
        for absent in ("X-B", "\u212a", 5):
            self.assertNotIn(absent, headers)
            self.assertIsNone(headers.get(absent))  # type: ignore[arg-type]
        with self.assertRaises(KeyError):
            headers["X-B"]
        self.assertEqual(headers, record.headers)
        self.assertEqual(dict(headers)["X-A"], "one")

    def test_headers_of_all_records(self) -> None:
        with zogwedu.Archive.open(CRAWL) as archive:
            for record in list(archive) + list(reversed(archive)):
                headers = record.headers
                self.assertEqual((headers["warc-type"], headers["warc-date"]), (record.type, record.date))
                self.assertEqual(
                    (headers["warc-record-id"], headers["content-length"]), (record.id, str(record.length))
                )

    def test_many_fields(self) -> None:
        extra = b"".join(b"X-%d: %d\r\n" % (i, i) for i in range(3000)) + b"WARC-Date"
        headers = zogwedu.Archive(stored("HTTP/1.1 200 OK", b"a").replace(b"WARC-Date", extra, 1))[0].headers
        self.assertEqual((len(headers), headers["x-2999"]), (3005, "2999"))

    def test_http(self) -> None:
        head = "HTTP/1.0 404 Not  Here\r\nA:  b \r\nSet-Cookie: x\r\nset-cookie: y\r\nE:"
        record = zogwedu.Archive(stored(head, b"abc"))[0]
        http = http_of(record)
        self.assertEqual((http.status, http.version, http.reason), (404, "HTTP/1.0", "Not  Here"))
        self.assertEqual(http.headers.fields, (("A", "b"), ("Set-Cookie", "x"), ("set-cookie", "y"), ("E", "")))
        self.assertEqual(http.headers.get_all("SET-COOKIE"), ["x", "y"])
        self.assertEqual((bytes(http.stored), http.length), (b"abc", 3))
        self.assertEqual(http.offset, record.offset + len(record.head) + len(record.block) - 3)

    def test_no_http(self) -> None:
        for head in ("GET / HTTP/1.1", "HTTP/1.1 200 OK\r\nno field", "HTTP/2 200 OK", "HTTP/1.1 20 OK"):
            self.assertIsNone(zogwedu.Archive(stored(head, b""))[0].http)
        many = "HTTP/1.1 200 OK" + "".join(f"\r\nA: {number}" for number in range(256))
        self.assertEqual(len(http_of(zogwedu.Archive(stored(many, b""))[0]).headers.fields), 256)
        self.assertIsNone(zogwedu.Archive(stored(many + "\r\nA: 256", b""))[0].http)
        with zogwedu.Archive.open(CRAWL) as archive:
            self.assertIsNone(archive[0].http)
            self.assertEqual(http_of(archive[2]).headers["content-type"], "text/html")

    def test_no_http_after_one(self) -> None:
        """A block without a head never gets the one of the record before it."""
        one = stored("HTTP/1.1 200 OK\r\nA: b", b"x")
        archive = zogwedu.Archive(one + stored("no head", b"", number=2))
        self.assertEqual(http_of(archive[0]).status, 200)
        for _ in range(2):
            self.assertIsNone(archive[1].http)

    def test_closed(self) -> None:
        archive = zogwedu.Archive.open(CRAWL)
        record, http = archive[2], http_of(archive[2])
        archive.close()
        asked: List[Callable[[], object]] = [lambda: record.headers, lambda: record.http, lambda: http.stored]
        for ask in asked:
            with self.assertRaises(zogwedu.Closed):
                ask()


class Decoding(unittest.TestCase):
    def archive(self, case: Dict[str, Any]) -> zogwedu.Archive:
        fields = "".join(f"\r\n{name}: {value}" for name, value in case["fields"])
        return zogwedu.Archive(stored(f"HTTP/1.1 {case['status']} It{fields}", bytes.fromhex(case["body"])))

    def lacks(self, case: Dict[str, Any]) -> bool:
        """Whether a module that the case needs isn't here."""
        needed = {"br": "brotli", "zstd": "zstandard"}
        names = case.get("undone", []) + [case.get("fails")]
        return any(importlib.util.find_spec(needed[name]) is None for name in names if name in needed)

    def test_cases(self) -> None:
        with open(f"{HERE}/codings.json", encoding="utf-8") as file:
            cases = json.load(file)
        for case in cases:
            archive = self.archive(case)
            with self.subTest(case["name"]), self.assertRaises(zogwedu.NoBody):
                archive[0].body()
            with self.subTest(case["name"]):
                if "fails" in case or self.lacks(case):
                    with self.assertRaises(zogwedu.Undecodable) as raised:
                        archive[0].body(decoded=True)
                    self.assertEqual(raised.exception.coding, case.get("fails") or case["undone"][0])
                else:
                    body = archive.replay("http://a.example/x", "2021", decoded=True)
                    self.assertEqual((bytes(body).hex(), list(body.undone)), (case["gives"], case["undone"]))
                    self.assertEqual((body.status, len(body)), (case["status"], len(bytes(body))))

    def test_a_limit_holds_for_each_step(self) -> None:
        inner = gzip.compress(bytes(10_000_000))
        for coding, body in (("gzip", inner), ("gzip, gzip", gzip.compress(inner)), ("br", None), ("zstd", None)):
            if body is None:
                body = self.packed(coding)
            if body is None:
                continue
            case = {"status": 200, "fields": [("Content-Encoding", coding)], "body": body.hex()}
            record = self.archive(case)[0]
            with self.assertRaises(zogwedu.Undecodable):
                record.body(decoded=True, decoded_limit=9_999_999)
            self.assertEqual(len(record.body(decoded=True, decoded_limit=10_000_000)), 10_000_000)

    def packed(self, coding: str) -> Optional[bytes]:
        """Ten million zeros, if the module for the coding is here."""
        try:
            module = importlib.import_module({"br": "brotli", "zstd": "zstandard"}[coding])
            return bytes(module.compress(bytes(10_000_000)))
        except ImportError:
            return None

    def test_a_small_body_never_takes_much_memory(self) -> None:
        code = (
            "import re, sys, zogwedu\n"
            "record = zogwedu.Archive(sys.stdin.buffer.read())[0]\n"
            "try:\n"
            "    record.body(decoded=True, decoded_limit=1 << 20)\n"
            "except zogwedu.Undecodable:\n"
            "    print(re.search(r'VmHWM:\\s*(\\d+)', open('/proc/self/status').read())[1])\n"
        )
        body = gzip.compress(gzip.compress(bytes(300_000_000), 9))
        archive = stored("HTTP/1.1 200 OK\r\nContent-Encoding: gzip, gzip", body)
        run = subprocess.run([sys.executable, "-c", code], input=archive, capture_output=True, check=True)
        self.assertLess(int(run.stdout), 64 << 10)

    def test_many_small_members(self) -> None:
        record = self.archive(
            {"status": 200, "fields": [("Content-Encoding", "gzip")], "body": (gzip.compress(b"") * 100_000).hex()}
        )[0]
        self.assertEqual(len(record.body(decoded=True)), 0)

    def test_many_small_chunks(self) -> None:
        data = memoryview(b"2\r\nab\r\n" * 200_000 + b"0\r\n\r\n")
        tracemalloc.start()
        try:
            body = decode(data, ["chunked"])
            self.assertLess(tracemalloc.get_traced_memory()[1], 2 * len(data) + (1 << 20))
        finally:
            tracemalloc.stop()
        self.assertEqual(body, b"ab" * 200_000)

    def test_a_uri_that_names_a_segment(self) -> None:
        head = "HTTP/1.1 200 OK\r\nContent-Encoding: gzip"
        uri = "http://a.example/warc-segment-number"
        archive = zogwedu.Archive(stored(head, gzip.compress(b"abc"), uri=uri))
        self.assertEqual(bytes(archive[0].body(decoded=True)), b"abc")

    def test_an_empty_number_of_a_segment(self) -> None:
        data = stored("HTTP/1.1 200 OK\r\nContent-Encoding: gzip", gzip.compress(b"abc"))
        archive = zogwedu.Archive(data.replace(b"Content-Length", b"WARC-Segment-Number:\r\nContent-Length", 1))
        self.assertEqual(bytes(archive[0].body(decoded=True)), b"abc")

    def test_transfer_codings_alone(self) -> None:
        packed = gzip.compress(b"abc")
        chunks = b"%x\r\n%s\r\n0\r\n\r\n" % (len(packed), packed)
        head = "HTTP/1.1 200 OK\r\nContent-Encoding: gzip\r\nTransfer-Encoding: chunked"
        for archive, undone in (
            (stored(head, chunks), ("chunked",)),
            (stored("HTTP/1.1 200 OK\r\nContent-Encoding: gzip", packed), ()),
        ):
            body = zogwedu.Archive(archive)[0].body(decoded="transfer")
            self.assertEqual((bytes(body), body.undone), (packed, undone))
        with self.assertRaises(zogwedu.Undecodable):
            zogwedu.Archive(stored(head, packed))[0].body(decoded="transfer")

    def test_a_content_that_stays_coded_is_not_copied(self) -> None:
        packed = gzip.compress(b"abc")
        data = stored("HTTP/1.1 200 OK\r\nContent-Encoding: gzip", packed)
        body = zogwedu.Archive(data)[0].body(decoded="transfer")
        self.assertEqual((bytes(body), body.undone), (packed, ()))
        self.assertIs(body.data.obj, data)

    def test_plain_bodies_are_not_touched(self) -> None:
        body = zogwedu.Archive(stored("HTTP/1.1 200 OK", b"abc"))[0].body(decoded=True)
        self.assertEqual((bytes(body), body.undone), (b"abc", ()))


class Full(io.RawIOBase):
    """Takes some bytes, few at a time, and then fails."""

    def __init__(self, room: int) -> None:
        self.room = room
        self.taken = b""

    def writable(self) -> bool:
        return True

    def write(self, piece: Any) -> int:
        piece = bytes(piece[: min(7, self.room - len(self.taken))])
        if not piece:
            raise OSError(28, "No space left on device")
        self.taken += piece
        return len(piece)


class Writing(unittest.TestCase):
    DRAFT = ("resource", "http://a.example/x", "2020-01-01T00:00:00Z", "text/plain", b"abc")

    def test_make(self) -> None:
        with tempfile.TemporaryDirectory() as folder:
            with open(f"{folder}/a.warc", "wb") as out:
                for number in range(3):
                    zogwedu.make(
                        out, "resource", f"http://a.example/{number}", datetime(2020, 1, 1), "text/plain", b"abc"
                    )
                    self.assertEqual(out.tell(), os.path.getsize(f"{folder}/a.warc"))
            with zogwedu.Archive.open(f"{folder}/a.warc") as archive:
                self.assertEqual((len(archive), archive.check(), archive.fixity().good), (3, [], 3))
                self.assertEqual(bytes(archive.replay("http://a.example/2", "2021")), b"abc")
                self.assertEqual(archive[0].headers["content-type"], "text/plain")
                self.assertEqual(len({record.id for record in archive}), 3)

    def test_objects_of_any_kind(self) -> None:
        with open(CRAWL, "rb") as file:
            archive = zogwedu.Archive(file.read())
        wanted = io.BytesIO()
        archive.rewrite(wanted)
        self.assertEqual(len(zogwedu.Archive(wanted.getvalue())), 18)
        with tempfile.TemporaryDirectory() as folder:
            with gzip.open(f"{folder}/a.gz", "wb") as out:
                archive.rewrite(out)
            with gzip.open(f"{folder}/a.gz", "rb") as file:
                self.assertEqual(file.read(), wanted.getvalue())
            with open(f"{folder}/a", "wb") as out:
                out.write(b"front")
                archive.rewrite(out)
                out.write(b"back")
            with open(f"{folder}/a", "rb") as file:
                self.assertEqual(file.read(), b"front" + wanted.getvalue() + b"back")
            with open(f"{folder}/b", "wb", buffering=0) as out:
                archive.rewrite(out.fileno())
            self.assertEqual(os.path.getsize(f"{folder}/b"), len(wanted.getvalue()))
            with open(f"{folder}/c", "w", encoding="utf-8") as out, self.assertRaises(TypeError):
                archive.rewrite(out)

    def test_a_file_and_an_object_get_the_same(self) -> None:
        long = b"a: " + b"long " * 4000 + b"\r\nb:" + b"x" * 9000 + b"\r\nContent-Length:"
        record = stored("HTTP/1.1 200 OK", b"body " * 500_000).replace(b"Content-Length:", long, 1)
        with open(CRAWL, "rb") as file:
            crawl = file.read()
        outputs: Tuple[Callable[[zogwedu.Archive, Any], None], ...] = (
            zogwedu.Archive.rewrite,
            zogwedu.Archive.convert,
            lambda archive, out: archive.split(out, 100_000),
            lambda archive, out: archive.select(out, [0, len(archive) - 1]),
            lambda archive, out: archive.select(out, [0], except_=True, closed=True),
        )
        for data in (crawl, record, record + crawl, b""):
            archive = zogwedu.Archive(data)
            for write in outputs if data else outputs[:3]:
                given = io.BytesIO()
                write(archive, given)
                with tempfile.TemporaryFile() as out:
                    write(archive, out)
                    out.seek(0)
                    self.assertEqual(out.read(), given.getvalue())
                zogwedu.Archive(given.getvalue())

    def test_an_object_may_ask_the_archive_that_is_written(self) -> None:
        class Asking(io.RawIOBase):
            """Asks for the last record whenever it is given a piece."""

            def __init__(self, archive: zogwedu.Archive) -> None:
                super().__init__()
                self.archive, self.length = archive, 0

            def write(self, piece: Any) -> int:
                self.length += len(piece)
                return len(piece) if self.archive[-1].id else 0

        with zogwedu.Archive.open(CRAWL) as archive:
            asking = Asking(archive)
            archive.select(asking, range(18))
        self.assertEqual(asking.length, os.path.getsize(CRAWL))

    def test_convert_and_split(self) -> None:
        with zogwedu.Archive.open(CRAWL) as archive:
            converted, split = io.BytesIO(), io.BytesIO()
            archive.convert(converted)
            archive.split(split, 50)
            with self.assertRaises(ValueError):
                archive.split(split, 0)
            front, whole = archive.replay(FRONT, "9999"), zogwedu.Archive(split.getvalue())
            self.assertEqual(bytes(whole.replay(FRONT, "9999")), bytes(front))
            self.assertGreater(len(whole), 18)
        self.assertEqual({bytes(record.head[:8]) for record in zogwedu.Archive(converted.getvalue())}, {b"WARC/1.1"})

    def test_select(self) -> None:
        with open(CRAWL, "rb") as file, zogwedu.Archive.open(CRAWL) as archive:
            whole = file.read()
            ends = [record.offset for record in archive] + [len(whole)]
            records = [whole[ends[i] : ends[i + 1]] for i in range(len(archive))]

            def selected(positions: Iterable[int], except_: bool = False) -> bytes:
                out = io.BytesIO()
                archive.select(out, positions, except_=except_)
                return out.getvalue()

            self.assertEqual(selected([3, 0, 3]), records[0] + records[3])
            others = b"".join(record for i, record in enumerate(records) if i not in (0, 3))
            self.assertEqual(selected(iter((3, 0, 3)), except_=True), others)
            self.assertEqual((selected(range(18)), selected([], except_=True)), (whole, whole))
            self.assertEqual((selected([]), selected(range(18), except_=True)), (b"", b""))
            with tempfile.TemporaryDirectory() as folder:
                with open(f"{folder}/a", "wb") as out:
                    out.write(b"front")
                    archive.select(out, [17])
                with open(f"{folder}/a", "rb") as chosen:
                    self.assertEqual(chosen.read(), b"front" + records[17])

    def test_a_closed_selection_gives_what_all_records_give(self) -> None:
        def given(record: zogwedu.Record) -> Tuple[bytes, str]:
            try:
                return bytes(record.body()), ""
            except zogwedu.NoBody as reason:
                return b"", reason.name

        def selected(position: int, except_: bool = False) -> Dict[str, Tuple[bytes, str]]:
            out = io.BytesIO()
            archive.select(out, [position, position], except_=except_, closed=True)
            return {record.id: given(record) for record in zogwedu.Archive(out.getvalue())}

        with zogwedu.Archive.open(CRAWL) as archive:
            whole = {record.id: given(record) for record in archive}
            self.assertEqual(len(whole), 18)
            needs: Dict[str, Set[str]] = {}
            for record in archive:
                some = selected(record.position)
                needs[record.id] = set(some)
                self.assertIn(record.id, some)
                self.assertEqual(some, {name: whole[name] for name in some})
            self.assertIn(2, {len(some) for some in needs.values()})
            for record in archive:
                others = selected(record.position, except_=True)
                self.assertEqual(set(others), {name for name in whole if record.id not in needs[name]})
                self.assertEqual(others, {name: whole[name] for name in others})

    def test_a_selection_that_is_made_in_several_parts(self) -> None:
        records = []
        for number in range(5):
            out = io.BytesIO()
            zogwedu.make(out, "resource", f"http://a.example/{number}", "2020", "text/plain", bytes([number]) * 800_000)
            records.append(out.getvalue())
        archive, chosen, others = zogwedu.Archive(b"".join(records)), io.BytesIO(), io.BytesIO()
        archive.select(chosen, [4, 1, 2])
        archive.select(others, [3], except_=True)
        self.assertEqual(chosen.getvalue(), records[1] + records[2] + records[4])
        self.assertEqual(others.getvalue(), b"".join(records[:3] + records[4:]))

    def test_what_cannot_be_selected(self) -> None:
        archive, out = zogwedu.Archive.open(CRAWL), io.BytesIO()
        for positions in ([0, 18], [-1], [1 << 64], [(1 << 64) - 1]):
            for except_, closed in itertools.product((False, True), repeat=2):
                with self.assertRaises(zogwedu.NoRecord) as raised:
                    archive.select(out, positions, except_=except_, closed=closed)
                self.assertEqual((raised.exception.code, raised.exception.text), (201, "E1 NoRecord"))
        wrong: List[Any] = [["0"], [0.0], [None]]
        for positions in wrong:
            with self.assertRaises(TypeError):
                archive.select(out, positions)
        self.assertEqual(out.getvalue(), b"")
        with open("/dev/full", "wb", buffering=0) as full, self.assertRaises(zogwedu.WriteFailed) as failed:
            archive.select(full, [0])
        self.assertEqual(failed.exception.sent, 0)
        archive.close()
        with self.assertRaises(zogwedu.Closed):
            archive.select(out, [0])

    def test_what_cannot_be_made(self) -> None:
        for place, word, name in (
            (0, "response", "M5 Kind"),
            (2, "soon", "M1 Date"),
            (1, "<a>", "M2 Text"),
            (3, "", "M2 Text"),
        ):
            draft: List[Any] = list(self.DRAFT)
            out = io.BytesIO()
            draft[place] = word
            with self.assertRaises(zogwedu.NotMade) as raised:
                zogwedu.make(out, *draft)
            self.assertEqual((raised.exception.name, out.getvalue()), (name, b""))
        with self.assertRaises(zogwedu.NotMade):
            zogwedu.make(io.BytesIO(), *self.DRAFT, uuid="1")

    def test_a_failed_write_says_how_much_went_out(self) -> None:
        with zogwedu.Archive.open(CRAWL) as archive:
            with open("/dev/full", "wb", buffering=0) as out, self.assertRaises(zogwedu.WriteFailed) as raised:
                archive.rewrite(out)
            self.assertEqual(raised.exception.sent, 0)
            small = Full(1000)
            with self.assertRaises(zogwedu.WriteFailed) as raised:
                archive.rewrite(small)
            self.assertEqual((raised.exception.sent, len(small.taken)), (1000, 1000))
            read, write = os.pipe()
            os.close(read)
            with self.assertRaises(zogwedu.WriteFailed):
                archive.rewrite(write)
            os.close(write)
            with self.assertRaises(zogwedu.WriteFailed):
                archive.rewrite(write)

    def test_a_limit_on_the_size_of_a_file(self) -> None:
        code = (
            "import resource, signal, sys, zogwedu\n"
            "signal.signal(signal.SIGXFSZ, signal.SIG_IGN)\n"
            "resource.setrlimit(resource.RLIMIT_FSIZE, (5000, 5000))\n"
            "with open(sys.argv[2], 'wb') as out, zogwedu.Archive.open(sys.argv[1]) as archive:\n"
            "    try:\n"
            "        archive.rewrite(out)\n"
            "    except zogwedu.WriteFailed as error:\n"
            "        print(error.sent)\n"
        )
        with tempfile.TemporaryDirectory() as folder:
            words = [sys.executable, "-c", code, CRAWL, f"{folder}/a"]
            run = subprocess.run(words, capture_output=True, check=True)
            self.assertEqual((run.stdout, os.path.getsize(f"{folder}/a")), (b"5000\n", 5000))


class Pieces(unittest.TestCase):
    FIRST, SECOND, THIRD = (stored("HTTP/1.1 200 OK", b"abc" * number, number=number) for number in (1, 2, 3))

    def seen(self, file: Any, **how: bool) -> List[Tuple[int, int, int, Optional[str]]]:
        """The pieces of a file. They are the same over a mapping and in memory."""
        found = zogwedu.pieces(file, **how)
        return [(it.offset, it.length, it.count, None if it.fault is None else it.fault.text) for it in found]

    def salvaged(self, file: Any) -> Tuple[bytes, zogwedu.Salvaged]:
        """What is written of a file, and what is said of it."""
        out = io.BytesIO()
        salvaged = zogwedu.salvage(file, out)
        self.assertEqual(
            (salvaged.length, len(zogwedu.Archive(out.getvalue()))), (len(out.getvalue()), salvaged.records)
        )
        return out.getvalue(), salvaged

    def test_an_archive_is_one_piece(self) -> None:
        with open(CRAWL, "rb") as file:
            whole = file.read()
        for mapped in (True, False):
            self.assertEqual(self.seen(CRAWL, mmap=mapped), [(0, len(whole), 18, None)])
        self.assertEqual(self.salvaged(CRAWL), (whole, zogwedu.Salvaged(18, len(whole), [])))

    def test_damage_between_good_records(self) -> None:
        first, second = len(self.FIRST), len(self.SECOND)
        data = self.FIRST + self.SECOND.replace(b"Length: ", b"Length: x") + self.THIRD + b"\0\0"
        end = first + second + 1 + len(self.THIRD)
        wanted = [
            (0, first, 1, None),
            (first, second + 1, 0, f"F6 Length at {first}"),
            (first + second + 1, len(self.THIRD), 1, None),
            (end, 2, 0, f"F1 Version at {end}"),
        ]
        self.assertEqual(self.seen(io.BytesIO(data)), wanted)
        with tempfile.TemporaryDirectory() as folder:
            with open(f"{folder}/a.warc", "wb") as file:
                file.write(data)
            self.assertEqual(self.seen(f"{folder}/a.warc"), wanted)
            good, salvaged = self.salvaged(f"{folder}/a.warc")
        self.assertEqual((good, salvaged.records), (self.FIRST + self.THIRD, 2))
        self.assertEqual([(it.offset, it.length) for it in salvaged.damage], [(first, second + 1), (end, 2)])
        fault = salvaged.damage[0].fault
        assert fault is not None
        self.assertEqual((fault.name, fault.code, fault.offset), ("F6 Length", 6, first))

    def test_the_field_that_is_absent_is_named(self) -> None:
        data = self.FIRST.replace(b"WARC-Date", b"WARC-Data")
        self.assertEqual(self.seen(io.BytesIO(data)), [(0, len(data), 0, "F4 Missing WARC-Date at 0")])

    def test_no_bytes_and_no_good_record(self) -> None:
        zeros = b"\0" * 5000
        self.assertEqual(self.seen(io.BytesIO()), [])
        self.assertEqual(self.seen(io.BytesIO(zeros)), [(0, 5000, 0, "F1 Version at 0")])
        for data, damages in ((b"", 0), (zeros, 1)):
            good, salvaged = self.salvaged(io.BytesIO(data))
            self.assertEqual((good, salvaged.records, len(salvaged.damage)), (b"", 0, damages))
        with tempfile.NamedTemporaryFile() as file:
            self.assertEqual(self.seen(file.name), [])

    def test_more_pieces_than_the_first_buffer_holds(self) -> None:
        data = (self.FIRST + b"damage") * 100
        found = self.seen(io.BytesIO(data))
        self.assertEqual((len(found), sum(length for _, length, _, _ in found)), (200, len(data)))
        self.assertEqual({(length, count) for _, length, count, _ in found}, {(len(self.FIRST), 1), (6, 0)})
        good, salvaged = self.salvaged(io.BytesIO(data))
        self.assertEqual((good, salvaged.records, len(salvaged.damage)), (self.FIRST * 100, 100, 100))

    def test_a_compressed_file(self) -> None:
        packed = gzip.compress(self.FIRST + b"damage" + self.THIRD)
        self.assertEqual([count for _, _, count, _ in self.seen(io.BytesIO(packed))], [1, 0, 1])
        self.assertEqual(self.salvaged(io.BytesIO(packed))[0], self.FIRST + self.THIRD)
        self.assertEqual(self.seen(io.BytesIO(packed[:-1])), [(0, 0, 0, "damaged gzip at 0: it isn't whole")])
        self.assertEqual(self.salvaged(io.BytesIO(packed[:-1]))[0], b"")
        self.assertEqual(self.salvaged(io.BytesIO(packed + b"x"))[0], self.FIRST + self.THIRD)

    def test_outputs_of_any_kind(self) -> None:
        large = stored("HTTP/1.1 200 OK", bytes(range(256)) * 10000, number=4)
        data, wanted = self.FIRST + b"damage" + large, self.FIRST + large
        with tempfile.TemporaryDirectory() as folder:
            with open(f"{folder}/a", "wb") as out:
                out.write(b"front")
                zogwedu.salvage(io.BytesIO(data), out)
                out.write(b"back")
            with open(f"{folder}/a", "rb") as file:
                self.assertEqual(file.read(), b"front" + wanted + b"back")
            with gzip.open(f"{folder}/b.gz", "wb") as packed:
                zogwedu.salvage(io.BytesIO(data), packed)
            with gzip.open(f"{folder}/b.gz", "rb") as file:
                self.assertEqual(file.read(), wanted)
            with open(f"{folder}/c", "wb", buffering=0) as out:
                zogwedu.salvage(io.BytesIO(data), out.fileno())
            self.assertEqual(os.path.getsize(f"{folder}/c"), len(wanted))
            with open(f"{folder}/d", "w", encoding="utf-8") as text, self.assertRaises(TypeError):
                zogwedu.salvage(io.BytesIO(data), text)

    def test_the_file_that_is_read_is_not_written(self) -> None:
        data = self.FIRST + b"damage" + self.THIRD
        with tempfile.TemporaryDirectory() as folder:
            path = f"{folder}/a"
            with open(path, "wb") as file:
                file.write(data)
            os.symlink(path, f"{folder}/symbolic")
            os.link(path, f"{folder}/hard")
            for source, mode in itertools.product((path, f"{folder}/symbolic", f"{folder}/hard"), ("r+b", "ab")):
                with open(path, mode) as out:
                    for target in (out, out.fileno()):
                        with self.assertRaises(ValueError):
                            zogwedu.salvage(source, target)
            with open(path, "rb") as read, open(path, "r+b") as out, self.assertRaises(ValueError):
                zogwedu.salvage(read, out)
            with open(path, "rb") as read:
                self.assertEqual(read.read(), data)
            with gzip.open(path, "ab") as packed, self.assertRaises(ValueError):
                zogwedu.salvage(path, packed)

    def test_a_failed_write_says_how_much_went_out(self) -> None:
        with open("/dev/full", "wb", buffering=0) as full, self.assertRaises(zogwedu.WriteFailed) as raised:
            zogwedu.salvage(CRAWL, full)
        self.assertEqual((raised.exception.sent, raised.exception.code), (0, 208))
        small = Full(1000)
        with self.assertRaises(zogwedu.WriteFailed) as raised:
            zogwedu.salvage(CRAWL, small)
        self.assertEqual((raised.exception.sent, len(small.taken)), (1000, 1000))
        read, write = os.pipe()
        os.close(read)
        with self.assertRaises(zogwedu.WriteFailed):
            zogwedu.salvage(CRAWL, write)
        os.close(write)

    def test_what_an_output_holds_back_may_fail_too(self) -> None:
        with zogwedu.Archive.open(CRAWL) as archive:
            writes: Tuple[Callable[[Any], Any], ...] = (archive.rewrite, partial(zogwedu.salvage, CRAWL))
            for write in writes:
                full = open("/dev/full", "wb")
                full.write(b"front")
                with self.assertRaises(zogwedu.WriteFailed) as raised:
                    write(full)
                self.assertEqual((raised.exception.sent, raised.exception.code), (0, 208))
                with self.assertRaises(OSError):
                    full.close()

    def test_memory_that_runs_out_in_an_output(self) -> None:
        class Small(io.RawIOBase):
            """Takes 100 bytes, and then has no memory."""

            taken = 0

            def write(self, piece: Any) -> int:
                if self.taken:
                    raise MemoryError
                self.taken = 100
                return self.taken

        with zogwedu.Archive.open(CRAWL) as archive:
            writes: Tuple[Callable[[Any], Any], ...] = (archive.rewrite, partial(zogwedu.salvage, CRAWL))
            for write in writes:
                with self.assertRaises(zogwedu.WriteFailed) as raised:
                    write(Small())
                self.assertEqual((raised.exception.sent, raised.exception.code), (100, 204))

    def test_a_pipe_that_nobody_reads_ends_no_process(self) -> None:
        code = (
            "import os, signal, sys, zogwedu\n"
            "signal.signal(signal.SIGPIPE, signal.SIG_DFL)\n"
            "read, write = os.pipe()\n"
            "os.close(read)\n"
            "try:\n"
            "    zogwedu.salvage(sys.argv[1], write)\n"
            "except zogwedu.WriteFailed as error:\n"
            "    masked = signal.pthread_sigmask(signal.SIG_BLOCK, ())\n"
            "    print(error.sent, error.code, masked, signal.sigpending())\n"
        )
        run = subprocess.run([sys.executable, "-c", code, CRAWL], capture_output=True, check=False)
        self.assertEqual((run.returncode, run.stdout), (0, b"0 208 set() set()\n"))

    def test_no_mapping_is_left(self) -> None:
        """Of a file that no other test maps, since Python may not have let go of what they opened."""

        class Keeping(io.RawIOBase):
            """Takes what is written, and keeps it."""

            kept: List[Any] = []

            def write(self, piece: Any) -> int:
                self.kept.append(piece)
                return len(piece)

        with open(CRAWL, "rb") as file, tempfile.NamedTemporaryFile(suffix=".warc") as copied:
            data = file.read()
            copied.write(data)
            copied.flush()
            zogwedu.pieces(copied.name)
            zogwedu.salvage(copied.name, Keeping())
            with open("/proc/self/maps", encoding="utf-8", errors="replace") as maps:
                self.assertNotIn(copied.name, maps.read())
        self.assertEqual(b"".join(Keeping.kept), data)

    def test_memory_that_runs_out(self) -> None:
        code = (
            "import ctypes, io, resource, sys, zogwedu\n"
            "source = io.BytesIO(sys.stdin.buffer.read())\n"
            "malloc = ctypes.CDLL(None).malloc\n"
            "malloc.argtypes, malloc.restype = [ctypes.c_size_t], ctypes.c_void_p\n"
            "pages = int(open('/proc/self/statm').read().split()[0])\n"
            "resource.setrlimit(resource.RLIMIT_AS, (pages * resource.getpagesize(),) * 2)\n"
            "while malloc(65536): pass\n"
            "try:\n"
            "    zogwedu.salvage(source, sys.stdout.buffer)\n"
            "except zogwedu.Refused as error:\n"
            "    print(error)\n"
        )
        run = subprocess.run(
            [sys.executable, "-c", code],
            input=self.FIRST,
            env={**os.environ, "MALLOC_MMAP_THRESHOLD_": "65536", "MALLOC_ARENA_MAX": "1"},
            capture_output=True,
            check=True,
        )
        self.assertEqual(run.stdout, b"F14 Memory at 0\n")


class Package(unittest.TestCase):
    def test_a_missing_library_is_an_import_error(self) -> None:
        for path in ("/nowhere/libwarc.so", "/usr/lib/x86_64-linux-gnu/libc.so.6"):
            done = subprocess.run(
                [sys.executable, "-c", "import zogwedu"],
                env={**os.environ, "ZOGWEDU_LIBRARY": path},
                capture_output=True,
                check=False,
            )
            self.assertIn(b"ImportError", done.stderr)
            self.assertIn(b"libwarc.so", done.stderr)

    def test_a_library_without_a_call_is_an_import_error(self) -> None:
        code = (
            "import ctypes\n"
            "class Older(ctypes.CDLL):\n"
            "    def __getattr__(self, name):\n"
            "        if name == 'warc_pieces':\n"
            "            raise AttributeError(name)\n"
            "        return super().__getattr__(name)\n"
            "ctypes.CDLL = Older\n"
            "import zogwedu\n"
        )
        done = subprocess.run([sys.executable, "-c", code], capture_output=True, check=False)
        self.assertIn(b"ImportError", done.stderr)
        self.assertIn(b"warc_pieces", done.stderr)

    def test_each_exception_is_a_warc_error(self) -> None:
        for name in zogwedu.__all__:
            it = getattr(zogwedu, name)
            if isinstance(it, type) and issubclass(it, Exception):
                self.assertTrue(issubclass(it, zogwedu.WarcError))
                self.assertIn(f"`{name}`", zogwedu.__doc__ + "`WarcError`")


class Unpacking(unittest.TestCase):
    def index(self, folder: str) -> Dict[str, Dict[str, str]]:
        """The lines of the index, by position."""
        with open(f"{folder}/index.tsv", encoding="utf-8") as file:
            names, *lines = [line.rstrip("\n").split("\t") for line in file]
        return {line[0]: dict(zip(names, line)) for line in lines}

    def test_stored(self) -> None:
        with tempfile.TemporaryDirectory() as folder:
            words = [sys.executable, "-m", "zogwedu", "unpack", "--stored", CRAWL, f"{folder}/site"]
            self.assertEqual(subprocess.run(words, capture_output=True, check=True).stdout, b"8 bodies\n")
            self.assertEqual(self.index(f"{folder}/site")["6"]["coding"], "stored")
            with open(f"{folder}/site/6.body", "rb") as file, zogwedu.Archive.open(CRAWL) as archive:
                self.assertEqual(file.read(), bytes(http_of(archive[6]).stored))

    def test_what_cannot_be_decoded_has_its_reason(self) -> None:
        with tempfile.TemporaryDirectory() as folder:
            with open(f"{folder}/a.warc", "wb") as file:
                file.write(stored("HTTP/1.1 200 OK\r\nContent-Encoding: gzip", b"abc"))
            words = [sys.executable, "-m", "zogwedu", "unpack", f"{folder}/a.warc", f"{folder}/out"]
            self.assertEqual(subprocess.run(words, capture_output=True, check=True).stdout, b"0 bodies\n")
            self.assertIn("the body isn't gzip", self.index(f"{folder}/out")["0"]["reason"])

    def test_unpack(self) -> None:
        with tempfile.TemporaryDirectory() as folder:
            words = [sys.executable, "-m", "zogwedu", "unpack", CRAWL, f"{folder}/site"]
            self.assertEqual(subprocess.run(words, capture_output=True, check=True).stdout, b"8 bodies\n")
            names = sorted(os.listdir(f"{folder}/site"))
            self.assertEqual(names, [f"{it}.body" for it in (11, 13, 15, 17, 2, 4, 6, 8)] + ["index.tsv"])
            columns = self.index(f"{folder}/site")
            self.assertEqual((columns["6"]["coding"], columns["2"]["coding"]), ("undone chunked", "-"))
            with open(f"{folder}/site/6.body", "rb") as file:
                self.assertTrue(file.read().startswith(b"<title>"))
            again = subprocess.run(words, capture_output=True, check=False)
            self.assertEqual(again.returncode, 3)

    def test_names_never_come_from_uris(self) -> None:
        with tempfile.TemporaryDirectory() as folder:
            with open(f"{folder}/a.warc", "wb") as file:
                file.write(stored("HTTP/1.1 200 OK", b"a", uri="http://../../../etc/passwd\t"))
            subprocess.run(
                [sys.executable, "-m", "zogwedu", "unpack", f"{folder}/a.warc", f"{folder}/out"],
                stdout=subprocess.DEVNULL,
                check=True,
            )
            self.assertEqual(sorted(os.listdir(f"{folder}/out")), ["0.body", "index.tsv"])

    def test_refused(self) -> None:
        words = [sys.executable, "-m", "zogwedu", "unpack", f"{TOP}/examples/damaged.warc", "/nowhere/x"]
        done = subprocess.run(words, capture_output=True, check=False)
        self.assertEqual((done.returncode, done.stderr), (2, b"zogwedu: F10 End at 274\n"))


if __name__ == "__main__":
    unittest.main()
