#!/usr/bin/env python3
"""Heads that are read one after another: 64 of them by one call, with the same answers as one by one."""
import os
import tempfile
import threading
import tracemalloc
import unittest
from typing import Any, Callable, List, Tuple

import zogwedu
from zogwedu import _library as library

TOP = os.path.dirname(os.path.dirname(os.path.dirname(os.path.abspath(__file__))))
CRAWL = f"{TOP}/examples/crawl.warc"
HEAD = (
    "WARC/1.1\r\nWARC-Type: resource\r\nWARC-Record-ID: <urn:uuid:00000000-0000-4000-8000-{:012}>\r\n"
    "WARC-Date: 2020-01-01T00:00:00Z\r\nWARC-Target-URI: http://a.example/{}\r\n"
)


def record(number: int, extra: bytes = b"", block: bytes = b"") -> bytes:
    """A record with more fields."""
    return HEAD.format(number, number).encode() + extra + b"Content-Length: %d\r\n\r\n%s\r\n\r\n" % (len(block), block)


def extras() -> List[bytes]:
    """More fields for each of many records: none, repeated ones, folded ones, other bytes than UTF-8, and many."""
    many = b"".join(b"X-%d: %d\r\n" % (number, number) for number in range(3000))
    long = b"".join(b"a:\r\n" for _ in range(12000))
    kinds = [
        b"",
        b"X-A: one\r\nx-a: two\r\n",
        b"X-Fold: a\r\n  b\r\n",
        b"X: \xff\xc3\xa9\r\n",
        b"X-Empty:\r\n",
        many,
        long,
    ]
    return [kinds[number % 5] for number in range(300)] + kinds + [kinds[1]] * 70


class Calls:
    """Counts the calls of the library by one name."""

    def __init__(self, name: str) -> None:
        self.count = 0
        self._name = name
        self._call: Any = getattr(library.lib, name)

    def __call__(self, *words: Any) -> Any:
        self.count += 1
        return self._call(*words)

    def __enter__(self) -> "Calls":
        setattr(library.lib, self._name, self)
        return self

    def __exit__(self, *_exception: object) -> None:
        setattr(library.lib, self._name, self._call)


def said(record_: zogwedu.Record) -> Tuple[Any, ...]:
    """What a record says, and its fields."""
    known = (record_.position, record_.offset, record_.length, record_.type, record_.date, record_.id, record_.target)
    return (*known, record_.headers.fields)


class Heads(unittest.TestCase):
    DATA = b"".join(record(number, extra, b"a" * (number % 3)) for number, extra in enumerate(extras()))

    def test_a_loop_says_what_each_record_says(self) -> None:
        archive = zogwedu.Archive(self.DATA)
        wanted = [said(zogwedu.Archive(self.DATA)[number]) for number in range(len(archive))]
        self.assertEqual(len(wanted), len(extras()))
        self.assertEqual([said(it) for it in archive], wanted)
        self.assertEqual([said(archive[number]) for number in range(len(archive))], wanted)
        self.assertEqual([said(it) for it in reversed(archive)], wanted[::-1])
        self.assertEqual([said(it) for it in archive[::7]], wanted[::7])
        with open(CRAWL, "rb") as file:
            data = file.read()
        self.assertEqual(
            [said(it) for it in zogwedu.Archive(data)], [said(zogwedu.Archive(data)[i]) for i in range(18)]
        )

    def test_the_fields_are_those_of_the_head(self) -> None:
        for it, extra in zip(zogwedu.Archive(self.DATA), extras()):
            lines = bytes(it.head).replace(b"\r\n ", b" ").split(b"\r\n")[1:-2]
            pairs = [line.partition(b":")[::2] for line in lines]
            texts = [
                (name.decode(), b" ".join(value.split()).decode("utf-8", "surrogateescape")) for name, value in pairs
            ]
            self.assertEqual(it.headers.fields, tuple(texts), extra[:20])

    def test_few_calls_give_many_heads(self) -> None:
        archive = zogwedu.Archive(b"".join(map(record, range(1000))))
        with Calls("warc_rows") as rows, Calls("warc_fields") as fields:
            for it in archive:
                it.headers.get("warc-type")
            self.assertEqual((rows.count, fields.count), (17, 16))
        with Calls("warc_fields") as fields:
            for it in archive:
                if it.position % 3 == 0:
                    it.headers.get("warc-type")
            self.assertLessEqual(fields.count, 17)
        with Calls("warc_fields") as fields:
            for position in (500, 3, 900):
                archive[position].headers.get("warc-type")
            self.assertEqual(fields.count, 3)

    def test_a_loop_reads_no_head_that_is_not_asked_for(self) -> None:
        with Calls("warc_fields") as fields:
            self.assertEqual(len([it.type for it in zogwedu.Archive(self.DATA)]), len(extras()))
            self.assertEqual(fields.count, 0)

    def test_a_loop_keeps_nothing(self) -> None:
        archive = zogwedu.Archive(b"".join(map(record, range(5000))))
        tracemalloc.start()
        try:
            for it in archive:
                it.headers.get("warc-date")
            self.assertLess(tracemalloc.get_traced_memory()[1], 150 * 5000)
        finally:
            tracemalloc.stop()

    def test_changed_bytes_are_refused_at_their_record(self) -> None:
        data = bytearray(b"".join(map(record, range(10))))
        archive = zogwedu.Archive(data)
        at = archive[4].offset
        data[at : at + 4] = b"XXXX"
        seen = []
        for it in archive:
            try:
                seen.append(it.headers["warc-record-id"] == it.id)
            except zogwedu.Changed:
                seen.append(False)
        self.assertEqual(seen, [number != 4 for number in range(10)])

    def test_growth_and_closing(self) -> None:
        with tempfile.NamedTemporaryFile() as file:
            file.write(record(0) + record(1))
            file.flush()
            archive, seen = zogwedu.Archive.open(file.name), []
            for it in archive:
                seen.append(it.headers["warc-record-id"])
                if it.position == 1:
                    file.write(record(2))
                    file.flush()
                    archive.grow()
            self.assertEqual([number[-2] for number in seen], ["0", "1", "2"])
            records = iter(archive)
            kept = next(records)
            archive.close()
            asked: List[Callable[[], object]] = [lambda: next(records), lambda: kept.headers]
            for ask in asked:
                with self.assertRaises(zogwedu.Closed):
                    ask()

    def test_threads_share_an_archive(self) -> None:
        archive = zogwedu.Archive(b"".join(map(record, range(500))))
        wrong: List[zogwedu.Record] = []

        def work(step: int) -> None:
            wrong.extend(it for it in archive[::step] if it.headers["warc-record-id"] != it.id)

        threads = [threading.Thread(target=work, args=(step,)) for step in (1, -1, 3, 70)]
        for thread in threads:
            thread.start()
        for thread in threads:
            thread.join()
        self.assertEqual(wrong, [])

    def test_headers_outlive_their_neighbours(self) -> None:
        archive = zogwedu.Archive(b"".join(map(record, range(200))))
        kept = [it.headers for it in archive]
        archive.close()
        self.assertEqual([int(it["warc-record-id"][-13:-1]) for it in kept], list(range(200)))
        self.assertEqual((len(kept[0]), list(kept[0])[0], "WARC-DATE" in kept[0]), (5, "WARC-Type", True))
        self.assertEqual(kept[0], zogwedu.Archive(record(0))[0].headers)


if __name__ == "__main__":
    unittest.main()
