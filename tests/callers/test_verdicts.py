#!/usr/bin/env python3
"""The verdicts that the Python package gives on single records: of blocks by any digest, and of payloads."""
import base64
import hashlib
import unittest
from typing import List, Tuple

import zogwedu

OK = b"HTTP/1.1 200 OK\r\nContent-Type: text/plain\r\n\r\n"
CHUNKED = b"HTTP/1.1 200 OK\r\ntransfer-encoding: chunked\r\n\r\n"
PLAIN = b"HTTP/1.1 200 OK\r\nTransfer-Encoding: identity\r\nContent-Encoding: gzip\r\n\r\n"
PROFILE = "http://netpreserve.org/warc/1.1/revisit/identical-payload-digest"
Case = Tuple[str, bytes, List[str], object]


def name_of(number: int) -> str:
    """The id of a record."""
    return f"<urn:uuid:00000000-0000-4000-8000-{number:012}>"


def record(number: int, kind: str, block: bytes, *fields: str) -> bytes:
    """A record."""
    lines = [
        "WARC/1.1",
        f"WARC-Type: {kind}",
        f"WARC-Record-ID: {name_of(number)}",
        "WARC-Date: 2020-01-01T00:00:00Z",
        f"WARC-Target-URI: http://a.example/{number}",
        f"Content-Length: {len(block)}",
        *fields,
    ]
    return "\r\n".join(lines).encode() + b"\r\n\r\n" + block + b"\r\n\r\n"


def stated(algorithm: str, data: bytes, field: str = "Payload") -> str:
    """A field with a digest in hexadecimal digits."""
    return f"WARC-{field}-Digest: {algorithm}:{hashlib.new(algorithm, data).hexdigest()}"


def in_base32(data: bytes) -> str:
    """A field with the SHA-1 of a payload in base32."""
    return "WARC-Payload-Digest: sha1:" + base64.b32encode(hashlib.sha1(data).digest()).decode()


def to(number: int) -> List[str]:
    """The fields by which a revisit names a record."""
    return [f"WARC-Profile: {PROFILE}", f"WARC-Refers-To: {name_of(number)}"]


def unchecked(reason: str) -> zogwedu.PayloadVerdict:
    """The verdict on what can't be checked."""
    return zogwedu.PayloadVerdict("unchecked", reason)


GOOD, BAD = zogwedu.PayloadVerdict("good", None), zogwedu.PayloadVerdict("bad", None)
NO_FIELD = "WARC-Payload-Digest:"
# The kind, the block, the fields and the verdict of each record, by its number.
PAYLOADS: List[Case] = [
    ("response", OK + b"abc", [stated("sha256", b"abc")], GOOD),
    ("response", OK + b"abc", [stated("sha256", b"abd")], BAD),
    ("response", CHUNKED + b"3\r\nabc\r\n0\r\n\r\n", [stated("sha1", b"abc")], unchecked("coded")),
    ("response", CHUNKED + b"0\r\n\r\n", [stated("sha512", b"0\r\n\r\n")], GOOD),
    ("response", PLAIN + b"abc", [stated("md5", b"abd")], BAD),
    ("response", b"abc", [stated("md5", b"abc")], unchecked("head")),
    ("request", b"GET / HTTP/1.1\r\n\r\n", [stated("sha1", b"")], unchecked("request")),
    ("revisit", OK, [*to(99), stated("sha1", b"abc")], unchecked("revisit")),
    ("resource", b"abc", [in_base32(b"abc")], GOOD),
    ("resource", b"abc", ["WARC-Payload-Digest: crc32:352441c2"], unchecked("algorithm")),
    ("resource", b"abc", [], None),
    ("resource", b"abc", [NO_FIELD, stated("md5", b"abc")], None),
    ("resource", b"abc", ["WARC-Segment-Number: 1", stated("md5", b"abc")], unchecked("segment")),
    ("revisit", OK, [*to(0), stated("sha256", b"abc")], GOOD),
    ("revisit", OK, [*to(0), stated("sha256", b"")], BAD),
]
BLOCKS = [
    (stated("md5", b"abc", "Block"), "good", "unchecked"),
    (stated("sha384", b"abd", "Block"), "bad", "unchecked"),
    (in_base32(b"abc").replace("Payload", "Block"), "good", "good"),
    ("WARC-Block-Digest: crc32:352441c2", "unchecked", "unchecked"),
    ("WARC-Block-Digest:\r\n" + stated("md5", b"abc", "Block"), "unchecked", "unchecked"),
]


def payloads() -> zogwedu.Archive:
    """An archive of the records of PAYLOADS."""
    rows = (record(number, kind, block, *fields) for number, (kind, block, fields, _) in enumerate(PAYLOADS))
    return zogwedu.Archive(b"".join(rows))


class Verdicts(unittest.TestCase):
    def test_payloads(self) -> None:
        with payloads() as archive:
            given = [archive.payload_verdict(position) for position in range(len(archive))]
        self.assertEqual(given, [verdict for *_, verdict in PAYLOADS])

    def test_blocks(self) -> None:
        rows = (record(number, "resource", b"abc", field) for number, (field, _, _) in enumerate(BLOCKS))
        with zogwedu.Archive(b"".join(rows)) as archive:
            any_digest = [archive.stated_verdict(position) for position in range(len(archive))]
            sha1_alone = [it.verdict for it in archive]
            fixity = archive.fixity()
        self.assertEqual((any_digest, sha1_alone), ([it[1] for it in BLOCKS], [it[2] for it in BLOCKS]))
        self.assertEqual((fixity.good, fixity.bad, fixity.unchecked), (2, 1, 2))

    def test_changed_bytes(self) -> None:
        data = bytearray(record(0, "resource", b"abc", stated("md5", b"abc"), stated("md5", b"abc", "Block")))
        with zogwedu.Archive(data) as archive:
            self.assertEqual((archive.payload_verdict(0), archive.stated_verdict(0)), (GOOD, "good"))
            data[-5] ^= 1  # of the block
            self.assertEqual((archive.payload_verdict(0), archive.stated_verdict(0)), (BAD, "bad"))
            data[0] ^= 1  # of the head
            for ask in (archive.payload_verdict, archive.stated_verdict):
                with self.assertRaises(zogwedu.Changed):
                    ask(0)

    def test_positions_without_a_record(self) -> None:
        archive = payloads()
        for position in (-1, len(PAYLOADS), 1 << 63, 1 << 64, (1 << 64) + 1, -(1 << 64)):
            for ask in (archive.payload_verdict, archive.stated_verdict):
                with self.assertRaises(zogwedu.NoRecord):
                    ask(position)
        with self.assertRaises(TypeError):
            archive.payload_verdict("0")  # type: ignore[arg-type]
        archive.close()
        for ask in (archive.payload_verdict, archive.stated_verdict):
            with self.assertRaises(zogwedu.Closed):
                ask(1 << 64)


if __name__ == "__main__":
    unittest.main()
