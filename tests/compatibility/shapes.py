"""Archives in the shapes that crawlers are known to write, made here: no program of theirs runs, and no file is theirs.

Each has a page, a picture, and a second crawl in which the picture hasn't changed.
"""

from __future__ import annotations

import base64
import gzip
import hashlib
import uuid
from typing import List, Tuple

SITE = "http://a.example/"
PAGE = b"<title>Weather</title>\n<p>Snow.</p>\n"
PICTURE = b"\x89PNG\r\n\x1a\n" + bytes(range(64))
FIRST, SECOND = "2024-01-01T00:00:00Z", "2024-01-02T00:00:00Z"
HTTP = "application/http; msgtype="
SAME = "http://netpreserve.org/warc/{}/revisit/identical-payload-digest"

Fields = List[Tuple[str, str]]


def sha1_base32(data: bytes) -> str:
    """A digest as most crawlers write it."""
    return "sha1:" + base64.b32encode(hashlib.sha1(data).digest()).decode()


def sha1_hex(data: bytes) -> str:
    """The same in hexadecimal digits."""
    return "sha1:" + hashlib.sha1(data).hexdigest()


def sha256_hex(data: bytes) -> str:
    """A digest by SHA-256."""
    return "sha256:" + hashlib.sha256(data).hexdigest()


def identity(name: str) -> str:
    """The id of a record with this name; the same name has the same id."""
    return f"<urn:uuid:{uuid.uuid5(uuid.NAMESPACE_URL, name)}>"


def record(version: str, kind: str, date: str, fields: Fields, block: bytes, name: str) -> bytes:
    """A record: the fields that each has, those given, its length, and its block."""
    own = [("WARC-Type", kind), ("WARC-Record-ID", identity(name)), ("WARC-Date", date)]
    lines = [f"{key}: {value}" for key, value in (*own, *fields, ("Content-Length", str(len(block))))]
    return "\r\n".join([f"WARC/{version}", *lines, "", ""]).encode() + block + b"\r\n\r\n"


def http(kind: str, *fields: str) -> bytes:
    """The head of an HTTP response."""
    return "\r\n".join(["HTTP/1.1 200 OK", f"Content-Type: {kind}", *fields, "", ""]).encode()


def request(path: str) -> bytes:
    """An HTTP request."""
    return f"GET {path} HTTP/1.1\r\nHost: a.example\r\nUser-Agent: crawler\r\n\r\n".encode()


def warcinfo(version: str, software: str, digests: Fields) -> bytes:
    """The first record of a file."""
    block = f"software: {software}\r\nformat: WARC File Format {version}\r\n".encode()
    fields = [("WARC-Filename", "a.warc.gz"), ("Content-Type", "application/warc-fields"), *digests]
    return record(version, "warcinfo", FIRST, fields, block, software)


def heritrix() -> list[bytes]:
    """Heritrix 3: WARC/1.0, an address of the host's name, payload digests alone, metadata of each fetch."""
    address, picture = ("WARC-IP-Address", "192.0.2.1"), SITE + "sky.png"
    records = [warcinfo("1.0", "Heritrix/3.4.0 http://crawler.archive.org", [])]
    dns = [("WARC-Target-URI", "dns:a.example"), address, ("Content-Type", "text/dns")]
    records.append(record("1.0", "response", FIRST, dns, b"20240101000000\na.example.\t300\tIN\tA\t192.0.2.1\n", "dns"))
    for uri, kind, body in ((SITE, "text/html", PAGE), (picture, "image/png", PICTURE)):
        fields = [("WARC-Target-URI", uri), ("WARC-Payload-Digest", sha1_base32(body)), address]
        block = http(kind, f"Content-Length: {len(body)}") + body
        records.append(record("1.0", "response", FIRST, [*fields, ("Content-Type", HTTP + "response")], block, uri))
        own = [("WARC-Target-URI", uri), ("WARC-Concurrent-To", identity(uri))]
        asked = request("/" + uri[len(SITE) :])
        records.append(
            record("1.0", "request", FIRST, [*own, ("Content-Type", HTTP + "request")], asked, uri + " request")
        )
        facts = [*own, ("Content-Type", "application/warc-fields")]
        records.append(record("1.0", "metadata", FIRST, facts, b"fetchTimeMs: 12\r\n", uri + " metadata"))
    fields = [("WARC-Target-URI", picture), ("WARC-Payload-Digest", sha1_base32(PICTURE)), address]
    refers = [("WARC-Refers-To-Target-URI", picture), ("WARC-Refers-To-Date", FIRST), ("WARC-Truncated", "length")]
    fields += [("WARC-Profile", SAME.format("1.0")), *refers, ("Content-Type", HTTP + "response")]
    return [*records, record("1.0", "revisit", SECOND, fields, http("image/png"), "revisit")]


def warcprox() -> list[bytes]:
    """warcprox: WARC/1.0, SHA-1 in hexadecimal digits by default, bodies as the server sent them."""
    records, picture = [warcinfo("1.0", "warcprox 2.4", [])], SITE + "sky.png"
    packed = gzip.compress(PAGE, mtime=0)
    bodies = ((SITE, http("text/html", "Content-Encoding: gzip"), packed), (picture, http("image/png"), PICTURE))
    for uri, head, body in bodies:
        fields = [("WARC-Target-URI", uri), ("WARC-IP-Address", "192.0.2.1")]
        digests = [("WARC-Block-Digest", sha1_hex(head + body)), ("WARC-Payload-Digest", sha1_hex(body))]
        kind = ("Content-Type", "application/http;msgtype=response")
        records.append(record("1.0", "response", FIRST, [*fields, kind, *digests], head + body, uri))
    fields = [("WARC-Target-URI", picture), ("WARC-Profile", SAME.format("1.0"))]
    refers = [("WARC-Refers-To", identity(picture)), ("WARC-Refers-To-Target-URI", picture)]
    fields += [*refers, ("WARC-Refers-To-Date", FIRST), ("WARC-Payload-Digest", sha1_hex(PICTURE))]
    head = http("image/png")
    fields += [("WARC-Block-Digest", sha1_hex(head)), ("Content-Type", "application/http;msgtype=response")]
    return [*records, record("1.0", "revisit", SECOND, fields, head, "revisit")]


def browser() -> list[bytes]:
    """A crawler that drives a browser: WARC/1.1, SHA-256, fractions of seconds, bodies decoded, facts of the page."""

    def digests(block: bytes, body: bytes) -> Fields:
        return [("WARC-Payload-Digest", sha256_hex(body)), ("WARC-Block-Digest", sha256_hex(block))]

    first, picture = FIRST.replace("Z", ".123Z"), SITE + "sky.png"
    records = [warcinfo("1.1", "Browsertrix-Crawler 1.2.0 (with warcio.js 2.2.0)", [])]
    for uri, kind, body in ((SITE, "text/html", PAGE), (picture, "image/png", PICTURE)):
        block = http(kind, "x-orig-content-encoding: br", "x-orig-transfer-encoding: chunked") + body
        fields = [("WARC-Target-URI", uri), ("WARC-Protocol", "h2"), ("WARC-Protocol", "tls/1.3")]
        fields += [("WARC-Resource-Type", "document"), ("Content-Type", HTTP + "response"), *digests(block, body)]
        records.append(record("1.1", "response", first, fields, block, uri))
        asked = request("/")
        fields = [("WARC-Target-URI", uri), ("WARC-Concurrent-To", identity(uri))]
        fields += [("Content-Type", HTTP + "request"), *digests(asked, b"")]
        records.append(record("1.1", "request", first, fields, asked, uri + " request"))
    facts = b'{"urls":{"http://a.example/":{"status":200}},"counts":{"jsErrors":0}}'
    fields = [("WARC-Target-URI", "urn:pageinfo:" + SITE), ("Content-Type", "application/json")]
    records.append(record("1.1", "resource", first, [*fields, *digests(facts, facts)], facts, "pageinfo"))
    head = http("image/png")
    fields = [
        ("WARC-Target-URI", picture),
        ("WARC-Profile", SAME.format("1.1")),
        ("WARC-Refers-To-Target-URI", picture),
    ]
    fields += [("WARC-Refers-To-Date", first), ("Content-Type", HTTP + "response"), *digests(head, PICTURE)]
    return [*records, record("1.1", "revisit", SECOND, fields, head, "revisit")]


def warcio() -> list[bytes]:
    """warcio of Python, as pywb uses it: SHA-1 in base32 of block and payload, bodies as the server sent them."""
    records, picture = [warcinfo("1.1", "pywb 2.8", [])], SITE + "sky.png"
    chunked = b"%x\r\n%s\r\n0\r\n\r\n" % (len(PAGE), PAGE)
    bodies = ((SITE, http("text/html", "Transfer-Encoding: chunked"), chunked), (picture, http("image/png"), PICTURE))
    for uri, head, body in bodies:
        digests = [("WARC-Payload-Digest", sha1_base32(body)), ("WARC-Block-Digest", sha1_base32(head + body))]
        fields = [("WARC-Target-URI", uri), ("Content-Type", HTTP + "response"), *digests]
        records.append(record("1.1", "response", FIRST, fields, head + body, uri))
    head = http("image/png")
    fields = [
        ("WARC-Target-URI", picture),
        ("WARC-Profile", SAME.format("1.0")),
        ("WARC-Refers-To-Target-URI", picture),
    ]
    fields += [("WARC-Refers-To-Date", FIRST), ("Content-Type", HTTP + "response")]
    fields += [("WARC-Payload-Digest", sha1_base32(PICTURE)), ("WARC-Block-Digest", sha1_base32(head))]
    return [*records, record("1.1", "revisit", SECOND, fields, head, "revisit")]


def draft() -> list[bytes]:
    """A draft of the format, as crawlers wrote it before 2009."""
    return [it.replace(b"WARC/1.0", b"WARC/0.18") for it in heritrix()]


def packed(records: list[bytes]) -> bytes:
    """The records as a compressed archive: each a member of its own, as crawlers write them."""
    return b"".join(gzip.compress(it, mtime=0) for it in records)
