#!/usr/bin/env python3
"""Makes archives, good and damaged, and command lines over them. Each comes from a seed, and only from it.

    python3 tests/stress/generate.py SEED > a.warc      writes the archive; the command lines go to standard error
"""
import base64
import hashlib
import random
import re
import sys
import uuid
from typing import List, Tuple, Union

KINDS = ("warcinfo", "response", "resource", "request", "metadata", "revisit", "conversion", "continuation")
OTHER_FIELDS = (
    "WARC-Concurrent-To",
    "WARC-IP-Address",
    "WARC-Refers-To",
    "WARC-Refers-To-Target-URI",
    "WARC-Refers-To-Date",
    "WARC-Filename",
    "WARC-Profile",
    "WARC-Warcinfo-ID",
    "WARC-Segment-Number",
    "WARC-Segment-Origin-ID",
    "WARC-Segment-Total-Length",
    "WARC-Block-Digest",
    "WARC-Payload-Digest",
    "WARC-Truncated",
    "WARC-Identified-Payload-Type",
    "Content-Type",
    "WARC-Target-URI",
    "X-Other",
    "x",
)
DATES = (
    "2020",
    "2020-01",
    "2020-01-01",
    "2020-01-01T00:00Z",
    "2020-01-01T00:00:00Z",
    "2020-01-01T00:00:00.0Z",
    "2020-02-29",
    "2020-01-01T00:00:00.5Z",
    "2020-01-01T00:00:00.000000001Z",
    "2019-12-31T23:59:59.999999999Z",
    "0000",
    "9999",
    "2000-02-29",
    "2020-01-02T12:30:59.25Z",
)
BAD_DATES = (
    "2021-02-29",
    "1900-02-29",
    "2020-13",
    "2020-00",
    "2020-01-00",
    "2020-01-01T24:00:00Z",
    "2020-01-01T00:00:60Z",
    "2020-01-01T00:00:00+00:00",
    "2020-01-01T00:00:00.1234567890Z",
    "2020-01-01T00:00:00",
    "2020-01-01T00:00:00.Z",
    "2020-01-01t00:00:00Z",
    "2020-1-1",
    "20200101",
    "",
    "2020 ",
    "2020-01-01T00Z",
    "-2020",
    "2020Z",
    "99999",
    "2020-01-01T00:60Z",
    "2020-04-31",
)
TARGETS = (
    "http://a.example/x",
    "http://a.example/y",
    "https://a.example/x",
    "HTTP://a.example/x",
    "ftp://a.example/",
    "urn:x",
    "http:",
    "a b",
    "a\tb",
    "-",
    "--help",
    "<<x>>",
    "\u00fc",
    "http://a.example/x?<",
)
PROFILES = (
    "http://netpreserve.org/warc/1.1/revisit/identical-payload-digest",
    "http://netpreserve.org/warc/1.1/revisit/server-not-modified",
    "http://netpreserve.org/warc/1.0/revisit/identical-payload-digest",
    "http://netpreserve.org/warc/1.0/revisit/server-not-modified",
)
BAD_PROFILES = (
    "",
    "<>",
    "http://netpreserve.org/warc/1.2/revisit/server-not-modified",
    "x",
    "HTTP://netpreserve.org/warc/1.1/revisit/server-not-modified",
)
NUMBERS = (
    "0",
    "1",
    "2",
    "3",
    "4",
    "01",
    "002",
    "281474976710656",
    "281474976710657",
    "-1",
    "+1",
    "x",
    "",
    "1 2",
    " 2 ",
    "9" * 30,
    "0" * 40 + "2",
)
ODD_VALUES = (
    b"",
    b"x",
    b"<x>",
    b"< x >",
    b"<>",
    b"\xff",
    b"a\xc3\xbcb",
    b"\xed\xa0\x80",
    b"a:b",
    b"a\tb",
    b"=?x?q?y?=",
    b'"x"',
    b"<a><b>",
    b"<",
    b">",
    b"<a",
    b"a>",
)
ODD_IDS = ("x", "<x>", "< x >", "urn:uuid:x", "<urn:uuid:00000000000040008000000000000001>", "http://a.example/id", "X")
BAD_IDS = ("", "<>", "<<x>>", "a b", "< a b >", "<a", "a>", "\t")

Fields = List[Tuple[str, Union[str, bytes]]]
Line = Tuple[str, ...]


def yes(chance: random.Random, one_in: int) -> bool:
    """True once in `one_in` times."""
    return chance.randrange(one_in) == 0


def sha1_text(block: bytes) -> str:
    return "sha1:" + base64.b32encode(hashlib.sha1(block).digest()).decode()


def random_case(chance: random.Random, text: str) -> str:
    return "".join(chance.choice((letter.lower(), letter.upper())) for letter in text)


def some_id(chance: random.Random) -> str:
    """One of a few ids, so that several records share one, in one of several spellings."""
    if yes(chance, 12):
        return chance.choice(ODD_IDS)
    text = "urn:uuid:" + str(uuid.UUID(int=(4 << 76) + (8 << 60) + chance.randrange(1, 9) * 0xABCDEF))
    if yes(chance, 6):
        text = random_case(chance, text)
    return chance.choice(("<%s>", "<%s>", "<%s>", "%s", "< %s >", "<%s\t>")) % text


def some_target(chance: random.Random) -> str:
    text = chance.choice(TARGETS) if yes(chance, 4) else TARGETS[chance.randrange(3)]
    return chance.choice(("%s", "%s", "%s", "<%s>", "< %s >")) % text


def some_date(chance: random.Random) -> str:
    return chance.choice(DATES)


def other_digest(chance: random.Random, block: bytes) -> str:
    """A digest of any algorithm, in hexadecimal or in base32, whose padding may be wrong."""
    names = ("md5", "sha1", "sha-1", "sha256", "SHA-256", "sha384", "sha-384", "sha512", "Sha-512", "sha224")
    name = chance.choice(names)
    digest = hashlib.new(name.lower().replace("-", ""), block).digest()
    if yes(chance, 2):
        return "%s:%s" % (name, random_case(chance, digest.hex()))
    text = base64.b32encode(digest).decode().rstrip("=")
    padding = chance.choice((0, 0, -len(text) % 8, -len(text) % 8, 1, 8))
    return "%s:%s" % (name, random_case(chance, text) + "=" * padding)


def some_digest(chance: random.Random, block: bytes) -> str:
    """A block digest: good, bad, of another kind, or none that can be checked."""
    good = sha1_text(block)
    return chance.choice(
        (
            good,
            good,
            good,
            good.lower(),
            random_case(chance, good),
            sha1_text(block + b"x"),
            good[:-1],
            good + "A",
            "",
            "sha1:",
            other_digest(chance, block),
            other_digest(chance, block),
            other_digest(chance, block)[:-1],
            other_digest(chance, block + b"x"),
            "sha1: " + good[5:],
            good + "\tx",
            "md5:x",
            "<%s>" % good,
            good[:-1] + "1",
        )
    )


def body_in(block: bytes) -> bytes:
    """What follows the first empty line of a block, or all of it."""
    found = re.search(rb"\n\r?\n", block)
    return block[found.end() :] if found else block


def some_payload_digest(chance: random.Random, block: bytes) -> str:
    """A payload digest: good, bad, of another kind, of the whole block, or one that several records share."""
    if yes(chance, 2):
        return chance.choice(("sha1:A", "sha1:a", "sha1:B", ""))
    data = chance.choice((body_in(block), body_in(block), body_in(block), block, body_in(block) + b"x"))
    return sha1_text(data) if yes(chance, 2) else other_digest(chance, data)


# Blocks


def plain_block(chance: random.Random) -> bytes:
    return chance.choice(
        (b"", b"abc", b"\r\n\r\n", b"WARC/1.1\r\n", b"\0" * 9, b"x" * chance.randrange(300), b"a\nb\r\n")
    )


GOOD_FIELDS = (
    b"Content-Type: text/html",
    b"content-TYPE: Text/HTML; a=b",
    b"Content-Type: text",
    b"A:",
    b"a:b",
    b"A: \tb \t",
    b"A: \xff",
    b"A: b:c",
    b"a!#$%&'*+-.^_`|~9: x",
    b"Content-Length: 3",
    b"Content-Encoding: identity",
    b"Transfer-Encoding:",
    b"Content-Encoding: \tIdentity ",
)
CODED_FIELDS = (
    b"Transfer-Encoding: chunked",
    b"TRANSFER-encoding:\tgzip, chunked \t",
    b"Transfer-Encoding: x",
    b"content-ENCODING: gzip",
    b"Content-Encoding: identity, gzip",
    b"Content-Encoding:\xff",
)
BAD_FIELDS = (
    b" a: b",
    b"a : b",
    b": b",
    b"a",
    b"a\x01: b",
    b"a: b\x01c",
    b"a: b\x7f",
    b"a: b\rc",
    b"a(b: c",
    b"\xffa: b",
    b"a: b\r\n c",
    b"a: b\0",
    b"a: b\r",
)


def http_fields(chance: random.Random) -> List[bytes]:
    """Field lines of an HTTP head, good and bad."""
    lines = [chance.choice(GOOD_FIELDS) for _ in range(chance.randrange(5))]
    if yes(chance, 6):
        lines.insert(chance.randrange(len(lines) + 1), chance.choice(CODED_FIELDS))
    if yes(chance, 6):
        lines.insert(chance.randrange(len(lines) + 1), chance.choice(BAD_FIELDS))
    if yes(chance, 60):
        lines = [b"a: b"] * chance.choice((255, 256, 257, 300))
    if yes(chance, 120):
        lines.append(b"a:" + b"x" * chance.randrange(65480, 65540))
    return lines


def http_block(chance: random.Random) -> bytes:
    good = (b"HTTP/1.1 200 OK", b"HTTP/1.0 404 Not Found", b"HTTP/1.1 007 ", b"HTTP/1.1 304", b"HTTP/1.1 200 \xff\t")
    bad = (
        b"HTTP/2 200 OK",
        b"HTTP/1.2 200 OK",
        b"http/1.1 200 OK",
        b"HTTP/1.1  200 OK",
        b"HTTP/1.1 20 OK",
        b"ICY 200 OK",
        b"HTTP/1.1 2000",
        b"HTTP/1.1 200\tOK",
        b"HTTP/1.1 200 O\x01K",
        b" HTTP/1.1 200 OK",
        b"HTTP/1.1 200 a\rb",
        b"HTTP/1.1 ",
        b"HTTP/1.1 2x0 OK",
        b"GET / HTTP/1.1",
        b"HTTP/1.1 200 \x7f",
        b"HTTP/1.1 200  two",
        b"\r",
        b"",
    )
    line_end = chance.choice((b"\r\n", b"\r\n", b"\r\n", b"\n"))
    lines = [chance.choice(bad) if yes(chance, 8) else chance.choice(good)] + http_fields(chance)
    text = chance.choice((b"", b"", b"", b"\r\n", b"\n\n")) + line_end.join(lines) + line_end
    if yes(chance, 10):
        text = text.replace(line_end, chance.choice((b"\r\n", b"\n", b"\r")), 1)
    if not yes(chance, 12):
        text += chance.choice((b"\r\n", line_end))
    return text + plain_block(chance)


# Records


def spelled_value(chance: random.Random, value: bytes) -> bytes:
    """A value with spaces around it and folds in place of some single spaces."""
    if yes(chance, 5) and b" " in value:
        value = value.replace(b" ", chance.choice((b"\r\n ", b"\r\n\t ", b"\r\n \t\t")), 1)
    return (
        chance.choice((b" ", b" ", b" ", b"", b"\t", b"  ", b"\r\n ", b" \r\n\t"))
        + value
        + chance.choice((b"", b"", b"", b" ", b"\t", b"\r\n ", b"\r\n \r\n\t"))
    )


def spelled(chance: random.Random, fields: Fields, is_plain: bool) -> bytes:
    """The lines of fields."""
    lines = []
    for name, value in fields:
        name = name if is_plain or not yes(chance, 6) else random_case(chance, name)
        value = value if isinstance(value, bytes) else value.encode("utf-8")
        rest = b" " + value if is_plain else spelled_value(chance, value)
        lines.append(name.encode() + b":" + rest + b"\r\n")
    return b"".join(lines)


def revisit_fields(chance: random.Random) -> Fields:
    """The fields by which a revisit names its referent: an id, a pair, both, or nothing."""
    profile = chance.choice(BAD_PROFILES) if yes(chance, 8) else chance.choice(PROFILES)
    fields: Fields = [("WARC-Profile", chance.choice(("%s", "%s", "<%s>")) % profile)] if not yes(chance, 20) else []
    way = chance.randrange(6)
    if way in (0, 1, 3):
        fields.append(("WARC-Refers-To", chance.choice(BAD_IDS) if yes(chance, 8) else some_id(chance)))
    if way in (2, 3):
        fields.append(("WARC-Refers-To-Target-URI", some_target(chance)))
        fields.append(("WARC-Refers-To-Date", chance.choice(BAD_DATES) if yes(chance, 8) else some_date(chance)))
    return fields


def continuation_fields(chance: random.Random) -> Fields:
    fields: Fields = [
        ("WARC-Segment-Origin-ID", chance.choice(BAD_IDS) if yes(chance, 10) else some_id(chance)),
        ("WARC-Segment-Number", chance.choice(NUMBERS)),
    ]
    if yes(chance, 3):
        fields.append(("WARC-Segment-Total-Length", chance.choice(NUMBERS)))
    return fields


def odd_fields(chance: random.Random, fields: Fields) -> None:
    """Adds fields that don't belong there, repeated ones and odd values."""
    while yes(chance, 3):
        name = chance.choice(OTHER_FIELDS)
        values: Tuple[Union[str, bytes], ...] = (
            chance.choice(ODD_VALUES),
            some_id(chance),
            some_target(chance),
            some_date(chance),
            chance.choice(NUMBERS),
        )
        value = chance.choice(values)
        fields.insert(chance.randrange(len(fields) + 1), (name, value))


def break_field(chance: random.Random, fields: Fields) -> None:
    """Makes one of the four fields of every record wrong, missing or repeated."""
    place = chance.randrange(len(fields))
    name = fields[place][0]
    bad = {
        "Content-Length": NUMBERS + ("1099511627776", "1099511627777"),
        "WARC-Record-ID": BAD_IDS,
        "WARC-Date": BAD_DATES,
        "WARC-Type": ("", "a b", "<response>", "re:x"),
    }.get(name, ("", "x"))
    way = chance.randrange(4)
    if way == 0:
        del fields[place]
    elif way == 1:
        fields.insert(chance.randrange(len(fields) + 1), fields[place])
    else:
        fields[place] = (name, chance.choice(bad))


def some_kind(chance: random.Random) -> str:
    if yes(chance, 15):
        return chance.choice(("other", "Response", "REVISIT", "warc-info", "x!"))
    return chance.choice(KINDS + ("response", "response", "response", "resource", "revisit", "revisit"))


def common_fields(chance: random.Random, kind: str, block: bytes) -> Fields:
    fields: Fields = [
        ("WARC-Type", random_case(chance, kind) if yes(chance, 12) else kind),
        ("WARC-Record-ID", some_id(chance)),
        ("WARC-Date", some_date(chance)),
    ]
    if kind != "warcinfo" and not yes(chance, 20):
        fields.append(("WARC-Target-URI", some_target(chance)))
    if not yes(chance, 5):
        fields.append(("Content-Type", chance.choice(("text/plain", "text/plain", "a/b;c", "text", "a//b"))))
    if not yes(chance, 4):
        fields.append(("WARC-Block-Digest", sha1_text(block) if not yes(chance, 3) else some_digest(chance, block)))
    if yes(chance, 2):
        fields.append(("WARC-Payload-Digest", some_payload_digest(chance, block)))
    if yes(chance, 10):
        fields.append(("WARC-Truncated", chance.choice(("length", "", "x"))))
    return fields


def assembled(chance: random.Random, fields: Fields, block: bytes, is_plain: bool = False) -> bytes:
    """A record as text: version line, fields, block."""
    fields = fields + [("Content-Length", "0" * chance.choice((0, 0, 0, 1, 30)) + str(len(block)))]
    if not is_plain and yes(chance, 3):
        chance.shuffle(fields)
    if yes(chance, 120):
        break_field(chance, fields)
    if yes(chance, 400):
        fields.append(("X-Long", "x" * chance.randrange(65000, 65400)))
    version = chance.choice((b"WARC/1.0\r\n", b"WARC/1.1\r\n"))
    return version + spelled(chance, fields, is_plain) + b"\r\n" + block + b"\r\n\r\n"


def record(chance: random.Random) -> bytes:
    kind = some_kind(chance)
    is_http = kind.lower() == "response" and not yes(chance, 6)
    block = http_block(chance) if is_http else plain_block(chance)
    fields = common_fields(chance, kind, block)
    if kind.lower() == "revisit":
        fields += revisit_fields(chance)
    if kind == "continuation":
        fields += continuation_fields(chance)
    if yes(chance, 4):
        odd_fields(chance, fields)
    return assembled(chance, fields, block, yes(chance, 2))


def segments(chance: random.Random) -> List[bytes]:
    """A record in segments, mostly whole, with one of them lost, doubled or changed now and then."""
    block = http_block(chance)
    size = chance.randrange(1, max(2, len(block)))
    parts = [block[start : start + size] for start in range(0, len(block), size)][:6]
    total = sum(len(part) for part in parts) + (chance.randrange(-1, 2) if yes(chance, 8) else 0)
    name = some_id(chance) if yes(chance, 2) else "<urn:uuid:%s>" % uuid.UUID(int=chance.getrandbits(128))
    texts = []
    for number, part in enumerate(parts, 1):
        kind = "continuation" if number > 1 else chance.choice(("response", "response", "resource"))
        fields = common_fields(chance, kind, part)
        fields = [field for field in fields if field[0] != "WARC-Record-ID"]
        fields.append(("WARC-Record-ID", name if number == 1 else some_id(chance)))
        fields.append(("WARC-Segment-Number", str(number)))
        if number > 1:
            fields.append(("WARC-Segment-Origin-ID", name))
        if number == len(parts) or yes(chance, 12):
            fields.append(("WARC-Segment-Total-Length", str(total)))
        texts.append(assembled(chance, fields, part))
    if yes(chance, 6):
        del texts[chance.randrange(len(texts))]
    if texts and yes(chance, 8):
        texts.append(chance.choice(texts))
    return texts


def chain(chance: random.Random) -> List[bytes]:
    """Revisits that name one another by id, from a record or in a loop, mostly with the digest of that record's
    payload."""
    count = chance.randrange(1, 7)
    names = ["<urn:uuid:%s>" % uuid.UUID(int=chance.getrandbits(128)) for _ in range(count)]
    texts = []
    kind, content = chance.choice((("resource", plain_block(chance)), ("response", http_block(chance))))
    for place, name in enumerate(names):
        is_first = place == 0 and not yes(chance, 3)
        block = content if is_first else plain_block(chance)
        dropped = ["WARC-Record-ID"] + ["WARC-Payload-Digest"] * chance.randrange(2)
        fields = [
            field for field in common_fields(chance, kind if is_first else "revisit", block) if field[0] not in dropped
        ]
        fields.append(("WARC-Record-ID", name))
        if len(dropped) > 1:
            fields.append(("WARC-Payload-Digest", some_payload_digest(chance, content)))
        if not is_first:
            fields += [("WARC-Profile", PROFILES[0]), ("WARC-Refers-To", names[place - 1])]
        texts.append(assembled(chance, fields, block))
    return texts


def good_archive(chance: random.Random) -> bytes:
    """Records in any order. Some of its fields may be wrong all the same."""
    texts = [record(chance) for _ in range(chance.choice((0, 1, 1, 2, 3, 5, 8, 13)))]
    if yes(chance, 2):
        texts += segments(chance)
    if yes(chance, 4):
        texts += chain(chance)
    chance.shuffle(texts)
    return b"".join(texts)


# Damage


def cut(chance: random.Random, data: bytes) -> bytes:
    return data[: chance.randrange(len(data) + 1)]


def change_byte(chance: random.Random, data: bytes) -> bytes:
    place = chance.randrange(len(data))
    byte = chance.choice((0, 9, 10, 13, 32, 58, 127, 255, chance.randrange(256)))
    return data[:place] + bytes((byte,)) + data[place + 1 :]


def change_line(chance: random.Random, data: bytes) -> bytes:
    """A line removed, doubled or moved."""
    lines = data.split(b"\r\n")
    place = chance.randrange(len(lines))
    line = lines[place]
    way = chance.randrange(3)
    if way != 0:
        lines.insert(chance.randrange(len(lines)) if way == 2 else place, line)
    if way != 1:
        del lines[place if lines[place] == line else place + 1]
    return b"\r\n".join(lines)


def change_length(chance: random.Random, data: bytes) -> bytes:
    head, found, rest = data.partition(b"Content-Length: ")
    length, _, rest = rest.partition(b"\r\n")
    if not found or not length.isdigit():
        return data
    changed = max(0, int(length) + chance.choice((-3, -2, -1, 1, 2, 3, 4, 100)))
    return head + found + str(changed).encode() + b"\r\n" + rest


def to_line_feed(chance: random.Random, data: bytes) -> bytes:
    if yes(chance, 2):
        return data.replace(b"\r\n", b"\n")
    place = data.find(b"\r\n", chance.randrange(len(data)))
    return data if place < 0 else data[:place] + chance.choice((b"\n", b"\r", b"\n\r")) + data[place + 2 :]


def fill_with_zeros(chance: random.Random, data: bytes) -> bytes:
    start = chance.randrange(len(data))
    return data[:start] + b"\0" * (len(data) - start)


def insert_bytes(chance: random.Random, data: bytes) -> bytes:
    place = chance.randrange(len(data) + 1)
    return (
        data[:place]
        + chance.choice(
            (
                b"\r\n",
                b"\r\n\r\n",
                b" ",
                b"\t",
                b"\0",
                b"\xef\xbb\xbf",
                b"WARC/1.1\r\n",
                b":",
                b"\x1f\x8b\x08",
                b"\r\n ",
                b"\r",
                b"\n",
            )
        )
        + data[place:]
    )


def drop_bytes(chance: random.Random, data: bytes) -> bytes:
    start = chance.randrange(len(data))
    return data[:start] + data[start + chance.choice((1, 2, 4, 10, 50)) :]


def append_bytes(chance: random.Random, data: bytes) -> bytes:
    return data + chance.choice(
        (
            b"\r\n",
            b"W",
            b"WARC/1.1",
            b"WARC/1.1\r\n",
            b"WARC/1.2\r\n",
            b"\0" * 20,
            b"WARC/1.0\r\nA: b\r\n",
            b"WARC/1.1\r\n\r\n",
            b"WARC/1.1\r\nx\r\n",
            b"WARC/1.1\r\n" + b"x" * 66000,
            b"WARC/1.1\r\na:" + b"x" * 65520 + b"\r\n\r\n",
            b"WARC/0.18\r\n",
        )
    )


DAMAGE = (
    cut,
    change_byte,
    change_line,
    change_length,
    to_line_feed,
    fill_with_zeros,
    insert_bytes,
    drop_bytes,
    append_bytes,
)


def archive(seed: int) -> bytes:
    """The archive of a seed: one in three was damaged."""
    chance = random.Random(seed)
    data = good_archive(chance)
    if yes(chance, 3):
        for _ in range(chance.choice((1, 1, 2))):
            if data:
                data = chance.choice(DAMAGE)(chance, data)
    return data


# Command lines


def asked_id(chance: random.Random, data: bytes) -> str:
    """An id to extract: mostly one of the archive."""
    found: List[bytes] = re.findall(rb"urn:uuid:[0-9a-f-]{36}", data)
    if found and not yes(chance, 3):
        return chance.choice(("%s", "<%s>")) % chance.choice(found).decode()
    return chance.choice(BAD_IDS) if yes(chance, 8) else some_id(chance)


def asked_target(chance: random.Random) -> str:
    if yes(chance, 3):
        return chance.choice(TARGETS)
    return some_target(chance) if yes(chance, 20) else TARGETS[chance.randrange(3)]


def in_hex(chance: random.Random, line: Line) -> Line:
    """The line with its target as hexadecimal digits, now and then wrong ones."""
    digits = line[1].encode("utf-8").hex()
    if yes(chance, 10):
        digits = chance.choice((digits[1:], digits + "0", digits + "0g", "x"))
    return (line[0], digits.upper() if yes(chance, 3) else digits) + line[2:] + ("--uri-hex",)


def pointed_command(chance: random.Random, data: bytes) -> Line:
    """A command with a position, an id, or a target, mostly with a date."""
    command = chance.choice(
        ("extract", "head", "block", "body", "body", "body", "replay", "replay", "replay", "captures")
    )
    if command == "extract":
        return (command, asked_id(chance, data))
    if command == "captures":
        line: Line = (command, asked_target(chance))
        return in_hex(chance, line) if yes(chance, 4) else line
    if command == "replay":
        date = chance.choice(BAD_DATES) if yes(chance, 40) else chance.choice(DATES + ("9999",) * 20)
        line = (command, asked_target(chance), date)
        return in_hex(chance, line) if yes(chance, 8) else line
    count = data.count(b"WARC/1.") + 1
    line = (command, chance.choice(NUMBERS) if yes(chance, 25) else str(chance.randrange(count)))
    return line + ("--stored",) if command == "body" and yes(chance, 3) else line


SURVEYED = ("list", "fixity", "check", "summary", "captures")
WHOLE = (*SURVEYED, "fixity --payload", "salvage", "rewrite", "convert", "survey")
FLAGS = ("--stored", "--uri-hex", "--payload")


def command_lines(seed: int, data: bytes) -> List[Line]:
    """The fourteen command lines to run over the archive of a seed, without the name of the archive."""
    chance = random.Random("commands %d" % seed)
    return [tuple(line.split()) for line in WHOLE] + [pointed_command(chance, data) for _ in range(4)]


def main(seed: int) -> None:
    data = archive(seed)
    sys.stdout.buffer.write(data)
    for line in command_lines(seed, data):
        print(line, file=sys.stderr)


if __name__ == "__main__":
    main(int(sys.argv[1]))
