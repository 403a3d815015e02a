#!/usr/bin/env python3
"""Archives that hypothesis makes: C, Python and Rust read equal heads of them, and bodies as the program gives them.

Usage: generated.py WARC C_REPORT RUST_REPORT FOLDER

CALLERS_EXAMPLES is the number of archives, 2,000 if it is left out. What compare.py says of one archive is asserted of
each. The archives have folded and repeated fields, odd names and values, heads of HTTP that are none, codings,
segments, and digests of blocks and payloads of any kind.
"""
import base64
import hashlib
import os
import sys
from typing import List, Tuple

from hypothesis import HealthCheck, Phase, given, settings, strategies as some

from compare import differences

WARC, C_REPORT, RUST_REPORT, FOLDER = sys.argv[1:]
COUNT = int(os.environ.get("CALLERS_EXAMPLES", "2000"))

TOKEN = some.text("abcXYZ-_.~!#0189", min_size=1, max_size=12)
CLEAN = some.text(
    some.one_of(
        some.characters(min_codepoint=32, max_codepoint=126),
        some.characters(min_codepoint=0x80, blacklist_categories=["Cs"]),
    ),
    max_size=30,
)
FOLDED = some.lists(CLEAN, min_size=1, max_size=3).map("\r\n \t".join)
FIELDS = some.lists(some.tuples(TOKEN, some.one_of(CLEAN, FOLDED)), max_size=6)
KINDS = some.sampled_from(
    ["response", "response", "response", "resource", "request", "revisit", "metadata", "warcinfo", "RESPONSE", "odd"]
)
BODIES = some.one_of(some.binary(max_size=60), some.sampled_from([b"3\r\nabc\r\n0\r\n\r\n", b"\r\n\r\n", b""]))
HTTP_FIELDS = some.lists(
    some.one_of(
        some.tuples(TOKEN, CLEAN),
        some.sampled_from([("Transfer-Encoding", "chunked"), ("content-encoding", "gzip"), ("Content-Length", "3")]),
    ),
    max_size=5,
)
STATUSES = some.sampled_from(
    [
        "HTTP/1.1 200 OK",
        "HTTP/1.0 404",
        "HTTP/1.1 204 ",
        "HTTP/1.1 007 x y",
        "HTTP/2 200 OK",
        "HTTP/1.1 20 OK",
        "GET / HTTP/1.1",
    ]
)
ENDS = some.sampled_from(["\r\n", "\r\n", "\r\n", "\n"])


@some.composite
def blocks(draw: some.DrawFn) -> bytes:
    """A block: an HTTP message, or any bytes."""
    if draw(some.integers(0, 4)) == 0:
        return draw(BODIES)
    end = draw(ENDS)
    lines = [draw(STATUSES)] + [
        f"{name}:{draw(some.sampled_from(['', ' ', ' ']))}{value}" for name, value in draw(HTTP_FIELDS)
    ]
    return (end.join(lines) + end + end).encode() + draw(BODIES)


@some.composite
def digests(draw: some.DrawFn, block: bytes) -> List[Tuple[str, str]]:
    """Fields with digests of a block and of its payload: right, wrong, of another part, or of no known algorithm."""
    parts = (block, block.partition(b"\r\n\r\n")[2], b"abc", b"")
    fields = []
    for name in draw(some.lists(some.sampled_from(["Block", "Payload", "payload"]), max_size=3)):
        algorithm = draw(some.sampled_from(["md5", "sha1", "sha256", "sha384", "sha512"]))
        digest = hashlib.new(algorithm, draw(some.sampled_from(parts))).digest()
        text = draw(some.sampled_from([digest.hex(), base64.b32encode(digest).decode(), "", digest.hex()[1:]]))
        label = draw(some.sampled_from([algorithm, algorithm, algorithm.upper(), "crc32"]))
        fields.append((f"WARC-{name}-Digest", f"{label}:{text}" if draw(some.integers(0, 5)) else ""))
    return fields


@some.composite
def records(draw: some.DrawFn, number: int) -> bytes:
    """A record of an archive. It may name an earlier one."""
    block, kind = draw(blocks()), draw(KINDS)
    front = [("WARC-Type", kind), ("WARC-Record-ID", f"<urn:uuid:00000000-0000-4000-8000-{number:012}>")]
    front += [("WARC-Date", draw(some.sampled_from(["2020-01-01T00:00:00Z", "2020", "2021-02-03T04:05:06.789Z"])))]
    front += [
        (
            "WARC-Target-URI",
            draw(some.sampled_from(["http://a.example/x", "http://a.example/y", "<http://a.example/x>"])),
        )
    ]
    if draw(some.booleans()):
        front.append(("WARC-Refers-To", f"<urn:uuid:00000000-0000-4000-8000-{draw(some.integers(0, number)):012}>"))
    if kind == "revisit" and draw(some.booleans()):
        front.append(("WARC-Profile", "http://netpreserve.org/warc/1.1/revisit/identical-payload-digest"))
    if draw(some.integers(0, 9)) == 0:
        front.append(("WARC-Segment-Number", draw(some.sampled_from(["1", "2", ""]))))
    fields = front + [("Content-Length", str(len(block)))] + draw(digests(block)) + draw(FIELDS)
    fields = draw(some.permutations(fields))
    text = "".join(f"{name}:{draw(some.sampled_from(['', ' ', '  ']))}{value}\r\n" for name, value in fields)
    version = draw(some.sampled_from(["WARC/1.1", "WARC/1.0"]))
    return f"{version}\r\n{text}\r\n".encode() + block + b"\r\n\r\n"


@some.composite
def archives(draw: some.DrawFn) -> bytes:
    """An archive of a few records."""
    return b"".join(draw(records(number)) for number in range(draw(some.integers(1, 3))))


@settings(
    max_examples=COUNT,
    deadline=None,
    database=None,
    derandomize=True,
    suppress_health_check=list(HealthCheck),
    phases=[Phase.generate],
)
@given(archives())
def callers_agree(text: bytes) -> None:
    """Nothing differs."""
    global OPENED
    path = f"{FOLDER}/generated.warc"
    with open(path, "wb") as file:
        file.write(text)
    assert differences(WARC, C_REPORT, RUST_REPORT, path) == 0, text
    OPENED += 1


OPENED = 0
callers_agree()
print(f"{OPENED} archives of hypothesis, no difference")
