"""Undoes the codings of stored HTTP bodies, one by one, by zlib, and by modules for brotli and zstd where they are.

No part of this is proved. Which codings a body has is read of the fields that the library gives: those of each
`Transfer-Encoding` and then of each `Content-Encoding`, the last one first. tests/callers/codings.json has its rules as
cases.
"""
import importlib
import io
import re
import zlib
from typing import Any, Callable, Dict, Iterable, List, Sequence, Tuple

from ._members import GZIP, Damaged, Form, Members, zstd
from ._problems import Undecodable

# The fields that name codings, in the order in which these are undone.
TRANSFER, CONTENT = "transfer-encoding", "content-encoding"
MOST_CODINGS = 8
DECODED_LIMIT = 1 << 30
PIECE = 1 << 14
ZSTD_WINDOW_LOG = 23  # 8 MiB, the most that RFC 9659 allows
CHUNK_LINE = re.compile(rb"([0-9A-Fa-f]{1,15})[ \t]*(?:;[^\n]*)?\r?\n")
CHUNK_END = re.compile(rb"\r?\n")


def codings_of(fields: Iterable[Tuple[str, str]], names: Sequence[str] = (TRANSFER, CONTENT)) -> List[str]:
    """The codings that the fields of an HTTP head name, in lower case, in the order in which they are undone: those of
    the fields with these names."""
    found: Dict[str, List[str]] = {name: [] for name in names}
    for name, value in fields:
        if name.lower() in found:
            found[name.lower()] += [word.strip(" \t").lower() for word in value.split(",")]
    words = [word for name in names for word in reversed(found[name])]
    return [word for word in words if word not in ("", "identity")]


def decode(stored: memoryview, codings: List[str], limit: int = DECODED_LIMIT) -> bytes:
    """The bytes of a stored body, its codings undone in this order. Undecodable if one of them can't be."""
    if len(codings) > MOST_CODINGS:
        raise Undecodable(f"the body has {len(codings)} codings, more than {MOST_CODINGS}", codings[MOST_CODINGS])
    body = stored
    for coding in codings:
        undo = CODINGS.get(coding)
        if undo is None:
            raise Undecodable(f"the coding {coding} is unknown", coding)
        body = memoryview(undo(body, _Taken(coding, limit)))
    return bytes(body)


class _Taken:
    """What one step gives, up to the limit."""

    def __init__(self, coding: str, limit: int) -> None:
        self.coding = coding
        self.limit = limit
        self.length = 0
        self._out = io.BytesIO()  # a list of parts would take more memory than many small ones hold

    @property
    def room(self) -> int:
        """How many bytes may be asked for: one more than there may be."""
        return min(PIECE, self.limit - self.length + 1)

    def add(self, part: bytes) -> None:
        """Adds what came out."""
        self.length += len(part)
        if self.length > self.limit:
            raise Undecodable(f"the body has more than {self.limit} bytes when {self.coding} is undone", self.coding)
        self._out.write(part)

    def whole(self) -> bytes:
        """All that was added."""
        return self._out.getvalue()

    def fail(self, why: object) -> Undecodable:
        """The exception for damaged bytes."""
        return Undecodable(f"the body isn't {self.coding}: {why}", self.coding)


def _unchunk(body: memoryview, taken: _Taken) -> bytes:
    """The data of the chunks up to the last one, whose length is 0. What follows that is left out."""
    data, at = bytes(body), 0
    while True:
        line = CHUNK_LINE.match(data, at)
        if line is None:
            raise taken.fail("a chunk's length is missing")
        begin, size = line.end(), int(line[1], 16)
        if size == 0:
            return taken.whole()
        end = CHUNK_END.match(data, begin + size)
        if end is None:
            raise taken.fail("a chunk isn't whole")
        taken.add(data[begin : begin + size])
        at = end.end()


def _inflate(body: memoryview, at: int, taken: _Taken, bits: int) -> int:
    """Takes what one stream of zlib gives that begins at a place, and answers the place after it."""
    stream, rest = zlib.decompressobj(bits), b""
    while not stream.eof:
        if not rest:
            rest = bytes(body[at : at + PIECE])
            at += len(rest)
        is_last = not rest
        part = stream.decompress(rest, taken.room)
        taken.add(part)
        rest = stream.unconsumed_tail
        if is_last and not part and not stream.eof:
            raise taken.fail("it isn't whole")
    return at - len(stream.unused_data)


def _undo_members(body: memoryview, form: Form, taken: _Taken) -> bytes:
    """What members give, one after another."""
    try:
        for piece in Members(iter((body,)), form):
            taken.add(piece)
    except Damaged as damaged:
        raise taken.fail(damaged.why) from damaged.why
    return taken.whole()


def _gunzip(body: memoryview, taken: _Taken) -> bytes:
    """Members of gzip."""
    return _undo_members(body, GZIP, taken)


def _deflated(body: memoryview, taken: _Taken) -> bytes:
    """A zlib stream, or a bare one, which some servers send."""
    is_zlib = len(body) > 1 and body[0] & 15 == 8 and (body[0] << 8 | body[1]) % 31 == 0
    try:
        if _inflate(body, 0, taken, zlib.MAX_WBITS if is_zlib else -zlib.MAX_WBITS) != len(body):
            raise taken.fail("bytes follow it")
    except zlib.error as error:
        raise taken.fail(error) from error
    return taken.whole()


def _lacking(name: str, taken: _Taken) -> Undecodable:
    """The exception for a module that isn't installed."""
    return Undecodable(f"the coding {taken.coding} needs the module {name}, which isn't installed", taken.coding)


def _brotli(body: memoryview, taken: _Taken) -> bytes:
    """A brotli stream. It is fed a few bytes at a time, since the module has no limit on what these become."""
    try:
        module = importlib.import_module("brotli")
    except ImportError as error:
        raise _lacking("brotli", taken) from error
    stream, data = module.Decompressor(), bytes(body)
    try:
        for at in range(0, len(data), 16):
            taken.add(stream.process(data[at : at + 16]))
        if not stream.is_finished():
            raise taken.fail("it isn't whole")
    except module.error as error:
        raise taken.fail(error) from error
    return taken.whole()


def _zstandard(body: memoryview, taken: _Taken) -> bytes:
    """Frames of Zstandard."""
    try:
        form = zstd(ZSTD_WINDOW_LOG)
    except ImportError as error:
        raise _lacking("zstandard", taken) from error
    return _undo_members(body, form, taken) if body else b""


CODINGS: Dict[str, Callable[[memoryview, _Taken], bytes]] = {
    "chunked": _unchunk,
    "gzip": _gunzip,
    "x-gzip": _gunzip,
    "deflate": _deflated,
    "br": _brotli,
    "zstd": _zstandard,
}
