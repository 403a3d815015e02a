"""Bodies on their way out. Nothing that sends one keeps an archive open: a long body is read from its file again, or
from a file without a name that holds it alone."""
from __future__ import annotations

import dataclasses
import hashlib
import io
import os
import re
import tempfile
from typing import Callable, Iterator, List, Optional, Sequence, Tuple

from .catalogue import Known
from .disk import open_regular
from .lending import PIECE, Lent
from .replay import check_path
from .responses import Headers, Refusal
from .texts import Trouble, real_path, say
from .unpack import write_all

Span = Tuple[int, int]
RANGE = re.compile(r"bytes=(\d{0,18})-(\d{0,18})", re.ASCII)
TAG = re.compile(r"(?:W/)?(\"[\x21\x23-\x7e]*\")|\*", re.ASCII)


class Broken(OSError):
    """A body can't be sent to its end."""


class Body(io.RawIOBase):
    """Spans of an open file, one after another, as a file that is read. `check` is called before each MiB; a Trouble of
    it ends the body. `end` is called once, when it is closed."""

    def __init__(
        self, handle: int, spans: Sequence[Span], check_files: Callable[[], None], end: Callable[[], None]
    ) -> None:
        super().__init__()
        self.handle = handle
        self.spans = [span for span in spans if span[1]]
        self.length = sum(length for _, length in spans)
        self.at = 0
        self.checked = -1
        self.check_files = check_files
        self.end = end

    def readable(self) -> bool:
        return True

    def seekable(self) -> bool:
        return True

    def tell(self) -> int:
        return self.at

    def seek(self, offset: int, whence: int = 0) -> int:
        self.at = offset + (0, self.at, self.length)[whence]
        return self.at

    def read(self, size: int = -1) -> bytes:
        """The next bytes, at most a MiB of them, and none at the end."""
        wanted = min(PIECE, self.length - self.at if size < 0 else size)
        if self.at // PIECE != self.checked:
            self.check_again()
        begin = self.at
        for offset, length in self.spans:
            if begin < length:
                return self.part(offset + begin, min(wanted, length - begin))
            begin -= length
        return b""

    def check_again(self) -> None:
        try:
            self.check_files()
        except Trouble as trouble:
            say("broken off: %s" % trouble)
            raise Broken(str(trouble)) from None
        self.checked = self.at // PIECE

    def part(self, offset: int, count: int) -> bytes:
        """Bytes of one span. The file has to have them."""
        data = os.pread(self.handle, count, offset)
        if count and not data:
            raise Broken("the file is shorter than it was")
        self.at += len(data)
        return data

    def __iter__(self) -> Iterator[bytes]:
        return iter(lambda: self.read(PIECE), b"")

    def close(self) -> None:
        if not self.closed:
            os.close(self.handle)
            self.end()
        super().close()


def within(spans: Sequence[Span], first: int, count: int) -> List[Span]:
    """The spans of some bytes of others."""
    made = []
    for offset, length in spans:
        begin, end = min(first, length), min(first + count, length)
        made += [(offset + begin, end - begin)] if end > begin else []
        first, count = max(first - length, 0), count - (end - begin)
    return made


def opened_again(file: Known, spans: Sequence[Span]) -> Body:
    """Spans of a file that isn't compressed, which has to be the one that was read."""
    source = open_regular(real_path(file.path))
    try:
        check_path(file)
        return Body(os.dup(source.fileno()), spans, lambda: check_path(file), lambda: None)
    finally:
        source.close()


def spooled(pieces: Iterator[bytes], count: int, folder: str, end: Callable[[], None]) -> Body:
    """Bytes in a file without a name, which goes when they are sent."""
    with tempfile.TemporaryFile(dir=folder, buffering=0) as file:
        for piece in pieces:
            write_all(file, piece)
        return Body(os.dup(file.fileno()), [(0, count)], lambda: None, end)


# What a reader has of it already


def tag_of(answer: Lent) -> str:
    """The tag of the bytes that an answer gives, by the files that it is from, and which record of them gives it."""
    stamps = [(it.stamp.size, it.stamp.modified) if it.stamp else None for it in answer.files]
    given = None if answer.file is None else [it.file for it in answer.files].index(answer.file.file)
    words = repr((stamps, given, answer.about, answer.codings, answer.reason, answer.position))
    return '"%s"' % hashlib.sha256(words.encode("utf-8", "surrogateescape")).hexdigest()[:32]


def has_already(field: str, tag: str) -> bool:
    """Whether a reader has the bytes of a tag, by If-None-Match."""
    return any(found[0] == "*" or found[1] == tag for found in TAG.finditer(field))


@dataclasses.dataclass(frozen=True)
class Wanted:
    """Which bytes of a body are wanted: from the first on, as many as that; or all of them."""

    first: int
    count: int
    is_all: bool = True

    def headers(self, length: int) -> Headers:
        headers = [("Content-Length", str(self.count))]
        if not self.is_all:
            headers.append(("Content-Range", "bytes %d-%d/%d" % (self.first, self.first + self.count - 1, length)))
        return headers


def wanted_of(field: Optional[str], length: int, *headers: Tuple[str, str]) -> Wanted:
    """The bytes that a field Range asks for: one range. What isn't one is answered by the whole."""
    found = RANGE.fullmatch((field or "").replace(" ", ""))
    if found is None or not (found[1] or found[2]):
        return Wanted(0, length)
    first = int(found[1]) if found[1] else max(length - int(found[2]), 0)
    last = int(found[2]) if found[1] and found[2] else length - 1
    if found[1] and found[2] and last < first:
        return Wanted(0, length)
    if first >= length or (not found[1] and not int(found[2])):
        links = [it for it in headers if it[0] == "Link"]
        raise Refusal(416, "the body has %d bytes" % length, ("Content-Range", "bytes */%d" % length), *links)
    return Wanted(first, min(last, length - 1) - first + 1, False)
