"""What a compressed stream holds: members of gzip by zlib, frames of Zstandard by a module. These judge the bytes.

No part of this is proved.
"""
import importlib
import re
import zlib
from typing import Any, Callable, Iterator, NamedTuple, Optional, Tuple, Type, Union

# How the head of a member of gzip begins, up to its flags, and how a record does.
HEAD = re.compile(rb"\x1f\x8b\x08[\0-\x1f]")
HEAD_LENGTH = 4
RECORD = b"WARC/"
# The bytes of a member within which its head has to end, with all that it says, and a record to begin.
MOST_OF_BEGINNING = 1 << 9
# The tries that fail give zlib at most this number of times the bytes of the file, and of those before the last try.
MOST_TRIED = 4
FIRST_STEP = 1 << 6
PIECE = 1 << 20

# Reads bytes of a file, by their number and their offset, as os.pread does.
Read = Callable[[int, int], bytes]
# Hears of a good member: where it begins and ends, and how many bytes all members before it hold, and those up to it.
Note = Callable[[int, int, int, int], None]


class Form(NamedTuple):
    """How streams of a kind are read.

    `begin` makes what undoes one member. It is fed at most `step` bytes at a time: zlib makes of them up to 1,032 times
    their length, Zstandard up to 128 KiB of 4 bytes. `has_padding` allows zero bytes after the last member.
    """

    name: str
    begin: Callable[[], Any]
    error: Type[Exception]
    step: int
    has_padding: bool


GZIP = Form("gzip", lambda: zlib.decompressobj(zlib.MAX_WBITS | 16), zlib.error, 1 << 12, True)


def zstd(window_log: int) -> Form:
    """Frames whose window has at most 2 to this power bytes. Raises ImportError if there is no module for them.

    Python has one since 3.14; before, it is the package zstandard.
    """
    try:
        module = importlib.import_module("compression.zstd")
    except ImportError:
        module = importlib.import_module("zstandard")
        frames = module.ZstdDecompressor(max_window_size=1 << window_log)
        return Form("zstd", frames.decompressobj, module.ZstdError, 1 << 8, False)
    options = {module.DecompressionParameter.window_log_max: window_log}
    return Form("zstd", lambda: module.ZstdDecompressor(options=options), module.ZstdError, 1 << 8, False)


class Damaged(Exception):
    """A stream is damaged at an offset, and why."""

    def __init__(self, offset: int, why: Exception) -> None:
        super().__init__(offset, why)
        self.offset = offset
        self.why = why.with_traceback(None)  # which would keep the stream


class Members:
    """Gives what the members of a stream hold, in pieces. Raises Damaged at the first that is damaged or isn't whole.

    `given` is how many bytes the members before it hold. `note` hears of each member that is good.
    """

    def __init__(
        self, source: Iterator[Union[bytes, memoryview]], form: Form, note: Note = lambda *_places: None
    ) -> None:
        self._source = source
        self._form = form
        self._note = note
        self._view = memoryview(b"")
        self._offset = 0
        self.given = 0

    def __iter__(self) -> Iterator[bytes]:
        yield from self._member()
        while self._has_more():
            yield from self._member()

    def _rest(self) -> memoryview:
        """Bytes that are read and not taken yet; none at the end of the stream."""
        if not self._view:
            self._view = memoryview(next(self._source, b""))
        return self._view

    def _take(self, count: int) -> None:
        self._view = self._view[count:]
        self._offset += count

    def _member(self) -> Iterator[bytes]:
        """What one member holds."""
        begin, given, member = self._offset, self.given, self._form.begin()
        while not member.eof:
            data = self._rest()[: self._form.step]
            if not data:
                raise Damaged(begin, EOFError("it isn't whole"))
            try:
                piece = member.decompress(data)
            except self._form.error as error:
                raise Damaged(begin, error) from None
            self._take(len(data) - len(member.unused_data))
            given += len(piece)
            yield piece
        self._note(begin, self._offset, self.given, given)
        self.given = given

    def _has_more(self) -> bool:
        """Whether another member follows."""
        begin = self._offset
        while self._form.has_padding and self._rest() and self._view[0] == 0:
            self._take(len(self._view) - len(bytes(self._view).lstrip(b"\0")))
        if self._rest() and self._offset != begin:
            raise Damaged(self._offset, ValueError("other bytes follow zero bytes"))
        return bool(self._rest())


class Span(NamedTuple):
    """Bytes of a compressed file: good members, one after another; or damage, at none of whose bytes one was found, and
    why none begins with the first of them."""

    offset: int
    length: int
    why: Optional[Exception]


def pieces_of(read: Read, span: Span) -> Iterator[bytes]:
    """The bytes of a span, in pieces."""
    end = span.offset + span.length
    return (read(min(PIECE, end - at), at) for at in range(span.offset, end, PIECE))


class Spans:
    """Gives the spans of a file that gzip wrote, in order: members that are good, and the damage between them.

    A member is good if zlib inflates it to its end, and its CRC and its length are right. After one that isn't, the
    next is where a head is whose member is good and begins as a record does. Zero bytes at the end are in no span.

    Each offset is tried once. A file may be made so that many tries fail late; so each may give zlib half of what is
    left of MOST_TRIED. Where that is too little for a good member, that is damage too.
    """

    def __init__(self, read: Read, size: int) -> None:
        self._read = read
        self._size = size
        self._failed = 0  # bytes that tries gave to zlib which failed
        self._begin, self._data = 0, b""  # what was read last

    def __iter__(self) -> Iterator[Span]:
        begin = end = 0
        while begin < self._size:
            end, why = self._run(end)
            if end > begin:
                yield Span(begin, end - begin, None)
            if why is None:
                return
            damage, (begin, end) = end, self._next(end + 1)
            yield Span(damage, begin - damage, why)

    def _from(self, offset: int, least: int) -> memoryview:
        """The bytes from an offset on that are read: at least this number, unless the file ends before."""
        begin = offset - self._begin
        if begin < 0 or begin + least > len(self._data):
            self._begin, self._data, begin = offset, self._read(PIECE, offset), 0
        return memoryview(self._data)[begin:]

    def _run(self, end: int) -> Tuple[int, Optional[Exception]]:
        """Where members end that follow one another from an offset on, and why no other follows, unless there is no
        more."""
        while end < self._size:
            try:
                end = self._member(end)
            except Damaged as damaged:
                return end, self._reason(end, damaged.why)
        return end, None

    def _reason(self, end: int, why: Exception) -> Optional[Exception]:
        """Why no member follows others: none if only zero bytes do."""
        at = end
        while end and at < self._size:
            data = bytes(self._from(at, GZIP.step)[: GZIP.step])
            zeros = len(data) - len(data.lstrip(b"\0"))
            at += zeros
            if zeros < GZIP.step:
                break
        if at == end:
            return why
        return ValueError("other bytes follow zero bytes") if at < self._size else None

    def _next(self, offset: int) -> Tuple[int, int]:
        """Where the next good member begins and ends that begins as a record does; at the end of the file, if none."""
        while offset < self._size:
            data = self._from(offset, HEAD_LENGTH)
            head = HEAD.search(data)
            if head is None:
                offset += max(len(data) - HEAD_LENGTH + 1, 1)
                continue
            offset += head.start()
            if self._begins_record(offset):
                try:
                    return offset, self._member(offset)
                except Damaged:
                    pass
            offset += 1
        return self._size, self._size

    def _begins_record(self, offset: int) -> bool:
        """Whether a member at an offset begins as a record does."""
        data = self._from(offset, MOST_OF_BEGINNING)[:MOST_OF_BEGINNING]
        try:
            return bool(GZIP.begin().decompress(data, len(RECORD)) == RECORD)
        except GZIP.error:
            return False

    def _member(self, offset: int) -> int:
        """Where the member at an offset ends. Raises Damaged."""
        most = (MOST_TRIED * (self._size + offset) - self._failed) // 2
        member, end, step = GZIP.begin(), offset, FIRST_STEP
        try:
            while not member.eof:
                data = self._from(end, step)[:step]
                if not data:
                    raise EOFError("it isn't whole")
                if end - offset > most:
                    raise ValueError("too much of the file was tried")
                end += len(data)
                member.decompress(data)
                step = min(2 * step, GZIP.step)
        except (GZIP.error, EOFError, ValueError) as error:
            self._failed += end - offset
            raise Damaged(offset, error) from None
        return end - len(member.unused_data)
