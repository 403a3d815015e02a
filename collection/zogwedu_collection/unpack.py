"""Compressed files: what compressed them, as their first bytes say, what they hold, and whether they are damaged. zlib
and python3-zstandard judge the bytes, or where that isn't there the program zstd, and nothing else does. How members of
gzip follow each other is in the Python package's module of members."""
from __future__ import annotations

import errno
import functools
import importlib
import os
import subprocess
import tempfile
from typing import IO, TYPE_CHECKING, Any, Dict, Iterator, Optional

from .space import Full, Room

if TYPE_CHECKING:
    from zogwedu import _members
else:
    from . import _members

PIECE = 1 << 20
NO_ROOM = (errno.ENOSPC, errno.EDQUOT, errno.EFBIG)
# The first bytes of what gzip and zstd write, as shell/zwarc has them.
OF_GZIP = b"\x1f\x8b"
OF_ZSTD = b"\x28\xb5\x2f\xfd"
# The first byte of a frame that is skipped, but for its last four bits, and the bytes after it; and the first bytes of
# one with the dictionary of the frames after it.
SKIPPED, OF_SKIPPED = 0x50, b"\x2a\x4d\x18"
OF_DICTIONARY = b"\x5d" + OF_SKIPPED
# What a frame may need to be unpacked, as the program zstd has it, and how much is given to the library at once: it
# may make thirty thousand bytes of each byte.
MOST_WINDOW = 128 << 20
ZSTD_PIECE = 1 << 10
# The exit status by which zstd says that the bytes are at fault, and what it calls them.
WRONG_BYTES = 1
# What is wrong with a file whose members aren't wrong by themselves.
MEMBER_FAULTS: Dict[type, str] = {
    EOFError: "the file ends in a member",
    ValueError: "zero bytes, and then others",
}
STDIN = "/*stdin*\\"


class Damaged(Exception):
    """The compressed file is damaged, perhaps after a known number of bytes: those of the members before, which are
    whole, and of zero bytes after them."""

    def __init__(self, why: str, after: Optional[int] = None) -> None:
        super().__init__("damaged%s: %s" % ("" if after is None else " after %d bytes" % after, why))


class Unsupported(Exception):
    """The file is compressed in a way that isn't read here."""


def pieces_of(file: IO[bytes], note: _members.Note = lambda *_places: None) -> Optional[Iterator[bytes]]:
    """What a compressed file holds, in pieces, or None for one that isn't compressed. Its first bytes decide, and never
    its name. `note` hears of each member of gzip."""
    beginning = os.pread(file.fileno(), len(OF_ZSTD), 0)
    if beginning.startswith(OF_GZIP):
        return members_of(file, note)
    is_skipped = beginning[1:] == OF_SKIPPED and beginning[0] & 0xF0 == SKIPPED
    return frames_of(file, beginning) if beginning == OF_ZSTD or is_skipped else None


def library() -> Any:
    """python3-zstandard, or None where it isn't there, or too old to say where a frame ends."""
    try:
        package = importlib.import_module("zstandard")
    except ImportError:
        return None
    return package if hasattr(package.ZstdDecompressor().decompressobj(), "eof") else None


def frames_of(file: IO[bytes], beginning: bytes) -> Iterator[bytes]:
    """What the frames of a file hold that zstd wrote, in pieces."""
    package = library()
    if package is not None:
        return iter(Frames(package, file, beginning == OF_DICTIONARY))
    if beginning == OF_DICTIONARY:
        raise Unsupported("compressed with a dictionary of its own, which python3-zstandard reads")
    return by_program(file)


class Frames:
    """Gives what the frames of a file hold, in pieces. A dictionary is in a frame before all others."""

    def __init__(self, package: Any, file: IO[bytes], has_dictionary: bool) -> None:
        self.package = package
        self.file = file
        self.data = b""
        self.whole = 0
        self.dictionary = self.read_dictionary() if has_dictionary else None

    def read_dictionary(self) -> Any:
        """The dictionary, which may be compressed by itself."""
        self.file.seek(len(OF_DICTIONARY))
        size = int.from_bytes(self.file.read(4), "little")
        data = self.file.read(min(size, MOST_WINDOW))
        if len(data) != size:
            raise Damaged("the file ends in its dictionary")
        if data.startswith(OF_ZSTD):
            try:
                data = self.package.ZstdDecompressor().decompress(data, max_output_size=MOST_WINDOW)
            except self.package.ZstdError as error:
                raise Damaged("its dictionary: %s" % error) from None
        return self.package.ZstdCompressionDict(data)

    def __iter__(self) -> Iterator[bytes]:
        self.file.seek(0)
        while self.data or self.fill():
            yield from self.frame()

    def fill(self) -> bool:
        self.data = self.file.read(PIECE)
        return bool(self.data)

    def frame(self) -> Iterator[bytes]:
        """What one frame holds. One that needs too much memory says nothing of the bytes."""
        unpacker = self.package.ZstdDecompressor(dict_data=self.dictionary, max_window_size=MOST_WINDOW).decompressobj()
        taken = 0
        while not unpacker.eof:
            if not self.data and not self.fill():
                raise Damaged("the file ends in a frame", self.whole)
            piece, self.data = self.data[:ZSTD_PIECE], self.data[ZSTD_PIECE:]
            try:
                found = unpacker.decompress(piece)
            except self.package.ZstdError as error:
                why = str(error).partition(": ")[2] or str(error)
                if "memory" in why:
                    raise OSError(errno.EIO, "zstd: " + why) from None
                raise Damaged(why, self.whole) from None
            taken += len(piece)
            if found:
                yield found
        self.data = unpacker.unused_data + self.data
        self.whole += taken - len(unpacker.unused_data)


def by_program(file: IO[bytes]) -> Iterator[bytes]:
    """What the frames of a file hold, by the program zstd."""
    file.seek(0)
    try:
        child = subprocess.Popen(["zstd", "-dcq"], stdin=file, stdout=subprocess.PIPE, stderr=subprocess.PIPE)
    except FileNotFoundError:
        raise OSError(errno.ENOENT, "zstd isn't installed") from None
    with child:
        assert child.stdout is not None and child.stderr is not None
        yield from iter(functools.partial(child.stdout.read, PIECE), b"")
        message = child.stderr.read().decode("utf-8", "replace").strip()
    judge_zstd(child.returncode, message)


def judge_zstd(status: int, message: str) -> None:
    """Raises what a status of zstd means. Only one of them says something of the bytes."""
    if status == 0:
        return
    first = message.partition("\n")[0]
    why = first.partition(STDIN)[2].lstrip(" :") or first or "status %d" % status
    if status == WRONG_BYTES and "too much memory" not in why:
        raise Damaged(why)
    raise OSError(errno.EIO, "zstd was ended by signal %d" % -status if status < 0 else "zstd: " + why)


def members_of(file: IO[bytes], note: _members.Note = lambda *_places: None) -> Iterator[bytes]:
    """What the members of a file hold that gzip wrote, in pieces."""
    file.seek(0)
    try:
        yield from _members.Members(iter(functools.partial(file.read, PIECE), b""), _members.GZIP, note)
    except _members.Damaged as error:
        raise Damaged(MEMBER_FAULTS.get(type(error.why)) or reason_of(error.why), error.offset) from None


def is_of_gzip(file: IO[bytes]) -> bool:
    """Whether a file begins as gzip writes one."""
    return os.pread(file.fileno(), len(OF_GZIP), 0) == OF_GZIP


def spans_of(file: IO[bytes]) -> Iterator[_members.Span]:
    """The runs of good members of a file that gzip wrote, and the damages between them."""
    return iter(_members.Spans(functools.partial(read_at, file), os.fstat(file.fileno()).st_size))


def members_in(file: IO[bytes], span: _members.Span) -> Iterator[bytes]:
    """What a run of good members holds, in pieces. Damaged where the file changed meanwhile."""
    try:
        yield from _members.Members(_members.pieces_of(functools.partial(read_at, file), span), _members.GZIP)
    except _members.Damaged as error:
        raise Damaged(reason_of(error.why), span.offset + error.offset) from None


def read_at(file: IO[bytes], count: int, offset: int) -> bytes:
    """Bytes of a file at an offset."""
    return os.pread(file.fileno(), count, offset)


def reason_of(error: Exception) -> str:
    """What zlib found, in its own words."""
    return str(error).partition("decompressing data: ")[2] or str(error)


def write_all(out: IO[bytes], piece: bytes) -> None:
    """Writes to a file without a buffer."""
    view = memoryview(piece)
    while view:
        view = view[out.write(view) :]


def unpacked(pieces: Iterator[bytes], folder: str, room: Room) -> Optional[IO[bytes]]:
    """What a compressed file holds, in a file without a name, which is gone with its last reader. Where there is no
    room for it there is none; the compressed file is judged all the same."""
    out: Optional[IO[bytes]] = None
    try:
        out = tempfile.TemporaryFile(dir=folder, buffering=0)
    except OSError as error:
        if error.errno not in NO_ROOM:
            raise
    try:
        for piece in pieces:
            out = put(out, piece, room)
    except BaseException:
        if out is not None:
            out.close()
        raise
    return out


def put(out: Optional[IO[bytes]], piece: bytes, room: Room) -> Optional[IO[bytes]]:
    """Writes a piece, if there was room so far. Returns the file, or None where there is no room."""
    if out is None:
        return None
    try:
        room.take(len(piece), out)
        write_all(out, piece)
        return out
    except Full:
        out.close()
        return None
    except OSError as error:
        out.close()
        if error.errno not in NO_ROOM:
            raise
        return None
