"""Files that hold an archive: mapped or read, and decompressed where they are compressed."""
import enum
import functools
import io
import mmap as mapping
import os
import stat
import tempfile
from typing import Any, IO, Iterator, List, NamedTuple, Optional, Tuple

from ._members import GZIP, Damaged, Form, Members, Read, Spans, pieces_of, zstd
from ._problems import CompressedError
from ._wacz import Package, Unpacked
from ._zip import MAGIC, BadZip, Entry, content_of, shown

PIECE = 1 << 20
WACZ = "wacz"
MAGICS = {b"\x1f\x8b": "gzip", b"\x28\xb5\x2f\xfd": "zstd", MAGIC: WACZ}
MAGIC_LENGTH = 4
ZSTD_WINDOW_LOG = 27  # as zstd -dc has it unless it is given more memory

# The numbers of a device and of a file on it.
Identity = Tuple[int, int]


class Upon(enum.Enum):
    """What is done at a damaged member: it is raised, the bytes end before it, or those of the good members after it
    follow, if gzip wrote them."""

    RAISE = enum.auto()
    END = enum.auto()
    GO_ON = enum.auto()


class Gap(NamedTuple):
    """Damage of a compressed file, and how many bytes the good members before it hold."""

    at: int
    damage: CompressedError


class Part(NamedTuple):
    """An archive of a package, and where its bytes are among those of all."""

    name: str
    offset: int
    length: int


class Contents(NamedTuple):
    """The bytes of an archive, how they were compressed, the damage before which they end, the regular file that they
    were read from, the damages among the members that gave them, and the archives of a package that they are."""

    data: Any
    compressed: Optional[str] = None
    damage: Optional[CompressedError] = None
    source: Optional[Identity] = None
    gaps: Tuple[Gap, ...] = ()
    parts: Tuple[Part, ...] = ()


class _Mapping(mapping.mmap):
    """A mapped file that belongs to an archive. One that a caller passes is the caller's."""


def unmap(data: Any) -> bool:
    """Unmaps a file, and gives whether that was possible: not while views of it are in use. Other bytes stay."""
    if not isinstance(data, _Mapping):
        return True
    try:
        data.close()
    except BufferError:
        return False
    return True


def identity_of(file: Any) -> Optional[Identity]:
    """Which regular file a path, a descriptor or a file object leads to, if it leads to one."""
    if not hasattr(file, "fileno") and not isinstance(file, (int, str, os.PathLike)):
        return None
    try:
        found = os.stat(file.fileno() if hasattr(file, "fileno") else file)
    except (OSError, TypeError, ValueError):
        return None  # opening or writing says what is wrong
    return (found.st_dev, found.st_ino) if stat.S_ISREG(found.st_mode) else None


def refuse_same(source: Optional[Identity], out: Any) -> None:
    """Refuses an output that is the file which is read."""
    if source is not None and source == identity_of(out):
        raise ValueError("the file that is written is the one that is read")


def path_of(file: Any, instead: str) -> str:
    """The path that a caller names. Bytes are taken for those of an archive, and refused with what takes them."""
    if isinstance(file, (bytes, bytearray, memoryview)):
        raise TypeError(f"a path is a text, not bytes: {instead} opens the bytes of an archive")
    path = os.fspath(file)
    if not isinstance(path, str):
        raise TypeError(f"a path is a text, not {path!r}")
    return path


def read_path(path: str, map_it: bool, upon: Upon) -> Contents:
    """The bytes of a file. A damaged member raises CompressedError, unless `upon` says something else."""
    with open(path, "rb") as file:
        return _read_file(file, map_it, upon)._replace(source=identity_of(file))


def _read_file(file: Any, map_it: bool, upon: Upon) -> Contents:
    """The bytes of a file that was just opened."""
    begin = file.read(MAGIC_LENGTH)
    kind = _kind_of(begin)
    if kind == WACZ and stat.S_ISREG(os.fstat(file.fileno()).st_mode):
        return _from_package(file, map_it, upon)
    if kind is not None:
        return _decompressed(pieces_in(file, begin), kind, map_it, upon)
    if map_it and os.fstat(file.fileno()).st_size:
        return Contents(_mapped(file))
    if file.seekable():
        file.seek(0)
        return Contents(file.read())
    return Contents(b"".join(pieces_in(file, begin)))


def read_object(file: Any, map_it: bool, upon: Upon) -> Contents:
    """The bytes of a binary file object, from where it is to its end. A damaged member is treated as `upon` says."""
    if isinstance(file, io.TextIOBase):
        raise TypeError("an archive is read from a binary file: sys.stdin.buffer, or open(path, 'rb')")
    return _read_object(file, map_it, upon)._replace(source=identity_of(file))


def _read_object(file: Any, map_it: bool, upon: Upon) -> Contents:
    """The bytes of a binary file object."""
    begin = b""
    for piece in pieces_in(file):
        begin += piece
        if len(begin) >= MAGIC_LENGTH:
            break
    kind = _kind_of(begin)
    if kind is not None:
        return _decompressed(pieces_in(file, begin), kind, map_it, upon)
    return Contents(b"".join(pieces_in(file, begin)))


def _kind_of(begin: bytes) -> Optional[str]:
    """What wrote a beginning: "gzip", "zstd", a tool for packages, or none that is known."""
    return next((kind for magic, kind in MAGICS.items() if begin.startswith(magic)), None)


def pieces_in(file: Any, begin: bytes = b"") -> Iterator[bytes]:
    """A beginning that was read, and what a file gives after it."""
    if begin:
        yield begin
    while True:
        piece = file.read(PIECE)
        if piece is None:
            raise BlockingIOError("the file has no bytes now: an archive is read from one that blocks")
        if not piece:
            return
        yield bytes(piece)


def _mapped(file: IO[bytes]) -> Any:
    """A file, mapped. An empty file, and one of no known length, can't be."""
    return _Mapping(file.fileno(), 0, access=mapping.ACCESS_READ)


def _form_of(kind: str) -> Form:
    """How a kind is read."""
    if kind == "gzip":
        return GZIP
    try:
        return zstd(ZSTD_WINDOW_LOG)
    except ImportError as error:
        raise CompressedError("unreadable zstd at 0: Python before 3.14 needs the package zstandard", 0) from error


def _decompressed(source: Iterator[bytes], kind: str, map_it: bool, upon: Upon) -> Contents:
    """What a compressed stream holds, by way of a file without a name in TMPDIR, which goes with its last use."""
    if kind == WACZ:
        with copied(source) as copy:
            return _from_package(copy, map_it, upon)
    form = _form_of(kind)
    with tempfile.TemporaryFile(buffering=0) as out:
        damage, gaps = None, []
        if upon is Upon.GO_ON and form is GZIP:
            gaps = _decompress_good(source, out)
        else:
            damage = _decompress(Members(source, form), kind, out)
        if damage is not None and upon is not Upon.END:
            raise damage
        return Contents(_bytes_of(out, map_it), kind, damage, gaps=tuple(gaps))


def _bytes_of(out: IO[bytes], map_it: bool) -> Any:
    """The bytes of a file that was written, mapped or read."""
    if map_it and out.seek(0, os.SEEK_END):
        return _mapped(out)
    out.seek(0)
    return out.read()


def copied(source: Iterator[bytes]) -> IO[bytes]:
    """A stream, in a file without a name, which may be read at any place."""
    copy: IO[bytes] = tempfile.TemporaryFile(buffering=0)
    try:
        for piece in source:
            _write(piece, copy)
    except BaseException:
        copy.close()
        raise
    return copy


class Joined(NamedTuple):
    """What was written of a package: where each archive is, the damages among them, and the one that they end at."""

    parts: List[Part]
    gaps: List[Gap]
    damage: Optional[CompressedError]


def join_package(file: Any, out: IO[bytes], upon: Upon) -> Joined:
    """Writes what the archives of a package hold, one after another in the order of their names, to an empty file."""
    read = functools.partial(_read_at, file)
    try:
        package = Package(read, os.fstat(file.fileno()).st_size)
    except BadZip as bad:
        raise CompressedError(f"refused zip at {bad.offset}: {bad}", bad.offset) from bad
    joined = Joined([], [], None)
    for entry in package.archives:
        begin, damage = out.tell(), None
        if upon is Upon.GO_ON:
            joined.gaps.extend(_write_good(read, entry, out))
        else:
            damage = _write_archive(read, entry, out)
        if damage is not None and upon is Upon.RAISE:
            raise damage
        joined.parts.append(Part(entry.name, begin, out.tell() - begin))
        if damage is not None:
            return joined._replace(damage=damage)
    return joined


def _from_package(file: Any, map_it: bool, upon: Upon) -> Contents:
    """What the archives of a package hold, by way of a file without a name."""
    with tempfile.TemporaryFile(buffering=0) as out:
        joined = join_package(file, out, upon)
        data = _bytes_of(out, map_it)
        return Contents(data, WACZ, joined.damage, gaps=tuple(joined.gaps), parts=tuple(joined.parts))


def _write_archive(read: Read, entry: Entry, out: IO[bytes]) -> Optional[CompressedError]:
    """Writes what an archive of a package holds, as far as that is good, and gives what is wrong with it."""
    begin, pieces = out.tell(), Unpacked(read, entry)
    try:
        for piece in pieces:
            _write(piece, out)
    except Damaged as damaged:
        out.truncate(begin + pieces.whole)
        out.seek(0, os.SEEK_END)
        return _package_error(entry, damaged)
    return None


def _package_error(entry: Entry, damaged: Damaged, length: Optional[int] = None) -> CompressedError:
    """The error for damage of an archive of a package."""
    why = f"{shown(entry.name)}: {str(damaged.why).rpartition(': ')[2]}"
    error = CompressedError(f"damaged wacz at {damaged.offset}: {why}", damaged.offset, length)
    error.__cause__ = damaged.why
    return error


def _write_good(read: Read, entry: Entry, out: IO[bytes]) -> List[Gap]:
    """Writes what the good members of an archive hold, or all of one that isn't compressed if it is what was packed.
    Gives the damages."""
    fault, gaps = None, []
    with tempfile.TemporaryFile(buffering=0) as copy:
        try:
            for piece in content_of(read, entry):
                _write(piece, copy)
        except Damaged as damaged:
            fault = damaged
        own, size = functools.partial(_read_at, copy), copy.tell()
        kind = _kind_of(own(MAGIC_LENGTH, 0))
        if kind == "gzip":
            gaps = _write_members(own, size, out, entry.begin)
        elif kind == "zstd":
            fault = Damaged(entry.offset, ValueError("compressed by zstd, which isn't read in a package"))
        elif fault is None:
            for at in range(0, size, PIECE):
                _write(own(PIECE, at), out)
    if fault is not None and not gaps:
        gaps.append(Gap(out.tell(), _package_error(entry, fault, entry.packed)))
    return gaps


def _decompress(members: Members, kind: str, out: IO[bytes]) -> Optional[CompressedError]:
    """Writes what the members hold that are whole, and gives what is wrong with the next one."""
    try:
        for piece in members:
            _write(piece, out)
    except Damaged as damaged:
        out.truncate(members.given)
        return _error(kind, damaged.offset, damaged.why)
    return None


def _decompress_good(source: Iterator[bytes], out: IO[bytes]) -> List[Gap]:
    """Writes what the good members of gzip hold, and gives the damages between them.

    A stream is read twice, and from any place, so it is written to a file without a name.
    """
    with copied(source) as packed:
        return _write_members(functools.partial(_read_at, packed), packed.tell(), out)


def _write_members(read: Read, size: int, out: IO[bytes], begin: int = 0) -> List[Gap]:
    """Writes what the good members of bytes hold, which begin at an offset of the file."""
    gaps = []
    for span in Spans(read, size):
        if span.why is not None:
            gaps.append(Gap(out.tell(), _error("gzip", begin + span.offset, span.why, span.length)))
            continue
        for piece in Members(pieces_of(read, span), GZIP):
            _write(piece, out)
    return gaps


def _read_at(file: IO[bytes], count: int, offset: int) -> bytes:
    """Bytes of a file at an offset."""
    return os.pread(file.fileno(), count, offset)


def _error(kind: str, offset: int, why: Exception, length: Optional[int] = None) -> CompressedError:
    """The error for damage at an offset."""
    error = CompressedError(f"damaged {kind} at {offset}: {str(why).rpartition(': ')[2]}", offset, length)
    error.__cause__ = why
    return error


def _write(piece: bytes, out: IO[bytes]) -> None:
    """Writes to a file without a buffer. Names the folder that has no room."""
    view = memoryview(piece)
    try:
        while view:
            view = view[out.write(view) :]
    except OSError as error:
        raise OSError(error.errno, error.strerror, tempfile.gettempdir()) from error
