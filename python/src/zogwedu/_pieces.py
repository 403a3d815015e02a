"""The pieces of a file: runs of good records, and the damage between them."""
import os
from contextlib import contextmanager
from dataclasses import dataclass
from typing import Any, Iterator, List, Tuple, TYPE_CHECKING, Union

from . import _library as library
from ._files import Contents, Upon, identity_of, path_of, read_object, read_path, refuse_same, unmap
from ._problems import CompressedError, Refused
from ._writing import Output, write_parts

if TYPE_CHECKING:
    Path = Union[str, "os.PathLike[str]"]


@dataclass(frozen=True)
class Piece:
    """A piece of a file: a run of good records, or damage, at none of whose bytes a good record begins that is whole.

    `offset` and `length` are those of its bytes. A run has `count` records, at least one, and `fault` is None. Damage
    has none, and `fault` is the Refused that says why no good record begins with its first byte; the offset of that may
    be beyond the damage.

    Offsets are those of the uncompressed bytes. Damage of a compressed file has none of these: its `length` is 0, and
    `fault` is a CompressedError, whose `offset` and `length` are those in the compressed file.
    """

    offset: int
    length: int
    count: int
    fault: Union[Refused, CompressedError, None]


@dataclass(frozen=True)
class Salvaged:
    """What was written of a file: how many records and bytes; and the damage that was left out."""

    records: int
    length: int
    damage: List[Piece]


def pieces(file: Union["Path", Any], *, mmap: bool = True) -> List[Piece]:
    """The pieces of a file, in order: runs of good records, and the damage between them.

    They follow one another without gap or overlap from the first byte to the last. An archive is one piece, and a file
    without bytes has none. The bytes of all runs, joined, are an archive.

    `file` is a path or a binary file object, which is read and decompressed as by `Archive.open`. Of one that gzip
    wrote the good members are read; what is between them is damage, and no record has bytes of both sides. After a
    damaged member the next one is where a head of gzip is whose member is good and begins as a record does. Raises
    CompressedError if a frame of zstd is damaged or torn. Raises Refused with F14 Memory if memory runs out in the
    library, and MemoryError if it runs out in Python.
    """
    with _lent(file, mmap) as (lent, contents):
        return _found(lent, contents)


def salvage(file: Union["Path", Any], out: Output, *, mmap: bool = True) -> Salvaged:
    """Writes all good records of a file to a binary file, byte for byte and in order, and gives what was left out.

    What is written is an archive: the runs among the pieces of the file, joined. Nothing is mended.

    `file` is a path or a binary file object, which is read and decompressed as by `Archive.open`; `out` is written as
    by `Archive.rewrite`. Raises what `pieces` does, and then nothing is written. Raises
    ValueError, and writes nothing, if `out` is the file that is read; one that is opened by mode "wb" has been emptied
    before. Raises WriteFailed, whose `sent` is how many bytes went out, if a write fails. Nothing is synced.

    A path is mapped: if another program changes the file while this runs, what is written may not be what was judged,
    and a read that fails kills the process by SIGBUS. `mmap=False` reads the file into memory first, all of it.
    """
    refuse_same(identity_of(file), out)
    with _lent(file, mmap) as (lent, contents):
        found = _found(lent, contents)
        runs = [piece for piece in found if piece.fault is None]
        write_parts(out, (lent.bytes[run.offset : run.offset + run.length] for run in runs))
    damage = [piece for piece in found if piece.fault is not None]
    return Salvaged(sum(run.count for run in runs), sum(run.length for run in runs), damage)


@contextmanager
def _lent(file: Union["Path", Any], map_it: bool) -> Iterator[Tuple[library.Lent, Contents]]:
    """The bytes of a file, for as long as they are used, and what is known of them."""
    contents = _contents(file, map_it)
    lent = library.Lent(contents.data)
    try:
        yield lent, contents._replace(data=None)
    finally:
        data = lent.owner
        lent.give_back()
        unmap(data)


def _contents(file: Union["Path", Any], map_it: bool) -> Contents:
    """The bytes of a path, or of a file object to its end."""
    if hasattr(file, "read"):
        return read_object(file, map_it, Upon.GO_ON)
    return read_path(path_of(file, "io.BytesIO(data)"), map_it, Upon.GO_ON)


def _found(lent: library.Lent, contents: Contents) -> List[Piece]:
    """The pieces of bytes. What is on both sides of a gap never belonged together, nor do two archives of a package,
    so each side is asked for."""
    cuts: List[Tuple[int, List[Piece]]] = [(part.offset, []) for part in contents.parts]
    cuts += [(gap.at, [Piece(gap.at, 0, 0, gap.damage)]) for gap in contents.gaps]
    found: List[Piece] = []
    begin = 0
    for at, damage in sorted(cuts, key=lambda cut: cut[0]):
        found += _found_between(lent, begin, at) + damage
        begin = at
    return found + _found_between(lent, begin, lent.length)


def _found_between(lent: library.Lent, begin: int, end: int) -> List[Piece]:
    """The pieces of the bytes between two offsets."""
    part = library.Lent(lent.bytes[begin:end])
    try:
        return [
            Piece(begin + it.offset, it.length, it.count, library.fault_of(it.fault, begin))
            for it in library.pieces(part)
        ]
    finally:
        view = part.owner
        part.give_back()
        view.release()
