"""The captures of a collection as an index for other programs: CDXJ, or CDX with eleven fields. What the catalogue
doesn't have of a capture is read from its record, by the Python package zogwedu."""
from __future__ import annotations

import contextlib
import dataclasses
import mmap
import os
import shutil
import subprocess
import tempfile
from typing import IO, TYPE_CHECKING, Any, Callable, Dict, Iterator, List, Optional, Sequence, Tuple

from .captures import Capture, captures_where
from .catalogue import Catalogue, Known
from .disk import replaced, temporary_folder
from .members import Other, Row, record_at
from .needed import rows_of
from .replay import Files, other_bytes
from .states import READ
from .texts import Stored, Trouble, counted, escaped, path_bytes, real_path, say
from .timemaps import WITHHELD, Seen
from .unpack import write_all
from .wacz import pieces_of

if TYPE_CHECKING:
    from zogwedu import _cdxj
else:
    from . import _cdxj

NAMES = ("Archive", "WarcError")
# How many captures are read at once, and the most bytes of a record that are read into memory.
AT_ONCE = 500
IN_MEMORY = 16 << 20
# What follows the block of a record, and isn't counted in an index of a file that isn't compressed.
TAIL = 4


@dataclasses.dataclass(frozen=True)
class Form:
    """How an index is written: each line, what is before them, and whether a space may be in a name."""

    line: Callable[[_cdxj.Entry], str]
    head: str
    has_names: Callable[[str], bool]


CDXJ = Form(_cdxj.line_of, "", lambda name: "\t" not in name and "\n" not in name)
CDX_11 = Form(_cdxj.line_11_of, _cdxj.HEAD_11, _cdxj.is_fit)


@dataclasses.dataclass
class Indexer:
    """Makes the lines of a collection, of what a reader elsewhere may see."""

    catalogue: Catalogue
    package: Any
    seen: Seen
    form: Form
    temporary: str
    folder: Optional[str] = None
    left_out: int = 0
    withheld: int = 0
    named: List[str] = dataclasses.field(default_factory=list)
    paths: Dict[str, Stored] = dataclasses.field(default_factory=dict)

    def name(self, why: str) -> None:
        """Says what the index doesn't have."""
        self.named.append(why)
        say(why)

    def files(self) -> Iterator[Tuple[str, Known]]:
        """The files that are indexed, by their names in the index, which nothing else has."""
        found: Dict[str, List[Known]] = {}
        for known in self.catalogue.files_where("1 ORDER BY path"):
            name = self.name_of(known)
            if known.state not in READ or known.damaged or known.good_bytes is None:
                self.name("%s isn't in the index: it is %s" % (escaped(known.path), known.state))
            elif name is None:
                self.name("%s isn't in the index: it isn't below the folder" % escaped(known.path))
            elif not self.form.has_names(name):
                self.name("%s isn't in the index: a line can't have its name" % escaped(known.path))
            else:
                found.setdefault(name, []).append(known)
        for name, files in found.items():
            if len(files) == 1:
                yield name, files[0]
                continue
            for known in files:
                self.name("%s isn't in the index: another file has its name (see --relative)" % escaped(known.path))

    def name_of(self, known: Known) -> Optional[str]:
        """The name of a file in the index; None if it has none."""
        path = real_path(known.path)
        if self.folder is None:
            return os.path.basename(path)
        name = os.path.relpath(path, self.folder)
        return None if name == os.pardir or name.startswith(os.pardir + os.sep) else name

    def lines(self, out: IO[bytes]) -> None:
        """Writes the lines of all files, in no order. A file that can't be read gives none."""
        for name, known in self.files():
            counts = self.left_out, self.withheld
            with tempfile.TemporaryFile(dir=self.temporary) as own:
                try:
                    for entry in self.entries(known, name):
                        own.write(self.form.line(entry).encode("ascii"))
                except Trouble as trouble:
                    self.left_out, self.withheld = counts
                    self.name("%s isn't in the index: %s" % (escaped(known.path), trouble))
                    continue
                self.paths[name] = known.path
                own.seek(0)
                shutil.copyfileobj(own, out)

    def entries(self, known: Known, name: str) -> Iterator[_cdxj.Entry]:
        """The captures of a file. They count once all are given: then the file is the one that was read."""
        with Files("", self.temporary).opened(known) as file:
            is_plain, last = pieces_of(file) is None, -1
            while True:
                found = self.captures(known, last)
                if not found:
                    return
                last = found[-1][0].position
                yield from self.read(known, file, is_plain, name, [it for it in found if self.is_seen(*it)])

    def captures(self, known: Known, after: int) -> List[Tuple[Capture, Optional[Stored]]]:
        """Some captures of a file after a position, with their targets."""
        where = "captures.file = ? AND position > ? ORDER BY position LIMIT %d" % AT_ONCE
        targets = self.catalogue.rows("SELECT target FROM captures WHERE " + where, (known.file, after))
        captures = captures_where(self.catalogue, where, (known.file, after))
        return [(capture, target) for capture, (target,) in zip(captures, targets)]

    def is_seen(self, capture: Capture, target: Optional[Stored]) -> bool:
        """Whether a capture is in the index: not without a target, nor where a reader elsewhere may not see it, by its
        own target or by the target of the record that it leads to."""
        if target is None:
            return False
        is_withheld = self.seen.withheld(target, capture.instant) is not None
        is_withheld = is_withheld or self.seen.listed(self.catalogue, capture).reason == WITHHELD
        self.withheld += is_withheld
        return not is_withheld

    def read(
        self,
        known: Known,
        file: IO[bytes],
        is_plain: bool,
        name: str,
        found: Sequence[Tuple[Capture, Optional[Stored]]],
    ) -> Iterator[_cdxj.Entry]:
        """Reads captures of an open file. Those without a place of their own in it are counted."""
        positions = [capture.position for capture, _ in found]
        rows = rows_of(self.catalogue, known, positions, known.good_bytes or 0)
        for (capture, target), row in zip(found, rows):
            if row.hash is None or (row.place is None) != is_plain:
                self.left_out += 1
                continue
            facts = self.facts(known, file, row, capture)
            place = (row.begin, row.size() - TAIL) if row.place is None else row.place[:2]
            url = os.fsdecode(path_bytes(target or ""))
            yield _cdxj.Entry(url, capture.instant, facts, *place, name)

    def facts(self, known: Known, file: IO[bytes], row: Row, capture: Capture) -> _cdxj.Facts:
        """What the heads of a record say."""
        kind = os.fsdecode(path_bytes(capture.kind))
        try:
            with self.archive(file, row) as archive:
                record = archive[0]
                return _cdxj.facts_of(kind, record.headers, record.http)
        except (Other, self.package.WarcError):
            raise other_bytes(known) from None

    @contextlib.contextmanager
    def archive(self, file: IO[bytes], row: Row) -> Iterator[Any]:
        """The archive of a record: in memory, or if it is long in a file without a name."""
        if row.size() <= IN_MEMORY:
            with self.package.Archive(b"".join(record_at(file, row))) as archive:
                yield archive
            return
        with tempfile.TemporaryFile(dir=self.temporary, buffering=0) as out:
            for piece in record_at(file, row):
                write_all(out, piece)
            with mmap.mmap(out.fileno(), 0, access=mmap.ACCESS_READ) as data, self.package.Archive(data) as archive:
                yield archive


@contextlib.contextmanager
def sorting(out: IO[bytes], temporary: str) -> Iterator[IO[bytes]]:
    """Takes lines, and writes them in the order of their bytes when all are there."""
    words, how = ["sort", "-T", temporary], dict(os.environ, LC_ALL="C")
    with subprocess.Popen(words, stdin=subprocess.PIPE, stdout=subprocess.PIPE, env=how) as child:
        assert child.stdin is not None and child.stdout is not None
        try:
            try:
                yield child.stdin
                child.stdin.close()
            except BrokenPipeError:
                with contextlib.suppress(BrokenPipeError):
                    child.stdin.close()
                raise Trouble("sort ended before it had all lines: the index isn't whole") from None
            shutil.copyfileobj(child.stdout, out)
        except BaseException:
            child.kill()
            raise
    if child.returncode != 0:
        raise Trouble("sort ended with status %d: the index isn't whole" % child.returncode)


def put_index(indexer: Indexer, out: IO[bytes], paths: Optional[str]) -> int:
    """Writes the index, and a list of the paths of its files if that is asked for. Returns the exit status: 1 if the
    index doesn't have all captures that a reader elsewhere may see."""
    out.write(indexer.form.head.encode("ascii"))
    with indexer.catalogue.one_state(), sorting(out, indexer.temporary) as lines:
        indexer.lines(lines)
    out.flush()
    if paths is not None:
        write_paths(indexer.paths, paths)
    if indexer.left_out:
        say("not in the index: %s without a known member of its own" % counted(indexer.left_out, "capture"))
    if indexer.withheld:
        say("withheld: %s" % counted(indexer.withheld, "capture"))
    return 1 if indexer.named or indexer.left_out else 0


def write_paths(paths: Dict[str, Stored], to: str) -> None:
    """Writes a line for each file of an index: its name and its path."""
    lines = (os.fsencode(name) + b"\t" + path_bytes(path) + b"\n" for name, path in paths.items())
    with replaced(to) as out:
        out.writelines(sorted(lines))


def index(
    catalogue: Catalogue, package: Any, seen: Seen, has_11: bool, temporary: Optional[str], folder: Optional[str]
) -> Indexer:
    """What makes an index; of a folder the names of files are those below it."""
    form = CDX_11 if has_11 else CDXJ
    base = None if folder is None else os.path.abspath(folder)
    return Indexer(catalogue, package, seen, form, temporary_folder(temporary), base)
