"""Archives that a server keeps open: a limited number, with a limited number of bytes unpacked or joined. The Python
package zogwedu opens them."""
from __future__ import annotations

import collections
import contextlib
import dataclasses
import mmap
import os
import threading
import time
from typing import Any, Iterator, Optional, OrderedDict, Sequence, Set, Tuple, Union

from .needed import Key, Selection, Span
from .replay import Files, check_path
from .texts import Trouble, escaped, say

# How long a request waits for another one to give an archive back, or to open it.
PATIENCE_SECONDS = 20.0
# The most lines about files that were passed over.
MOST_PASSED = 1000
# Some records with fewer bytes are read into memory, each time that they are asked for.
IN_MEMORY = 16 << 20


@dataclasses.dataclass
class Held:
    """An archive on the shelf: how many of its bytes are in a temporary file, and how many use it."""

    archive: Any = None
    data: Union[mmap.mmap, bytes] = b""
    unpacked: int = 0
    users: int = 0
    is_ready: bool = False

    def close(self) -> None:
        """Closes it. Bytes that are in use all the same go with their last user."""
        if self.archive is not None:
            self.archive.__exit__(None, None, None)
        if isinstance(self.data, mmap.mmap):
            with contextlib.suppress(BufferError):
                self.data.close()


class Shelf:
    """Archives that are kept open, each of one file or of several that are joined. What wasn't used for longest goes
    first."""

    def __init__(
        self, package: Any, warc: str, temporary: Optional[str], most_archives: int, most_unpacked: int
    ) -> None:
        self.package = package
        self.warc = warc
        self.temporary = temporary
        self.most_archives = most_archives
        self.most_unpacked = most_unpacked
        self.unpacked = 0
        self.passed: Set[str] = set()
        self.held: OrderedDict[Key, Held] = collections.OrderedDict()
        self.changed = threading.Condition()

    @contextlib.contextmanager
    def lent(self, selection: Selection) -> Iterator[Any]:
        """The archive of files, or of some of their records, whose bytes are those that were read. It stays open until
        it is given back. NoMember where records can't be read by themselves."""
        for file in selection.files:
            check_path(file)
        if selection.rows is not None and selection.size() <= IN_MEMORY:
            with self.small(selection) as archive:
                yield archive
            return
        key = selection.key()
        held, is_new = self.take(key)
        try:
            if is_new:
                self.open(key, held, selection)
            yield held.archive
        finally:
            with self.changed:
                held.users -= 1
                self.changed.notify_all()

    @contextlib.contextmanager
    def small(self, selection: Selection) -> Iterator[Any]:
        """An archive of some records in memory. It has no place on the shelf."""
        data = b"".join(Files(self.warc, self.temporary).some(selection))
        with self.refused(selection):
            archive = self.package.Archive(data)
        try:
            yield archive
        finally:
            archive.__exit__(None, None, None)

    @contextlib.contextmanager
    def refused(self, selection: Selection) -> Iterator[None]:
        """Names the files of an archive that the package refuses to open."""
        try:
            yield
        except self.package.WarcError as error:
            names = ", ".join(escaped(file.path) for file in selection.files)
            raise Trouble("%s: %s" % (names, escaped(str(error)))) from None

    def in_file(self, selection: Selection, spans: Sequence[Span]) -> Optional[Sequence[Span]]:
        """Where bytes of an archive that the caller has are in its file, if they are neither unpacked nor joined."""
        if selection.rows is not None:
            return selection.in_file(spans)
        with self.changed:
            held = self.held.get(selection.key())
            return None if held is None or held.unpacked or len(selection.files) > 1 else spans

    def counts(self) -> Tuple[int, int]:
        """How many archives are open, and how many bytes are unpacked, joined or on their way out."""
        with self.changed:
            return len(self.held), self.unpacked

    def note_passed(self, lines: Sequence[str]) -> None:
        """Says which files were passed over, each once: who asks again and again fills no log."""
        with self.changed:
            new = [line for line in dict.fromkeys(lines) if line not in self.passed]
            self.passed.update(new if len(self.passed) < MOST_PASSED else ())
        for line in new if len(self.passed) < MOST_PASSED else ():
            say("passed over: " + line)

    def take(self, key: Key) -> Tuple[Held, bool]:
        """The archive of a key, and whether the caller has to open it. One that another request opens is waited for."""
        end = time.monotonic() + PATIENCE_SECONDS
        with self.changed:
            while True:
                held = self.held.get(key)
                if held is None and (len(self.held) < self.most_archives or self.drop_idle(False)):
                    held = self.held[key] = Held(users=1)
                    return held, True
                if held is not None and held.is_ready:
                    held.users += 1
                    self.held.move_to_end(key)
                    return held, False
                if not self.changed.wait(max(end - time.monotonic(), 0)):
                    raise Trouble("all archives that may be open are in use: try again")

    def close(self) -> None:
        """Closes the archives that nobody uses."""
        with self.changed:
            while self.drop_idle(False):
                pass

    def drop_idle(self, is_unpacked: bool) -> bool:
        """Closes the archive that nobody has used for longest, of those that are unpacked. The caller has the lock."""
        for key, held in self.held.items():
            if held.users == 0 and (held.unpacked or not is_unpacked):
                self.drop(key, held)
                return True
        return False

    def drop(self, key: Key, held: Held) -> None:
        """Closes an archive. The caller has the lock."""
        del self.held[key]
        self.unpacked -= held.unpacked
        held.close()

    def open(self, key: Key, held: Held, selection: Selection) -> None:
        """Opens an archive that has its place on the shelf. Where that fails it loses the place."""
        files = Files(self.warc, self.temporary, lambda count: self.reserve(held, count))
        try:
            with self.refused(selection), files.joined(selection) as source:
                if os.fstat(source.fileno()).st_size:
                    held.data = mmap.mmap(source.fileno(), 0, access=mmap.ACCESS_READ)
                held.archive = self.package.Archive(held.data)
        except BaseException:
            with self.changed:
                self.drop(key, held)
                self.changed.notify_all()
            raise
        with self.changed:
            held.is_ready = True
            self.changed.notify_all()

    def reserve(self, held: Held, count: int) -> None:
        """Counts bytes before they are unpacked or joined."""
        self.take_room(count)
        held.unpacked += count

    def take_room(self, count: int) -> None:
        """Counts bytes before they are written to a temporary file. Archives that nobody uses make room for them."""
        with self.changed:
            while self.unpacked + count > self.most_unpacked:
                if not self.drop_idle(True):
                    raise Trouble("more than %d bytes would be unpacked: see --unpacked" % self.most_unpacked)
            self.unpacked += count

    def give_room(self, count: int) -> None:
        """Counts bytes that aren't in a temporary file any more."""
        with self.changed:
            self.unpacked -= count
            self.changed.notify_all()
