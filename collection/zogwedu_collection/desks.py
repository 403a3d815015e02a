"""Connections to the catalogue, each used by one request at a time."""
from __future__ import annotations

import contextlib
import itertools
import os
import queue
import sqlite3
from typing import Any, Iterator, List, Optional, Sequence, Set

from .catalogue import Catalogue, Known
from .shelf import PATIENCE_SECONDS
from .texts import Stored, Trouble, escaped

# How much SQLite may do for one request, in parts of 100,000 of its own steps: some six seconds of a
# processor.
STEPS = 100_000
MOST_PARTS = 2_000


class Noting(Catalogue):
    """A catalogue that notes which files were looked up, so that answers have their names and not their paths."""

    def __init__(self, folder: str) -> None:
        self.noted: Set[Stored] = set()
        super().__init__(folder, is_read_only=True)

    def files_where(self, condition: str, values: Sequence[Any] = ()) -> List[Known]:
        found = super().files_where(condition, values)
        self.noted.update(it.path for it in found)
        return found


class Desks:
    """Connections to the catalogue. There are as many as requests at work."""

    def __init__(self, folder: str, count: int) -> None:
        self.folder = folder
        self.free: queue.LifoQueue[Optional[Noting]] = queue.LifoQueue()
        for _ in range(count):
            self.free.put(None)

    @contextlib.contextmanager
    def one(self, noted: Optional[Set[Stored]] = None) -> Iterator[Noting]:
        """A connection, with all its answers of one moment, which notes files in a set. Questions that take long are
        given up."""
        try:
            catalogue = self.free.get(timeout=PATIENCE_SECONDS)
        except queue.Empty:
            raise Trouble("too many requests at once: try again") from None
        try:
            catalogue = self.fresh(catalogue)
            catalogue.noted = set() if noted is None else noted
            parts = itertools.count()
            catalogue.base.set_progress_handler(lambda: int(next(parts) > MOST_PARTS), STEPS)
            catalogue.base.execute("BEGIN")
            try:
                yield catalogue
            finally:
                catalogue.base.execute("ROLLBACK")
            catalogue = self.kept(catalogue)
        except BaseException as error:
            # What isn't about the catalogue leaves the connection as it is.
            if isinstance(error, sqlite3.Error) and catalogue is not None:
                catalogue.base.close()
                catalogue = None
            raise
        finally:
            self.free.put(catalogue)

    def fresh(self, catalogue: Optional[Noting]) -> Noting:
        """A connection to the database that is there now."""
        if catalogue is not None and catalogue.is_there():
            return catalogue
        if catalogue is not None:
            catalogue.base.close()
        return Noting(self.folder)

    def kept(self, catalogue: Noting) -> Optional[Noting]:
        """A connection for the next request. While a run has its changes in a log, none is kept: it would keep the run
        from taking the log away, and without the log those who may only read could not open the database."""
        if catalogue.one("PRAGMA journal_mode")[0] != "wal":
            return catalogue
        catalogue.base.close()
        return None


def name_of(path: Stored) -> Stored:
    """The name of a file without its folders."""
    return os.path.basename(path)


def named(text: str, paths: Set[Stored]) -> str:
    """A text with names of files in the place of their paths."""
    for path in sorted(paths, key=len, reverse=True):
        text = text.replace(escaped(path), escaped(name_of(path)))
    return text
