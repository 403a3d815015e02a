"""How far a run is, for somebody who looks at a terminal: bytes, and the time that is left."""
from __future__ import annotations

import importlib
import sys
import time
from typing import Any, Optional

from .ages import of_bytes, told_time
from .messages import put_line

# How long it takes from a line to the next one, in seconds.
LINE_SECONDS = 10.0


def bar_of(total: int) -> Any:
    """The bar of python3-tqdm, or None where that isn't there."""
    try:
        package = importlib.import_module("tqdm")
    except ImportError:
        return None
    return package.tqdm(total=total, unit="B", unit_scale=True, dynamic_ncols=True, leave=False, file=sys.stderr)


class Progress:
    """How many bytes of a run are read. Without python3-tqdm it is a line now and then, and one at the end."""

    def __init__(self, total: int, is_seen: bool) -> None:
        self.total = total
        self.is_seen = is_seen
        self.done = 0
        self.begun = self.said = time.monotonic()
        self.bar = bar_of(total) if is_seen else None

    def add(self, count: int) -> None:
        """Notes bytes that are read."""
        self.done += count
        if self.bar is not None:
            self.bar.update(count)
        elif self.is_seen and time.monotonic() - self.said > LINE_SECONDS:
            self.said = time.monotonic()
            put_line(self.line(self.left()))

    def left(self) -> Optional[int]:
        """How many seconds the rest takes, if it goes on so; None where nothing is known."""
        seconds = time.monotonic() - self.begun
        return int(seconds * (self.total - self.done) / self.done) if self.done else None

    def line(self, left: Optional[int]) -> str:
        """How far the run is."""
        read = "read " + of_bytes(self.done, self.total)
        return read if left is None else "%s; %s left" % (read, told_time(left))

    def clear(self) -> None:
        """Makes room for another line."""
        if self.bar is not None:
            self.bar.clear()

    def close(self) -> None:
        """Ends it."""
        if self.bar is not None:
            self.bar.close()
        elif self.is_seen:
            put_line(self.line(None))
