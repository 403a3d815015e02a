"""Lines for people: on standard error, and in a log where one is asked for. What is held back on a good night is
printed if the night wasn't good."""
from __future__ import annotations

import sys
from typing import TYPE_CHECKING, Callable, List, Optional

if TYPE_CHECKING:
    from .progress import Progress

# The levels of a line, as the module logging has them, which takes time to be imported.
INFO, WARNING, ERROR = 20, 30, 40
# The most lines that are held back.
MOST_HELD = 1000


def put_line(line: str) -> None:
    """A line on standard error. Where it can't be written there is nobody to say so to."""
    try:
        print("warc-collection: " + line, file=sys.stderr, flush=True)
    except (OSError, ValueError):
        return


class Messages:
    """Where lines go: to standard error at once, or held back until it is known how a command ends; and to a log."""

    def __init__(self) -> None:
        self.is_quiet = False
        self.held: List[str] = []
        self.left_out = 0
        self.log: Optional[Callable[[str, int], None]] = None
        self.progress: Optional[Progress] = None

    def say(self, line: str, level: int) -> None:
        """A line for people."""
        self.note(line, level)
        if not self.is_quiet:
            self.put(line)
        elif len(self.held) < MOST_HELD:
            self.held.append(line)
        else:
            self.left_out += 1

    def put(self, line: str) -> None:
        """Prints a line, between two looks of the progress."""
        if self.progress is not None:
            self.progress.clear()
        put_line(line)

    def note(self, line: str, level: int) -> None:
        """A line for the log alone. A log that can't be written to is said once, and ends nothing."""
        if self.log is None:
            return
        try:
            self.log(plain(line), level)
        except (OSError, ValueError) as error:
            self.log = None
            self.put("--log: %s; nothing more is logged" % (getattr(error, "strerror", None) or error))

    def end(self, status: int) -> None:
        """Prints what was held back, unless all is well."""
        held, left_out = self.held, self.left_out
        self.is_quiet, self.held, self.left_out = False, [], 0
        if status:
            for line in held:
                put_line(line)
            if left_out:
                put_line("%d lines more are left out" % left_out)


def plain(line: str) -> str:
    """A line without what UTF-8 can't say."""
    return line.encode("utf-8", "backslashreplace").decode("utf-8")


MESSAGES = Messages()


def say(line: str) -> None:
    """A line about something that isn't as it should be."""
    MESSAGES.say(line, WARNING)


def inform(line: str) -> None:
    """A line about what is done."""
    MESSAGES.say(line, INFO)
