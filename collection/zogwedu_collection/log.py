"""The log of what a command does: a file, or the system's log."""
from __future__ import annotations

import logging
import logging.handlers
import time
from typing import Callable

from .texts import Trouble, shown

SYSLOG = "syslog"
ADDRESS = "/dev/log"
DATE = "%Y-%m-%dT%H:%M:%SZ"


class File(logging.handlers.WatchedFileHandler):
    """A file, which is opened anew where it was renamed, as logrotate does. Lines are added to it."""

    def handleError(self, record: logging.LogRecord) -> None:
        """Says why nothing was written, in the place of a traceback on standard error."""
        raise


class System(logging.handlers.SysLogHandler):
    """The system's log, which knows the time and the level by itself."""

    ident = "warc-collection: "

    def handleError(self, record: logging.LogRecord) -> None:
        """Says why nothing was written, in the place of a traceback on standard error."""
        raise


def opened_log(where: str, address: str = ADDRESS) -> Callable[[str, int], None]:
    """Opens a log: the system's, or a file that has a time (in UTC) and a level in each line. Returns what adds a line
    of a level, or fails with an OSError."""
    try:
        log = System(address) if where == SYSLOG else File(where, encoding="utf-8")
    except OSError as error:
        raise Trouble("--log: %s: %s" % (shown(address if where == SYSLOG else where), error.strerror), 2) from None
    form = logging.Formatter("%(message)s" if where == SYSLOG else "%(asctime)s %(levelname)s %(message)s", DATE)
    form.converter = time.gmtime
    log.setFormatter(form)

    def note(line: str, level: int) -> None:
        log.handle(logging.LogRecord("warc-collection", level, "", 0, line, None, None))

    return note
