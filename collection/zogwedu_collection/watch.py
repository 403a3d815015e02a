"""What an operator sees of a server: counts of its answers, and a line for each in a log if one is wanted."""
from __future__ import annotations

import collections
import threading
import time
from typing import Any, Counter, Dict, Optional, Tuple

from .texts import Trouble, escaped, say, shown

METRICS = "text/plain; version=0.0.4; charset=utf-8"
ABOUT = {
    "warc_requests_total": ("counter", "answers by the kind of the question and by status"),
    "warc_request_seconds_total": ("counter", "seconds until answers began, by the kind of the question"),
    "warc_open_archives": ("gauge", "archives that are open"),
    "warc_unpacked_bytes": ("gauge", "bytes in temporary files"),
    "warc_access_rules_taken": ("gauge", "1 if the access rules are those of the file, 0 if it couldn't be taken"),
}


class Watch:
    """Counts of answers, and the log. It names no URI but in the log."""

    def __init__(self, log: Optional[str] = None) -> None:
        self.path = log
        self.lock = threading.Lock()
        self.counts: Counter[Tuple[str, int]] = collections.Counter()
        self.seconds: Dict[str, float] = collections.defaultdict(float)
        self.file: Any = None
        self.open_log()

    def open_log(self) -> None:
        """Opens the log anew, as after it was moved away."""
        if self.path is None:
            return
        try:
            file = open(self.path, "a", encoding="utf-8", errors="backslashreplace")
        except OSError as error:
            raise Trouble("%s: %s" % (shown(self.path), error.strerror)) from None
        with self.lock:
            before, self.file = self.file, file
        if before is not None:
            before.close()

    def note(self, kind: str, status: int, seconds: float) -> None:
        with self.lock:
            self.counts[kind, status] += 1
            self.seconds[kind] += seconds

    def log(self, address: str, request: str, status: int, length: str, seconds: float) -> None:
        """Writes a line of the log, in the common form with the seconds at its end."""
        if self.file is None:
            return
        when = time.strftime("%d/%b/%Y:%H:%M:%S +0000", time.gmtime())
        words = escaped(address), when, escaped(request).replace('"', "%22"), status, length, seconds
        try:
            with self.lock:
                self.file.write('%s - - [%s] "%s" %d %s %.3f\n' % words)
                self.file.flush()
        except OSError as error:
            say("%s: %s" % (shown(self.path or ""), error.strerror))

    def metrics(self, archives: int, unpacked: int, is_taken: bool) -> str:
        """The counts, as Prometheus reads them."""
        with self.lock:
            counts, seconds = sorted(self.counts.items()), sorted(self.seconds.items())
        lines = {
            "warc_requests_total": ['{kind="%s",status="%d"} %d' % (*key, count) for key, count in counts],
            "warc_request_seconds_total": ['{kind="%s"} %.3f' % pair for pair in seconds],
            "warc_open_archives": [" %d" % archives],
            "warc_unpacked_bytes": [" %d" % unpacked],
            "warc_access_rules_taken": [" %d" % is_taken],
        }
        heads = {name: "# HELP %s %s\n# TYPE %s %s\n" % (name, it[1], name, it[0]) for name, it in ABOUT.items()}
        return "".join(heads[name] + "".join(name + line + "\n" for line in lines[name]) for name in ABOUT)
