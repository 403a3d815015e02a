"""What a night was, for Prometheus: a file for the textfile collector of its node exporter."""
from __future__ import annotations

import os
from typing import Dict, Iterator, Optional, Tuple

from .ages import last_end, oldest, seconds_at
from .alarm import acknowledged
from .catalogue import Catalogue
from .disk import written
from .states import STATES
from .texts import Trouble, shown
from .watched import watched

PREFIX = "warc_collection_"
# What each metric is. A time is in seconds since 1970.
ABOUT = {
    "files": "Files of the collection by state.",
    "bytes": "Bytes of the files of the collection by state.",
    "acknowledged_files": "Files whose state somebody has acknowledged.",
    "unread_folders": "Folders and lists of which the last run couldn't read all.",
    "oldest_reading_timestamp_seconds": "When the file that was read longest ago was read.",
    "last_run_end_timestamp_seconds": "When the last run that came to its end ended.",
    "last_run_duration_seconds": "How long that run took.",
}
Values = Dict[Tuple[str, Optional[str]], int]


def quoted(value: str) -> str:
    """A value of a label."""
    return '"%s"' % value.replace("\\", "\\\\").replace('"', '\\"').replace("\n", "\\n")


def values_of(catalogue: Catalogue) -> Values:
    """The values by name and state. What isn't known isn't there: no reading, or no run."""
    found: Values = {(name, state): 0 for name in ("files", "bytes") for state in STATES}
    for state, count, size in catalogue.rows(
        "SELECT state, count(*), coalesce(sum(size), 0) FROM files GROUP BY state"
    ):
        found["files", state], found["bytes", state] = count, size
    found["acknowledged_files", None] = acknowledged(catalogue)
    found["unread_folders", None] = sum(it.trouble is not None for it in watched(catalogue))
    first, last = oldest(catalogue), last_end(catalogue)
    if first is not None:
        found["oldest_reading_timestamp_seconds", None] = seconds_at(first["read_on"])
    if last is not None:
        found["last_run_end_timestamp_seconds", None] = seconds_at(last["ended"])
        found["last_run_duration_seconds", None] = last["seconds"]
    return found


def lines_of(catalogue: Catalogue) -> Iterator[str]:
    """The lines of the file. The folder of the catalogue distinguishes the collections of one machine."""
    values, folder = values_of(catalogue), quoted(shown(catalogue.folder))
    for name, about in ABOUT.items():
        yield "# HELP %s%s %s\n# TYPE %s%s gauge\n" % (PREFIX, name, about, PREFIX, name)
        for (metric, state), value in values.items():
            if metric == name:
                labels = "catalogue=%s" % folder + ("" if state is None else ',state="%s"' % state)
                yield "%s%s{%s} %d\n" % (PREFIX, name, labels, value)


def check_metrics(path: Optional[str]) -> None:
    """Refuses a file whose folder isn't there, before anything is read."""
    folder = os.path.dirname(os.path.abspath(path or "x"))
    if not os.path.isdir(folder):
        raise Trouble("--metrics: %s: No such directory" % shown(folder), 2)


def write_metrics(catalogue: Catalogue, path: Optional[str]) -> None:
    """Writes the file, if one is asked for. It is replaced as a whole, so that nobody reads a half of it."""
    if path is not None:
        with written(path) as out:
            out.writelines(line.encode("utf-8") for line in lines_of(catalogue))
