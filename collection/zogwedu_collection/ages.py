"""How old readings are, and which files are to be read again, so that each is read once in a time."""
from __future__ import annotations

import calendar
import re
import time
from typing import Any, Dict, List, Optional

from .catalogue import Catalogue, Run
from .disk import Stamp
from .states import TRIED_AGAIN, as_list
from .texts import escaped, real_path

UNITS = {"s": 1, "m": 60, "h": 3600, "d": 86_400, "w": 604_800}
AGE = re.compile(r"(\d{1,9})([smhdw])", re.ASCII)
SIZES = ("B", "kB", "MB", "GB", "TB", "PB", "EB")
LAST = "SELECT run, began, ended FROM runs WHERE ended IS NOT NULL ORDER BY run DESC LIMIT 1"
OLDEST = (
    "SELECT path, read_on FROM readings JOIN files USING (file) WHERE state <> 'gone' ORDER BY read_on, path LIMIT 1"
)


def seconds_in(text: str) -> int:
    """A time such as 36h or 30d, in seconds."""
    found = AGE.fullmatch(text)
    if found is None or not int(found[1]):
        raise ValueError("not a time such as 36h or 30d: %s" % text)
    return int(found[1]) * UNITS[found[2]]


def seconds_at(date: str) -> int:
    """A time of the catalogue, in seconds."""
    return calendar.timegm(time.strptime(date, "%Y-%m-%dT%H:%M:%SZ"))


def told_time(seconds: int) -> str:
    """A length of time, as people say it."""
    hours, rest = divmod(max(seconds, 0), 3600)
    return "%d h %d min" % (hours, rest // 60) if hours else "%d min %d s" % divmod(rest, 60)


def of_bytes(part: int, whole: int) -> str:
    """A part of some bytes, in the unit of the whole."""
    power = min(max((len(str(whole)) - 1) // 3, 0), len(SIZES) - 1)
    return "%.1f of %.1f %s" % (part / 1000**power, whole / 1000**power, SIZES[power])


def last_end(catalogue: Catalogue) -> Optional[Dict[str, Any]]:
    """The last run that came to its end: when that was, and how long it took."""
    row = catalogue.one(LAST)
    if row is None:
        return None
    seconds = max(seconds_at(row[2]) - seconds_at(row[1]), 0)
    return {"run": row[0], "began": row[1], "ended": row[2], "seconds": seconds}


def oldest(catalogue: Catalogue) -> Optional[Dict[str, Any]]:
    """The file that was read longest ago."""
    row = catalogue.one(OLDEST)
    return None if row is None else {"path": row[0], "read_on": row[1]}


def is_late(catalogue: Catalogue, most: Optional[int]) -> bool:
    """Whether the last run ended longer ago than the time in `most`, or none did."""
    last = last_end(catalogue)
    return most is not None and (last is None or time.time() - seconds_at(last["ended"]) > most)


def age_lines(catalogue: Catalogue, most: Optional[int]) -> List[str]:
    """When the last run ended, and the file that was read longest ago."""
    last, first = last_end(catalogue), oldest(catalogue)
    late = "late\t" if is_late(catalogue, most) else ""
    about = "ended %s, after %s" % (last["ended"], told_time(last["seconds"])) if last else "none came to its end"
    lines = ["%slast run\t%s\t%s\n" % (late, last["run"] if last else "-", about)]
    if first:
        lines.append("oldest\t%s\tread on %s\n" % (escaped(first["path"]), first["read_on"]))
    return lines


def note_due(catalogue: Catalogue, run: Run, stamps: Dict[str, Optional[Stamp]], within: int) -> None:
    """Notes which files are read again in a run: those that were read longest ago, as many bytes as it
    takes that each file is read once within a time. A run that goes on has them already."""
    if catalogue.one("SELECT 1 FROM files WHERE due = ?", (run.number,)):
        return
    before = catalogue.one("SELECT began FROM runs WHERE run < ? ORDER BY run DESC LIMIT 1", (run.number,))
    if before is None:
        return
    now = time.time()
    share = min(max(now - seconds_at(before[0]), 0) / within, 1)
    left = share * sum(stamp.size for stamp in stamps.values() if stamp is not None)
    query = "SELECT file, path, read_on FROM files JOIN readings USING (file) WHERE state NOT IN (%s)"
    for file, path, read_on in catalogue.rows(query % as_list(TRIED_AGAIN) + " ORDER BY read_on, file"):
        stamp = stamps.get(real_path(path))
        if left <= 0 and seconds_at(read_on) > now - within:
            break
        if stamp is not None:
            left -= max(stamp.size, 1)
            catalogue.base.execute("UPDATE files SET due = ? WHERE file = ?", (run.number, file))


def told_due(catalogue: Catalogue, run: Run, stamps: Dict[str, Optional[Stamp]]) -> str:
    """How much is read again in a run."""
    there = {path: stamp.size for path, stamp in stamps.items() if stamp is not None}
    due = [real_path(path) for path, in catalogue.rows("SELECT path FROM files WHERE due = ?", (run.number,))]
    sizes = of_bytes(sum(there.get(path, 0) for path in due), sum(there.values()))
    return "reread {:,} of {:,} files, {}".format(len(due), len(there), sizes)
