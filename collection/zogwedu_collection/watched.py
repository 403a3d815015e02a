"""What a collection is made of: the folders, files and lists that were named to `run`, and when each was read."""
from __future__ import annotations

import dataclasses
import os
from typing import Any, Dict, List, Mapping, Optional, Sequence

from .catalogue import Catalogue
from .states import as_list
from .texts import now, real_path, stored_path

FOLDER, FILE, LIST, MANIFEST = "folder", "file", "list", "manifest"
# What names files: a list of names, and one of checksums.
NAMING = (LIST, MANIFEST)
COLUMNS = "path, kind, given_in, added, read_on, trouble"
NOT_THERE = "wasn't there"


@dataclasses.dataclass(frozen=True)
class Watched:
    """A folder, a file, a list of files or one of checksums. `given_in` is the folder that relative names of a list of
    files are meant from, and `trouble` says what kept the last run from reading all of it."""

    path: str
    kind: str
    given_in: str
    added: Optional[str] = None
    read_on: Optional[str] = None
    trouble: Optional[str] = None


def watched(catalogue: Catalogue) -> List[Watched]:
    """What is watched, in the order in which it was named."""
    rows = catalogue.rows("SELECT %s FROM watched ORDER BY rowid" % COLUMNS)
    return [Watched(real_path(row[0]), row[1], real_path(row[2]), *row[3:]) for row in rows]


def watch(catalogue: Catalogue, paths: Sequence[str], lists: Sequence[str], manifests: Sequence[str]) -> None:
    """Adds to what is watched. What was watched before stays: a folder that isn't watched any more would be good for
    ever."""
    here = os.getcwd()
    named = [(os.path.abspath(path), kind_of(path)) for path in paths]
    named += [(os.path.abspath(path), kind) for kind, them in zip(NAMING, (lists, manifests)) for path in them]
    for path, kind in named:
        add(catalogue, Watched(path, kind, here, now()))


def kind_of(path: str) -> str:
    """What a path is. One that isn't there is taken for a folder that isn't mounted."""
    return FILE if os.path.exists(path) and not os.path.isdir(path) else FOLDER


def add(catalogue: Catalogue, it: Watched) -> None:
    """Adds a folder, a file or a list. A list that is named again has its relative names from the new place."""
    path, given_in = stored_path(it.path), stored_path(it.given_in)
    here = "path = ? AND CASE WHEN kind IN (%s) THEN kind ELSE '' END = ?" % as_list(NAMING)
    kind = it.kind if it.kind in NAMING else ""
    known = catalogue.one("SELECT 1 FROM watched WHERE " + here, (path, kind))
    if known is None:
        values = (path, it.kind, given_in, it.added, it.read_on, it.trouble)
        catalogue.base.execute("INSERT INTO watched (%s) VALUES (?, ?, ?, ?, ?, ?)" % COLUMNS, values)
    else:
        catalogue.base.execute("UPDATE watched SET given_in = ? WHERE " + here, (given_in, path, kind))


def note_reading(catalogue: Catalogue, troubles: Mapping[str, str]) -> None:
    """Notes which were read in this run, and what kept others from it. A folder is read if all below it is."""
    for it in watched(catalogue):
        trouble = trouble_of(it.path, troubles)
        kind = it.kind if it.kind in NAMING or not os.path.exists(it.path) else kind_of(it.path)
        catalogue.base.execute(
            "UPDATE watched SET kind = ?, trouble = ?, read_on = ? WHERE path = ? AND kind = ?",
            (kind, trouble, it.read_on if trouble else now(), stored_path(it.path), it.kind),
        )


def trouble_of(path: str, troubles: Mapping[str, str]) -> Optional[str]:
    """What kept a run from reading a path, or something below it."""
    if path in troubles:
        return troubles[path]
    below = sorted(name for name in troubles if name.startswith(path.rstrip("/") + "/"))
    return "%s: %s" % (below[0], troubles[below[0]]) if below else None


def end_watch(catalogue: Catalogue, paths: Sequence[str]) -> List[Watched]:
    """Ends the watch of folders and lists, and of files that aren't there. Returns what isn't watched any more."""
    ended = [it for it in watched(catalogue) if it.path in paths and not (it.kind == FILE and os.path.exists(it.path))]
    for it in ended:
        catalogue.base.execute("DELETE FROM watched WHERE path = ? AND kind = ?", (stored_path(it.path), it.kind))
        if it.kind == MANIFEST:
            catalogue.base.execute("DELETE FROM stated WHERE manifest = ?", (stored_path(it.path),))
    return ended


def carry_over(catalogue: Catalogue) -> None:
    """Watches what a catalogue of an earlier version had in its settings. When that was read isn't known."""
    given_in = catalogue.setting("lists_from") or os.getcwd()
    for name, kind in (("paths", FOLDER), ("lists", LIST)):
        for path in catalogue.setting(name) or []:
            add(catalogue, Watched(path, kind if kind == LIST else kind_of(path), given_in))
    catalogue.base.execute("DELETE FROM settings WHERE name IN ('paths', 'lists', 'lists_from')")


def values_of(it: Watched) -> Dict[str, Any]:
    """A folder, a file or a list as JSON has it."""
    about: Dict[str, Any] = {"path": it.path, "kind": it.kind, "added": it.added, "read_on": it.read_on}
    return dict(about, is_there=it.trouble != NOT_THERE, trouble=it.trouble)
