"""Looking for files, and which of them are to be read."""
from __future__ import annotations

import collections
import dataclasses
import errno
import functools
import itertools
import os
from typing import AbstractSet, Callable, Dict, Iterable, Iterator, List, Optional, Sequence, Set, Tuple

from .catalogue import Catalogue, Run
from .disk import Stamp, is_regular, stamp_of
from .job import Item
from .manifest import BadLine, algorithms_stated, note_stated, read_manifest
from .states import TRIED_AGAIN
from .texts import counted, inform, real_path, say, shown, stored_path
from .watched import LIST, MANIFEST, NAMING, NOT_THERE, Watched

SUFFIXES = (b".warc", b".warc.gz", b".warc.zst", b".wacz")
# What the system says of a file that isn't there. Of any other error nothing follows.
# What a file takes at least, and how fast it is read: for how many files are a job.
FILE_SECONDS = 0.1
BYTES_A_SECOND = 100e6
# A run asks before it takes more files of a folder for gone than this, and more than a tenth of them.
MOST_GONE = 10
MOST_PART = 10
NO_FILE = (errno.ENOENT, errno.ENOTDIR)
UNWATCHED = "no folder and no list of the collection has it: forget it, or run its folder"


@dataclasses.dataclass
class Found:
    """The files of a collection with what the system says of each (None for one that isn't there), what couldn't be
    read and why, the names that nothing has, with the list of each, the checksums that each manifest states, and the
    files that lists name, with the list of each."""

    files: Dict[str, Optional[Stamp]] = dataclasses.field(default_factory=dict)
    unread: Dict[str, str] = dataclasses.field(default_factory=dict)
    missing: Dict[str, str] = dataclasses.field(default_factory=dict)
    stated: Dict[str, Dict[Tuple[str, str], str]] = dataclasses.field(default_factory=dict)
    listed: Dict[str, str] = dataclasses.field(default_factory=dict)

    def add(self, name: str, is_asked_for: bool, listed_in: Optional[str] = None) -> None:
        """Adds a file. A name that is no regular file's is left out: reading a pipe or a device may never end."""
        is_file = False
        try:
            is_file = is_regular(name)
            self.files[name] = stamp_of(os.stat(name)) if is_file else None
            why, is_unknown = None if is_file else "not a regular file; it is left out", False
        except OSError as error:
            self.files[name], why = None, error.strerror or str(error)
            is_unknown = error.errno not in NO_FILE
            if listed_in is not None and not is_unknown:
                self.missing[name] = listed_in
        if why is not None:
            say("%s: %s" % (shown(name), why))
            if is_asked_for or is_unknown:
                self.unread[name] = why if is_file or is_unknown else NOT_THERE

    def troubles(self) -> Dict[str, str]:
        """What kept from reading all: of paths, and of lists that have names of no file."""
        lists = collections.Counter(self.missing.values())
        return {**{path: "%s of it isn't there" % counted(lists[path], "name") for path in lists}, **self.unread}

    def note(self, error: OSError) -> None:
        """Notes a folder that couldn't be read."""
        self.unread[os.fsdecode(error.filename)] = error.strerror or str(error)
        say("%s: %s" % (shown(os.fsdecode(error.filename)), error.strerror))


def files_below(folder: str, top: Sequence[str], found: Found) -> Iterator[str]:
    """The archives below a folder. A link to a folder isn't entered, which is said where it leads out of the folders of
    the collection (`top`, without links)."""
    for at, folders, names in os.walk(folder, onerror=found.note):
        folders.sort()
        for path in (os.path.join(at, name) for name in folders):
            if os.path.islink(path) and not is_below(os.path.realpath(path), top):
                say("%s: a link to a folder; it isn't entered, unless it is named" % shown(path))
        yield from (os.path.join(at, name) for name in sorted(names) if is_archive(name))


def listed_files(path: str, folder: str, found: Found) -> List[str]:
    """The files that a list names: a name a line, or names that end with a zero byte. Relative ones are of a folder."""
    try:
        with open(path, "rb") as file:
            data = file.read()
    except OSError as error:
        found.note(error)
        return []
    names = data.split(b"\0" if b"\0" in data else b"\n")
    return [os.path.abspath(os.path.join(folder, os.fsdecode(name))) for name in names if name]


def stated_in(path: str, found: Found) -> Dict[Tuple[str, str], str]:
    """The checksums that a manifest states. Where a line of it is bad, it states nothing, and what it stated in an
    earlier run stays."""
    try:
        found.stated[path] = read_manifest(path)
    except OSError as error:
        found.note(error)
    except BadLine as error:
        found.unread[path] = str(error)
        say("%s: %s" % (shown(path), error))
    return found.stated.get(path, {})


def all_listed(whole: Sequence[Watched], found: Found) -> Dict[str, str]:
    """The files that lists name, of all that is watched, with the list of each. Of a manifest they are the archives."""
    names = {name: it.path for it in whole if it.kind == LIST for name in listed_files(it.path, it.given_in, found)}
    for it in whole:
        if it.kind == MANIFEST:
            archives = (name for name, _ in stated_in(it.path, found) if is_archive(name))
            names.update((name, it.path) for name in archives if name not in names)
    return names


def is_archive(path: str) -> bool:
    """Whether a name is that of an archive."""
    return os.fsencode(path).lower().endswith(SUFFIXES)


def plain_paths(whole: Sequence[Watched]) -> List[str]:
    """The folders and files of all that is watched."""
    return [it.path for it in whole if it.kind not in NAMING]


def found_files(whole: Sequence[Watched]) -> Found:
    """Each file of the collection once."""
    found, paths = Found(), plain_paths(whole)
    folders = [path for path in paths if os.path.isdir(path)]
    top = [os.path.realpath(folder) for folder in folders]
    below = (name for folder in folders for name in files_below(folder, top, found))
    named = dict.fromkeys(path for path in paths if not os.path.isdir(path))
    for name in itertools.chain(below, named):
        found.add(name, name in named)
    found.listed = all_listed(whole, found)
    for name, listed_in in found.listed.items():
        if listed_in not in found.stated:
            found.add(name, name in named, listed_in)
        elif name not in found.files:
            found.add(name, False)
    return found


def is_below(path: str, folders: Iterable[str]) -> bool:
    return any(path == folder or path.startswith(folder.rstrip("/") + "/") for folder in folders)


@dataclasses.dataclass(frozen=True)
class Listed:
    """A file as the catalogue has it: also what it was when it was there last, if it is gone."""

    file: int
    path: str
    state: str
    detail: str
    stamp: Optional[Stamp]
    state_there: Optional[str]
    detail_there: Optional[str]


def listed(catalogue: Catalogue) -> Dict[str, Listed]:
    """The files of the catalogue by their paths."""
    query = (
        "SELECT file, path, state, detail, size, modified, changed, inode, seen, state_there, detail_there FROM files"
    )
    found = {}
    for file, path, state, detail, *seen, state_there, detail_there in catalogue.rows(query):
        stamp = None if None in seen[:4] else Stamp(*seen)
        it = Listed(file, real_path(path), state, detail or "", stamp, state_there, detail_there)
        found[it.path] = it
    return found


def note_changes(catalogue: Catalogue, run: int, found: Found, whole: Sequence[Watched], may_be_missing: bool) -> None:
    """Adds new files to the catalogue, and marks those that aren't there any more, that nothing has any more, or that
    are back. A file that a manifest names and that was never there is one that isn't there any more."""
    known, paths = listed(catalogue), plain_paths(whole)
    found.missing = {name: listed_in for name, listed_in in found.missing.items() if name not in known}
    awaited = {name for stated in found.stated.values() for name, _ in stated if name in found.files}
    new = [path for path, stamp in found.files.items() if (stamp or path in awaited) and path not in known]
    known.update((it.path, it) for it in add_new(catalogue, new))
    lost = [it for it in known.values() if it.state != "gone" and is_lost(it.path, found, paths)]
    kept: Set[str] = set() if may_be_missing else too_many(lost, known, found, groups(found, whole), new)
    gone = {it.path for it in lost} - kept
    for it in known.values():
        if it.path in gone:
            mark(catalogue, run, it, "gone")
        elif it.state == "gone":
            bring_back(catalogue, run, it, found)
        elif is_unwatched(it.path, found, whole):
            mark(catalogue, run, it, "unread", UNWATCHED)


def add_new(catalogue: Catalogue, paths: Sequence[str]) -> List[Listed]:
    """Adds files to the catalogue."""
    number = catalogue.one("SELECT coalesce(max(file), 0) FROM files")[0] + 1
    new = [Listed(number + place, path, "unread", "", None, None, None) for place, path in enumerate(paths)]
    catalogue.base.executemany(
        "INSERT INTO files (file, path, state, detail) VALUES (?, ?, 'unread', '')",
        ((it.file, stored_path(it.path)) for it in new),
    )
    return new


Group = Tuple[str, Callable[[str], bool]]


def groups(found: Found, whole: Sequence[Watched]) -> List[Group]:
    """What is on one disk, as it seems: a folder, or what a list names. Each with what says whether a file is in it."""
    made: List[Group] = [(path, functools.partial(is_in, path)) for path in plain_paths(whole)]
    lists: Dict[str, Set[str]] = collections.defaultdict(set)
    for name, listed_in in found.listed.items():
        lists[listed_in].add(name)
    return made + [(path, names.__contains__) for path, names in lists.items()]


def is_in(folder: str, path: str) -> bool:
    return is_below(path, [folder])


def too_many(
    lost: Sequence[Listed], known: Dict[str, Listed], found: Found, parts: Sequence[Group], new: Sequence[str]
) -> Set[str]:
    """The files whose states stay, since more than a tenth of the files of a folder or a list aren't there: that is a
    mount which is missing rather than files which were removed. A file that seems to have been moved isn't one of
    them."""
    moved = {(os.path.basename(path), size_of(found, path)) for path in new if found.files[path] is not None}
    away = [it for it in lost if (os.path.basename(it.path), it.stamp and it.stamp.size) not in moved]
    kept: Set[str] = set()
    for folder, has in parts:
        here = [it.path for it in away if has(it.path)]
        count = sum(it.state != "gone" and has(it.path) for it in known.values())
        if len(here) > MOST_GONE and MOST_PART * len(here) > count:
            found.unread[folder] = "%d of its %s aren't there: see --allow-missing" % (
                len(here),
                counted(count, "file"),
            )
            say("%s: %s" % (shown(folder), found.unread[folder]))
            kept.update(here)
    return kept


def size_of(found: Found, path: str) -> Optional[int]:
    """The size of a file that was found."""
    stamp = found.files.get(path)
    return None if stamp is None else stamp.size


def mark(catalogue: Catalogue, run: int, it: Listed, state: str, detail: str = "") -> None:
    """Gives a file a state that no reading gave it, and notes the change, and what it was before."""
    if it.state == state:
        return
    values = (state, detail, it.state, it.detail, it.file)
    change = "UPDATE files SET state = ?, detail = ?, state_there = ?, detail_there = ? WHERE file = ?"
    catalogue.base.execute(change, values)
    put_change(catalogue, run, it, "gone" if state == "gone" else "same", state)


def put_change(catalogue: Catalogue, run: int, it: Listed, change: str, state: str) -> None:
    """Notes how a file changed."""
    catalogue.base.execute(
        "INSERT OR REPLACE INTO changes (run, file, change, state_before, state_after) VALUES (?, ?, ?, ?, ?)",
        (run, it.file, change, it.state, state),
    )


def bring_back(catalogue: Catalogue, run: int, it: Listed, found: Found) -> None:
    """Gives a file that was gone the state that it had, if it is back and the same."""
    there = found.files.get(it.path)
    if there is None or it.stamp is None or it.state_there is None or not it.stamp.is_of(there):
        return
    values = (it.state_there, it.detail_there or "", it.file)
    catalogue.base.execute("UPDATE files SET state = ?, detail = ? WHERE file = ?", values)
    put_change(catalogue, run, it, "back", it.state_there)


def is_lost(path: str, found: Found, paths: Sequence[str]) -> bool:
    """Whether a file that was known isn't there any more. Of a folder that couldn't be read nothing is known."""
    if is_below(path, found.unread):
        return False
    return found.files[path] is None if path in found.files else is_below(path, paths)


def is_unwatched(path: str, found: Found, whole: Sequence[Watched]) -> bool:
    """Whether no folder has a file any more, nor a list. A list that can't be read may have any file. Without this a
    file that no run looks at would be good for ever."""
    if path in found.files or is_below(path, found.unread) or is_below(path, plain_paths(whole)):
        return False
    return not any(it.kind in NAMING and it.path in found.unread for it in whole)


def note_manifests(catalogue: Catalogue, found: Found) -> None:
    """Keeps the checksums that the manifests state now."""
    for path, stated in found.stated.items():
        others = note_stated(catalogue, path, stated)
        if others:
            inform("%s: %s of files that aren't archives" % (shown(path), counted(others, "checksum")))


def files_to_do(
    catalogue: Catalogue, run: Run, found: Found, is_digested: bool, lacking: AbstractSet[int] = frozenset()
) -> List[Item]:
    """The files that are new, changed or not read yet, or in a run over all files those that it has not done; where the
    digests of whole files are kept, also those without one, those with a checksum that wasn't compared, and those that
    lack something else. Largest first."""
    chosen: List[Item] = []
    stated = algorithms_stated(catalogue)
    query = "SELECT size, modified, changed, inode, seen, file, path, state, run, sha256, due FROM files"
    for *seen, file, path, state, last, sha256, due in catalogue.rows(query):
        stamp = found.files.get(real_path(path))
        if stamp is None:
            continue
        is_same = None not in seen[:4] and Stamp(*seen).is_of(stamp)
        is_done = is_same and last == run.number and state not in ("unread", "gone")
        is_known = is_same and state not in TRIED_AGAIN and (not is_digested or sha256 is not None)
        algorithms, is_compared = stated.get(file, ((), True))
        is_known = is_known and due != run.number and is_compared and file not in lacking
        if is_same and state == "grown" and last != run.number:
            # It is said once that a file has grown.
            catalogue.base.execute("UPDATE files SET state = 'good', detail = '' WHERE file = ?", (file,))
        if not is_done and (run.scope == "all" or not is_known):
            wanted = sorted({*algorithms, *(("sha256",) if is_digested else ())})
            chosen.append(Item(stamp.size, real_path(path), wanted))
    return sorted(chosen, key=lambda item: (-item.size, item.path))


def batches(files: Sequence[Item], batch: Optional[int], seconds: float) -> List[List[Item]]:
    """The files of each job: the number that was asked for, or as many as take some seconds."""
    jobs: List[List[Item]] = []
    left = 0.0
    for item in files:
        cost = FILE_SECONDS + item.size / BYTES_A_SECOND
        if not jobs or (len(jobs[-1]) >= batch if batch else left < cost):
            jobs.append([])
            left = seconds
        jobs[-1].append(item)
        left -= cost
    return jobs
