"""What `status` and `find` print: lines for people, and zero bytes or JSON for scripts."""
from __future__ import annotations

import dataclasses
import json
import sys
from typing import Any, Dict, Iterator, List, Optional, Tuple, Union

from .ages import age_lines, is_late, last_end, oldest
from .alarm import Alarm, acknowledged, looks, recovered, shown_looks
from .captures import Capture
from .catalogue import Catalogue
from .search_index import is_wanted, text_counts
from .states import DAMAGED, STATES, as_list
from .texts import Stored, counted, escaped, path_bytes, real_path, shown
from .watched import FILE, Watched, values_of, watched

NO_BYTES = "revisits with the digest of no bytes, as wget writes them; they aren't counted as bad"
ACKNOWLEDGED = "files whose state was acknowledged; it rings again when it changes"
UNHASHED = "files that an earlier version read: a record in another's place shows by its columns in `list` alone"


def put(value: Union[str, bytes]) -> None:
    """Writes to standard output: text as it can be shown there, or bytes."""
    if isinstance(value, str):
        sys.stdout.write(value)
        return
    sys.stdout.flush()
    sys.stdout.buffer.write(value)


def no_bytes(catalogue: Catalogue) -> int:
    """How many revisits state the digest of no bytes."""
    query = "SELECT coalesce(sum(no_bytes), 0) FROM readings JOIN files USING (file) WHERE state <> 'gone'"
    return int(catalogue.one(query)[0])


def unhashed(catalogue: Catalogue) -> int:
    """How many files an earlier version read, which kept no hash of each record."""
    query = "SELECT count(*) FROM readings JOIN files USING (file) WHERE state <> 'gone' AND is_hashed IS NOT 1"
    return int(catalogue.one(query)[0])


def damaged(catalogue: Catalogue) -> Tuple[int, int, int]:
    """Of the damaged files: how many good records they have, how many bytes these have, and how many are damaged."""
    query = (
        "SELECT coalesce(sum(good_records), 0), coalesce(sum(good_bytes), 0), coalesce(sum(damaged), 0)"
        " FROM checks JOIN files USING (file, run) WHERE files.state IN (%s)" % as_list(DAMAGED)
    )
    row = catalogue.one(query)
    return row[0], row[1], row[2]


def folder_line(it: Watched) -> str:
    """A line about a folder, a file or a list of the collection."""
    read = "read on %s" % it.read_on if it.read_on else "when it was read isn't known"
    trouble = "%s in the last run; " % escaped(it.trouble) if it.trouble else ""
    return "%s\t%s\t%s%s\n" % (it.kind, shown(it.path), trouble, read)


def folder_lines(catalogue: Catalogue) -> Iterator[str]:
    """The folders and lists of the collection, and of its files those that weren't there in the last run."""
    return (folder_line(it) for it in watched(catalogue) if it.kind != FILE or it.trouble)


def is_partly_unread(catalogue: Catalogue) -> bool:
    """Whether the last run couldn't read a part of the collection."""
    return any(it.trouble for it in watched(catalogue))


def status_text(catalogue: Catalogue, alarm: Alarm) -> Iterator[str]:
    """The folders, when they were read, how many files there are in each state, and a line for each that needs a
    look."""
    yield from folder_lines(catalogue)
    yield from age_lines(catalogue, alarm.max_age)
    states, empty, (records, good, bad) = catalogue.states(), no_bytes(catalogue), damaged(catalogue)
    yield from ("%s\t%d\t%s\n" % (state, states[state], about) for state, about in STATES.items() if state in states)
    if empty:
        yield "no-bytes\t%d\t%s\n" % (empty, NO_BYTES)
    if bad:
        about = "bytes of the damaged files", counted(records, "good record"), counted(good, "byte")
        yield "damaged\t%d\t%s; beside them %s, %s\n" % (bad, *about)
    if unhashed(catalogue):
        yield "unhashed\t%d\t%s\n" % (unhashed(catalogue), UNHASHED)
    if is_wanted(catalogue):
        yield "texts\t%d\tfiles whose texts are known, %d without%s\n" % text_counts(catalogue)
    if acknowledged(catalogue):
        yield "acknowledged\t%d\t%s\n" % (acknowledged(catalogue), ACKNOWLEDGED)
    yield from look_lines(catalogue, alarm)


def look_lines(catalogue: Catalogue, alarm: Alarm) -> Iterator[str]:
    """A line for each file that needs a look."""
    return ("%s\t%s\t%s\n" % (it.state, escaped(it.path), escaped(it.detail)) for it in shown_looks(catalogue, alarm))


def new_text(catalogue: Catalogue, alarm: Alarm) -> Iterator[str]:
    """What is otherwise than after the run before, and nothing where all is as it was."""
    yield from (folder_line(it) for it in watched(catalogue) if it.trouble)
    if is_late(catalogue, alarm.max_age):
        yield from age_lines(catalogue, alarm.max_age)
    yield from look_lines(catalogue, alarm)
    yield from ("good\t%s\tbefore: %s\n" % (escaped(path), before) for path, before in recovered(catalogue))


def status_names(catalogue: Catalogue, alarm: Alarm = Alarm()) -> Iterator[bytes]:
    """A line for each file that needs a look, with its name as it is, ended by a zero byte."""
    for it in shown_looks(catalogue, alarm):
        yield b"%s\t%s\t%s\0" % (it.state.encode(), path_bytes(it.path), escaped(it.detail).encode("utf-8", "replace"))


def status_json(catalogue: Catalogue, alarm: Alarm = Alarm()) -> str:
    """The states, and the files that need a look, also the acknowledged ones, as JSON. A byte of a name that isn't
    UTF-8 is a lone surrogate, as Python has it."""
    found = [it for it in looks(catalogue) if it.is_new or not alarm.is_of_new]
    files = [dict(dataclasses.asdict(it), path=real_path(it.path)) for it in found]
    last = catalogue.last_run()
    about: Dict[str, Any] = {"run": last.number if last else None, "states": catalogue.states()}
    about["no_bytes"], about["unhashed"] = no_bytes(catalogue), unhashed(catalogue)
    about["folders"] = [values_of(it) for it in watched(catalogue)]
    first = oldest(catalogue)
    about["last_run"], about["oldest"] = last_end(catalogue), first and dict(first, path=real_path(first["path"]))
    if is_wanted(catalogue):
        about["texts"] = dict(zip(("files", "without"), text_counts(catalogue)))
    of_damaged = dict(zip(("good_records", "good_bytes", "damaged"), damaged(catalogue)))
    return json.dumps(dict(about, **of_damaged, files=files), indent=1) + "\n"


def status_pieces(catalogue: Catalogue, form: str, alarm: Alarm) -> Iterator[Union[str, bytes]]:
    """What `status` prints in a form: text, names or json."""
    if form == "names":
        return status_names(catalogue, alarm)
    if form == "json":
        return iter([status_json(catalogue, alarm)])
    return new_text(catalogue, alarm) if alarm.is_of_new else status_text(catalogue, alarm)


def capture_cells(it: Capture) -> List[Any]:
    """The columns of `find` after the file."""
    return [it.position, it.instant, it.kind, it.given, it.status, it.media, it.length, it.reason, it.mark()]


def cell(value: Union[None, int, Stored]) -> str:
    if value is None:
        return "-"
    return str(value) if isinstance(value, int) else escaped(value)


def capture_line(it: Capture, form: str) -> Union[str, bytes]:
    """A line of `find` in a form."""
    line = "\t".join(cell(value) for value in capture_cells(it))
    if form == "names":
        return path_bytes(it.path) + b"\t" + line.encode("utf-8", "replace") + b"\0"
    if form == "json":
        return json.dumps(capture_values(it)) + "\n"
    return escaped(it.path) + "\t" + line + "\n"


def capture_values(it: Capture) -> Dict[str, Any]:
    """A capture as JSON has it."""
    values = {name: escaped(value) if isinstance(value, bytes) else value for name, value in vars(it).items()}
    del values["file"], values["is_fresh"]
    return dict(values, path=real_path(it.path))
