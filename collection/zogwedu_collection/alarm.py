"""What rings: the states of files that end a command with 1, and those that somebody has acknowledged."""
from __future__ import annotations

import dataclasses
from typing import List, Optional, Tuple

from .catalogue import Catalogue
from .compared import who
from .messages import ERROR, INFO, MESSAGES, WARNING
from .states import ALARMING, STATES, as_list
from .texts import Stored, escaped, now, stored_path

# An acknowledged state rings again when it is another one, is there for another reason, or the file has changed.
HOLDS = (
    "acknowledged.state = files.state AND acknowledged.detail IS files.detail"
    " AND (acknowledged.size, acknowledged.modified) IS (files.size, files.modified)"
)
LAST_RUN = "(SELECT max(run) FROM runs)"
LOOK = (
    "SELECT files.state AS state, path, files.detail, read_on, changes.run IS NOT NULL,"
    " CASE WHEN %s THEN acknowledged.who END, CASE WHEN %s THEN acknowledged_on END AS silenced_on,"
    " CASE WHEN %s THEN note END"
    " FROM files LEFT JOIN readings USING (file) LEFT JOIN acknowledged USING (file)"
    " LEFT JOIN changes ON changes.file = files.file AND changes.run = %s"
    " WHERE files.state <> 'good'" % (HOLDS, HOLDS, HOLDS, LAST_RUN)
)


@dataclasses.dataclass(frozen=True)
class Look:
    """A file that needs a look: its state and why, when it could be read last, whether that is otherwise than after the
    run before, and who acknowledged it, when, and with which words."""

    state: str
    path: Stored
    detail: str
    read_on: Optional[str]
    is_new: bool
    acknowledged_by: Optional[str]
    acknowledged_on: Optional[str]
    note: Optional[str]


@dataclasses.dataclass(frozen=True)
class Alarm:
    """What ends a command with 1: these states, of all files or of those that are otherwise than before alone, or a
    last run that ended too many seconds ago."""

    states: Tuple[str, ...] = ALARMING
    is_of_new: bool = False
    max_age: Optional[int] = None


def states_in(text: str) -> Tuple[str, ...]:
    """States with commas between them."""
    states = tuple(word for word in text.split(",") if word)
    wrong = [state for state in states if state not in STATES or state == "good"]
    if wrong or not states:
        raise ValueError("no state that can be wrong: %s" % text)
    return states


def log_state(state: str, path: Stored, detail: str) -> None:
    """A line for the log about the state of a file."""
    level = ERROR if state in ALARMING else INFO if state in ("good", "grown") else WARNING
    MESSAGES.note(": ".join(filter(None, ("%s %s" % (state, escaped(path)), escaped(detail)))), level)


def log_changes(catalogue: Catalogue, run: int) -> None:
    """Lines for the log about the files whose states a run changed without reading them."""
    query = (
        "SELECT files.state, path, files.detail FROM changes JOIN files USING (file) WHERE changes.run = ?"
        " AND NOT EXISTS (SELECT 1 FROM checks WHERE checks.file = changes.file AND checks.run = changes.run)"
    )
    for state, path, detail in catalogue.rows(query, (run,)):
        log_state(state, path, detail or "")


def looks(catalogue: Catalogue, more: str = "", order: str = "files.state, path") -> List[Look]:
    """The files that need a look, with those that were acknowledged."""
    rows = catalogue.rows("%s %s ORDER BY %s" % (LOOK, more, order))
    return [Look(row[0], row[1], row[2] or "", row[3], bool(row[4]), *row[5:]) for row in rows]


def shown_looks(catalogue: Catalogue, alarm: Alarm) -> List[Look]:
    """Those that are printed: no acknowledged ones."""
    found = [it for it in looks(catalogue) if it.acknowledged_on is None]
    return [it for it in found if it.is_new] if alarm.is_of_new else found


def rings(catalogue: Catalogue, alarm: Alarm) -> bool:
    """Whether a file is in a state that rings."""
    new = "AND changes.run IS NOT NULL" if alarm.is_of_new else ""
    query = "SELECT 1 FROM (%s %s) WHERE state IN (%s) AND silenced_on IS NULL LIMIT 1"
    return catalogue.one(query % (LOOK, new, as_list(alarm.states))) is not None


def recovered(catalogue: Catalogue) -> List[Tuple[Stored, str]]:
    """The files that are good, and weren't after the run before, with the state that they had."""
    query = (
        "SELECT path, state_before FROM changes JOIN files USING (file) WHERE changes.run = %s AND state = 'good'"
        " AND state_before NOT IN ('good', 'grown') ORDER BY path" % LAST_RUN
    )
    return [(row[0], row[1]) for row in catalogue.rows(query)]


def acknowledge(catalogue: Catalogue, path: str, note: str) -> bool:
    """Silences the state of a file, until it or the file changes. False where there is nothing to be acknowledged."""
    query = "SELECT file, state, detail, size, modified FROM files WHERE path = ? AND state <> 'good'"
    with catalogue.transaction():
        row = catalogue.one(query, (stored_path(path),))
        if row is None:
            return False
        catalogue.base.execute("DELETE FROM acknowledged WHERE file = ?", row[:1])
        values = dict(zip(("file", "state", "detail", "size", "modified"), row))
        catalogue.insert("acknowledged", dict(values, who=who(), acknowledged_on=now(), note=note))
    return True


def acknowledged(catalogue: Catalogue) -> int:
    """How many files are in a state that was acknowledged."""
    query = "SELECT count(*) FROM files JOIN acknowledged USING (file) WHERE files.state <> 'good' AND " + HOLDS
    return int(catalogue.one(query)[0])
