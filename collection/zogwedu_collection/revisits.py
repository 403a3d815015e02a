"""The texts of revisits whose pages are in other files.

Which record gives the body of such a revisit is asked as a server asks it, over the files, and isn't taken from what
the revisit says of itself. The files on which an answer rests are kept: it counts as long as the catalogue has the
readings of all of them, and is asked for anew when one of them changes, or when another file may have an answer too.
"""
from __future__ import annotations

import contextlib
import json
import os
from typing import Any, Dict, Iterator, List, Optional, Sequence, Set, Tuple

from .captures import Capture, captures_where
from .catalogue import Catalogue
from .lending import Reader, Unfit
from .limits import Limits
from .members import NoMember
from .needed import Names
from .package import package_for
from .program import program_path
from .replay import CODED, Answer, do_agree, is_unresolved
from .search_index import FAR, NO_RECORD, Index, path_in, short
from .shelf import Shelf
from .texts import Stored, Trouble, say

PACKAGE = ("Archive", "NoBody", "Undecodable", "WarcError")
LACKING = (
    "SELECT position FROM captures WHERE file = ? AND lower(kind) = 'revisit'"
    " AND (reason LIKE 'P4%' OR reason LIKE 'P5%')"
)
NOW = (
    "SELECT files.file, readings.run, readings.size, readings.modified, readings.changed, state"
    " FROM files LEFT JOIN readings USING (file)"
)
Way = Tuple[int, int]


def look_up_revisits(catalogue: Catalogue, warc: Optional[str], temporary: Optional[str]) -> None:
    """Finds the texts of revisits whose pages are in other files, where there is an index, as far as something changed
    that they may rest on. Without the Python package they stay as they are."""
    if not os.path.exists(path_in(catalogue.folder)):
        return
    with contextlib.closing(Index(catalogue, is_made=True)) as index:
        now = states_of(catalogue)
        changed = changed_files(index, now)
        note_lacking(index, changed)
        files = [row[0] for row in index.base.execute("SELECT DISTINCT file FROM elsewhere ORDER BY file").fetchall()]
        if files and (changed or index.base.execute("SELECT 1 FROM elsewhere WHERE is_due LIMIT 1").fetchone()):
            try:
                package = package_for("a revisit whose page is in another file", PACKAGE)
                warc = program_path(warc)
            except Trouble as trouble:
                say("the texts of such revisits stay as they are: %s" % trouble)
                return
            limits = Limits()
            shelf = Shelf(package, warc, temporary, limits.archives, limits.unpacked)
            try:
                for file in files:
                    LookUp(index, warc, shelf, file, changed).do()
            finally:
                shelf.close()
        note_states(index, now)


def states_of(catalogue: Catalogue) -> Dict[int, str]:
    """What the answers of each file rest on: its reading and its state."""
    return {row[0]: json.dumps(row[1:]) for row in catalogue.rows(NOW)}


def changed_files(index: Index, now: Dict[int, str]) -> Set[int]:
    """The files that are otherwise than when revisits were looked up last, those that are new, and those that aren't
    there any more."""
    before = dict(index.base.execute("SELECT file, about FROM settled").fetchall())
    return {file for file in {*now, *before} if now.get(file) != before.get(file)}


def note_states(index: Index, now: Dict[int, str]) -> None:
    """Notes that all revisits are looked up as the files are now."""
    with index.transaction():
        index.base.execute("DELETE FROM settled")
        index.base.executemany("INSERT INTO settled VALUES (?, ?)", now.items())


def note_lacking(index: Index, changed: Set[int]) -> None:
    """Notes the revisits of these files that lack what another file may have, where their texts are known."""
    known = {row[0] for row in index.base.execute("SELECT file FROM read").fetchall()}
    with index.transaction():
        for file in sorted(changed & known):
            rows = ((file, position) for position, in index.catalogue.rows(LACKING, (file,)))
            put = "INSERT OR IGNORE INTO elsewhere (file, position, is_due, is_named) VALUES (?, ?, 1, 0)"
            index.base.executemany(put, rows)


class FarReader(Reader):
    """Gives what captures give. What a revisit names is kept, so that it is read once."""

    def __init__(self, index: Index, warc: str, shelf: Shelf) -> None:
        super().__init__(index.catalogue, warc, shelf)
        self.index = index
        self.found_names: List[Tuple[Any, ...]] = []

    def named(self, file: int, position: int) -> Names:
        query = "SELECT name, target, date FROM elsewhere WHERE file = ? AND position = ? AND is_named"
        row = self.index.base.execute(query, (file, position)).fetchone()
        if row is not None:
            self.names[file, position] = list(row)
            return self.names[file, position]
        found = super().named(file, position)
        self.found_names.append((*found, file, position))
        return found


class LookUp:
    """Looks up the revisits of one file."""

    def __init__(self, index: Index, warc: str, shelf: Shelf, file: int, changed: Set[int]) -> None:
        self.index = index
        self.catalogue = index.catalogue
        self.file = file
        self.changed = changed
        self.reader = FarReader(index, warc, shelf)
        self.unfit = Unfit, shelf.package.WarcError
        self.unknown: List[Way] = []

    def do(self) -> None:
        """Looks up what is due, and keeps what is found."""
        found = list(self.answers())
        with self.index.transaction():
            put = "UPDATE elsewhere SET name = ?, target = ?, date = ?, is_named = 1 WHERE file = ? AND position = ?"
            self.index.base.executemany(put, self.reader.found_names)
            due = "UPDATE elsewhere SET is_due = 1 WHERE file = ? AND position = ?"
            self.index.base.executemany(due, self.unknown)
            for it in found:
                self.keep(*it)

    def answers(self) -> Iterator[Tuple[Capture, Stored, Set[int], List[Answer]]]:
        """The revisits that are looked up, with their targets, the files that may have what they lack, and what they
        give: nothing if there is no body. Where that can't be known now, the revisit stays as it is, and due."""
        query = "SELECT position, is_due FROM elsewhere WHERE file = ? ORDER BY position"
        for position, is_due in self.index.base.execute(query, (self.file,)).fetchall():
            place = self.file, position
            captures = captures_where(self.catalogue, "captures.file = ? AND position = ?", place)
            row = self.catalogue.one("SELECT target FROM captures WHERE file = ? AND position = ?", place)
            if not captures or row is None or row[0] is None:
                continue
            try:
                files = self.files_of(captures[0]) if is_due or self.changed else set()
                if is_due or self.is_changed(place, files):
                    yield captures[0], row[0], files, self.answers_of(captures[0])
            except (Trouble, NoMember):
                self.unknown.append(place)

    def files_of(self, capture: Capture) -> Set[int]:
        """The files that may have what a revisit lacks."""
        found = self.reader.candidates(capture)
        return {file for it in found for file in (it.file, *self.reader.needed(it, capture.file))}

    def is_changed(self, place: Way, files: Set[int]) -> bool:
        """Whether a file changed on which the answer rests, or that may have what the revisit lacks."""
        query = "SELECT other FROM ways WHERE file = ? AND position = ?"
        ways = {row[0] for row in self.index.base.execute(query, place).fetchall()}
        return not self.changed.isdisjoint({self.file, *files, *ways})

    def answers_of(self, capture: Capture) -> List[Answer]:
        """What a revisit gives by all files that agree; nothing if that is no body, or none with a text."""
        if not any(map(self.may_have_text, self.reader.candidates(capture))):
            return []
        answers = self.reader.all_answers([capture])
        try:
            has_body = do_agree(answers) and (answers[0].reason or CODED).startswith(CODED)
        except self.unfit:  # several coded bodies, which can't be compared
            return []
        return answers if has_body else []

    def may_have_text(self, capture: Capture) -> bool:
        """Whether a capture has a text, or leads on to another file."""
        return is_unresolved(capture.reason) or self.text_of(capture.file, capture.position) is not None

    def text_of(self, file: int, position: int) -> Optional[Tuple[int, str]]:
        """The text of a capture and its media type."""
        query = "SELECT text, media FROM seen WHERE file = ? AND position = ?"
        row = self.index.base.execute(query, (file, position)).fetchone()
        return None if row is None else (row[0], row[1])

    def keep(self, capture: Capture, target: Stored, files: Set[int], answers: Sequence[Answer]) -> None:
        """Keeps the text of a revisit, and on what that rests; without a text, on what it rests that there is none. A
        text of a file that is altered now stays, as those of that file's own captures do."""
        place, put = (capture.file, capture.position), self.index.base.execute
        first = answers[0].file if answers else None
        found = None if first is None else self.text_of(first.file, answers[0].position)
        put("UPDATE elsewhere SET is_due = 0 WHERE file = ? AND position = ?", place)
        if found is None and self.rests_on_altered(place):
            return
        self.index.drop_far(place)
        ways = {(file, NO_RECORD) for file in files}
        if found is not None:
            text, media = found
            values = *place, self.index.address_of(target), short(capture.instant), media, text, FAR
            put("INSERT INTO seen VALUES (?, ?, ?, ?, ?, ?, ?)", values)
            ways = {way for answer in answers for way in ways_of(answer, capture.file)}
        for way in ways:
            put("INSERT INTO ways VALUES (?, ?, ?, ?)", (*place, *way))

    def rests_on_altered(self, place: Way) -> bool:
        """Whether a revisit has a text of a file that is altered now."""
        query = "SELECT other FROM ways JOIN seen USING (file, position) WHERE file = ? AND position = ?"
        others = self.index.base.execute(query, place).fetchall()
        state = "SELECT state FROM files WHERE file = ?"
        return any(self.catalogue.one(state, other) == ("altered",) for other in others)


def ways_of(answer: Answer, file: int) -> Iterator[Way]:
    """The files on which the answer of a file's revisit rests beside its own, each with the record of it that gives the
    body, if one does. That may be one of its own file."""
    given = None if answer.file is None else answer.file.file
    for known in answer.files:
        if file != known.file or file == given:
            yield known.file, answer.position if known.file == given else NO_RECORD
