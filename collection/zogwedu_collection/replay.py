"""Replay, also where what a revisit names is in another file. Files that have to be joined are joined in a temporary
file, and the program decides what their captures give."""
from __future__ import annotations

import collections
import contextlib
import dataclasses
import functools
import hashlib
import os
import re
import shutil
import subprocess
import tempfile
from typing import (
    Any,
    Callable,
    Deque,
    Dict,
    Generator,
    IO,
    Iterable,
    Iterator,
    List,
    Optional,
    Sequence,
    Set,
    Tuple,
    TypeVar,
)

from .captures import GIVES, Capture, captures_where
from .catalogue import Catalogue, Known
from .damaged import Pieces, good_records
from .disk import Stamp, open_regular, open_stamp, reason_of, stamp_of, temporary_folder
from .members import NoMember, Other, Row, record_at
from .needed import Chooser, Names, Selection, ids_like
from .package import package_for
from .program import BadDate, instant_of, said
from .texts import Stored, Trouble, decoded, escaped, real_path, say
from .unpack import PIECE, Damaged, Unsupported, is_of_gzip, write_all
from .wacz import good_of_parts, has_good_parts, is_package, pieces_of

MOST_CANDIDATES = 64
# The most captures that are asked what they lack, for one that is replayed.
MOST_ASKED = 256
# The most revisits of one file in a row, each of which names the next one.
MOST_IN_ROW = 16
UNRESOLVED = ("P4", "P5", "P7 Segment G2", "P7 Segment G4")
NAMES = ("WARC-Refers-To", "WARC-Refers-To-Target-URI", "WARC-Refers-To-Date")
Asked = TypeVar("Asked")
# The most bytes of a record that the Python package gets, and of a body that it decodes.
MOST_READ = 1 << 30
# What the program says of a body: the record that it is of, its facts, and the fields that name its codings.
GIVEN = re.compile(r"chosen \d+ given (\d+) (.*?)( coded .*)?", re.DOTALL)
CODED = "P10 "
# The facts of a body that the catalogue has too.
FACTS = re.compile(r"status (\d+|-) truncated (?:yes|no) length (\d+)")
# A file in such a state is asked where no other one has the capture.
DOUBTED = ("bad", "rotten")
DISAGREE = "files disagree on this capture"


@dataclasses.dataclass(frozen=True)
class Answer:
    """What a capture gives: a body with its digest, the record that it is of, what is said of it, and its codings; or a
    reason. Also the files that were joined."""

    capture: Capture
    files: Tuple[Known, ...]
    body: Optional[IO[bytes]] = None
    digest: Optional[str] = None
    file: Optional[Known] = None
    position: int = 0
    about: str = ""
    codings: str = ""
    reason: Optional[str] = None

    def fact(self) -> Tuple[Optional[str], str, str, Optional[str]]:
        """What must agree between two answers."""
        return self.digest, self.about, self.codings, self.reason

    def joined(self) -> str:
        return "joined " + " ".join(escaped(file.path) for file in self.files) if len(self.files) > 1 else ""

    def damaged(self) -> int:
        """How many of its files are damaged."""
        return sum(file.damaged > 0 for file in self.files)

    def marks(self) -> List[str]:
        """A line for each of its files that is damaged, or couldn't be read since."""
        return ["%s: %s" % (file.mark(), escaped(file.path)) for file in self.files if file.mark()]

    def described(self) -> str:
        """A line about the answer."""
        what = self.reason or "%s sha256 %s" % (self.given(), self.digest)
        return " ".join(filter(None, (self.chosen(), what, self.joined())))

    def chosen(self) -> str:
        return "chosen %s %d" % (escaped(self.capture.path), self.capture.position)

    def given(self) -> str:
        """The record that a body is of, and what is said of it. What a server wrote is escaped."""
        path = "" if self.file is None else escaped(self.file.path)
        return "given %s %d %s" % (path, self.position, escaped(self.about + self.codings))


def bare(value: bytes) -> Optional[Stored]:
    """The bare text of a value: without the brackets around it, and without spaces at its ends. None if it is empty."""
    inner = value[1:-1] if value[:1] == b"<" and value[-1:] == b">" else value
    return decoded((value if b"<" in inner or b">" in inner else inner).strip(b" \t")) or None


def names_of(headers: Any) -> Names:
    """What the fields of a head name, as the Python package has them. Of several fields with a name the first one
    counts."""
    return [bare(headers.get(name, "").encode("utf-8", "surrogateescape")) for name in NAMES]


def is_unresolved(reason: Optional[str]) -> bool:
    """Whether another file may have what a capture lacks."""
    return reason is not None and reason.startswith(UNRESOLVED)


def digest_of(file: IO[bytes]) -> str:
    digest = hashlib.sha256()
    file.seek(0)
    for piece in iter(lambda: file.read(PIECE), b""):
        digest.update(piece)
    return digest.hexdigest()


def other_bytes(known: Known) -> Trouble:
    """What is said of a file with other bytes."""
    return Trouble("%s doesn't have the bytes that run %s read" % (escaped(known.path), known.read_run))


def check(known: Known, stamp: Stamp) -> None:
    """Refuses a file that isn't the one that was read."""
    if known.state == "rotten":
        raise other_bytes(known)
    if known.stamp is None or not known.stamp.is_of(stamp):
        run = "" if known.read_run is None else " since run %d read it" % known.read_run
        raise Trouble("%s changed%s: run again" % (escaped(known.path), run))


def check_path(known: Known) -> None:
    """Refuses a file whose path doesn't lead to the bytes that were read."""
    path = real_path(known.path)
    try:
        check(known, stamp_of(os.stat(path)))
    except OSError as error:
        raise Trouble("%s: %s" % (escaped(known.path), reason_of(error, path))) from None


def trouble_with(known: Known) -> Optional[str]:
    """Why another copy is asked rather than this file, if there is one."""
    if known.state in DOUBTED:
        return "%s: it is %s" % (escaped(known.path), known.state)
    try:
        check_path(known)
    except Trouble as trouble:
        return str(trouble)
    is_readable = os.access(real_path(known.path), os.R_OK)
    return None if is_readable else "%s: it can't be read" % escaped(known.path)


def without_troubled(catalogue: Catalogue, captures: Sequence[Capture]) -> Tuple[List[Capture], List[str]]:
    """The captures but for those of files that are in trouble where another file has one of the same instant, and why
    these were passed over."""
    files = {file: catalogue.files_where("files.file = ?", (file,))[0] for file in {it.file for it in captures}}
    why = {file: trouble_with(known) for file, known in files.items()}
    fit = {it.instant for it in captures if why[it.file] is None}
    is_passed = [it.instant in fit and why[it.file] is not None for it in captures]
    lines = dict.fromkeys(str(why[it.file]) for it, passed in zip(captures, is_passed) if passed)
    return [it for it, passed in zip(captures, is_passed) if not passed], list(lines)


class Files:
    """Opens the files of captures, and joins them. Each must be the file that was read, before and afterwards. Of a
    damaged file the good records are given, as the program copies them."""

    def __init__(self, warc: str, temporary: Optional[str], taken: Callable[[int], None] = lambda _count: None) -> None:
        """Before bytes are written to a temporary file, `taken` hears how many."""
        self.warc = warc
        self.temporary = temporary_folder(temporary)
        self.taken = taken

    @contextlib.contextmanager
    def opened(self, known: Known) -> Iterator[IO[bytes]]:
        """A file whose bytes are those of its last reading, while it is open."""
        path = real_path(known.path)
        try:
            with open_regular(path) as file:
                check(known, open_stamp(file))
                yield file
                check(known, open_stamp(file))
        except (Damaged, Unsupported) as damage:
            raise Trouble("%s: %s" % (escaped(known.path), damage)) from None
        except OSError as error:
            raise Trouble("%s: %s" % (escaped(known.path), reason_of(error, path))) from None

    @contextlib.contextmanager
    def joined(self, selection: Selection) -> Iterator[IO[bytes]]:
        """The bytes of files or of some of their records, unpacked, one after another. A lone file that is neither
        compressed nor damaged is given as it is. NoMember where records can't be read by themselves."""
        files = selection.files
        if len(files) == 1 and selection.rows is None:
            with self.alone(files[0]) as file:
                yield file
            return
        with tempfile.TemporaryFile(dir=self.temporary, buffering=0) as joined:
            if selection.rows is not None:
                self.write_pieces(joined, self.some(selection))
            for known in files if selection.rows is None else ():
                with self.opened(known) as file, self.pieces_in(known, file) as pieces:
                    self.write_pieces(joined, pieces or whole_pieces(file))
            yield joined

    def some(self, selection: Selection) -> Iterator[bytes]:
        """The bytes of some records, in pieces. No byte counts before all are given: they may be other ones than those
        that were read, which is a Trouble."""
        for known, rows in zip(selection.files, selection.rows or ()):
            with self.opened(known) as file:
                check_places(file, rows)
                try:
                    for row in rows:
                        yield from record_at(file, row)
                except Other:
                    raise other_bytes(known) from None

    def check(self, selection: Selection) -> None:
        """Compares the files of some records with what was read, without reading these."""
        for known, rows in zip(selection.files, selection.rows or ()):
            with self.opened(known) as file:
                check_places(file, rows)

    @contextlib.contextmanager
    def alone(self, known: Known) -> Iterator[IO[bytes]]:
        """The bytes of a file, unpacked, and of a damaged one the good records; or the file itself."""
        with self.opened(known) as file, self.pieces_in(known, file) as pieces:
            if pieces is None:
                yield file
                return
            with tempfile.TemporaryFile(dir=self.temporary, buffering=0) as out:
                self.write_pieces(out, pieces)
                yield out

    @contextlib.contextmanager
    def pieces_in(self, known: Known, file: IO[bytes]) -> Iterator[Optional[Iterable[bytes]]]:
        """What is given of an open file, in pieces, or None where that is the file itself."""
        pieces = pieces_of(file)
        if not known.damaged:
            yield pieces
            return
        with contextlib.ExitStack() as stack:
            if has_good_parts(file):
                found = good_of_parts(self.warc, file, self.kept, Pieces())
                yield stack.enter_context(contextlib.closing(self.counted(known, found)))
                return
            if pieces is not None:
                # The program reads at any offset, so a compressed file is unpacked first.
                file = stack.enter_context(tempfile.TemporaryFile(dir=self.temporary, buffering=0))
                self.write_pieces(file, pieces)
            yield stack.enter_context(contextlib.closing(self.counted(known, good_records(self.warc, file))))

    def kept(self, pieces: Iterator[bytes]) -> IO[bytes]:
        """What is unpacked, in a file without a name."""
        out = tempfile.TemporaryFile(dir=self.temporary, buffering=0)
        try:
            self.write_pieces(out, pieces)
        except BaseException:
            out.close()
            raise
        return out

    def counted(self, known: Known, found: Generator[bytes, None, None]) -> Generator[bytes, None, None]:
        """The good records of a damaged file, in pieces. They have as many bytes as when it was read: positions would
        mean other records if another version of the program found others."""
        count = 0
        with contextlib.closing(found) as pieces:
            for piece in pieces:
                count += len(piece)
                yield piece
        if count != known.good_bytes:
            raise Trouble(
                "%s has other good records than run %s found: run again" % (escaped(known.path), known.read_run)
            )

    def write_pieces(self, out: IO[bytes], pieces: Iterable[bytes]) -> None:
        for piece in pieces:
            self.taken(len(piece))
            write_all(out, piece)


def check_places(file: IO[bytes], rows: Sequence[Row]) -> None:
    """NoMember unless a file that gzip wrote, or a package, has a member of its own for each record, or the file isn't
    compressed."""
    has_members = is_of_gzip(file) or is_package(file)
    if not has_members and pieces_of(file) is not None:
        raise NoMember("no members of gzip")
    if any((row.place is not None) != has_members for row in rows):
        raise NoMember("a record has no member of its own")


def whole_pieces(file: IO[bytes]) -> Iterator[bytes]:
    """The bytes of a file, in pieces."""
    return iter(functools.partial(file.read, PIECE), b"")


class Replayer:
    """Gives the bodies of captures; coded ones too where these are asked for as they are stored. Where `is_whole`, all
    of each file is read."""

    def __init__(
        self,
        catalogue: Catalogue,
        warc: str,
        temporary: Optional[str],
        is_stored: bool = False,
        is_whole: bool = False,
    ) -> None:
        self.catalogue = catalogue
        self.warc = warc
        self.files = Files(warc, temporary)
        self.temporary = temporary_folder(temporary)
        self.options = ["--stored"] if is_stored else []
        self.is_whole = is_whole
        self.chooser = Chooser(catalogue, warc, self.named_alone)
        self.asked: Dict[Tuple[int, Optional[int]], List[Capture]] = {}
        self.names: Dict[Tuple[int, int], Names] = {}
        self.passed: List[str] = []

    def known(self, file: int) -> Known:
        return self.catalogue.files_where("files.file = ?", (file,))[0]

    def program(
        self, command: str, source: IO[bytes], position: int, options: Sequence[str] = ()
    ) -> Tuple[IO[bytes], int, str]:
        """Runs a command over a file and a position. Its output is a temporary file."""
        out = tempfile.TemporaryFile(dir=self.temporary)
        source.seek(0)
        words = [self.warc, command, "-", str(position), *options]
        done = subprocess.run(words, stdin=source, stdout=out, stderr=subprocess.PIPE, check=False)
        out.seek(0)
        return out, done.returncode, said(done.stderr)

    def body(self, capture: Capture, before: Sequence[int] = ()) -> Answer:
        """What a capture gives, with the files `before` joined in front of its own: by the records that it needs, or by
        whole files where that can't be."""
        files = tuple(self.known(file) for file in (*before, capture.file))
        with contextlib.suppress(NoMember):
            return self.by_records(capture, files)
        selection = Selection(files)
        return self.body_in(capture, selection, selection.at(len(files) - 1, capture.position))

    def by_records(self, capture: Capture, files: Tuple[Known, ...]) -> Answer:
        """What a capture gives, by the records that it needs. In a file of its own it gives what its origin gives, or
        the reason that the catalogue has, by which the program found none."""
        if self.is_whole:
            raise NoMember("whole files are asked for")
        if len(files) > 1:
            selection, position = self.chooser.joined(files, capture.file, capture.position), capture.position
        elif capture.given is not None:
            selection, position = self.chooser.given(files[0], capture.given), capture.given
        else:
            self.files.check(self.chooser.alone(files[0], capture.position))
            return self.without_body(capture, files)
        answer = self.body_in(capture, selection, selection.at(len(files) - 1, position))
        if not self.is_expected(answer):
            raise other_bytes(files[-1] if answer.file is None else answer.file)
        return answer

    def without_body(self, capture: Capture, files: Tuple[Known, ...]) -> Answer:
        """The answer of a capture for which the program found no origin in its file."""
        return Answer(capture, files, reason=capture.reason)

    def is_expected(self, answer: Answer) -> bool:
        """Whether an answer has the facts that the catalogue has: of its capture, or where files are joined of the
        record that gives it, unless that lacked something in its own file."""
        capture = answer.capture
        if len(answer.files) > 1:
            if answer.reason is not None or answer.file is None:
                return True
            values = answer.file.file, answer.position
            capture = captures_where(self.catalogue, "captures.file = ? AND position = ?", values)[0]
            if is_unresolved(capture.reason):
                return True
        elif answer.reason is not None:
            return answer.reason == capture.reason
        facts = FACTS.fullmatch(answer.about)
        if facts is None or capture.given != answer.position:
            return False
        status, length = None if facts[1] == "-" else int(facts[1]), int(facts[2])
        if (capture.reason or "").startswith(CODED):
            return bool(answer.codings) and capture.status == status
        return capture.reason is None and (capture.status, capture.length) == (status, length)

    def body_in(self, capture: Capture, selection: Selection, at: int) -> Answer:
        """What the record at a place of an archive gives."""
        files = selection.files
        with self.files.joined(selection) as source:
            out, status, message = self.program("body", source, at, self.options)
        if status == 1:
            out.close()
            return Answer(capture, files, reason=message)
        given = GIVEN.fullmatch(message)
        if status != 0 or given is None:
            out.close()
            raise Trouble("%s: %s" % (", ".join(escaped(file.path) for file in files), escaped(message)))
        place = selection.record_at(int(given[1]))
        return Answer(capture, files, out, digest_of(out), *place, given[2], given[3] or "")

    def record(self, known: Known, position: int, instead: str = "") -> bytes:
        """The bytes of a record, up to the beginning of the next one. If they are too many, a line says what there is
        instead."""
        try:
            return self.record_in(self.one(known, position), 0, instead)
        except NoMember:
            return self.record_in(Selection((known,)), position, instead)

    def record_in(self, selection: Selection, at: int, instead: str = "") -> bytes:
        """The bytes of the record at a place of the archive of one record, or of one file."""
        known = selection.files[0]
        if selection.rows is not None:
            refuse_long(known, selection.rows[0][at].position, selection.size(), instead)
            return b"".join(self.files.some(selection))
        query = "SELECT at_offset FROM records WHERE file = ? AND position BETWEEN ? AND ? ORDER BY position"
        places = [row[0] for row in self.catalogue.rows(query, (known.file, at, at + 1))]
        if not places:
            raise Trouble("%s was read again: try again" % escaped(known.path))
        with self.files.joined(selection) as source:
            end = places[1] if len(places) > 1 else source.seek(0, os.SEEK_END)
            refuse_long(known, at, end - places[0], instead)
            source.seek(places[0])
            return b"".join(iter(lambda: source.read(min(PIECE, end - source.tell())), b""))

    def one(self, known: Known, position: int) -> Selection:
        """One record by itself. NoMember where whole files are asked for."""
        if self.is_whole:
            raise NoMember("whole files are asked for")
        return self.chooser.alone(known, position)

    def named(self, file: int, position: int) -> Names:
        """What the head of a revisit names: the id, the target and the date of its referent."""
        try:
            return self.named_alone(file, position)
        except NoMember:
            self.names[file, position] = self.names_in(Selection((self.known(file),)), position)
            return self.names[file, position]

    def named_alone(self, file: int, position: int) -> Names:
        """What the head of a revisit names, by its own record. NoMember where it can't be read by itself."""
        if (file, position) not in self.names:
            self.names[file, position] = self.names_in(self.one(self.known(file), position), 0)
        return self.names[file, position]

    def names_in(self, selection: Selection, at: int) -> Names:
        """What the head of a revisit at a place of an archive names. The Python package reads it."""
        package = package_for("a body that may be in another file", ("Archive", "WarcError"))
        try:
            with package.Archive(self.record_in(selection, at)) as archive:
                return names_of(archive[0].headers)
        except package.WarcError as error:
            raise Trouble("%s: %s" % (escaped(selection.files[0].path), escaped(str(error)))) from None

    def candidates(self, capture: Capture) -> List[Capture]:
        """Captures of other files that may be what a capture lacks. The program judges whether they are. No capture is
        asked twice."""
        key = capture.file, capture.position
        if key not in self.asked:
            self.asked[key] = self.find_candidates(capture)
            if len(self.asked[key]) == MOST_CANDIDATES:
                say("only %d captures that may be meant are compared" % MOST_CANDIDATES)
        return self.asked[key]

    def find_candidates(self, capture: Capture) -> List[Capture]:
        """Looks for candidates, by what the capture lacks, or the revisit of its file that it leads to, and names."""
        reason = capture.reason or ""
        if reason.startswith("P7"):
            return self.of_series(capture)
        capture, (name, uri, date) = self.end_of_row(capture)
        if reason.startswith("P4"):
            # The payload of a revisit that names nothing is that of a response or a resource of its target.
            return self.where(
                "captures.file <> ? AND lower(kind) IN ('response', 'resource')"
                " AND target = (SELECT target FROM records WHERE file = ? AND position = ?)",
                (capture.file, capture.file, capture.position),
                "instant > '%s', instant DESC" % capture.instant.replace("'", ""),
            )
        found = self.with_id(name, "captures.file <> ?", capture.file) if name else []
        if not found and uri and isinstance(date, str):
            with contextlib.suppress(BadDate):
                values = uri, instant_of(self.warc, date), capture.file
                found = self.where("target = ? AND instant = ? AND captures.file <> ?", values)
        return found

    def end_of_row(self, capture: Capture) -> Tuple[Capture, Names]:
        """The last of the revisits of one file each of which names the next one, and what it names itself."""
        visited: Set[int] = set()
        while True:
            visited.add(capture.position)
            names = self.named(capture.file, capture.position)
            own = self.with_id(names[0], "captures.file = ?", capture.file, "position") if names[0] else []
            if not own or own[0].position in visited:
                return capture, names
            if len(visited) == MOST_IN_ROW:
                say("only the first %d revisits of a row are looked at" % MOST_IN_ROW)
                return capture, names
            capture = own[0]

    def with_id(self, name: Stored, where: str, file: int, order: str = "instant DESC") -> List[Capture]:
        """The captures with an id, in a file or in others."""
        is_indexed = self.catalogue.one("SELECT 1 FROM sqlite_master WHERE name = 'records_of_odd_ids'") is not None
        query, values = ids_like(name, is_indexed)
        # Two queries at once, in one of their own, and a column that no index is looked for by: SQLite looks up what
        # they find, and doesn't go through all captures.
        found = "(captures.file, position) IN (SELECT file, position FROM (%s)) AND +%s" % (query, where)
        return self.where(found, (*values, file), order)

    def where(self, condition: str, values: Sequence[object], order: str = "instant DESC") -> List[Capture]:
        ordered = "%s ORDER BY %s LIMIT %d" % (condition, order, MOST_CANDIDATES)
        return captures_where(self.catalogue, ordered, values)

    def of_series(self, capture: Capture) -> List[Capture]:
        """One capture for each file with continuations of the target of the record that a capture leads to."""
        query = (
            "SELECT DISTINCT file, path, state FROM records JOIN files USING (file) WHERE %s AND file <> ?"
            " AND lower(kind) = 'continuation'"
            " AND target = (SELECT target FROM records WHERE file = ? AND position = ?) LIMIT %d"
            % (GIVES, MOST_CANDIDATES)
        )
        rows = self.catalogue.rows(query, (capture.file, capture.file, capture.given))
        empty = Capture(0, -1, "", "continuation", None, None, None, None, None, "", "", None)
        return [dataclasses.replace(empty, file=file, path=path, state=state) for file, path, state in rows]

    def needed(self, first: Capture, last: int) -> List[int]:
        """The files that a candidate may need before its own, farthest first, and its own. One search in breadth: each
        capture is asked once, however many lead to it, and there is a most."""
        visited: Set[Tuple[int, int]] = {(first.file, first.position)}
        waiting: Deque[Capture] = collections.deque([first])
        files = [first.file]
        while waiting and len(visited) < MOST_ASKED:
            capture = waiting.popleft()
            found = self.candidates(capture) if is_unresolved(capture.reason) else []
            new = [it for it in found if (it.file, it.position) not in visited]
            visited.update((it.file, it.position) for it in new)
            waiting.extend(new)
            files += [file for file in dict.fromkeys(it.file for it in new) if file not in files]
        if waiting:
            say("only the first %d captures that may be meant are looked at" % MOST_ASKED)
        return [file for file in reversed(files) if file != last]

    def answers(self, capture: Capture) -> List[Answer]:
        """What a capture gives. Where it lacks something: what it gives with each file that may have it."""
        if not is_unresolved(capture.reason):
            return [self.body(capture)]
        groups = [self.needed(it, capture.file) for it in self.candidates(capture)]
        groups = [group for place, group in enumerate(groups) if group not in groups[:place]]
        answers = self.each(lambda group: [self.body(capture, group)], groups)
        settled = [it for it in answers if not is_unresolved(it.reason)]
        if not settled and len(groups) > 1:
            with contextlib.suppress(BadDate):  # of a file that was passed over
                settled = [self.body(capture, list(dict.fromkeys(file for group in groups for file in group)))]
        return settled or answers[:1] or [self.body(capture)]

    def each(self, ask: Callable[[Asked], List[Answer]], items: Sequence[Asked]) -> List[Answer]:
        """What all of these give. Those in trouble are passed over, unless all are."""
        answers, troubles = [], []
        for item in items:
            try:
                answers += ask(item)
            except Trouble as trouble:
                troubles.append(trouble)
        if troubles and not answers:
            raise troubles[0]
        self.passed += [str(trouble) for trouble in troubles]
        return answers

    def all_answers(self, captures: Sequence[Capture]) -> List[Answer]:
        """What captures of one instant give. A copy in a file that can't be read, is bad or is rotten is passed over
        where another one gives an answer: only copies that can be read may disagree."""
        fit = [it for it in captures if it.state not in DOUBTED]
        doubted = [it for it in captures if it.state in DOUBTED]
        try:
            answers = self.each(self.answers, fit)
        except Trouble:
            if not doubted:
                raise
            answers = []
        if not answers:
            return self.each(self.answers, doubted)
        self.passed += ["%s: it is %s" % (escaped(it.path), it.state) for it in doubted]
        return answers


def refuse_long(known: Known, position: int, count: int, instead: str) -> None:
    """Refuses a record that is too long for the Python package. A line says what there is instead."""
    if count > MOST_READ:
        what = escaped(known.path), position, MOST_READ, instead
        raise Trouble("%s, record %d: more than %d bytes are stored%s" % what)


def do_agree(answers: Sequence[Answer]) -> bool:
    """Whether answers give the same. One agrees with itself, and nothing is compared."""
    return len(answers) == 1 or len({answer.fact() for answer in answers}) == 1


def settled(answers: Sequence[Answer]) -> Answer:
    """The first of answers that agree and give a body."""
    first = answers[0]
    disagree = not do_agree(answers)
    if not disagree and not first.reason:
        return first
    for answer in answers:
        say(answer.described())
    if not disagree and (first.reason or "").startswith(CODED):
        say("--stored writes it as it is stored, and names the codings; --decoded undoes them")
    raise Trouble(DISAGREE + ": nothing was written" if disagree else first.reason or "", 1)


def write_body(answer: Answer, out: IO[bytes]) -> None:
    assert answer.body is not None
    answer.body.seek(0)
    shutil.copyfileobj(answer.body, out)
    out.flush()
