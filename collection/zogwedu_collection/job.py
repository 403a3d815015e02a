"""The commands over one file, with what they wrote in one stream. They run on any machine that sees the file and the
folder of the jobs."""
from __future__ import annotations

import contextlib
import dataclasses
import hashlib
import os
import socket
import subprocess
import time
from typing import Any, Dict, IO, Iterator, List, NamedTuple, Optional, Sequence, Tuple

from .damaged import Pieces, TooSlow, counted_pieces, good_records, patience_for
from .disk import Stamp, open_regular, open_stamp, reason_of, stamp_of, temporary_folder
from .members import Noted
from .pace import Pace
from .parts import SURVEY, Parts, Tally
from .program import Settings, said
from .sample import Sample
from .space import Full, Room
from .states import DAMAGED, READ
from .texts import counted
from .unpack import PIECE, Damaged, Unsupported, unpacked, write_all
from .wacz import About, Joined, good_of_parts, has_good_parts, is_package, pieces_of

# The statuses with which each command is done.
DONE = {
    "survey": (0,),
    "list": (0,),
    "fixity": (0, 1, 4),
    "check": (0, 1),
    "summary": (0,),
}
# These read in order, and so also a pipe.
IN_ORDER = ("list", "fixity", "check", "summary")


class Item(NamedTuple):
    """A file that is to be read: its size in bytes, and the algorithms of the digests that are wanted of all of it."""

    size: int
    path: str
    algorithms: Sequence[str] = ()


@dataclasses.dataclass
class Outcome:
    """What came of a job."""

    path: str
    state: str = "failed"
    detail: str = ""
    stamp: Optional[Stamp] = None
    host: str = dataclasses.field(default_factory=lambda: os.environ.get("PARALLEL_SSHHOST") or socket.gethostname())
    seconds: float = 0.0
    statuses: Dict[str, Optional[int]] = dataclasses.field(default_factory=dict)
    digests: Dict[str, str] = dataclasses.field(default_factory=dict)  # of the whole file, by algorithms
    no_bytes: int = 0
    pieces: Optional[Pieces] = None  # of a damaged file, where they are known
    places: Dict[str, List[int]] = dataclasses.field(default_factory=dict)  # of the parts of what was written

    @property
    def sha256(self) -> Optional[str]:
        """The SHA-256 of the whole file, where it was asked for."""
        return self.digests.get("sha256")

    def has_rows(self) -> bool:
        """Whether the commands wrote what is there of a file, or of the good records of a damaged one."""
        return self.state in READ or (
            self.state in DAMAGED and self.pieces is not None and self.pieces.good_records > 0
        )

    def values(self) -> Dict[str, Any]:
        """The outcome as JSON has it."""
        return dataclasses.asdict(self)


def outcome_of(values: Dict[str, Any]) -> Outcome:
    """The outcome that a job wrote. What isn't one is a ValueError, a KeyError or a TypeError."""
    stamp, pieces = values.pop("stamp"), values.pop("pieces", None)
    outcome = Outcome(**values)
    outcome.stamp = None if stamp is None else Stamp(**stamp)
    outcome.pieces = None if pieces is None else Pieces(**pieces)
    # The name of a folder in it may not be UTF-8, and the catalogue keeps text.
    outcome.detail = outcome.detail.encode("utf-8", "backslashreplace").decode("utf-8")
    if not isinstance(outcome.path, str) or not all(isinstance(it, dict) for it in (outcome.statuses, outcome.digests)):
        raise ValueError("no outcome")
    return outcome


class Source:
    """What the program reads: the file itself, what it holds unpacked, or a pipe where there is no room to unpack
    it."""

    def __init__(self, file: IO[bytes], temporary: str, pace: Pace, room: Room) -> None:
        self.file = file
        self.pace = pace
        self.room = room
        self.noted = Noted(file)
        pieces = pieces_of(file, self.noted.note)
        self.seekable: Optional[IO[bytes]] = file
        if pieces is not None:
            pace.take(os.fstat(file.fileno()).st_size)
            self.seekable = unpacked(iter(pieces), temporary, room)
        # Where the archives of a package begin; None for another file.
        self.begins = pieces.begins if isinstance(pieces, Joined) else None

    def run(self, words: List[str], out: IO[bytes]) -> Tuple[int, str]:
        """Runs the program over it. Returns its exit status and its message."""
        if self.seekable is not None:
            self.seekable.seek(0)
            out.seek(0, os.SEEK_END)
            with subprocess.Popen(words, stdin=self.seekable, stdout=out, stderr=subprocess.PIPE) as child:
                _, message = self.pace.finish(child, self.size())
            return child.returncode, said(message)
        with subprocess.Popen(words, stdin=subprocess.PIPE, stdout=out, stderr=subprocess.PIPE) as child:
            assert child.stdin is not None and child.stderr is not None
            self.feed(child.stdin)
            message = child.stderr.read()
        return child.returncode, said(message)

    def size(self) -> int:
        """How many bytes of the disk the program reads: none where they were unpacked."""
        return os.fstat(self.file.fileno()).st_size if self.seekable is self.file else 0

    def feed(self, pipe: IO[bytes]) -> None:
        """Writes what the file holds to a pipe, until its reader goes away."""
        with contextlib.suppress(BrokenPipeError), pipe:
            for piece in pieces_of(self.file) or ():
                pipe.write(piece)

    def close(self) -> None:
        if self.seekable is not None and self.seekable is not self.file:
            self.seekable.close()
        self.room.release()


def digests_of(file: IO[bytes], algorithms: Sequence[str], pace: Pace) -> Dict[str, str]:
    """Digests of a whole file, by their algorithms."""
    digests = {name: hashlib.new(name) for name in algorithms}
    file.seek(0)
    for piece in iter(lambda: file.read(PIECE) if digests else b"", b""):
        for digest in digests.values():
            digest.update(piece)
        pace.take(len(piece))
    return {name: digest.hexdigest() for name, digest in digests.items()}


def failure_of(command: str, status: int, message: str) -> Optional[Tuple[str, str]]:
    """The state of a file of which a command failed, and why it did."""
    if status == 2:
        return "refused", message
    if status in DONE[command]:
        return None
    why = "ended by signal %d" % -status if status < 0 else message or "status %d" % status
    return "failed", "%s: %s" % (command, why)


class TornArchive(Exception):
    """An archive of a package isn't one by itself."""


class Job:
    """The commands over one file."""

    def __init__(self, settings: Settings, item: Item, folder: str, jobs: str) -> None:
        """`folder` takes what the job writes, and `jobs` is the folder of all jobs of the run."""
        self.settings = settings
        self.path = os.path.join(folder, "part")
        self.item = item
        self.outcome = Outcome(item.path)
        self.pace = Pace(jobs, settings.rate)
        self.room = Room(jobs, settings.unpacked, settings.jobs or os.cpu_count() or 1)
        self.where = temporary_folder(settings.temporary)
        self.began = time.monotonic()

    def do(self) -> Outcome:
        """Does the job. Returns what came of it."""
        began, outcome = self.began, self.outcome
        try:
            outcome.stamp = stamp_of(os.stat(outcome.path))
            with open_regular(outcome.path) as file:
                outcome.state, outcome.detail = self.verdict_on(file)
                if not outcome.stamp == open_stamp(file) == stamp_of(os.stat(outcome.path)):
                    outcome.state, outcome.detail = "changing", "it changed while it was read"
        except OSError as error:
            outcome.state, outcome.detail = "failed", reason_of(error, outcome.path)
        except MemoryError:
            outcome.state, outcome.detail = "failed", "out of memory"
        outcome.seconds = round(time.monotonic() - began, 3)
        return outcome

    def verdict_on(self, file: IO[bytes]) -> Tuple[str, str]:
        """Reads the file. Returns its state and a few words about it."""
        self.outcome.digests = digests_of(file, self.item.algorithms, self.pace)
        file.seek(0)
        state, detail = self.verdict_on_records(file)
        return self.judge_package(file, state, detail) if is_package(file) else (state, detail)

    def verdict_on_records(self, file: IO[bytes]) -> Tuple[str, str]:
        """Reads what the file holds. Returns its state and a few words about it."""
        try:
            source = Source(file, self.where, self.pace, self.room)
            with contextlib.closing(source):
                return self.judge(source)
        except Damaged as damage:
            return self.judge_compressed(file, str(damage))
        except TornArchive as fault:
            return self.judge_compressed(file, str(fault), "refused")
        except Unsupported as reason:
            return "unsupported", str(reason)
        finally:
            self.room.release()

    def judge(self, source: Source) -> Tuple[str, str]:
        """Runs the commands, and over the good records where the file is damaged."""
        state, detail = self.run_commands(source)
        if state != "refused":
            return state, detail
        if source.begins is not None:
            raise TornArchive(detail)
        statuses = dict(self.outcome.statuses)
        try:
            return self.judge_damaged(source, detail)
        except TooSlow as error:
            return state, "%s; its good records aren't known: %s" % (detail, error)
        finally:
            self.outcome.statuses = statuses

    def judge_damaged(self, source: Source, fault: str) -> Tuple[str, str]:
        """Counts the pieces of a damaged file, and runs the commands over a copy of its good records."""
        if source.seekable is None:
            return "no-room", "%s; %s" % (fault, self.no_room("unpack it in"))
        self.pace.take(source.size())
        pieces = counted_pieces(self.settings.warc, source.seekable)
        detail = "%s; %s" % (fault, pieces.told())
        if not pieces.damages:
            return "failed", detail + ", so it changed, or its disk fails"
        if pieces.good_records:
            self.pace.take(source.size())
            seconds = patience_for(source.seekable)
            copy = unpacked(good_records(self.settings.warc, source.seekable, seconds), self.where, self.room)
            if copy is None:
                return "no-room", "%s; %s" % (detail, self.no_room("copy its good records to"))
            with copy:
                unpaced = Pace("", None)
                state, words = self.judge_copy(Source(copy, self.where, unpaced, self.room), pieces)
            if state != "refused":
                return state, words
            detail += words
        self.outcome.pieces = pieces
        return "refused", detail

    def judge_compressed(self, file: IO[bytes], fault: str, state: str = "gunzip") -> Tuple[str, str]:
        """Counts the pieces of a compressed file or a package that is damaged, and runs the commands over a copy of the
        good records in its good members. Frames of zstd aren't looked for."""
        self.room.release()
        if not has_good_parts(file):
            return state, fault
        self.pace.take(os.fstat(file.fileno()).st_size)
        try:
            return self.judge_members(file, fault, state)
        except TooSlow as error:
            return state, "%s; its good records aren't known: %s" % (fault, error)
        except Damaged:  # of a package nothing can be read
            return state, fault
        finally:
            self.outcome.statuses = {}

    def judge_members(self, file: IO[bytes], fault: str, of_whole: str) -> Tuple[str, str]:
        """Does that. Damage is raised where the file changed."""
        pieces = Pieces()
        try:
            found = good_of_parts(self.settings.warc, file, self.kept, pieces)
            copy = unpacked(found, self.where, self.room)
        except Full:
            copy = None
        if copy is None:
            return "no-room", "%s; %s" % (fault, self.no_room("copy its good records to"))
        with copy:
            detail = "%s; %s" % (fault, pieces.told())
            if not pieces.damages:
                return "failed", detail + ", so it changed, or its disk fails"
            if pieces.good_records:
                state, words = self.judge_copy(Source(copy, self.where, Pace("", None), self.room), pieces)
                if state != "refused":
                    return state, words
                detail += words
        self.outcome.pieces = pieces
        return of_whole, detail

    def judge_package(self, file: IO[bytes], state: str, detail: str) -> Tuple[str, str]:
        """Judges the files of a package, and adds what is said of them, and its pages, to what the program wrote."""
        try:
            about = About(file)
        except Damaged:
            return state, detail
        self.pace.take(os.fstat(file.fileno()).st_size)
        with open(self.path, "ab") as out:
            for name, lines in (("resources", about.resource_lines()), ("pages", about.page_lines())):
                begin = out.tell()
                out.writelines(lines)
                self.outcome.places[name] = [begin, out.tell()]
        return about.state_of(state, detail)

    def kept(self, pieces: Iterator[bytes]) -> IO[bytes]:
        """What is unpacked, in a file without a name. Full where there is no room."""
        out = unpacked(pieces, self.where, self.room)
        if out is None:
            raise Full
        return out

    def judge_copy(self, copy: Source, pieces: Pieces) -> Tuple[str, str]:
        """Runs the commands over a copy of the good records of a file, which has what was counted."""
        state, words = self.run_commands(copy)
        if state not in READ:
            return "failed", "its good records: " + words
        found = Parts(self.path, self.outcome.places).summary()
        if (int(found["records"]), int(found["bytes"])) != (pieces.good_records, pieces.good_bytes):
            return "failed", "its good records aren't those that were counted: it changed, or its disk fails"
        return "refused", words and "; of the good records: " + words

    def run_commands(self, source: Source) -> Tuple[str, str]:
        """Runs the survey, or over a pipe the commands that read in order, up to one that fails. All that they write is
        one stream."""
        with open(self.path, "wb+", buffering=0) as out:
            if source.seekable is None:
                return self.run_each(source, out, IN_ORDER) or self.verdict(source, out, IN_ORDER)
            return self.run_survey(source, out) or self.verdict(source, out, SURVEY)

    def run_each(self, source: Source, out: IO[bytes], commands: Sequence[str]) -> Optional[Tuple[str, str]]:
        """Runs commands, up to one that fails. Returns the state and the words of a failure."""
        for command in commands:
            out.write(b"# %s\n" % command.encode("ascii"))
            status, message = source.run([self.settings.warc, command, "-"], out)
            self.outcome.statuses[command] = status
            stopped = failure_of(command, status, message)
            if stopped:
                return stopped
        return None

    def run_survey(self, source: Source, out: IO[bytes]) -> Optional[Tuple[str, str]]:
        """Runs `survey`. If it fails, `list`, its first part, gets its status."""
        status, message = source.run([self.settings.warc, "survey", "-"], out)
        if status:
            self.outcome.statuses["list"] = status
            return failure_of("survey", status, message)
        if out.seek(0, os.SEEK_END) and os.pread(out.fileno(), 1, out.tell() - 1) != b"\n":
            return "failed", "survey: a line without an end"
        return None

    def part_statuses(self, tally: Tally) -> Dict[str, int]:
        """The status with which each command of the survey ends by itself."""
        found = Parts(self.path, tally.places).summary()
        lines = {name: tally.places[name][0] < tally.places[name][1] for name in ("check", "captures")}
        digests = 1 if int(found["bad"]) else 4 if int(found["unchecked"]) else 0
        captures = 0 if lines["captures"] else 1
        payloads = 1 if tally.bad_payloads else 4 if tally.unchecked_payloads or not tally.states_payloads else 0
        statuses = {"list": 0, "fixity": digests, "check": int(lines["check"]), "summary": 0, "captures": captures}
        return {**statuses, "payloads": payloads}

    def verdict(self, source: Source, out: IO[bytes], parts: Sequence[str]) -> Tuple[str, str]:
        """The state of a file that could be read, and why it isn't better."""
        tally = Tally(source.seekable, source.noted if source.noted.begins else None)
        tally.begins = set(source.begins or ())
        try:
            with open(self.path, "rb") as written:
                tally.read(written, parts)
        except ValueError as error:
            return "failed", "survey: %s" % error
        if tally.begins:
            return "refused", "an archive of the package isn't one by itself"
        self.outcome.places = tally.places
        if source.seekable is not None:
            self.outcome.statuses.update(self.part_statuses(tally))
            self.put_part(out, "hashes", tally.hashes)
            if tally.members:
                self.put_part(out, "places", tally.members)
                why = self.differs(source, tally)
                if why:
                    return "failed", "members: " + why
            self.put_texts(out, source.seekable)
        self.outcome.no_bytes = len(tally.empty)
        return self.state_of(tally, source)

    def put_part(self, out: IO[bytes], name: str, rows: bytearray) -> None:
        """Writes a row for each record after what the program wrote."""
        begin = out.seek(0, os.SEEK_END)
        write_all(out, bytes(rows))
        self.outcome.places[name] = [begin, begin + len(rows)]

    def differs(self, source: Source, tally: Tally) -> Optional[str]:
        """How some captures of a compressed file differ if their members alone are read, if they do."""
        assert source.seekable is not None
        words = self.settings.warc, source.file, source.seekable, tally, self.where
        return Sample(*words).difference(Parts(self.path, tally.places))

    def put_texts(self, out: IO[bytes], file: IO[bytes]) -> None:
        """Writes the texts of the pages after that, where they are wanted. They take no time of the file's own."""
        if self.settings.package is None:
            return
        from .page_texts import PART_OF_TIME, text_lines  # here, since jobs without texts do without

        most = self.settings.timeout
        seconds = None if not most else max(PART_OF_TIME * most - (time.monotonic() - self.began), 0.0)
        begin = out.seek(0, os.SEEK_END)
        try:
            for line in text_lines(file, Parts(self.path, self.outcome.places), self.settings.package, seconds):
                write_all(out, line)
        except OSError:  # as of a full disk: there are no texts then
            out.truncate(begin)
            return
        self.outcome.places["texts"] = [begin, out.tell()]

    def state_of(self, it: Tally, source: Source) -> Tuple[str, str]:
        about = (
            ("bad", it.bad and counted(it.bad, "block doesn't have its digest", "blocks don't have their digests")),
            (
                "bad",
                it.bad_payloads
                and counted(it.bad_payloads, "payload doesn't have its digest", "payloads don't have theirs"),
            ),
            ("unchecked", it.unchecked and counted(it.unchecked, "block") + " can't be checked"),
            ("findings", it.findings and counted(it.findings, "finding")),
            ("no-room", source.seekable is None and self.no_room("unpack it in")),
            ("good", it.empty and counted(len(it.empty), "revisit") + " with the digest of no bytes"),
        )
        found = {state for state, words in about if words}
        state = next((state for state in ("no-room", "bad", "unchecked", "findings") if state in found), "good")
        return state, "; ".join(str(words) for _, words in about if words)

    def no_room(self, what: str) -> str:
        """Why a file couldn't be unpacked."""
        return self.room.why or "no room to %s %s" % (what, self.where)
