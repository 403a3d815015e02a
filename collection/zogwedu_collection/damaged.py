"""Damaged files: how many good records the program finds in one, and how many bytes are damaged; and a copy of the good
records, which is an archive. Where a record is in that copy is its position, here and everywhere."""
from __future__ import annotations

import dataclasses
import errno
import functools
import itertools
import os
import subprocess
import threading
from typing import IO, Callable, Generator, Iterator, List, Optional

from .program import said
from .texts import counted, last_line
from .unpack import PIECE, members_in, spans_of

MOST_OF_MESSAGE = 4096
# The seconds that a look for good records may take at least, and the bytes of a file for which it may take one more.
LEAST_SECONDS = 60
LEAST_SPEED = 1 << 20
# The most runs of good members of a damaged file: the program is run over each.
MOST_RUNS = 1000
# The exit statuses by which the program says that it read all, without damage and with some.
READ_ALL = (0, 2)


@dataclasses.dataclass
class Pieces:
    """The good records of a file and their bytes, and the damages between them and theirs. The damages of a compressed
    file are those of its members, whose bytes are compressed, and those of what the good members hold."""

    good_records: int = 0
    good_bytes: int = 0
    damages: int = 0
    damaged: int = 0

    def add(self, line: bytes) -> None:
        """Adds a line of `pieces`. What isn't one is a ValueError."""
        name, _, length, last = line.split(b"\t", 3)
        if name == b"records":
            self.good_bytes += int(length)
            self.good_records += int(last)
        elif name == b"damage":
            self.damaged += int(length)
            self.damages += 1
        else:
            raise ValueError("neither records nor damage")

    def add_all(self, other: Pieces) -> None:
        """Adds the pieces of another part."""
        for name, value in dataclasses.asdict(other).items():
            setattr(self, name, getattr(self, name) + value)

    def told(self) -> str:
        """A few words about them."""
        good = "%s, %s" % (counted(self.good_records, "good record"), counted(self.good_bytes, "byte"))
        return "%s; %s, %s" % (good, counted(self.damages, "damage"), counted(self.damaged, "byte"))


class Ending(threading.Thread):
    """Reads a message to its end while something else is read, and keeps its last bytes alone: of a hostile file the
    program says a line for each of millions of damages."""

    def __init__(self, pipe: IO[bytes]) -> None:
        super().__init__(daemon=True)
        self.pipe = pipe
        self.kept = b""
        self.start()

    def run(self) -> None:
        for part in iter(functools.partial(self.pipe.read, PIECE), b""):
            self.kept = (self.kept + part)[-MOST_OF_MESSAGE:]

    def last_line(self) -> str:
        """The last line, once there is no more."""
        self.join()
        return last_line(said(self.kept))


class TooSlow(Exception):
    """The program was ended, since it took too long."""


def patience_for(file: IO[bytes]) -> float:
    """How many seconds a look for good records may take. A hostile file has many places to look at."""
    return LEAST_SECONDS + os.fstat(file.fileno()).st_size / LEAST_SPEED


def end(child: subprocess.Popen[bytes], is_over: threading.Event) -> None:
    """Ends a program whose time is over."""
    is_over.set()
    child.kill()


def output_of(words: List[str], file: IO[bytes], seconds: Optional[float] = None) -> Generator[bytes, None, None]:
    """What the program writes over a file, in pieces. An OSError at their end where it didn't read all."""
    file.seek(0)
    is_over = threading.Event()
    with subprocess.Popen(words, stdin=file, stdout=subprocess.PIPE, stderr=subprocess.PIPE) as child:
        assert child.stdout is not None and child.stderr is not None
        message = Ending(child.stderr)
        timer = threading.Timer(seconds or 0, end, (child, is_over))
        timer.daemon = True
        if seconds is not None:
            timer.start()
        try:
            yield from iter(functools.partial(child.stdout.read, PIECE), b"")
        except BaseException:
            child.kill()
            raise
        finally:
            timer.cancel()
            message.join()
    if is_over.is_set() and child.returncode < 0:
        raise TooSlow("%s took more than %.0f s" % (words[1], seconds or 0))
    if child.returncode not in READ_ALL:
        status = child.returncode
        why = "ended by signal %d" % -status if status < 0 else message.last_line() or "status %d" % status
        raise OSError(errno.EIO, "%s: %s" % (words[1], why))


def counted_pieces(warc: str, file: IO[bytes]) -> Pieces:
    """How many good records a file has, and how many damages. TooSlow where that takes too long."""
    pieces, rest = Pieces(), b""
    try:
        for part in output_of([warc, "pieces", "-"], file, patience_for(file)):
            *lines, rest = (rest + part).split(b"\n")
            for line in lines:
                pieces.add(line)
        if rest:
            raise ValueError("a line without an end")
    except ValueError as error:
        raise OSError(errno.EIO, "pieces: no list of pieces: %s" % error) from None
    return pieces


def good_records(warc: str, file: IO[bytes], seconds: Optional[float] = None) -> Generator[bytes, None, None]:
    """The bytes of all good records of a file, in pieces. TooSlow at their end where that takes more seconds."""
    return output_of([warc, "salvage", "--all", "-"], file, seconds)


def good_of_members(
    warc: str, file: IO[bytes], kept: Callable[[Iterator[bytes]], IO[bytes]], pieces: Pieces
) -> Generator[bytes, None, None]:
    """The bytes of all good records in the good members of a file that gzip wrote, in pieces, which are counted. Each
    run of members is read by itself, so that no record has bytes of both sides of a damage: `kept` writes what it
    holds to a file. TooSlow where there are too many runs, or one takes too long."""
    spans = list(itertools.islice(spans_of(file), 2 * MOST_RUNS + 1))
    if len(spans) > 2 * MOST_RUNS:
        raise TooSlow("its members have %d damages and more" % MOST_RUNS)
    for span in spans:
        if span.why is not None:
            pieces.add_all(Pieces(damages=1, damaged=span.length))
            continue
        with kept(members_in(file, span)) as run:
            pieces.add_all(counted_pieces(warc, run))
            yield from good_records(warc, run, patience_for(run))
