"""The texts of the pages in a file, which a job reads beside all else. They are a finding aid: whatever becomes of them
changes no state of the file.

A process with limits of its own makes them, since what it reads is hostile: a body that ends it, or that takes too
long, has no text, and another process goes on after it.
"""
from __future__ import annotations

import collections
import contextlib
import dataclasses
import hashlib
import importlib
import json
import mmap
import os
import resource
import select
import signal
import sys
import time
from typing import IO, Any, Dict, Iterator, List, NoReturn, Optional, Sequence, Tuple

from .charset import HTML, PLAIN, media_of, text_of
from .parts import Parts
from .scan import PageText, plain_text, scanned

MOST_OF_BODY = 32 << 20  # bytes, decoded
SECONDS_A_BODY = 20.0
MEMORY = 1 << 30  # bytes, beside the file
MOST_ENDED = 100  # processes that end in one file
# What part of the time of a file its texts may take: the rest stays for what follows.
PART_OF_TIME = 0.9
PIECE = 1 << 16
CODED = "P10 "
# Why a file has no texts. The next run tries again where it may be otherwise.
NO_PACKAGE = "the Python package zogwedu isn't there"
NO_TIME = "took too long"
# Why a capture has none, beside the reasons of the program.
NO_TEXT, EMPTY, TOO_LONG, TOO_SLOW, ENDED = "no text", "empty", "too long", "too slow", "too much"


@dataclasses.dataclass(frozen=True)
class Wanted:
    """A capture that may have a text: its position, the target and the instant, and the record that gives its body."""

    position: int
    given: int


class NoText(Exception):
    """Why a capture has no text."""


def is_text(media: bytes, status: bytes) -> bool:
    """Whether a capture may be a text, by its status and its media type. One without a type may."""
    name = media.split(b";")[0].strip().lower().decode("latin-1")
    return (status == b"-" or status.startswith(b"2")) and name in (*HTML, PLAIN, "-", "")


def wanted_of(parts: Parts) -> Tuple[List[Wanted], Dict[str, int]]:
    """The captures that may have a text, as `captures` lists them, and how many others there are, by the reasons."""
    wanted: List[Wanted] = []
    without: Dict[str, int] = collections.Counter()
    for line in parts.lines("captures"):
        position, _, _, _, given, status, media, _, reason, _ = line.split(b"\t", 9)
        why = reason.decode("utf-8", "replace")
        if reason != b"-" and not why.startswith(CODED):
            without[why.split(" ")[0]] += 1
        elif not is_text(media, status):
            without[NO_TEXT] += 1
        else:
            wanted.append(Wanted(int(position), int(position if given == b"-" else given)))
    return wanted, without


def text_lines(source: IO[bytes], parts: Parts, package: str, seconds: Optional[float]) -> Iterator[bytes]:
    """The texts of a file and the captures that have them, a line of JSON each: `text`, its key, title and text; and
    `seen`, a position, the position of the record that gives it, the key and the media type. The last line counts them,
    so that a part that was cut isn't whole."""
    wanted, without = wanted_of(parts)
    extraction = Extraction(source, wanted, package, None if seconds is None else time.monotonic() + seconds)
    counts: Dict[str, int] = collections.Counter()
    for line in extraction.lines():
        kind = line[0]
        counts[kind] += 1
        if kind == "without":
            without[line[2]] = without.get(line[2], 0) + 1
        else:
            yield json.dumps(line).encode("ascii") + b"\n"
    end = {"texts": counts["text"], "seen": counts["seen"], "without": without, "why": extraction.why}
    yield json.dumps(["end", end]).encode("ascii") + b"\n"


class Extraction:
    """Processes that read the texts of captures, one after another."""

    def __init__(self, source: IO[bytes], wanted: Sequence[Wanted], package: str, end: Optional[float]) -> None:
        self.source = source
        self.wanted = wanted
        self.package = package
        self.end = end
        self.done = 0
        self.ended = 0
        self.known: Dict[str, bool] = {}
        self.why = ""

    def lines(self) -> Iterator[List[Any]]:
        """What all processes say. A capture whose process ended without a word has no text."""
        while self.done < len(self.wanted) and not self.why:
            yield from self.of_one_process()

    def of_one_process(self) -> Iterator[List[Any]]:
        """Runs a process, until it is done or has to be ended."""
        read, write = os.pipe()
        child = os.fork()
        if child == 0:
            os.close(read)
            extract_and_exit(self.source, self.wanted[self.done :], self.package, write)
        os.close(write)
        try:
            why = ENDED
            for line in said_by(read, self.deadline):
                if line[0] == "failed":
                    self.why = str(line[1])
                elif line[0] == "late":
                    why = TOO_SLOW
                elif line[0] != "text" or line[1] not in self.known:
                    self.known.update({line[1]: True} if line[0] == "text" else {})
                    self.done += line[0] != "text"
                    yield line
        finally:
            with contextlib.suppress(ProcessLookupError):
                os.kill(child, signal.SIGKILL)
            os.close(read)
            os.waitpid(child, 0)
        yield from self.after_process(why)

    def deadline(self) -> float:
        """Until when the next line has to come."""
        soon = time.monotonic() + SECONDS_A_BODY
        return soon if self.end is None else min(soon, self.end)

    def after_process(self, why: str) -> Iterator[List[Any]]:
        """What is to be said of the capture at which a process ended."""
        if self.done == len(self.wanted) or self.why:
            return
        if self.end is not None and time.monotonic() >= self.end:
            self.why = NO_TIME
            return
        yield ["without", self.wanted[self.done].position, why]
        self.done += 1
        self.ended += 1
        if self.ended == MOST_ENDED:
            self.why = "%d bodies ended what reads their texts" % MOST_ENDED


def said_by(pipe: int, deadline: Any) -> Iterator[List[Any]]:
    """The lines that come through a pipe, until it is closed, or none has come in time: then `late`."""
    left = b""
    while True:
        ready = select.select([pipe], [], [], max(deadline() - time.monotonic(), 0))[0]
        piece = os.read(pipe, PIECE) if ready else b""
        if not piece:
            if not ready:
                yield ["late"]
            return
        *whole, left = (left + piece).split(b"\n")
        for line in whole:
            yield json.loads(line)


def extract_and_exit(source: IO[bytes], wanted: Sequence[Wanted], package: str, pipe: int) -> NoReturn:
    """What the process does."""
    status = 1
    try:
        signal.signal(signal.SIGTERM, signal.SIG_DFL)
        with os.fdopen(pipe, "wb", buffering=0) as out:
            for line in extracted(source, wanted, package):
                out.write(json.dumps(line).encode("ascii") + b"\n")
        status = 0
    except BaseException:  # whatever it is, the process ends here, and its capture has no text
        pass
    finally:
        os._exit(status)


def extracted(source: IO[bytes], wanted: Sequence[Wanted], package: str) -> Iterator[List[Any]]:
    """The texts, one after another."""
    if package and package not in sys.path:
        sys.path.append(package)
    try:
        zogwedu = importlib.import_module("zogwedu")
    except ImportError:
        yield ["failed", NO_PACKAGE]
        return
    with contextlib.closing(mmap.mmap(source.fileno(), 0, access=mmap.ACCESS_READ)) as data:
        limit_memory()
        try:
            archive = zogwedu.Archive(data)
        except (zogwedu.WarcError, MemoryError) as error:
            yield ["failed", "%s: %s" % (type(error).__name__, error)]
            return
        with archive:
            yield from Extractor(zogwedu, archive).lines(wanted)


def limit_memory() -> None:
    """Sets how much memory the process may take beside what it has, where the system says what that is."""
    with contextlib.suppress(OSError):
        with open("/proc/self/statm", encoding="ascii") as file:
            most = int(file.read().split()[0]) * resource.getpagesize() + MEMORY
        hard = resource.getrlimit(resource.RLIMIT_AS)[1]
        resource.setrlimit(resource.RLIMIT_AS, (most if hard == resource.RLIM_INFINITY else min(most, hard), hard))


class Extractor:
    """Reads the texts of captures in an open archive. What gives the same body gives the same text."""

    def __init__(self, package: Any, archive: Any) -> None:
        self.package = package
        self.archive = archive
        self.by_record: Dict[int, List[Any]] = {}
        self.by_body: Dict[bytes, List[Any]] = {}

    def lines(self, wanted: Sequence[Wanted]) -> Iterator[List[Any]]:
        for it in wanted:
            if it.given not in self.by_record:
                made, about = self.of_capture(it.position)
                self.by_record[it.given] = about
                if made is not None:
                    yield ["text", about[1], made.title, made.text]
            kind, *rest = self.by_record[it.given]
            yield [kind, it.position, *(rest if kind == "without" else (it.given, *rest))]

    def of_capture(self, position: int) -> Tuple[Optional[PageText], List[Any]]:
        """The text of a capture if it is a new one; and what is said of the capture: its key and type, or why it has
        none."""
        try:
            body, kind = self.body_of(position)
            name = hashlib.sha256(kind.encode("utf-8", "replace") + b"\0" + body).digest()
            if name in self.by_body:
                return None, self.by_body[name]
            media = media_of(kind, body)
            made = text_in(body, kind, media)
            about = ["seen", key_of(made), media]
            self.by_body[name] = about
            return made, about
        except NoText as reason:
            return None, ["without", str(reason)]
        except MemoryError:
            return None, ["without", ENDED]

    def body_of(self, position: int) -> Tuple[bytes, str]:
        """The decoded body that a capture gives, and its content type."""
        try:
            body = self.archive[position].body(decoded=True, decoded_limit=MOST_OF_BODY)
        except self.package.NoBody as reason:
            raise NoText(str(reason).split(" ")[0]) from None
        except self.package.Undecodable:
            raise NoText("coded") from None
        if len(body) > MOST_OF_BODY:
            raise NoText(TOO_LONG)
        record = self.archive[body.given]
        head = record.headers if body.status is None else record.http.headers
        return b"".join(body.parts), ", ".join(head.get_all("Content-Type"))


def text_in(body: bytes, kind: str, media: str) -> PageText:
    """The text of a body, if it is a page or a text with words."""
    if media not in (*HTML, PLAIN):
        raise NoText(NO_TEXT)
    text = text_of(body, kind)
    made = scanned(text) if media in HTML else plain_text(text)
    if not made.text and not made.title:
        raise NoText(EMPTY)
    return made


def key_of(made: PageText) -> str:
    """What a text is known by."""
    return hashlib.sha256(b"%s\0%s" % (bytes_of(made.title), bytes_of(made.text))).hexdigest()


def bytes_of(text: str) -> bytes:
    return text.encode("utf-8", "surrogatepass")
