"""Packages of web archives (WACZ): what they hold beside their archives, and the commands that print it."""
import contextlib
import functools
import mmap
import os
import re
import stat
import sys
import tempfile
from datetime import datetime
from itertools import zip_longest
from typing import IO, Any, ContextManager, Dict, List, NamedTuple, Optional, TYPE_CHECKING, Union

from . import _library as library
from ._archive import Archive
from ._files import Joined, Upon, copied, join_package, path_of, pieces_in
from ._problems import CompressedError, NoBody, WarcError
from ._wacz import LIGHT, SEVERE, Package, Page, Pages, Resource, instant_of
from ._writing import write_parts
from ._zip import BadZip

if TYPE_CHECKING:
    Path = Union[str, "os.PathLike[str]"]

NOT_YET = 102
# A date as the library reads it.
PLAIN = re.compile(r"\d{4}-\d\d-\d\dT\d\d:\d\d:\d\d(\.\d{1,9})?Z", re.ASCII)


class Entry(NamedTuple):
    """Where to begin with a page: replay it as of `date`. `later` is None if that is the page's own time, and else by
    how many seconds the first capture, whose date this is, is later."""

    date: str
    later: Optional[float]


class Wacz:
    """A package of web archives (WACZ), in a file. `Archive.open` opens its archives; this says what else is in it.

    Raises CompressedError if the file is no ZIP, or one that contradicts itself. A hash says that the bytes are as they
    were packed, and not by whom: signatures aren't checked. Nothing is fetched, and no index is read.
    """

    def __init__(self, path: "Path") -> None:
        self._path = path_of(path, "Archive.open(io.BytesIO(data))")
        self._file = open(self._path, "rb")  # pylint: disable=consider-using-with
        try:
            read = functools.partial(_read_at, self._file)
            self._package = Package(read, os.fstat(self._file.fileno()).st_size)
        except BadZip as bad:
            self._file.close()
            raise CompressedError(f"refused zip at {bad.offset}: {bad}", bad.offset) from bad
        except BaseException:
            self._file.close()
            raise

    def close(self) -> None:
        """Closes the file."""
        self._file.close()

    def __enter__(self) -> "Wacz":
        return self

    def __exit__(self, *_exception: object) -> None:
        self.close()

    @property
    def archives(self) -> List[str]:
        """The names of its archives, in the order in which `Archive.open` joins them."""
        return [entry.name for entry in self._package.archives]

    @property
    def description(self) -> Dict[str, Any]:
        """What its datapackage.json says; nothing if there is none that is an object."""
        return self._package.said()

    @property
    def signer(self) -> Optional[str]:
        """Who a signature names, which isn't checked; None without signature."""
        return self._package.signer()

    def resources(self) -> List[Resource]:
        """The verdict on each file in it, and on each that is listed. Reads the whole package."""
        return list(self._package.resources())

    def pages(self) -> Pages:
        """The pages that it lists, as places to begin, which can be iterated again and again."""
        return self._package.pages()

    def __repr__(self) -> str:
        return f"<zogwedu.Wacz {self._path}, {len(self.archives)} archives>"


def entry_point(archive: Archive, page: Page) -> Optional[Entry]:
    """As of when a page is to be replayed: its own time, or the date of the first capture if that is later.

    The time of a page is when the browser began, and its capture has often a date that is some 0.1 seconds later.
    Nothing else is guessed: None if the URI has no capture, or the page no time that is a date.
    """
    begun = instant_of(page.instant)
    if begun is None or page.instant is None:
        return None
    captures = archive.captures(page.url)
    if not captures:
        return None
    try:
        archive.replay(page.url, begun)
    except NoBody as reason:
        if reason.code == NOT_YET:
            captured = instant_of(captures[0].date)
            return Entry(captures[0].date, None if captured is None else (captured - begun).total_seconds())
    return Entry(page.instant if PLAIN.fullmatch(page.instant) else dated(begun), None)


def dated(instant: datetime) -> str:
    """An instant in UTC, as the library reads dates."""
    return instant.isoformat(timespec="microseconds")[:26] + "Z"


def _read_at(file: Any, count: int, offset: int) -> bytes:
    """Bytes of a file at an offset."""
    return os.pread(file.fileno(), count, offset)


def shown(text: str) -> str:
    """A text as a column: nothing in it ends a line, or controls a terminal."""
    return "".join(sign if sign.isprintable() and sign != "\\" else _escaped(sign) for sign in text)


def _escaped(sign: str) -> str:
    """A sign by its number, or by the letter that it is known by."""
    known = {"\\": "\\\\", "\t": "\\t", "\n": "\\n", "\r": "\\r"}
    return known.get(sign) or (f"\\x{ord(sign):02x}" if ord(sign) < 256 else f"\\u{{{ord(sign):x}}}")


def _put(*columns: Optional[str]) -> None:
    """Prints columns."""
    line = "\t".join("-" if column is None else shown(column) for column in columns) + "\n"
    sys.stdout.buffer.write(line.encode("utf-8", "surrogateescape"))


def _counts(path: str) -> List[Optional[str]]:
    """How many records each archive of a package has. None is known where they are refused, and a line says why."""
    try:
        with Archive.open(path) as archive:
            return [str(count) for count in archive._counts()]
    except WarcError as error:
        print(f"zogwedu: {error}", file=sys.stderr)
        return []


def list_package(path: str) -> int:
    """Prints the archives, the files and the pages of a package, and answers the exit status: 2 if the archives are
    refused, 1 if a file is bad or missing, 4 if one is unchecked or unlisted or the description has no digest, and
    else 0."""
    with Wacz(path) as package:
        counts = _counts(path)
        for name, count in zip_longest(package.archives, counts):
            _put("archive", name, count)
        resources = package.resources()
        for it in resources:
            _put("resource", it.verdict, it.path, it.stated)
        if package.signer is not None:
            _put("signer", "unchecked", package.signer)
        pages = package.pages()
        for page in pages:
            _put("page", *page)
        if pages.others or pages.is_cut:
            more = ", and there are more pages" if pages.is_cut else ""
            print(f"zogwedu: {pages.others} lines of the pages are no pages{more}", file=sys.stderr)
    return status_of(resources) if counts else 2


def status_of(resources: List[Resource]) -> int:
    """The exit status of the verdicts."""
    verdicts = {it.verdict for it in resources}
    return 1 if verdicts.intersection(SEVERE) else 4 if verdicts.intersection(LIGHT) else 0


def judge_package(path: str) -> int:
    """Prints each file of a package that isn't what is stated, and how many of each verdict there are."""
    with Wacz(path) as package:
        resources = package.resources()
    for it in resources:
        if it.verdict in SEVERE:
            _put(f"{it.verdict} {it.path}")
    counts = {verdict: sum(it.verdict == verdict for it in resources) for verdict in ("good", *SEVERE, *LIGHT)}
    said = ", ".join(f"{count} {verdict}" for verdict, count in counts.items() if count)
    _put(f"{len(resources)} files of the package: {said}")
    return status_of(resources)


def join(path: str) -> int:
    """Writes what the archives of a package hold, one after another, to standard output. `-` is standard input, whose
    pipe isn't opened anew: nobody may be there who writes to it."""
    given: IO[bytes] = open(0, "rb", closefd=False) if path == "-" else open(path, "rb")
    with given, _seekable(given) as file:
        if _is_empty_file(sys.stdout.fileno()):
            with open(sys.stdout.fileno(), "wb", buffering=0, closefd=False) as out, open("/dev/stdout", "rb") as own:
                return _judge_parts(own, join_package(file, out, Upon.RAISE))
        with tempfile.TemporaryFile(buffering=0) as out:
            status = _judge_parts(out, join_package(file, out, Upon.RAISE))
            if status == 0:
                out.seek(0)
                for piece in pieces_in(out):
                    write_parts(sys.stdout.buffer, [memoryview(piece)])
        return status


def _seekable(file: IO[bytes]) -> ContextManager[IO[bytes]]:
    """A file that can be read at any place: itself, or a copy of what comes by a pipe."""
    if stat.S_ISREG(os.fstat(file.fileno()).st_mode):
        return contextlib.nullcontext(file)
    return copied(pieces_in(file))


def _is_empty_file(descriptor: int) -> bool:
    """Whether a descriptor leads to a regular file in which nothing is."""
    found = os.fstat(descriptor)
    return stat.S_ISREG(found.st_mode) and found.st_size == 0


def _judge_parts(file: IO[bytes], joined: Joined) -> int:
    """The exit status for archives that were joined in a file: 2 if one of several isn't an archive by itself. A torn
    one would take the beginning of the next one for its own."""
    if len(joined.parts) < 2 or not os.fstat(file.fileno()).st_size:
        return 0
    with mmap.mmap(file.fileno(), 0, access=mmap.ACCESS_READ) as mapped:
        lent = library.Lent(mapped)
        try:
            for part in joined.parts:
                fault = library.fault_between(lent, part.offset, part.offset + part.length)
                if fault is not None:
                    print(f"zogwedu: {shown(part.name)}: {fault}", file=sys.stderr)
                    return 2
        finally:
            lent.give_back()
    return 0


def run(words: List[str]) -> Optional[int]:
    """Runs a command over a package, and answers its exit status; None if the words are no such command."""
    commands = {("wacz",): list_package, ("wacz", "--verdicts"): judge_package, ("join",): join}
    command = commands.get(tuple(words[:-1]))
    if command is None:
        return None
    try:
        status = command(words[-1])
        sys.stdout.flush()
        return status
    except CompressedError as error:
        print(f"zogwedu: {error}", file=sys.stderr)
        return 2 if error.name == "refused zip" else 3
    except OSError as error:
        print(f"zogwedu: {error}", file=sys.stderr)
        return 3
    except WarcError as error:
        print(f"zogwedu: {error}", file=sys.stderr)
        return 2
