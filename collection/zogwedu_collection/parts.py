"""What the program wrote over a file: one stream, in which the part of each command follows a line with its name."""
from __future__ import annotations

import array
import dataclasses
import hashlib
import os
import struct
from typing import IO, TYPE_CHECKING, Any, Dict, Iterator, List, Optional, Sequence, Set, Tuple

if TYPE_CHECKING:
    from .members import Noted

# The commands of a survey, in the order of their parts.
SURVEY = ("list", "fixity", "check", "summary", "captures", "payloads")
# The digest of no bytes, which wget states in each revisit, though the revisit has a block.
OF_NO_BYTES = b"sha1:3I42H3S6NNFQ2MSVX7XZKYAYSCX5QBYJ"
# The most bytes of a head that are hashed, and how much of the SHA-256 is kept.
MOST_HASHED = 1 << 20
HASH_DIGITS = 32
# How many rows of numbers are read at once.
ROWS_AT_ONCE = 1 << 12


@dataclasses.dataclass
class Parts:
    """Where the part of each command begins and ends in a file."""

    path: str
    places: Dict[str, List[int]] = dataclasses.field(default_factory=dict)

    def has(self, name: str) -> bool:
        """Whether a command was run."""
        return name in self.places

    def lines(self, name: str) -> Iterator[bytes]:
        """The lines that a command wrote, without their ends. No column holds a line feed."""
        begin, end = self.places.get(name, (0, 0))
        if begin == end:
            return
        with open(self.path, "rb") as file:
            file.seek(begin)
            for line in file:
                begin += len(line)
                if begin > end or not line.endswith(b"\n"):
                    raise ValueError("a line without an end")
                yield line[:-1]
                if begin == end:
                    return
        raise ValueError("the part %s isn't whole" % name)

    def rows(self, name: str, form: struct.Struct) -> Iterator[Tuple[Any, ...]]:
        """The rows of numbers that a job wrote in a form."""
        begin, end = self.places.get(name, (0, 0))
        if begin == end:
            return
        with open(self.path, "rb") as file:
            file.seek(begin)
            while begin < end:
                data = file.read(min(ROWS_AT_ONCE * form.size, end - begin))
                if not data or len(data) % form.size:
                    raise ValueError("the part %s isn't whole" % name)
                begin += len(data)
                yield from form.iter_unpack(data)

    def summary(self) -> Dict[str, str]:
        """The lines of `summary`: values by their names."""
        pairs = (line.decode("utf-8", "replace").split("\t", 1) for line in self.lines("summary"))
        return {name: value for name, value in pairs}


def payload_verdict(line: bytes) -> bytes:
    """The verdict on a payload that isn't good, as `fixity --payload` writes it; none for a request's, which is never
    judged, and for the last line, which counts."""
    columns = line.split(b"\t", 4)
    return columns[1] if len(columns) == 5 and columns[3] != b"request" else b""


class Tally:
    """Reads what the program wrote, once: where each part is, the hashes of the records, and what the state of the file
    follows from."""

    def __init__(self, source: Optional[IO[bytes]], noted: Optional[Noted] = None) -> None:
        """Of a compressed file it is noted where its members are."""
        self.source = source
        self.noted = noted
        self.offsets = array.array("q")
        self.members = bytearray()  # the places of the records
        self.places: Dict[str, List[int]] = {}
        self.hashes = bytearray()
        self.waiting: Optional[List[bytes]] = None
        self.begins: Set[int] = set()  # where a record has to begin that wasn't seen yet
        self.revisits: Set[int] = set()
        self.bad = self.unchecked = self.findings = self.bad_payloads = self.unchecked_payloads = 0
        self.states_payloads = False  # whether any record states the digest of its payload
        self.empty: Set[int] = set()
        self.ignored: Set[bytes] = set()
        self.part = ""

    def read(self, file: IO[bytes], awaited: Sequence[str], begin: int = 0) -> None:
        """Reads the parts with these names, in their order. Each follows the line with its name, and no other line
        begins with a number sign. A ValueError names the line that is missing, doubled or misplaced."""
        file.seek(begin)
        left, at = list(awaited), begin
        by_name = {"list": self.of_list, "fixity": self.of_fixity, "check": self.of_check, "payloads": self.of_payloads}
        take = None
        for line in file:
            at += len(line)
            if line.startswith(b"#"):
                self.begin_part(line, left, awaited, at)
                take = by_name.get(self.part)
                continue
            if not self.part:
                raise ValueError("its first line isn't '# %s'" % awaited[0])
            if not line.endswith(b"\n"):
                raise ValueError("a line without an end")
            self.places[self.part][1] = at
            if take is not None:
                take(line[:-1])
        if left:
            raise ValueError("there is no line '# %s'" % left[0])

    def begin_part(self, line: bytes, left: List[str], awaited: Sequence[str], at: int) -> None:
        """Begins a part, if it is the one that is awaited."""
        name = line[2:-1].decode("ascii", "replace")
        if line != b"# %s\n" % name.encode("ascii", "replace") or name not in awaited:
            raise ValueError("a line that begins with '#' names no part")
        if name not in left:
            raise ValueError("there is a second line '# %s'" % name)
        if name != left[0]:
            raise ValueError("there is no line '# %s' before '# %s'" % (left[0], name))
        left.pop(0)
        if self.part == "list":
            self.end_list()
        self.part = name
        self.places[name] = [at, at]

    def of_list(self, line: bytes) -> None:
        row = line.split(b"\t", 3)
        if row[3][:8].lower() == b"revisit\t":
            self.revisits.add(int(row[0]))
        if self.begins:
            self.begins.discard(int(row[1]))
        if self.source is not None:
            offset = int(row[1])
            if self.waiting is not None:
                self.add_hash(self.source, self.waiting, offset)
            self.waiting = row
            self.offsets.append(offset)

    def end_list(self) -> None:
        """Takes the last record, which ends where the file does."""
        if self.source is not None and self.waiting is not None:
            size = os.fstat(self.source.fileno()).st_size
            self.add_hash(self.source, self.waiting, size)
            if self.noted is not None:
                self.members = self.noted.places(self.offsets, size)
        self.waiting = None

    def add_hash(self, source: IO[bytes], row: List[bytes], end: int) -> None:
        """Hashes what `list` says of a record, and as many bytes of it as it has beside its block. So another digest in
        its head shows, though nothing else differs."""
        _, offset, length, words = row
        beside = min(max(end - int(offset) - int(length), 0), MOST_HASHED)
        head = os.pread(source.fileno(), beside, int(offset))
        self.hashes += hashlib.sha256(words + b"\n" + head).hexdigest()[:HASH_DIGITS].encode("ascii") + b"\n"

    def of_fixity(self, line: bytes) -> None:
        """Revisits with the digest of no bytes are counted apart: they are no damage."""
        if b"\t" not in line:
            return
        position, verdict, rest = line.split(b"\t", 2)
        self.unchecked += verdict == b"unchecked"
        if verdict == b"bad" and rest.endswith(b"\t" + OF_NO_BYTES) and int(position) in self.revisits:
            self.empty.add(int(position))
            self.ignored.add(position + b" N4")
        else:
            self.bad += verdict == b"bad"

    def of_check(self, line: bytes) -> None:
        self.findings += line not in self.ignored

    def of_payloads(self, line: bytes) -> None:
        """The last line counts the digests that are stated."""
        verdict = payload_verdict(line)
        self.bad_payloads += verdict == b"bad"
        self.unchecked_payloads += verdict == b"unchecked"
        self.states_payloads = not line.startswith(b"records 0 ")
