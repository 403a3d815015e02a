"""Some captures of a compressed file, compared in its job: what an answer by members gives is what the whole gives."""
from __future__ import annotations

import dataclasses
import os
import random
import subprocess
import tempfile
from typing import IO, Dict, List, NamedTuple, Optional, Set

from .members import MOST_CONTINUATIONS, Other, held_by, place_of
from .parts import Parts, Tally
from .texts import escaped
from .unpack import write_all

MOST_COMPARED = 20
# The captures that are compared have together at most a fiftieth of what the file holds, or `LEAST` bytes.
PART, LEAST = 50, 1 << 20


class Line(NamedTuple):
    """A line of `captures`: the position, and the record that gives its body with the four columns that say how."""

    position: int
    given: bytes
    about: List[bytes]


def line_of(line: bytes) -> Line:
    columns = line.split(b"\t", 9)
    return Line(int(columns[0]), columns[4], columns[5:9])


def drawn(parts: Parts) -> List[Line]:
    """Lines of `captures` that a record gives, each as likely as any other, in no order."""
    kept: List[bytes] = []
    seen = 0
    for line in parts.lines("captures"):
        if line.split(b"\t", 5)[4] == b"-":
            continue
        seen += 1
        if len(kept) < MOST_COMPARED:
            kept.append(line)
        elif random.random() * seen < MOST_COMPARED:
            kept[random.randrange(MOST_COMPARED)] = line
    random.shuffle(kept)
    return [line_of(it) for it in kept]


@dataclasses.dataclass
class Sample:
    """The comparison. `packed` is the file, and `whole` what it holds."""

    warc: str
    packed: IO[bytes]
    whole: IO[bytes]
    tally: Tally
    temporary: str

    def difference(self, parts: Parts) -> Optional[str]:
        """What differs, if anything does."""
        series = self.continuations(parts)
        lines = self.readable(drawn(parts), series) if len(series) <= MOST_CONTINUATIONS else []
        if not lines:
            return None
        positions = sorted({int(it.given) for it in lines} | series)
        with tempfile.TemporaryFile(dir=self.temporary, buffering=0) as archive:
            for position in positions:
                if not self.copy(position, archive):
                    return "record %d isn't what its member holds" % position
            return self.other_facts(lines, positions, archive)

    def continuations(self, parts: Parts) -> Set[int]:
        """The continuations, where records are segmented."""
        if parts.summary().get("segmented") == "0":
            return set()
        rows = (line.split(b"\t", 4) for line in parts.lines("list"))
        return {int(row[0]) for row in rows if row[3].lower() == b"continuation"}

    def readable(self, lines: List[Line], series: Set[int]) -> List[Line]:
        """The lines whose records have members of their own, as many as have not too many bytes."""
        left = max(LEAST, self.end_of(len(self.tally.offsets) - 1) // PART)
        sizes: Dict[int, int] = {}
        for position in {int(it.given) for it in lines} | series:
            begin, end = self.tally.offsets[position], self.end_of(position)
            sizes[position] = end - begin if place_of(self.tally.members, position) else left + 1
        left -= sum(sizes[position] for position in series)
        chosen = []
        for line in lines:
            if sizes[int(line.given)] <= left:
                left -= sizes[int(line.given)]
                chosen.append(line)
        return chosen

    def end_of(self, position: int) -> int:
        """Where a record ends in what the file holds."""
        offsets = self.tally.offsets
        return offsets[position + 1] if position + 1 < len(offsets) else os.fstat(self.whole.fileno()).st_size

    def copy(self, position: int, archive: IO[bytes]) -> bool:
        """Copies a record from its member. Returns whether its bytes are those of the whole."""
        begin, end = self.tally.offsets[position], self.end_of(position)
        place = place_of(self.tally.members, position)
        assert place is not None
        try:
            for piece in held_by(self.packed, place, end - begin):
                if os.pread(self.whole.fileno(), len(piece), begin) != piece:
                    return False
                begin += len(piece)
                write_all(archive, piece)
        except Other:
            return False
        return True

    def other_facts(self, lines: List[Line], positions: List[int], archive: IO[bytes]) -> Optional[str]:
        """The first capture of which the program says other facts over the archive of members, if there is one."""
        there = {it.position: it for it in map(line_of, self.captures_of(archive).splitlines())}
        for line in lines:
            at = positions.index(int(line.given))
            if at not in there or there[at] != Line(at, b"%d" % at, line.about):
                return "capture %d gives other facts: %s" % (line.position, escaped(b"\t".join(line.about)))
        return None

    def captures_of(self, archive: IO[bytes]) -> bytes:
        """What the program writes of the captures of an archive."""
        archive.seek(0)
        words = [self.warc, "captures", "-"]
        return subprocess.run(words, stdin=archive, stdout=subprocess.PIPE, stderr=subprocess.PIPE, check=False).stdout
