#!/usr/bin/env python3
"""Compares `pieces` and `salvage --all` with the second reading in tests/reference, over damaged archives.

    python3 tests/stress/pieces.py WARC [COUNT] [SEED]

Takes the archives of the suites' scripts, each followed by a good record, and COUNT damaged ones, from the seeds SEED
to SEED + COUNT - 1; without these numbers 1,000 from 1 on. Compares standard output, standard error and the exit
status. Then, without the second reading: the pieces cover the file, and no two damages or runs are neighbours; `salvage
--all` writes the bytes of all runs, and `salvage` those of the first piece if it is a run. What `salvage --all` wrote
opens with as many records as the runs have, is one piece, and is good to another `salvage --all`. Put before the
archive, it is the first piece or the front of it, and the pieces of the archive follow, counted from there.

Prints each difference, and last a line with the counts. The exit status is 1 if there is a difference.
"""
import os
import random
import re
import subprocess
import sys
import tempfile
from typing import List, NamedTuple, Sequence

HERE = os.path.dirname(os.path.abspath(__file__))
sys.path[:0] = [os.path.join(os.path.dirname(HERE), name) for name in ("callers", "reference")]
import archives  # noqa: E402
import generate  # noqa: E402
import warc_reference  # noqa: E402

MOST_SHOWN = 20
MOST_SECONDS = 60
AFTER = (
    b"WARC/1.0\r\nWARC-Type: resource\r\nWARC-Record-ID: <urn:x:after>\r\nWARC-Date: 2020\r\nContent-Length: 1\r\n\r\n"
    b"x\r\n\r\n"
)


class Ended(NamedTuple):
    """What a run wrote, and its exit status."""

    out: bytes
    err: bytes
    status: int


class Piece(NamedTuple):
    """A line of `pieces`. The last column is how many records a run has, or the fault of a damage."""

    name: bytes
    start: int
    length: int
    last: bytes

    def records(self) -> int:
        """How many records it has."""
        return int(self.last) if self.name == b"records" else 0


# Damage


def borders(data: bytes) -> List[int]:
    """Where its records begin, and where the last one ends."""
    archive = warc_reference.Archive(data)
    return [record.offset for record in archive.records] + [archive.end]


def flip_bits(chance: random.Random, data: bytes) -> bytes:
    """Some bits are others."""
    changed = bytearray(data)
    for _ in range(chance.choice((1, 1, 2, 10))):
        changed[chance.randrange(len(data))] ^= 1 << chance.randrange(8)
    return bytes(changed)


def cut_out(chance: random.Random, data: bytes) -> bytes:
    """Bytes in the middle are gone."""
    start = chance.randrange(len(data))
    return data[:start] + data[start + chance.choice((1, 2, 10, 100, 1000)) :]


def put_in(chance: random.Random, data: bytes) -> bytes:
    """There are more bytes in the middle, a version line among them now and then."""
    place = chance.randrange(len(data) + 1)
    more = bytes(chance.randrange(256) for _ in range(chance.choice((1, 2, 9, 300))))
    return data[:place] + more + chance.choice((b"", b"", b"WARC/1.1\r\n", b"WARC/1.0\r\n")) + data[place:]


def zero_middle(chance: random.Random, data: bytes) -> bytes:
    """Bytes in the middle are zeros."""
    start = chance.randrange(len(data))
    end = min(len(data), start + chance.choice((1, 16, 512, 4096)))
    return data[:start] + b"\0" * (end - start) + data[end:]


def part_records(chance: random.Random, data: bytes) -> bytes:
    """Something is between two records, mostly empty lines."""
    place = chance.choice(borders(data))
    other = (b"\n", b"\0", b"W", b"WARC/1.1\r\n", b"WARC/1.1\r\n\r\n", b"WARC/1.1\r\nWARC/1.0\r\n", b"WARC/1.")
    more = chance.choice((b"\r\n", b"\r\n\r\n", b"\r\n" * 3, *other))
    return data[:place] + more + data[place:]


def begin_again(chance: random.Random, data: bytes) -> bytes:
    """A record is cut, and others follow it."""
    return data[: chance.randrange(len(data) + 1)] + generate.good_archive(chance) + AFTER


def put_in_block(chance: random.Random, data: bytes) -> bytes:
    """It is in the block of a record, mostly a damaged one."""
    text = generate.assembled(chance, generate.common_fields(chance, "resource", data), data)
    return chance.choice((generate.change_length, flip_head, end_otherwise, unchanged))(chance, text)


def unchanged(_chance: random.Random, data: bytes) -> bytes:
    """It is as it was."""
    return data


def flip_head(chance: random.Random, data: bytes) -> bytes:
    """A bit of the first head is another one."""
    place = chance.randrange(data.index(b"\r\n\r\n"))
    return data[:place] + bytes((data[place] ^ 1 << chance.randrange(8),)) + data[place + 1 :]


def end_otherwise(chance: random.Random, data: bytes) -> bytes:
    """It ends with other bytes than CRLF CRLF."""
    return data[:-4] + chance.choice((b"", b"\r\n", b"\r\n\r", b"\n\n\n\n", b"\r\n\r\0"))


def pack_heads(chance: random.Random, data: bytes) -> bytes:
    """A head has version lines, as lines of their own or in values, before a record's own head goes on."""
    line = chance.choice((b"", b"A: ", b"A:", b"A: b\r\n", b"A: \r\n ")) + chance.choice(warc_reference.VERSIONS)
    place = chance.choice(borders(data))
    start = place + 10 if chance.randrange(2) else place
    return data[:start] + line * chance.choice((1, 2, 3, 50)) + data[start:]


def spoil_packed_head(chance: random.Random, data: bytes) -> bytes:
    """A head has version lines among its fields, which are in any order, and something is wrong with it."""
    places = borders(data)[:-1]
    if not places:
        return data
    place = chance.choice(places)
    end = data.index(b"\r\n\r\n", place)
    first, *lines = data[place:end].split(b"\r\n")
    chance.shuffle(lines)
    line = lines[chance.randrange(len(lines))] if lines else b""
    number = chance.randrange(8)
    if number == 0 and lines:
        lines.remove(line)
    elif number == 1:
        lines = [it.split(b":")[0] + b": ." if it == line else it for it in lines]
    elif number == 2:
        lines.insert(chance.randrange(len(lines) + 1), line)
    elif number == 3:
        lines.insert(chance.randrange(len(lines) + 1), chance.choice((b"no field", b" a", b":", b"A\0: b")))
    elif number == 4:
        end -= 1
    for _ in range(chance.choice((1, 3, 30))):
        version = chance.choice((b"", b" ", b"\r\n ")) + chance.choice(warc_reference.VERSIONS)[:-2]
        lines.insert(chance.randrange(len(lines) + 1), b"A:" + version)
    return data[:place] + b"\r\n".join([first, *lines]) + data[end:]


def lengthen_head(chance: random.Random, data: bytes) -> bytes:
    """A head has 65,536 bytes, or a few more or less, or much more."""
    place = chance.choice(borders(data))
    end = data.find(b"\r\n\r\n", place)
    if end < 0:
        return data + b"WARC/1.1\r\nA: " + b"x" * chance.choice((65518, 65519, 65520, 70000))
    more = warc_reference.MAX_HEAD - (end + 4 - place) + chance.choice((-2, -1, 0, 0, 1, 2, 5000))
    return data[:end] + b"\r\nLong: " + b"x" * max(0, more - 8) + data[end:]


def join_more(chance: random.Random, data: bytes) -> bytes:
    """Another archive follows."""
    return data + generate.good_archive(chance)


LONG = (pack_heads, spoil_packed_head, spoil_packed_head, lengthen_head)
MIDDLE = (flip_bits, cut_out, put_in, zero_middle, part_records, part_records, begin_again, put_in_block, join_more)
DAMAGE = (*MIDDLE, *MIDDLE, *LONG, *generate.DAMAGE)


def damaged(seed: int) -> bytes:
    """The archive of a seed, damaged in some ways."""
    chance = random.Random(f"pieces {seed}")
    data = b"".join(generate.good_archive(chance) for _ in range(chance.choice((1, 2, 3, 5))))
    for _ in range(chance.choice((1, 1, 2, 3, 5, 8))):
        data = chance.choice(DAMAGE)(chance, data or AFTER)
    return data


# The trial


def pieces_in(text: bytes) -> List[Piece]:
    """The pieces that lines report."""
    rows = [line.split(b"\t") for line in text.split(b"\n")[:-1]]
    return [Piece(name, int(start), int(length), last) for name, start, length, last in rows]


def cover(pieces: Sequence[Piece], size: int) -> bool:
    """Whether pieces follow one another without gap or overlap, runs and damages in turn, up to a size."""
    ends = [0] + [piece.start + piece.length for piece in pieces]
    in_turn = all(piece.name != after.name for piece, after in zip(pieces, pieces[1:]))
    return in_turn and ends == [*(piece.start for piece in pieces), size] and all(piece.length for piece in pieces)


def moved(piece: Piece, more: int) -> Piece:
    """The same piece, a number of bytes later."""
    fault = re.sub(rb"[0-9]+\Z", lambda it: b"%d" % (int(it[0]) + more), piece.last)
    return piece._replace(start=piece.start + more, last=piece.last if piece.name == b"records" else fault)


def appended(one: Sequence[Piece], other: Sequence[Piece]) -> List[Piece]:
    """The pieces of an archive, of at most one piece, and then those of what is put after it."""
    more = sum(piece.length for piece in one)
    after = [moved(piece, more) for piece in other]
    if one and after and after[0].name == b"records":
        count = b"%d" % (one[0].records() + after[0].records())
        return [Piece(b"records", 0, more + after[0].length, count), *after[1:]]
    return [*one, *after]


class Trial:
    """The program, a file in a folder, and the counts of what was tried."""

    def __init__(self, program: str, folder: str) -> None:
        self.program = os.path.abspath(program)
        self.path = os.path.join(folder, "a.warc")
        self.name = ""
        self.archives = self.pieces = self.damages = self.runs = self.differences = 0

    def run(self, *words: str, end: str = "") -> Ended:
        """The run of a command over the archive, or the file whose path ends so."""
        self.runs += 1
        full = [self.program, words[0], self.path + end, *words[1:]]
        try:
            it = subprocess.run(full, capture_output=True, check=False, timeout=MOST_SECONDS)
        except subprocess.TimeoutExpired:
            return Ended(b"", b"it didn't end", -1)
        return Ended(it.stdout, it.stderr, it.returncode)

    def write(self, data: bytes, end: str = "") -> None:
        """Makes it the archive, or the file whose path ends so."""
        with open(self.path + end, "wb") as file:
            file.write(data)

    def wants(self, what: str, given: object, wanted: object) -> None:
        """Counts and prints a difference, if there is one."""
        if given == wanted:
            return
        self.differences += 1
        if self.differences <= MOST_SHOWN:
            print(f"{self.name}, {what}: {shortened(given)}, wanted {shortened(wanted)}", flush=True)

    def over(self, name: str, data: bytes) -> None:
        """Tries the two commands over an archive."""
        self.name = name
        self.write(data)
        self.archives += 1
        told, saved = self.run("pieces"), self.run("salvage", "--all")
        self.wants("pieces", told, Ended(*warc_reference.run("pieces", data)))
        self.wants("salvage --all", saved, Ended(*warc_reference.run("salvage", data, [b"--all"])))
        try:
            pieces = pieces_in(told.out)
        except ValueError:
            self.wants("lines of pieces", told.out, "lines")
            return
        self.pieces += len(pieces)
        self.damages += sum(piece.name == b"damage" for piece in pieces)
        self.wants("pieces cover the file", cover(pieces, len(data)), True)
        runs = [data[piece.start :][: piece.length] for piece in pieces if piece.name == b"records"]
        self.wants("what is saved", saved.out, b"".join(runs))
        front = runs[0] if pieces[:1] and pieces[0].name == b"records" else b""
        self.wants("salvage", self.run("salvage").out, front)
        self.over_saved(data, pieces, saved.out)

    def over_saved(self, data: bytes, pieces: Sequence[Piece], saved: bytes) -> None:
        """Tries what was saved of an archive."""
        self.write(saved, ".saved")
        count = sum(piece.records() for piece in pieces)
        listed = self.run("list", end=".saved")
        self.wants("list of what is saved", (listed.out.count(b"\n"), listed.err, listed.status), (count, b"", 0))
        good = b"warc: good %d records, %d bytes\n" % (count, len(saved))
        self.wants("salvage --all of it", self.run("salvage", "--all", end=".saved"), Ended(saved, good, 0))
        one = [Piece(b"records", 0, len(saved), b"%d" % count)] if saved else []
        self.wants("pieces of it", pieces_in(self.run("pieces", end=".saved").out), one)
        self.write(saved + data, ".both")
        self.wants("pieces after it", pieces_in(self.run("pieces", end=".both").out), appended(one, pieces))


def shortened(given: object) -> str:
    """A text of a value, and not all of a long one."""
    text = repr(given)
    return text if len(text) <= 400 else f"{text[:400]}.. ({len(text)})"


def main(program: str, count: int = 1000, seed: int = 1) -> int:
    """Tries the pieces, and ends with 1 if there is a difference."""
    with tempfile.TemporaryDirectory(prefix="zogwedu-pieces-") as folder:
        trial = Trial(program, folder)
        trial.over("no bytes", b"")
        for number, data in enumerate(archives.archives()):
            trial.over(f"vector {number} and a record", data + AFTER)
        for number in range(seed, seed + count):
            trial.over(f"seed {number}", damaged(number))
    print(
        f"{trial.archives} archives, {trial.pieces} pieces, {trial.damages} of them damages; {trial.runs} runs,"
        f" {trial.differences} differences"
    )
    return 1 if trial.differences else 0


if __name__ == "__main__":
    sys.exit(main(sys.argv[1], *(int(word) for word in sys.argv[2:])))
