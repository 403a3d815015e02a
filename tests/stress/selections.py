#!/usr/bin/env python3
"""Tries the laws of selections through the program, over the archives of the suites' scripts and generated ones.

    python3 tests/stress/selections.py WARC COUNT SEED

All positions give the archive, byte for byte. Of some positions, `select` writes the records there and `select
--except` all others, in the archive's order: each record once between them. The lines come in any order, some of them
twice, with more on a line or with other ends. A position that isn't there is reported, and nothing is written. Of a
refused archive both say what `list` says.

What `select --closed` writes has the records at the positions, and what `select --except --closed` writes has none of
them. It opens, and standard error has how many records are beside the named ones. The line of `captures` of each record
that is written is the one of the whole archive, but for the positions, which are those of the same records. An archive
in which two records have the same bytes isn't asked that.

Prints each difference, and last a line with the counts. The exit status is 1 if there is a difference.
"""
import os
import random
import subprocess
import sys
import tempfile
from typing import Dict, List, NamedTuple, Sequence, Tuple

HERE = os.path.dirname(os.path.abspath(__file__))
sys.path.insert(0, os.path.join(os.path.dirname(HERE), "callers"))
import archives  # noqa: E402
import generate  # noqa: E402

MOST_SHOWN = 20
ENDS = ("\n", "\r\n", "\tmore\n", " and more\r\n", "\n\n", "\n\r\n")


class Ended(NamedTuple):
    """What a run wrote, and its exit status."""

    out: bytes
    err: bytes
    status: int


class Trial:
    """The program, an archive in a folder, and the counts of what was tried."""

    def __init__(self, program: str, folder: str) -> None:
        self.program = os.path.abspath(program)
        self.path = os.path.join(folder, "a.warc")
        self.data = b""
        self.archives = self.selections = self.refused = self.differences = 0

    def run(self, command: str, *words: str, lines: bytes = b"", end: str = "") -> Ended:
        """The run of a command over the archive, or the one whose path ends so, with the lines on standard input."""
        full = [self.program, command, self.path + end, *words]
        it = subprocess.run(full, input=lines, capture_output=True, check=False)
        return Ended(it.stdout, it.stderr, it.returncode)

    def wants(self, flags: Sequence[str], lines: bytes, wanted: Ended) -> None:
        """Tries a selection that has to end so."""
        self.selections += 1
        ended = self.run("select", "-", *flags, lines=lines)
        if ended == wanted:
            return
        self.differs(flags, lines, f"{ended.status} {ended.err!r}, wanted {wanted}")

    def differs(self, flags: Sequence[str], lines: bytes, how: str) -> None:
        """Counts a difference, and prints it if there are few."""
        self.differences += 1
        if self.differences <= MOST_SHOWN:
            print(f"select {flags} {lines!r} of {self.data[:60]!r}..: {how}")

    def closes(self, flags: Sequence[str], lines: bytes, named: Sequence[int], parts: Sequence[bytes]) -> None:
        """Tries that a closed selection keeps what is answered of its captures."""
        places = {part: place for place, part in enumerate(parts)}
        if len(places) < len(parts):
            return
        self.selections += 1
        ended = self.run("select", "-", *flags, lines=lines)
        with open(self.path + ".closed", "wb") as file:
            file.write(ended.out)
        listed = self.run("list", end=".closed")
        kept = [places.get(part, -1) for part in parts_of(ended.out, listed.out)]
        if ended.status or listed.status or not are_right(flags, named, kept) or kept != sorted(set(kept)):
            self.differs(flags, lines, f"{ended.status} {ended.err!r}, {listed.status} {listed.err!r}, kept {kept}")
        elif ended.err != told_of(flags, len(named), len(parts), len(kept), len(ended.out)):
            self.differs(flags, lines, f"{ended.err!r}, kept {kept}")
        else:
            whole = answers(self.run("captures").out, range(len(parts)))
            closed = answers(self.run("captures", end=".closed").out, kept)
            if closed != {place: answer for place, answer in whole.items() if place in kept}:
                self.differs(flags, lines, f"{closed}, and in the whole archive {whole}")

    def wants_parts(self, flags: Sequence[str], lines: bytes, parts: Sequence[bytes]) -> None:
        """Tries a selection that has to write these records."""
        text = b"".join(parts)
        self.wants(flags, lines, Ended(text, b"warc: selected %d records, %d bytes\n" % (len(parts), len(text)), 0))

    def over(self, data: bytes, chance: random.Random) -> None:
        """Tries the laws over an archive."""
        self.data = data
        with open(self.path, "wb") as file:
            file.write(data)
        self.archives += 1
        listed = self.run("list")
        if listed.status:
            self.refused += 1
            self.wants([], b"0\n", Ended(b"", listed.err, listed.status))
            self.wants(["--except"], b"0\n", Ended(b"", listed.err, listed.status))
            self.wants(["--closed"], b"0\n", Ended(b"", listed.err, listed.status))
            return
        parts = parts_of(data, listed.out)
        self.wants_parts([], listed.out, parts)
        self.wants_parts(["--except"], b"", parts)
        chosen = [position for position in range(len(parts)) if chance.randrange(2)]
        lines = lines_of(chance, chosen)
        self.wants_parts([], lines, [parts[position] for position in chosen])
        others = [part for position, part in enumerate(parts) if position not in chosen]
        self.wants_parts(["--except"], lines, others)
        told = told_of(["--closed"], len(parts), len(parts), len(parts), len(data))
        self.wants(["--closed"], listed.out, Ended(data, told, 0))
        self.closes(["--closed"], lines, chosen, parts)
        self.closes(["--closed", "--except"], lines, chosen, parts)
        for position in chance.sample(range(len(parts)), min(2, len(parts))):
            self.closes(["--closed"], b"%d\n" % position, [position], parts)
            self.closes(["--except", "--closed"], b"%d\n" % position, [position], parts)
        absent = len(parts) + chance.randrange(3)
        refusal = Ended(b"", b"warc: E1 NoRecord %d\n" % absent, 1)
        self.wants([], lines + b"00%d" % absent, refusal)
        self.wants(["--except"], lines + b"%d\n" % absent, refusal)
        self.wants(["--closed"], lines + b"%d\n" % absent, refusal)


def parts_of(data: bytes, listed: bytes) -> List[bytes]:
    """The records of an archive, by the lines of its list."""
    starts = [int(line.split(b"\t")[1]) for line in listed.split(b"\n")[:-1]]
    return [data[start:end] for start, end in zip(starts, [*starts[1:], len(data)])]


def are_right(flags: Sequence[str], named: Sequence[int], kept: Sequence[int]) -> bool:
    """Whether all named records are kept, or with `--except` none of them."""
    return set(named).isdisjoint(kept) if "--except" in flags else set(named).issubset(kept)


def told_of(flags: Sequence[str], named: int, count: int, kept: int, size: int) -> bytes:
    """The line of a closed selection, which has how many records were kept."""
    if "--except" in flags:
        return b"warc: selected %d records, %d bytes, %d left out besides\n" % (kept, size, count - named - kept)
    return b"warc: selected %d records, %d bytes, %d of them needed\n" % (kept, size, kept - named)


def answers(captured: bytes, places: Sequence[int]) -> Dict[int, Tuple[bytes, ...]]:
    """The lines of `captures` by the places of the captures, with the place of the origin first."""
    found = {}
    for line in captured.split(b"\n")[:-1]:
        columns = line.split(b"\t")
        origin = columns[4] if columns[4] == b"-" else b"%d" % places[int(columns[4])]
        found[places[int(columns[0])]] = (origin, *columns[1:4], *columns[5:])
    return found


def lines_of(chance: random.Random, positions: Sequence[int]) -> bytes:
    """Lines that name these positions, in any order, some of them twice."""
    named = [*positions, *(position for position in positions if not chance.randrange(4))]
    chance.shuffle(named)
    zeros = ("", "", "", "000")
    return "".join(f"{chance.choice(zeros)}{position}{chance.choice(ENDS)}" for position in named).encode()


def main(program: str, count: int, seed: int) -> int:
    """Tries the laws, and ends with 1 if one is broken."""
    with tempfile.TemporaryDirectory(prefix="zogwedu-selections-") as folder:
        trial = Trial(program, folder)
        for number, data in enumerate(archives.archives()):
            trial.over(data, random.Random(f"vector {number}"))
        for number in range(seed, seed + count):
            trial.over(generate.archive(number), random.Random(f"selection {number}"))
    print(
        f"{trial.archives} archives, {trial.refused} of them refused; {trial.selections} selections,"
        f" {trial.differences} differences"
    )
    return 1 if trial.differences else 0


if __name__ == "__main__":
    sys.exit(main(sys.argv[1], int(sys.argv[2]), int(sys.argv[3])))
