#!/usr/bin/env python3
"""Prints the tables of docs/SPEED.md on the commands, for the commit on which it runs.

Usage: bench.py PROGRAM FOLDER

The yardstick is bench/walk.c, a plain walk in C that hashes each block and prints the line of `list`; gcc compiles it.
The archives are made in FOLDER once and kept; each record carries the digest of its block. First each command runs
once, and what it writes is checked: a line for each record, capture or finding, the records that were read, and of
`list` what the walk writes. Then each runs nine times (or RUNS, from the environment), all by turns, and the least
processor time of user and system counts. Where valgrind is installed, it counts the instructions.
"""
from __future__ import annotations

import dataclasses
import filecmp
import os
import re
import subprocess
import sys
from collections.abc import Iterator, Sequence

from shared import TOP, Usage, crawl_target, made_on, make, make_crawl, put_table, run

RUNS = int(os.environ.get("RUNS", "9"))
VISITS = 8_000
SMALL, PAGES = 1_000_000, 50_000
COMMANDS = ("list", "check", "fixity", "summary", "captures", "survey", "rewrite", "split", "replay")
# Beside the commands: what a copy and a hash of the same bytes cost.
OTHERS = ("cat", "sha1sum")
ROWS = {
    **{name: f"`{name}`" for name in (*COMMANDS, *OTHERS)},
    "split": "`split` at 1 MB",
    "replay": "`replay`, with opening",
}
FINDINGS = "`check`, with a finding in two of three records"
# Two numbers of records, whose difference leaves out what a run costs without any.
FEW, MORE = 5_000, 10_000


@dataclasses.dataclass(frozen=True)
class Archive:
    """An archive: the heading of its column, and what is in it."""

    heading: str
    path: str
    records: int
    captures: int
    target: str
    findings: int = 0

    def words(self, program: str, command: str) -> list[str]:
        """The words that run a command over it."""
        if command in OTHERS:
            return [command, self.path]
        more = {"split": ["1000000"], "replay": [self.target, "9999"]}
        return [program, command, self.path, *more.get(command, [])]


def archives(folder: str) -> list[Archive]:
    """The archives of the table, made where they aren't there yet."""
    crawl, pages, small = (os.path.join(folder, f"{name}.warc") for name in ("crawl", "pages", "tiny"))
    make_crawl(crawl, VISITS)
    make(pages, PAGES, 10_000)
    make(small, SMALL, 3)
    first = "http://a.example/0"
    return [
        Archive("A crawl: 8,000 pages and revisits with a request each", crawl, 2 * VISITS, VISITS, crawl_target(0)),
        Archive("50,000 records of 10 KB", pages, PAGES, PAGES, first),
        Archive("1,000,000 records of 283 bytes", small, SMALL, SMALL, first),
    ]


def with_findings(folder: str) -> Archive:
    """The small records, of which two in three lack a Content-Type, as `check` says."""
    path = os.path.join(folder, "findings.warc")
    make(path, SMALL, 3, typed_each=3)
    return Archive("", path, SMALL, SMALL, "", SMALL - (SMALL + 2) // 3)


def built_walk(folder: str) -> str:
    """The walk, compiled anew."""
    path = os.path.join(folder, "walk")
    subprocess.run(["gcc", "-O2", "-o", path, f"{TOP}/bench/walk.c"], check=True)
    return path


def judge(is_right: bool, what: str) -> None:
    """Ends the measuring where a command doesn't write what it should."""
    if not is_right:
        sys.exit(f"bench: {what}")


def written(words: Sequence[str], path: str, statuses: Sequence[int] = (0,)) -> str:
    """Runs a command, with its output in a file. Returns what it says on standard error."""
    with open(path, "wb") as out:
        done = subprocess.run(words, stdout=out, stderr=subprocess.PIPE, check=False)
    judge(done.returncode in statuses, f"{' '.join(words)}: status {done.returncode}")
    return done.stderr.decode()


def lines_in(path: str) -> int:
    with open(path, "rb") as file:
        return sum(piece.count(b"\n") for piece in iter(lambda: file.read(1 << 20), b""))


def check_lines(program: str, archive: Archive, out: str) -> None:
    """Checks the commands that print lines: how many there are, and what they count."""
    counts = {"list": archive.records, "check": archive.findings, "captures": archive.captures}
    for command, count in counts.items():
        written(archive.words(program, command), out, (0, 1) if archive.findings else (0,))
        judge(lines_in(out) == count, f"{command} of {archive.path}: {lines_in(out)} lines")
    for command, line in (
        ("fixity", f"records {archive.records} good {archive.records} bad 0 unchecked 0"),
        ("summary", f"records\t{archive.records}"),
        ("survey", "# list"),
    ):
        written(archive.words(program, command), out)
        with open(out, encoding="utf-8") as text:
            judge(text.readline() == line + "\n", f"{command} of {archive.path}")


def check_bytes(program: str, archive: Archive, out: str) -> None:
    """Checks the commands that write records or a body: their records are listed, and the body is as long as said."""
    for command in ("rewrite", "split"):
        written(archive.words(program, command), out)
        written([program, "list", out], f"{out}.list")
        judge(lines_in(f"{out}.list") == archive.records, f"{command} of {archive.path}")
    said = written(archive.words(program, "replay"), out)
    judge(f" length {os.path.getsize(out)}\n" in said and os.path.getsize(out) > 0, f"replay of {archive.path}: {said}")


def check_outputs(program: str, walk: str, archive: Archive, folder: str) -> None:
    """Checks what all commands write of an archive."""
    out = os.path.join(folder, "out")
    check_lines(program, archive, out)
    written(archive.words(program, "list"), out)
    written([walk, archive.path], f"{out}.list")
    judge(filecmp.cmp(out, f"{out}.list", shallow=False), f"the walk and list of {archive.path} differ")
    if not archive.findings:
        check_bytes(program, archive, out)
    os.remove(out)
    os.remove(f"{out}.list")


def least_of(commands: dict[str, list[str]]) -> dict[str, Usage]:
    """The least of the runs of each command, all by turns."""
    least: dict[str, Usage] = {}
    for _ in range(RUNS):
        for name, words in commands.items():
            usage = run(words, (0, 1) if name == "check" else (0,))
            least[name] = min(least.get(name, usage), usage)
    return least


def measured(program: str, walk: str, archive: Archive, names: Sequence[str]) -> dict[str, Usage]:
    """The least of the runs of the commands, and of the walk."""
    return least_of({**{name: archive.words(program, name) for name in names}, "walk": [walk, archive.path]})


def ratio(usages: dict[str, Usage], name: str) -> str:
    return f"{usages[name].processor / usages['walk'].processor:.2f}"


def time_rows(columns: Sequence[dict[str, Usage]], findings: dict[str, Usage]) -> Iterator[list[str]]:
    """The rows of the table of times."""
    for name in (*COMMANDS, *OTHERS):
        yield [ROWS[name], *(ratio(column, name) for column in columns)]
    yield [FINDINGS, "–", "–", ratio(findings, "check")]
    yield ["The walk, in seconds", *(f"{column['walk'].processor:.2f}" for column in columns)]


def instructions(words: Sequence[str]) -> int:
    """How many instructions a run takes."""
    tool = ["valgrind", "--tool=callgrind", f"--callgrind-out-file={os.devnull}"]
    done = subprocess.run([*tool, *words], stdout=subprocess.DEVNULL, stderr=subprocess.PIPE, text=True, check=True)
    found = re.search(r"Collected : (\d+)", done.stderr)
    judge(found is not None, f"valgrind says {done.stderr[-200:]}")
    return int(found[1]) if found else 0


def instructions_each(program: str, walk: str, folder: str) -> dict[str, int]:
    """How many instructions a small record takes, by each command."""
    counts: dict[str, list[int]] = {}
    for count in (FEW, MORE):
        path = os.path.join(folder, f"small-{count}.warc")
        make(path, count, 3)
        archive = Archive("", path, count, count, "http://a.example/0")
        for name in (*COMMANDS, "walk"):
            words = [walk, path] if name == "walk" else archive.words(program, name)
            counts.setdefault(name, []).append(instructions(words))
    return {name: (more - few) // (MORE - FEW) for name, (few, more) in counts.items()}


def main() -> None:
    program, folder = sys.argv[1:]
    os.makedirs(folder, exist_ok=True)
    walk, found = built_walk(folder), archives(folder)
    findings = with_findings(folder)
    print(made_on(program), flush=True)
    for archive in (*found, findings):
        check_outputs(program, walk, archive, folder)
    columns = [measured(program, walk, archive, (*COMMANDS, *OTHERS)) for archive in found]
    sizes = [f"{archive.heading}, {os.path.getsize(archive.path) / 1e6:.0f} MB" for archive in found]
    print(f"\nProcessor time, as a ratio to that of bench/walk.c: the least of {RUNS} runs each, all by turns.\n")
    put_table(["Command", *sizes], time_rows(columns, measured(program, walk, findings, ("check",))))
    memory = {name: f"{usage.peak / 1024:.0f}" for name, usage in columns[-1].items()}
    print("\nWhat small records cost: the most memory over a million of them, and the instructions of one.\n")
    try:
        each = {name: f"{count:,}" for name, count in instructions_each(program, walk, folder).items()}
    except FileNotFoundError:
        each = {}
        print("valgrind isn't installed, so instructions aren't counted.\n")
    rows = ([ROWS.get(name, "The walk"), memory[name], each.get(name, "–")] for name in (*COMMANDS, "walk"))
    put_table(["Command", "Memory, MiB", "Instructions"], rows)
    print(f"\n{made_on(program)}")


main()
