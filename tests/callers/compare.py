#!/usr/bin/env python3
"""Compares what the program, C, Python and Rust give of archives: pieces, list, check, fixity, the verdicts of fixity
with and without `--payload` record by record, and each body by position and by URI and date. Compares the verdict on
each block by SHA-1 in base32 with the second reading's, and what C, Python and Rust give of heads: the program prints
neither.

Usage: compare.py WARC C_REPORT RUST_REPORT ARCHIVE..

WARC is the program; C_REPORT and RUST_REPORT are built of report.c and of rust/examples/report.rs, and RUST_REPORT may
be `-`. The last line says how many archives were compared; the status is 1 where something differs.
"""
import os
import subprocess
import sys
import threading
from typing import Sequence, Tuple, Union

import zogwedu
from report import body_text, report, to_bytes

sys.path.insert(0, os.path.join(os.path.dirname(os.path.dirname(os.path.abspath(__file__))), "reference"))
import warc_reference  # noqa: E402

THREADS = 4
HEADS = b"== fields 0\n"  # what follows is of heads


def run(*words: Union[str, bytes]) -> Tuple[bytes, bytes, int]:
    """What a program writes, its messages and its exit status."""
    it = subprocess.run(words, stdin=subprocess.DEVNULL, capture_output=True, check=False)
    return it.stdout, it.stderr, it.returncode


def unnamed(message: bytes) -> bytes:
    """A message without the program's name before it."""
    return message[len(b"warc: ") :] if message.startswith(b"warc: ") else message


def program_body(warc: str, command: str, path: str, *words: Union[str, bytes]) -> bytes:
    """The facts and the bytes of a body, or why there is none, as the program gives them."""
    body, message, status = run(warc, command, "--", path, *words)
    if status:
        return unnamed(message)
    return message + body + b"\n"


def program_replay(warc: str, path: str, target: str, date: str) -> bytes:
    """The same for a URI as of a date. The program can't be asked for a URI that isn't UTF-8, so Python is."""
    body = program_body(warc, "replay", path, to_bytes(target), date)
    if body.startswith(b"the arguments aren't text"):
        with zogwedu.Archive.open(path, mmap=False) as archive:
            return body_text(lambda: archive.replay(target, date))
    return body


def verdicts_text(path: str) -> bytes:
    """The verdict on each record's block by SHA-1 in base32 alone. `warc fixity` judges other digests too."""
    with open(path, "rb") as file:
        records = warc_reference.Archive(file.read()).records
    return b"".join(b"%d %s\n" % (it.position, it.digest_verdict().encode()) for it in records)


def shortened(line: bytes, columns: Tuple[int, ...]) -> bytes:
    """Some columns of a line of `warc fixity`. Its last column alone may have tabs; the last line has none."""
    if b"\t" not in line:
        return line
    cells = line.split(b"\t", columns[-1] + 1)
    return b"\t".join(cells[column] for column in columns)


def short_fixity(warc: str, path: str, *option: str) -> bytes:
    """The lines of `warc fixity` without ids and digests."""
    text = run(warc, "fixity", *option, "--", path)[0]
    columns = (0, 1, 3) if option else (0, 1)
    return b"\n".join(shortened(line, columns) for line in text.split(b"\n"))


def program_report(warc: str, path: str) -> bytes:
    """The report of an archive, made by the program."""
    pieces = b"== pieces\n" + run(warc, "pieces", "--", path)[0]
    listed, message, status = run(warc, "list", "--", path)
    if status:
        return pieces + b"== refused\n" + unnamed(message)
    parts = [pieces, b"== list\n", listed, b"== rows\n", listed]
    parts += [b"== check\n", run(warc, "check", "--", path)[0]]
    parts += [b"== fixity\n", run(warc, "fixity", "--", path)[0]]
    with zogwedu.Archive.open(path, mmap=False) as archive:
        targets = [(record.target, record.date) for record in archive]
    parts += [b"== verdicts\n", verdicts_text(path), b"== stated\n", short_fixity(warc, path)]
    parts += [b"== payloads\n", short_fixity(warc, path, "--payload")]
    for position, (target, date) in enumerate(targets):
        parts += [f"== body {position}\n".encode(), program_body(warc, "body", path, str(position))]
        if target:
            body = program_replay(warc, path, target, date)
            parts += [f"== replay {position}\n".encode(), body]
    return b"".join(parts)


def show_difference(path: str, name: str, wanted: bytes, given: bytes) -> None:
    """Prints the first lines that differ."""
    for one, other in zip(wanted.split(b"\n"), given.split(b"\n")):
        if one != other:
            print(f"{path}: {name}\n  warc: {one[:200]!r}\n  {name}: {other[:200]!r}")
            return
    print(f"{path}: {name} has another length")


def differences(warc: str, c_report: str, rust_report: str, path: str) -> int:
    """How many callers give something else than the program, or of heads something else than C."""
    reports = {"C": run(c_report, path)[0], "Python": report(path), "Python without mmap": report(path, mmap=False)}
    if rust_report != "-":
        reports["Rust"] = run(rust_report, path)[0]
    heads = reports["C"].partition(HEADS)
    wanted = program_report(warc, path) + heads[1] + heads[2]
    count = 0
    for name, given in reports.items():
        if given != wanted:
            show_difference(path, name, wanted, given)
            count += 1
    return count


def threads_differ(paths: Sequence[str]) -> bool:
    """Whether threads, each over archives of its own, give something else than one thread alone."""
    alone = [report(path) for path in paths]
    beside = [b""] * len(paths)

    def work(first: int) -> None:
        for number in range(first, len(paths), THREADS):
            beside[number] = report(paths[number])

    threads = [threading.Thread(target=work, args=(first,)) for first in range(THREADS)]
    for thread in threads:
        thread.start()
    for thread in threads:
        thread.join()
    return alone != beside


def main(warc: str, c_report: str, rust_report: str, *paths: str) -> int:
    """Compares all archives, and then threads."""
    count = sum(differences(warc, c_report, rust_report, path) for path in paths)
    if threads_differ(paths):
        print("threads give something else")
        count += 1
    print(f"{len(paths)} archives, {count} differences")
    return 1 if count else 0


if __name__ == "__main__":
    sys.exit(main(*sys.argv[1:]))
