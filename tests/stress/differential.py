#!/usr/bin/env python3
"""Compares the program with the second reading in tests/reference over generated archives.

    python3 tests/stress/differential.py WARC COUNT SEED

Makes COUNT archives, from the seeds SEED to SEED + COUNT - 1, and runs fourteen command lines over each. Compares
standard output, standard error and the exit status. Then asks `replay` for each capture that is the chosen one of its
own instant, and compares with what `captures` says of it. Prints each difference, and last a line with the counts. The
exit status is 1 if there is a difference.
"""
import collections
import os
import re
import shutil
import signal
import sys
import tempfile
from typing import Counter, Iterable, List, NoReturn, Optional, Sequence, Tuple

HERE = os.path.dirname(os.path.abspath(__file__))
sys.path.insert(0, os.path.join(os.path.dirname(HERE), "reference"))
import generate  # noqa: E402
import warc_reference  # noqa: E402

MOST_SECONDS = 20
MOST_SHOWN = 40
Answer = Tuple[bytes, bytes, Optional[int]]


class TooSlow(Exception):
    """A run didn't end in time."""


def ring(_signal: int, _frame: object) -> NoReturn:
    raise TooSlow()


def start(program: str, words: List[str], out_path: str, error_path: str) -> int:
    """Starts the program with its outputs in files. It is faster than a pipe and a thread for each run."""
    flags = os.O_WRONLY | os.O_CREAT | os.O_TRUNC
    actions = (
        (os.POSIX_SPAWN_OPEN, 0, "/dev/null", os.O_RDONLY, 0),
        (os.POSIX_SPAWN_OPEN, 1, out_path, flags, 0o600),
        (os.POSIX_SPAWN_OPEN, 2, error_path, flags, 0o600),
    )
    return os.posix_spawn(program, [program] + words, os.environ, file_actions=actions)


def status_of(child: int) -> Optional[int]:
    """The exit status, below 0 after a signal, or None where the run took too long."""
    signal.setitimer(signal.ITIMER_REAL, MOST_SECONDS)
    try:
        return os.waitstatus_to_exitcode(os.waitpid(child, 0)[1])
    except TooSlow:
        os.kill(child, signal.SIGKILL)
        os.waitpid(child, 0)
        return None
    finally:
        signal.setitimer(signal.ITIMER_REAL, 0)


def contents(path: str) -> bytes:
    with open(path, "rb") as file:
        return file.read()


def words_of(line: Sequence[str], path: str) -> List[str]:
    """The words of a command line, flags first. Another word that begins with - needs -- before it."""
    flags = [word for word in line[1:] if word in generate.FLAGS]
    rest = [path] + [word for word in line[1:] if word not in generate.FLAGS]
    dashes = ["--"] if any(word.startswith("-") for word in rest) else []
    return [line[0]] + flags + dashes + rest


def run_program(program: str, folder: str, line: Sequence[str]) -> Answer:
    out_path, error_path = os.path.join(folder, "out"), os.path.join(folder, "error")
    child = start(program, words_of(line, os.path.join(folder, "a.warc")), out_path, error_path)
    status = status_of(child)
    return contents(out_path), contents(error_path), status


def run_reference(archive: warc_reference.Archive, line: Sequence[str]) -> Answer:
    answer: Answer = warc_reference.run_on(archive, line[0], [word.encode("utf-8") for word in line[1:]])
    return answer


def shorten(given: object) -> str:
    if not isinstance(given, bytes) or len(given) <= 200:
        return repr(given)
    return "%r.. (%d bytes)" % (given[:200], len(given))


def show(seed: int, line: Sequence[str], given: Answer, expected: Answer) -> None:
    print("difference: seed %d, command %s" % (seed, " ".join(map(repr, line))), flush=True)
    for name, one, other in zip(("output", "message", "status"), given, expected):
        if one != other:
            print("  %s: the program %s, the reference %s" % (name, shorten(one), shorten(other)))


def count_answers(counts: Counter[str], line: Sequence[str], expected: Answer) -> None:
    """Counts the faults, reasons and findings, to show what the archives try."""
    for message in re.findall(rb"warc: ([A-Z]\d+(?: Segment G\d| [A-Z]\w+)|bad \w+)", expected[1]):
        counts["answer " + message.decode()] += 1
    if line[0] == "check":
        for finding in set(re.findall(rb" (N\d+)", expected[0])):
            counts["answer " + finding.decode()] += 1
    if line[-1] == "--payload":
        counts["payload good"] += int((re.findall(rb" good (\d+) ", expected[0]) or [b"0"])[0])
        for verdict, reason in re.findall(rb"^\d+\t(bad|unchecked)\t[^\t]*\t([a-z-]+)\t", expected[0], re.MULTILINE):
            counts["payload " + (verdict if reason == b"-" else reason).decode()] += 1


def compare_lines(
    program: str, folder: str, seed: int, data: bytes, lines: Iterable[Sequence[str]], counts: Counter[str]
) -> None:
    """Runs command lines over an archive."""
    with open(os.path.join(folder, "a.warc"), "wb") as file:
        file.write(data)
    archive = warc_reference.Archive(data)
    counts["archives"] += 1
    counts["refused"] += archive.fault is not None
    counts["records"] += len(archive.records)
    for line in lines:
        given, expected = run_program(program, folder, line), run_reference(archive, line)
        counts["runs"] += 1
        counts["runs of " + " ".join(line if line[0] == "fixity" else line[:1])] += 1
        counts["status %s" % expected[2]] += 1
        count_answers(counts, line, expected)
        if given != expected:
            counts["differences"] += 1
            if counts["differences"] <= MOST_SHOWN:
                show(seed, line, given, expected)


def compare_seed(program: str, folder: str, seed: int, counts: Counter[str]) -> None:
    """Runs all command lines over the archive of a seed."""
    data = generate.archive(seed)
    compare_lines(program, folder, seed, data, generate.command_lines(seed, data), counts)


def answer_of(columns: Sequence[bytes]) -> Tuple[bytes, bytes, int]:
    """How the message of `replay` begins and ends where it chooses a capture, and its status, by that one's columns."""
    position, _, _, _, given, status, _, length, reason = columns[:9]
    if reason != b"-":
        return b"warc: " + reason, b"warc: " + reason, 1
    return b"chosen %s given %s status %s" % (position, given, status), b" length " + length, 0


def agrees(answer: Tuple[bytes, bytes, int], message: bytes, status: Optional[int]) -> bool:
    """Whether `replay` answered so."""
    return answer[2] == status and message.startswith(answer[0]) and message.rstrip().endswith(answer[1])


def compare_captures(program: str, folder: str, seed: int, counts: Counter[str]) -> None:
    """Asks `replay` for each capture that is the chosen one of its own instant, and compares with `captures`."""
    lines = run_program(program, folder, ["captures"])[0].split(b"\n")[:-1]
    chosen = {}
    for columns in (line.split(b"\t", 9) for line in lines):
        if columns[9] != b"-" and columns[2] != b"-":
            chosen[columns[9], columns[2]] = columns  # by position, so the last of an instant stays
    for (target, instant), columns in chosen.items():
        line = ["replay", target.hex(), instant.decode(), "--uri-hex"]
        _, message, status = run_program(program, folder, line)
        counts["captures replayed"] += 1
        if not agrees(answer_of(columns), message, status):
            counts["differences"] += 1
            if counts["differences"] <= MOST_SHOWN:
                print("difference: seed %d, captures %r, replay %r" % (seed, columns, message), flush=True)


def main(program: str, count: int, seed: int) -> int:
    signal.signal(signal.SIGALRM, ring)
    program = os.path.abspath(program)
    root = os.path.join(os.path.dirname(os.path.dirname(HERE)), "out", "stress")
    os.makedirs(root, exist_ok=True)
    folder = tempfile.mkdtemp(prefix="differential-", dir=root)
    counts: Counter[str] = collections.Counter()
    try:
        for each in range(seed, seed + count):
            compare_seed(program, folder, each, counts)
            compare_captures(program, folder, each, counts)
    finally:
        shutil.rmtree(folder)
    for kind in ("runs of", "status", "answer", "payload"):
        names = sorted(name for name in counts if name.startswith(kind + " "))
        print("%s: %s" % (kind, ", ".join("%s %d" % (name[len(kind) + 1 :], counts[name]) for name in names)))
    print(
        "differential: seeds %d to %d, %d archives (%d refused), %d records, %d runs, %d captures replayed, "
        "%d differences"
        % (
            seed,
            seed + count - 1,
            counts["archives"],
            counts["refused"],
            counts["records"],
            counts["runs"],
            counts["captures replayed"],
            counts["differences"],
        )
    )
    return 1 if counts["differences"] else 0


if __name__ == "__main__":
    sys.exit(main(sys.argv[1], int(sys.argv[2]), int(sys.argv[3])))
