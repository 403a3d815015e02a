#!/usr/bin/env python3
"""Runs zwarc over compressed archives, and compares it with warc over what they hold.

    python3 tests/stress/zwarc.py WARC

Output, message and status must be those of warc over the uncompressed archive, or those that are due: a file that
can't be decompressed to its end gives no output, the decompressor's message and status 3. However a run ends, nothing
of it is left in TMPDIR. Prints a line for each kind of trial, each surprise, and last the totals. The exit status is 1
if there was a surprise. Needs gzip, zstd and strace; a crawl by wget, a full disk (as root) and other shells are tried
where they are.
"""
from __future__ import annotations

import base64
import collections
import contextlib
import dataclasses
import functools
import gzip
import hashlib
import http.server
import itertools
import os
import pty
import select
import shutil
import signal
import subprocess
import sys
import tempfile
import threading
import time
from collections.abc import Iterator, Mapping, Sequence

HERE = os.path.dirname(os.path.abspath(__file__))
TOP = os.path.dirname(os.path.dirname(HERE))
sys.path.insert(0, f"{TOP}/tests/reference")
from packages import files_of, packed_files, wacz_of  # noqa: E402

SECONDS = 120
MOST_CALLS = 8
TARGET = "http://a.example/x"
UUID = "00000000-0000-4000-8000-000000000001"
SHELLS = (("dash",), ("bash", "--posix"), ("busybox", "sh"), ("ksh",), ("mksh",))
ONCE: tuple[tuple[str, ...], ...] = (("list",), ("check",), ("fixity",), ("summary",))
OTHERS: tuple[tuple[str, ...], ...] = (
    ("salvage",),
    ("rewrite",),
    ("convert",),
    ("split", "9999"),
    ("select", "--except", "/dev/null"),
    ("extract", f"urn:uuid:{UUID}"),
    ("head", "1"),
    ("block", "1"),
    ("body", "2"),
    ("captures",),
    ("survey",),
    ("captures", TARGET),
    ("fixity", "--payload"),
    ("replay", TARGET, "9999"),
    ("replay", "--uri-hex", TARGET.encode().hex(), "9999"),
    ("body", "1", "--stored"),
    ("replay", "http://nowhere.example/", "9999"),
    ("block", "999"),
)
COMMANDS = (*ONCE, *OTHERS)
NAMES = ("a.warc", "A.WARC.GZ", "-a.gz", "--", "it's", "a b\n.gz", "$(id)`id`;*", "\x1b]0;owned\x07\u009b", "é")


@dataclasses.dataclass(frozen=True)
class Result:
    """What a run wrote, and how it ended."""

    out: bytes
    message: bytes
    status: int


def record(kind: str, number: int, block: bytes, date: str = "2020-01-01") -> bytes:
    """A record of WARC 1.0."""
    head = (
        f"WARC/1.0\r\nWARC-Type: {kind}\r\nWARC-Record-ID: <urn:uuid:{UUID[:-1]}{number}>\r\nWARC-Date: {date}\r\n"
        f"WARC-Target-URI: {TARGET}\r\nContent-Type: text/plain\r\nContent-Length: {len(block)}\r\n\r\n"
    )
    return head.encode() + block + b"\r\n\r\n"


RECORDS = [record("resource", number, bytes(range(256)) * 40 * number, f"20{number}0-01-01") for number in range(1, 4)]
PLAIN = b"".join(RECORDS)
MEMBERS = [gzip.compress(text, mtime=0) for text in RECORDS]


def zstd(data: bytes) -> bytes:
    """What zstd makes of bytes."""
    return subprocess.run(["zstd", "-q", "-c"], input=data, capture_output=True, check=True).stdout


class Trials:
    """The programs, a folder for files, one for temporary files, and the counts of what was tried."""

    def __init__(self, warc: str, folder: str) -> None:
        self.folder = folder
        self.bin = f"{folder}/bin"
        self.temporary = f"{folder}/temporary"
        os.mkdir(self.bin)
        os.mkdir(self.temporary)
        shutil.copy(warc, f"{self.bin}/warc")
        shutil.copy(f"{TOP}/shell/zwarc", f"{self.bin}/zwarc")
        self.tried: collections.Counter[str] = collections.Counter()
        self.surprises: collections.Counter[str] = collections.Counter()
        self.kind = ""

    def file(self, name: str, data: bytes) -> str:
        """Writes a file of the folder, and returns its path."""
        with open(f"{self.folder}/{name}", "wb") as out:
            out.write(data)
        return f"{self.folder}/{name}"

    def environment(self) -> dict[str, str]:
        """The environment of the runs: the programs are found, and temporary files have a folder of their own."""
        path, package = f"{self.bin}:{os.environ['PATH']}", f"{TOP}/out/python"
        return {**os.environ, "TMPDIR": self.temporary, "PATH": path, "PYTHONPATH": package, "LC_ALL": "C.UTF-8"}

    def run(self, words: Sequence[str], standard: str | None = None, piped: bytes | None = None) -> Result:
        """Runs a program over a file or bytes as standard input."""
        source = os.open(standard or os.devnull, os.O_RDONLY)
        child = subprocess.Popen(
            words,
            stdin=source if piped is None else subprocess.PIPE,
            stdout=subprocess.PIPE,
            stderr=subprocess.PIPE,
            cwd=self.folder,
            env=self.environment(),
        )
        os.close(source)
        out, message = child.communicate(piped, SECONDS)
        return Result(out, message, child.returncode)

    def judge(self, is_right: bool, words: Sequence[str], seen: Result) -> None:
        """Counts a trial, and prints it if it is a surprise. Nothing may be left in the folder of temporary files."""
        self.tried[self.kind] += 1
        left = os.listdir(self.temporary)
        if is_right and not left:
            return
        self.surprises[self.kind] += 1
        out = seen.out[:200]
        print(f"surprise: {self.kind}: {words!r}: {seen.status} {out!r} {seen.message[:300]!r}, left {left}")

    def compare(
        self, words: Sequence[str], plain: Sequence[str], standard: str | None = None, piped: bytes | None = None
    ) -> None:
        """A run of zwarc gives what a run of warc gives over the uncompressed archive."""
        seen = self.run(["zwarc", *words], standard, piped)
        self.judge(seen == self.run(["warc", *plain]), words, seen)


def with_archive(command: Sequence[str], archive: str) -> list[str]:
    """The words of a command over an archive."""
    return [command[0], archive, *command[1:]]


def good_files() -> Iterator[tuple[str, bytes]]:
    """Files that hold the archive, by what made them."""
    yield "plain", PLAIN
    yield "members", b"".join(MEMBERS)
    yield "whole", gzip.compress(PLAIN, 9)
    yield "empty members", gzip.compress(b"") + MEMBERS[0] + gzip.compress(b"") * 3 + b"".join(
        MEMBERS[1:]
    ) + gzip.compress(b"")
    yield "cut members", b"".join(gzip.compress(PLAIN[at : at + 777]) for at in range(0, len(PLAIN), 777))
    yield "zero bytes after", b"".join(MEMBERS) + bytes(1000)
    yield "zstd", zstd(PLAIN)
    yield "frames", b"".join(map(zstd, RECORDS))


def bad_files() -> Iterator[tuple[str, bytes]]:
    """Files that can't be decompressed to their end."""
    whole = b"".join(MEMBERS)
    yield "torn in the first member", whole[: len(MEMBERS[0]) // 2]
    yield "torn in the last member", whole[:-100]
    yield "torn in a member's end", whole[:-3]
    yield "torn in a head", MEMBERS[0] + MEMBERS[1][:5]
    yield "other bytes after", whole + b"other bytes"
    yield "zero and other bytes after", whole + bytes(512) + b"other"
    yield "changed byte", whole[:100] + bytes([whole[100] ^ 1]) + whole[101:]
    yield "changed checksum", whole[:-6] + bytes([whole[-6] ^ 1]) + whole[-5:]
    yield "torn zstd", zstd(PLAIN)[:-5]
    yield "zstd with other bytes after", zstd(PLAIN) + b"other bytes"
    yield "no more than a beginning", whole[:4]


def good(trials: Trials) -> None:
    """Every command over every file, by name and as standard input."""
    plain = trials.file("plain", PLAIN)
    wanted = {command: trials.run(["warc", *with_archive(command, plain)]) for command in COMMANDS}
    for name, data in good_files():
        path = trials.file("archive", data)
        for command in COMMANDS:
            for words, standard, piped in (
                (with_archive(command, path), None, None),
                (with_archive(command, "-"), path, None),
                (with_archive(command, "-"), None, data),
            ):
                seen = trials.run(["zwarc", *words], standard, piped)
                trials.judge(seen == wanted[command], (name, *words), seen)


def streamed(trials: Trials) -> None:
    """The commands that read once, over a pipe; the others refuse that."""
    plain = trials.file("plain", PLAIN)
    for _, data in good_files():
        path = trials.file("archive", data)
        for command in ONCE:
            wanted = with_archive(command, plain)
            trials.compare(["--stream", *with_archive(command, path)], wanted)
            trials.compare([*with_archive(command, "-"), "--stream"], wanted, path)
            trials.compare([command[0], "--stream", "-"], wanted, None, data)
    for command in OTHERS:
        seen = trials.run(["zwarc", "--stream", *with_archive(command, path)])
        trials.judge((seen.out, seen.status) == (b"", 3) and b"--stream is for" in seen.message, command, seen)


def has_package() -> bool:
    """Whether the Python package was built."""
    return os.path.exists(f"{TOP}/out/python/zogwedu/libwarc.so")


def packages(trials: Trials) -> None:
    """The archives of a package are one archive; `fixity` says what of the package isn't as it was packed."""
    if not has_package():
        return
    plain = trials.file("plain", PLAIN)
    archives = {"b.warc": RECORDS[2], "a.warc.gz": b"".join(MEMBERS[:2])}
    said = b"zwarc: bad archive/b.warc\nzwarc: missing archive/c.warc\n"
    said += b"zwarc: 4 files of the package: 1 good, 1 bad, 1 missing, 1 unlisted\n"
    files = files_of(
        archives, b"{}", wrong=["archive/b.warc"], missing=["archive/c.warc"], unlisted=["pages/pages.jsonl"]
    )
    good_package = trials.file("good.wacz", wacz_of(archives))
    for path in (good_package, trials.file("bad.wacz", packed_files(files[:-1]))):
        for command in COMMANDS:
            if command[0] != "fixity":
                trials.compare(with_archive(command, path), with_archive(command, plain))
                trials.compare(with_archive(command, "-"), with_archive(command, plain), path)
        with open(path, "rb") as data:
            trials.compare(("list", "-"), ("list", plain), piped=data.read())
        seen, wanted = trials.run(["zwarc", "fixity", path]), trials.run(["warc", "fixity", plain])
        is_bad = path != good_package
        lines = (
            said.replace(b"4 files", b"5 files").replace(b"1 unlisted", b"1 unlisted, 1 absent")
            if is_bad
            else (b"zwarc: 3 files of the package: 3 good\n")
        )
        is_right = (seen.out, seen.message) == (wanted.out, wanted.message + lines)
        trials.judge(is_right and seen.status == (1 if is_bad else wanted.status), ("fixity", path), seen)
    seen = trials.run(["zwarc", "--stream", "list", good_package])
    trials.judge((seen.out, seen.status) == (b"", 3) and b"not for packages" in seen.message, ("--stream",), seen)
    bad_packages(trials, archives)
    good_blocks(trials)


def good_blocks(trials: Trials) -> None:
    """A bad file of a package is a failure also where each block has its digest."""
    digest = b"WARC-Block-Digest: sha1:%s\r\n" % base64.b32encode(hashlib.sha1(b"abc").digest())
    archive = {"a.warc": record("resource", 1, b"abc").replace(b"Content-Type", digest + b"Content-Type")}
    for wrong, status in (((), 0), (("archive/a.warc",), 1)):
        path = trials.file("stated.wacz", wacz_of(archive, wrong=wrong))
        seen = trials.run(["zwarc", "fixity", path])
        trials.judge(seen.status == status and b"good 1 bad 0" in seen.out, ("fixity", path, str(status)), seen)


def bad_packages(trials: Trials, archives: Mapping[str, bytes]) -> None:
    """Nothing is written of a package that isn't read or whose archives aren't whole. Without Python a line says so."""
    whole = wacz_of(archives)
    for data, line in (
        (whole[:-1], b"zogwedu: refused zip at"),
        (wacz_of({"a.warc.gz": MEMBERS[0][:-1]}), b"zogwedu: damaged wacz at"),
        (wacz_of({"a.warc": PLAIN[:-1], "b.warc": RECORDS[0]}), b"zogwedu: archive/a.warc: F11 Truncated at"),
    ):
        path = trials.file("bad.wacz", data)
        for words, standard, piped in (
            (["list", path], None, None),
            (["list", "-"], path, None),
            (["list", "-"], None, data),
        ):
            seen = trials.run(["zwarc", *words], standard, piped)
            is_named = b"\nzwarc: %s isn't decompressed to its end" % words[1].encode() in seen.message
            is_right = (seen.out, seen.status) == (b"", 3) and seen.message.startswith(line) and is_named
            trials.judge(is_right, words, seen)
    path = trials.file("torn.wacz", wacz_of({"a.warc": PLAIN[:-1]}))
    trials.compare(["list", path], ["list", trials.file("plain", PLAIN[:-1])])
    tool(trials, "python3", "exit 1")
    seen = trials.run(["zwarc", "list", trials.file("good.wacz", whole)])
    wanted = b"zwarc: a package is read by python3-zogwedu, which isn't installed\n"
    trials.judge(seen == Result(b"", wanted, 3), ("no Python",), seen)
    os.remove(f"{trials.bin}/python3")


def torn_at_an_end(trials: Trials) -> None:
    """A file that ends where a member does holds an archive, of fewer records."""
    for count in range(1, len(RECORDS)):
        plain = trials.file("plain", b"".join(RECORDS[:count]))
        for data in (b"".join(MEMBERS[:count]), b"".join(map(zstd, RECORDS[:count]))):
            path = trials.file("archive", data)
            for command in COMMANDS:
                trials.compare(with_archive(command, path), with_archive(command, plain))
                trials.compare(with_archive(command, "-"), with_archive(command, plain), piped=data)


def bad(trials: Trials) -> None:
    """No output, a message of the decompressor, and one that names the file."""
    for name, data in bad_files():
        path = trials.file("bad.gz", data)
        for command in COMMANDS:
            judge_bad(trials, with_archive(command, path), None, None)
            judge_bad(trials, with_archive(command, "-"), path, None)
            judge_bad(trials, with_archive(command, "-"), None, data)
        tool(trials, "python3", "exit 1")
        seen = trials.run(["zwarc", "salvage", "--all", path])
        os.remove(f"{trials.bin}/python3")
        is_named = b"'zwarc salvage --all', with python3-zogwedu" in seen.message
        trials.judge((seen.out, seen.status) == (b"", 3) and is_named != ("zstd" in name), (name, "salvage"), seen)
        if has_package() and "zstd" not in name:
            good_parts(trials, path, data)
        for command in ONCE:
            seen = trials.run(["zwarc", "--stream", *with_archive(command, path)])
            is_right = seen.status == 3 and b"zwarc: " + path.encode() in seen.message
            trials.judge(is_right, (name, "--stream", *command), seen)


def good_parts(trials: Trials, path: str, data: bytes) -> None:
    """`pieces` and `salvage --all` read on after each damage, by Python's package: not over a pipe."""
    good = [text for text, member in zip(RECORDS, MEMBERS) if member in data]
    for words, standard in ((["salvage", "--all", path], None), (["salvage", "-", "--all"], path)):
        seen = trials.run(["zwarc", *words], standard)
        said = b"\nzogwedu: salvaged %d records, %d bytes\n" % (len(good), sum(map(len, good)))
        is_right = seen.message.endswith(said) and b"zogwedu: damage " in seen.message
        trials.judge((seen.out, seen.status) == (b"".join(good), 2) and is_right, words, seen)
    seen = trials.run(["zwarc", "pieces", path])
    rows = [line.split(b"\t") for line in seen.out.splitlines()]
    runs = [row for row in rows if row[0] == b"records"]
    is_right = sum(int(row[3]) for row in runs) == len(good) and b" compressed bytes\n" in seen.out
    trials.judge(is_right and len(runs) < len(rows) and seen.status == 2, ["pieces", path], seen)
    for command in (["pieces", "-"], ["salvage", "--all", "-"]):
        seen = trials.run(["zwarc", *command], piped=data)
        trials.judge((seen.out, seen.status) == (b"", 3) and b", not a pipe\n" in seen.message, command, seen)


def judge_bad(trials: Trials, words: Sequence[str], standard: str | None, piped: bytes | None) -> None:
    """A run over a file that can't be decompressed to its end."""
    seen = trials.run(["zwarc", *words], standard, piped)
    lines = seen.message.strip().splitlines()
    is_right = (seen.out, seen.status) == (b"", 3) and len(lines) > 1
    is_named = lines[-1:] and lines[-1].startswith(b"zwarc: " + words[1].encode())
    trials.judge(is_right and bool(is_named) and b"warc: F" not in seen.message, words, seen)


def damaged(trials: Trials) -> None:
    """An archive that is damaged and compressed well is refused as ever, also where the pipe has more to come."""
    text = RECORDS[0] + b"WARC/9.9\r\n" + bytes(5_000_000)
    plain = trials.file("plain", text)
    path = trials.file("archive", gzip.compress(text, 1))
    for command in ONCE:
        wanted = trials.run(["warc", *with_archive(command, plain)])
        trials.judge(wanted.status == 2, command, wanted)
        trials.compare(with_archive(command, path), with_archive(command, plain))
        trials.compare(["--stream", *with_archive(command, path)], with_archive(command, plain))
        trials.compare(with_archive(command, "-"), with_archive(command, plain), piped=text)


def passed_on(trials: Trials) -> None:
    """Words that name no archive, and those that warc refuses, are as they are, and so are several archives."""
    packed = trials.file("packed.gz", b"".join(MEMBERS))
    trials.file("packed", b"".join(MEMBERS))
    for words in (
        ("explain", "F10"),
        ("explain", "nothing"),
        ("help",),
        ("help", "list"),
        ("list", "--help"),
        ("--version",),
        (),
        ("nothing", packed),
        ("--quiet", "list", "plain"),
        ("list",),
        ("list", "missing.gz"),
        ("list", trials.folder),
        ("write", "resource", TARGET, "2020", UUID, "text/plain", packed),
        ("write", "resource", TARGET, "2020", UUID, "text/plain", "--", packed),
        ("list", "--nothing", packed),
    ):
        trials.compare(words, words)
    trials.compare(("list", packed, "packed"), ("list", "packed", "packed"))
    trials.compare(("list", "plain", packed), ("list", "plain", packed))
    for words in (("--help",), ("-h",)):
        seen = trials.run(["zwarc", *words])
        trials.judge(seen.status == 0 and b"Usage: zwarc" in seen.out and seen.message == b"", words, seen)


def options(trials: Trials) -> None:
    """Options before the archive and after it, and what follows --."""
    plain = trials.file("plain", PLAIN)
    path = trials.file("archive.gz", b"".join(MEMBERS))
    for words in (
        ("list", "--quiet", "ARCHIVE"),
        ("list", "ARCHIVE", "--quiet"),
        ("list", "--", "ARCHIVE"),
        ("list", "--quiet", "--", "ARCHIVE"),
        ("replay", "--uri-hex", "ARCHIVE", TARGET.encode().hex(), "--quiet", "9999"),
        ("replay", "--", "ARCHIVE", TARGET, "9999"),
        ("body", "--stored", "ARCHIVE", "1"),
    ):
        trials.compare(
            [path if word == "ARCHIVE" else word for word in words],
            [plain if word == "ARCHIVE" else word for word in words],
        )
    seen = trials.run(["zwarc", "list", "--", "--stream"])
    trials.judge((seen.status, seen.message) == (3, b"warc: open failed\n"), ("list", "--", "--stream"), seen)


def names(trials: Trials) -> None:
    """Names that a shell or a terminal reads otherwise."""
    plain = trials.file("plain", PLAIN)
    for name in NAMES:
        trials.file(name, b"".join(MEMBERS))
        trials.compare(("list", "--", name), ("list", plain))
        trials.file(name, MEMBERS[0][:-1])
        seen = trials.run(["zwarc", "list", "--", name])
        is_right = (seen.out, seen.status) == (b"", 3) and not set(seen.message) & (
            set(range(32)) - {10} | {127, 0x9B, 0xC2}
        )
        trials.judge(is_right and seen.message.count(b"\n") == 4, ("list", "--", name), seen)


def other_shells(trials: Trials) -> None:
    """The script in each shell that is here."""
    plain = trials.file("plain", PLAIN)
    path = trials.file("archive.gz", b"".join(MEMBERS))
    torn = trials.file("torn.gz", MEMBERS[0][:-1])
    script = f"{trials.bin}/zwarc"
    for shell in filter(lambda it: shutil.which(it[0]), SHELLS):
        wanted = trials.run(["warc", "list", plain])
        for words, standard in ((("list", path), None), (("list", "-"), path), (("--stream", "list", path), None)):
            seen = trials.run([*shell, script, *words], standard=standard)
            trials.judge(seen == wanted, (*shell, *words), seen)
        seen = trials.run([*shell, script, "list", torn])
        trials.judge((seen.out, seen.status) == (b"", 3), (*shell, "list", torn), seen)


def no_room(trials: Trials) -> None:
    """A full, a missing and a forbidden folder for temporary files, a limit on the size of files, and no zstd."""
    path = trials.file("archive.gz", b"".join(MEMBERS))
    home, trials.temporary = trials.temporary, f"{trials.folder}/small"
    os.mkdir(trials.temporary)
    mounted = (
        subprocess.run(["mount", "-t", "tmpfs", "-o", "size=8k", "tmpfs", trials.temporary], check=False).returncode
        == 0
    )
    try:
        for command in ONCE if mounted else ():
            for words, piped in ((with_archive(command, path), None), (with_archive(command, "-"), b"".join(MEMBERS))):
                seen = trials.run(["zwarc", *words], piped=piped)
                is_right = (seen.out, seen.status) == (b"", 3) and b"No space left" in seen.message
                trials.judge(is_right, words, seen)
    finally:
        if mounted:
            subprocess.run(["umount", trials.temporary], check=False)
        trials.temporary = home
    environment = {"PATH": f"{trials.bin}:/usr/bin:/bin", "TMPDIR": f"{trials.folder}/missing"}
    for words in (["zwarc", "list", path], ["sh", "-c", 'ulimit -f 1; TMPDIR=/tmp; exec zwarc list "$1"', "sh", path]):
        done = subprocess.run(words, capture_output=True, check=False, env=environment)
        seen = Result(done.stdout, done.stderr, done.returncode)
        trials.judge((seen.out, seen.status) == (b"", 3) and seen.message != b"", words, seen)
    # Links to the system's programs are in a folder of their own, so that nothing is ever written through one.
    tools = f"{trials.folder}/tools"
    os.mkdir(tools)
    for name in ("sh", "od", "sed", "rm", "mktemp", "tr", "gzip", "cat", "mkfifo"):
        os.symlink(str(shutil.which(name)), f"{tools}/{name}")
    packed = trials.file("archive.zst", zstd(PLAIN))
    path = f"{trials.bin}:{tools}"
    done = subprocess.run(["zwarc", "list", packed], capture_output=True, check=False, env={"PATH": path})
    seen = Result(done.stdout, done.stderr, done.returncode)
    trials.judge(seen == Result(b"", b"zwarc: zstd isn't installed\n", 3), ("no zstd",), seen)


def is_gone(group: int) -> bool:
    """Whether a process group ends within a minute."""
    for _ in range(1200):
        try:
            os.killpg(group, 0)
        except ProcessLookupError:
            return True
        time.sleep(0.05)
    return False


def await_work(process: int) -> None:
    """Waits until the script has started a program, and some more, in which it comes to wait for input."""
    end = time.monotonic() + SECONDS
    while time.monotonic() < end:
        with open(f"/proc/{process}/task/{process}/children", encoding="ascii") as children:
            if children.read():
                break
        time.sleep(0.02)
    time.sleep(0.5)


TRAPPED = (signal.SIGHUP, signal.SIGINT, signal.SIGTERM, signal.SIGQUIT)


def obey_signals() -> None:
    """A job in the background ignores some signals, and a shell can't trap what it was started to ignore."""
    for number in TRAPPED:
        signal.signal(number, signal.SIG_DFL)


def signals(trials: Trials) -> None:
    """A signal ends the script as it ends any program, and all that it started, and leaves nothing."""
    data = b"".join(MEMBERS)
    plain = PLAIN[: len(PLAIN) // 2]
    for number in (*TRAPPED, signal.SIGKILL):
        for words, begin in ((("list", "-"), data), (("--stream", "list", "-"), data), (("list", "-"), plain)):
            child = subprocess.Popen(
                ["zwarc", *words],
                stdin=subprocess.PIPE,
                stdout=subprocess.PIPE,
                stderr=subprocess.PIPE,
                env=trials.environment(),
                start_new_session=True,
                preexec_fn=obey_signals,
            )
            assert child.stdin and child.stdout and child.stderr
            child.stdin.write(begin)
            child.stdin.flush()
            await_work(child.pid)
            child.send_signal(number)
            if number == signal.SIGKILL:
                child.stdin.close()
            status = child.wait(SECONDS)
            is_right = is_gone(child.pid) and status == -number
            if number != signal.SIGKILL:
                child.stdin.close()
            seen = Result(child.stdout.read(), child.stderr.read(), status)
            trials.judge(
                is_right and (seen.out == b"" or number == signal.SIGKILL), (signal.Signals(number).name, *words), seen
            )


def tool(trials: Trials, name: str, text: str) -> None:
    """Puts a script before the program of its name."""
    path = f"{trials.bin}/{name}"
    with open(path, "w", encoding="ascii") as file:
        file.write(f"#!/bin/sh\n{text}\n")
    os.chmod(path, 0o755)


def read_until(terminal: int, wanted: bytes) -> bytes:
    """What a terminal gets until it has some bytes, or no more for a minute."""
    data = b""
    while wanted not in data and select.select([terminal], [], [], SECONDS)[0]:
        data += os.read(terminal, 65536)
    return data


def progress(trials: Trials) -> None:
    """On a terminal a line says how much is decompressed, and nothing of it is left; not with --quiet, or elsewhere."""
    slept, gate, packed = f"{trials.folder}/slept", f"{trials.folder}/gate", trials.file("slow.gz", b"".join(MEMBERS))
    os.mkfifo(gate)
    gzip_path, sleep_path = shutil.which("gzip"), shutil.which("sleep")
    tool(trials, "gzip", f'{gzip_path} "$@" && : < {gate}')
    tool(trials, "sleep", f': > {slept}\nexec {sleep_path} "$@"')
    wanted = trials.run(["warc", "list", trials.file("plain.warc", PLAIN)])
    ours, theirs = pty.openpty()
    for words, is_shown in ((["list"], True), (["list", "--quiet"], False)):
        child = subprocess.Popen(
            ["zwarc", *words, packed], stdout=subprocess.PIPE, stderr=theirs, env=trials.environment()
        )
        data = read_until(ours, b"decompressing: 0 MB") if is_shown else b""
        with open(gate, "wb"):
            out = child.communicate(timeout=SECONDS)[0]
        data += read_until(ours, b"\r\x1b[K") if is_shown and not data.endswith(b"\r\x1b[K") else b""
        is_right = (out, child.returncode) == (wanted.out, 0) and data.endswith(b"\r\x1b[K") == is_shown
        trials.judge(is_right and os.path.exists(slept) == is_shown, words, Result(out, data, child.returncode))
        trials.judge(not select.select([ours], [], [], 0)[0], (*words, "and no more"), Result(out, data, 0))
        if os.path.exists(slept):
            os.remove(slept)
    os.close(theirs)
    os.close(ours)
    feeder = threading.Thread(target=lambda: open(gate, "wb").close())
    feeder.start()
    seen = trials.run(["zwarc", "list", packed])
    feeder.join()
    trials.judge(seen == wanted and not os.path.exists(slept), ("no terminal",), seen)
    for name in ("gzip", "sleep"):
        os.remove(f"{trials.bin}/{name}")


def closed_output(trials: Trials) -> None:
    """A reader that goes away, and a full disk, are failed writes as ever."""
    text = b"".join(record("metadata", 1, b"") for _ in range(3000))
    path = trials.file("archive.gz", gzip.compress(text))
    for words in (f"zwarc list {path}", f"zwarc --stream list {path}", f"cat {path} | zwarc list -"):
        for rest, message in (
            ("| head -n 1 > /dev/null", b"warc: write failed after"),
            ("> /dev/full", b"warc: write failed after 0"),
        ):
            script = f"{{ {words}; echo $? >&2; }} {rest}"
            seen = trials.run(["bash", "-c", script])
            trials.judge(seen.message.startswith(message) and seen.message.endswith(b"\n3\n"), (script,), seen)


def wrap(trials: Trials, name: str, call: str, error: str, count: int) -> None:
    """Puts a program in front of another whose call of the system fails once."""
    real = shutil.which(name, path="/usr/bin:/bin")
    inject = f"-e trace={call} -e inject={call}:error={error}:when={count}"
    with contextlib.suppress(FileNotFoundError):
        os.remove(f"{trials.bin}/{name}")
    with open(f"{trials.bin}/{name}", "x", encoding="utf-8") as out:
        out.write(f'#!/bin/sh\nexec strace -o {trials.folder}/log {inject} {real} "$@"\n')
    os.chmod(out.name, 0o755)


def failing_calls(trials: Trials) -> None:
    """Calls of the system fail in turn in each program that the script runs: the status is 0 or 3, and with 0 the
    output is all that warc writes."""
    path = trials.file("archive.gz", b"".join(MEMBERS))
    wanted = trials.run(["warc", "list", trials.file("plain", PLAIN)])
    calls = {"gzip": ("read", "write", "openat"), "od": ("read", "write"), "mktemp": ("openat",)}
    for name, kinds in (
        *calls.items(),
        ("cat", ("read", "write")),
        ("mkfifo", ("mknodat",)),
    ):
        for call, count in itertools.product(kinds, range(1, MOST_CALLS)):
            wrap(trials, name, call, "ENOSPC" if call == "write" else "EIO", count)
            for words, piped in (
                (("list", path), None),
                (("list", "-"), b"".join(MEMBERS)),
                (("--stream", "list", path), None),
            ):
                seen = trials.run(["zwarc", *words], piped=piped)
                is_whole = seen == wanted
                is_failed = seen.status == 3 and (seen.out == b"" or words[0] == "--stream")
                trials.judge(is_whole or is_failed, (name, call, str(count), *words), seen)
        os.remove(f"{trials.bin}/{name}")


class Site(http.server.BaseHTTPRequestHandler):
    """A site of two pages and a picture, which doesn't change."""

    PAGES = {"/": b"<a href=two>two</a><img src=sky.png>", "/two": b"<p>two</p>" * 999, "/sky.png": bytes(range(256))}

    def do_GET(self) -> None:  # pylint: disable=invalid-name
        """Answers with a page."""
        page = self.PAGES.get(self.path)
        self.send_response(200 if page else 404)
        self.send_header("Content-Type", "image/png" if self.path.endswith("png") else "text/html")
        self.send_header("Content-Length", str(len(page or b"")))
        self.end_headers()
        self.wfile.write(page or b"")

    def log_message(self, format: str, *args: object) -> None:  # pylint: disable=redefined-builtin
        """Says nothing."""


def crawl(trials: Trials) -> None:
    """A crawl that wget compresses, as it does by default."""
    if not shutil.which("wget"):
        return
    server = http.server.ThreadingHTTPServer(("127.0.0.1", 0), Site)
    threading.Thread(target=server.serve_forever, daemon=True).start()
    url = f"http://127.0.0.1:{server.server_port}/"
    words = ["wget", "-q", "-r", "-p", "--delete-after", "--no-directories", f"--warc-file={trials.folder}/crawl", url]
    subprocess.run(words, check=False, cwd=trials.folder)
    server.shutdown()
    with gzip.open(f"{trials.folder}/crawl.warc.gz") as packed:
        plain = trials.file("plain", packed.read())
    path = f"{trials.folder}/crawl.warc.gz"
    for command in (*ONCE, *OTHERS, ("replay", url + "sky.png", "9999"), ("captures", url)):
        trials.compare(with_archive(command, path), with_archive(command, plain))
    wanted = trials.run(["warc", "replay", plain, url + "sky.png", "9999"])
    trials.judge(wanted.out == Site.PAGES["/sky.png"], ("replay", url + "sky.png"), wanted)


KINDS = (
    good,
    streamed,
    packages,
    torn_at_an_end,
    bad,
    damaged,
    passed_on,
    options,
    names,
    other_shells,
    no_room,
    signals,
    progress,
    closed_output,
    crawl,
)


def try_kind(trials: Trials, kind: functools.partial[None]) -> None:
    """Runs the trials of a kind, and prints how many there were."""
    kind(trials)
    print(f"{trials.kind}: {trials.tried[trials.kind]} tried, {trials.surprises[trials.kind]} surprises", flush=True)


def main(warc: str, wanted: Sequence[str]) -> int:
    """Tries each kind, or those that are named."""
    trials = Trials(warc, tempfile.mkdtemp(prefix="zwarc-"))
    try:
        for kind in (*KINDS, failing_calls):
            trials.kind = kind.__name__.replace("_", " ")
            if not wanted or kind.__name__ in wanted:
                try_kind(trials, functools.partial(kind))
    finally:
        shutil.rmtree(trials.folder)
    tried, surprises = sum(trials.tried.values()), sum(trials.surprises.values())
    print(f"zwarc: {len(trials.tried)} kinds, {tried} tried, {surprises} surprises")
    return 1 if surprises else 0


if __name__ == "__main__":
    sys.exit(main(sys.argv[1], sys.argv[2:]))
