#!/usr/bin/env python3
"""Runs the program where the system fails it: system calls that fail, closed outputs, limits, odd files and names.

    python3 tests/stress/system.py WARC

After a failure the status must be 3, what arrived must be the beginning of the output, and a count in the message must
be the number of bytes that arrived. Prints a line with counts for each kind of trial, each surprise, and last a line
with the totals. The exit status is 1 if there was a surprise. Needs strace, bash and Linux.
"""
import collections
import os
import re
import resource
import shutil
import signal
import socket
import subprocess
import sys
import tempfile
import threading
import time
from typing import IO, Callable, Counter, Dict, List, NamedTuple, Optional, Sequence, Tuple, Union

HERE = os.path.dirname(os.path.abspath(__file__))
TOP = os.path.dirname(os.path.dirname(HERE))
sys.path.insert(0, os.path.join(os.path.dirname(HERE), "reference"))
import generate  # noqa: E402
import warc_reference  # noqa: E402

MOST_CALLS = 200
MOST_SECONDS = 120
TARGET = "http://a.example/x"
FIRST_ID = "urn:uuid:00000000-0000-4000-8000-000000000001"
LAST_ID = "urn:uuid:00000000-0000-4000-8000-000000000009"
WRITE_UUID = FIRST_ID[9:]
SPARSE_BLOCK = 5_000_000_000
SPLIT_SIZE = 2**32 + 7

Words = Sequence[Union[str, bytes]]
Command = Tuple[str, ...]
Input = Union[int, IO[bytes]]
Feed = Callable[[IO[bytes], bytes], None]


class Result(NamedTuple):
    """What a run wrote, and its status: None where it took too long."""

    out: bytes
    message: bytes
    status: Optional[int]


# Archives and what the commands give over them


def record_text(kind: str, record_id: str, block: bytes, more: Sequence[Tuple[str, str]] = ()) -> bytes:
    fields = [
        ("WARC-Type", kind),
        ("WARC-Record-ID", "<%s>" % record_id),
        ("WARC-Date", "2020-01-01"),
        ("WARC-Target-URI", TARGET),
        *more,
    ]
    lines = "".join("%s: %s\r\n" % field for field in fields)
    return b"WARC/1.0\r\n%sContent-Length: %d\r\n\r\n%s\r\n\r\n" % (lines.encode(), len(block), block)


def small_archive() -> bytes:
    """Some 300,000 bytes, so that several reads and several writes are needed, and many lines in a list."""
    block = bytes(range(256)) * 600
    digest = generate.sha1_text(block)
    payload = ("WARC-Payload-Digest", digest)
    text = record_text("resource", FIRST_ID, block, (("WARC-Block-Digest", digest), payload))
    for number in range(700):
        text += record_text("metadata", "urn:x:%d" % number, b"", (("WARC-Payload-Digest", "x" * 9),))
    revisit = (("WARC-Profile", generate.PROFILES[0]), ("WARC-Refers-To", "<%s>" % FIRST_ID), payload)
    return text + record_text("revisit", LAST_ID, b"", revisit)


def made_record(block: bytes) -> bytes:
    """What the command write gives of a block."""
    fields = (
        ("WARC-Type", "resource"),
        ("WARC-Record-ID", "<%s>" % FIRST_ID),
        ("WARC-Date", "2020-01-01"),
        ("WARC-Target-URI", TARGET),
        ("Content-Type", "text/plain"),
        ("WARC-Block-Digest", generate.sha1_text(block)),
        ("Content-Length", str(len(block))),
    )
    lines = "".join("%s: %s\r\n" % field for field in fields)
    return b"WARC/1.1\r\n%s\r\n%s\r\n\r\n" % (lines.encode(), block)


COMMANDS: Tuple[Command, ...] = (
    ("list",),
    ("check",),
    ("fixity",),
    ("salvage",),
    ("rewrite",),
    ("convert",),
    ("extract", FIRST_ID),
    ("head", "0"),
    ("block", "0"),
    ("body", "701"),
    ("replay", TARGET, "9999"),
    ("split", "50000"),
    ("write",),
)
COMMANDS += tuple((name,) for name in ("captures", "summary", "survey") if name in warc_reference.COMMANDS)
COMMANDS += (("body", "701", "--stored"), ("captures", TARGET), ("fixity", "--payload"))
SHORT = ("list", "check", "fixity", "head", "body", "captures", "summary")


def words_for(command: Command, path: str) -> List[str]:
    """The words of a command over an archive. `write` takes the file last."""
    if command[0] == "write":
        return ["write", "resource", TARGET, "2020-01-01", WRITE_UUID, "text/plain", path]
    return [command[0], path, *command[1:]]


class Stress:
    """The program, a folder for files, and the counts of what was tried."""

    def __init__(self, program: str, folder: str) -> None:
        self.program = os.path.abspath(program)
        self.folder = folder
        self.tried: Counter[str] = collections.Counter()
        self.surprises: Counter[str] = collections.Counter()
        self.kind = ""
        self.data = small_archive()
        self.archive = self.file("small.warc", self.data)
        self.expected: Dict[Command, Result] = {}

    def path(self, name: str) -> str:
        return os.path.join(self.folder, name)

    def file(self, name: str, data: bytes) -> str:
        path = self.path(name)
        with open(path, "wb") as file:
            file.write(data)
        return path

    def begin(self, kind: str) -> None:
        self.kind = kind
        self.tried[kind] = 0

    def judge(self, is_right: bool, words: Sequence[object], seen: object) -> None:
        """Counts a trial, and prints it where it is a surprise."""
        self.tried[self.kind] += 1
        if is_right:
            return
        self.surprises[self.kind] += 1
        if self.surprises[self.kind] <= 20:
            shown = [word if len(word) < 200 else word[:200] + ".." for word in map(str, words)]
            print("surprise: %s: %s: %s" % (self.kind, " ".join(shown), describe(seen)))

    def end(self) -> None:
        print("%s: %d tried, %d surprises" % (self.kind, self.tried[self.kind], self.surprises[self.kind]), flush=True)

    def run(
        self, words: Words, before: Words = (), stdin: Input = subprocess.DEVNULL, seconds: float = MOST_SECONDS
    ) -> Result:
        """Runs the program with its standard output in a file. `before` holds the words of a wrapper."""
        with open(self.path("out"), "wb") as out:
            return self.run_into(out, words, before, stdin, seconds)

    def run_into(
        self,
        out: IO[bytes],
        words: Words,
        before: Words = (),
        stdin: Input = subprocess.DEVNULL,
        seconds: float = MOST_SECONDS,
    ) -> Result:
        try:
            done = subprocess.run(
                [*before, self.program, *words],
                stdin=stdin,
                stdout=out,
                stderr=subprocess.PIPE,
                timeout=seconds,
                check=False,
            )
        except subprocess.TimeoutExpired:
            return Result(b"", b"the run took too long", None)
        return Result(contents(self.path("out")), done.stderr, done.returncode)

    def run_piped(self, words: Words, data: bytes, feed: Optional[Feed] = None) -> Result:
        """Runs the program with bytes in a pipe as standard input."""
        child = subprocess.Popen(
            [self.program, *words], stdin=subprocess.PIPE, stdout=open(self.path("out"), "wb"), stderr=subprocess.PIPE
        )
        writer = threading.Thread(target=feed or feed_all, args=(child.stdin, data))
        writer.start()
        with end_of(child.stderr) as errors:
            message = errors.read()
        status = child.wait(MOST_SECONDS)
        writer.join()
        return Result(contents(self.path("out")), message, status)


def end_of(pipe: Optional[IO[bytes]]) -> IO[bytes]:
    """Our end of a pipe to a child."""
    assert pipe is not None
    return pipe


def contents(path: str) -> bytes:
    with open(path, "rb") as file:
        return file.read()


def describe(seen: object) -> str:
    if not isinstance(seen, Result):
        return str(seen)
    return "status %s, %d bytes, message %r" % (seen.status, len(seen.out), seen.message[:300])


def feed_all(pipe: IO[bytes], data: bytes) -> None:
    try:
        pipe.write(data)
        pipe.close()
    except BrokenPipeError:
        pass


def feed_slowly(pipe: IO[bytes], data: bytes) -> None:
    """Small pieces of odd lengths, so that reads are short."""
    try:
        for start in range(0, len(data), 4097):
            pipe.write(data[start : start + 4097])
            pipe.flush()
        pipe.close()
    except BrokenPipeError:
        pass


def is_failure(seen: Result, whole: bytes) -> bool:
    """Whether a run failed as the pages say: status 3, a beginning of the output, and its right count."""
    if seen.status != 3 or not whole.startswith(seen.out):
        return False
    after = re.fullmatch(rb"warc: (?:read failed|write failed|out of memory) after (\d+)\n", seen.message)
    if after:
        return int(after.group(1)) == len(seen.out)
    salvaged = re.fullmatch(
        rb"warc: F1[34] (?:Read|Memory) at \d+\nwarc: salvaged \d+ records, (\d+) bytes\n", seen.message
    )
    if salvaged:
        return int(salvaged.group(1)) == len(seen.out)
    opened = rb"warc: (F13 Read at \d+|F14 Memory at \d+|open failed|M4 Memory)\n"
    return re.fullmatch(opened, seen.message) is not None and seen.out == b""


# The kinds of trials


def plain_runs(stress: Stress) -> None:
    """What each command gives when nothing fails, against the second reading."""
    stress.begin("plain runs")
    for command in COMMANDS:
        seen = stress.run(words_for(command, stress.archive))
        if command[0] == "write":
            wanted = Result(made_record(stress.data), b"", 0)
        elif command[0] == "split":
            wanted = Result(seen.out, b"", 0)
        else:
            wanted = Result(*warc_reference.run(command[0], stress.data, [word.encode() for word in command[1:]]))
        stress.judge(seen == wanted, command, seen)
        stress.expected[command] = wanted
    stress.end()


def failing_calls(stress: Stress, calls: str, error: str, path: str) -> None:
    """The k-th call on a path fails, for each k until the run meets none."""
    stress.begin("%s: %s" % (calls.split(",")[0], error))
    log = stress.path("log")
    for command in COMMANDS:
        for number in range(1, MOST_CALLS + 1):
            before = [
                "strace",
                "-f",
                "-o",
                log,
                "-P",
                path,
                "-e",
                "trace=" + calls,
                "-e",
                "inject=%s:error=%s:when=%d" % (calls, error, number),
            ]
            seen = stress.run(words_for(command, stress.archive), before)
            if b"(INJECTED)" not in contents(log):
                stress.judge(seen == stress.expected[command], command, seen)
                break
            stress.judge(is_failure(seen, stress.expected[command].out), (*command, "call", number), seen)
        else:
            stress.judge(False, (*command, "more calls than"), MOST_CALLS)
    stress.end()


def failing_system_calls(stress: Stress) -> None:
    reads, writes = "read,pread64,readv,preadv,preadv2", "write,pwrite64,writev,pwritev,sendfile,copy_file_range"
    for error in ("EINTR", "EIO"):
        failing_calls(stress, reads, error, stress.archive)
    failing_calls(stress, "lseek", "EIO", stress.archive)
    for error in ("EINTR", "ENOSPC", "EAGAIN"):
        failing_calls(stress, writes, error, stress.path("out"))


def run_over_fifo(stress: Stress, words: Words, before: Words) -> Result:
    """Runs the program with a named pipe as standard input, so that strace finds the reads by its name."""
    path = stress.path("input")
    if not os.path.exists(path):
        os.mkfifo(path)
    reader = os.open(path, os.O_RDONLY | os.O_NONBLOCK)
    pipe = open(path, "wb")
    os.set_blocking(reader, True)
    writer = threading.Thread(target=feed_all, args=(pipe, stress.data))
    writer.start()
    seen = stress.run(words, before, stdin=reader)
    os.close(reader)
    writer.join()
    return seen


def failing_piped_reads(stress: Stress) -> None:
    """The k-th read of standard input fails, for each k until the run meets none."""
    calls = "read,readv"
    log = stress.path("log")
    for error in ("EINTR", "EIO", "EAGAIN"):
        stress.begin("read of a pipe: " + error)
        for command in COMMANDS:
            for number in range(1, MOST_CALLS + 1):
                before = [
                    "strace",
                    "-f",
                    "-o",
                    log,
                    "-P",
                    stress.path("input"),
                    "-e",
                    "trace=" + calls,
                    "-e",
                    "inject=%s:error=%s:when=%d" % (calls, error, number),
                ]
                seen = run_over_fifo(stress, words_for(command, "-"), before)
                if b"(INJECTED)" not in contents(log):
                    stress.judge(seen == stress.expected[command], command, seen)
                    break
                stress.judge(is_failure(seen, stress.expected[command].out), (*command, "call", number), seen)
            else:
                stress.judge(False, (*command, "more calls than"), MOST_CALLS)
        stress.end()


def full_device(stress: Stress) -> None:
    stress.begin("/dev/full")
    for command in COMMANDS:
        with open("/dev/full", "wb") as out:
            seen = stress.run_into(out, words_for(command, stress.archive))
        seen = seen._replace(out=b"")
        stress.judge(seen.status == 3 and seen.message.startswith(b"warc: write failed after 0\n"), command, seen)
    stress.end()


def full_disks(stress: Stress) -> None:
    """The output goes to a small disk, one in memory: the count is what arrived there. As root alone."""
    stress.begin("a full disk")
    folder = stress.path("disk")
    os.makedirs(folder, exist_ok=True)
    for size in (4096, 8192, 65536, 126976):
        mounted = subprocess.run(["mount", "-t", "tmpfs", "-o", "size=%d" % size, "tmpfs", folder], check=False)
        if mounted.returncode != 0:
            print("a full disk: not tried, no tmpfs can be mounted here")
            return
        try:
            for command in COMMANDS:
                stress.judge(*write_to_disk(stress, command, os.path.join(folder, "out"), size))
        finally:
            subprocess.run(["umount", folder], check=True)
    stress.end()


def write_to_disk(stress: Stress, command: Command, path: str, size: int) -> Tuple[bool, Sequence[object], Result]:
    """Runs a command with its output on a disk of a limited size. Returns what `judge` takes."""
    wanted = stress.expected[command]
    with open(path, "wb") as out:
        seen = stress.run_into(out, words_for(command, stress.archive))
    seen = seen._replace(out=contents(path))
    os.remove(path)
    is_right = seen == wanted if len(wanted.out) <= size else is_failure(seen, wanted.out) and len(seen.out) == size
    return is_right, (*command, "disk of", size), seen


def closed_outputs(stress: Stress) -> None:
    """A closed standard output is a failed write. A closed or full standard error changes neither output nor status."""
    stress.begin("closed outputs")
    for command in COMMANDS:
        words = words_for(command, stress.archive)
        stress.file("out", b"")
        before = ["bash", "-c", 'exec "$@" >&-', "bash"]
        seen = stress.run(words, before)
        stress.judge(seen.status == 3 and seen.message == b"warc: write failed after 0\n", (*command, ">&-"), seen)
        for redirection in ("2>&-", "2>/dev/full", "2<&- <&-"):
            seen = stress.run(words, ["bash", "-c", 'exec "$@" ' + redirection, "bash"])
            wanted = stress.expected[command]
            stress.judge((seen.out, seen.status) == (wanted.out, wanted.status), (*command, redirection), seen)
    stress.end()


def reader_goes_away(stress: Stress) -> None:
    """The reader of a pipe takes a little and leaves: the message counts what the pipe took."""
    stress.begin("| head -1")
    for command in COMMANDS:
        for wanted in (0, 1, 5000):
            stress.judge(*leave_after(stress, command, wanted))
    stress.end()


def leave_after(stress: Stress, command: Command, wanted: int) -> Tuple[bool, Sequence[object], Result]:
    """Reads `wanted` bytes of the output, then closes the pipe. Returns what `judge` takes."""
    whole = stress.expected[command].out
    child = subprocess.Popen(
        [stress.program, *words_for(command, stress.archive)],
        stdin=subprocess.DEVNULL,
        stdout=subprocess.PIPE,
        stderr=subprocess.PIPE,
        bufsize=0,
    )
    with end_of(child.stdout) as pipe:
        got = pipe.read(wanted) if wanted else b""
        if wanted:
            time.sleep(0.02)
    with end_of(child.stderr) as errors:
        message = errors.read()
    status = child.wait(MOST_SECONDS)
    match = re.fullmatch(rb"warc: write failed after (\d+)\n", message)
    is_cut = status == 3 and match is not None and len(got) <= int(match.group(1)) < len(whole)
    is_whole = (message, status) == stress.expected[command][1:] and len(whole) <= len(got) + 65536
    return (
        (is_cut or is_whole) and whole.startswith(got),
        (*command, "reader takes", wanted),
        Result(got, message, status),
    )


def file_size_limit(stress: Stress) -> None:
    """With the signal ignored it is a failed write; otherwise the signal ends the program."""
    stress.begin("ulimit -f")
    for command in COMMANDS:
        whole = stress.expected[command].out
        for limit in (0, 1, 3, 64, 65, 100, 149):
            for is_ignored in (True, False):
                script = 'ulimit -f %d; %s exec "$@"' % (limit, "trap '' XFSZ;" if is_ignored else "")
                seen = stress.run(words_for(command, stress.archive), ["bash", "-c", script, "bash"])
                if len(whole) <= limit * 1024:
                    is_right = seen == stress.expected[command]
                elif is_ignored:
                    is_right = is_failure(seen, whole) and len(seen.out) == limit * 1024
                else:
                    is_right = seen.status == -signal.SIGXFSZ and seen.out == whole[: limit * 1024]
                stress.judge(is_right, (*command, "limit", limit, "ignored" if is_ignored else ""), seen)
    stress.end()


def with_memory(limit: int) -> List[str]:
    return ["bash", "-c", 'ulimit -v %d; exec "$@"' % limit, "bash"]


def least_memory(stress: Stress) -> int:
    """The least limit, in KiB, under which `warc --version` runs."""
    low, high = 0, 1 << 20
    while high - low > 4:
        middle = (low + high) // 2
        if stress.run(["--version"], with_memory(middle)).status == 0:
            high = middle
        else:
            low = middle
    return high


def memory_limit(stress: Stress) -> None:
    """Swept down to what `warc --version` takes. Below that the system's loader fails, and not the program."""
    stress.begin("ulimit -v")
    least = least_memory(stress)
    for command in COMMANDS:
        whole = stress.expected[command]
        for limit in [least + step for step in (*range(0, 400, 12), *range(400, 2000, 100), 8000, 100000)]:
            seen = stress.run(words_for(command, stress.archive), with_memory(limit))
            stress.judge(seen == whole or is_failure(seen, whole.out), (*command, "limit", limit), seen)
    stress.end()


def odd_files(stress: Stress) -> None:
    """A folder, a FIFO, devices, a missing file."""
    stress.begin("odd files")
    fifo = stress.path("fifo")
    os.mkfifo(fifo)
    keeper = os.open(fifo, os.O_RDWR)
    for command in COMMANDS:
        for path in (stress.folder, fifo, "/dev/zero"):
            seen = stress.run(words_for(command, path), with_memory(2_000_000), seconds=20)
            is_right = is_failure(seen, b"")
            if path == "/dev/zero":
                endless = Result(b"", b"warc: M3 TooLong\n", 3)
                refused = seen.status == 2 and seen.message.startswith(b"warc: F1 Version at 0\n")
                is_right = is_right or (seen == endless if command[0] == "write" else refused)
            stress.judge(is_right, (*command, path), seen)
        for path in (stress.path("missing"), "", stress.archive + "/", "x" * 5000):
            seen = stress.run(words_for(command, path))
            stress.judge(seen == Result(b"", b"warc: open failed\n", 3), (*command, path), seen)
        if command[0] != "write":
            seen = stress.run(words_for(command, "/dev/null"))
            wanted = (
                Result(*warc_reference.run(command[0], b"", [word.encode() for word in command[1:]]))
                if command[0] != "split"
                else Result(b"", b"", 0)
            )
            stress.judge(seen == wanted, (*command, "/dev/null"), seen)
    os.close(keeper)
    stress.end()


def dashed(words: Sequence[str]) -> List[str]:
    """The words with -- before those that aren't flags."""
    flags = [word for word in words if word in generate.FLAGS]
    return [words[0], *flags, "--", *(word for word in words[1:] if word not in flags)]


def odd_names(stress: Stress) -> None:
    """Names with dashes, spaces, a line end, and bytes that aren't UTF-8."""
    stress.begin("odd names")
    here = os.getcwd()
    os.chdir(stress.folder)
    names = ("-", "-a", "--help", "--", "a b", "a\nb", " ", "\u00fc", "'\"$x`", "*", "~")
    for name in names:
        shutil.copy(stress.archive, "./" + name)
    raw = b"\xff.warc"
    shutil.copy(stress.archive.encode(), os.path.join(stress.folder.encode(), raw))
    for command in COMMANDS:
        for name in names:
            seen = stress.run(words_for(command, "./" + name))
            stress.judge(seen == stress.expected[command], (*command, "./" + name), seen)
            if name == "-":
                continue
            words = dashed(words_for(command, name))
            seen = stress.run(words)
            stress.judge(seen == stress.expected[command], words, seen)
        seen = stress.run([word if word != "RAW" else raw for word in words_for(command, "RAW")])
        stress.judge(seen == Result(b"", b"warc: the arguments aren't text\n", 3), (*command, raw), seen)
        with open(raw, "rb") as file:
            seen = stress.run(words_for(command, "-"), stdin=file)
        stress.judge(seen == stress.expected[command], (*command, "- <", raw), seen)
    os.chdir(here)
    stress.end()


def standard_input(stress: Stress) -> None:
    """- through a pipe, a slow pipe, a socket and a redirected file, also where it isn't at its beginning."""
    stress.begin("standard input")
    for command in COMMANDS:
        words, wanted = words_for(command, "-"), stress.expected[command]
        for feed in (feed_all, feed_slowly):
            seen = stress.run_piped(words, stress.data, feed)
            stress.judge(seen == wanted, (*words, feed.__name__), seen)
        with open(stress.archive, "rb") as file:
            seen = stress.run(words, stdin=file)
            stress.judge(seen == wanted, (*words, "<"), seen)
            file.seek(1000)
            seen = stress.run(words, stdin=file)
            stress.judge(seen == wanted, (*words, "< from the middle"), seen)
        seen = run_over_socket(stress, words)
        stress.judge(seen == wanted, (*words, "a socket"), seen)
        seen = stress.run(words, ["bash", "-c", 'exec "$@" <&-', "bash"])
        stress.judge(is_failure(seen, wanted.out), (*words, "<&-"), seen)
    stress.end()


def run_over_socket(stress: Stress, words: Words) -> Result:
    ours, theirs = socket.socketpair()
    writer = threading.Thread(target=feed_all, args=(ours.makefile("wb"), stress.data))
    writer.start()
    with theirs:

        def close() -> None:
            writer.join()
            ours.close()

        closer = threading.Thread(target=close)
        closer.start()
        seen = stress.run(words, stdin=theirs.fileno())
    closer.join()
    return seen


def changing_files(stress: Stress) -> None:
    """The file is cut, or grows, while the reader of the output waits."""
    stress.begin("files that change")
    block = b"0123456789abcdef" * 500_000
    data = record_text("resource", FIRST_ID, block)
    data += record_text("resource", LAST_ID, b"abc", (("WARC-Payload-Digest", "x"),))
    for command in COMMANDS:
        if command[0] in SHORT:
            continue
        for way in ("cut", "grow"):
            stress.judge(*change_while_read(stress, command, data, way))
    for command in [command for command in COMMANDS if command[0] in SHORT]:
        for way in ("cut", "grow"):
            stress.judge(*change_while_opened(stress, command, data, way))
    stress.end()


def change(path: str, data: bytes, way: str) -> None:
    """Cuts the file in the middle, or appends a record to it."""
    with open(path, "r+b") as file:
        if way == "cut":
            file.truncate(len(data) // 2)
        else:
            file.seek(0, os.SEEK_END)
            file.write(record_text("resource", "urn:x:new", b"new"))


def change_while_read(stress: Stress, command: Command, data: bytes, way: str) -> Tuple[bool, Sequence[object], Result]:
    """Changes the file when the first bytes of the output have arrived."""
    path = stress.file("changing.warc", data)
    whole = stress.run(words_for(command, path)).out
    child = subprocess.Popen(
        [stress.program, *words_for(command, path)],
        stdin=subprocess.DEVNULL,
        stdout=subprocess.PIPE,
        stderr=subprocess.PIPE,
    )
    with end_of(child.stdout) as pipe, end_of(child.stderr) as errors:
        got = pipe.read(1000)
        change(path, data, way)
        got += pipe.read()
        message, status = errors.read(), child.wait(MOST_SECONDS)
    seen = Result(got, message, status)
    is_right = is_failure(seen, whole) or (status == 0 and got.startswith(whole))
    if way == "cut" and command[0] == "salvage":
        is_right = is_right or (status in (2, 3) and whole.startswith(got))
    return is_right, (*command, way), seen


def change_while_opened(
    stress: Stress, command: Command, data: bytes, way: str
) -> Tuple[bool, Sequence[object], Result]:
    """Changes the file while its reads are made slow."""
    path = stress.file("changing.warc", data)
    before_change = stress.run(words_for(command, path))
    slow = ["strace", "-f", "-o", "/dev/null", "-P", path, "-e", "inject=read,pread64:delay_enter=10000"]
    timer = threading.Timer(0.3, change, (path, data, way))
    timer.start()
    seen = stress.run(words_for(command, path), slow)
    timer.join()
    after_change = stress.run(words_for(command, path))
    is_right = seen in (before_change, after_change) or is_failure(seen, before_change.out)
    return is_right, (*command, way), seen


def two_at_once(stress: Stress) -> None:
    stress.begin("two runs at once")
    for command in COMMANDS:
        children = [
            subprocess.Popen(
                [stress.program, *words_for(command, stress.archive)],
                stdin=subprocess.DEVNULL,
                stdout=subprocess.PIPE,
                stderr=subprocess.PIPE,
            )
            for _ in range(2)
        ]
        for child in children:
            out, message = child.communicate(timeout=MOST_SECONDS)
            seen = Result(out, message, child.returncode)
            stress.judge(seen == stress.expected[command], command, seen)
    stress.end()


# A record of five billion bytes


def sparse_archive(stress: Stress) -> Tuple[str, bytes, bytes]:
    """A record whose block is a hole in the file, and a small record after it. Returns the path and the parts."""
    head = record_text("resource", FIRST_ID, b"").replace(
        b"Content-Length: 0\r\n\r\n\r\n\r\n", b"Content-Length: %d\r\n\r\n" % SPARSE_BLOCK
    )
    last = record_text("metadata", LAST_ID, b"abc")
    path = stress.path("sparse.warc")
    with open(path, "wb") as file:
        file.write(head)
        file.truncate(len(head) + SPARSE_BLOCK)
        file.seek(0, os.SEEK_END)
        file.write(b"\r\n\r\n" + last)
    return path, head, last


def count_output(stress: Stress, words: Words) -> Tuple[bytes, bytes, int, bytes, int]:
    """Runs the program, and gives the first and last bytes of its output, its length, the message and the status."""
    child = subprocess.Popen(
        [stress.program, *words], stdin=subprocess.DEVNULL, stdout=subprocess.PIPE, stderr=subprocess.PIPE, bufsize=0
    )
    first, last, length = b"", b"", 0
    with end_of(child.stdout) as pipe, end_of(child.stderr) as errors:
        while True:
            piece = pipe.read(1 << 20)
            if not piece:
                break
            first = (first + piece)[:1000]
            last = (last + piece)[-1000:]
            length += len(piece)
        message = errors.read()
    return first, last, length, message, child.wait()


def sparse_summary(length: int) -> bytes:
    """What `summary` gives of both records, which have this length."""
    counts = (2, length, 0, 0, 1, 0, 1, 0, 0, 0, 0, 1, 0, 0, 2, 0, 0)
    names = (
        b"records bytes warcinfo response resource request metadata revisit conversion continuation other captures"
        b" good bad unchecked truncated segmented"
    ).split()
    lines = [b"%s\t%d\n" % pair for pair in zip(names, counts)]
    return b"".join(lines) + b"first date\t2020-01-01\nlast date\t2020-01-01\n"


def short_answers(head: bytes, last: bytes) -> Dict[Command, Result]:
    """What commands give that don't write the large block."""
    place, date, target = len(head) + SPARSE_BLOCK + 4, b"2020-01-01", TARGET.encode()
    row = b"0\t0\t%d\tresource\t%s\t<%s>\t%s\n" % (SPARSE_BLOCK, date, FIRST_ID.encode(), target)
    row += b"1\t%d\t3\tmetadata\t%s\t<%s>\t%s\n" % (place, date, LAST_ID.encode(), target)
    capture = b"0\t%s\t%sT00:00:00.000000000Z\tresource\t0\t-\t-\t%d\t-\t%s\n" % (date, date, SPARSE_BLOCK, target)
    unchecked = b"0\tunchecked\t%s\t-\n1\tunchecked\t%s\t-\n" % (FIRST_ID.encode(), LAST_ID.encode())
    return {
        ("list",): Result(row, b"", 0),
        ("check",): Result(b"0 N7\n1 N7\n", b"", 1),
        ("fixity",): Result(unchecked + b"records 2 good 0 bad 0 unchecked 2\n", b"", 4),
        ("fixity", "--payload"): Result(b"records 0 good 0 bad 0 unchecked 0\n", b"", 4),
        ("head", "0"): Result(head, b"", 0),
        ("head", "1"): Result(last[:-7], b"", 0),
        ("block", "1"): Result(b"abc", b"", 0),
        ("extract", LAST_ID): Result(b"abc", b"", 0),
        ("body", "1"): Result(b"", b"warc: E2 NoCapture\n", 1),
        ("captures",): Result(capture, b"", 0),
        ("summary",): Result(sparse_summary(place + len(last)), b"", 0),
    }


def long_answers(head: bytes, last: bytes) -> Dict[Command, Tuple[bytes, bytes, bytes]]:
    """How the output of commands that write the large block begins and ends, and their messages."""
    body = b"chosen 0 given 0 status - truncated no length %d\n" % SPARSE_BLOCK
    good = b"warc: good 2 records, %d bytes\n" % (len(head) + SPARSE_BLOCK + 4 + len(last))
    converted = head.replace(b"WARC/1.0", b"WARC/1.1"), last.replace(b"WARC/1.0", b"WARC/1.1")
    return {
        ("block", "0"): (b"", b"", b""),
        ("extract", FIRST_ID): (b"", b"", b""),
        ("body", "0"): (b"", b"", body),
        ("replay", TARGET, "9999"): (b"", b"", body),
        ("rewrite",): (head, b"\r\n\r\n" + last, b""),
        ("convert",): (converted[0], b"\r\n\r\n" + converted[1], b""),
        ("salvage",): (head, b"\r\n\r\n" + last, good),
    }


def large_record(stress: Stress) -> None:
    stress.begin("a record of 5,000,000,000 bytes")
    path, head, last = sparse_archive(stress)
    for command, wanted in short_answers(head, last).items():
        seen = stress.run(words_for(command, path), seconds=600)
        stress.judge(seen == wanted, command, seen)
    for command, (begins, ends, message) in long_answers(head, last).items():
        counted = count_output(stress, words_for(command, path))
        length = len(begins) + SPARSE_BLOCK + len(ends)
        is_right = counted == (begins.ljust(1000, b"\0"), ends.rjust(1000, b"\0"), length, message, 0)
        stress.judge(is_right, command, "%d bytes, message %r, status %d" % counted[2:])
    split_large_record(stress, path)
    seen = stress.run(words_for(("write",), path), with_memory(2_000_000), seconds=600)
    stress.judge(is_failure(seen, b""), ("write", "2 GB of memory"), seen)
    os.remove(path)
    stress.end()


def split_large_record(stress: Stress, path: str) -> None:
    """A first segment of over 2^32 bytes; what is split is listed from a pipe."""
    script = '"$0" split "$1" %d | "$0" list -' % SPLIT_SIZE
    done = subprocess.run(
        ["bash", "-o", "pipefail", "-c", script, stress.program, path],
        capture_output=True,
        stdin=subprocess.DEVNULL,
        check=False,
    )
    rows = [line.split(b"\t") for line in done.stdout.splitlines()]
    seen = [(int(row[2]), row[3]) for row in rows]
    wanted = [(SPLIT_SIZE, b"resource"), (SPARSE_BLOCK - SPLIT_SIZE, b"continuation"), (3, b"metadata")]
    is_right = seen == wanted and (done.returncode, done.stderr) == (0, b"") and int(rows[1][1]) > SPLIT_SIZE
    stress.judge(is_right, script, (done.returncode, done.stderr, done.stdout))


KINDS = (
    plain_runs,
    failing_system_calls,
    failing_piped_reads,
    full_device,
    full_disks,
    closed_outputs,
    reader_goes_away,
    file_size_limit,
    memory_limit,
    odd_files,
    odd_names,
    standard_input,
    changing_files,
    two_at_once,
    large_record,
)


def main(program: str) -> int:
    root = os.path.join(TOP, "out", "stress")
    os.makedirs(root, exist_ok=True)
    folder = tempfile.mkdtemp(prefix="system-", dir=root)
    resource.setrlimit(resource.RLIMIT_CORE, (0, 0))
    stress = Stress(program, folder)
    try:
        for kind in KINDS:
            kind(stress)
    finally:
        shutil.rmtree(folder)
    print(
        "system: %d kinds, %d tried, %d surprises"
        % (len(stress.tried), sum(stress.tried.values()), sum(stress.surprises.values()))
    )
    return 1 if stress.surprises else 0


if __name__ == "__main__":
    sys.exit(main(sys.argv[1]))
