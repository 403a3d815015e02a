#!/usr/bin/env python3
"""Runs the program on a terminal: the line of progress, that it goes away, and the lines for people.

    python3 tests/stress/terminal.py WARC

Standard error is a terminal of its own, and the reads are made slow by strace or by a pipe that is fed slowly. What a
terminal shows at the end must be the fixed lines, and after them the lines for people; output and status don't change.
What an archive or a path holds can't control the terminal: it gets no control character but those of a line, and words
that a hint suggests are those that a shell reads.
Prints a line for each kind of trial, each surprise, and last the totals. The exit status is 1 if there was a surprise.
"""
import gzip
import os
import pty
import re
import select
import shlex
import shutil
import subprocess
import sys
import tempfile
import threading
import time
from typing import IO, Iterator, List, Optional, Sequence, Tuple, Union

import generate
import system
from system import COMMANDS, Result, Stress, contents, words_for

DELAY = 400_000
SLOW_READS = 5
FIRST = 1.0
EACH = 0.25
WITH_TOTAL = re.compile(rb"\d+ of \d+ MB, \d+ MB/s, \d+ s left")
WITHOUT_TOTAL = re.compile(rb"\d+ MB, \d+ MB/s")
OF_OUTPUT = re.compile(rb"\d+ MB read, \d+ MB written")
ERASE = b"\r\x1b[K"


def screen(data: bytes) -> List[bytes]:
    """The lines that a terminal shows after these bytes. It knows a carriage return, a line feed and `erase`."""
    lines, place, at = [b""], 0, 0
    while at < len(data):
        if data.startswith(b"\x1b[K", at):
            lines[-1] = lines[-1][:place]
            at += 3
            continue
        byte = data[at : at + 1]
        at += 1
        if byte == b"\r":
            place = 0
        elif byte == b"\n":
            lines.append(b"")
            place = 0
        else:
            lines[-1] = lines[-1][:place] + byte + lines[-1][place + 1 :]
            place += 1
    return lines


class Terminal:
    """A terminal, and the bytes that it got."""

    def __init__(self) -> None:
        self.ours, self.theirs = pty.openpty()
        self.data = b""
        self.is_done = False
        self.reader = threading.Thread(target=self.read)
        self.reader.start()

    def read(self) -> None:
        while True:
            ready = select.select([self.ours], [], [], 0.1)[0]
            if ready:
                self.data += os.read(self.ours, 65536)
            elif self.is_done:
                return

    def close(self) -> bytes:
        """Waits for what is on its way. Returns all bytes."""
        self.is_done = True
        self.reader.join()
        os.close(self.theirs)
        os.close(self.ours)
        return self.data


def run(
    stress: Stress,
    words: Sequence[str],
    before: Sequence[str] = (),
    stdin: Union[int, IO[bytes]] = subprocess.DEVNULL,
    is_out_shown: bool = False,
    folder: Optional[str] = None,
) -> Tuple[Result, float]:
    """Runs the program in a folder with standard error on a terminal. Returns the result and the seconds."""
    terminal = Terminal()
    begun = time.monotonic()
    with open(stress.path("out"), "wb") as out:
        done = subprocess.run(
            [*before, stress.program, *words],
            stdin=stdin,
            check=False,
            cwd=folder,
            stdout=terminal.theirs if is_out_shown else out,
            stderr=terminal.theirs,
        )
    seconds = time.monotonic() - begun
    return Result(contents(stress.path("out")), terminal.close(), done.returncode), seconds


def slow(stress: Stress, path: str, first: int = 1) -> List[str]:
    """The words that make the first reads of a file slow, or those from another one on."""
    return [
        "strace",
        "-f",
        "-o",
        stress.path("log"),
        "-P",
        path,
        "-e",
        "trace=read,pread64",
        "-e",
        "inject=read,pread64:delay_enter=%d:when=%d..%d" % (DELAY, first, first + SLOW_READS - 1),
    ]


def judge_progress(
    stress: Stress,
    words: Sequence[str],
    seen: Result,
    seconds: float,
    wanted: Result,
    form: "re.Pattern[bytes]" = WITH_TOTAL,
) -> None:
    """There was progress, not too often, and nothing of it is left."""
    frames = [frame for frame in seen.message.split(ERASE) if form.fullmatch(frame)]
    shown = [frame for frame in seen.message.split(ERASE)[1:-1] if frame and not OF_OUTPUT.fullmatch(frame)]
    others = [frame for frame in shown if not form.fullmatch(frame)]
    left = b"\n".join(screen(seen.message))
    is_right = (seen.out, left, seen.status) == (wanted.out, wanted.message, wanted.status) and not others
    is_right = is_right and len(frames) <= seconds / EACH and (frames != [] or seconds < FIRST + 3 * DELAY / 1e6)
    stress.judge(is_right, (*words, "%.1f s, %d frames" % (seconds, len(frames))), seen)


def progress(stress: Stress) -> None:
    stress.begin("progress on a terminal")
    damaged = stress.file("damaged.warc", stress.data + b"WARC/1.1\r\n")
    refusal = b"warc: F11 Truncated at %d\n" % (len(stress.data) + 10)
    refusal += b"to see what is whole: warc pieces %s\n" % damaged.encode()
    for command in COMMANDS:
        words = words_for(command, stress.archive)
        seen, seconds = run(stress, words, slow(stress, stress.archive))
        judge_progress(stress, words, seen, seconds, stress.expected[command])
        if command[0] not in ("write", "salvage"):
            words = words_for(command, damaged)
            seen, seconds = run(stress, words, slow(stress, damaged))
            judge_progress(stress, words, seen, seconds, Result(b"", refusal, 2))
    stress.end()


def output_progress(stress: Stress) -> None:
    """What follows the reading may take long, too: here nobody reads the output for some time."""
    stress.begin("progress of an output")
    path = stress.file("many.warc", b"".join(system.record_text("resource", "urn:x:%d" % n, b"") for n in range(3000)))
    for command in ("captures", "survey"):
        wanted = stress.run([command, path])
        terminal = Terminal()
        child = subprocess.Popen([stress.program, command, path], stdout=subprocess.PIPE, stderr=terminal.theirs)
        assert child.stdout
        time.sleep(FIRST + EACH)
        out = child.stdout.read()
        seen = Result(out, terminal_end(terminal, child), child.wait())
        frames = [frame for frame in seen.message.split(ERASE) if OF_OUTPUT.fullmatch(frame)]
        is_right = (seen.out, screen(seen.message), seen.status) == (wanted.out, [b""], wanted.status)
        stress.judge(is_right and len(wanted.out) > 1 << 17 and frames != [], (command, "slowly read"), seen)
    stress.end()


def progress_of_payloads(stress: Stress) -> None:
    """Payloads are read once the whole archive was."""
    stress.begin("progress of a second reading")
    path = stress.file("payloads.warc", b"".join(payload(number) for number in range(4)))
    words = ["fixity", "--payload", path]
    wanted = stress.run(words)
    run(stress, ["list", path], slow(stress, path, 1 << 15))
    with open(stress.path("log"), encoding="ascii", errors="replace") as log:
        reads = sum("read" in line for line in log)
    seen, seconds = run(stress, words, slow(stress, path, reads + 1))
    judge_progress(stress, words, seen, seconds, wanted)
    stress.judge(reads > 1 and seconds > SLOW_READS * DELAY / 1e6, (*words, "%d reads before" % reads), seen)
    stress.end()


def payload(number: int) -> bytes:
    """A record of a megabyte, whose payload has a digest."""
    block = b"%d" % number * 1_000_000
    digest = (("WARC-Payload-Digest", generate.sha1_text(block)),)
    text: bytes = system.record_text("resource", "urn:x:%d" % number, block, digest)
    return text


def terminal_end(terminal: Terminal, child: "subprocess.Popen[bytes]") -> bytes:
    """What a terminal got until a program ended."""
    child.wait()
    return terminal.close()


def piped_progress(stress: Stress) -> None:
    """A pipe has no length."""
    stress.begin("progress over a pipe")
    for command in (("list",), ("check",), ("fixity",), ("replay", system.TARGET, "9999")):
        ours, theirs = os.pipe()

        def feed(end: int = theirs) -> None:
            with open(end, "wb", buffering=0) as pipe:
                for start in range(0, len(stress.data), 50_000):
                    pipe.write(stress.data[start : start + 50_000])
                    time.sleep(0.4)

        writer = threading.Thread(target=feed)
        writer.start()
        words = words_for(command, "-")
        seen, seconds = run(stress, words, stdin=ours)
        os.close(ours)
        writer.join()
        if command[0] == "replay":
            left = b"\n".join(screen(seen.message))
            wanted = stress.expected[command]
            stress.judge((seen.out, left, seen.status) == tuple(wanted), words, seen)
        else:
            judge_progress(stress, words, seen, seconds, stress.expected[command], WITHOUT_TOTAL)
    stress.end()


def no_progress(stress: Stress) -> None:
    """None with --quiet, none where standard output is a terminal too, none in a short run."""
    stress.begin("no progress")
    for command in (("check",), ("replay", system.TARGET, "9999")):
        words, wanted = words_for(command, stress.archive), stress.expected[command]
        message = wanted.message.replace(b"\n", b"\r\n")
        seen, _ = run(stress, [words[0], "--quiet", *words[1:]], slow(stress, stress.archive))
        stress.judge(seen == wanted._replace(message=message), (*words, "--quiet"), seen)
        seen, seconds = run(stress, words)
        is_right = seen == wanted._replace(message=message) or seconds > FIRST
        stress.judge(is_right, (*words, "in a short run"), seen)
    words, wanted = words_for(("check",), stress.archive), stress.expected["check",]
    seen, _ = run(stress, words, slow(stress, stress.archive), is_out_shown=True)
    is_right = seen == Result(b"", (wanted.out + wanted.message).replace(b"\n", b"\r\n"), wanted.status)
    stress.judge(is_right, (*words, "both on the terminal"), seen)
    stress.end()


def lines_for_people(stress: Stress) -> None:
    """After the fixed line: the path and the reason of the system, or how a compressed archive is read."""
    stress.begin("lines for people")
    packed = stress.file("packed.warc.gz", gzip.compress(stress.data))
    missing = stress.path("missing")
    for command in COMMANDS:
        cases = [(missing, b"warc: open failed", 3, "%s: No such file or directory (os error 2)" % missing)]
        if command[0] != "write":
            at = b"warc: F13 Read at 0"
            cases += [(stress.folder, at, 3, "%s: Is a directory (os error 21)" % stress.folder)]
            line = "this looks like gzip: zwarc %s" % shlex.join(words_for(command, packed))
            cases += [(packed, b"warc: F1 Version at 0", 2, line)]
        for path, fixed, status, hint in cases:
            words = words_for(command, path)
            seen, _ = run(stress, words)
            lines = screen(seen.message)
            if command[0] == "salvage" and fixed.startswith(b"warc: F"):
                lines = lines[:1] + lines[2:]
            is_right = (seen.out, seen.status, lines) == (b"", status, [fixed, hint.encode(), b""])
            stress.judge(is_right, words, seen)
            plain = stress.run(words)
            stress.judge(hint.encode() not in plain.message, (*words, "no terminal"), plain)
    stress.end()


HOSTILE_TEXTS = (
    "http://a.example/\u009b31mred",
    "http://a.example/\u202egpj.exe",
    "http://a.example/\u2066\u2069",
    "http://a.example/\u061c\u200e\u200f\u2028\u2029",
    "http://a.example/\\u{9b}",
    "http://a.example/\x80\xff",
)
HOSTILE_BYTES = (
    b"http://a.example/\x9b31m",
    b"http://a.example/\xe2\x82",
    b"http://a.example/\xe2\x82\xe2\x82\xac",
    b"http://a.example/\xf0\x9f\x98",
    b"http://a.example/\xc0\x80\xed\xa0\x80\xf5",
)
HOSTILE_BLOCK = (
    b"HTTP/1.1 200 OK\r\nContent-Encoding: x\xc2\x9b31m\xe2\x80\xae\x9b\r\n\r\n"
    b"\x1b]0;owned\x07\x00\x7f\r\r\n\rover\n\x9b\xe2\x82\r"
)
HOSTILE_ID = "urn:x:hostile"
NAMES = (
    "x; id >owned #.warc",
    "it's",
    "two  words",
    "$(id)`id`",
    "a\nwarc: forged",
    "\x1b]0;owned\x07",
    "\u009b31m",
    "\u202egpj.exe",
    "\\033",
    "-a.warc",
    "~",
    "é",
    "a\tb",
    "*",
    "'\x1b'\\",
)


def hostile_archive() -> bytes:
    """Targets that would control a terminal, and multibyte characters that the program's writes cut at each place."""
    texts = [text.encode() for text in HOSTILE_TEXTS] + list(HOSTILE_BYTES)
    texts += [
        b"http://a.example/" + b"-" * (count % 7) + "\u20ac\U0001f600\u00e9\u009b".encode() * 40 for count in range(60)
    ]
    data = b""
    for number, text in enumerate(texts):
        fields = (("WARC-Payload-Digest", system.TARGET),)
        head = system.record_text("resource", "urn:x:%d" % number, b"", fields)
        data += head.replace(system.TARGET.encode(), text)
    more = (("Content-Type", "application/http; msgtype=response"),)
    last: bytes = system.record_text("response", HOSTILE_ID, HOSTILE_BLOCK, more)
    return data + last


def shown(data: bytes) -> bytes:
    """The bytes that a terminal gets of a text."""
    text = data.decode("utf-8", "backslashreplace").replace("\r\n", "\ue000")

    def escaped(match: "re.Match[str]") -> str:
        return "\\u{%x}" % ord(match[0])

    text = re.sub("[\x00-\x08\x0b-\x1f\x7f-\x9f\u061c\u200e\u200f\u2028-\u202e\u2066-\u2069]", escaped, text)
    return text.replace("\ue000", "\r\n").encode().replace(b"\n", b"\r\n")


def hostile_contents(stress: Stress) -> None:
    """On a terminal what an archive holds is escaped, but for the commands that give what was captured."""
    stress.begin("hostile contents")
    path = stress.file("hostile.warc", hostile_archive())
    last = str(len(HOSTILE_TEXTS) + len(HOSTILE_BYTES) + 60)
    for words in (
        ("list",),
        ("check",),
        ("captures",),
        ("fixity",),
        ("fixity", "--payload"),
        ("summary",),
        ("survey",),
        ("head", "0"),
        ("head", "6"),
        ("rewrite",),
        ("convert",),
        ("salvage",),
        ("split", "9"),
    ):
        plain = stress.run(words_for(words, path))
        seen, _ = run(stress, words_for(words, path), is_out_shown=True)
        stress.judge(seen.message == shown(plain.out) + shown(plain.message), (*words, "escaped"), seen)
        stress.judge(len(plain.out) > 0 and seen.status == plain.status, (*words, "status"), seen)
    for words in (("block", last), ("extract", HOSTILE_ID), ("body", last, "--stored")):
        plain = stress.run(words_for(words, path))
        seen, _ = run(stress, words_for(words, path), is_out_shown=True)
        stress.judge(
            seen.message == plain.out.replace(b"\n", b"\r\n") + shown(plain.message), (*words, "as it is"), seen
        )
    stress.end()


def hostile_messages(stress: Stress) -> None:
    """On a terminal a message that quotes an archive or a word is escaped."""
    stress.begin("hostile messages")
    path = stress.file("hostile.warc", hostile_archive())
    last = str(len(HOSTILE_TEXTS) + len(HOSTILE_BYTES) + 60)
    for words in (("body", path, last, "--stored"), ("list", path, "x\u009b31m\x1b[2J\u202e"), ("\u009b\x1b[2J", path)):
        plain = stress.run(words)
        seen, _ = run(stress, words)
        is_right = seen.message == shown(plain.message) and seen.out == plain.out
        stress.judge(is_right and b"\xc2\x9b" in plain.message, words, seen)
    stress.end()


def read_by_shell(line: str, folder: str) -> List[bytes]:
    """The words that bash reads in a line. A wrong line may do anything in the folder."""
    done = subprocess.run(["bash", "-c", "printf '%%s\\0' %s" % line], capture_output=True, check=False, cwd=folder)
    return done.stdout.split(b"\0")[:-1]


def hostile_names(stress: Stress) -> None:
    """The words of a hint are those that the program was run with, and nothing in them controls the terminal."""
    stress.begin("hostile names")
    for name in NAMES:
        path = stress.file(name, gzip.compress(stress.data))
        for words in (("list", path), ("list", "--", name), ("replay", "--quiet", path, name.lstrip("-"), "9999")):
            seen, _ = run(stress, words, folder=stress.folder)
            line = seen.message.split(b"\r\n")[1]
            begin = b"this looks like gzip: zwarc "
            read = read_by_shell(line[len(begin) :].decode(), stress.folder)
            is_right = line.startswith(begin) and read == list(map(os.fsencode, words))
            stress.judge(is_right and shown(line) == line, words, seen)
        seen, _ = run(stress, ("list", path + "/missing"))
        line = seen.message.split(b"\r\n")[1]
        reason = b": Not a directory (os error 20)"
        read = read_by_shell(line[: -len(reason)].decode(), stress.folder)
        is_right = line.endswith(reason) and read == [os.fsencode(path + "/missing")]
        stress.judge(is_right and shown(line) == line, (path, "missing"), seen)
    stress.end()


def revisit_archive(stated: str, revisited: str) -> bytes:
    """A resource and a revisit of it, each with a payload digest or with none."""
    first = [("WARC-Payload-Digest", stated)] if stated else []
    second = [("WARC-Payload-Digest", revisited)] if revisited else []
    profile = [("WARC-Profile", generate.PROFILES[0]), ("WARC-Refers-To", "<%s>" % system.FIRST_ID)]
    origin: bytes = system.record_text("resource", system.FIRST_ID, b"abc", first)
    revisit: bytes = system.record_text("revisit", system.LAST_ID, b"", profile + second)
    return origin + revisit


def hints_wanted(stress: Stress) -> Iterator[Tuple[Sequence[str], Optional[str], Optional[str]]]:
    """Words, standard input, and the line that a hint adds, or none."""
    packed = stress.file("packed.warc.gz", gzip.compress(stress.data))
    missing = stress.path("missing")
    earliest = "the earliest capture of this URI is of 2020-01-01"
    in_hex = ("--uri-hex", system.TARGET.encode().hex())
    yield ("list", "--hints", missing), None, "%s: No such file or directory (os error 2)" % missing
    yield ("check", packed, "--hints"), None, "this looks like gzip: zwarc check %s --hints --quiet" % packed
    package = stress.file("package.wacz", b"PK\x03\x04")
    yield ("list", package, "--hints"), None, "this looks like ZIP: zwarc list %s --hints" % package
    yield ("list", "--hints", stress.archive), None, None
    yield ("list", "--hints", stress.file("empty.warc", b"")), None, "the file is empty: an archive of no records"
    yield ("replay", "--hints", stress.archive, system.TARGET, "1999"), None, earliest
    yield ("replay", "--hints", stress.archive, *in_hex, "1999"), None, earliest
    yield ("replay", "--hints", "-", system.TARGET, "1999"), stress.archive, earliest
    yield ("replay", "--hints", stress.archive, "http://nowhere.example/", "1999"), None, None
    for count, (stated, revisited) in enumerate(
        (("sha1:A", "sha1:B"), ("sha1:A", "sha1:A"), ("sha1:A", ""), ("", "sha1:B"))
    ):
        path = stress.file("revisit%d.warc" % count, revisit_archive(stated, revisited))
        line = "record 1 states another payload digest than record 0, whose body was given" if count == 0 else None
        yield ("body", "--hints", path, "1"), None, line
        yield ("body", "--hints", path, "0"), None, None
        yield ("replay", "--hints", path, system.TARGET, "9999"), None, line


def hints_flag(stress: Stress) -> None:
    """With --hints the lines for people are written also where standard error is no terminal, and else only on one."""
    stress.begin("hints")
    for words, standard, line in hints_wanted(stress):
        words = [*words, "--quiet"]
        plain_words = [word for word in words if word != "--hints"]
        results = []
        for tried in (words, plain_words):
            with open(standard or os.devnull, "rb") as source:
                results.append(stress.run(tried, stdin=source))
        hinted, plain = results
        added = (line + "\n").encode() if line else b""
        stress.judge(hinted == plain._replace(message=plain.message + added), words, hinted)
        with open(standard or os.devnull, "rb") as source:
            seen, _ = run(stress, plain_words, stdin=source)
        added = added.replace(b" --hints", b"")
        shows = (plain.message + added).replace(b"\n", b"\r\n")
        stress.judge(seen == plain._replace(message=shows), plain_words, seen)
    stress.end()


def many_archives(stress: Stress) -> None:
    """A command that takes one archive says how it is done for many; of what looks like an option it says nothing."""
    stress.begin("many archives")
    for command in ("list", "check", "fixity", "summary"):
        for words, is_hinted in (([stress.archive] * 2, True), ([stress.archive, "-v"], False)):
            line = 'one archive at a time: for file in *.warc; do warc %s "$file"; done\r\n' % command
            added = line.encode() + b"warc-collection checks many archives\r\n" if is_hinted else b""
            plain = stress.run([command, *words])
            seen, _ = run(stress, [command, *words])
            wanted = plain.message.replace(b"\n", b"\r\n") + added
            stress.judge((seen.status, seen.message) == (3, wanted), (command, *words), seen)
    stress.end()


def help_texts(stress: Stress) -> None:
    """Each line of help fits into 78 columns."""
    stress.begin("help")
    for command in [(), *sorted({command[:1] for command in COMMANDS}), ("explain",), ("instant",)]:
        seen = stress.run([*command, "--help"])
        widest = max(map(len, seen.out.decode().splitlines()))
        stress.judge(seen.status == 0 and widest <= 78, (*command, "--help", "%d columns" % widest), seen)
    stress.end()


KINDS = (
    system.plain_runs,
    progress,
    output_progress,
    progress_of_payloads,
    piped_progress,
    no_progress,
    lines_for_people,
    hostile_contents,
    hostile_messages,
    hostile_names,
    hints_flag,
    many_archives,
    help_texts,
)


def main(program: str) -> int:
    root = os.path.join(system.TOP, "out", "stress")
    os.makedirs(root, exist_ok=True)
    folder = tempfile.mkdtemp(prefix="terminal-", dir=root)
    stress = Stress(program, folder)
    try:
        for kind in KINDS:
            kind(stress)
    finally:
        shutil.rmtree(folder)
    print(
        "terminal: %d kinds, %d tried, %d surprises"
        % (len(stress.tried), sum(stress.tried.values()), sum(stress.surprises.values()))
    )
    return 1 if stress.surprises else 0


if __name__ == "__main__":
    sys.exit(main(sys.argv[1]))
