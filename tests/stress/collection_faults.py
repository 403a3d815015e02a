#!/usr/bin/env python3
"""Runs warc-collection where something fails: no room, no program, killed processes, torn files, hostile names.

    python3 tests/stress/collection_faults.py WARC [PART ..]

Prints a line for each part, each surprise, and last a line with the totals. The exit status is 1 if there was a
surprise. Needs root, mount, setpriv, strace, zstd and GNU parallel; PostgreSQL is left out where it isn't installed,
and the undoing of codings where `make python` wasn't run.
"""
from __future__ import annotations

import collections
import contextlib
import glob
import gzip
import json
import os
import random
import re
import shutil
import signal
import socket
import sqlite3
import stat
import string
import subprocess
import sys
import tempfile
import threading
import time
from typing import Callable, Counter, Dict, Iterator, List, Tuple

from collection_trial import PACKAGE, TOP, Trial, put, put_script, record, running_with, to_read

URI = b"http://a.example/"
DATE = "2020-01-01T00:00:00Z"
NO_BYTES = "sha1:3I42H3S6NNFQ2MSVX7XZKYAYSCX5QBYJ"
REVISIT = "http://netpreserve.org/warc/1.1/revisit/identical-payload-digest"
HEAD = b"HTTP/1.1 200 OK\r\nContent-Type: text/html\r\n\r\n"
# root without the right to open each file, as a machine whose disk refuses to read one
LESS = ("setpriv", "--bounding-set=-dac_override,-dac_read_search", "--inh-caps=-dac_override,-dac_read_search")


def page(number: int = 1, block: bytes = b"abc", target: bytes = URI, date: str = DATE) -> bytes:
    return record("resource", number, date, target, block)


@contextlib.contextmanager
def small_disk(folder: str, size: str) -> Iterator[str]:
    """A disk in memory, of a size."""
    os.makedirs(folder, exist_ok=True)
    subprocess.run(["mount", "-t", "tmpfs", "-o", "size=" + size, "tmpfs", folder], check=True)
    try:
        yield folder
    finally:
        subprocess.run(["umount", folder], check=True)


# Wrong or lost answers


def no_room(trial: Trial) -> None:
    """A compressed file without room to unpack is no good file, is named, and is read again."""
    folder = trial.path("archives")
    put(folder + "/big.warc.gz", gzip.compress(page(1, b"x" * 100_000)))
    with small_disk(trial.path("disk"), "64k") as disk:
        done = trial.run("c", "run", "--temporary", disk, folder)
        other = trial.run("d", "run", folder, env={"TMPDIR": disk})
    trial.judge(done.returncode == 1 and b"no-room\t1" in done.stdout, "the state", done.stdout)
    trial.judge(other.returncode == 0, "no room in TMPDIR, which isn't used", other.stdout)
    for command in ("find", "replay"):
        done = trial.run("c", command, URI.decode(), "9999")
        trial.judge(done.returncode == 1 and b"big.warc.gz" in done.stderr, command + " names it", done.stderr)
    done = trial.run("c", "run")
    trial.judge(done.returncode == 0 and to_read(done) == 1, "with room", done.stdout + done.stderr)
    done = trial.run("c", "replay", URI.decode(), "9999")
    trial.judge(done.stdout == b"x" * 100_000, "its page", done.stderr)
    with small_disk(trial.path("disk"), "64k") as disk:
        done = trial.run("c", "run", "--all", "--temporary", disk)
    done = trial.run("c", "find", URI.decode())
    trial.judge(b"read on 2" in done.stdout and b"big.warc.gz" in done.stderr, "rows of before", done.stdout)
    done = trial.run("c", "replay", URI.decode(), "9999")
    is_right = done.stdout == b"x" * 100_000 and b"\nread on 2" in done.stderr
    trial.judge(is_right, "a replay of the rows of before", done.stderr)


def odd_temporary(trial: Trial) -> None:
    """What is said of a folder whose name isn't UTF-8 is kept, and doesn't hold up a run."""
    put(trial.path("archives", "a.warc.gz"), gzip.compress(page(1, os.urandom(100_000))))
    name = trial.path(os.fsdecode(b"disk \xff"))
    with small_disk(name, "64k") as disk:
        done = trial.run("c", "run", "--temporary", disk, trial.path("archives"))
    is_right = done.returncode == 1 and trial.states("c") == {"a.warc.gz": "no-room"} and b"disk " in done.stdout
    trial.judge(is_right, "no room", done.stdout + done.stderr)
    done = trial.run("c", "run", "--temporary", name + "/missing")
    is_right = done.returncode == 2 and trial.states("c") == {"a.warc.gz": "no-room"} and b"disk " in done.stderr
    trial.judge(is_right, "no folder", done.stdout + done.stderr)


def failing_machine(trial: Trial) -> None:
    """A limit, or a tool that is killed, isn't damage of the archive."""
    folder = trial.path("archives")
    put(folder + "/big.warc.gz", gzip.compress(page(1, b"x" * 400_000)))
    done = trial.run("c", "run", folder, before=["bash", "-c", 'ulimit -f 300; exec "$0" "$@"'])
    trial.judge(trial.states("c")["big.warc.gz"] in ("no-room", "failed"), "a limit on files", done.stdout)
    done = trial.run("c", "run")
    trial.judge(done.returncode == 0 and to_read(done) == 1, "without the limit", done.stdout)
    for number, text in enumerate(("kill -9 $$", "echo 'gzip: stdin: Input/output error' >&2; exit 1")):
        tools = os.path.dirname(put_script(trial.path("tools%d" % number, "gunzip"), text + "\n"))
        env = {"PATH": tools + ":" + os.environ["PATH"]}
        done = trial.run("c", "run", "--all", env=env)
        trial.judge(done.returncode == 0, "a tool that fails: " + text, done.stdout)


def damaged_members(trial: Trial) -> None:
    """zlib alone judges the compressed bytes, and says after how many of them the file is damaged."""
    folder, one = trial.path("archives"), gzip.compress(page(1))
    two = one + gzip.compress(page(2))
    bytes_of = {
        "padded": (two + bytes(5000), "good"),
        "garbage": (two + b"garbage", "damaged after %d bytes" % len(two)),
        "after-padding": (two + bytes(10) + b"x", "damaged after %d bytes" % (len(two) + 10)),
        "cut": (two[:-9], "damaged after %d bytes" % len(one)),
        "short": (two[:9], "damaged after 0 bytes"),
        "flipped": (one + bytes([two[len(one)]]) + two[len(one) + 1 : -8] + b"12345678", "damaged after %d" % len(one)),
    }
    for name, (data, _) in bytes_of.items():
        put("%s/%s.warc.gz" % (folder, name), data)
    trial.run("c", "run", folder)
    rows = trial.ask("c", "SELECT path, state, detail FROM files")
    found = {os.path.basename(str(path)).split(".")[0]: "%s %s" % (state, detail) for path, state, detail in rows}
    for name, (_, expected) in bytes_of.items():
        is_right = found[name].startswith("good" if expected == "good" else "gunzip " + expected)
        trial.judge(is_right, name, found[name])


# What a file is compressed by, and what its name says, in each combination.
PACKINGS: Dict[str, Tuple[str, ...]] = {"plain": (), "gzip": ("gzip", "-c"), "zstd": ("zstd", "-qc")}
NAMED = ("a.warc", "a.warc.gz", "a.warc.zst", "A.WARC.ZST")


def packed(packing: str, data: bytes) -> bytes:
    words = PACKINGS[packing]
    return subprocess.run(words, input=data, stdout=subprocess.PIPE, check=True).stdout if words else data


def first_bytes(trial: Trial) -> None:
    """The first bytes say what a file is compressed by, and not its name, as with zwarc."""
    tools = trial.path("tools")
    os.makedirs(tools)
    shutil.copy(os.path.join(TOP, "shell", "zwarc"), tools)
    os.symlink(trial.warc, tools + "/warc")
    for packing in PACKINGS:
        for name in NAMED:
            put(trial.path("archives", packing, name), packed(packing, page(1) + page(2)))
    odd = {"empty.warc.gz": b"", "zero.warc.gz": b"\0" + gzip.compress(page()), "half.warc.zst": b"\x28\xb5\x2f"}
    for name, data in odd.items():
        put(trial.path("archives", "odd", name), data)
    trial.run("c", "run", trial.path("archives"))
    for path, state, records in trial.ask("c", "SELECT path, state, coalesce(records, 0) FROM files"):
        done = subprocess.run([tools + "/zwarc", "list", str(path)], capture_output=True, check=False)
        expected = ("refused" if done.returncode == 2 else "good", done.stdout.count(b"\n"))
        trial.judge((str(state).replace("findings", "good"), records) == expected, path, (state, records, expected))
        if b"odd" not in os.fsencode(str(path)):
            trial.judge(records == 2, "the records of %s" % path, records)
    done = trial.run("c", "replay", URI.decode(), "9999")
    trial.judge(done.stdout == b"abc" and done.stderr.count(b"agrees") == 11, "a replay", done.stderr)


def frames(trial: Trial) -> None:
    """zstd judges the bytes of a .warc.zst; where it can't, that is no damage."""
    whole = packed("zstd", page(1, b"x" * 100_000))
    flipped = whole[:-9] + bytes([whole[-9] ^ 255]) + whole[-8:]
    wide = subprocess.run(["zstd", "-qc", "--ultra", "--long=30"], input=page(), stdout=subprocess.PIPE).stdout
    bytes_of = {
        "two": (whole + packed("zstd", page(2)), "good"),
        "cut": (whole[:-9], "gunzip damaged: "),
        "short": (whole[:5], "gunzip damaged: "),
        "garbage": (whole + b"garbage", "gunzip damaged: "),
        "flipped": (flipped, "gunzip damaged: "),
        "wide": (wide, "failed zstd: "),
    }
    for name, (data, _) in bytes_of.items():
        put(trial.path("archives", name + ".warc.zst"), data)
    done = trial.run("c", "run", trial.path("archives"))
    trial.judge(done.returncode == 1 and not running_with("zstd\0-dcq"), "a run", done.stderr)
    rows = trial.ask("c", "SELECT path, state, detail FROM files")
    found = {os.path.basename(str(path)).split(".")[0]: "%s %s" % (state, detail) for path, state, detail in rows}
    for name, (_, expected) in bytes_of.items():
        trial.judge(found.get(name, "").startswith(expected), name, found)
    put(trial.path("one", "a.warc.zst"), whole)
    with small_disk(trial.path("disk"), "64k") as disk:
        done = trial.run("d", "run", "--temporary", disk, trial.path("one"))
    trial.judge(b"no-room\t1" in done.stdout, "no room", done.stdout)
    failing_zstd(trial)
    done = trial.run("d", "run", "--digest")
    trial.judge(done.returncode == 0 and to_read(done) == 1, "with room and zstd", done.stdout + done.stderr)
    done = trial.run("d", "replay", URI.decode(), "9999")
    trial.judge(done.stdout == b"x" * 100_000, "its page", done.stderr)


def failing_zstd(trial: Trial) -> None:
    """A zstd that is killed, can't read or isn't there leaves a file that is read again."""
    texts = {
        "ended by signal 9": "kill -9 $$",
        "Read error": "echo 'zstd: error 37 : Read error' >&2; exit 37",
        "isn't installed": "",
    }
    put(trial.path("without", "zstandard.py"), b"raise ImportError\n")
    for place, (words, text) in enumerate(texts.items()):
        tools = trial.path("tools%d" % place)
        os.makedirs(tools)
        for folder in ("/usr/bin", "/bin"):
            for name in set(os.listdir(folder)) - set(os.listdir(tools)) - {"zstd"}:
                os.symlink(os.path.join(folder, name), os.path.join(tools, name))
        if text:
            put_script(tools + "/zstd", text + "\n")
        done = trial.run("d", "run", env={"PATH": tools, "PYTHONPATH": trial.path("without")})
        is_right = trial.states("d") == {"a.warc.zst": "failed"} and words in trial.detail("d")
        trial.judge(is_right, "a zstd that " + words, (trial.detail("d"), done.stderr))


def no_program(trial: Trial) -> None:
    """A program that isn't there ends a run before anything is forgotten."""
    folder = trial.path("archives")
    put(folder + "/a.warc", page())
    trial.run("c", "run", folder)
    not_warc = put_script(trial.path("other"), "echo hello\n")
    for program in ("/nothing", not_warc):
        done = trial.run("c", "run", "--all", "--warc", program)
        trial.judge(done.returncode == 3, "a run with " + program, done.stdout + done.stderr)
    trial.judge(trial.count("c", "captures") == 1, "the captures are kept")
    copy = shutil.copy(trial.warc, trial.path("warc"))
    done = trial.run("c", "plan", "--all", "--warc", copy)
    jobs = os.fsdecode(done.stdout.strip())
    os.unlink(copy)
    done = subprocess.run([trial.script, "job", jobs, "1"], capture_output=True, check=False)
    trial.judge(done.returncode == 3 and not os.listdir(jobs + "/done"), "a job without a program", done.stderr)
    trial.judge(trial.count("c", "captures") == 1, "the captures are still kept")


def kept_rows(trial: Trial) -> None:
    """A file that can't be read keeps the rows of its last good reading, and these are marked."""
    path = put(trial.path("archives", "a.warc"), page())
    trial.run("c", "run", trial.path("archives"))
    os.chmod(path, 0)
    done = trial.run("c", "run", before=LESS)
    trial.judge(trial.states("c") == {"a.warc": "failed"} and done.returncode == 1, "no permission", done.stdout)
    done = trial.run("c", "find", URI.decode())
    trial.judge(b"\tread on 2" in done.stdout and b"a.warc" in done.stderr, "find", done.stdout + done.stderr)
    done = trial.run("c", "find", "http://other.example/")
    trial.judge(b"a.warc" not in done.stderr, "another URI", done.stderr)
    put(path, page() + page(2, target=URI + b"other"))
    trial.run("c", "run", before=LESS)
    done = trial.run("c", "find", "http://other.example/")
    trial.judge(b"may have it" in done.stderr and b"a.warc" in done.stderr, "another URI, other bytes", done.stderr)
    os.chmod(path, 0o644)
    trial.run("c", "run")
    done = trial.run("c", "find", URI.decode())
    trial.judge(b"read on" not in done.stdout + done.stderr and URI not in done.stderr, "read again", done.stdout)


def unknown_names(trial: Trial) -> None:
    """A file that a list names isn't gone where nobody can say whether it is there."""
    path = put(trial.path("shut", "a.warc"), page())
    names = put(trial.path("names"), os.fsencode(path) + b"\n")
    trial.run("c", "run", "--files", names)
    os.chmod(trial.path("shut"), 0)
    done = trial.run("c", "run", before=LESS)
    os.chmod(trial.path("shut"), 0o755)
    trial.judge(trial.states("c") == {"a.warc": "good"} and done.returncode == 3, "a folder that is shut", done.stderr)


def unchecked_blocks(trial: Trial) -> None:
    """A digest that can't be checked isn't a good one."""
    put(trial.path("archives", "a.warc"), page(1) + record("resource", 2, DATE, URI, b"x", block_digest="sha256:ab"))
    done = trial.run("c", "run", trial.path("archives"))
    trial.judge(trial.states("c") == {"a.warc": "unchecked"} and done.returncode == 0, "the state", done.stdout)
    trial.judge(trial.run("c", "status", "--strict").returncode == 1, "a strict status")
    trial.judge("1 block can't be checked" in trial.detail("c"), "the words", trial.detail("c"))


def changed_file(trial: Trial) -> None:
    """A file that is changed while all of it is replayed gives nothing. Where its time is ahead, so that it may be
    changed again in the same moment, one with the same size and time is read again."""
    path = put(trial.path("archives", "a.warc"), page())
    os.utime(path, (time.time() + 86_400,) * 2)
    trial.run("c", "run", trial.path("archives"))
    other = put(trial.path("other.warc"), page(1, b"xyz"))
    text = '[ "$1" = body ] && cp %s %s && touch -d @%d %s\nexec %s "$@"\n'
    slow = put_script(trial.path("warc"), text % (other, path, os.stat(path).st_mtime, path, trial.warc))
    os.utime(path, ns=(0, int(os.stat(path).st_mtime) * 10**9))
    trial.run("c", "run")
    done = trial.run("c", "replay", "--whole", "--warc", slow, URI.decode(), "9999")
    trial.judge((done.returncode, done.stdout) == (3, b""), "changed while it is read", done.stdout + done.stderr)
    before = os.stat(path)
    put(path + ".new", page(1, b"pqr"))
    os.utime(path + ".new", ns=(before.st_atime_ns, before.st_mtime_ns))
    trial.run("c", "run")
    trial.run("c", "accept", path)
    os.rename(path + ".new", path)
    done = trial.run("c", "replay", URI.decode(), "9999")
    trial.judge((done.returncode, done.stdout) == (3, b""), "another inode", done.stdout + done.stderr)
    done = trial.run("c", "run")
    trial.judge(to_read(done) == 1, "a run after that", done.stderr)


def run_beside_replay(trial: Trial) -> None:
    """A replay has one state of the catalogue: a position of before a run isn't asked of the file of after it."""
    fields = {"WARC_Refers_To_Target_URI": URI.decode() + "far", "WARC_Refers_To_Date": DATE, "WARC_Profile": REVISIT}
    revisit = record("revisit", 1, "2021-01-01T00:00:00Z", URI, b"", **fields)
    path = put(trial.path("archives", "a.warc"), revisit + page(2, b"more", URI + b"2"))
    put(trial.path("archives", "b.warc"), page(3, b"far", URI + b"far"))
    later = put(trial.path("later"), page(4, b"wrong", URI + b"4") + revisit)
    trial.run("c", "run", trial.path("archives"))
    run = "timeout 15 %s" % " ".join(trial.words("c", "run"))
    text = '[ "$1" = write ] && echo >> %s && [ $(wc -l < %s) = 2 ] && {\ncp %s %s\n%s > %s 2>&1\n}\nexec %s "$@"\n'
    count = trial.path("count")
    other = put_script(trial.path("warc"), text % (count, count, later, path, run, trial.path("said"), trial.warc))
    done = trial.run("c", "replay", "--warc", other, URI.decode(), "9999", seconds=120)
    is_right = (done.returncode, done.stdout) == (3, b"") and b"changed since" in done.stderr
    trial.judge(is_right, "a run meanwhile", done.stdout + done.stderr + read(trial.path("said")))
    trial.run("c", "run")
    trial.run("c", "accept", path)
    done = trial.run("c", "replay", URI.decode(), "9999")
    trial.judge(done.stdout == b"far", "afterwards", done.stdout + done.stderr)


def small_mistakes(trial: Trial) -> None:
    """Names in capitals, numbers that no job has, folders that are missing."""
    put(trial.path("archives", "B.WARC.GZ"), gzip.compress(page()))
    trial.run("c", "run", trial.path("archives"))
    trial.judge(trial.states("c") == {"B.WARC.GZ": "good"}, "capitals", trial.states("c"))
    jobs = os.fsdecode(trial.run("c", "plan", "--all").stdout.strip())
    for number in ("0", "2", "99999999"):
        done = subprocess.run([trial.script, "job", jobs, number], capture_output=True, check=False)
        is_right = done.returncode == 3 and b"Traceback" not in done.stderr and not os.listdir(jobs + "/done")
        trial.judge(is_right, "job " + number, done.stderr)
    done = trial.run("d", "plan", trial.path("missing"))
    trial.judge(done.returncode == 3, "a folder that is missing", done.stderr)
    for seconds in ("inf", "nan", "-1", "1e10", "x"):
        done = trial.run("e", "run", "--timeout=" + seconds, trial.path("archives"))
        trial.judge(done.returncode == 2, "a time of %s seconds" % seconds, done.stderr[-300:])


# Runs that don't end or can't go on


def many_revisits(trial: Trial) -> None:
    """Revisits that name nothing, in many files: one search, and the page of the one file that has it."""
    folder, body = trial.path("archives"), HEAD + b"page"
    fields = {"content_type": "application/http;msgtype=response", "WARC_Payload_Digest": "sha1:" + "A" * 32}
    put(folder + "/page.warc", record("response", 1, DATE, URI, body, **fields))
    for number in range(2, 9):
        date = "2020-01-%02dT00:00:00Z" % number
        data = record("revisit", number, date, URI, HEAD, WARC_Profile=REVISIT, **fields)
        put(folder + "/%d.warc" % number, data)
        lost = record("revisit", number + 20, date, URI + b"lost", HEAD, WARC_Profile=REVISIT, **fields)
        put(folder + "/lost%d.warc" % number, lost)
    trial.run("c", "run", folder)
    done = trial.run("c", "replay", URI.decode(), "9999", seconds=120)
    trial.judge(done.stdout == b"page" and b"page.warc" in done.stderr, "the page", done.stderr)
    done = trial.run("c", "replay", URI.decode() + "lost", "9999", seconds=120)
    trial.judge(done.returncode == 1 and b"P4 NoReference" in done.stderr, "no page", done.stderr)


def chained_revisits(trial: Trial) -> None:
    """Revisits that name records of other files, in a ring and in a row."""
    folder, name = trial.path("archives"), "<urn:uuid:00000000-0000-4000-8000-%012d>"
    fields = {"content_type": "application/http;msgtype=response", "WARC_Profile": REVISIT}
    for number in range(1, 9):
        ring = record("revisit", number, DATE, URI + b"ring", HEAD, WARC_Refers_To=name % (number % 8 + 1), **fields)
        put(folder + "/ring%d.warc" % number, ring)
        date = "2021-01-%02dT00:00:00Z" % number
        row = record("revisit", number + 20, date, URI + b"row", HEAD, WARC_Refers_To=name % (number + 19), **fields)
        put(folder + "/row%d.warc" % number, row)
    put(folder + "/row0.warc", record("response", 20, DATE, URI + b"row", HEAD + b"row", **fields))
    trial.run("c", "run", folder)
    done = trial.run("c", "replay", URI.decode() + "row", "9999", seconds=120)
    trial.judge(done.stdout == b"row", "a row of revisits", done.stderr)
    done = trial.run("c", "replay", URI.decode() + "ring", "9999", seconds=120)
    trial.judge(done.returncode == 1 and not done.stdout, "a ring of revisits", done.stderr)


def same_instants(trial: Trial) -> None:
    """Of two captures of one instant in a file the last one is chosen, as the program chooses it."""
    path = put(trial.path("archives", "a.warc"), page(1, b"moved") + page(2, b"page") + page(3, b"x", URI + b"x"))
    alone = subprocess.run([trial.warc, "replay", path, URI.decode(), "9999"], capture_output=True, check=False)
    trial.run("c", "run", trial.path("archives"))
    done = trial.run("c", "replay", URI.decode(), "9999")
    is_right = (done.returncode, done.stdout) == (0, b"page") and alone.stdout == b"page"
    trial.judge(is_right, "one file", done.stdout + done.stderr)
    lines = trial.run("c", "find", URI.decode(), "9999").stdout.splitlines()
    trial.judge(len(lines) == 1 and b"a.warc\t1\t" in lines[0], "find as of a date", lines)
    trial.judge(trial.run("c", "find", URI.decode()).stdout.count(b"\n") == 2, "find")
    put(trial.path("archives", "b.warc"), page(4, b"moved") + page(5, b"page"))
    trial.run("c", "run")
    done = trial.run("c", "replay", URI.decode(), "9999")
    is_right = (done.returncode, done.stdout) == (0, b"page") and done.stderr.count(b"\nagrees: ") == 1
    trial.judge(is_right, "two files that agree", done.stdout + done.stderr)
    put(trial.path("archives", "c.warc"), page(6, b"page") + page(7, b"moved"))
    trial.run("c", "run")
    done = trial.run("c", "replay", URI.decode(), "9999")
    is_right = (done.returncode, done.stdout) == (1, b"") and b"files disagree" in done.stderr
    trial.judge(is_right, "a file that doesn't agree", done.stdout + done.stderr)


def chains_of_one_file(trial: Trial) -> None:
    """A revisit that leads to another one of its own file, and that to another file, in a row and in a ring."""
    folder, name = trial.path("archives"), "<urn:uuid:00000000-0000-4000-8000-%012d>"
    fields = {"content_type": "application/http;msgtype=response", "WARC_Profile": REVISIT}
    later = "2021-01-01T00:00:00Z"
    pair = {"WARC_Refers_To_Target_URI": URI.decode() + "c", "WARC_Refers_To_Date": DATE}
    same = {"WARC_Payload_Digest": "sha1:" + "A" * 32}
    rows = (
        record("revisit", 2, later, URI, HEAD, WARC_Refers_To=name % 3, **fields),
        record("revisit", 3, later, URI + b"a", HEAD, WARC_Refers_To=name % 1, **fields),
        record("revisit", 4, later, URI + b"b", HEAD, WARC_Refers_To=name % 5, **fields),
        record("revisit", 5, later, URI + b"a", HEAD, **pair, **fields),
        record("revisit", 6, later, URI + b"d", HEAD, WARC_Refers_To=name % 7, **fields),
        record("revisit", 7, later, URI + b"e", HEAD, **same, **fields),
        record("revisit", 8, later, URI + b"ring", HEAD, WARC_Refers_To=name % 9, **fields),
        record("revisit", 9, later, URI + b"ring", HEAD, WARC_Refers_To=name % 8, **fields),
    )
    put(folder + "/revisits.warc", b"".join(rows))
    del fields["WARC_Profile"]
    pages = record("response", 1, DATE, URI + b"c", HEAD + b"page", **fields)
    pages += record("response", 11, DATE, URI + b"e", HEAD + b"same", **same, **fields)
    put(folder + "/pages.warc", pages)
    trial.run("c", "run", folder)
    for target, body in ((b"", b"page"), (b"b", b"page"), (b"d", b"same"), (b"ring", b"")):
        done = trial.run("c", "replay", (URI + target).decode(), "9999", seconds=120)
        is_right = (done.returncode, done.stdout) == (0 if body else 1, body)
        trial.judge(is_right, "a row that begins at %s" % (target.decode() or "the page"), done.stderr)


def odd_references(trial: Trial) -> None:
    """A revisit's referent in another file is found by its URI, of whatever bytes and spaces that is."""
    for number, (uri, value) in enumerate(ODD_URIS.items()):
        target = URI + b"%d" % number
        named = {"WARC_Refers_To_Target_URI": "odd uri", "WARC_Refers_To_Date": DATE, "WARC_Profile": REVISIT}
        revisit = record("revisit", number, "2021-01-01T00:00:00Z", target, b"", **named)
        put(trial.path("archives", "a%d.warc" % number), revisit.replace(b"odd uri", uri))
        put(trial.path("archives", "b%d.warc" % number), page(99 + number, b"page", value))
    trial.run("c", "run", trial.path("archives"))
    for number, uri in enumerate(ODD_URIS):
        done = trial.run("c", "replay", URI.decode() + "%d" % number, "9999")
        trial.judge((done.returncode, done.stdout) == (0, b"page"), uri, done.stderr)


# URIs as a head may have them, with bytes that aren't UTF-8, spaces of several kinds, folds and brackets; and what each
# means.
SPACES = "http://b.example/a\u00a0b\u3000c\u2028d\u0085".encode()
ODD_URIS = {
    b"http://b.example/\xff": b"http://b.example/\xff",
    SPACES: SPACES,
    b"http://b.example/a  b\tc": b"http://b.example/a  b\tc",
    b"http://b.example/a\r\n\t b": b"http://b.example/a b",
    b"\r\n < http://b.example/d >": b"http://b.example/d",
    b"http://b.example/e>": b"http://b.example/e>",
}


def no_regular_files(trial: Trial) -> None:
    """Pipes, sockets and devices with the name of an archive are left out, and a job isn't held up by one."""
    folder = trial.path("archives")
    path = put(folder + "/a.warc", page())
    os.mkfifo(folder + "/pipe.warc")
    names = [b"pipe.warc", b"socket.warc"]
    with contextlib.suppress(PermissionError):  # root alone makes devices, and not everywhere
        os.mknod(folder + "/zero.warc", 0o600 | stat.S_IFCHR, os.makedev(1, 5))
        names.append(b"zero.warc")
    with socket.socket(socket.AF_UNIX) as server:
        server.bind(folder + "/socket.warc")
        done = trial.run("c", "run", "--timeout", "100", folder, seconds=200)
    trial.judge(done.returncode == 0 and to_read(done) == 1, "a run", done.stdout + done.stderr)
    trial.judge(all(name in done.stderr for name in names), "names", done.stderr)
    jobs = os.fsdecode(trial.run("d", "plan", path).stdout.strip())
    os.unlink(path)
    os.mkfifo(path)
    with contextlib.suppress(subprocess.TimeoutExpired):
        subprocess.run([trial.script, "job", jobs, "1"], timeout=30, check=False)
    trial.run("d", "load")
    trial.judge(trial.states("d") == {"a.warc": "failed"}, "a pipe in the place of a file", trial.states("d"))


def linked_folders(trial: Trial) -> None:
    """A link to a folder isn't entered, and is named, unless its files are in the collection all the same."""
    put(trial.path("archives", "sub", "a.warc"), page())
    put(trial.path("elsewhere", "b.warc"), page(2))
    for name, to in (("twin", "archives/sub"), ("link", "elsewhere"), ("ring", "archives")):
        os.symlink(trial.path(to), trial.path("archives", name))
    done = trial.run("c", "run", trial.path("archives"))
    names = [name for name in (b"twin", b"link", b"ring") if b"/%s: " % name in done.stderr]
    trial.judge(done.returncode == 0 and to_read(done) == 1 and names == [b"link"], "a link", done.stderr)
    done = trial.run("c", "run", trial.path("archives"), trial.path("archives", "link"))
    is_right = done.returncode == 0 and to_read(done) == 1 and b"/link: " not in done.stderr
    trial.judge(is_right and trial.states("c") == {"a.warc": "good", "b.warc": "good"}, "named", done.stderr)


# A file system that gives each file an inode of 64 bits, as those do that join others.
LARGE_INODES = """
#define _GNU_SOURCE
#include <dlfcn.h>
#include <sys/stat.h>
#define LARGE(name, kind, first) \\
    int name(first it, struct kind *to) { \\
        int status = ((int (*)(first, struct kind *))dlsym(RTLD_NEXT, #name))(it, to); \\
        if (status == 0) to->st_ino |= 1UL << 63; \\
        return status; \\
    }
LARGE(stat, stat, const char *)
LARGE(stat64, stat64, const char *)
LARGE(fstat, stat, int)
LARGE(fstat64, stat64, int)
"""


def large_numbers(trial: Trial) -> None:
    """A file is read and known again that has an inode of 64 bits, or a time that 63 bits of nanoseconds don't hold."""
    path = put(trial.path("archives", "a.warc"), page())
    os.utime(path, (1.5e10, 1.5e10))
    trial.judge(os.stat(path).st_mtime_ns >= 1 << 63, "the disk has such times", os.stat(path))
    for number in (1, 0):
        done = trial.run("late", "run", trial.path("archives"))
        is_right = done.returncode == 0 and to_read(done) == number and trial.states("late") == {"a.warc": "good"}
        trial.judge(is_right, "a late time", done.stdout + done.stderr)
    done = trial.run("late", "replay", URI.decode(), "9999")
    trial.judge(done.stdout == b"abc", "a replay of a late time", done.stderr)
    library = trial.path("inodes.so")
    code = put(trial.path("inodes.c"), LARGE_INODES.encode())
    subprocess.run(["cc", "-shared", "-fPIC", "-w", "-o", library, code, "-ldl"], check=True)
    done = trial.run("c", "run", trial.path("archives"), env={"LD_PRELOAD": library})
    inodes = trial.ask("c", "SELECT inode FROM files")
    is_right = done.returncode == 0 and inodes == [(os.stat(path).st_ino - (1 << 63),)]
    trial.judge(is_right, "an inode of 64 bits", done.stdout + done.stderr)
    done = trial.run("c", "replay", URI.decode(), "9999", env={"LD_PRELOAD": library})
    trial.judge(done.stdout == b"abc", "its replay", done.stderr)


def limited_time(trial: Trial) -> None:
    """The time holds for all that a job does: the commands together, and unpacking."""
    put(trial.path("archives", "a.warc"), page())
    slow = put_script(trial.path("slow"), '[ "$1" = --version ] || sleep 2\nexec %s "$@"\n' % trial.warc)
    trial.run("c", "run", "--warc", slow, "--timeout", "3", trial.path("archives"), seconds=60)
    trial.judge(trial.states("c") == {"a.warc": "failed"}, "four seconds in three", trial.states("c"))
    trial.judge("took too long" in trial.detail("c"), "the words", trial.detail("c"))
    bomb = gzip.compress(bytes(1 << 27)) * 400
    put(trial.path("bombs", "bomb.warc.gz"), bomb)
    with small_disk(trial.path("disk"), "64k") as disk:
        begun = time.monotonic()
        trial.run("d", "run", "--temporary", disk, "--timeout", "2", trial.path("bombs"), seconds=90)
    trial.judge(time.monotonic() - begun < 60, "fifty gigabytes of zeros", time.monotonic() - begun)
    trial.judge("took too long" in trial.detail("d"), "their words", trial.detail("d"))
    trial.judge(not running_with(trial.path("slow")), "nothing runs on")


def torn_jobs(trial: Trial) -> None:
    """What a power cut left of a job is dropped, and its file is read again."""
    put(trial.path("archives", "a.warc"), b"".join(page(number) for number in range(1, 5)))
    for place, (name, data) in enumerate(tears().items()):
        catalogue = "c%d" % place
        jobs = os.fsdecode(trial.run(catalogue, "plan", trial.path("archives")).stdout.strip())
        subprocess.run([trial.script, "job", jobs, "1"], check=True)
        with open(os.path.join(jobs, "done", "1", name.split()[0]), "rb+") as file:
            file.truncate(data)
        done = trial.run(catalogue, "load")
        trial.judge(done.returncode == 3, "load after a torn " + name, done.stderr)
        trial.judge(trial.states(catalogue) == {"a.warc": "unread"}, "the state after a torn " + name)
        done = trial.run(catalogue, "run")
        is_whole = trial.count(catalogue, "records") == 4 and trial.count(catalogue, "captures") == 4
        trial.judge(done.returncode == 0 and is_whole, "a run after a torn " + name, done.stdout + done.stderr)


def tears() -> Dict[str, int]:
    """The files of a job, and how many bytes are left of each."""
    return {"outcomes": 0, "outcomes half": 20, "output": 0, "output half": 100, "output but the end": 1000}


def synced_jobs(trial: Trial) -> None:
    """Each file of a job, and its folder, is on the disk before the job has its name, and the name afterwards."""
    put(trial.path("archives", "a.warc"), page())
    jobs = os.fsdecode(trial.run("c", "plan", trial.path("archives")).stdout.strip())
    log = trial.path("strace")
    words = ["strace", "-f", "-qq", "-y", "-e", "trace=fsync,fdatasync,rename,renameat,renameat2", "-o", log]
    subprocess.run([*words, trial.script, "job", jobs, "1"], check=True)
    with open(log, encoding="utf-8", errors="replace") as file:
        calls = file.read()
    before, _, after = calls.partition("/done/1")
    work = "fsync(" in before and "/work/1." in before
    for name in ("outcomes", "output"):
        trial.judge(work and "/%s>" % name in before, name + " is synced before", calls)
    folders = [line for line in before.splitlines() if "fsync" in line and "/work/1." in line and ">)" in line]
    trial.judge(any("/" not in line.rpartition("/work/1.")[2].split(">")[0] for line in folders), "the folder", calls)
    trial.judge("fsync" in after and "/done>" in after, "the name is synced afterwards", calls)


def failing_load(trial: Trial) -> None:
    """Where loading fails, GNU parallel and its jobs end with the run."""
    for number in range(8):
        put(trial.path("archives", "%d.warc" % number), page(number))
    slow = put_script(trial.path("slow"), '[ "$1" = --version ] || sleep 1\nexec %s "$@"\n' % trial.warc)
    words = trial.words("c", "run", "--jobs", "1", "--batch", "1", "--warc", slow, trial.path("archives"))
    with open(trial.path("messages"), "wb") as messages:
        child = subprocess.Popen(words, stdout=subprocess.DEVNULL, stderr=messages)
    while b" to read\n" not in read(trial.path("messages")) and child.poll() is None:
        time.sleep(0.1)
    with contextlib.closing(trial.base("c")) as base:
        base.execute("DROP TABLE hosts")
    child.wait(600)
    left, message = left_running(trial, 60), read(trial.path("messages"))
    trial.judge(child.returncode == 3 and b"Traceback" not in message, "the run", message)
    trial.judge(not left, "what runs on", left)
    for process in left:
        with contextlib.suppress(ProcessLookupError):
            os.kill(process, signal.SIGKILL)


def left_running(trial: Trial, seconds: float) -> List[int]:
    """Waits until no process works on the jobs of a run, and not longer than this. Returns those that still do."""
    end = time.monotonic() + seconds
    while running_with(trial.path("c", "jobs")) and time.monotonic() < end:
        time.sleep(0.1)
    return running_with(trial.path("c", "jobs"))


def killed_parent(trial: Trial) -> None:
    """Where a run is killed, GNU parallel begins no more jobs."""
    for number in range(30):
        put(trial.path("archives", "%d.warc" % number), page(number))
    slow = put_script(trial.path("slow"), '[ "$1" = --version ] || sleep 1\nexec %s "$@"\n' % trial.warc)
    words = trial.words("c", "run", "--jobs", "1", "--batch", "1", "--warc", slow, trial.path("archives"))
    child = subprocess.Popen(words, stdout=subprocess.DEVNULL, stderr=subprocess.DEVNULL)
    while child.poll() is None and not running_with(trial.path("c", "jobs") + "/1-1\0"):
        time.sleep(0.1)
    child.kill()
    child.wait()
    left = left_running(trial, 90)
    trial.judge(not left, "what runs on after 90 s", left)
    for process in left:
        with contextlib.suppress(ProcessLookupError):
            os.kill(process, signal.SIGKILL)


def long_readers(trial: Trial) -> None:
    """A reader that holds the database doesn't end a run, whether or not its disk is one of this machine."""
    put(trial.path("archives", "a.warc"), page())
    trial.run("local", "run", trial.path("archives"))
    for name in ("lower", "upper", "work", "far"):
        os.makedirs(trial.path("disk", name))
    with small_disk(trial.path("disk"), "64m") as disk:
        for name in ("lower", "upper", "work", "far"):
            os.makedirs(os.path.join(disk, name))
        layers = "lowerdir=%s/lower,upperdir=%s/upper,workdir=%s/work" % (disk, disk, disk)
        subprocess.run(["mount", "-t", "overlay", "-o", layers, "overlay", disk + "/far"], check=True)
        try:
            trial.run("disk/far", "run", trial.path("archives"))
            for catalogue, seconds in (("local", 3), ("disk/far", 25)):
                run_beside_reader(trial, catalogue, seconds)
        finally:
            subprocess.run(["umount", disk + "/far"], check=True)


def run_beside_reader(trial: Trial, catalogue: str, seconds: int) -> None:
    """A run while another process reads for some seconds."""
    with contextlib.closing(trial.base(catalogue)) as base:
        base.execute("BEGIN")
        base.execute("SELECT count(*) FROM captures").fetchone()
        words = trial.words(catalogue, "run", "--all")
        child = subprocess.Popen(words, stdout=subprocess.PIPE, stderr=subprocess.PIPE)
        time.sleep(seconds)
        base.execute("COMMIT")
    out, message = child.communicate(timeout=120)
    trial.judge(child.returncode == 0, "%s: a run beside a reader" % catalogue, out + message)


def stopped_export(trial: Trial) -> None:
    """An export that doesn't go on, while it writes, holds up no run."""
    put(trial.path("archives", "a.warc"), page())
    trial.run("c", "run", trial.path("archives"))
    with contextlib.closing(trial.base("c")) as base:
        rows = ((1, place, "x", "urn:%d" % place) for place in range(1, 300_000))
        base.executemany("INSERT INTO captures (file, position, instant, target) VALUES (?, ?, ?, ?)", rows)
        base.commit()
    os.makedirs(trial.path("tables"))
    child = subprocess.Popen(trial.words("c", "export", trial.path("tables")))
    while child.poll() is None and not any("captures.tsv" in name for name in os.listdir(trial.path("tables"))):
        time.sleep(0.001)
    child.send_signal(signal.SIGSTOP)
    trial.judge(child.poll() is None, "the export is stopped in time")
    try:
        with contextlib.closing(sqlite3.connect(trial.path("c", "catalogue.sqlite"), timeout=2)) as base:
            base.execute("INSERT INTO settings VALUES ('x', '1')")
            base.commit()
    except sqlite3.OperationalError as error:
        trial.judge(False, "a change while it is stopped", error)
    child.send_signal(signal.SIGCONT)
    trial.judge(child.wait(120) == 0, "the export")
    trial.judge(read(trial.path("tables", "captures.tsv")).count(b"\n") == 300_000, "its rows")


def hostile_tables(trial: Trial) -> None:
    """PostgreSQL takes each row as it is, also from a client in LATIN1."""
    binaries = sorted(glob.glob("/usr/lib/postgresql/*/bin"))
    if not binaries or shutil.which("psql") is None:
        print("PostgreSQL: left out, since it isn't installed", flush=True)
        return
    folder = trial.path("archives")
    # Letters that can't be made shorter: PostgreSQL compresses a key.
    letters = "".join(random.Random(1).choices(string.ascii_lowercase, k=6000))
    targets = [b"http://%s/" % letters.encode(), b"http://a\xff.example/", "http://ä.example/→".encode(), b"urn:\\N"]
    targets += [b"urn:a\tb", b"urn:" + letters.encode() * 8, b"-", b"urn:\\.", "urn:\U0001f600".encode()]
    data = b"".join(page(number, b"x", target) for number, target in enumerate(targets, 1))
    kind = record(letters, 80, DATE, URI, b"")
    put(folder + "/a.warc", data + kind)
    put(os.path.join(folder, os.fsdecode(b"odd \xff\n\t\\\"'.warc")), data[:-4])
    trial.run("c", "run", folder)
    # The last record of the second file is cut.
    trial.judge(trial.count("c", "captures") == 2 * len(targets) - 1, "the captures", trial.states("c"))
    done = trial.run("c", "export", trial.path("tables"))
    trial.judge(done.returncode == 0, "the export", done.stderr)
    with database(trial.path("server"), binaries[-1]) as words:
        loaded = subprocess.run(
            [*words, "-f", "load.sql"],
            cwd=trial.path("tables"),
            env=dict(os.environ, PGCLIENTENCODING="LATIN1"),
            capture_output=True,
            check=False,
        )
        trial.judge(loaded.returncode == 0, "load.sql", loaded.stderr)
        for path in sorted(glob.glob(trial.path("tables", "*.tsv"))):
            compare_table(trial, words, path)


def compare_table(trial: Trial, words: List[str], path: str) -> None:
    """The rows that PostgreSQL has must be those of the file."""
    name = os.path.basename(path).partition(".")[0]
    given = subprocess.run(
        [*words, "-c", "COPY %s TO STDOUT" % name], env=dict(os.environ, PGCLIENTENCODING="UTF8"), capture_output=True
    )
    with open(path, "rb") as file:
        expected = sorted(file.read().splitlines())
    seen = sorted(given.stdout.splitlines())
    # Numbers with a fraction are written otherwise.
    is_right = len(seen) == len(expected) if name in ("checks", "runs") else seen == expected
    trial.judge(is_right, "the rows of " + name, given.stderr + b"\n".join(set(seen) ^ set(expected))[:500])


@contextlib.contextmanager
def database(folder: str, binaries: str) -> Iterator[List[str]]:
    """A server of PostgreSQL on a socket in a folder, as the user postgres. Gives the words of its client."""
    place = tempfile.mkdtemp(prefix="warc-pg-")
    shutil.chown(place, "postgres", "postgres")
    as_user = ["setpriv", "--reuid=postgres", "--regid=postgres", "--clear-groups", "env", "HOME=" + place]
    quiet = {"cwd": place, "stdout": subprocess.DEVNULL, "check": True}
    make = [binaries + "/initdb", "-D", place + "/data", "-E", "UTF8", "--locale=C.UTF-8", "-A", "trust"]
    subprocess.run([*as_user, *make], **quiet)  # type: ignore[call-overload]
    server = [binaries + "/pg_ctl", "-D", place + "/data", "-w", "-l", place + "/log"]
    options = "-c listen_addresses='' -c unix_socket_directories=%s -c fsync=off" % place
    subprocess.run([*as_user, *server, "-o", options, "start"], **quiet)  # type: ignore[call-overload]
    try:
        yield ["psql", "-q", "-X", "-h", place, "-U", "postgres", "-d", "postgres"]
    finally:
        subprocess.run([*as_user, *server, "-m", "immediate", "stop"], **quiet)  # type: ignore[call-overload]
        shutil.rmtree(place)


def failing_output(trial: Trial) -> None:
    """Where output fails the status is 3, since 1 means that there is nothing."""
    put(trial.path("archives", "a.warc"), page())
    trial.run("c", "run", trial.path("archives"))
    for words in (("replay", URI.decode(), "9999"), ("status",), ("find", URI.decode()), ("status", "--json")):
        with open("/dev/full", "wb") as full:
            done = subprocess.run(trial.words("c", *words), stdout=full, stderr=subprocess.PIPE, check=False)
        is_right = done.returncode == 3 and b"Traceback" not in done.stderr and b"No space" in done.stderr
        trial.judge(is_right, "%s on a full disk" % words[0], (done.returncode, done.stderr))
    put(trial.path("broken", "catalogue.sqlite"), b"no database" * 1000)
    for words in (("status",), ("find", URI.decode()), ("run",)):
        done = trial.run("broken", *words)
        trial.judge(done.returncode == 3, "%s of a broken catalogue" % words[0], done.stderr)


def reports_elsewhere(trial: Trial) -> None:
    """A report replaces a regular file, and is written through anything else."""
    put(trial.path("archives", "a.warc"), page())
    trial.run("c", "run", trial.path("archives"))
    for name, minor, status in (("null", 3, 0), ("full", 7, 3)):
        device = trial.path(name)
        os.mknod(device, 0o666 | stat.S_IFCHR, os.makedev(1, minor))
        done = trial.run("c", "report", device)
        is_device = stat.S_ISCHR(os.lstat(device).st_mode)
        trial.judge(is_device and done.returncode == status, "a device: " + name, (is_device, done.stderr))
    target, link = put(trial.path("target.html"), b"old"), trial.path("link.html")
    os.symlink(target, link)
    trial.run("c", "report", link)
    with open(target, "rb") as file:
        trial.judge(os.path.islink(link) and b"<!DOCTYPE" in file.read(), "a link")
    victim = put(trial.path("victim"), b"victim")
    for name in ("tables/files.tsv", "tables/load.sql", "plain.html.new"):
        os.makedirs(os.path.dirname(trial.path(name)), exist_ok=True)
        os.symlink(victim, trial.path(name))
    trial.run("c", "report", trial.path("plain.html"))
    trial.run("c", "export", trial.path("tables"))
    with open(victim, "rb") as file:
        trial.judge(file.read() == b"victim", "links in the place of files that are written")
    mode = stat.S_IMODE(os.stat(trial.path("plain.html")).st_mode)
    trial.judge(mode == 0o644, "the mode of the report", oct(mode))


# At the edge

ODD_NAMES = (
    b"a\ngood\t1\tnothing was found\n.warc",
    b"b\x1b]0;owned\x07.warc",
    "c\u202ecraw.warc".encode(),
    b"d\xff\xfe.warc",
    b"e\t\\n.warc",
    "f\x9b31m.warc".encode(),
    b"g'\"$(x) {}{= =}.warc",
)


def odd_names(trial: Trial) -> None:
    """No name forges a line or is obeyed by a terminal; scripts get each name as it is."""
    folder = os.fsencode(trial.path("archives"))
    paths = [os.path.join(folder, name) for name in ODD_NAMES]
    for path in paths:
        put(os.fsdecode(path), page(1) + b"x")
    done = trial.run("c", "run", os.fsdecode(folder))
    lines = done.stdout.decode("utf-8", "replace").splitlines()
    # Before the files: the folder, the last run, the oldest reading, and the states.
    trial.judge(len(lines) == 5 + len(paths), "a line for each file", lines)
    text = (done.stdout + done.stderr).decode("utf-8", "replace")
    unsafe = [character for character in text if not character.isprintable() and character not in "\n\t"]
    trial.judge(not unsafe, "characters that can't be seen", unsafe)
    done = trial.run("c", "status", "-0")
    names = [line.split(b"\t", 1)[1].rsplit(b"\t", 1)[0] for line in done.stdout.split(b"\0")[:-1]]
    trial.judge(sorted(names) == sorted(paths), "status -0", names)
    done = trial.run("c", "status", "--json")
    found = [os.fsencode(file["path"]) for file in json.loads(done.stdout or b'{"files": []}')["files"]]
    trial.judge(sorted(found) == sorted(paths), "status --json", found)
    for form in ("-0", "--json"):
        done = trial.run("c", "report", form, trial.path("list" + form))
        is_right = done.returncode == 0 and trial.run("c", "status", form).stdout == read(trial.path("list" + form))
        trial.judge(is_right, "report " + form, done.stderr)
    for path in paths:
        put(os.fsdecode(path), page(1))
    trial.run("c", "run")
    lines = trial.run("c", "find", URI.decode()).stdout.decode("utf-8", "replace").splitlines()
    trial.judge(len(lines) == len(paths), "find", lines)
    rows = trial.run("c", "find", "-0", URI.decode()).stdout.split(b"\0")[:-1]
    trial.judge(sorted(row.rsplit(b"\t", 9)[0] for row in rows) == sorted(paths), "find -0", rows)
    rows = trial.run("c", "find", "--json", URI.decode()).stdout.splitlines()
    trial.judge(sorted(os.fsencode(json.loads(row)["path"]) for row in rows) == sorted(paths), "find --json", rows)


def read(path: str) -> bytes:
    if not os.path.exists(path):
        return b""
    with open(path, "rb") as file:
        return file.read()


def odd_settings(trial: Trial) -> None:
    """The catalogue's path is no program of GNU parallel's, and the output may be in latin-1."""
    put(trial.path("archives", "\u2192.warc"), page(1) + b"x")
    owned = trial.path("owned")
    for name in ("cat{= `touch %s` =}" % owned.replace("/", "\\x2f"), "c{.}'$x {}", "{= $_=1 =}"):
        done = trial.run(name, "run", trial.path("archives"))
        trial.judge(done.returncode == 1, "a catalogue called " + name, done.stderr)
    trial.judge(not os.path.exists(owned), "no program is run")
    done = trial.run("{= $_=1 =}", "status", env={"PYTHONIOENCODING": "latin-1", "PYTHONUTF8": "0"})
    trial.judge(done.returncode == 1 and b"refused" in done.stdout, "latin-1", done.stdout + done.stderr)


def many_users(trial: Trial) -> None:
    """ssh is as the user has it, and jobs can be loaded by another user."""
    put(trial.path("archives", "a.warc"), page())
    log = trial.path("ssh.log")
    tools = os.path.dirname(put_script(trial.path("tools", "ssh"), 'echo "$@" >> %s\nexit 255\n' % log))
    env = {"PATH": tools + ":" + os.environ["PATH"]}
    trial.run("c", "run", "--sshlogin", "1/far.example", trial.path("archives"), env=env, seconds=120)
    said = read(log)
    trial.judge(b"far.example" in said and b"StrictHostKeyChecking" not in said, "the words for ssh", said)
    jobs = os.fsdecode(trial.run("d", "plan", trial.path("archives")).stdout.strip())
    subprocess.run(["sh", "-c", 'umask 022; exec "$0" "$@"', trial.script, "job", jobs, "1"], check=True)
    mode = stat.S_IMODE(os.stat(jobs + "/done/1").st_mode)
    trial.judge(mode == 0o755, "the mode of a job", oct(mode))


def old_runs(trial: Trial) -> None:
    """`prune` drops what earlier runs found of single files, and keeps the sums of each run."""
    put(trial.path("archives", "a.warc"), page())
    for _ in range(6):
        trial.run("c", "run", "--all", trial.path("archives"))
    done = trial.run("c", "prune", "--keep", "2")
    trial.judge(done.returncode == 0 and trial.count("c", "checks") == 2, "checks", trial.count("c", "checks"))
    trial.run("c", "report", trial.path("r.html"))
    for section in (b"Fixity from run to run", b"Payloads from run to run"):
        part = read(trial.path("r.html")).partition(section)[2].partition(b"</table>")[0]
        runs = re.findall(rb"<tr><td>(\d)</td>", part)
        trial.judge(runs == [b"6", b"5", b"4", b"3", b"2", b"1"], "the report", (section, runs))
    trial.judge(trial.count("c", "runs") == 6, "runs")
    done = trial.run("c", "find", URI.decode())
    trial.judge(done.stdout.count(b"\n") == 1, "find", done.stdout)


def many_kinds(trial: Trial) -> None:
    """The report takes no longer than its rows, however many types and hosts a hostile file has."""
    put(trial.path("archives", "a.warc"), page())
    trial.run("c", "run", trial.path("archives"))
    with contextlib.closing(trial.base("c")) as base:
        rows = [(1, "2020", "kind-%d" % number, 1, 1) for number in range(60_000)]
        base.executemany("INSERT INTO years VALUES (?, ?, ?, ?, ?)", rows)
        base.executemany("INSERT INTO hosts VALUES (?, ?, ?, ?)", [(1, kind, 1, 1) for _, _, kind, _, _ in rows])
        base.commit()
    done = trial.run("c", "report", trial.path("r.html"), seconds=60)
    text = read(trial.path("r.html")).decode("utf-8")
    trial.judge(done.returncode == 0 and "other <b>59\u202f993" in text, "the report", done.stderr)


# Coded bodies

TEXT = b"<p>a page</p>" * 50
CHUNKED = b"%x\r\n%s\r\n0\r\n\r\n"
CODINGS: Dict[str, Tuple[bytes, bytes, bytes]] = {
    "gzip": (b"Content-Encoding: gzip\r\n", gzip.compress(TEXT), TEXT),
    "chunked": (b"Transfer-Encoding: chunked\r\n", CHUNKED % (len(TEXT), TEXT), TEXT),
    "none": (b"", TEXT, TEXT),
    "both": (
        b"Transfer-Encoding: chunked\r\nContent-Encoding: gzip\r\n",
        CHUNKED % (len(gzip.compress(TEXT)), gzip.compress(TEXT)),
        TEXT,
    ),
    "unknown": (b"Content-Encoding: \xc2\x9b31m\xe2\x80\xae coded x=y\r\n", b"abc", b""),
    "cut": (b"Content-Encoding: gzip\r\n", gzip.compress(TEXT)[:-9], b""),
}


def coded_pages(trial: Trial) -> None:
    """Makes an archive with a page for each way of coding, and another one with a revisit of each."""
    fields = {"content_type": "application/http;msgtype=response"}
    pages, revisits = b"", b""
    for number, (name, (head, body, _)) in enumerate(CODINGS.items(), 1):
        data, target = b"HTTP/1.1 200 OK\r\n" + head + b"\r\n" + body, URI + name.encode()
        pages += record("response", number, DATE, target, data, **fields)
        named = {"WARC_Profile": REVISIT, "WARC_Refers_To": "<urn:uuid:00000000-0000-4000-8000-%012d>" % number}
        revisits += record("revisit", number + 20, "2021-01-01T00:00:00Z", target, HEAD, **fields, **named)
    put(trial.path("archives", "pages.warc.gz"), gzip.compress(pages))
    put(trial.path("archives", "revisits.warc"), revisits)


def stored_bodies(trial: Trial) -> None:
    """A coded body is given as it is stored, also of a revisit in another file. Its codings are named, and escaped."""
    coded_pages(trial)
    trial.run("c", "run", trial.path("archives"))
    for name, (head, body, _) in CODINGS.items():
        for date in ("2020", "9999"):
            done = trial.run("c", "replay", "--stored", URI.decode() + name, date)
            trial.judge(done.stdout == body and done.returncode == 0, "%s as of %s" % (name, date), done.stderr)
            said = b"coded " in done.stderr and all(it in done.stderr for it in (b"gzip", b"chunked") if it in head)
            trial.judge(said == bool(head), "the codings of " + name, done.stderr)
            text = done.stderr.decode("utf-8", "replace")
            is_safe = all(it.isprintable() or it == "\n" for it in text) and text.count("\nchosen") == 0
            trial.judge(is_safe, "what is said of " + name, done.stderr)
        done = trial.run("c", "replay", URI.decode() + name, "9999")
        is_right = done.stdout == b"" and b"P10 Coded" in done.stderr and b"--stored" in done.stderr
        trial.judge(is_right if head else done.stdout == TEXT, "without --stored: " + name, done.stderr)
        trial.judge(done.returncode == (1 if head else 0), "the status: " + name, done.returncode)
    done = trial.run("c", "replay", "--stored", "--decoded", URI.decode(), "9999")
    trial.judge(done.returncode == 2, "--stored and --decoded", done.stderr)


def decoded_bodies(trial: Trial) -> None:
    """Codings are undone by the Python package, which is labelled; where it isn't there a sentence says so."""
    coded_pages(trial)
    trial.run("c", "run", trial.path("archives"))
    for name in ("raise ImportError('no library')", "", "none"):
        if name != "none":
            put(trial.path("path " + name, "zogwedu", "__init__.py"), name.encode())
        env = {"PYTHONPATH": trial.path("path " + name)}
        done = trial.run("c", "replay", "--decoded", URI.decode() + "gzip", "2020", env=env)
        is_right = (done.returncode, done.stdout) == (3, b"") and b"needs the Python package zogwedu" in done.stderr
        trial.judge(is_right, "no package", done.stdout + done.stderr)
    if not os.path.exists(PACKAGE + "/zogwedu/libwarc.so"):
        print("--decoded: left out, since make python wasn't run", flush=True)
        return
    for name, (head, _, body) in CODINGS.items():
        for date in ("2020", "9999"):
            words = "replay", "--decoded", URI.decode() + name, date
            done = trial.run("c", *words, env={"PYTHONPATH": PACKAGE})
            is_given = (done.returncode, done.stdout) == ((0, body) if body else (3, b""))
            trial.judge(is_given, "%s as of %s" % (name, date), done.stdout + done.stderr)
            is_said = (b"\nundone " in done.stderr) == bool(head and body)
            trial.judge(is_said and b"\x9b" not in done.stderr, "what is said of " + name, done.stderr)
    segments_and_sizes(trial)


def segments_and_sizes(trial: Trial) -> None:
    """What isn't decoded, and is said to be had as it is stored: a body in segments, and one that becomes too long."""
    head = b"HTTP/1.1 200 OK\r\nContent-Encoding: gzip\r\n\r\n"
    fields = {"content_type": "application/http;msgtype=response"}
    whole = put(trial.path("whole.warc"), record("response", 1, DATE, URI + b"segments", head + b"x" * 900, **fields))
    bomb = gzip.compress(gzip.compress(bytes(1 << 30)) + gzip.compress(b"x"))
    twice = head.replace(b"gzip", b"gzip, gzip")
    put(trial.path("other", "bomb.warc"), record("response", 2, DATE, URI + b"bomb", twice + bomb, **fields))
    with open(trial.path("other", "segments.warc"), "wb") as out:
        subprocess.run([trial.warc, "split", whole, "300"], stdout=out, check=True)
    trial.run("d", "run", trial.path("other"))
    for name in ("segments", "bomb"):
        done = trial.run("d", "replay", "--decoded", URI.decode() + name, "9999", env={"PYTHONPATH": PACKAGE})
        is_right = (done.returncode, done.stdout) == (3, b"") and b"--stored" in done.stderr
        trial.judge(is_right, name, done.stderr)
        done = trial.run("d", "replay", "--stored", URI.decode() + name, "9999")
        trial.judge(done.stdout == (bomb if name == "bomb" else b"x" * 900), name + " as stored", done.stderr)


def agreeing_files(trial: Trial) -> None:
    """Two copies of a file agree, whatever words are in their paths."""
    for folder in ("a status b", "c"):
        put(trial.path("archives", folder, "a.warc"), page())
    trial.run("c", "run", trial.path("archives"))
    done = trial.run("c", "replay", URI.decode(), "9999")
    trial.judge((done.returncode, done.stdout) == (0, b"abc") and b"\nagrees: " in done.stderr, "a copy", done.stderr)


# Damaged files

DAMAGE = b"what a disk left of a record\0\r\n\r\n"
AFTER = URI + b"after"


def damaged_archive() -> bytes:
    """Three good records, with damage between the first two and at the end; the last one states a wrong digest."""
    last = record("resource", 3, DATE, URI + b"last", b"last", block_digest="sha1:" + "A" * 32)
    return page(1) + DAMAGE + page(2, b"after the damage", AFTER) + last + page(4, target=URI + b"cut")[:-9]


def good_records(trial: Trial, path: str) -> bytes:
    """The good records of a file, as the program writes them."""
    return subprocess.run([trial.warc, "salvage", "--all", path], capture_output=True, check=False).stdout


def damaged_files(trial: Trial) -> None:
    """The good records of a damaged file are found and replayed, and each answer is marked. Their positions are those
    that the program gives them."""
    plain = put(trial.path("archives", "plain\n\x1b[31m.warc"), damaged_archive())
    put(trial.path("archives", "member.warc.gz"), gzip.compress(damaged_archive().replace(URI, URI + b"gz/")))
    frame = packed("zstd", damaged_archive().replace(URI, URI + b"zst/"))
    put(trial.path("archives", "frame.warc.zst"), frame)
    done = trial.run("c", "run", trial.path("archives"))
    trial.judge(done.returncode == 1 and b"refused\t3\t" in done.stdout, "the states", done.stdout + done.stderr)
    rows = trial.ask("c", "SELECT good_records, good_bytes, damages, damaged, list_status FROM checks")
    saved = good_records(trial, plain)
    lost = len(damaged_archive()) - len(saved)
    trial.judge((3, len(saved), 2, lost, 2) in rows and len(rows) == 3, "the numbers", rows)
    words = "3 good records, %d bytes; 2 damages, %d bytes" % (len(saved), lost)
    trial.judge(words in trial.detail("c") and "digest" in trial.detail("c"), "the words", trial.detail("c"))
    bad = sum(int(str(row[3])) for row in rows)
    is_right = b"damaged\t%d\t" % bad in done.stdout and b" 9 good records, " in done.stdout
    trial.judge(is_right, "status", done.stdout)
    about = json.loads(trial.run("c", "status", "--json").stdout)
    trial.judge((about.get("good_records"), about.get("damaged")) == (9, bad), "status --json", about)
    for way in (b"", b"gz/", b"zst/"):
        judge_damaged(trial, (URI + way).decode())
    position = trial.ask("c", "SELECT position FROM captures WHERE target = ?", AFTER.decode())[0][0]
    put(trial.path("saved.warc"), saved)
    words_of_body = [trial.warc, "body", trial.path("saved.warc"), str(position)]
    body = subprocess.run(words_of_body, capture_output=True, check=False).stdout
    trial.judge(body == b"after the damage", "its position", body)


def judge_damaged(trial: Trial, uri: str) -> None:
    """What is found and replayed of a damaged file."""
    done = trial.run("c", "find", uri + "after")
    trial.judge(done.stdout.endswith(b"\tdamaged\n") and done.returncode == 0, "find", done.stdout + done.stderr)
    trial.judge(b"may have it" in done.stderr and b"\x1b" not in done.stdout + done.stderr, "its file", done.stderr)
    about = json.loads(trial.run("c", "find", "--json", uri + "after").stdout or b"{}")
    trial.judge(about.get("damaged", 0) > 0, "find --json", about)
    done = trial.run("c", "replay", uri + "after", "9999")
    is_right = (done.returncode, done.stdout) == (0, b"after the damage") and b"\ndamaged: /" in done.stderr
    trial.judge(is_right and b"\x1b" not in done.stderr, "replay", done.stdout + done.stderr)
    done = trial.run("c", "replay", uri + "last", "9999")
    trial.judge((done.returncode, done.stdout) == (1, b"") and b"P8" in done.stderr, "a bad digest", done.stderr)
    done = trial.run("c", "replay", uri + "cut", "9999")
    trial.judge((done.returncode, done.stdout) == (1, b"") and b"P1" in done.stderr, "what is damaged", done.stderr)


def joined_damaged_files(trial: Trial) -> None:
    """A revisit leads to a good record of a damaged file, and one in a damaged file to another file."""
    named = {"WARC_Profile": REVISIT, "content_type": "application/http;msgtype=response"}
    ids = ["<urn:uuid:00000000-0000-4000-8000-%012d>" % number for number in (2, 8)]
    first = record("revisit", 7, "2021-01-01T00:00:00Z", AFTER, HEAD, WARC_Refers_To=ids[0], **named)
    put(trial.path("archives", "revisit.warc"), first + page(8, b"elsewhere", URI + b"8"))
    second = record("revisit", 9, "2021-01-01T00:00:00Z", URI + b"8", HEAD, WARC_Refers_To=ids[1], **named)
    damaged = put(trial.path("archives", "damaged.warc.gz"), gzip.compress(damaged_archive() + DAMAGE + second))
    trial.run("c", "run", trial.path("archives"))
    for target, body in ((AFTER, b"after the damage"), (URI + b"8", b"elsewhere")):
        done = trial.run("c", "replay", target.decode(), "9999")
        is_right = (done.returncode, done.stdout) == (0, body) and b"\njoined /" in done.stderr
        trial.judge(is_right, "replay of %s" % target.decode(), done.stderr)
        trial.judge(done.stderr.endswith(b"\ndamaged: %s\n" % damaged.encode()), "its mark", done.stderr)


def later_damage(trial: Trial) -> None:
    """A file that is damaged later is altered. Once it is accepted it has the rows of its good records; where it can't
    be read any more, the marks say both. Where nothing of it is good it is altered, and nothing can be accepted."""
    path = put(trial.path("archives", "a.warc"), page(1) + page(2, b"after the damage", AFTER))
    trial.run("c", "run", trial.path("archives"))
    put(path, DAMAGE + page(2, b"after the damage", AFTER))
    trial.run("c", "run")
    is_right = trial.states("c") == {"a.warc": "altered"} and "; refused: F1 Version at 0" in trial.detail("c")
    trial.judge(is_right, "a damaged file", trial.detail("c"))
    done = trial.run("c", "find", AFTER.decode())
    is_right = (done.returncode, done.stdout) == (1, b"") and b"a.warc (altered" in done.stderr
    trial.judge(is_right, "no answer from it", done.stdout + done.stderr)
    done = trial.run("c", "accept", path)
    trial.judge(done.returncode == 0 and trial.states("c") == {"a.warc": "refused"}, "accepted", done.stderr)
    trial.judge(trial.count("c", "captures") == trial.count("c", "records") == 1, "its rows")
    done = trial.run("c", "find", URI.decode())
    trial.judge(done.returncode == 1 and b"may have it" in done.stderr, "what was lost", done.stderr)
    os.chmod(path, 0)
    trial.run("c", "run", before=LESS)
    done = trial.run("c", "find", AFTER.decode())
    trial.judge(b"\tdamaged, read on 2" in done.stdout, "no permission", done.stdout)
    os.chmod(path, 0o644)
    put(path, DAMAGE * 9)
    trial.run("c", "run")
    is_right = trial.states("c") == {"a.warc": "altered"} and "0 good records, 0 bytes; 1 damage" in trial.detail("c")
    trial.judge(is_right, "no good record", trial.detail("c"))
    done = trial.run("c", "accept", path)
    trial.judge(done.returncode == 1 and b"no new reading" in done.stderr, "nothing to accept", done.stderr)
    done = trial.run("c", "replay", AFTER.decode(), "9999")
    trial.judge((done.returncode, done.stdout) == (1, b"") and b"may have it" in done.stderr, "replay", done.stderr)
    put(path, page(2, b"after the damage", AFTER))
    done = trial.run("c", "run")
    found = trial.run("c", "find", AFTER.decode()).stdout
    trial.judge(done.returncode == 0 and found.endswith(b"\t-\n"), "a good copy", done.stdout + found)
    trial.judge(b"damaged" not in done.stdout, "its status", done.stdout)


def damage_without_room(trial: Trial) -> None:
    """Where there is no room for the good records of a damaged file, its captures aren't known, and it is read again.
    What has no room when it is replayed gives nothing."""
    block = bytes(range(256)) * 800
    put(trial.path("archives", "a.warc"), DAMAGE + page(1, block))
    put(trial.path("archives", "b.warc.gz"), gzip.compress(DAMAGE + page(2, block, AFTER)))
    with small_disk(trial.path("disk"), "64k") as disk:
        done = trial.run("c", "run", "--temporary", disk, trial.path("archives"))
    is_right = trial.states("c") == {"a.warc": "no-room", "b.warc.gz": "no-room"} and "F1 Version" in trial.detail("c")
    trial.judge(is_right and done.returncode == 1, "the states", done.stdout + done.stderr)
    done = trial.run("c", "find", URI.decode())
    trial.judge(done.returncode == 1 and done.stderr.count(b"may have it") == 2, "find", done.stderr)
    done = trial.run("c", "run")
    trial.judge(to_read(done) == 2 and b"refused\t2" in done.stdout, "with room", done.stdout + done.stderr)
    for target in (URI, AFTER):
        with small_disk(trial.path("disk"), "64k") as disk:
            done = trial.run("c", "replay", "--temporary", disk, target.decode(), "9999")
        is_right = (done.returncode, done.stdout) == (3, b"") and b"No space left" in done.stderr
        trial.judge(is_right, "a replay without room", done.stderr)
        done = trial.run("c", "replay", target.decode(), "9999")
        trial.judge(done.stdout == block, "a replay with room", done.stderr)


def changed_damaged_file(trial: Trial) -> None:
    """A damaged file that changes while it is read, or while it is replayed, gives nothing; nor does a program that
    fails, or that finds other records than before."""
    path = put(trial.path("archives", "a.warc"), damaged_archive())
    more = put(trial.path("more"), page(5))
    text = '[ "$1 $2" = "salvage --all" ] && {\n%s\n}\nexec %s "$@"\n'
    ways = {
        "changing": "cat %s >> %s" % (more, path),
        "killed": "kill -9 $$",
        "fails": "echo 'warc: F13 Read at 5' >&2; exit 3",
        "fewer": "exec cat %s" % put(trial.path("data", "fewer"), page(1)),
        "other": "exec cat %s" % put(trial.path("data", "other"), page(1) * 3),
        "refused": "head -c 99 %s; exit 2" % more,
    }
    for name, words in ways.items():
        ways[name] = put_script(trial.path("warc-" + name), text % (words, trial.warc))
        done = trial.run(name, "run", "--warc", ways[name], trial.path("archives"))
        state = "changing" if name == "changing" else "failed"
        trial.judge(trial.states(name) == {"a.warc": state}, name, done.stdout + done.stderr)
        trial.judge(trial.count(name, "records") == trial.count(name, "readings") == 0, "its rows: " + name)
        put(path, damaged_archive())
    trial.run("c", "run", trial.path("archives"))
    for name in ("killed", "fails", "fewer", "refused", "changing"):
        done = trial.run("c", "replay", "--warc", ways[name], AFTER.decode(), "9999")
        trial.judge((done.returncode, done.stdout) == (3, b""), "a replay: " + name, done.stdout + done.stderr)


def many_damages(trial: Trial) -> None:
    """Of thousands of damages the program says a line each. Neither run nor replay waits for one who reads them."""
    pages = (b"x" + page(number, target=URI + b"%d" % number) for number in range(5000))
    put(trial.path("archives", "a.warc"), b"".join(pages))
    done = trial.run("c", "run", trial.path("archives"), seconds=300)
    trial.judge(
        b"5000 good records, " in done.stdout and b"5000 damages, 5000 bytes" in done.stdout, "run", done.stdout
    )
    done = trial.run("c", "replay", URI.decode() + "4321", "9999", seconds=300)
    trial.judge((done.returncode, done.stdout) == (0, b"abc"), "replay", done.stderr[-500:])


def slow_pieces(trial: Trial) -> None:
    """A look for good records that takes too long is ended. The file stays refused, and others are read."""
    put(trial.path("archives", "a.warc"), damaged_archive())
    for name, command in (("c", "pieces -"), ("d", "salvage --all")):
        text = '[ "$1 $2" = "%s" ] && exec sleep 300\nexec %s "$@"\n' % (command, trial.warc)
        slow = put_script(trial.path("warc " + command), text)
        done = trial.run(name, "run", "--warc", slow, trial.path("archives"), seconds=120)
        is_right = trial.states(name) == {"a.warc": "refused"} and "took more than 60 s" in trial.detail(name)
        trial.judge(is_right and trial.count(name, "records") == 0, command, done.stdout + done.stderr)


def unknown_pieces(trial: Trial) -> None:
    """A program that gives no list of pieces isn't believed."""
    put(trial.path("archives", "a.warc"), damaged_archive())
    lists = (b"records\t0\t9", b"records\t0\t9\t1", b"records\t0\tx\t1\n", b"gaps\t0\t9\t1\n", b"\xff\n", b"")
    for number, data in enumerate(lists):
        text = '[ "$1" = pieces ] && exec cat %s\nexec %s "$@"\n'
        listing = put(trial.path("list %d" % number), data)
        other = put_script(trial.path("warc%d" % number), text % ("'%s'" % listing, trial.warc))
        done = trial.run("c%d" % number, "run", "--warc", other, trial.path("archives"))
        trial.judge(trial.states("c%d" % number) == {"a.warc": "failed"}, data, done.stdout)


# A night that can be green


def revisits_of_wget(trial: Trial) -> None:
    """A revisit with the digest of no bytes isn't bad; a response with it is, and so is another digest."""
    revisit = {"content_type": "application/http;msgtype=response", "WARC_Profile": REVISIT}
    revisit["WARC_Refers_To"] = "<urn:uuid:00000000-0000-4000-8000-000000000001>"
    first = record("response", 1, DATE, URI, HEAD + b"x", content_type="application/http;msgtype=response")
    wget = record("revisit", 2, DATE, URI, HEAD, block_digest=NO_BYTES, **revisit)
    put(trial.path("good", "wget.warc"), first + wget)
    done = trial.run("c", "run", trial.path("good"))
    trial.judge(done.returncode == 0 and trial.states("c") == {"wget.warc": "good"}, "wget", done.stdout)
    trial.judge(b"no-bytes\t1\t" in done.stdout, "they are counted", done.stdout)
    put(trial.path("bad", "response.warc"), record("resource", 3, DATE, URI, b"x", block_digest=NO_BYTES))
    other = record("revisit", 4, DATE, URI, HEAD, block_digest="sha1:" + "A" * 32, **revisit)
    put(trial.path("bad", "revisit.warc"), first + wget + other)
    trial.run("c", "run", trial.path("good"), trial.path("bad"))
    states = trial.states("c")
    trial.judge(states["response.warc"] == states["revisit.warc"] == "bad", "what is bad", states)


def moves(trial: Trial) -> None:
    """A file that was moved is known again; one that was removed can be forgotten."""
    path = put(trial.path("archives", "a.warc"), page() + page(2, b"more"))
    same = put(trial.path("archives", "same.warc"), page(3) + page(4, b"mine"))
    trial.run("c", "run", trial.path("archives"))
    os.makedirs(trial.path("archives", "new"))
    shutil.copy(path, trial.path("archives", "new", "b.warc"))
    os.unlink(path)
    os.unlink(same)
    done = trial.run("c", "run")
    trial.judge(trial.states("c") == {"b.warc": "good", "same.warc": "gone"}, "a move", trial.states("c"))
    rows = trial.ask("c", "SELECT change FROM changes WHERE run = 2 ORDER BY change")
    trial.judge(rows == [("gone",), ("moved",)] and done.returncode == 1, "the changes", rows)
    trial.judge(trial.count("c", "captures") == 4, "the captures", trial.count("c", "captures"))
    done = trial.run("c", "forget", trial.path("archives", "new"))
    trial.judge(done.returncode == 1 and trial.count("c", "files") == 2, "a file that is there", done.stderr)
    done = trial.run("c", "forget", same)
    trial.judge(done.returncode == 0 and trial.count("c", "files") == 1, "forget", done.stderr)
    done = trial.run("c", "run")
    trial.judge(done.returncode == 0 and b"gone" not in done.stdout, "the night after", done.stdout)


def listed_files(trial: Trial) -> None:
    """A file that a list names is in the collection: `forget` leaves it, also where the list can't be read."""
    path, gone = (put(trial.path("archives", name), page()) for name in ("a.warc", "b.warc"))
    names = put(trial.path("names"), os.fsencode("%s\n%s\n" % (path, gone)))
    trial.run("c", "run", "--files", names)
    os.unlink(gone)
    trial.run("c", "run")
    done = trial.run("c", "forget", trial.path("archives"))
    is_right = done.returncode == 1 and b"a.warc is in the collection" in done.stderr
    trial.judge(is_right and trial.states("c") == {"a.warc": "good"}, "a list", done.stderr)
    os.rename(names, names + ".away")
    done = trial.run("c", "forget", path)
    trial.judge(done.returncode == 1 and trial.count("c", "captures") == 1, "a list that is missing", done.stderr)
    put(names, b"other\n")
    done = trial.run("c", "forget", path)
    trial.judge(done.returncode == 0 and trial.count("c", "captures") == 0, "a list without it", done.stderr)


def relative_names(trial: Trial) -> None:
    """A relative name of a list means the file that it meant when the list was given, wherever a later run begins."""
    path = put(trial.path("archives", "a.warc"), page())
    names = put(trial.path("names"), b"archives/a.warc\n")
    there = ("sh", "-c", 'cd "$0" && exec "$@"')
    done = trial.run("c", "run", "--files", names, before=(*there, trial.path()))
    trial.judge(done.returncode == 0 and to_read(done) == 1, "the first run", done.stderr)
    put(path, page() + page(2, b"more", URI + b"2")[:-1])
    done = trial.run("c", "run", before=(*there, "/"))
    is_right = done.returncode == 1 and trial.states("c") == {"a.warc": "refused"}
    trial.judge(is_right, "a run from elsewhere", done.stdout + done.stderr)
    put(path, page())
    done = trial.run("c", "run", "--files", names, before=(*there, trial.path("archives")))
    trial.judge(b"archives/archives/a.warc" in done.stderr, "the list is given anew", done.stderr)


def missing_names(trial: Trial) -> None:
    """A list that names files which never were there isn't one of good files, as after a move to lines with CR."""
    path = put(trial.path("archives", "a.warc"), page())
    for name, end in (("c", "\r\n"), ("d", "\n")):
        names = put(trial.path("names-" + name), os.fsencode(path + end))
        done = trial.run(name, "run", "--files", names)
        is_right = done.returncode == (3 if end == "\r\n" else 0) and to_read(done) == len("\r\n") - len(end)
        trial.judge(is_right, "lines that end with %r" % end, done.stdout + done.stderr)
    os.unlink(path)
    done = trial.run("d", "run")
    trial.judge(done.returncode == 1 and trial.states("d") == {"a.warc": "gone"}, "one that was there", done.stderr)


def named_files(trial: Trial) -> None:
    """Files with findings are named; files that can't be read are named where they may have the URI."""
    put(trial.path("archives", "found.warc"), page(1) + page(1))
    put(trial.path("archives", "torn.warc"), page(2, target=URI + b"torn")[:-9])
    done = trial.run("c", "run", trial.path("archives"))
    trial.judge(
        b"findings\t%s" % os.fsencode(trial.path("archives", "found.warc")) in done.stdout, "status", done.stdout
    )
    trial.judge(b"found.warc" in read(trial.path("c", "report.html")), "the report")
    done = trial.run("c", "find", URI.decode() + "torn")
    trial.judge(b"torn.warc" in done.stderr and b"found.warc" not in done.stderr, "find", done.stderr)
    os.unlink(trial.path("archives", "torn.warc"))
    trial.run("c", "run")
    done = trial.run("c", "find", URI.decode())
    trial.judge(
        b"torn.warc" not in done.stderr and b"can't be given" not in done.stderr, "a file that is gone", done.stderr
    )


def rot(trial: Trial) -> None:
    """Bytes that change under an old time stamp are seen by the digest of the whole file, until they are back."""
    data = record("resource", 1, DATE, URI, b"abc", block_digest="-")
    path = put(trial.path("archives", "a.warc"), data + page(2, target=URI + b"2"))
    trial.run("c", "run", trial.path("archives"))
    done = trial.run("c", "run", "--digest")
    trial.judge(to_read(done) == 1, "the first digest", done.stderr)
    before = os.stat(path)
    for text, state in ((b"axc", "rotten"), (b"axc", "rotten"), (b"abc", "unchecked")):
        put(path, data.replace(b"abc", text) + page(2, target=URI + b"2"))
        os.utime(path, ns=(before.st_atime_ns, before.st_mtime_ns))
        done = trial.run("c", "run", "--digest", "--all")
        trial.judge(trial.states("c") == {"a.warc": state}, "bytes %s" % text.decode(), done.stdout + done.stderr)
        if state == "rotten":
            done = trial.run("c", "replay", URI.decode(), "9999")
            trial.judge((done.returncode, done.stdout) == (3, b""), "a replay of rotten bytes", done.stderr)


def rot_beside_failures(trial: Trial) -> None:
    """A rotten file stays rotten, also where it couldn't be read or wasn't there meanwhile; another file in its place
    isn't rotten."""
    data = record("resource", 1, DATE, URI, b"abc", block_digest="-")
    path = put(trial.path("archives", "a.warc"), data)
    put(trial.path("archives", "b.warc"), page(2))
    trial.run("c", "run", "--digest", trial.path("archives"))
    before = os.stat(path)
    put(path, data.replace(b"abc", b"axc"))
    os.utime(path, ns=(before.st_atime_ns, before.st_mtime_ns))
    trial.run("c", "run", "--all", "--digest")
    trial.judge(trial.states("c")["a.warc"] == "rotten", "other bytes", trial.states("c"))
    os.chmod(path, 0)
    trial.run("c", "run", "--all", before=LESS)
    trial.judge(trial.states("c")["a.warc"] == "failed", "no permission", trial.states("c"))
    os.chmod(path, 0o644)
    trial.run("c", "run")
    trial.judge(trial.states("c")["a.warc"] == "rotten", "after a failure", trial.states("c"))
    os.rename(path, trial.path("away"))
    trial.run("c", "run")
    os.rename(trial.path("away"), path)
    trial.run("c", "run")
    trial.judge(trial.states("c")["a.warc"] == "rotten", "back again", trial.states("c"))
    for _ in range(3):
        os.chmod(path, 0)
        trial.run("c", "run", "--all", before=LESS)
    trial.run("c", "prune", "--keep", "1")
    os.chmod(path, 0o644)
    trial.run("c", "run")
    trial.judge(trial.states("c")["a.warc"] == "rotten", "after prune", trial.states("c"))
    put(path, data.replace(b"abc", b"xyz"))
    os.chmod(path, 0)
    trial.run("c", "run", before=LESS)
    os.chmod(path, 0o644)
    trial.run("c", "run")
    trial.judge(trial.states("c")["a.warc"] == "altered", "another file", trial.states("c"))


# The digest of `abc` in hexadecimal digits, with which a payload is good, and others.
ABC = "md5:900150983cd24fb0d6963f7d28e17f72"
CHUNKED = b"HTTP/1.1 200 OK\r\nTransfer-Encoding: chunked\r\n\r\n3\r\nabc\r\n0\r\n\r\n"


def with_payload(number: int, digest: str, kind: str = "resource", block: bytes = b"abc") -> bytes:
    return record(kind, number, DATE, URI, block, WARC_Payload_Digest=digest)


def payload_files() -> Dict[str, Tuple[bytes, str, str]]:
    """Archives with payload digests, and the state and the words that are expected of each."""
    other, odd = ABC[:-1] + "3", with_payload(1, "odd digest").replace(b"odd digest", b"od:\td\xff'\t<i>")
    alone = with_payload(1, ABC)
    return {
        "good": (alone + with_payload(2, ABC, "response", HEAD + b"abc"), "good", ""),
        "bad": (alone + with_payload(2, other) + page(3), "bad", "1 payload doesn't have its digest"),
        "coded": (alone + with_payload(2, ABC, "response", CHUNKED), "good", ""),
        "request": (with_payload(1, ABC, "request", b"GET / HTTP/1.1\r\n\r\n"), "good", ""),
        "odd": (odd, "findings", "1 finding"),
        "both": (
            with_payload(1, other) + record("resource", 2, DATE, URI, b"x", block_digest=ABC),
            "bad",
            "1 block doesn't have its digest; 1 payload doesn't have its digest",
        ),
        "damaged": (b"x" + with_payload(1, other) + alone.replace(b"000000000001>", b"000000000002>"), "refused", ""),
    }


def payload_digests(trial: Trial) -> None:
    """A payload with another digest makes a file bad; one that can't be checked is counted, and no request is."""
    files = payload_files()
    for name, (data, _, _) in files.items():
        put(trial.path("archives", name + ".warc"), data)
    done = trial.run("c", "run", trial.path("archives"))
    states = {str(name).split(".")[0]: state for name, state in trial.states("c").items()}
    asked = trial.ask("c", "SELECT path, detail FROM files")
    details = {os.path.basename(str(path)): str(detail) for path, detail in asked}
    for name, (_, state, words) in files.items():
        detail = details[name + ".warc"]
        trial.judge(states[name] == state and (not words or detail == words), name, (states[name], detail))
    trial.judge(done.returncode == 1 and "1 payload doesn't" in str(details), "the run", done.stderr)
    query = "SELECT path, %s FROM %s JOIN files USING (file) ORDER BY path, position"
    rows = [(os.path.basename(str(row[0])), *row[1:]) for row in trial.ask("c", query % (PAYLOAD, "payloads"))]
    trial.judge(rows == payloads_expected(), "the rows", rows)
    counts = "SELECT path, payloads_good, payloads_unchecked, payloads_bad FROM readings JOIN files USING (file)"
    found = {os.path.basename(str(row[0]))[:-5]: row[1:] for row in trial.ask("c", counts)}
    expected = {"good": (2, 0, 0), "bad": (1, 0, 1), "coded": (1, 1, 0), "request": (0, 1, 0), "odd": (0, 1, 0)}
    trial.judge(found == dict(expected, both=(0, 0, 1), damaged=(1, 0, 1)), "the counts", found)
    sums = trial.ask("c", "SELECT payloads_good, payloads_unchecked, payloads_bad FROM runs")
    trial.judge(sums == [(5, 3, 3)], "the sums of the run", sums)
    with open(trial.path("c", "report.html"), encoding="utf-8") as file:
        report = file.read()
    trial.judge("Payloads from run to run" in report and "\t<i>" not in report, "the report")


PAYLOAD = "position, verdict, id, reason, payloads.digest"


def payloads_expected() -> List[Tuple[object, ...]]:
    """The rows of payloads that the catalogue should have."""
    name, other = "urn:uuid:00000000-0000-4000-8000-%012d", ABC[:-1] + "3"
    return [
        ("bad.warc", 1, "bad", name % 2, None, other),
        ("both.warc", 0, "bad", name % 1, None, other),
        ("coded.warc", 1, "unchecked", name % 2, "coded", ABC),
        ("damaged.warc", 0, "bad", name % 1, None, other),
        ("odd.warc", 0, "unchecked", name % 1, "algorithm", b"od:\td\xff'\t<i>"),
    ]


def payloads_without_room(trial: Trial) -> None:
    """A pipe isn't read for payloads: they aren't known of a file that there was no room to unpack, until there is."""
    put(trial.path("archives", "a.warc.gz"), gzip.compress(with_payload(1, ABC, block=b"x" * 100_000)))
    with small_disk(trial.path("disk"), "64k") as disk:
        done = trial.run("c", "run", "--temporary", disk, trial.path("archives"))
    trial.judge(b"no-room\t1" in done.stdout, "the state", done.stdout)
    trial.judge((trial.count("c", "payloads"), trial.count("c", "readings")) == (0, 0), "nothing of payloads")
    trial.judge(trial.ask("c", "SELECT payloads_status FROM checks") == [(None,)], "the status")
    done = trial.run("c", "run")
    trial.judge(
        trial.states("c") == {"a.warc.gz": "bad"} and trial.count("c", "payloads") == 1, "with room", done.stdout
    )
    trial.judge(trial.ask("c", "SELECT payloads_status FROM checks WHERE run = 2") == [(1,)], "the status with room")


def program_without_payloads(trial: Trial) -> None:
    """A program whose survey has no payloads makes a file failed, and its rows stay."""
    put(trial.path("archives", "a.warc"), with_payload(1, ABC))
    trial.run("c", "run", trial.path("archives"))
    old = '[ "$1" = survey ] || exec %s "$@"\n%s "$@" | sed "/^# payloads/,\\$d"\n' % (trial.warc, trial.warc)
    done = trial.run("c", "run", "--all", "--warc", put_script(trial.path("old-warc"), old))
    is_right = trial.states("c") == {"a.warc": "failed"} and "no line '# payloads'" in trial.detail("c")
    trial.judge(is_right and done.returncode == 1, "the state", trial.detail("c"))
    rows = trial.ask("c", "SELECT payloads_good FROM readings")
    trial.judge(rows == [(1,)] and trial.count("c", "records") == 1, "its rows", rows)


def torn_surveys(trial: Trial) -> None:
    """Where a line with the name of a part is missing or comes twice, the file is failed, and its rows stay."""
    put(trial.path("archives", "a.warc"), page())
    trial.run("c", "run", trial.path("archives"))
    text = '[ "$1" = survey ] || exec %s "$@"\n%s "$@" | %s\n'
    for place, (words, detail) in enumerate(TEARS_OF_SURVEYS.items()):
        torn = put_script(trial.path("torn%d" % place), text % (trial.warc, trial.warc, words))
        done = trial.run("c", "run", "--all", "--warc", torn)
        trial.judge(done.returncode == 1 and trial.states("c") == {"a.warc": "failed"}, words, done.stdout)
        trial.judge("survey: " + detail in trial.detail("c"), "the detail after " + words, trial.detail("c"))
        trial.judge(trial.count("c", "records") == 1, "the rows after " + words)


TEARS_OF_SURVEYS = {
    "sed '/^# list/d'": "its first line isn't '# list'",
    "sed '/^# check/d'": "there is no line '# check' before '# summary'",
    "sed '/^# captures/,$d'": "there is no line '# captures'",
    "sed 's/^# summary/# check/'": "there is a second line '# check'",
    "sed 's/^# summary/# sums/'": "a line that begins with '#' names no part",
    "head -c -1": "a line without an end",
}


COLUMNS_OF_HASHES = {
    "records": "hash packed_at packed_length packed_crc",
    "readings": "found_state found_detail found_sha256 is_hashed seen",
    "files": "due seen state_there detail_there",
}
WITHOUT_HASHES = "INSERT INTO settings SELECT 'paths', json_group_array(path) FROM watched; DROP TABLE watched;"
WITHOUT_HASHES += "DROP TABLE accepted; DROP TABLE acknowledged; DROP TABLE spellings;" + "".join(
    "ALTER TABLE %s DROP COLUMN %s;" % (table, name)
    for table, names in COLUMNS_OF_HASHES.items()
    for name in names.split()
)
WITHOUT_PAYLOADS = "DROP TABLE payloads; ALTER TABLE checks DROP COLUMN payloads_status;" + "".join(
    "ALTER TABLE %s DROP COLUMN payloads_%s;" % (table, name)
    for table in ("runs", "readings")
    for name in ("good", "unchecked", "bad")
)
WITHOUT_PIECES = WITHOUT_PAYLOADS + "".join(
    "ALTER TABLE checks DROP COLUMN %s;" % name for name in ("good_records", "good_bytes", "damages", "damaged")
)


def catalogue_without_payloads(trial: Trial) -> None:
    """A catalogue that knows nothing of payloads goes on, without another reading of its files."""
    put(trial.path("archives", "a.warc"), with_payload(1, ABC) + with_payload(2, ABC[:-1] + "3"))
    trial.run("c", "run", trial.path("archives"))
    with contextlib.closing(trial.base("c")) as base:
        base.executescript(
            WITHOUT_HASHES + WITHOUT_PAYLOADS + "UPDATE files SET state = 'good'; PRAGMA user_version = 3;"
        )
    done = trial.run("c", "status")
    trial.judge(done.returncode == 3 and b"version" in done.stderr, "a question before a run", done.stderr)
    done = trial.run("c", "run")
    trial.judge(done.returncode == 0 and to_read(done) == 0, "a run", done.stdout + done.stderr)
    trial.judge(trial.ask("c", "SELECT payloads_bad FROM readings") == [(None,)], "not known")
    done = trial.run("c", "run", "--all")
    trial.judge(trial.states("c") == {"a.warc": "bad"}, "a run over all", done.stdout)
    trial.judge(trial.ask("c", "SELECT payloads_good, payloads_bad FROM readings") == [(1, 1)], "known")
    trial.judge(trial.run("c", "export", trial.path("tables")).returncode == 0, "an export")


def catalogue_without_pieces(trial: Trial) -> None:
    """A catalogue that knows nothing of good records of damaged files goes on, and these files alone are read."""
    put(trial.path("archives", "a.warc"), page())
    put(trial.path("archives", "b.warc"), damaged_archive())
    trial.run("c", "run", trial.path("archives"))
    with contextlib.closing(trial.base("c")) as base:
        base.executescript(
            WITHOUT_HASHES + "ALTER TABLE readings DROP COLUMN bytes; ALTER TABLE readings DROP COLUMN damaged;"
            "PRAGMA user_version = 2;"
            "DELETE FROM readings WHERE file IN (SELECT file FROM files WHERE state = 'refused');" + WITHOUT_PIECES
        )
    done = trial.run("c", "find", AFTER.decode())
    trial.judge(done.returncode == 3 and b"version" in done.stderr, "a question before a run", done.stderr)
    done = trial.run("c", "run")
    trial.judge(done.returncode == 1 and to_read(done) == 1, "a run", done.stdout + done.stderr)
    done = trial.run("c", "replay", AFTER.decode(), "9999")
    trial.judge(done.stdout == b"after the damage", "a replay", done.stderr)
    done = trial.run("c", "run")
    trial.judge(done.returncode == 1 and to_read(done) == 0, "another run", done.stdout + done.stderr)
    trial.judge(trial.run("c", "export", trial.path("tables")).returncode == 0, "an export")


def older_catalogue(trial: Trial) -> None:
    """A catalogue of version 0.2.0 goes on: its runs and its rows are kept."""
    put(trial.path("archives", "a.warc"), page())
    trial.run("c", "run", trial.path("archives"))
    with contextlib.closing(trial.base("c")) as base:
        base.executescript(
            WITHOUT_HASHES + "ALTER TABLE runs DROP COLUMN hosts; ALTER TABLE runs DROP COLUMN files_read;"
            "ALTER TABLE runs DROP COLUMN seconds; ALTER TABLE runs DROP COLUMN good;"
            "ALTER TABLE runs DROP COLUMN unchecked; ALTER TABLE runs DROP COLUMN bad;"
            "ALTER TABLE runs DROP COLUMN no_bytes; ALTER TABLE files DROP COLUMN changed;"
            "ALTER TABLE files DROP COLUMN inode; ALTER TABLE files DROP COLUMN sha256;"
            "ALTER TABLE checks DROP COLUMN sha256; ALTER TABLE changes DROP COLUMN path_before;"
            "ALTER TABLE checks ADD COLUMN gunzip_status BIGINT;"
            + (WITHOUT_PIECES + "DROP TABLE readings; PRAGMA user_version = 0;")
        )
    done = trial.run("c", "find", URI.decode())
    trial.judge(done.returncode == 3 and b"version" in done.stderr, "a question before a run", done.stderr)
    done = trial.run("c", "run")
    trial.judge(done.returncode == 0 and to_read(done) == 1, "a run", done.stdout + done.stderr)
    trial.judge((trial.count("c", "runs"), trial.count("c", "captures")) == (2, 1), "its rows")
    done = trial.run("c", "replay", URI.decode(), "9999")
    trial.judge(done.stdout == b"abc", "a replay", done.stderr)
    trial.judge(trial.run("c", "export", trial.path("tables")).returncode == 0, "an export")


Part = Callable[[Trial], None]
# A whole night


def night_files(trial: Trial, count: int) -> Dict[str, str]:
    """Files of all kinds on two disks, of which a fifth were read the night before. Returns the states that they have
    to have in the end, by their names."""
    kinds = ("good", "unchecked", "bad", "refused", "gunzip", "findings")
    states = {}
    for number in range(count):
        kind = kinds[number % 50] if number % 50 < len(kinds) else "good"
        name = "%04d-%s%s" % (number, kind, ".warc.gz" if kind == "gunzip" or number % 7 == 0 else ".warc")
        states[name] = kind
        put(trial.path("real", "disk%d" % (1 + number % 2), name), of_kind(kind, number, name.endswith(".gz")))
        if number == count // 5:
            mount_disks(trial)
            done = trial.run("c", "run", *disks_of(trial))
            trial.judge(done.returncode == 1, "the night before", done.stderr)
    return {**states, **changed_files(trial, states, count // 5)}


def of_kind(kind: str, number: int, is_compressed: bool) -> bytes:
    """A file that has a state, with a page of its own."""
    target = b"http://a.example/%d" % number
    digest = {"unchecked": "-", "bad": "sha1:" + "A" * 32}.get(kind, "")
    data = record("resource", number, DATE, target, b"page %d" % number, **({"block_digest": digest} if digest else {}))
    data += data if kind == "findings" else b"garbage" if kind == "refused" else b""
    packed_data = gzip.compress(data) if is_compressed else data
    return packed_data[:-4] if kind == "gunzip" else packed_data


def disks_of(trial: Trial) -> List[str]:
    return [trial.path("disk%d" % disk) for disk in (1, 2)]


def is_mounted(path: str) -> bool:
    """Whether something is mounted at a path, also another folder of the same disk."""
    with open("/proc/self/mounts", encoding="utf-8") as file:
        return any(line.split(" ")[1] == path for line in file)


def mount_disks(trial: Trial) -> None:
    """Mounts the disks, as far as they aren't."""
    for path in disks_of(trial):
        os.makedirs(path, exist_ok=True)
        if not is_mounted(path):
            subprocess.run(["mount", "--bind", trial.path("real", os.path.basename(path)), path], check=True)


def changed_files(trial: Trial, states: Dict[str, str], count: int) -> Dict[str, str]:
    """Changes some of the files that were read. Returns their states."""
    good = [name for name in sorted(states)[:count] if states[name] == "good" and not name.endswith(".gz")]
    altered, cut, grown, gone = good[:4]
    at = {name: trial.path("real", "disk%d" % (1 + int(name[:4]) % 2), name) for name in good[:4]}
    put(at[altered], page(5, b"other", b"http://other.example/"))
    put(at[cut], b"")
    put(at[grown], read(at[grown]) + page(6, b"more", b"http://a.example/more"))
    os.unlink(at[gone])
    return {altered: "altered", cut: "altered", grown: "grown", gone: "gone"}


class Asker(threading.Thread):
    """A reader who asks all the time for a page that was read the night before, and knows the answer."""

    def __init__(self, trial: Trial, number: int) -> None:
        super().__init__(daemon=True)
        self.words = trial.words("c", "find", "http://a.example/%d" % number)
        self.is_over = threading.Event()
        self.answers: Counter[Tuple[int, int]] = collections.Counter()
        self.slowest = 0.0

    def run(self) -> None:
        while not self.is_over.is_set():
            began = time.monotonic()
            done = subprocess.run(self.words, capture_output=True, check=False)
            self.slowest = max(self.slowest, time.monotonic() - began)
            self.answers[done.returncode, done.stdout.count(b"\n")] += 1


def files_done(trial: Trial, run: int) -> int:
    """How many files a run has read by now."""
    try:
        return int(str(trial.ask("c", "SELECT count(*) FROM checks WHERE run = ?", run)[0][0]))
    except sqlite3.OperationalError:
        return 0


def when_done(trial: Trial, child: subprocess.Popen[bytes], run: int, wanted: int) -> None:
    """Waits until a run has read some files."""
    while child.poll() is None and files_done(trial, run) < wanted:
        time.sleep(0.05)
    trial.judge(child.poll() is None, "the run is under way at %d files" % wanted)


@contextlib.contextmanager
def begun(trial: Trial) -> Iterator[subprocess.Popen[bytes]]:
    """A run that was begun, and that is killed in the end if it isn't at its own. A job is few files, so that much is
    under way."""
    words = trial.words("c", "run", "--batch", "5")
    with subprocess.Popen(words, stdin=subprocess.DEVNULL, stdout=subprocess.DEVNULL, stderr=subprocess.PIPE) as child:
        try:
            yield child
        finally:
            child.kill()


def disturbed(trial: Trial, count: int) -> None:
    """The night: it is killed, its disk is full, and a disk is lost while it is read and missing in the next run."""
    with begun(trial) as child:
        when_done(trial, child, 2, count // 5)
    filler = trial.path("c", "filler")
    with contextlib.suppress(OSError), open(filler, "wb", buffering=0) as out:
        while True:
            out.write(bytes(1 << 16))
    done = trial.run("c", "run", "--batch", "5")
    is_right = done.returncode == 3 and (b"full" in done.stderr or b"No space left" in done.stderr)
    trial.judge(is_right, "a full disk", done.stderr)
    os.unlink(filler)
    with begun(trial) as child:
        when_done(trial, child, 2, 3 * count // 5)
        subprocess.run(["umount", "--lazy", trial.path("disk2")], check=True)
        message = child.communicate()[1]
    trial.judge(child.returncode in (1, 3), "a disk that is lost", message)
    before = trial.states("c")
    done = trial.run("c", "run")
    trial.judge(done.returncode == 3 and b"see --allow-missing" in done.stderr, "the disk is missing", done.stderr)
    trial.judge(trial.states("c") == before, "states stay", set(trial.states("c").items()) ^ set(before.items()))
    mount_disks(trial)


def whole_night(trial: Trial) -> None:
    """A night of 2,000 files (or STRESS_NIGHT) with kill -9, a full disk, a lost mount and a reader who asks all the
    time. In the end each file has its state, and the reader had the right answer each time."""
    count = int(os.environ.get("STRESS_NIGHT", "2000"))
    with small_disk(trial.path("c"), "%dk" % (40 * count + 20_000)):
        try:
            wanted = night_files(trial, count)
            first = next(int(name[:4]) for name in sorted(wanted)[6:] if wanted[name] == "good" and "gz" not in name)
            reader = Asker(trial, first)
            reader.start()
            disturbed(trial, count)
            done = trial.run("c", "run")
            reader.is_over.set()
            reader.join()
        finally:
            for path in filter(is_mounted, disks_of(trial)):
                subprocess.run(["umount", "--lazy", path], check=True)
        trial.judge(done.returncode == 1, "the last run", done.stderr)
        found = trial.states("c")
        found = {
            name: "grown" if wanted[name] == "grown" and state == "good" else state for name, state in found.items()
        }
        trial.judge(found == wanted, "the states", sorted(set(found.items()) ^ set(wanted.items()))[:12])
        trial.judge(list(reader.answers) == [(0, 1)], "the reader", reader.answers)
        once = trial.ask("c", "SELECT file, position FROM captures GROUP BY file, position HAVING count(*) > 1")
        trial.judge(once == [] and trial.count("c", "records") >= count, "nothing is lost or counted twice", once)
    print("%d answers, the slowest after %.1f s" % (sum(reader.answers.values()), reader.slowest))


PARTS: List[Part] = [
    *(
        no_room,
        odd_temporary,
        failing_machine,
        damaged_members,
        first_bytes,
        frames,
        no_program,
        kept_rows,
        unknown_names,
        unchecked_blocks,
        changed_file,
        run_beside_replay,
    ),
    *(
        small_mistakes,
        same_instants,
        many_revisits,
        chained_revisits,
        chains_of_one_file,
        odd_references,
        no_regular_files,
        large_numbers,
        linked_folders,
        limited_time,
        torn_jobs,
        synced_jobs,
    ),
    *(
        failing_load,
        killed_parent,
        long_readers,
        stopped_export,
        hostile_tables,
        failing_output,
        reports_elsewhere,
        odd_names,
    ),
    *(stored_bodies, decoded_bodies, agreeing_files),
    *(damaged_files, joined_damaged_files, later_damage, damage_without_room, changed_damaged_file, many_damages),
    *(slow_pieces, unknown_pieces, catalogue_without_pieces),
    *(payload_digests, payloads_without_room, program_without_payloads, catalogue_without_payloads, torn_surveys),
    *(
        odd_settings,
        many_users,
        old_runs,
        many_kinds,
        revisits_of_wget,
        moves,
        listed_files,
        relative_names,
        missing_names,
        named_files,
        rot,
        rot_beside_failures,
        older_catalogue,
    ),
    whole_night,
]


def main(warc: str, names: List[str]) -> int:
    root = os.path.join(TOP, "out", "stress")
    os.makedirs(root, exist_ok=True)
    folder = tempfile.mkdtemp(prefix="faults-", dir=root)
    trial = Trial(warc, folder)
    try:
        for part in [part for part in PARTS if not names or part.__name__ in names]:
            trial.folder = os.path.join(folder, part.__name__)
            os.makedirs(trial.folder)
            trial.begin("warc-collection, " + part.__name__.replace("_", " "))
            part(trial)
            trial.end()
    finally:
        if "STRESS_KEEP" not in os.environ:
            shutil.rmtree(folder, ignore_errors=True)
    return trial.totals()


if __name__ == "__main__":
    sys.exit(main(sys.argv[1], sys.argv[2:]))
