#!/usr/bin/env python3
"""Runs warc-collection over many archives, on this machine and on two hosts that it makes, and stops it half-way.

    python3 tests/stress/collection.py WARC COUNT [PART ..]

Makes COUNT archives, half of them by wget over loopback and half by hand: good, damaged, compressed, cut and growing.
What the catalogue holds of each must be what the second reading in tests/reference gives: nothing lost, nothing
counted twice. For the two hosts 40 hostile files are added, and a run that is killed twice, has no room to unpack and
a reader beside it must come to the catalogue of an undisturbed run; `collection.py WARC 2000 rough_night` does this
part alone, over 2,000 files. Prints a line for each part, each surprise, and last a line with the totals. The exit
status is 1 if there was a surprise. Needs root, wget, zstd, GNU parallel, setpriv, sshd and ip; the two hosts are
network namespaces of this machine, each with an sshd of its own. STRESS_JOBS and STRESS_HOST_JOBS are the jobs at a
time here and on a host.
"""
from __future__ import annotations

import contextlib
import gzip
import http.server
import os
import shutil
import signal
import sqlite3
import stat
import subprocess
import sys
import tempfile
import threading
import time
import zlib
from typing import Callable, Dict, Iterator, List, Optional, Tuple

from collection_trial import HERE, MOST_SECONDS, TABLES, TOP, Trial, contents, path_of, put, put_script, to_read

sys.path.insert(0, os.path.join(os.path.dirname(HERE), "reference"))
import generate  # noqa: E402
import warc_reference  # noqa: E402

HOSTS = ("warc-stress-a", "warc-stress-b")
IMAGE = b"\x89PNG\r\n\x1a\n" + bytes(range(256)) * 4
NO_BYTES = b"sha1:3I42H3S6NNFQ2MSVX7XZKYAYSCX5QBYJ"
# root without the right to open each file
LESS = ("setpriv", "--bounding-set=-dac_override,-dac_read_search", "--inh-caps=-dac_override,-dac_read_search")
JOBS = str(os.environ.get("STRESS_JOBS", os.cpu_count()))
# Files for each job of a rough night, which has many.
BATCH = ("--batch", "10")
Expected = Tuple[str, int, int, int, int, int]


# The archives


class Site(http.server.BaseHTTPRequestHandler):
    """A page that differs at each path, and an image that is the same everywhere."""

    protocol_version = "HTTP/1.1"

    def do_GET(self) -> None:
        is_image = self.path == "/image.png"
        body = IMAGE if is_image else b"<title>%s</title>\n" % self.path.encode() * (1 + len(self.path) % 7)
        self.send_response(200)
        self.send_header("Content-Type", "image/png" if is_image else "text/html")
        self.send_header("Content-Length", str(len(body)))
        self.end_headers()
        self.wfile.write(body)

    def log_message(self, *words: object) -> None:
        """Says nothing of each request."""


def crawl(folder: str, name: str, site: str, is_compressed: bool, index: Optional[str] = None) -> None:
    """One crawl by wget of a page and the image. With an index of an earlier crawl the image becomes a revisit."""
    words = ["wget", "-q", "--delete-after", "--warc-file=" + name, "--no-warc-keep-log"]
    words += [] if is_compressed else ["--no-warc-compression"]
    words += ["--warc-dedup=" + index] if index else ["--warc-cdx"]
    subprocess.run([*words, site + "/page/" + name, site + "/image.png"], cwd=folder, check=True)


def crawls(folder: str, count: int) -> None:
    """Crawls by wget: every third is compressed, and all but the first have the image as a revisit."""
    os.makedirs(folder)
    server = http.server.ThreadingHTTPServer(("127.0.0.1", 0), Site)
    threading.Thread(target=server.serve_forever, daemon=True).start()
    site = "http://127.0.0.1:%d" % server.server_address[1]
    crawl(folder, "crawl-0", site, False)
    time.sleep(1.1)
    for number in range(1, count):
        crawl(folder, "crawl-%d" % number, site, number % 3 == 0, "crawl-0.cdx")
    server.shutdown()


def made_by_hand(folder: str, count: int) -> None:
    """Archives from seeds, good and damaged, some of them compressed, and some of these cut."""
    os.makedirs(folder)
    for seed in range(1, count + 1):
        data = generate.archive(seed)
        name = "made-%d.warc" % seed
        if seed % 4 == 0:
            data, name = gzip.compress(data[: len(data) // 2]) + gzip.compress(data[len(data) // 2 :]), name + ".gz"
        if seed % 20 == 0:
            data = data[:-9]
        with open(os.path.join(folder, name), "wb") as out:
            out.write(data)
    with open(os.path.join(folder.encode(), b"odd \xff'\"$x\n{}.warc"), "wb") as out:
        out.write(generate.archive(1))


def unpacked(data: bytes) -> Optional[bytes]:
    """The bytes of compressed members, or None where they are damaged. Zero bytes after the last one are padding."""
    out, is_first = b"", True
    while is_first or data.strip(b"\0"):
        member = zlib.decompressobj(31)
        try:
            out += member.decompress(data)
        except zlib.error:
            return None
        if not member.eof:
            return None
        data, is_first = member.unused_data, False
    return out


def expected_of(path: bytes) -> Expected:
    """What the catalogue should hold of a file: its state, and how many rows of each table. Of a damaged one these are
    the rows of its good records."""
    with open(path, "rb") as file:
        data: Optional[bytes] = file.read()
    if path.endswith(b".gz"):
        data = unpacked(data or b"")
        if data is None:
            return "gunzip", 0, 0, 0, 0, 0
    archive = warc_reference.Archive(data)
    is_refused = archive.fault is not None
    if is_refused:
        archive = warc_reference.Archive(warc_reference.run("salvage", data, [b"--all"])[0])
        if not archive.records:
            return "refused", 0, 0, 0, 0, 0
    verdicts = [record.stated_verdict() for record in archive.records]
    findings = warc_reference.check_command(archive)[0].count(b"\n")
    captures = sum(record.kind in warc_reference.CAPTURES for record in archive.records)
    payloads = judged_payloads(archive)
    of_wget = sum(map(is_of_wget, archive.records))
    state = "refused" if is_refused else state_of(verdicts, findings, of_wget, "bad" in payloads)
    return state, len(verdicts), captures, len(verdicts) - verdicts.count("good"), findings, len(payloads)


def judged_payloads(archive: warc_reference.Archive) -> List[str]:
    """The verdicts on the payloads that aren't good, but for those of requests."""
    lines = warc_reference.run_on(archive, "fixity", [b"--payload"])[0].split(b"\n")[:-2]
    columns = (line.split(b"\t", 4) for line in lines)
    return [verdict.decode() for _, verdict, _, reason, _ in columns if reason != b"request"]


def is_of_wget(record: warc_reference.Record) -> bool:
    """Whether a record is a revisit with the digest of no bytes, and has some."""
    is_bad = record.kind == "revisit" and record.digest_verdict() == "bad"
    return is_bad and bool(record.first("WARC-Block-Digest") == NO_BYTES)


def state_of(verdicts: List[str], findings: int, of_wget: int, has_bad_payload: bool) -> str:
    if verdicts.count("bad") > of_wget or has_bad_payload:
        return "bad"
    return "unchecked" if "unchecked" in verdicts else "findings" if findings > of_wget else "good"


def expected_below(folder: str) -> Dict[bytes, Expected]:
    """What is expected of each archive below a folder, by its path."""
    found = {}
    for at, _, names in os.walk(os.fsencode(folder)):
        paths = (os.path.join(at, name) for name in names if name.endswith((b".warc", b".warc.gz")))
        found.update({path: expected_of(path) for path in paths})
    return found


# Runs


def compare(trial: Trial, catalogue: str, expected: Dict[bytes, Expected], run: Optional[int] = None) -> None:
    """The catalogue must hold of each file what is expected, and of no other file anything."""
    base = trial.base(catalogue)
    query = "SELECT file, path, state FROM files WHERE state <> 'gone'"
    rows = base.execute(query).fetchall()
    files = {os.fsencode(path): (file, "good" if state == "grown" else state) for file, path, state in rows}
    trial.judge(files.keys() == expected.keys(), "the files", len(files))
    counts = {
        table: dict(base.execute("SELECT file, count(*) FROM %s GROUP BY file" % table).fetchall())
        for table in ("records", "captures", "digests", "findings", "payloads")
    }
    for path in files.keys() & expected.keys():
        file, state = files[path]
        seen = (state, *(counts[table].get(file, 0) for table in counts))
        trial.judge(seen == expected[path], path, "%s, expected %s" % (seen, expected[path]))
    known = {file for file, in base.execute("SELECT file FROM readings")}
    others = {row for table in TABLES for row in base.execute("SELECT DISTINCT file, '%s' FROM %s" % (table, table))}
    trial.judge(all(file in known for file, _ in others), "rows of other files", others)
    if run is not None:
        read = base.execute("SELECT count(*) FROM checks WHERE run = ?", (run,)).fetchone()[0]
        trial.judge(read == len(expected), "files read in run %d" % run, read)
    base.close()


def on_this_machine(trial: Trial, archives: str) -> None:
    """All cores: all files, then none, then those that changed."""
    trial.begin("warc-collection, this machine")
    expected = expected_below(archives)
    done = trial.run("here", "run", "--jobs", JOBS, archives)
    trial.judge(done.returncode == 1 and to_read(done) == len(expected), "the first run", done.stderr)
    compare(trial, "here", expected, 1)
    done = trial.run("here", "run", "--jobs", JOBS)
    trial.judge(done.returncode == 1 and to_read(done) == 0, "a second run", done.stderr)
    changed = grow(archives, expected)
    after = expected_below(archives)
    # A damaged file without good records keeps the rows that it had before, and only such a file.
    kept = {path: (after[path][0], *expected[path][1:]) for path in after if is_kept(path, expected, after)}
    done = trial.run("here", "run", "--jobs", JOBS)
    trial.judge(done.returncode == 1 and to_read(done) == changed, "a run after changes", done.stderr)
    compare(trial, "here", {**after, **kept})
    done = trial.run("here", "run", "--jobs", JOBS, "--all")
    trial.judge(done.returncode == 1 and to_read(done) == len(after), "a run over all", done.stderr)
    compare(trial, "here", {**after, **kept}, 4)
    trial.end(", %d archives" % len(after))


def is_kept(path: bytes, before: Dict[bytes, Expected], after: Dict[bytes, Expected]) -> bool:
    is_unread = after[path][0] == "gunzip" or after[path][:2] == ("refused", 0)
    return path in before and is_unread and before[path][1] > 0


def grow(archives: str, expected: Dict[bytes, Expected]) -> int:
    """Appends a record to every tenth file, removes one, and adds one. Returns how many are to be read."""
    paths = sorted(expected)
    record = generate.archive(1)
    for path in paths[::10]:
        with open(path, "ab") as out:
            out.write(gzip.compress(record) if path.endswith(b".gz") else record)
    os.remove(paths[1])
    put(os.path.join(archives, "added.warc"), record)
    return len(paths[::10]) + 1


def growing_files(trial: Trial, _archives: str) -> None:
    """Files that grow while they are read are called so, and nothing of them is kept. The program that is run appends
    to them: to one a whole record each time, to the other a half first, and the rest when the file was refused."""
    trial.begin("warc-collection, growing files")
    folder = trial.path("growing")
    record = warc_reference.read_record(generate.archive(1), 0, 0).canonical()
    for name in ("whole.warc", "torn.warc"):
        put(os.path.join(folder, name), record * 20)
    parts = {"whole": record, "survey": record[:-9], "salvage": record[-9:]}
    paths = {name: put(trial.path("parts", name), data) for name, data in parts.items()}
    append = (
        '[ "$1" = --version ] && exec {warc} --version\nfile=$(readlink /proc/self/fd/0)\n'
        'case $file:$1 in\n*/whole.warc:*) cat {whole} >> "$file" ;;\n*/torn.warc:survey) cat {survey} >> "$file" ;;\n'
        '*/torn.warc:salvage) cat {salvage} >> "$file" ;;\nesac\nexec {warc} "$@"\n'
    )
    growing = put_script(trial.path("growing-warc"), append.format(warc=trial.warc, **paths))
    done = trial.run("grown", "run", "--warc", growing, folder)
    trial.judge(b"changing\t2\t" in done.stdout and done.returncode == 0, "they grow", done.stdout + done.stderr)
    sizes = {name: os.path.getsize(os.path.join(folder, name)) // len(record) for name in ("whole.warc", "torn.warc")}
    trial.judge(sizes == {"whole.warc": 22, "torn.warc": 21}, "they have grown", sizes)
    trial.judge(trial.count("grown", "records") == 0, "nothing of them is kept")
    done = trial.run("grown", "run")
    trial.judge(to_read(done) == 2, "afterwards", done.stderr)
    compare(trial, "grown", expected_below(folder))
    trial.end()


def across_files(trial: Trial, archives: str) -> None:
    """A revisit whose referent is in another file gives its body; where files disagree nothing is given."""
    trial.begin("warc-collection, replays across files")
    target = str(trial.ask("here", "SELECT target FROM captures WHERE target LIKE '%/image.png' LIMIT 1")[0][0])
    kinds = trial.ask("here", "SELECT kind, reason FROM captures WHERE target = ? GROUP BY kind, reason", target)
    trial.judge(("revisit", "P5 Unresolved") in kinds, "revisits that lack a record", kinds)
    query = "SELECT DISTINCT instant FROM captures WHERE target = ? ORDER BY random() LIMIT 5"
    for instant in (str(row[0]) for row in trial.ask("here", query, target)):
        done = trial.run("here", "replay", target, instant)
        trial.judge(done.stdout == IMAGE and done.returncode == 0, "replay as of " + instant, done.stderr)
    done = trial.run("here", "replay", target, "1999")
    trial.judge((done.stdout, done.returncode) == (b"", 1) and b"P2 NotYet" in done.stderr, "1999", done.stderr)
    copy = os.path.join(archives, "other.warc")
    with open(os.path.join(archives, "crawls", "crawl-0.warc"), "rb") as file:
        put(copy, file.read().replace(IMAGE, IMAGE[:-1] + b"x"))
    trial.run("here", "run")
    done = trial.run("here", "replay", target, "9999")
    is_right = b"disagree" in done.stderr and copy.encode() in done.stderr
    trial.judge(is_right and (done.stdout, done.returncode) == (b"", 1), "files that disagree", done.stderr)
    os.remove(copy)
    trial.run("here", "run")
    done = trial.run("here", "replay", target, "9999")
    trial.judge((done.stdout, done.returncode) == (IMAGE, 0), "after its removal", done.stderr)
    trial.end()


def as_an_array(trial: Trial, archives: str) -> None:
    """The same list of jobs done by shares, as a job array of Slurm does them, some of them twice."""
    trial.begin("warc-collection, a job array")
    expected = expected_below(archives)
    jobs = os.fsdecode(trial.run("array", "plan", archives).stdout.strip())
    with open(os.path.join(jobs, "jobs"), encoding="ascii") as file:
        count = len(file.readlines())
    done = trial.run("array", "load")
    trial.judge(done.returncode == 3, "load before any job", done.stderr)
    words = [[trial.script, "job", jobs, *map(str, range(first, count + 1, 3))] for first in (1, 2, 3, 2)]
    shares = [subprocess.Popen(share) for share in words]
    statuses = [share.wait(MOST_SECONDS) for share in shares]
    trial.judge(statuses == [0, 0, 0, 0], "the shares", statuses)
    done = trial.run("array", "load")
    trial.judge(done.returncode == 1, "load", done.stderr)
    compare(trial, "array", expected, 1)
    trial.end()


def begun(trial: Trial, catalogue: str, *words: str) -> subprocess.Popen[bytes]:
    """A run that was begun."""
    return subprocess.Popen(
        trial.words(catalogue, "run", *words),
        stdin=subprocess.DEVNULL,
        stdout=subprocess.DEVNULL,
        stderr=subprocess.PIPE,
    )


def killed_run(trial: Trial, archives: str) -> None:
    """A run that is killed while GNU parallel goes on; then another, and a third at once, which is refused."""
    trial.begin("warc-collection, a killed run")
    expected = expected_below(archives)
    child = begun(trial, "killed", "--jobs", "2", archives)
    wait_for(trial, child, "killed", max(1, len(expected) // 5))
    child.kill()
    child.wait()
    child = begun(trial, "killed", "--jobs", "2")
    assert child.stderr is not None
    while child.poll() is None and not child.stderr.readline().endswith(b" to read\n"):
        continue
    done = trial.run("killed", "run")
    trial.judge(done.returncode == 3 and b"another run" in done.stderr, "a run at the same time", done.stderr)
    message = child.communicate(timeout=MOST_SECONDS)[1]
    trial.judge(child.returncode == 1, "the run that goes on", message)
    compare(trial, "killed", expected, 1)
    trial.end()


def odd_requests(trial: Trial, _archives: str) -> None:
    """A folder that is missing, a list of names, a command that takes too long, no program."""
    trial.begin("warc-collection, odd requests")
    folder = trial.path("odd")
    paths = [os.path.join(folder, "a b", name) for name in ("it's.warc", '$(x)\n".warc')]
    for path in paths:
        put(path, generate.archive(1))
    names = b"".join(os.fsencode(path) + b"\0" for path in [*paths, folder + "/missing.warc"])
    done = trial.run("odd-base", "run", "--files", put(trial.path("names"), names))
    trial.judge(to_read(done) == 2 and b"missing.warc" in done.stderr, "a list with a missing file", done.stderr)
    compare(trial, "odd-base", expected_below(folder), 1)
    moved = folder + ".moved"
    trial.run("odd-base", "run", folder)
    os.rename(folder, moved)
    done = trial.run("odd-base", "run")
    trial.judge(done.returncode == 3 and b"gone" not in done.stdout, "a folder that is missing", done.stdout)
    os.rename(moved, folder)
    done = trial.run("odd-base", "run")
    is_right = (done.returncode, to_read(done)) == (3, 0) and b"wasn't there" not in done.stdout
    trial.judge(is_right, "the folder is back, and the file that the list names isn't there", done.stdout)
    slow = put_script(trial.path("slow"), '[ "$1" = --version ] && exec %s --version\nsleep 100\n' % trial.warc)
    done = trial.run("odd-base", "run", "--warc", slow, "--timeout", "1", "--all")
    trial.judge(b"failed\t2\t" in done.stdout and b"took too long" in done.stdout, "--timeout", done.stdout)
    done = trial.run("odd-base", "run", "--warc", "/nothing")
    trial.judge(done.returncode == 3 and b"/nothing" in done.stderr, "no program", done.stderr)
    done = trial.run("odd-base", "run")
    trial.judge(to_read(done) == 2, "a file that failed is read again", done.stderr)
    compare(trial, "odd-base", expected_below(folder))
    trial.end()


# Two hosts: network namespaces of this machine, each with its own sshd


class Host:
    """A network namespace with an sshd."""

    def __init__(self, folder: str, number: int) -> None:
        self.name = HOSTS[number]
        self.folder = folder
        self.addresses = "198.18.77.%d" % (4 * number + 1), "198.18.77.%d" % (4 * number + 2)
        self.link = "warcs%d" % number
        self.server: Optional[subprocess.Popen[bytes]] = None
        self.clear()
        ip("netns", "add", self.name)
        ip("link", "add", self.link, "type", "veth", "peer", "name", "inside", "netns", self.name)
        ip("addr", "add", self.addresses[0] + "/30", "dev", self.link)
        ip("link", "set", self.link, "up")
        self.inside("ip", "addr", "add", self.addresses[1] + "/30", "dev", "inside")
        self.inside("ip", "link", "set", "inside", "up")
        self.inside("ip", "link", "set", "lo", "up")

    def clear(self) -> None:
        """Removes what an earlier run left when it was killed."""
        for words in (["netns", "del", self.name], ["link", "del", self.link]):
            subprocess.run(["ip", *words], stderr=subprocess.DEVNULL, check=False)

    def inside(self, *words: str) -> None:
        subprocess.run(["ip", "netns", "exec", self.name, *words], check=True)

    def start(self) -> None:
        """Starts its sshd. A login has a home of its own: what this machine's shells run when they begin may wait for
        one another, and for one that was killed."""
        config, home = os.path.join(self.folder, self.name), os.path.join(self.folder, self.name + "-home")
        os.makedirs(home, exist_ok=True)
        with open(config, "w", encoding="ascii") as out:
            out.write(
                "ListenAddress %s\nPort 2222\nHostKey %s/host\nAuthorizedKeysFile %s/key.pub\nPidFile none\n"
                "StrictModes no\nUsePAM no\nPasswordAuthentication no\nPermitRootLogin yes\nMaxStartups 100\n"
                "SetEnv HOME=%s\n" % (self.addresses[1], self.folder, self.folder, home)
            )
        words = ["ip", "netns", "exec", self.name, *LESS, "/usr/sbin/sshd", "-D", "-f", config]
        self.server = subprocess.Popen(words)

    def stop(self) -> None:
        """Stops all that runs on the host at once, as when its power fails."""
        listed = subprocess.run(["ip", "netns", "pids", self.name], capture_output=True, text=True, check=True)
        for process in listed.stdout.split():
            try:
                os.kill(int(process), signal.SIGKILL)
            except ProcessLookupError:
                continue
        if self.server is not None:
            self.server.wait()

    def remove(self) -> None:
        if self.server is not None and self.server.poll() is None:
            self.stop()
        ip("netns", "del", self.name)


def ip(*words: str) -> None:
    subprocess.run(["ip", *words], check=True)


def ssh_config(host: Host, folder: str) -> str:
    """How to log in to a host. The key exchange is the one that takes the least time: a run has many logins."""
    return (
        "Host %s\nHostName %s\nPort 2222\nUser root\nIdentityFile %s/key\nStrictHostKeyChecking no\n"
        "UserKnownHostsFile /dev/null\nLogLevel ERROR\nBatchMode yes\nConnectTimeout 5\nServerAliveInterval 2\n"
        "KexAlgorithms curve25519-sha256\n" % (host.name, host.addresses[1], folder)
    )


@contextlib.contextmanager
def made_hosts(folder: str) -> Iterator[Tuple[List[Host], List[str]]]:
    """Both hosts, and the words with which a run finds them."""
    os.makedirs(folder)
    os.makedirs("/run/sshd", exist_ok=True)
    for name in ("host", "key"):
        subprocess.run(["ssh-keygen", "-q", "-t", "ed25519", "-N", "", "-f", os.path.join(folder, name)], check=True)
    hosts = [Host(folder, number) for number in range(len(HOSTS))]
    put(os.path.join(folder, "config"), "".join(ssh_config(host, folder) for host in hosts).encode())
    jobs = os.environ.get("STRESS_HOST_JOBS", "2")
    logins = ["%s/ssh -F %s/config %s" % (jobs, folder, host.name) for host in hosts]
    try:
        for host in hosts:
            host.start()
        time.sleep(1)
        yield hosts, [word for login in logins for word in ("--sshlogin", login)]
    finally:
        for host in hosts:
            host.remove()


def files_read(trial: Trial, catalogue: str) -> int:
    """How many files were read so far."""
    try:
        return trial.count(catalogue, "checks")
    except sqlite3.OperationalError:
        return 0


def wait_for(trial: Trial, child: subprocess.Popen[bytes], catalogue: str, wanted: int) -> None:
    """Waits until this number of files was read, or the run is at its end."""
    while child.poll() is None and files_read(trial, catalogue) < wanted:
        time.sleep(0.2)


def on_two_hosts(trial: Trial, archives: str) -> None:
    """One host is stopped at a quarter, and the run itself at a half; then it goes on with both."""
    trial.begin("warc-collection, two hosts")
    expected = expected_below(archives)
    with made_hosts(trial.path("hosts")) as (hosts, words):
        child = begun(trial, "far", *words, archives)
        wait_for(trial, child, "far", len(expected) // 4)
        hosts[1].stop()
        wait_for(trial, child, "far", len(expected) // 2)
        child.terminate()
        message = child.communicate(timeout=MOST_SECONDS)[1]
        first = files_read(trial, "far")
        trial.judge(child.returncode == 3 and b"stopped" in message, "the run that is stopped", message)
        hosts[1].start()
        time.sleep(1)
        done = trial.run("far", "run", *words)
        # A host may have ended files after the stop, which the next run takes in unread.
        left = to_read(done)
        is_right = done.returncode == 1 and left is not None and 0 < left <= len(expected) - first
        trial.judge(is_right, "the run that goes on", done.stderr)
        compare(trial, "far", expected, 1)
        shares = trial.ask("far", "SELECT host, count(*) FROM checks GROUP BY host ORDER BY host")
        trial.judge({host for host, _ in shares} == set(HOSTS), "the hosts", shares)
    about = ", ".join("%s %s" % share for share in shares)
    trial.end(", %d archives, %d before the stop, %s" % (len(expected), first, about))


def lost_host(trial: Trial, archives: str) -> None:
    """A host that is lost and doesn't come back: the run ends on the other one."""
    trial.begin("warc-collection, a lost host")
    expected = expected_below(archives)
    with made_hosts(trial.path("lost")) as (hosts, words):
        child = begun(trial, "lost-run", *words, archives)
        wait_for(trial, child, "lost-run", len(expected) // 3)
        hosts[1].stop()
        message = child.communicate(timeout=MOST_SECONDS)[1]
        trial.judge(child.returncode == 1, "the run", message)
        compare(trial, "lost-run", expected, 1)
    trial.end()


# Hostile files, and a machine that fails


# Hostile files that can be opened: their bytes, and the state of each.
GOOD = generate.archive(3)
PACKED = gzip.compress(GOOD)
ZSTD = subprocess.run(["zstd", "-qc"], input=GOOD, stdout=subprocess.PIPE, check=True).stdout
HOSTILE: Dict[bytes, Tuple[bytes, str]] = {
    **{b"odd%d\n\x1b]0;x\x07\xff'\"$(x){= 1 =}.warc" % number: (GOOD, "") for number in range(7)},
    b"odd7\n\x1b]0;x\x07\xff'\"$(x){= 1 =}.warc.zst": (ZSTD, ""),
    **{b"torn%d.warc" % number: (GOOD[: -9 - number], "refused") for number in range(3)},
    b"torn.warc.zst": (ZSTD[:-9], "gunzip"),
    **{b"torn%d.warc.gz" % number: (PACKED[: -9 - number], "gunzip") for number in range(4)},
    **{b"shut%d.warc" % number: (GOOD, "failed") for number in range(3)},
    **{b"bomb%d.warc.gz" % number: (gzip.compress(bytes(1 << 27)), "refused") for number in range(2)},
    b"garbage.warc.gz": (PACKED + b"garbage", "gunzip"),
    b"padded.warc.gz": (PACKED + bytes(10_000), ""),
    b"empty.warc": (b"", "findings"),
    b"empty.warc.gz": (b"", "findings"),
    b"CAPITAL.WARC.GZ": (PACKED, ""),
    b"packed.warc": (PACKED, ""),
    b"plain.warc.gz": (GOOD, ""),
}


def hostile_files(folder: str) -> Dict[bytes, str]:
    """Forty files that nobody wants. Returns the states of those that are files at all."""
    put(os.path.join(folder, "reference"), GOOD)
    good = expected_of(os.fsencode(os.path.join(folder, "reference")))[0]
    for name, (data, _) in HOSTILE.items():
        path = put(os.path.join(folder, os.fsdecode(name)), data)
        os.chmod(path, 0 if name.startswith(b"shut") else 0o644)
    for number in range(2):
        with open(os.path.join(folder, "huge%d.warc" % number), "wb") as out:
            out.truncate(1 << 34)  # all of it is read: a good record may follow
    no_files(folder)
    states = {name: state or good for name, (_, state) in HOSTILE.items()}
    return {**states, b"huge0.warc": "refused", b"huge1.warc": "refused"}


def no_files(folder: str) -> None:
    """Pipes, devices and links with the names of archives."""
    for number in range(5):
        os.mkfifo(os.path.join(folder, "pipe%d.warc" % number))
    for device, minor in (("null", 3), ("zero", 5), ("full", 7)):
        os.mknod(os.path.join(folder, device + ".warc"), 0o666 | stat.S_IFCHR, os.makedev(1, minor))
    os.symlink("/nowhere", os.path.join(folder, "dangling.warc"))
    os.symlink("/dev/zero", os.path.join(folder, "link.warc"))


class Reader(threading.Thread):
    """A reader of a catalogue, which holds it for two seconds, again and again."""

    def __init__(self, path: str) -> None:
        super().__init__(daemon=True)
        self.path = path
        self.is_over = threading.Event()
        self.times = 0

    def run(self) -> None:
        while not self.is_over.wait(0.3):
            with contextlib.suppress(sqlite3.OperationalError):
                self.hold()

    def hold(self) -> None:
        """Reads the catalogue, and holds it."""
        with contextlib.closing(sqlite3.connect("file:%s?mode=ro" % self.path, uri=True, timeout=5)) as base:
            base.execute("BEGIN")
            base.execute("SELECT count(*) FROM files").fetchone()
            self.times += 1
            self.is_over.wait(2)


def disturbed(trial: Trial, archives: str, words: List[str], hosts: List[Host], disk: str, count: int) -> None:
    """A run without room and with a reader: a host fails at a quarter, and the run is killed at a half; then it goes
    on."""
    words = [*words, *BATCH, "--temporary", disk, "--timeout", "300"]
    child = subprocess.Popen(
        [*LESS, *trial.words("rough", "run", *words, archives)], stdout=subprocess.DEVNULL, stderr=subprocess.PIPE
    )
    wait_for(trial, child, "rough", count // 4)
    hosts[1].stop()
    wait_for(trial, child, "rough", count // 2)
    child.send_signal(signal.SIGKILL)
    message = child.communicate(timeout=MOST_SECONDS)[1]
    trial.judge(child.returncode == -signal.SIGKILL, "the run is killed in time", message)
    hosts[1].start()
    time.sleep(1)
    done = trial.run("rough", "run", *words, before=LESS)
    trial.judge(done.returncode == 1 and b"no-room\t" in done.stdout, "the run that goes on", done.stderr)


def rough_night(trial: Trial, archives: str) -> None:
    """All of it at once. After one more run, with room, the catalogue is that of a run that nothing disturbed."""
    trial.begin("warc-collection, a rough night")
    names = hostile_files(os.path.join(archives, "hostile"))
    count = len(names) + len(expected_below_others(archives))
    reader = Reader(trial.path("rough", "catalogue.sqlite"))
    reader.start()
    os.makedirs(trial.path("disk"))
    subprocess.run(["mount", "-t", "tmpfs", "-o", "size=64k", "tmpfs", trial.path("disk")], check=True)
    with contextlib.suppress(OSError), open(trial.path("disk", "full"), "wb", buffering=0) as full:
        full.write(bytes(1 << 20))
    try:
        with made_hosts(trial.path("rough-hosts")) as (hosts, words):
            disturbed(trial, archives, words, hosts, trial.path("disk"), count)
            without = len(trial.ask("rough", "SELECT file FROM files WHERE state = 'no-room'"))
            done = trial.run("rough", "run", *words, *BATCH, before=LESS)
    finally:
        subprocess.run(["umount", "--lazy", trial.path("disk")], check=True)
    reader.is_over.set()
    reader.join()
    trial.judge(done.returncode == 1 and b"no-room" not in done.stdout, "the run with room", done.stderr)
    done = trial.run("still", "run", "--jobs", JOBS, *BATCH, archives, before=LESS)
    trial.judge(done.returncode == 1 and to_read(done) == count, "the undisturbed run", done.stderr)
    rough, still = contents(trial, "rough"), contents(trial, "still")
    for table in still:
        trial.judge(rough[table] == still[table], "the rows of " + table, list(rough[table] ^ still[table])[:6])
    rows = [(path_of(row[0]), row[1]) for row in still["files"]]
    seen = {os.path.basename(path): state for path, state in rows if b"/hostile/" in path}
    trial.judge(seen == names, "the hostile files", set(seen.items()) ^ set(names.items()))
    trial.judge(reader.times > 3, "the reader", reader.times)
    trial.end(", %d files, %d of them without room at first, %d readers" % (count, without, reader.times))


def expected_below_others(archives: str) -> List[str]:
    """The paths of the archives that aren't hostile."""
    walked = ((at, name) for at, _, names in os.walk(archives) for name in names)
    return [os.path.join(at, name) for at, name in walked if "hostile" not in at and ".warc" in name]


# The parts, and whether each has all archives or those that are made by hand.
PARTS: Dict[str, Tuple[Callable[[Trial, str], None], bool]] = {
    "this_machine": (on_this_machine, True),
    "across_files": (across_files, True),
    "growing_files": (growing_files, False),
    "killed_run": (killed_run, False),
    "odd_requests": (odd_requests, False),
    "array": (as_an_array, False),
    "two_hosts": (on_two_hosts, False),
    "lost_host": (lost_host, False),
    "rough_night": (rough_night, True),
}


def main(program: str, count: int, names: List[str]) -> int:
    """Makes the archives, and tries the parts."""
    root = os.path.join(TOP, "out", "stress")
    os.makedirs(root, exist_ok=True)
    folder = tempfile.mkdtemp(prefix="collection-", dir=root)
    trial = Trial(program, folder)
    archives = os.path.join(folder, "archives")
    try:
        crawls(os.path.join(archives, "crawls"), count // 2)
        made_by_hand(os.path.join(archives, "made"), count - count // 2)
        for name in names or PARTS:
            part, has_all = PARTS[name]
            part(trial, archives if has_all else os.path.join(archives, "made"))
    finally:
        if "STRESS_KEEP" not in os.environ:
            shutil.rmtree(folder)
    return trial.totals()


if __name__ == "__main__":
    sys.exit(main(sys.argv[1], int(sys.argv[2]), sys.argv[3:]))
