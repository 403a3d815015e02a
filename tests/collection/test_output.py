"""What a night prints and logs: for cron, for somebody at a terminal, for scripts and for a monitor."""
from __future__ import annotations

import json
import logging
import os
import pty
import re
import shutil
import socket
import subprocess
import sys
from typing import Any, Dict, List

from conftest import PROJECT, Collection, lines, put, record

sys.path.insert(0, os.path.join(PROJECT, "collection"))
LOG_LINE = re.compile(r"\d{4}-\d\d-\d\dT\d\d:\d\d:\d\dZ (INFO|WARNING|ERROR) (.*)")
BAD = "sha1:" + "A" * 32


def logged(path: str) -> List[List[str]]:
    """The lines of a log: level and text."""
    with open(path, encoding="utf-8") as file:
        found = [LOG_LINE.fullmatch(line) for line in file.read().splitlines()]
    assert found and None not in found
    return [list(line.groups()) for line in found if line is not None]


def test_a_quiet_night_prints_nothing(collection: Collection) -> None:
    """Cron mails what a command prints."""
    path = collection.pages("disk/a.warc", 2)
    os.symlink("/", collection.path("disk/link"))
    done = collection.night("--quiet", "disk")
    assert (done.returncode, done.stdout, done.stderr) == (0, b"", b"")
    done = collection.night("--quiet", "--json")
    assert (done.returncode, done.stdout, done.stderr) == (0, b"", b"")
    put(path, b"garbage")
    done = collection.night("--quiet")
    assert done.returncode == 1 and [line for line in lines(done) if line.startswith("altered\t" + path)]
    assert b"a link to a folder" in done.stderr and b"1 to read" in done.stderr


def test_a_quiet_night_that_fails(collection: Collection) -> None:
    collection.pages("disk/a.warc", 1)
    assert collection.night("disk").returncode == 0
    shutil.rmtree(collection.path("disk"))
    done = collection.night("--quiet")
    assert done.returncode == 3 and b"No such file" in done.stderr
    assert b"wasn't there in the last run" in done.stdout


def test_a_log_has_a_line_for_each_file(collection: Collection) -> None:
    collection.pages("disk/a.warc", 1)
    collection.put("disk/bad.warc", record(1, digest=BAD))
    collection.put("disk/unchecked.warc", record(1, digest="-"))
    collection.pages(os.fsdecode(b"disk/two\nlines \xff.warc"), 1)
    log, disk = collection.path("log"), collection.path("disk")
    assert collection.night("--quiet", "--log", log, "disk").returncode == 1
    found = logged(log)
    assert ["INFO", "good %s/a.warc" % disk] in found
    assert ["INFO", "good %s/two\\nlines \\xff.warc" % disk] in found
    assert ["WARNING", "unchecked %s/unchecked.warc: 1 block can't be checked" % disk] in found
    bad = "bad %s/bad.warc: 1 block doesn't have its digest; 1 finding" % disk
    assert ["ERROR", bad] in found
    assert found[-1] == ["ERROR", "run ended with status 1"]
    os.unlink(collection.path("disk/a.warc"))
    collection.night("--log", log)
    assert logged(log)[: len(found)] == found, "lines are added"
    assert ["ERROR", "gone %s/a.warc" % disk] in logged(log)[len(found) :]


def test_a_log_that_cannot_be_written(collection: Collection) -> None:
    """It is said, and the night goes on."""
    collection.pages("disk/a.warc", 1)
    done = collection.night("--log", "nowhere/log", "disk")
    assert done.returncode == 2 and b"--log: nowhere/log: No such file" in done.stderr
    assert not os.path.exists(collection.path("catalogue"))
    done = collection.night("--quiet", "--log", "/dev/full", "disk")
    assert done.returncode == 0 and done.stderr.count(b"No space left on device") == 1
    assert collection.states() == {"a.warc": "good"}


def test_the_log_of_the_system(tmp_path: Any) -> None:
    from zogwedu_collection.log import opened_log

    with socket.socket(socket.AF_UNIX, socket.SOCK_DGRAM) as server:
        server.settimeout(60)
        server.bind(str(tmp_path / "log"))
        note = opened_log("syslog", str(tmp_path / "log"))
        note("good /disk/a.warc", logging.INFO)
        note("bad /disk/b.warc", logging.ERROR)
        assert server.recv(1000).rstrip(b"\0") == b"<14>warc-collection: good /disk/a.warc"
        assert server.recv(1000).rstrip(b"\0") == b"<11>warc-collection: bad /disk/b.warc"


def on_terminal(collection: Collection, *words: str, env: Dict[str, str]) -> str:
    """What a run prints on standard error, which is a terminal."""
    master, slave = pty.openpty()
    words = ("run", *words, "--warc", collection.warc)
    child = subprocess.Popen(
        collection.words(*words),
        stdout=subprocess.DEVNULL,
        stderr=slave,
        cwd=collection.folder,
        env={**os.environ, **env},
    )
    os.close(slave)
    seen = b""
    try:
        while True:
            seen += os.read(master, 1 << 16)
    except OSError:  # the other end of a terminal is closed
        os.close(master)
    assert child.wait() == 0, seen
    return seen.decode()


def test_progress_in_lines(collection: Collection) -> None:
    """Where python3-tqdm isn't there."""
    collection.put("without/tqdm.py", b"raise ImportError\n")
    collection.pages("disk/a.warc", 2)
    env = {"PYTHONPATH": collection.path("without")}
    size = os.path.getsize(collection.path("disk/a.warc"))
    assert "read %d.0 of %d.0 B" % (size, size) in on_terminal(collection, "disk", env=env)
    assert "read " not in on_terminal(collection, "--all", "--quiet", env=env)


def test_progress_by_a_bar(collection: Collection) -> None:
    collection.put(
        "with/tqdm.py",
        b"class tqdm:\n"
        b"    def __init__(self, total, **more): self.total, self.done = total, 0\n"
        b"    def update(self, count): self.done += count\n"
        b"    def clear(self): pass\n"
        b"    def close(self): print('bar: %d of %d' % (self.done, self.total))\n",
    )
    collection.pages("disk/a.warc", 3)
    size = os.path.getsize(collection.path("disk/a.warc"))
    master = subprocess.run(
        [
            sys.executable,
            "-c",
            "import pty, sys; sys.exit(pty.spawn(sys.argv[1:]) >> 8)",
            *collection.words("run", "disk"),
        ],
        stdin=subprocess.DEVNULL,
        capture_output=True,
        cwd=collection.folder,
        env={**os.environ, "PYTHONPATH": collection.path("with")},
        check=False,
    )
    assert b"bar: %d of %d" % (size, size) in master.stdout


def test_the_time_that_is_left() -> None:
    from zogwedu_collection.progress import Progress

    progress = Progress(4000, False)
    assert progress.left() is None
    progress.begun -= 100
    progress.add(1000)
    left = progress.left()
    assert left is not None and 300 <= left < 400
    assert progress.line(left).startswith("read 1.0 of 4.0 kB; 5 min ")


def as_json(done: Any) -> Any:
    return json.loads(done.stdout)


def test_json_of_a_run(collection: Collection) -> None:
    collection.pages("disk/a.warc", 1)
    path = collection.put("disk/bad.warc", record(1, digest=BAD))
    done = collection.night("--json", "disk")
    assert done.returncode == 1
    assert as_json(done) == collection.status()
    assert [it["path"] for it in as_json(done)["files"]] == [path]


def test_json_of_the_steps(collection: Collection) -> None:
    path = collection.pages("disk/a.warc", 1)
    done = collection.run("plan", "--json", "disk", "missing")
    about = as_json(done)
    assert done.returncode == 3
    assert about["troubles"] == {collection.path("missing"): "wasn't there"}
    assert [about[name] for name in ("run", "jobs", "files", "to_read")] == [1, 1, 1, 1]
    assert about["bytes"] == os.path.getsize(path)
    assert collection.run("job", about["folder"], "1").returncode == 0
    assert as_json(collection.run("load", "--json"))["states"] == {"good": 1}
    assert as_json(collection.run("prune", "--json", "--keep", "1")) == {"dropped": 0}
    assert collection.run("prune", "--quiet", "--keep", "1").stderr == b""
    done = collection.run("forget", "--json", path)
    assert done.returncode == 1 and as_json(done) == {"forgotten": [], "kept": [path]}
    done = collection.run("forget", "--json", "disk", "missing")
    assert done.returncode == 0 and as_json(done) == {"forgotten": [path], "kept": []}


def metrics(path: str) -> Dict[str, int]:
    """The metrics by their names, without the label that all have."""
    with open(path, encoding="utf-8") as file:
        rows = [line.rpartition(" ") for line in file.read().splitlines() if not line.startswith("#")]
    return {re.sub(r'catalogue="[^"]*",?', "", name).replace("{}", ""): int(value) for name, _, value in rows}


def test_metrics_of_a_night(collection: Collection) -> None:
    path = collection.pages("disk/a.warc", 1)
    collection.put("disk/bad.warc", record(1, digest=BAD))
    out = collection.path("metrics/night.prom")
    assert collection.night("--metrics", out, "disk").returncode == 2, "there is no such folder"
    os.makedirs(os.path.dirname(out))
    collection.night("--metrics", out, "disk")
    found = metrics(out)
    assert os.listdir(os.path.dirname(out)) == ["night.prom"]
    assert found['warc_collection_files{state="good"}'] == found['warc_collection_files{state="bad"}'] == 1
    assert found['warc_collection_files{state="gone"}'] == 0
    assert found['warc_collection_bytes{state="good"}'] == os.path.getsize(path)
    ((began, ended, read_on),) = collection.ask(
        "SELECT strftime('%s', began), strftime('%s', ended), strftime('%s', read_on) FROM runs, readings LIMIT 1"
    )
    assert found["warc_collection_last_run_end_timestamp_seconds"] == int(ended)
    assert found["warc_collection_last_run_duration_seconds"] == int(ended) - int(began)
    assert found["warc_collection_oldest_reading_timestamp_seconds"] == int(read_on)
    assert found["warc_collection_unread_folders"] == 0
    os.rename(collection.path("disk"), collection.path("off"))
    assert collection.night("--metrics", out).returncode == 3
    assert metrics(out)["warc_collection_unread_folders"] == 1
    collection.run("acknowledge", collection.path("disk/bad.warc"))
    collection.run("status", "--metrics", out)
    assert metrics(out)["warc_collection_acknowledged_files"] == 1


def test_metrics_of_a_night_that_fails(collection: Collection) -> None:
    """Where a run doesn't come to its end, a monitor sees it all the same."""
    collection.pages("disk/a.warc", 1)
    collection.night("disk")
    out = collection.path("night.prom")
    assert collection.night("--warc", "/bin/false", "--metrics", out).returncode == 3
    assert metrics(out)['warc_collection_files{state="good"}'] == 1


def test_a_folder_with_an_odd_name_in_metrics(collection: Collection) -> None:
    collection.pages("disk/a.warc", 1)
    words = ["run", "--jobs", "1", "--metrics", "x.prom", "disk"]
    assert collection.run(*words, catalogue='a "\\\n catalogue').returncode == 0
    with open(collection.path("x.prom"), encoding="utf-8") as file:
        assert '{catalogue="%s/a \\"\\\\\\\\\\\\n catalogue"' % collection.folder in file.read()
