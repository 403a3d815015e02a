"""Jobs: as many files as take some seconds, each with what it found in one stream."""
from __future__ import annotations

import os
import signal
import subprocess
import time
from typing import Callable, List

import pytest
from conftest import Collection, record, script, to_read


def plan(collection: Collection, count: int, *words: str) -> str:
    """Plans a run over `count` small files. Returns the folder of its jobs."""
    for number in range(count):
        collection.put("disk/%d.warc" % number, record(number))
    done = collection.run("plan", *words, "disk")
    assert done.returncode == 0 and to_read(done) == count
    return os.fsdecode(done.stdout.strip())


def job_lines(jobs: str) -> List[bytes]:
    with open(os.path.join(jobs, "jobs"), "rb") as file:
        return file.read().splitlines(True)


def test_a_job_is_as_many_files_as_take_some_seconds(collection: Collection) -> None:
    assert len(job_lines(plan(collection, 12))) == 1
    lines = job_lines(plan(collection, 12, "--batch", "5"))
    assert len(lines) == 3 and len({len(line) for line in lines}) == 1


def test_a_large_file_is_a_job_of_its_own(collection: Collection) -> None:
    path = collection.put("disk/large.warc")
    os.truncate(path, 1 << 40)
    assert len(job_lines(os.fsdecode(collection.run("plan", "disk").stdout.strip()))) == 1
    collection.put("disk/small.warc")
    assert len(job_lines(os.fsdecode(collection.run("plan", "disk").stdout.strip()))) == 2


def test_a_job_reads_no_other_line_of_the_list(collection: Collection) -> None:
    """A list of a million files costs a job nothing."""
    jobs = plan(collection, 3, "--batch", "1")
    with open(os.path.join(jobs, "files"), "rb+") as file:
        lines = file.read().splitlines(True)
        for wrong in (0, len(lines[0]) + len(lines[1])):
            file.seek(wrong)
            file.write(b"\xff" * 9)
    assert collection.run("job", jobs, "2").returncode == 0
    assert os.listdir(os.path.join(jobs, "done")) == ["2"]
    assert collection.run("job", jobs, "4").returncode == 3


def test_what_a_job_found_is_one_stream(collection: Collection) -> None:
    jobs = plan(collection, 3)
    assert collection.run("job", jobs, "1").returncode == 0
    assert sorted(os.listdir(os.path.join(jobs, "done", "1"))) == ["outcomes", "output"]
    assert collection.run("load").returncode == 0
    assert collection.ask("SELECT count(*), count(hash) FROM records") == [(3, 3)]
    assert set(collection.states().values()) == {"good"}


@pytest.mark.parametrize("name, left", [("output", 0), ("output", 700), ("outcomes", 0), ("outcomes", 100)])
def test_a_torn_job_is_left_out(collection: Collection, name: str, left: int) -> None:
    """After a power cut: nothing of it is taken in, and its files are read again."""
    jobs = plan(collection, 3)
    collection.run("job", jobs, "1")
    os.truncate(os.path.join(jobs, "done", "1", name), left)
    assert collection.run("load").returncode == 3
    assert set(collection.states().values()) == {"unread"}
    assert collection.ask("SELECT count(*) FROM records") == [(0,)]
    assert collection.night().returncode == 0
    assert collection.ask("SELECT count(*) FROM records") == [(3,)]


def test_one_job_needs_no_parallel(collection: Collection) -> None:
    collection.put("disk/a.warc", record(1))
    assert collection.night("disk", env={"PATH": collection.path("nothing")}).returncode == 0


def pids(folder: str) -> List[int]:
    """The processes that wrote their numbers into a folder."""
    return [int(name) for name in os.listdir(folder)]


def is_running(pid: int) -> bool:
    """Whether a process is there and isn't a dead one that nobody has waited for."""
    try:
        with open("/proc/%d/stat" % pid, encoding="ascii") as file:
            return file.read().rpartition(")")[2].split()[0] != "Z"
    except OSError:
        return False


def wait_until(what: Callable[[], bool]) -> bool:
    end = time.monotonic() + 60
    while not what() and time.monotonic() < end:
        time.sleep(0.05)
    return what()


def slow_program(collection: Collection) -> str:
    """A program that takes ten minutes over a file. Each writes its number into the folder `there`."""
    there = collection.path("there")
    os.makedirs(there)
    text = '[ "$1" = --version ] || { : > %s/$$; exec sleep 600; }\nexec %s "$@"\n' % (there, collection.warc)
    return script(collection.path("slow"), text)


def has_ended(collection: Collection) -> bool:
    """Waits until none of these programs runs any more. Those that still do are ended here."""
    found = pids(collection.path("there"))
    is_over = wait_until(lambda: not any(map(is_running, found)))
    for pid in filter(is_running, found):
        os.kill(pid, signal.SIGKILL)
    return is_over


def children_of(pid: int) -> List[int]:
    with open("/proc/%d/task/%d/children" % (pid, pid), encoding="ascii") as file:
        return list(map(int, file.read().split()))


@pytest.mark.parametrize("files, is_parallel_killed", [(1, False), (3, False), (3, True)])
def test_no_job_outlives_a_run_that_is_killed(collection: Collection, files: int, is_parallel_killed: bool) -> None:
    """Neither where one job is done without GNU parallel, nor where that does several, nor where it is killed too."""
    for number in range(files):
        collection.put("disk/%d.warc" % number, record(number))
    words = ["--jobs", "2", "--batch", "1", "--warc", slow_program(collection), collection.path("disk")]
    words, there = collection.words("run", *words), collection.path("there")
    with subprocess.Popen(words, stdout=subprocess.DEVNULL, stderr=subprocess.DEVNULL) as child:
        assert wait_until(lambda: len(pids(there)) == min(files, 2))
        for pid in [*(children_of(child.pid) if is_parallel_killed else []), child.pid]:
            os.kill(pid, signal.SIGKILL)
    assert has_ended(collection)
    assert len(pids(there)) == min(files, 2), "no more jobs are begun"
    assert collection.night().returncode == 0
    assert os.listdir(collection.path("catalogue/jobs")) == []


def test_no_program_outlives_a_job_that_is_killed(collection: Collection) -> None:
    """As GNU parallel kills one that doesn't end in time."""
    jobs = plan(collection, 1, "--warc", slow_program(collection))
    with subprocess.Popen(collection.words("job", jobs, "1"), stderr=subprocess.DEVNULL) as child:
        assert wait_until(lambda: bool(pids(collection.path("there"))))
        child.kill()
    assert has_ended(collection)


def test_a_number_that_is_no_pipe_ends_nothing(collection: Collection) -> None:
    """A task of a scheduler may have the variable of another run."""
    jobs = plan(collection, 1)
    for value in ("0 1", "999 1", "x", "", "-1 -1", "9" * 30 + " 1"):
        assert collection.run("job", jobs, "1", env={"WARC_COLLECTION_LIFELINE": value}).returncode == 0
