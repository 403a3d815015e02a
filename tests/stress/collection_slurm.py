#!/usr/bin/env python3
"""Has Slurm run the script of docs/COLLECTIONS.md, as it is there, over some archives.

Usage: collection_slurm.py WARC [COUNT]      as root, with slurm-wlm and munge; 200 archives without COUNT

Starts munged, slurmctld and slurmd on this machine, with files of their own, in a mount namespace where /srv is a new
folder. A task is killed while it works, and a disk is missing in a second night. What the catalogue has in the end must
be what a plain run finds.
"""
from __future__ import annotations

import contextlib
import os
import re
import signal
import socket
import subprocess
import sys
import tempfile
import time
from typing import Callable, Iterator, List, Sequence

from collection_trial import TOP, Trial, contents, put, put_script, record

CATALOGUE = "/srv/catalogue"
MOST_SECONDS = 300
CONFIGURATION = """
ClusterName=trial
SlurmctldHost={host}
SlurmUser=root
SlurmdUser=root
AuthType=auth/munge
AuthInfo=socket={folder}/munge.socket
SlurmctldPidFile={folder}/slurmctld.pid
SlurmdPidFile={folder}/slurmd.pid
SlurmdSpoolDir={folder}/spool
StateSaveLocation={folder}/state
SlurmctldLogFile={folder}/slurmctld.log
SlurmdLogFile={folder}/slurmd.log
ProctrackType=proctrack/linuxproc
TaskPlugin=task/none
MpiDefault=none
SwitchType=switch/none
SelectType=select/cons_tres
SelectTypeParameters=CR_Core
JobAcctGatherType=jobacct_gather/none
AccountingStorageType=accounting_storage/none
SlurmctldPort=17817
SlurmdPort=17818
SchedulerParameters=sched_interval=1,batch_sched_delay=0,default_queue_depth=1000
MinJobAge=300
KillWait=2
NodeName={host} NodeAddr=127.0.0.1 CPUs={cores}
PartitionName=all Nodes=ALL Default=YES State=UP
"""
# The program, but a job over this file says which task it is, and waits to be killed while a file is there.
SLOW = """
case $(readlink /proc/self/fd/0) in
    */slow.warc) if [ -e {folder}/wait ]; then
        echo "${{SLURM_ARRAY_JOB_ID}}_${{SLURM_ARRAY_TASK_ID}}" > {folder}/task.new
        mv {folder}/task.new {folder}/task
        sleep 600
    fi ;;
esac
exec {warc} "$@"
"""


def page_script() -> bytes:
    """The script of the page."""
    with open(os.path.join(TOP, "docs", "COLLECTIONS.md"), encoding="utf-8") as file:
        found = re.search("```sh\n(#!/bin/bash\n.*?)```", file.read(), re.DOTALL)
    assert found is not None
    return found[1].encode()


def wait_until(what: Callable[[], bool], about: str) -> None:
    """Waits for something that has to come."""
    end = time.monotonic() + MOST_SECONDS
    while not what():
        if time.monotonic() > end:
            raise AssertionError("waited in vain: " + about)
        time.sleep(0.2)


def said(*words: str) -> str:
    """What a command of Slurm prints."""
    return subprocess.run(words, stdout=subprocess.PIPE, stderr=subprocess.STDOUT, text=True, check=False).stdout


def started(words: Sequence[str], folder: str) -> "subprocess.Popen[bytes]":
    """A server that stays in the foreground. What it prints is kept."""
    with open(os.path.join(folder, os.path.basename(words[0]) + ".out"), "wb") as out:
        return subprocess.Popen(words, stdin=subprocess.DEVNULL, stdout=out, stderr=out, start_new_session=True)


@contextlib.contextmanager
def slurm(folder: str) -> Iterator[None]:
    """A cluster of this machine alone."""
    host = socket.gethostname().split(".")[0]
    text = CONFIGURATION.format(folder=folder, host=host, cores=os.cpu_count())
    os.environ["SLURM_CONF"] = put(os.path.join(folder, "slurm.conf"), text.encode())
    put(os.path.join(folder, "cgroup.conf"), b"CgroupPlugin=cgroup/v1\n")
    put(os.path.join(folder, "munge.key"), os.urandom(1024))
    os.chmod(os.path.join(folder, "munge.key"), 0o600)
    for name in ("spool", "state"):
        os.makedirs(os.path.join(folder, name))
    names = {"socket": "socket", "key-file": "key", "pid-file": "pid", "log-file": "log", "seed-file": "seed"}
    munge = ["--%s=%s/munge.%s" % (option, folder, name) for option, name in names.items()]
    servers = []
    try:
        servers.append(started(["munged", "--foreground", "--force", *munge], folder))
        wait_until(lambda: os.path.exists(folder + "/munge.socket"), "munged")
        servers.append(started(["slurmctld", "-D"], folder))
        servers.append(started(["slurmd", "-D", "-N", host], folder))
        wait_until(lambda: "idle" in said("sinfo", "--noheader", "--format=%T"), "a node that is idle")
        yield
    finally:
        for server in reversed(servers):
            server.send_signal(signal.SIGTERM)
            try:
                server.wait(30)
            except subprocess.TimeoutExpired:
                server.kill()
                server.wait()


def archives(folder: str, count: int) -> None:
    """Archives on two disks, one of them bad and one damaged."""
    for number in range(count):
        page = record("resource", number, "2020-01-01T00:00:00Z", b"http://a.example/%d" % number, b"page %d" % number)
        name = {0: "slow", 1: "bad", 2: "damaged"}.get(number, "%d" % number)
        data = {"bad": page.replace(b"page 1\r\n", b"PAGE 1\r\n"), "damaged": page + b"garbage"}.get(name, page * 3)
        put(os.path.join(folder, "disks", "it's %d" % (1 + number % 2), name + ".warc"), data)


def night(trial: Trial, wanted: int, *disks: str) -> None:
    """Runs the script, which gives Slurm its tasks, and judges its status."""
    path = put(trial.path("night.sh"), page_script())
    words = ["bash", path, *(trial.path("disks", disk) for disk in disks)]
    done = subprocess.run(words, cwd=trial.folder, stdin=subprocess.DEVNULL, capture_output=True, check=False)
    trial.judge(done.returncode == wanted, "the script over %s" % (disks,), (done.returncode, done.stderr))


def wait_for_load(trial: Trial) -> str:
    """Waits until nothing is queued. Returns what `load` wrote."""
    wait_until(lambda: said("squeue", "--noheader").strip() == "", "the end of all tasks")
    with open(CATALOGUE + "/load.log", encoding="utf-8") as file:
        return file.read()


def killed_task(trial: Trial) -> None:
    """A night of which a task is killed. Its files are left, and what it wrote stays."""
    put(trial.path("wait"), b"")
    night(trial, 0, "it's 1", "it's 2")
    wait_until(lambda: os.path.exists(trial.path("task")), "the slow task")
    with open(trial.path("task"), encoding="ascii") as file:
        task = file.read().strip()
    subprocess.run(["scancel", "--signal=KILL", "--full", task], check=True)
    os.unlink(trial.path("wait"))
    text = wait_for_load(trial)
    trial.judge("of run 1 not read: load again later, or plan again" in text, "load after a killed task", text)
    logs = os.path.join(CATALOGUE, "jobs", "1-1")
    trial.judge(os.path.isdir(logs), "the folder of the list stays", os.listdir(CATALOGUE + "/jobs"))


def second_plan(trial: Trial) -> None:
    """The script again: it reads what is left alone, with one disk missing in its words."""
    night(trial, 3, "it's 1", "it's 2", "not mounted")
    text = wait_for_load(trial)
    trial.judge("not mounted\twasn't there in the last run" in text, "load with a disk missing", text)
    runs = trial.ask(CATALOGUE, "SELECT run, attempts, ended IS NOT NULL FROM runs")
    trial.judge(runs == [(1, 2, 1)], "the runs", runs)
    trial.judge(os.listdir(CATALOGUE + "/jobs") == [], "the lists are removed", os.listdir(CATALOGUE + "/jobs"))
    logs = [name for _, _, names in os.walk(CATALOGUE + "/logs") for name in names]
    trial.judge(len(logs) > 0 and all(name.endswith(".log") for name in logs), "what the killed task wrote", logs)


def compared(trial: Trial) -> None:
    """The catalogue is that of a plain run."""
    done = trial.run("plain", "run", *(trial.path("disks", "it's %d" % disk) for disk in (1, 2)))
    trial.judge(done.returncode == 1, "a plain run", done.stderr)
    there, plain = contents(trial, CATALOGUE), contents(trial, "plain")
    for table in plain:
        trial.judge(there[table] == plain[table], "the rows of " + table, list(there[table] ^ plain[table])[:6])
    counts = trial.ask(CATALOGUE, "SELECT state, count(*) FROM files GROUP BY state ORDER BY state")
    print("the states: %s" % counts)


def inside(warc: str, count: int, folder: str) -> int:
    """All of it, where /srv is a folder of the trial's own."""
    trial = Trial(warc, folder)
    trial.begin("the script for Slurm, %d archives" % count)
    archives(folder, count)
    tools = trial.path("tools")
    put_script(os.path.join(tools, "warc"), SLOW.format(folder=folder, warc=trial.warc))
    os.symlink(trial.script, os.path.join(tools, "warc-collection"))
    os.environ["PATH"] = tools + ":" + os.environ["PATH"]
    trial.warc = os.path.join(tools, "warc")
    with slurm(folder):
        killed_task(trial)
        second_plan(trial)
    compared(trial)
    trial.end()
    return trial.totals()


def main(words: List[str]) -> int:
    """Begins anew where /srv is another folder, and runs the trial there."""
    warc, count = os.path.abspath(words[0]), int((words[1:2] or ["200"])[0])
    if words[2:]:
        return inside(warc, count, words[2])
    if os.getuid() != 0:
        print("collection: Slurm is left out, since that takes root")
        return 0
    with tempfile.TemporaryDirectory(prefix="warc-slurm-") as folder:
        os.mkdir(os.path.join(folder, "srv"))
        again = [sys.executable, os.path.abspath(__file__), warc, str(count), folder]
        make = 'mount --bind "$1" /srv && shift && exec "$@"'
        namespace = ["unshare", "--mount", "sh", "-c", make, "sh", os.path.join(folder, "srv")]
        return subprocess.run([*namespace, *again], check=False).returncode


if __name__ == "__main__":
    sys.exit(main(sys.argv[1:]))
