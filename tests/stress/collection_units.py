#!/usr/bin/env python3
"""Tries the units of systemd, the user and the configuration file of the package in a container of Debian's.

Usage: collection_units.py WARC [CONTAINER]      as root, with debootstrap and systemd-container

WARC is the built program. CONTAINER is a folder that debootstrap has made, with systemd, dbus, python3 and parallel;
without it one is made, which needs Debian's mirror. A script is the container's only task: it starts the units, writes
what it sees to a file, and ends the container. The room is asked for a page if the Python package was made by `make
python`.
"""
from __future__ import annotations

import json
import os
import shutil
import subprocess
import sys
import tempfile
from typing import Any, Dict

from collection_trial import TOP, Trial, put, record

MIRROR = "http://deb.debian.org/debian"
PACKAGES = "systemd,systemd-sysv,dbus,python3,parallel"
MOST_SECONDS = 600
UNITS = (
    "warc-collection.service",
    "warc-collection.timer",
    "warc-collection-room.socket",
    "warc-collection-room.service",
)
PACKAGE = os.path.join(TOP, "out", "python", "zogwedu")
# The container's processes have no bus of this machine, and this machine may have no systemd.
IN_CONTAINER = "mount -t tmpfs tmpfs /run && exec systemd-nspawn --quiet --register=no --keep-unit --private-network"
TASK = """[Unit]
After=multi-user.target
[Service]
Type=oneshot
ExecStart=/usr/bin/python3 /trial/task.py
ExecStopPost=/bin/systemctl --no-block poweroff
[Install]
WantedBy=default.target
"""
# What the container does. It writes what it saw as JSON.
SCRIPT = r"""
import glob, json, os, subprocess, time, urllib.error, urllib.request
seen = {}
def run(name, *words):
    done = subprocess.run(words, stdin=subprocess.DEVNULL, stdout=subprocess.PIPE, stderr=subprocess.STDOUT)
    seen[name] = {"status": done.returncode, "text": done.stdout.decode("utf-8", "replace")[-3000:]}
def shown(unit, *names):
    words = ["systemctl", "show", unit, *("--property=" + name for name in names)]
    return dict(line.split("=", 1) for line in subprocess.check_output(words).decode().splitlines())
def command(*words):
    inside = 'cd /var/lib/warc-collection && exec warc-collection "$@"'
    return ["runuser", "-u", "warc-collection", "--", "sh", "-c", inside, "sh", *words]
run("verify", "systemd-analyze", "verify", "--man=no", *glob.glob("/usr/lib/systemd/system/warc-collection*"))
run("night without a folder", "systemctl", "start", "warc-collection.service")
with open("/etc/warc-collection.conf", "a") as out:
    out.write("[run]\npaths = /disks/1\nmetrics = /var/lib/warc-collection/night.prom\n")
run("first night", "systemctl", "start", "warc-collection.service")
seen["after the first"] = shown("warc-collection.service", "ExecMainStatus", "Result")
run("states", *command("status"))
os.rename("/disks/1/a.warc", "/disks/1/gone")
run("bad night", "systemctl", "start", "warc-collection.service")
seen["after the bad"] = shown("warc-collection.service", "ExecMainStatus", "Result")
run("journal", "journalctl", "--no-pager", "--output=cat", "--unit=warc-collection.service")
run("timer", "systemctl", "start", "warc-collection.timer")
seen["the timer"] = shown("warc-collection.timer", "ActiveState", "NextElapseUSecRealtime")
run("socket", "systemctl", "start", "warc-collection-room.socket")
for path in ("/", "/timemap/link/http://b.example/"):
    try:
        with urllib.request.urlopen("http://127.0.0.1:8080" + path, timeout=60) as answer:
            seen[path] = {"status": answer.status, "text": answer.read().decode("utf-8", "replace")[:3000]}
    except (OSError, urllib.error.URLError) as error:
        seen[path] = {"status": getattr(error, "code", 0), "text": repr(error)}
seen["the room"] = shown("warc-collection-room.service", "ActiveState", "Result")
run("journal of the room", "journalctl", "--no-pager", "--output=cat", "--unit=warc-collection-room.service")
with open("/trial/seen.new", "w") as out:
    json.dump(seen, out)
os.rename("/trial/seen.new", "/trial/seen")
"""


def made_container(folder: str) -> str:
    """A container of Debian's, made anew."""
    words = ["debootstrap", "--variant=minbase", "--include=" + PACKAGES, "bookworm", folder, MIRROR]
    subprocess.run(words, stdout=subprocess.DEVNULL, check=True)
    return folder


def copy(source: str, to: str) -> None:
    os.makedirs(os.path.dirname(to), exist_ok=True)
    shutil.copy(source, to)


def install(trial: Trial, root: str) -> None:
    """Puts what the package has, and a collection, into a container."""
    packaging = os.path.join(TOP, "packaging")
    copy(trial.script, root + "/usr/bin/warc-collection")
    copy(trial.warc, root + "/usr/bin/warc")
    for name in ("warc-collection", "warc"):
        os.chmod(root + "/usr/bin/" + name, 0o755)
    for name in UNITS:
        copy(os.path.join(packaging, "systemd", name), root + "/usr/lib/systemd/system/" + name)
    copy(os.path.join(packaging, "systemd/warc-collection.sysusers"), root + "/usr/lib/sysusers.d/warc-collection.conf")
    copy(os.path.join(packaging, "warc-collection.conf"), root + "/etc/warc-collection.conf")
    if os.path.isdir(PACKAGE):
        shutil.copytree(PACKAGE, root + "/usr/lib/python3/dist-packages/zogwedu", dirs_exist_ok=True)
    for number, name in enumerate(("a", "b")):
        target = b"http://%s.example/" % name.encode()
        put("%s/disks/1/%s.warc" % (root, name), record("resource", number, "2020-01-01T00:00:00Z", target, b"page"))
    put(root + "/trial/task.py", SCRIPT.encode())
    put(root + "/etc/systemd/system/trial.service", TASK.encode())
    subprocess.run(["systemctl", "--root", root, "enable", "trial.service"], stderr=subprocess.DEVNULL, check=True)


def started(root: str) -> Dict[str, Any]:
    """Starts a container, waits for its end, and returns what its script saw."""
    words = ["unshare", "--mount", "sh", "-c", IN_CONTAINER + ' --directory="$1" --boot', "sh", root]
    boot = subprocess.run(words, stdin=subprocess.DEVNULL, capture_output=True, timeout=MOST_SECONDS, check=False)
    try:
        with open(root + "/trial/seen", encoding="utf-8") as file:
            found: Dict[str, Any] = json.load(file)
            return found
    except OSError:
        print(boot.stdout.decode("utf-8", "replace")[-3000:], boot.stderr.decode("utf-8", "replace")[-3000:])
        raise


def judge(trial: Trial, seen: Dict[str, Any]) -> None:
    """Compares what the container saw with what has to be."""
    trial.judge(seen["verify"] == {"status": 0, "text": ""}, "systemd-analyze verify", seen["verify"])
    trial.judge(
        seen["night without a folder"]["status"] == 1, "a night without a folder", seen["night without a folder"]
    )
    trial.judge(seen["first night"]["status"] == 0, "the first night", seen["first night"])
    trial.judge(seen["after the first"] == {"ExecMainStatus": "0", "Result": "success"}, "its status", seen)
    trial.judge("good\t2\t" in seen["states"]["text"], "states", seen["states"])
    trial.judge(seen["bad night"]["status"] == 1, "a bad night", seen["bad night"])
    trial.judge(
        seen["after the bad"] == {"ExecMainStatus": "1", "Result": "exit-code"}, "its status", seen["after the bad"]
    )
    journal = seen["journal"]["text"]
    trial.judge("name the folders of the collection" in journal, "the journal of a night without a folder", journal)
    trial.judge("gone\t/disks/1/a.warc" in journal, "the journal of a bad night", journal)
    trial.judge("run 1: " not in journal, "a good night has nothing in the journal", journal)
    timer = seen["the timer"]
    trial.judge(timer["ActiveState"] == "active" and bool(timer["NextElapseUSecRealtime"]), "the timer", timer)
    trial.judge(seen["socket"]["status"] == 0, "the socket", seen["socket"])
    judge_room(trial, seen)


def judge_room(trial: Trial, seen: Dict[str, Any]) -> None:
    """Compares what the room gave with what has to be."""
    if not os.path.isdir(PACKAGE):
        why = seen["journal of the room"]["text"]
        trial.judge("the Python package zogwedu" in why, "the room without its package says what is missing", why)
        print("the room: not asked for a page, since make python wasn't run")
        return
    trial.judge(seen["the room"]["ActiveState"] == "active", "the room", seen["journal of the room"])
    trial.judge(seen["/"]["status"] == 200 and "<title>" in seen["/"]["text"], "its page", seen["/"])
    found = seen["/timemap/link/http://b.example/"]
    trial.judge(found["status"] == 200 and "memento" in found["text"], "a capture", found)


def main() -> int:
    warc, given = sys.argv[1], sys.argv[2:]
    if os.getuid() != 0:
        print("collection: the units are left out, since that takes root")
        return 0
    with tempfile.TemporaryDirectory(prefix="warc-units-") as folder:
        trial = Trial(warc, folder)
        trial.begin("units of systemd in a container")
        root = os.path.join(folder, "container")
        if given:
            subprocess.run(["cp", "--archive", given[0], root], check=True)
        else:
            made_container(root)
        install(trial, root)
        judge(trial, started(root))
        trial.end()
        return trial.totals()


if __name__ == "__main__":
    sys.exit(main())
