"""The steps of a run for a scheduler: lists for which tasks still wait, what tasks wrote, and the page's script."""
from __future__ import annotations

import glob
import os
import re
import subprocess
from typing import List

from conftest import PROJECT, Collection, lines, put, record, script

BAD = "sha1:" + "A" * 32
# A scheduler that does each task of an array at once, one after another, and then what depends on it.
SBATCH = """
for last; do :; done
echo "$@" >> "%s/sbatch"
case "$*" in
    *--array=*)
        out=$(printf '%%s\\n' "$@" | sed -n 's/^--output=//p')
        for SLURM_ARRAY_TASK_ID in $(seq 1 100); do
            export SLURM_ARRAY_TASK_ID
            sh -c "$last" > "$(printf %%s "$out" | sed "s/%%a/$SLURM_ARRAY_TASK_ID/")" 2>&1
            [ "$SLURM_ARRAY_TASK_ID" = 3 ] && break
        done
        echo 7 ;;
    *) sh -c "$last" > "%s/loaded" 2>&1; echo $? > "%s/status" ;;
esac
exit 0
"""


def planned(collection: Collection, *words: str) -> str:
    """Plans a run, with a file for each job. Returns the folder of its list."""
    return os.fsdecode(collection.run("plan", "--batch", "1", *words).stdout.strip())


def test_a_second_plan_leaves_the_first_list(collection: Collection) -> None:
    """Its tasks may still wait: what they do is taken in too."""
    for number in range(4):
        collection.put("disk/%d.warc" % number, record(number))
    first = planned(collection, "disk")
    assert collection.run("job", first, "1").returncode == 0
    second = planned(collection)
    assert first != second and os.path.isdir(first)
    assert collection.ask("SELECT count(*) FROM records") == [(1,)]
    assert collection.run("job", first, "2").returncode == 0
    done = collection.run("load")
    assert done.returncode == 3 and b"2 files of run 1 not read" in done.stderr
    assert os.path.isdir(first) and os.path.isdir(second)
    assert collection.run("job", second, "1", "2", "3").returncode == 0
    assert collection.run("load").returncode == 0
    assert collection.states() == {"%d.warc" % number: "good" for number in range(4)}
    assert os.listdir(collection.path("catalogue/jobs")) == []
    assert collection.ask("SELECT run, attempts, ended IS NOT NULL FROM runs") == [(1, 2, 1)]


def test_the_newest_list_ends_a_run(collection: Collection) -> None:
    """A task of the first list that is lost, over a file that is gone, doesn't keep a run from its end."""
    path = collection.pages("disk/a.warc", 1)
    collection.pages("disk/b.warc", 1)
    planned(collection, "disk")
    os.unlink(path)
    second = planned(collection)
    assert collection.run("job", second, "1").returncode == 0
    assert collection.run("load").returncode == 1
    assert collection.states() == {"a.warc": "gone", "b.warc": "good"}
    assert collection.ask("SELECT ended IS NOT NULL FROM runs") == [(1,)]


def test_what_tasks_wrote_stays_after_a_bad_run(collection: Collection) -> None:
    collection.put("disk/bad.warc", record(1, digest=BAD))
    jobs = planned(collection, "disk")
    put(os.path.join(jobs, "1.log"), b"slurmstepd: error\n")
    put(os.path.join(jobs, "2.log"))
    assert collection.run("job", jobs, "1").returncode == 0
    done = collection.run("load")
    kept = collection.path("catalogue/logs/1-1")
    assert done.returncode == 1 and os.fsencode(kept) in done.stderr
    assert os.listdir(kept) == ["1.log"] and not os.path.exists(jobs)
    collection.night()
    assert collection.run("prune", "--keep", "1").returncode == 0
    assert not os.path.exists(kept)


def test_what_tasks_wrote_goes_with_a_good_run(collection: Collection) -> None:
    collection.pages("disk/a.warc", 1)
    jobs = planned(collection, "disk")
    put(os.path.join(jobs, "1.log"), b"a word\n")
    collection.run("job", jobs, "1")
    assert collection.run("load").returncode == 0
    assert not os.path.exists(collection.path("catalogue/logs"))


def page_script(catalogue: str) -> str:
    """The script of the page, over another catalogue."""
    with open(os.path.join(PROJECT, "docs/COLLECTIONS.md"), encoding="utf-8") as file:
        found = re.search("```sh\n#!/bin/bash\n(.*?)```", file.read(), re.DOTALL)
    assert found is not None and "WARC_CATALOGUE=/srv/catalogue\n" in found[1]
    return found[1].replace("/srv/catalogue", catalogue)


def night(collection: Collection, *words: str) -> "subprocess.CompletedProcess[bytes]":
    """Runs the script of the page, with a scheduler that does all at once."""
    path = put(collection.path("night.sh"), page_script(collection.path("catalogue")).encode())
    tools = collection.path("tools")
    script(os.path.join(tools, "sbatch"), SBATCH % ((collection.folder,) * 3))
    script(os.path.join(tools, "warc-collection"), 'exec %s "$@"\n' % " ".join(map(repr, collection.script())))
    os.symlink(collection.warc, os.path.join(tools, "warc")) if not glob.glob(tools + "/warc") else None
    env = dict(os.environ, PATH=tools + ":" + os.environ["PATH"], PYTHONDONTWRITEBYTECODE="1")
    env.pop("WARC_CATALOGUE", None)
    return subprocess.run(["bash", path, *words], cwd=collection.folder, capture_output=True, env=env, check=False)


def asked(collection: Collection) -> List[str]:
    """What the scheduler was asked for."""
    if not os.path.exists(collection.path("sbatch")):
        return []
    with open(collection.path("sbatch"), encoding="utf-8") as file:
        return file.read().splitlines()


def test_the_script_of_the_page(collection: Collection) -> None:
    """With a disk missing it goes on with the rest, and ends with 3."""
    for number in range(3):
        collection.put("disks/it's 1/%d.warc" % number, record(number))
    done = night(collection, "disks/it's 1")
    assert done.returncode == 0, done.stderr
    assert len(asked(collection)) == 2 and collection.states() == {"%d.warc" % it: "good" for it in range(3)}
    collection.put("disks/it's 1/new.warc", record(9))
    done = night(collection, "disks/it's 1", "disks/2")
    assert done.returncode == 3, done.stderr
    assert len(asked(collection)) == 4 and collection.states()["new.warc"] == "good"
    with open(collection.path("status"), encoding="ascii") as file:
        assert file.read() == "3\n", "load says that a disk is missing"
    assert [line for line in lines(collection.run("status")) if "disks/2\twasn't there" in line]


def test_the_script_where_nothing_can_be_planned(collection: Collection) -> None:
    assert night(collection).returncode == 3
    assert asked(collection) == []
