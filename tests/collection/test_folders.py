"""Which folders a collection has: `run` adds them, `forget` ends the watch, and `status` names them."""
from __future__ import annotations

import os
import shutil
import subprocess
from typing import List

from conftest import Collection, lines, put


def test_run_adds_a_folder(collection: Collection) -> None:
    """A disk that is added doesn't end the watch over the others."""
    collection.pages("disk1/a.warc", 2)
    collection.pages("disk2/b.warc", 2)
    assert collection.night("disk1", "disk2").returncode == 0
    collection.pages("disk3/c.warc", 2)
    assert collection.night("disk3").returncode == 0
    shutil.rmtree(collection.path("disk1"))
    put(collection.path("disk2/b.warc"), b"garbage")
    done = collection.night()
    assert done.returncode == 3, "disk1 isn't there"
    assert collection.states()["b.warc"] != "good"
    done = collection.run("status")
    assert done.returncode == 3
    missing = [line for line in lines(done) if line.startswith("folder\t") and "disk1" in line]
    assert len(missing) == 1 and "wasn't there in the last run" in missing[0]


def test_status_begins_with_the_folders(collection: Collection) -> None:
    for disk in ("disk1", "disk2"):
        collection.pages(disk + "/a.warc", 1)
    collection.night("disk1", "disk2")
    first, second = lines(collection.run("status"))[:2]
    assert first.split("\t")[:2] == ["folder", collection.path("disk1")]
    assert second.split("\t")[:2] == ["folder", collection.path("disk2")]
    assert first.split("\t")[2].startswith("read on 2")
    found = collection.status()["folders"]
    assert [it["path"] for it in found] == [collection.path("disk1"), collection.path("disk2")]
    assert all(it["read_on"] and it["is_there"] for it in found)


def test_a_folder_that_is_back_is_read_again(collection: Collection) -> None:
    collection.pages("disk1/a.warc", 1)
    collection.pages("disk2/b.warc", 1)
    collection.night("disk1", "disk2")
    os.rename(collection.path("disk2"), collection.path("off"))
    assert collection.night().returncode == 3
    assert collection.states() == {"a.warc": "good", "b.warc": "good"}
    os.rename(collection.path("off"), collection.path("disk2"))
    assert collection.night().returncode == 0
    assert collection.run("status").returncode == 0


def test_forget_ends_the_watch_of_a_folder(collection: Collection) -> None:
    collection.pages("disk1/a.warc", 1)
    path = collection.pages("disk2/b.warc", 1)
    collection.night("disk1", "disk2")
    assert collection.run("forget", path).returncode == 1, "a file that is there stays"
    assert collection.run("forget", "disk2").returncode == 0
    assert collection.states() == {"a.warc": "good"}
    assert collection.night().returncode == 0
    assert collection.states() == {"a.warc": "good"}
    assert [it["path"] for it in collection.status()["folders"]] == [collection.path("disk1")]


def test_forget_keeps_what_another_folder_has(collection: Collection) -> None:
    collection.pages("disks/1/a.warc", 1)
    collection.pages("disks/2/b.warc", 1)
    collection.night("disks", "disks/2")
    done = collection.run("forget", "disks/2")
    assert done.returncode == 1 and b"b.warc" in done.stderr
    assert [it["path"] for it in collection.status()["folders"]] == [collection.path("disks")]
    assert len(collection.states()) == 2


def test_lists_are_added_too(collection: Collection) -> None:
    """Each list has the folder that its relative names are meant from."""
    for name in ("a", "b"):
        collection.pages("%s/%s.warc" % (name, name), 1)
        collection.put(name + "/list", b"%s.warc\n" % name.encode())
    collection.pages("disk/c.warc", 1)
    collection.night("disk")
    for name in ("a", "b"):
        run_in(collection, name, collection.words("run", "--quiet", "--files", "list"))
    assert collection.night().returncode == 0
    assert collection.states() == {"a.warc": "good", "b.warc": "good", "c.warc": "good"}
    assert collection.run("forget", "a/list").returncode == 0
    assert collection.states() == {"b.warc": "good", "c.warc": "good"}


def run_in(collection: Collection, folder: str, words: List[str]) -> None:
    """Runs words in a folder of the collection."""
    done = subprocess.run(words, cwd=collection.path(folder), capture_output=True, check=False)
    assert done.returncode == 0, done.stderr


def test_a_name_of_a_list_that_is_no_file(collection: Collection) -> None:
    collection.pages("disk/a.warc", 1)
    collection.put("list", b"missing.warc\n")
    assert collection.night("disk", "--files", "list").returncode == 3
    done = collection.run("status")
    assert done.returncode == 3 and "1 name of it isn't there in the last run" in lines(done)[1]


def test_a_file_that_a_list_drops(collection: Collection) -> None:
    """A file that no run looks at isn't good for ever."""
    collection.pages("a.warc", 1)
    collection.pages("b.warc", 1)
    path = collection.put("list", b"a.warc\nb.warc\n")
    assert collection.night("--files", "list").returncode == 0
    put(path, b"a.warc\n")
    assert collection.night().returncode == 1
    assert collection.states() == {"a.warc": "good", "b.warc": "unread"}
    assert collection.run("forget", "b.warc").returncode == 0
    assert collection.night().returncode == 0
