"""Which files are taken for unchanged: size and time of modification decide."""
from __future__ import annotations

import os
import shutil
import time

from conftest import URI, Collection, record, to_read


def old_file(collection: Collection, name: str) -> str:
    """A file that was modified a day before it was read."""
    path = collection.put(name, record(1))
    then = time.time() - 86_400
    os.utime(path, (then, then))
    return path


def test_a_hard_link_and_another_mode(collection: Collection) -> None:
    """`cp -al` and `chmod` change the time of status change."""
    path = old_file(collection, "disk/a.warc")
    collection.night("disk")
    os.link(path, collection.path("link"))
    os.chmod(path, 0o600)
    assert collection.run("replay", URI, "9999").stdout == b"abc"
    assert to_read(collection.night()) == 0
    assert collection.run("replay", URI, "9999").stdout == b"abc"


def test_other_inodes(collection: Collection) -> None:
    """Another mount of the same disk, or another machine, may have them."""
    path = old_file(collection, "disk/a.warc")
    collection.night("disk")
    shutil.copy2(path, collection.path("copy"))
    os.replace(collection.path("copy"), path)
    assert to_read(collection.night()) == 0
    assert collection.run("replay", URI, "9999").returncode == 0


def test_a_file_that_was_modified_just_before(collection: Collection) -> None:
    """It may be modified again in what the disk takes for the same moment. So may one with a time in the future."""
    path = collection.put("disk/a.warc", record(1))
    ahead = time.time() + 86_400
    os.utime(path, (ahead, ahead))
    collection.night("disk")
    assert to_read(collection.night()) == 0
    os.chmod(path, 0o600)
    assert collection.run("replay", URI, "9999").returncode == 3
    assert to_read(collection.night()) == 1
