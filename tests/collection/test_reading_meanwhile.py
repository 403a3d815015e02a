"""Who asks during a run is answered as before it."""
from __future__ import annotations

import os
import signal
import subprocess
import time
from typing import Callable

from conftest import MOST_SECONDS, URI, Collection, record, script


def until(is_so: Callable[[], bool]) -> None:
    """Waits for something to happen."""
    end = time.monotonic() + MOST_SECONDS
    while not is_so():
        assert time.monotonic() < end, "it never happens"
        time.sleep(0.05)


def plan_of(collection: Collection) -> str:
    """How SQLite looks up a target."""
    query = "EXPLAIN QUERY PLAN SELECT position FROM captures WHERE target = ? AND instant <= ?"
    return str(collection.ask(query, URI, "9999")[0][-1])


def test_indexes_stay(collection: Collection) -> None:
    """A run over many files doesn't drop them, nor one that is killed."""
    collection.pages("disk/first.warc", 1)
    collection.night("disk")
    for number in range(110):
        collection.put("disk/%d.warc" % number, record(number))
    waits = 'if [ "$1" = survey ]; then touch begun; while [ ! -e go ]; do sleep 0.05; done; fi\n'
    slow = script(collection.path("slow"), waits + 'exec "%s" "$@"\n' % collection.warc)
    words = collection.words("run", "--quiet", "--jobs", "1", "--warc", slow)
    child = subprocess.Popen(words, cwd=collection.folder, stderr=subprocess.PIPE, start_new_session=True)
    try:
        until(lambda: os.path.exists(collection.path("begun")))
        assert "captures_by_target" in plan_of(collection)
    finally:
        os.killpg(child.pid, signal.SIGKILL)
        # A job of the run may outlive it, and holds the pipe until it goes on.
        collection.put("go")
        child.communicate()
    assert "captures_by_target" in plan_of(collection)
