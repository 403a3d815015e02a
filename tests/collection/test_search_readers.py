"""Who may only read the catalogue finds pages after a run was killed too, or hears why not."""
from __future__ import annotations

import os
import signal
import sqlite3
import tempfile
from typing import Any, Callable, Iterator

import pytest
import rooms  # noqa: F401  (it finds the package)

from zogwedu_collection import catalogue as catalogues
from zogwedu_collection.catalogue import Catalogue
from zogwedu_collection.search import searching
from zogwedu_collection.search_index import Index, path_in
from zogwedu_collection.texts import Trouble

NOBODY = 65534


@pytest.fixture(name="folder")
def folder_fixture() -> Iterator[str]:
    """A folder for a catalogue that another user may read."""
    with tempfile.TemporaryDirectory() as made:
        os.chmod(made, 0o755)
        yield os.path.join(made, "catalogue")


def in_child(act: Callable[[], Any]) -> str:
    """What a process of its own says: what an act returns, or its fault. Nothing if it is killed."""
    read, write = os.pipe()
    child = os.fork()
    if child == 0:
        os.close(read)
        try:
            said = repr(act())
        except (Trouble, sqlite3.Error) as error:
            said = str(error)
        os.write(write, said.encode())
        os._exit(0)
    os.close(write)
    with os.fdopen(read, "rb") as pipe:
        found = pipe.read().decode()
    os.waitpid(child, 0)
    return found


def as_reader(folder: str) -> str:
    """What is found by one who may write nothing."""

    def find() -> Any:
        if os.geteuid() == 0:
            os.setgroups([])
            os.setgid(NOBODY)
            os.setuid(NOBODY)
        with searching(folder) as catalogue:
            return catalogue.one("SELECT count(*), (SELECT count(*) FROM texts.words) FROM texts.texts")

    for name in os.listdir(folder):
        os.chmod(os.path.join(folder, name), 0o755 if os.path.isdir(os.path.join(folder, name)) else 0o444)
    os.chmod(folder, 0o555)
    try:
        return in_child(find)
    finally:
        os.chmod(folder, 0o755)
        for name in os.listdir(folder):
            os.chmod(os.path.join(folder, name), 0o755)


def change(folder: str, is_killed: bool = False) -> None:
    """A run that keeps one text, and then is in the middle of changes of both databases."""
    catalogue = Catalogue(folder, is_made=True)
    with catalogue.locked():
        index = Index(catalogue, is_made=True)
        with index.transaction():
            index.put_text(os.urandom(32), "Title", "mill")
        if is_killed:
            for base in (index.base, catalogue.base):
                base.execute("PRAGMA cache_size = 5")
                base.execute("BEGIN IMMEDIATE")
                base.execute("CREATE TABLE more (value)")
                base.executemany("INSERT INTO more VALUES (?)", (("x" * 500,) for _ in range(1000)))
            os.kill(os.getpid(), signal.SIGKILL)
        index.close()


def used(folder: str) -> None:
    """What a command does that changes nothing."""
    catalogue = Catalogue(folder)
    catalogue.rows("SELECT * FROM files")
    Index(catalogue).close()
    catalogue.base.close()


def test_after_a_run_that_is_killed(folder: str) -> None:
    """A reader finds what there was before the change, also after a command of one who may write."""
    change(folder)
    assert as_reader(folder) == "(1, 1)" and sorted(os.listdir(folder)) == [
        "catalogue.sqlite",
        "jobs",
        "lock",
        "search.sqlite",
    ]
    assert in_child(lambda: change(folder, is_killed=True)) == ""
    assert os.path.exists(path_in(folder) + "-wal") and as_reader(folder) == "(2, 2)"
    in_child(lambda: used(folder))
    assert as_reader(folder) == "(2, 2)" and not os.path.exists(path_in(folder) + "-wal")
    in_child(lambda: change(folder, is_killed=True))
    in_child(lambda: Catalogue(folder).rows("SELECT * FROM files"))
    assert as_reader(folder) == "(3, 3)"


def test_where_it_has_to_be_mended(folder: str, monkeypatch: pytest.MonkeyPatch) -> None:
    """On a disk where no log is kept, a reader hears who can mend it, and is answered once that is done."""
    monkeypatch.setattr(catalogues, "is_on_local_disk", lambda _: False)
    change(folder)
    in_child(lambda: change(folder, is_killed=True))
    assert os.path.exists(path_in(folder) + "-journal")
    assert as_reader(folder) == catalogues.NOT_MENDED
    in_child(lambda: used(folder))
    assert as_reader(folder) == "(2, 2)"


def test_a_log_without_what_its_readers_share(folder: str) -> None:
    """As in a copy of the two files alone."""
    change(folder)
    in_child(lambda: change(folder, is_killed=True))
    for name in ("catalogue.sqlite-shm", "search.sqlite-shm"):
        os.unlink(os.path.join(folder, name))
    assert as_reader(folder) == catalogues.NOT_MENDED


def test_a_reader_is_waited_for(folder: str) -> None:
    """The log goes once a reader is done, and not before."""
    change(folder)
    catalogue = Catalogue(folder)
    with catalogue.locked():
        index = Index(catalogue, is_made=True)
        reader = sqlite3.connect(path_in(folder), isolation_level=None)
        reader.execute("BEGIN")
        reader.execute("SELECT count(*) FROM texts").fetchone()
        looks = []

        def looked(_: float) -> None:
            looks.append(os.path.exists(path_in(folder) + "-wal"))
            reader.close()

        with pytest.MonkeyPatch.context() as patch:
            patch.setattr("zogwedu_collection.search_index.time.sleep", looked)
            index.close()
    assert looks == [True] and as_reader(folder) == "(1, 1)"
