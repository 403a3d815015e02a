"""Where compressed files are unpacked, and how much of them."""
from __future__ import annotations

import gzip
import os
import shutil
import sqlite3
import sys
from typing import Any, List

import pytest
from conftest import PROJECT, URI, Collection, record

sys.path.insert(0, os.path.join(PROJECT, "collection"))
from zogwedu_collection.catalogue import Catalogue  # noqa: E402


def test_a_bomb_takes_no_more_than_it_may(collection: Collection) -> None:
    collection.put("disk/bomb.warc.gz", gzip.compress(bytes(20_000_000)))
    done = collection.night("--unpacked", "1M", "disk")
    assert done.returncode == 1
    assert collection.states() == {"bomb.warc.gz": "no-room"}
    assert "--unpacked" in collection.detail("bomb.warc.gz")


def test_a_file_that_is_too_large_is_read_as_a_stream(collection: Collection) -> None:
    """What reads in order reads it; its captures aren't known until there is room."""
    collection.put("disk/a.warc.gz", gzip.compress(record(1, bytes(2_000_000))))
    collection.night("--unpacked", "1M", "disk")
    assert collection.states() == {"a.warc.gz": "no-room"}
    assert collection.ask("SELECT count(*) FROM records") == [(1,)]
    assert collection.night().returncode == 0
    assert len(collection.run("replay", URI, "9999").stdout) == 2_000_000


def test_the_folder_is_that_of_the_catalogue(collection: Collection) -> None:
    """/tmp may be memory, and TMPDIR may not be there."""
    collection.put("disk/a.warc.gz", gzip.compress(record(1)))
    assert collection.night("disk", env={"TMPDIR": collection.path("nowhere")}).returncode == 0
    assert collection.states() == {"a.warc.gz": "good"}


def test_a_temporary_folder_that_is_not_there(collection: Collection) -> None:
    collection.put("disk/a.warc.gz", gzip.compress(record(1)))
    done = collection.night("--temporary", "nowhere", "disk")
    assert done.returncode == 2 and b"nowhere: No such file or directory" in done.stderr
    assert collection.night("disk").returncode == 0
    collection.night("--all", "--temporary", "nowhere")
    assert collection.states() == {"a.warc.gz": "good"}


def test_a_temporary_folder_with_an_odd_name(collection: Collection) -> None:
    folder = collection.path(os.fsdecode(b"it's \xff"))
    os.makedirs(folder)
    collection.put("disk/a.warc.gz", gzip.compress(record(1)))
    assert collection.night("--temporary", folder, "disk").returncode == 0
    assert collection.states() == {"a.warc.gz": "good"}


def test_a_full_disk_is_named(collection: Collection) -> None:
    """SQLite undoes a whole transaction where its disk is full, and not the part that was begun last."""
    catalogue = Catalogue(collection.path("catalogue"), is_made=True)
    catalogue.make_tables()
    catalogue.base.execute("PRAGMA max_page_count = %d" % catalogue.one("PRAGMA page_count")[0])
    with pytest.raises(sqlite3.OperationalError, match="full"):
        with catalogue.transaction(), catalogue.savepoint():
            catalogue.base.execute("INSERT INTO settings VALUES ('x', ?)", ("x" * 1_000_000,))
    assert not catalogue.base.in_transaction
    catalogue.base.close()


def compressed(package: Any, *blocks: bytes, **how: object) -> bytes:
    """Frames of zstd."""
    frames: List[bytes] = [package.ZstdCompressor(**how).compress(block) for block in blocks]
    return b"".join(frames)


def with_dictionary(package: Any, is_compressed: bool) -> bytes:
    """Records, each compressed by a dictionary that is in a frame before them."""
    dictionary = package.train_dictionary(
        4000, [record(place, b"page %d" % place, URI + str(place)) for place in range(300)]
    )
    plain: bytes = dictionary.as_bytes()
    data = compressed(package, plain) if is_compressed else plain
    frame = b"\x5d\x2a\x4d\x18" + len(data).to_bytes(4, "little") + data
    return frame + compressed(package, record(1), record(2, target=URI + "2"), dict_data=dictionary)


@pytest.mark.parametrize("is_compressed", [False, True])
def test_a_dictionary_of_zstd(collection: Collection, is_compressed: bool) -> None:
    package = pytest.importorskip("zstandard")
    data = with_dictionary(package, is_compressed)
    collection.put("disk/a.warc.zst", data)
    collection.put("disk/cut.warc.zst", data[:-3])
    assert collection.night("disk").returncode == 1
    assert collection.states() == {"a.warc.zst": "good", "cut.warc.zst": "gunzip"}
    assert collection.run("replay", URI + "2", "9999").stdout == b"abc"


def test_a_dictionary_without_the_library(collection: Collection) -> None:
    """It isn't damaged, and doesn't ring. It is read once the library is there."""
    package = pytest.importorskip("zstandard")
    collection.put("disk/a.warc.zst", with_dictionary(package, False))
    collection.put("without/zstandard.py", b"raise ImportError\n")
    assert collection.night("disk", env={"PYTHONPATH": collection.path("without")}).returncode == 0
    assert collection.states() == {"a.warc.zst": "unsupported"}
    assert collection.night().returncode == 0
    assert collection.states() == {"a.warc.zst": "good"}


def test_plain_frames_by_either(collection: Collection) -> None:
    package = pytest.importorskip("zstandard")
    data = compressed(package, record(1), record(2))
    for name, more in (("good", b""), ("damaged", b"\x28\xb5\x2f\xfd garbage and more of it")):
        collection.put("disk/%s.warc.zst" % name, data, more)
    collection.put("without/zstandard.py", b"raise ImportError\n")
    collection.night("disk")
    assert collection.states() == {"good.warc.zst": "good", "damaged.warc.zst": "gunzip"}
    if shutil.which("zstd"):
        collection.night("--all", env={"PYTHONPATH": collection.path("without")})
        assert collection.states() == {"good.warc.zst": "good", "damaged.warc.zst": "gunzip"}
