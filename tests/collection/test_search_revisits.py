"""A revisit whose page is in another file has the page's words, as long as a replay of it gives the page."""
from __future__ import annotations

import functools
import importlib
import os
import shutil
import sqlite3
from pathlib import Path
from typing import Any, List, Tuple

import pytest
from conftest import PACKAGE, Collection, later
from rooms import ID, program, response, revisit
from test_search import CITY, DAY, HTML, MILL, asked, counts, found, killed_at, loaded, night, page

from zogwedu_collection.access import read_access
from zogwedu_collection.captures import captures_of
from zogwedu_collection.catalogue import Catalogue
from zogwedu_collection.lending import Reader, Unfit
from zogwedu_collection.shelf import Shelf
from zogwedu_collection.texts import Trouble

READ_THEN = 1_600_000_000

BURNED, TOWER = page("The mill", "It burned."), page("The tower", "It stands.")
ORIGIN = response(1, MILL, DAY % 2004, BURNED, **HTML)
OTHER = response(1, MILL, DAY % 2004, TOWER, **HTML)
Places = List[Tuple[str, int]]
pytestmark = pytest.mark.xdist_group("search_revisits")


def places(collection: Collection, word: str) -> Places:
    """The captures that have a word, by their files and positions."""
    hits = asked(collection, word).hits
    return sorted((os.path.basename(os.fsdecode(it.path)), it.position) for hit in hits for it in hit.captures)


def replayed(collection: Collection, word: bytes, *targets: str) -> Places:
    """The captures of URIs whose bodies have a word, as a server gives them."""
    package, made = importlib.import_module("zogwedu"), []
    catalogue = Catalogue(collection.path("catalogue"), is_read_only=True)
    shelf = Shelf(package, program(), None, 8, 1 << 30)
    for capture in (it for target in targets for it in captures_of(catalogue, target)):
        reader = Reader(catalogue, program(), shelf)
        try:
            answer = reader.answer([capture])
        except (Trouble, Unfit):
            continue
        if answer.reason is None:
            with shelf.lent(answer.selection) as archive:
                content = reader.content(answer, archive)
                data = b"".join(map(bytes, content.parts))
                content.release()
            made += [(os.path.basename(os.fsdecode(capture.path)), capture.position)] if word in data else []
    catalogue.base.close()
    return sorted(made)


def marks(collection: Collection, word: str) -> List[Any]:
    return [it.mark for hit in asked(collection, word).hits for it in hit.captures]


def three_crawls(collection: Collection) -> None:
    """Three crawls that were read, of which the second and the third have revisits of the first, which is old: where a
    file was modified just before it is seen, its inode and other time decide whether it is the same."""
    os.utime(collection.put("disk/1.warc", ORIGIN), (READ_THEN, READ_THEN))
    collection.put("disk/2.warc", revisit(2, MILL, DAY % 2005, ID % 1))
    collection.put(
        "disk/3.warc",
        revisit(3, MILL, DAY % 2006, ID % 1),
        response(4, MILL, DAY % 2007, page("Sold", "Nothing is left."), **HTML),
        revisit(5, CITY, DAY % 2007, ID % 99),
    )
    assert night(collection, "--text", "disk").returncode == 0


def test_an_origin_that_is_read_later(collection: Collection) -> None:
    """A revisit is found from the run on that reads what it names, and not before. What another file needs isn't read
    again."""
    collection.put("disk/2.warc", revisit(2, MILL, DAY % 2005, ID % 1))
    assert night(collection, "--text", "disk").returncode == 0 and not places(collection, "burned")
    collection.put("disk/1.warc", ORIGIN)
    assert b"1 to read" in night(collection).stderr
    (hit,) = found(collection, "burned")
    assert (hit["count"], hit["of"], hit["title"], hit["mark"]) == (2, 2, "The mill", None)
    assert hit["periods"] == [[hit["first"], hit["last"]]] and (hit["first"][:4], hit["last"][:4]) == ("2004", "2005")
    assert [os.path.basename(it[0]) for it in hit["captures"]] == ["1.warc", "2.warc"]
    three_crawls(collection)
    assert counts(found(collection, "burned")) == {MILL: (3, 4)}
    assert places(collection, "burned") == replayed(collection, b"burned", MILL, CITY)
    (hit,) = found(collection, "burned", "--from", "2006", "--host", "town.example", "--type", "html")
    assert (hit["count"], hit["chosen"][1]) == (1, 0)


def test_an_origin_that_is_altered(collection: Collection) -> None:
    """It is found with the mark of an old reading, and so are its revisits; once the new reading is accepted nothing of
    the old one is, and the next run finds what the revisits give then."""
    three_crawls(collection)
    later(collection.put("disk/1.warc", OTHER))
    assert night(collection).returncode == 1
    assert len(places(collection, "burned")) == 3 and not places(collection, "tower")
    assert all(mark.startswith("read on ") for mark in marks(collection, "burned"))
    assert collection.run("accept", collection.path("disk", "1.warc")).returncode == 0
    assert places(collection, "tower") == [("1.warc", 0)] and not places(collection, "burned")
    assert night(collection).returncode == 0
    assert places(collection, "tower") == [("1.warc", 0), ("2.warc", 0), ("3.warc", 0)]
    assert replayed(collection, b"tower", MILL, CITY) == places(collection, "tower")
    assert marks(collection, "tower") == [None] * 3 and not places(collection, "burned")


def test_an_origin_that_is_gone_or_damaged(collection: Collection) -> None:
    """What no file gives any more isn't found. A file that comes back isn't read again, and one that is damaged marks
    what it gives."""
    three_crawls(collection)
    path = collection.path("disk", "1.warc")
    os.rename(path, collection.path("away"))
    night(collection)
    assert places(collection, "burned") == replayed(collection, b"burned", MILL) == []
    os.rename(collection.path("away"), path)
    assert b"0 to read" in night(collection).stderr
    assert len(places(collection, "burned")) == 3
    later(collection.put("disk/1.warc", ORIGIN, ORIGIN[:-30]))
    assert night(collection).returncode == 1
    assert marks(collection, "burned") == ["damaged"] * 3
    assert places(collection, "burned") == replayed(collection, b"burned", MILL)


def test_files_that_disagree(collection: Collection) -> None:
    """Where two files have what a revisit names, and it isn't the same, it gives nothing, as in a replay. A copy of the
    origin changes nothing, and gives the page where the first one is lost."""
    three_crawls(collection)
    collection.put("disk/copy.warc", ORIGIN)
    night(collection)
    whole = [("1.warc", 0), ("2.warc", 0), ("3.warc", 0), ("copy.warc", 0)]
    assert places(collection, "burned") == replayed(collection, b"burned", MILL) == whole
    os.unlink(collection.path("disk", "1.warc"))
    night(collection)
    assert places(collection, "burned") == replayed(collection, b"burned", MILL) == whole[1:]
    collection.put("disk/other.warc", OTHER)
    night(collection)
    assert places(collection, "burned") == [("copy.warc", 0)] and places(collection, "tower") == [("other.warc", 0)]
    os.unlink(collection.path("disk", "copy.warc"))
    night(collection)
    assert places(collection, "tower") == replayed(collection, b"tower", MILL) != []
    assert not places(collection, "burned")


def test_a_way_by_a_third_file(collection: Collection) -> None:
    """A revisit of a revisit of a page, each in a file of its own. It has the words as long as all three are there."""
    collection.put("disk/1.warc", ORIGIN)
    collection.put("disk/2.warc", revisit(2, MILL, DAY % 2005, ID % 1))
    collection.put("disk/3.warc", revisit(3, MILL, DAY % 2006, ID % 2))
    assert night(collection, "--text", "disk").returncode == 0
    assert (
        places(collection, "burned")
        == replayed(collection, b"burned", MILL)
        == [(it, 0) for it in sorted(os.listdir(collection.path("disk")))]
    )
    base = sqlite3.connect(collection.path("catalogue", "catalogue.sqlite"))
    second = "file = (SELECT file FROM files WHERE path LIKE '%2.warc')"
    for change in ("run = run %s 1", "size = size %s 1"):
        with base:
            base.execute("UPDATE readings SET %s WHERE %s" % (change % "+", second))
        assert places(collection, "burned") == [("1.warc", 0)]  # another reading of the file on the way
        with base:
            base.execute("UPDATE readings SET %s WHERE %s" % (change % "-", second))
    base.close()
    os.unlink(collection.path("disk", "2.warc"))
    night(collection)
    assert places(collection, "burned") == replayed(collection, b"burned", MILL) == [("1.warc", 0)]


def test_what_is_withheld_is_not_found_by_its_revisits(collection: Collection, tmp_path: Path) -> None:
    """A revisit of another URI, in another file, shows no word of a page that a reader may not see."""
    way, late = "http://way.example/", "http://late.example/"
    collection.put(
        "disk/1.warc",
        response(1, "http://shut.example/", DAY % 2004, page("Shut", "hidden word"), **HTML),
        response(2, late, "2024-05-01T00:00:00Z", page("Late", "fresh word"), **HTML),
    )
    collection.put("disk/2.warc", revisit(3, way, DAY % 2005, ID % 1), revisit(4, way + "late", DAY % 2005, ID % 2))
    assert night(collection, "--text", "disk").returncode == 0
    assert {hit.target for hit in asked(collection, "word").hits} >= {way, way + "late"}
    rules = tmp_path / "rules"
    rules.write_text("block shut.example\nembargo 5y late.example\n", encoding="utf-8")
    assert not asked(collection, "word", read_access(str(rules))).hits
    done = collection.run("search", "--access", str(rules), "hidden")
    assert (done.returncode, done.stdout, done.stderr) == (1, b"", b"")


def test_a_run_that_is_killed(collection: Collection) -> None:
    """Whenever a run is killed that reads another page in the place of an origin, its revisits show too little or what
    they give, and never the page that was there before with the new reading."""
    three_crawls(collection)
    later(collection.put("disk/1.warc", ORIGIN, response(6, MILL, DAY % 2008, TOWER, **HTML)))
    env = {"PYTHONPATH": PACKAGE}
    folder = collection.run("plan", env=env).stdout.decode().strip()
    assert collection.run("job", folder, "1", env=env).returncode == 0
    shutil.copytree(collection.path("catalogue"), collection.path("planned"))
    statement, seen = 1, []
    whole = [("1.warc", 0), ("2.warc", 0), ("3.warc", 0)]
    while True:
        shutil.rmtree(collection.path("catalogue"))
        shutil.copytree(collection.path("planned"), collection.path("catalogue"))
        if not killed_at(statement, functools.partial(loaded, collection.path("catalogue"))):
            break
        seen.append(places(collection, "burned"))
        statement += 7
    assert places(collection, "burned") == whole and places(collection, "tower") == [("1.warc", 1)]
    assert whole in seen and [] in seen and all(it == whole[: len(it)] for it in seen), seen
