"""Pages are found by their words: in all files, as they were read last, and never in what another reading replaced."""
from __future__ import annotations

import functools
import json
import os
import random
import shutil
import signal
import sqlite3
import sys
import time
import urllib.parse
from pathlib import Path
from typing import Any, Callable, Dict, List, Sequence, Tuple

import pytest
from conftest import PACKAGE, Collection, Done, later, record
from rooms import ID, Room, new_collection, program, response, revisit

from zogwedu_collection import page_texts, search
from zogwedu_collection.access import EVERYTHING, read_access
from zogwedu_collection.catalogue import Catalogue
from zogwedu_collection.query import BadQuery, query_of
from zogwedu_collection.search import Filters, Found, Search, searching
from zogwedu_collection.search_index import Index, path_in
from zogwedu_collection.snippets import snippet_of
from zogwedu_collection.texts import Trouble
from zogwedu_collection.timemaps import Seen

MILL, CITY = "http://town.example/mill", "http://www.town.example/city"
HTML = {"media": b"text/html"}
DAY = "%s-05-01T00:00:00Z"
Hits = Dict[str, Tuple[int, int]]


def page(title: str, *words: str) -> bytes:
    return ("<title>%s</title><p>%s" % (title, " ".join(words))).encode()


def found(collection: Collection, *words: str, status: int = 0, **more: Any) -> List[Any]:
    """The hits of a search, by the shell."""
    done = collection.run("search", "--json", *words, **more)
    assert done.returncode == status, done.stderr.decode()
    return [json.loads(line) for line in done.stdout.splitlines()]


def counts(hits: Sequence[Any]) -> Hits:
    """In how many captures of how many each URI has the words."""
    return {hit["uri"]: (hit["count"], hit["of"]) for hit in hits}


def asked(collection: Collection, words: str, access: Any = EVERYTHING, **filters: Any) -> Found:
    """The hits of a search, by a reader."""
    with searching(collection.path("catalogue")) as catalogue:
        return Search(catalogue, query_of(words), Filters(**filters), Seen(access)).found()


def uris(it: Found) -> List[Any]:
    return [hit.target for hit in it.hits]


def night(collection: Collection, *words: str) -> Done[bytes]:
    """A run with the Python package."""
    collection.warc = program()
    return collection.night(*words, env={"PYTHONPATH": PACKAGE})


def three_crawls(collection: Collection) -> None:
    """Files with revisits, charsets, coded bodies, what is no text, and a damaged one."""
    burned = page("The mill", "The mill burned in March.")
    chunked = b"%x\r\n%s\r\n0\r\n\r\n" % (len(burned), burned)
    collection.put(
        "disk/first.warc",
        response(1, MILL, DAY % 2004, burned, **HTML),
        revisit(2, MILL, DAY % 2005, ID % 1),
        response(3, CITY, DAY % 2004, "Gro\u00dfe M\u00fchle".encode("latin-1"), media=b"text/plain; charset=latin1"),
        response(4, CITY + ".css", DAY % 2004, b"mill{}", media=b"text/css"),
        response(5, MILL + "/lost", DAY % 2004, b"no mill here", b"404 Not Found"),
    )
    collection.put(
        "disk/second.warc",
        response(6, MILL, DAY % 2006, chunked, head=b"Transfer-Encoding: chunked\r\n", **HTML),
        response(7, MILL, DAY % 2007, page("Sold", "Nothing is left."), **HTML),
        record(8, page("A view", "of the mill"), "urn:x:mill", date=DAY % 2007, Content_Type="text/html"),
    )
    damaged = response(9, CITY, DAY % 2007, page("City", "A new mill"), **HTML)
    collection.put("disk/third.warc", damaged, response(10, CITY, DAY % 2008, b"x" * 200)[:-150])


@pytest.fixture(name="crawls", scope="module")
def crawls_fixture(tmp_path_factory: pytest.TempPathFactory) -> Collection:
    """Three crawls that were read once, and that no test changes."""
    collection = new_collection(tmp_path_factory)
    three_crawls(collection)
    done = night(collection, "--text", "disk")
    assert done.returncode == 1, done.stderr.decode()  # for the damaged file
    return collection


pytestmark = pytest.mark.xdist_group("search")


def test_hits(crawls: Collection) -> None:
    """A hit is a URI, with its captures in all files, of which one is named."""
    hits = found(crawls, "mill", "burned")
    assert counts(hits) == {MILL: (3, 4)}
    (hit,) = hits
    assert (hit["first"][:4], hit["last"][:4], hit["periods"]) == ("2004", "2006", [[hit["first"], hit["last"]]])
    assert [(os.path.basename(path), position) for path, position, _ in hit["captures"]] == [
        ("first.warc", 0),
        ("first.warc", 1),
        ("second.warc", 0),
    ]
    assert hit["chosen"] == hit["captures"][-1] and (hit["title"], hit["mark"]) == ("The mill", None)
    marked = [hit["snippet"][begin:end] for begin, end in hit["marks"]]
    assert marked == ["mill", "burned"]
    assert counts(found(crawls, "MÜHLE")) == {CITY: (1, 2)}


def test_what_is_no_text_has_no_words(crawls: Collection) -> None:
    """Neither a style nor an error page is found."""
    assert set(counts(found(crawls, "mill"))) == {MILL, CITY, "urn:x:mill"}


def test_a_damaged_file_is_marked(crawls: Collection) -> None:
    (hit,) = found(crawls, "new", "mill")
    assert (hit["uri"], hit["mark"], hit["chosen"][1]) == (CITY, "damaged", 0)


def test_lines(crawls: Collection) -> None:
    """A line for a hit, or for each of its captures, each with its own text."""
    (line,) = crawls.run("search", "sold").stdout.decode().splitlines()
    words = line.split("\t")
    assert os.path.basename(words[0]) == "second.warc" and len(words) == 11
    assert [words[1], *words[5:]] == ["1", "1", "4", "-", "Sold", "Nothing is left.", MILL]
    lines = crawls.run("search", "--captures", "-0", "mill*", "--host", "town.example").stdout.split(b"\0")
    assert [line.split(b"\t")[1] for line in lines[:-1]] == [b"0", b"1", b"0"]


FILTERS: Tuple[Tuple[Tuple[str, ...], Hits], ...] = (
    (("--host", "TOWN.example"), {MILL: (3, 4)}),
    (("--host", ".town.example"), {MILL: (3, 4), CITY: (1, 2)}),
    (("--host", "own.example"), {}),
    (("--type", "plain"), {}),
    (("--type", "text/html", "--host", "www.town.example"), {CITY: (1, 2)}),
    (("--from", "2005", "--before", "2006"), {MILL: (1, 1)}),
    (("--before", "2004"), {}),
    (("--without", "burned"), {CITY: (1, 2), "urn:x:mill": (1, 1)}),
    (("--without", '"of the mill"', "--without", "new"), {MILL: (3, 4)}),
)


@pytest.mark.parametrize("words, wanted", FILTERS, ids=[" ".join(words) for words, _ in FILTERS])
def test_filters(crawls: Collection, words: Tuple[str, ...], wanted: Hits) -> None:
    assert counts(found(crawls, "mill", *words, status=0 if wanted else 1)) == wanted


STATUSES: Tuple[Tuple[int, Tuple[str, ...]], ...] = (
    (0, ("mill",)),
    (0, ('"the mill',)),
    (0, ("bur*",)),
    (0, ("--", "mill", "-sold")),
    (1, ("nowhere",)),
    (1, ('"mill the"',)),
    (1, ("NEAR(mill",)),
    (1, ("title:mill",)),
    (1, ("mill", "AND", "burned")),
    (2, ("",)),
    (2, ('""',)),
    (2, ("*",)),
    (2, ("--", "-mill")),
    (2, ("\U0001f600",)),
    (2, ("mi*",)),
    (2, ("mill " * 33,)),
    (2, ("x" * 2001,)),
    (2, ()),
    (3, ("mill", "--from", "tomorrow")),
)


@pytest.mark.parametrize("status, words", STATUSES, ids=[ascii(words)[:40] for _, words in STATUSES])
def test_statuses(crawls: Collection, status: int, words: Tuple[str, ...]) -> None:
    done = crawls.run("search", *words)
    assert (done.returncode, bool(done.stdout)) == (status, status == 0), done.stderr.decode()


def test_the_room_finds_the_same(crawls: Collection) -> None:
    """The hits of the shell, in their order, with the same texts and marks; but no folders, and not each capture."""
    room = Room(crawls)
    for query in ("mill", "burned", "MÜHLE", "new mill", "sold", '"the mill" -burned', "mil*", "nowhere"):
        wanted = found(crawls, "--", query, status=int(query == "nowhere"))
        for hit in wanted:
            hit["chosen"][0] = os.path.basename(hit["chosen"][0])
            del hit["captures"]
        reply = room.ask("/search/json?q=" + urllib.parse.quote(query))
        assert [{**hit, "in_periods": len(hit["periods"])} for hit in wanted] == reply.json["found"], query


def test_no_query_is_an_error_of_the_index(crawls: Collection) -> None:
    """Whatever is typed, the index is asked for words alone."""
    text = '" \' * - ( ) : ^ + { } \\ ; \0 \udc80 AND OR NOT NEAR mill mill* "a b" -x é 東京 \u202e a\u0301 % _ '
    parts = text.split(" ")
    numbers = random.Random(5)
    with searching(crawls.path("catalogue")) as catalogue:
        for _ in range(2000):
            text = "".join(numbers.choice((*parts, " ")) for _ in range(numbers.randrange(1, 12)))
            try:
                query = query_of(text)
            except BadQuery:
                continue
            catalogue.rows("SELECT rowid FROM texts.words WHERE words MATCH ?", (query.match(),))


def test_a_search_ends_by_the_clock(crawls: Collection, monkeypatch: pytest.MonkeyPatch) -> None:
    """A time that is over ends the index's own work too."""
    with searching(crawls.path("catalogue")) as catalogue:
        long = Search(catalogue, query_of("mill"), Filters(), Seen(EVERYTHING))
        long.end = time.monotonic() - 1
        with pytest.raises(Trouble, match="took more than"):
            long.found()
    monkeypatch.setattr(search, "STEPS", 1)
    ended = iter((0, 0, 0, 1))
    with searching(crawls.path("catalogue")) as catalogue:
        looked = Search(catalogue, query_of("mill"), Filters(), Seen(EVERYTHING))
        monkeypatch.setattr(looked, "is_over", lambda: next(ended, 1))
        with pytest.raises(Trouble, match="took more than"):
            looked.found()


def test_many_texts_and_one_host(crawls: Collection, monkeypatch: pytest.MonkeyPatch) -> None:
    """Where many texts have the words, those of the host are looked up first: the same is found, and no other text is
    scored. A host with many captures is looked for as before."""
    wanted = {
        host: uris(asked(crawls, "mill", host=host)) for host in ("town.example", ".town.example", "none.example")
    }
    assert [len(it) for it in wanted.values()] == [1, 2, 0]
    monkeypatch.setattr(search, "MOST_BATCH", 0)
    for most, scored in ((100, [1, 2, 0]), (0, [3, 3, 0])):
        monkeypatch.setattr(search, "MOST_OF_HOST", most)
        for (host, targets), count in zip(wanted.items(), scored):
            with searching(crawls.path("catalogue")) as catalogue:
                one = Search(catalogue, query_of("mill"), Filters(host=host), Seen(EVERYTHING))
                assert [hit.target for hit in one.found().hits] == targets and len(one.matched) == count, (host, most)


def test_texts_fill_the_pages_of_the_index(collection: Collection) -> None:
    """Texts that take some 2,500 bytes each leave no third of a page of the database empty."""
    catalogue, numbers = Catalogue(collection.path("catalogue"), is_made=True), random.Random(7)
    catalogue.make_tables()
    Index(catalogue, is_made=True).close()
    empty = os.path.getsize(path_in(catalogue.folder))
    index = Index(catalogue, is_made=True)
    with index.transaction():
        for number in range(200):
            index.put_text(b"%032d" % number, "", numbers.randbytes(2200).hex())
    kept = index.base.execute("SELECT sum(length(body)) FROM texts").fetchone()[0]
    index.close()
    assert 200 * 2_400 < kept < 200 * 2_600
    assert os.path.getsize(path_in(catalogue.folder)) - empty < 1.2 * kept


def test_a_suffix_that_all_hosts_have(crawls: Collection, monkeypatch: pytest.MonkeyPatch) -> None:
    """It finds what no filter finds, and its captures are counted by an index alone: there may be very many."""
    wanted = [hit for hit in asked(crawls, "mill").hits if hit.target != "urn:x:mill"]
    assert len(wanted) == 2
    monkeypatch.setattr(search, "MOST_BATCH", 0)
    for most in (100, 0):
        monkeypatch.setattr(search, "MOST_OF_HOST", most)
        assert asked(crawls, "mill", host=".example").hits == wanted, most
    filters = Filters(host=".example")
    asked_for: List[str] = []
    with searching(crawls.path("catalogue")) as catalogue:
        catalogue.base.set_trace_callback(asked_for.append)
        Search(catalogue, query_of("mill"), filters, Seen(EVERYTHING)).found()
        catalogue.base.set_trace_callback(None)
        counting = [it for it in asked_for if it.startswith("SELECT count(*) FROM (")]
        values = filters.of_host(".example")[1]
        plan = [catalogue.rows("EXPLAIN QUERY PLAN " + it, values if "?" in it else ()) for it in counting]
    assert len(plan) == 1 and any("seen USING COVERING INDEX" in str(row) for row in plan[0]), plan


def test_what_is_withheld_is_not_found(collection: Collection, tmp_path: Path) -> None:
    """Neither a hit, nor a capture, nor a count shows it, and no revisit of it either."""
    collection.put(
        "disk/a.warc",
        response(1, "http://open.example/", "2010-01-01T00:00:00Z", page("Open", "secret word"), **HTML),
        response(2, "http://open.example/", "2024-01-01T00:00:00Z", page("Open", "secret word again"), **HTML),
        response(3, "http://shut.example/", "2010-01-01T00:00:00Z", page("Shut", "hidden word"), **HTML),
        revisit(4, "http://way.example/", "2011-01-01T00:00:00Z", ID % 3),
    )
    assert night(collection, "--text", "disk").returncode == 0
    assert counts(found(collection, "word")) == {
        "http://open.example/": (2, 2),
        "http://shut.example/": (1, 1),
        "http://way.example/": (1, 1),
    }
    rules = tmp_path / "rules"
    rules.write_text("block shut.example\nembargo 5y http://open.example/\n", encoding="utf-8")
    access = read_access(str(rules))
    (hit,) = asked(collection, "word", access).hits
    assert (hit.target, hit.count, hit.of, hit.captures[-1].instant[:4]) == ("http://open.example/", 1, 1, "2010")
    assert "again" not in hit.shown().snippet
    assert not asked(collection, "hidden", access).hits and not asked(collection, "again", access).hits
    assert counts(found(collection, "word", "--access", str(rules))) == {"http://open.example/": (1, 1)}
    done = collection.run("search", "--access", str(rules), "hidden")
    assert done.returncode == 1 and not done.stderr


def test_it_stays_until_it_is_ended(collection: Collection) -> None:
    """The first run with --text reads each file; later ones read what is new; --no-text removes the index."""
    collection.put("disk/a.warc", response(1, MILL, DAY % 2004, page("A", "mill"), **HTML))
    assert night(collection, "disk").returncode == 0
    assert collection.run("search", "mill").returncode == 3
    assert b"1 to read" in night(collection, "--text").stderr
    assert b"0 to read" in night(collection).stderr
    collection.put("disk/b.warc", response(2, CITY, DAY % 2004, page("B", "mill"), **HTML))
    assert b"1 to read" in night(collection).stderr
    assert counts(found(collection, "mill")) == {MILL: (1, 1), CITY: (1, 1)}
    assert "texts\t2\tfiles whose texts are known, 0 without" in collection.run("status").stdout.decode()
    assert collection.status()["texts"]["files"] == 2
    night(collection, "--no-text")
    assert not os.path.exists(collection.path("catalogue", "search.sqlite"))
    assert collection.run("search", "mill").returncode == 3
    assert b"0 to read" in night(collection).stderr


def test_without_the_package(collection: Collection) -> None:
    """A night without the package reads all else, and says so; the first one has to have it."""
    collection.put("disk/a.warc", response(1, MILL, DAY % 2004, page("A", "mill"), **HTML))
    collection.warc = program()
    without = {"PYTHONPATH": ""}
    assert collection.night("--text", "disk", env=without).returncode == 3
    assert night(collection, "--text", "disk").returncode == 0
    collection.put("disk/b.warc", response(2, CITY, DAY % 2004, page("B", "mill"), **HTML))
    done = collection.night(env=without)
    assert (done.returncode, b"zogwedu isn't there" in done.stderr) == (0, True)
    done = collection.run("search", "mill")
    assert (done.returncode, b"1 of 2 files have no texts" in done.stderr) == (0, True)
    assert b"1 to read" in night(collection).stderr and set(counts(found(collection, "mill"))) == {MILL, CITY}


def test_an_altered_file(collection: Collection) -> None:
    """Its hits are those of the old reading, and marked, until the new one is accepted. Then nothing is shown of the
    old one, and nothing has to be read again."""
    path = collection.put("disk/a.warc", response(1, MILL, DAY % 2004, page("Old", "mill"), **HTML))
    assert night(collection, "--text", "disk").returncode == 0
    collection.put("disk/a.warc", response(1, MILL, DAY % 2004, page("New", "tower"), **HTML))
    later(path)
    assert night(collection).returncode == 1 and collection.states() == {"a.warc": "altered"}
    (hit,) = found(collection, "mill")
    assert hit["mark"].startswith("read on ")
    assert not found(collection, "tower", status=1)
    assert collection.run("accept", path).returncode == 0
    (hit,) = found(collection, "tower")
    assert hit["mark"] is None and not found(collection, "mill", status=1)
    # The next altered reading takes nothing from that one.
    collection.put("disk/a.warc", response(1, MILL, DAY % 2004, page("Newest", "bridge"), **HTML))
    later(path, 10)
    assert night(collection).returncode == 1
    assert counts(found(collection, "tower")) == {MILL: (1, 1)} and not found(collection, "bridge", status=1)


def test_files_that_are_gone_moved_and_forgotten(collection: Collection) -> None:
    path = collection.put("disk/a.warc", response(1, MILL, DAY % 2004, page("A", "mill"), **HTML))
    other = collection.put("disk/b.warc", response(2, CITY, DAY % 2004, page("B", "mill"), **HTML))
    night(collection, "--text", "disk")
    os.rename(path, collection.path("disk", "c.warc"))
    os.unlink(other)
    night(collection)
    (hit,) = found(collection, "mill")
    assert os.path.basename(hit["chosen"][0]) == "c.warc"
    assert collection.run("forget", other).returncode == 0
    base = sqlite3.connect(collection.path("catalogue", "search.sqlite"))
    assert base.execute("SELECT count(*) FROM texts").fetchone() == (1,)
    assert base.execute("SELECT count(*) FROM words").fetchone() == (1,)
    assert base.execute("SELECT target FROM addresses").fetchall() == [(MILL,)]
    base.close()


def test_an_index_of_another_version(collection: Collection, crawls: Collection) -> None:
    """A later one is refused, and texts of an earlier scanner are read again."""
    shutil.copytree(crawls.path("catalogue"), collection.path("catalogue"))
    base = sqlite3.connect(collection.path("catalogue", "search.sqlite"))
    with base:
        base.execute("UPDATE read SET scanner = '0.0'")
    done = collection.run("search", "mill")
    assert done.returncode == 0 and b"3 of 3 files" in done.stderr
    assert b"3 to read" in night(collection).stderr
    with base:
        base.execute("PRAGMA user_version = 99")
    base.close()
    assert collection.run("search", "mill").returncode == 3
    assert collection.run("status").returncode == 1  # for the damaged file
    collection.put("catalogue/search.sqlite", b"no database at all" * 100)
    for command in ("search", "run"):
        done = collection.run(command, "mill") if command == "search" else night(collection)
        assert done.returncode == 3 and b"search.sqlite: file is not a database: remove it" in done.stderr
    night(collection, "--no-text")
    assert night(collection, "--text").returncode == 1 and counts(found(collection, "burned")) == {MILL: (3, 4)}


# A run that is killed


def killed_at(statement: int, act: Callable[[], None]) -> bool:
    """Does something in a process that is killed before the statement of this number, of both databases. Returns
    whether it was killed."""
    child = os.fork()
    if child == 0:
        count = 0

        class Counting(sqlite3.Connection):
            """A connection that counts what it does."""

            def execute(self, *words: Any) -> sqlite3.Cursor:
                nonlocal count
                count += 1
                if count == statement:
                    os.kill(os.getpid(), signal.SIGKILL)
                return super().execute(*words)

        os.dup2(os.open(os.devnull, os.O_WRONLY), 2)
        setattr(sqlite3, "connect", functools.partial(sqlite3.connect, factory=Counting))
        try:
            act()
        finally:
            os._exit(0)
    return os.WIFSIGNALED(os.waitpid(child, 0)[1])


def loaded(folder: str) -> None:
    """What `load` does."""
    from zogwedu_collection.runs import load

    catalogue = Catalogue(folder)
    with catalogue.locked():
        load(catalogue)


def places(collection: Collection) -> Dict[str, List[Tuple[int, str]]]:
    """Where words are found, by a reader who can't mend a database: positions and years."""
    hits = {word: asked(collection, word).hits for word in ("mill", "tower")}
    return {word: [(it.position, it.instant[:4]) for hit in of for it in hit.captures] for word, of in hits.items()}


def test_a_run_that_is_killed(collection: Collection) -> None:
    """At whatever statement it is killed, what is found is a part of what there is, and never the place that a record
    had in another reading; and the next run has it all. Here the first record of a file is repaired."""
    tower = response(1, MILL, DAY % 2004, page("A", "tower"), **HTML)
    mill = response(2, MILL, DAY % 2005, page("B", "mill"), **HTML)
    path = collection.put("disk/a.warc", tower[:-20], mill)
    night(collection, "--text", "disk")
    assert places(collection) == {"mill": [(0, "2005")], "tower": []}
    collection.put("disk/a.warc", tower, mill)
    later(path)
    folder = collection.run("plan", env={"PYTHONPATH": PACKAGE}).stdout.decode().strip()
    assert collection.run("job", folder, "1", env={"PYTHONPATH": PACKAGE}).returncode == 0
    shutil.copytree(collection.path("catalogue"), collection.path("planned"))
    statement, seen = 1, []
    while True:
        shutil.rmtree(collection.path("catalogue"))
        shutil.copytree(collection.path("planned"), collection.path("catalogue"))
        if not killed_at(statement, functools.partial(loaded, collection.path("catalogue"))):
            break
        seen.append(places(collection))
        statement += 5
    whole: Dict[str, Any] = {"mill": [(1, "2005")], "tower": [(0, "2004")]}
    assert places(collection) == whole
    before: Dict[str, Any] = {"mill": [(0, "2005")], "tower": []}
    between: Dict[str, Any] = {"mill": [], "tower": []}
    assert len(seen) > 15 and seen[0] == before and between in seen
    assert all(it in (before, between, whole) for it in seen), seen


def test_another_reading_of_the_same_run(collection: Collection) -> None:
    """Texts count for the very bytes that the catalogue has, and not for their file or their run alone."""
    collection.put("disk/a.warc", response(1, MILL, DAY % 2004, page("A", "mill"), **HTML))
    night(collection, "--text", "disk")
    base = sqlite3.connect(collection.path("catalogue", "catalogue.sqlite"))
    for change in ("size = size + 1", "modified = modified + 1", "changed = changed + 1", "run = run + 1"):
        with base:
            base.execute("UPDATE readings SET %s" % change)
        assert not asked(collection, "mill").hits, change
        with base:
            base.execute("UPDATE readings SET %s" % change.replace("+", "-"))
        assert uris(asked(collection, "mill")) == [MILL]
    base.close()


# What a job reads


def extraction(tmp_path: Path) -> List[Any]:
    """What processes say of four records, the second of which ends a process, and the third of which takes memory."""
    folder = tmp_path / "package"
    folder.mkdir()
    (folder / "zogwedu.py").write_text(FAKE, encoding="utf-8")
    source = tmp_path / "source"
    source.write_bytes(b"x")
    wanted = [page_texts.Wanted(number, number) for number in range(4)]
    kept = sys.modules.pop("zogwedu", None)
    sys.path.insert(0, str(folder))
    try:
        with open(source, "rb") as file:
            made = page_texts.Extraction(file, wanted, "", None)
            return [*made.lines(), made.why]
    finally:
        sys.path.remove(str(folder))
        if kept is not None:
            sys.modules["zogwedu"] = kept


FAKE = """
import os, signal, time
class WarcError(Exception): pass
class NoBody(WarcError): pass
class Undecodable(WarcError): pass
class Head(dict):
    def get_all(self, name): return ["text/plain"]
class Record:
    headers = Head()
class Body:
    status = None
    def __init__(self, given, data): self.given, self.parts = given, [data]
    def __len__(self): return len(self.parts[0])
class Archive:
    def __init__(self, data): pass
    def __enter__(self): return self
    def __exit__(self, *_): pass
    def __getitem__(self, position):
        record = Record()
        def body(**_):
            if position == 1: os.kill(os.getpid(), signal.SIGKILL)
            if position == 2: bytearray(1 << 34)
            return Body(position, b"word %d" % position)
        record.body = body
        return record
"""


def test_a_body_that_ends_the_process(tmp_path: Path) -> None:
    """It has no text, and those after it have theirs. One that takes too much memory ends nothing."""
    *lines, why = extraction(tmp_path)
    assert why == ""
    assert [line[:2] for line in lines if line[0] != "text"] == [
        ["seen", 0],
        ["without", 1],
        ["without", 2],
        ["seen", 3],
    ]


def test_a_body_that_takes_too_long(tmp_path: Path, monkeypatch: pytest.MonkeyPatch) -> None:
    monkeypatch.setattr(page_texts, "SECONDS_A_BODY", 0.0)
    monkeypatch.setattr(page_texts, "MOST_ENDED", 2)
    *lines, why = extraction(tmp_path)
    assert [line[0] for line in lines] == ["without"] * 2 and "2 bodies ended" in why


def test_a_time_for_texts_fails_no_file(collection: Collection, monkeypatch: pytest.MonkeyPatch) -> None:
    """A file that would take too long for its texts alone is good, and has none."""
    source = collection.put("x", b"x")
    wanted = [page_texts.Wanted(0, 0)]
    with open(source, "rb") as file:
        made = page_texts.Extraction(file, wanted, "", time.monotonic() - 1)
        assert (list(made.lines()), made.why) == ([], page_texts.NO_TIME)


# Snippets

SNIPPETS: Tuple[Tuple[str, str, List[str]], ...] = (
    ("mill", "The Mill burned", ["Mill"]),
    ('"mill burned"', "mill The mill burned", ["mill burned"]),
    ("strasse", "In der Stra\u00dfe 5", ["Stra\u00dfe"]),
    ("\u6771\u4eac", "\u65b0\u6771\u4eac\u90fd", ["\u6771\u4eac"]),
    ("bur*", "It burned.", ["burned"]),
    ("\u0435\u043b\u043a\u0430", "\u0401\u043b\u043a\u0430!", ["\u0401\u043b\u043a\u0430"]),
    ("word", "\u202eword\u202c", ["word"]),
)


@pytest.mark.parametrize("words, text, wanted", SNIPPETS, ids=[words for words, _, _ in SNIPPETS])
def test_marks_of_a_snippet(words: str, text: str, wanted: List[str]) -> None:
    snippet, marks = snippet_of(text, query_of(words))
    assert snippet == text and [snippet[begin:end] for begin, end in marks] == wanted


def test_a_snippet_of_a_long_text() -> None:
    """It is around the words, and cut between words."""
    text = "before " * 1000 + "the mill burned " + "after " * 1000
    snippet, marks = snippet_of(text, query_of("burned mill"))
    assert [snippet[begin:end] for begin, end in marks] == ["mill", "burned"]
    assert len(snippet) < 170 and set(snippet.split()) == {"…", "before", "the", "mill", "burned", "after"}
    thai = "\u0e01\u0e34\u0e48" * 500
    assert len(snippet_of(thai, query_of("\u0e01"))[0]) < 200
    assert snippet_of("x" * 5000, query_of("y"))[1] == []
