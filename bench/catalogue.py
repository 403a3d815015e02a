#!/usr/bin/env python3
"""Measures what members and near URIs take of a catalogue, and of its server.

Usage: catalogue.py [CAPTURES]

Prints how many bytes the places of members take of each of 30,000 records, in a file of less than 2 GiB and in one of
more. Then a catalogue of the version before near URIs has CAPTURES (1,000,000 if left out) captures of as many URIs in
1,000 hosts, half of them in a usual spelling, one of them captured 20,000 times, and 1,000 more URIs that have one key.
Prints what bringing it to this version takes, by how much its file grows, and how long it takes to look up near URIs:
of a spelling of each of 2,000 URIs, of the one with many captures, of those with one key, and of URIs that aren't
there.
"""
from __future__ import annotations

import os
import random
import sqlite3
import statistics
import sys
import tempfile
import time
from collections.abc import Iterator

TOP = os.path.dirname(os.path.dirname(os.path.abspath(__file__)))
sys.path.insert(0, os.path.join(TOP, "collection"))
from zogwedu_collection.access import EVERYTHING  # noqa: E402
from zogwedu_collection.catalogue import TABLES, Catalogue  # noqa: E402
from zogwedu_collection.lines import RecordRow, short_places  # noqa: E402
from zogwedu_collection.members import PLACE, Place  # noqa: E402
from zogwedu_collection.near import near_captures  # noqa: E402
from zogwedu_collection.parts import Parts  # noqa: E402

CAPTURES, HOSTS, OFTEN, VARIANTS, ASKED = 1_000_000, 1000, 20_000, 1000, 2000
RECORDS, LEAST_MEMBER, MOST_MEMBER = 30_000, 1_000, 120_000
BEFORE = 6
MARKS = ", ".join("?" * 11)


def record_rows(folder: str, begin: int) -> Iterator[RecordRow]:
    """Rows of records of which each has a member, one after another, as a job writes them."""
    drawn, offset, lengths = random.Random(7), 0, []
    written = Parts(os.path.join(folder, "output"), {"places": [0, RECORDS * PLACE.size]})
    with open(written.path, "wb") as out:
        for _ in range(RECORDS):
            lengths.append(drawn.randrange(LEAST_MEMBER, MOST_MEMBER))
            out.write(PLACE.pack(begin, lengths[-1], drawn.randrange(-(1 << 31), 1 << 31)))
            begin += lengths[-1]
    for number, (length, place) in enumerate(zip(lengths, short_places(written))):
        about = "response", "2020-01-01T00:00:00Z", f"<urn:uuid:{drawn.getrandbits(128):032x}>"
        target = f"http://o{number % HOSTS}.example/{number}"
        yield RecordRow(1, number, offset, 2 * length, *about, target, "0" * 32, *place)
        offset += 2 * length + 600


def bytes_of(folder: str, begin: int, count: int) -> float:
    """The bytes that a table of records with `count` columns takes for each."""
    path = os.path.join(folder, "records.sqlite")
    base = sqlite3.connect(path, isolation_level=None)
    base.execute("PRAGMA synchronous = OFF")
    columns = ", ".join(TABLES["records"].split(", ")[:count])
    base.execute(f"CREATE TABLE records ({columns}, PRIMARY KEY (file, position)) WITHOUT ROWID")
    base.execute("BEGIN")
    rows = (row[:count] for row in record_rows(folder, begin))
    base.executemany(f"INSERT INTO records VALUES ({', '.join('?' * count)})", rows)
    base.execute("COMMIT")
    base.execute("VACUUM")
    base.close()
    size = os.path.getsize(path)
    os.remove(path)
    return size / RECORDS


def members(folder: str) -> None:
    """Prints what the places of members take."""
    count = len(RecordRow._fields)
    without = bytes_of(folder, 0, count - len(Place._fields))
    for begin, what in ((0, "less"), (2 << 30, "more")):
        more = bytes_of(folder, begin, count) - without
        print(f"members in a file of {what} than 2 GiB: {more:.1f} bytes a record more", flush=True)


def targets(count: int) -> Iterator[str]:
    """The targets of all captures."""
    for number in range(count - OFTEN - VARIANTS):
        name = "Article" if number % 2 else "article"
        yield f"http://www.o{number % HOSTS}.example/{name}/{number}/a-title.html?a=1&b={number % 7}"
    yield from ["http://often.example/"] * OFTEN
    yield from (f"http://variants.example/?sid={number:032x}" for number in range(VARIANTS))


def fill(catalogue: Catalogue, count: int) -> None:
    """Makes the catalogue of the version before."""
    with catalogue.transaction():
        catalogue.base.execute("DROP TABLE spellings")
        catalogue.insert("files", {"file": 1, "path": "/nowhere/a.warc", "state": "good"})
        rows = (
            (1, number, "2020", "2020-01-01T00:00:00.%09dZ" % number, "response", number, 200, "text/html", 9, None, it)
            for number, it in enumerate(targets(count))
        )
        catalogue.base.executemany(f"INSERT INTO captures VALUES ({MARKS})", rows)
        catalogue.base.execute(f"PRAGMA user_version = {BEFORE}")


def look_up(folder: str, what: str, asked: list[str], least: int) -> None:
    """Prints how long it takes to look up near URIs, through the connection that a server has."""
    catalogue, took = Catalogue(folder, is_read_only=True), []
    for uri in asked:
        begun = time.perf_counter()
        found = near_captures(catalogue, uri, EVERYTHING, "192.0.2.1")
        took.append((time.perf_counter() - begun) * 1000)
        if len(found) < least:
            sys.exit(f"{uri}: {len(found)} near URIs")
    took.sort()
    middle, most = statistics.median(took), took[-1 - len(took) // 100]
    print(f"{what}: median {middle:.2f} ms, 99 of 100 {most:.2f} ms", flush=True)


def main() -> None:
    count = int((sys.argv[1:] or [str(CAPTURES)])[0])
    with tempfile.TemporaryDirectory(prefix="warc-bench-") as folder:
        members(folder)
        catalogue = Catalogue(folder, is_made=True)
        catalogue.make_tables()
        fill(catalogue, count)
        size, begun = os.path.getsize(catalogue.path), time.process_time()
        catalogue.make_tables()
        seconds, more = time.process_time() - begun, os.path.getsize(catalogue.path) - size
        print(f"{count:,} captures: {seconds:.1f} s of processor, {more / count:.1f} bytes a capture more", flush=True)
        drawn = random.Random(7).sample([it for it in targets(count) if "rticle/" in it], ASKED)
        near = [it.replace("http://www.", "https://").replace("/a-title", "/A-Title") for it in drawn]
        look_up(folder, "one near URI", near, 1)
        look_up(folder, "none", [it + "x" for it in near], 0)
        look_up(folder, "one that was often captured", ["https://often.example"] * 100, 1)
        look_up(folder, "many with one key", ["http://variants.example/"] * 100, 20)


if __name__ == "__main__":
    main()
