"""Indexes for other programs: each line leads to its record, and what a reader may not see has none."""
from __future__ import annotations

import gzip
import json
import os
import random
import sys
import zlib
from typing import Any, Dict, List, Tuple

import pytest
from conftest import PACKAGE, TOP as PROJECT, Collection, Done, put, record, script
from rooms import HTTP, ID, new_collection, read, response, revisit

sys.path.insert(0, os.path.join(PROJECT, "tests", "reference"))
from packages import DEFLATED, Item, zip_of  # noqa: E402

FIRST, SECOND = "2020-01-01T00:00:00Z", "2021-06-01T12:30:00.5Z"
TOP, PAGE = "http://www.a.example/", "https://a.example/Page?b=2&a=1"
ODD = "http://a.example/\udcff"
SHA1 = "sha1:B2LTWWPUOYAH7UIPQ7ZUPQ4VMBSVC36A"
RECORDS = [
    record(0, b"info", "-", WARC_Type="warcinfo"),
    response(1, TOP, FIRST, b"top", media=b"text/html; charset=utf-8", WARC_Payload_Digest=SHA1),
    record(2, b"GET / HTTP/1.1\r\n\r\n", TOP, WARC_Type="request", date=FIRST),
    response(3, PAGE, SECOND, b"page", b"404 Not Found", media=b"TEXT/plain"),
    revisit(4, TOP, SECOND, ID % 1, WARC_Payload_Digest=SHA1),
    record(5, HTTP % (b"304 Not Modified", b"a/b", b"", b""), PAGE, date="2022", WARC_Type="revisit"),
    record(6, b"a picture", "urn:view:" + TOP, date="2020-02", Content_Type="image/png"),
    record(7, b"127.0.0.1", "dns:a.example", date=FIRST, WARC_Type="response", Content_Type="text/dns"),
    record(8, b"no head", TOP, date=FIRST, WARC_Type="Response", Content_Type="application/http;msgtype=response"),
    record(9, b"no target", "-", date=FIRST),
    record(10, b"{}", TOP, date=FIRST, WARC_Type="metadata"),
    record(11, b"odd", "@", date=FIRST).replace(b"Target-URI: @", b"Target-URI: http://a.example/\xff"),
]


def index(collection: Collection, *words: str) -> Done[bytes]:
    done = collection.run("cdxj", *words, env={"PYTHONPATH": PACKAGE})
    assert b"Traceback" not in done.stderr
    return done


def parsed(done: Done[bytes]) -> List[Tuple[str, str, Dict[str, str]]]:
    """The keys, the times and the fields of lines."""
    found = [line.split(" ", 2) for line in done.stdout.decode("ascii").splitlines()]
    return [(key, time, json.loads(fields)) for key, time, fields in found]


def record_of(path: str, offset: int, length: int, is_of_members: bool = False) -> bytes:
    """What an index says is a record."""
    with open(path, "rb") as file:
        file.seek(offset)
        data = file.read(length)
    if not path.endswith(".gz") and not is_of_members:
        return data + b"\r\n\r\n"
    member = zlib.decompressobj(zlib.MAX_WBITS | 16)
    whole = member.decompress(data)
    assert member.eof and not member.unused_data
    return whole


def in_members(records: List[bytes]) -> bytes:
    return b"".join(gzip.compress(it) + gzip.compress(b"") for it in records) + bytes(100)


def in_some_members(records: List[bytes]) -> bytes:
    """The first two in one member, and the third in two."""
    parts = [records[0] + records[1], records[2][:9], records[2][9:], *records[3:]]
    return b"".join(map(gzip.compress, parts))


@pytest.fixture(name="three", scope="module")
def three_fixture(tmp_path_factory: pytest.TempPathFactory) -> List[Collection]:
    """Three collections: of members, of files that aren't compressed, and of both, with records in odd members."""
    files: List[Dict[str, bytes]] = [
        {"a.warc.gz": in_members(RECORDS[:6]), "b.warc.gz": in_members(RECORDS[6:])},
        {"a.warc": b"".join(RECORDS[6:]), "b b.warc": b"".join(RECORDS[:6])},
        {"a.warc.gz": in_some_members(RECORDS), "b.warc": RECORDS[1], "c.warc.gz": gzip.compress(RECORDS[3])[:-1]},
    ]
    made = []
    for names in files:
        collection = new_collection(tmp_path_factory)
        for name, data in names.items():
            collection.put("disk/" + name, data)
        read(collection)
        made.append(collection)
    return made


@pytest.mark.parametrize("number", range(3))
def test_each_line_leads_to_its_record(three: List[Collection], number: int) -> None:
    collection, paths = three[number], three[number].path("paths")
    done = index(collection, "--paths", paths)
    assert done.stdout.splitlines() == sorted(done.stdout.splitlines()) and done.stdout
    with open(paths, "rb") as file:
        path_of = dict(line.decode().rstrip("\n").split("\t") for line in file)
    found = parsed(done)
    for key, time, fields in found:
        whole = record_of(path_of[fields["filename"]], int(fields["offset"]), int(fields["length"]))
        assert whole in RECORDS, fields
        target = fields["url"].replace("%FF", "\udcff").encode("utf-8", "surrogateescape")
        assert b"WARC-Target-URI: " + target + b"\r\n" in whole
        date = whole.split(b"WARC-Date: ")[1].split(b"\r\n")[0].decode()
        digits = date.partition(".")[0]
        assert time.startswith(digits.translate({ord(mark): None for mark in "-:TZ"})) and len(time) == 14
    if number < 2:
        assert done.returncode == 0 and len(found) == 8, done
    else:
        assert done.returncode == 1 and len(found) == 8
        assert b"not in the index: 1 capture without" in done.stderr
        assert b"c.warc.gz isn't in the index: it is gunzip" in done.stderr


def test_lines(three: List[Collection]) -> None:
    """What is known of each, and nothing else."""
    about = [
        (key, time, {name: fields.get(name) for name in ("url", "mime", "status", "digest")})
        for key, time, fields in parsed(index(three[0]))
    ]
    wanted = [
        ("dns:a.example", "20200101000000", "dns:a.example", "text/dns", None, None),
        ("example,a)/", "20200101000000", TOP, None, None, None),
        ("example,a)/", "20200101000000", TOP, "text/html", "200", SHA1),
        ("example,a)/", "20210601123000", TOP, "warc/revisit", None, SHA1),
        ("example,a)/%ff", "20200101000000", "http://a.example/%FF", "text/plain", None, None),
        ("example,a)/page?a=1&b=2", "20210601123000", PAGE, "TEXT/plain", "404", None),
        ("example,a)/page?a=1&b=2", "20220101000000", PAGE, "warc/revisit", "304", None),
        ("urn:view:" + TOP, "20200201000000", "urn:view:" + TOP, "image/png", None, None),
    ]
    names = "url", "mime", "status", "digest"
    assert sorted(about, key=str) == sorted(((*it[:2], dict(zip(names, it[2:]))) for it in wanted), key=str)


def test_the_form_of_a_line(three: List[Collection]) -> None:
    (line,) = [it for it in index(three[0]).stdout.decode().splitlines() if '"digest"' in it and '"status"' in it]
    begin = 'example,a)/ 20200101000000 {"url": "%s", "mime": "text/html", "status": "200", "digest": "%s", "length": "'
    assert line.startswith(begin % (TOP, SHA1)) and line.endswith('", "filename": "a.warc.gz"}')


def test_eleven_fields(three: List[Collection]) -> None:
    head, *lines = index(three[0], "--cdx11").stdout.decode("ascii").splitlines()
    assert head == " CDX N b a m s k r M S V g"
    rows = [line.split(" ") for line in lines]
    assert len(rows) == 8 and {len(row) for row in rows} == {11} and lines == sorted(lines)
    (top,) = [row for row in rows if row[4] == "200"]
    assert top[:8] == ["example,a)/", "20200101000000", TOP, "text/html", "200", SHA1[5:], "-", "-"]
    assert top[10] == "a.warc.gz" and record_of(three[0].path("disk/a.warc.gz"), int(top[9]), int(top[8])) == RECORDS[1]
    done = index(three[1], "--cdx11")
    assert done.returncode == 1 and b"b b.warc isn't in the index: a line can't have its name" in done.stderr


def test_what_is_withheld(three: List[Collection]) -> None:
    """Neither a capture that is withheld, nor a revisit that leads to one."""
    collection = three[0]
    rules = put(
        collection.path("rules"), b"block http://a.example/page\nembargo 9000y a.example\nallow dns:a.example\n"
    )
    done = index(collection, "--access", rules)
    assert [it[2]["url"] for it in parsed(done)] == ["dns:a.example"] and done.returncode == 0
    assert b"withheld: 7 captures" in done.stderr
    moved = Collection(os.path.join(collection.folder, "moved"))
    moved.put("disk/a.warc", RECORDS[1], revisit(20, "http://b.example/", SECOND, ID % 1))
    read(moved)
    assert len(parsed(index(moved))) == 2
    rules = put(collection.path("rules"), b"block a.example\n")
    assert index(moved, "--access", rules).stdout == b""


def test_packages(collection: Collection) -> None:
    """A line leads to its member in the file of the package. Archives that aren't compressed, or that the package
    compressed once more, have none."""
    items = [Item(b"archive/b.warc.gz", in_members(RECORDS[:6])), Item(b"archive/c.warc.gz", in_members(RECORDS[6:]))]
    collection.put("disk/a.wacz", zip_of([Item(b"other", b"bytes"), *items]))
    read(collection)
    done = index(collection)
    assert (done.returncode, done.stderr, len(parsed(done))) == (0, b"", 8)
    path = collection.path("disk/a.wacz")
    for _, _, fields in parsed(done):
        assert record_of(path, int(fields["offset"]), int(fields["length"]), True) in RECORDS
        assert fields["filename"] == "a.wacz"
    odd = [items[0]._replace(method=DEFLATED), Item(b"archive/a.warc", b"".join(RECORDS[6:8])), items[1]]
    collection.put("disk/b.wacz", zip_of(odd))
    read(collection)
    done = index(collection)
    assert (done.returncode, len(parsed(done))) == (1, 8 + 4), done.stderr
    assert b"not in the index: 6 captures without a known member" in done.stderr


def test_names(collection: Collection) -> None:
    """Two files of one name have no lines, unless their paths below a folder are their names."""
    collection.put("disk/1/a.warc", RECORDS[1])
    collection.put("disk/2/a.warc", RECORDS[3])
    read(collection)
    done = index(collection)
    assert done.returncode == 1 and done.stdout == b"" and done.stderr.count(b"another file has its name") == 2
    done = index(collection, "--relative", "disk")
    assert done.returncode == 0
    assert sorted(it[2]["filename"] for it in parsed(done)) == ["1/a.warc", "2/a.warc"]
    done = index(collection, "--relative", "disk/1")
    assert done.returncode == 1 and [it[2]["filename"] for it in parsed(done)] == ["a.warc"]
    assert b"disk/2/a.warc isn't in the index: it isn't below the folder" in done.stderr


def test_files_that_are_not_those_that_were_read(collection: Collection) -> None:
    """One that changed has no line, and the others have theirs."""
    collection.put("disk/a.warc.gz", in_members(RECORDS[:6]))
    collection.put("disk/b.warc.gz", in_members(RECORDS[6:]))
    read(collection)
    with open(collection.path("disk/a.warc.gz"), "ab") as file:
        file.write(b"\0")
    os.unlink(collection.put("disk/c.warc.gz", b""))
    done = index(collection)
    assert done.returncode == 1 and {it[2]["filename"] for it in parsed(done)} == {"b.warc.gz"}
    assert b"a.warc.gz isn't in the index: " in done.stderr and b"changed since run 1" in done.stderr


def test_records_that_are_long(collection: Collection) -> None:
    """They are read by way of a file, and a file that gzip made in one member is named."""
    numbers = random.Random(1)
    block = HTTP % (b"200 OK", b"video/webm", b"", numbers.randbytes(17 << 20))
    long = record(1, block, PAGE, date=FIRST, WARC_Type="response")
    collection.put("disk/a.warc.gz", gzip.compress(long, 1))
    collection.put("disk/b.warc", long)
    collection.put("disk/c.warc.gz", gzip.compress(RECORDS[1] + RECORDS[3]))
    read(collection)
    done = index(collection)
    assert [it[2].get("mime") for it in parsed(done)] == ["video/webm"] * 2
    assert done.returncode == 1 and b"not in the index: 2 captures" in done.stderr


def test_a_full_disk(collection: Collection) -> None:
    """Where lines can't be sorted the status says so."""
    collection.put("disk/a.warc", RECORDS[1])
    read(collection)
    assert index(collection, "--temporary", collection.path("nowhere")).returncode == 3
    for what in ("cat > /dev/null; exit 2", "exec <&-; exit 2"):
        failing = script(collection.path("bin/sort"), what + "\n")
        path = os.path.dirname(failing) + ":" + os.environ["PATH"]
        done: Any = collection.run("cdxj", env={"PYTHONPATH": PACKAGE, "PATH": path})
        assert done.returncode == 3 and b"the index isn't whole" in done.stderr, what
