#!/usr/bin/env python3
"""Tries `warc-collection serve`: a Memento client finds each capture, and bad input gets no more than a refusal.

    python3 tests/stress/serve.py WARC [PART ..]

Two hosts are crawled by wget into three files: one is compressed, one has revisits of another, and one is damaged. Each
body must be that of `warc-collection replay`. The part `broken` runs the other parts over servers with a fault planted
in each, which they have to see. Prints a line for each part, each surprise, and last a line with the totals. The exit
status is 1 if there was a surprise. Needs wget, strace and what `make python` makes; where that isn't there, nothing is
tried, and a line says so.
"""
from __future__ import annotations

import base64
import concurrent.futures
import contextlib
import gzip
import http.server
import io
import json
import os
import re
import select
import shutil
import signal
import socket
import subprocess
import sys
import tempfile
import threading
import time
import urllib.parse
from typing import Callable, Dict, Iterator, List, Optional, Set, Tuple

from collection_trial import TOP, Trial, put, put_script, record
from memento_client import Client, Reply, Wrong, seconds_of
from serve_trial import PACKAGE, Served, received, served, started, status_in, wait_for

PICTURE = base64.b64decode(
    "iVBORw0KGgoAAAANSUhEUgAAAAEAAAABCAYAAAAfFcSJAAAADUlEQVR42mNk+M9QDwADhgGAWjR9awAAAABJRU5ErkJggg=="
)
# More than the server reads before it sends.
BIG = bytes(range(256)) * 5_000
ZEROS = 1 << 20
HOSTS = ("127.0.0.1", "127.0.0.2")
HEAD_SECONDS = 15
# Of one address, with those that get an answer that there are too many.
MOST_OF_ADDRESS = 64
REASONS = {"P1": 404, "P2": 404, "P4": 404, "P5": 404, "P3": 502, "P6": 502, "P7": 502, "P8": 502, "P9": 502}
# Their codings are none that can be sent.
UNFIT = ("/transfer", "/evil-coding")
AS_200 = (204, 205, 206, 304)
# What `replay` has said.
REPLAYED: Dict[Tuple[str, str], Tuple[str, bytes, Optional[int]]] = {}
Script = Optional[str]
Part = Callable[[Trial, Script], None]


# The crawl


class Site(http.server.BaseHTTPRequestHandler):
    """A site with a page, a style, a picture, and answers that servers give seldom."""

    protocol_version = "HTTP/1.1"

    def do_GET(self) -> None:
        status, media, body, more = self.page(self.path)
        self.send_response(status)
        self.send_header("Content-Type", media)
        if self.path == "/chunked":
            self.send_header("Transfer-Encoding", "chunked")
            body = b"%x\r\n%s\r\n0\r\n\r\n" % (len(body), body)
        else:
            self.send_header("Content-Length", str(len(body)))
        for name, value in more.items():
            self.send_header(name, value)
        self.end_headers()
        self.wfile.write(body)

    def page(self, path: str) -> Tuple[int, str, bytes, Dict[str, str]]:
        """The status, the media type, the body and other fields."""
        host = self.headers["Host"].encode()
        pages: Dict[str, Tuple[int, str, bytes, Dict[str, str]]] = {
            "/style.css": (200, "text/css", b"p { color: green; background: url(/picture.png) }", {}),
            "/picture.png": (200, "image/png", PICTURE, {}),
            "/gzip": (200, "text/html; charset=utf-8", gzip.compress(b"<p>packed</p>"), {"Content-Encoding": "gzip"}),
            "/chunked": (200, "text/plain", b"in chunks", {}),
            "/moved": (302, "text/plain", b"", {"Location": "picture.png?x=1#y", "Set-Cookie": "a=b"}),
            "/missing": (404, "text/html", b"<p>not here", {}),
            "/drawing.svg": (200, "image/svg+xml", b"<svg xmlns='http://www.w3.org/2000/svg'/>", {}),
            "/feed": (200, "application/rss+xml", b"<rss/>", {}),
            "/error": (503, "text/plain", b"later", {"Retry-After": "9"}),
            "/odd?a=b&c=[d]%20;e": (200, "text/plain", b"odd", {}),
            "/a/../b//c": (200, "text/plain", b"dots", {}),
        }
        now = b"%d" % time.time_ns()
        front = b"<title>%s</title><link rel=stylesheet href=/style.css><p>%s<img src=/picture.png>" % (host, now)
        return pages.get(path, (200, "text/html", front, {"X-Secret": "yes"}))

    def log_message(self, *words: object) -> None:
        """Says nothing of each request."""


PATHS = ("/", "/style.css", "/picture.png", "/gzip", "/chunked", "/moved", "/missing", "/drawing.svg", "/feed")
MORE_PATHS = ("/error", "/odd?a=b&c=[d]%20;e", "/a/../b//c")


def crawl(folder: str, name: str, sites: List[str], *words: str) -> None:
    """One crawl by wget of all paths."""
    uris = [site + path for site in sites for path in (*PATHS, *MORE_PATHS)]
    more = ["wget", "-q", "--tries=1", "--max-redirect=0", "--delete-after", "--no-warc-keep-log"]
    subprocess.run([*more, "--warc-file=" + name, *words, *uris], cwd=folder, check=False)


def crawled(folder: str) -> List[str]:
    """Three files of two hosts: the second has revisits of the first, and is compressed; the third is cut."""
    os.makedirs(folder)
    servers = [http.server.ThreadingHTTPServer((host, 0), Site) for host in HOSTS]
    for server in servers:
        threading.Thread(target=server.serve_forever, daemon=True).start()
    sites = ["http://%s:%d" % (host, server.server_port) for host, server in zip(HOSTS, servers)]
    crawl(folder, "one", sites, "--no-warc-compression", "--warc-cdx")
    time.sleep(1.1)
    crawl(folder, "two", sites, "--warc-dedup=one.cdx")
    time.sleep(1.1)
    crawl(folder, "three", sites[1:], "--no-warc-compression")
    for server in servers:
        server.shutdown()
    with open(os.path.join(folder, "three.warc"), "r+b") as file:
        file.truncate(os.path.getsize(file.name) - 99)
    return sites


def unchunked(body: bytes) -> bytes:
    """The data of chunks."""
    data = b""
    while True:
        size, _, body = body.partition(b"\r\n")
        count = int(size, 16)
        if not count:
            return data
        data, body = data + body[:count], body[count + 2 :]


def replayed(trial: Trial, target: str, instant: str) -> Tuple[str, bytes, Optional[int]]:
    """What `replay` says of a target as of an instant: a reason or none, the body, and the status. A coded body is one
    without its chunks. Nothing is asked twice."""
    key = target, instant
    if key not in REPLAYED:
        words = "replay", "--stored", "--uri-hex", os.fsencode(target).hex(), instant
        done = trial.run("c", *words)
        REPLAYED[key] = told_of(done.returncode, done.stdout, done.stderr.decode("utf-8", "replace"))
    return REPLAYED[key]


def told_of(status: int, body: bytes, text: str) -> Tuple[str, bytes, Optional[int]]:
    """What the output of `replay` says."""
    found = re.search(r"^chosen .* given .* status (\d+|-) truncated .*$", text, re.MULTILINE)
    if status or found is None:
        return text.strip().splitlines()[-1].partition(": ")[2], b"", None
    body = unchunked(body) if "coded transfer-encoding=chunked" in found[0] else body
    return "", body, None if found[1] == "-" else int(found[1])


def captures_in(trial: Trial) -> Dict[str, List[str]]:
    """The instants of the captures of each target, by the catalogue."""
    query = "SELECT DISTINCT target, instant FROM captures JOIN files USING (file) WHERE state <> 'gone' ORDER BY 1, 2"
    found: Dict[str, List[str]] = {}
    for target, instant in trial.ask("c", query):
        found.setdefault(os.fsdecode(target), []).append(str(instant))  # type: ignore[arg-type]
    return found


def in_path(target: str) -> str:
    """A target in a path of the server: as it is, or all but letters, digits and a few marks escaped, if it has a byte
    that no URI has, no `:`, or parts of a path that clients take away."""
    if (
        ":" in target
        and not re.search(r"/\.\.?(/|$)", target)
        and re.fullmatch(r"[A-Za-z0-9!$&'()*+,/:;=?@\[\]._~%-]*", target, re.ASCII)
    ):
        return target
    return urllib.parse.quote(os.fsencode(target), safe="")


def digits(instant: str) -> str:
    """An instant in a path."""
    whole = re.sub("[^0-9]", "", instant)
    return whole[:14] if set(whole[14:]) <= {"0"} else whole


def judge_memento(trial: Trial, client: Client, target: str, instant: str) -> None:
    """A memento against `replay`: its bytes, its status, its fields."""
    path = "/memento/%s/%s" % (digits(instant), in_path(target))
    if target.endswith(UNFIT):
        trial.judge(client.ask(path).status == 502, "%s can't be sent" % target)
        return
    reply, (reason, body, status) = client.ask(path), replayed(trial, target, instant)
    if reason:
        expected = REASONS.get(reason.split(" ")[0], 502)
        is_right = reply.status == expected and (reason in reply.body.decode() or "disagree" in reply.body.decode())
        trial.judge(is_right, "no body: %s" % path, (reply.status, reply.body, reason))
        return
    sent = status or 200
    changed = sent in AS_200 or not 200 <= sent <= 599
    is_right = (reply.status, reply.body) == (200 if changed else sent, body)
    trial.judge(is_right, "the body of %s" % path, (reply.status, sent, len(reply.body), len(body)))
    stated = reply.get("X-Archived-Status")
    trial.judge(stated == (str(sent) if changed else None), "the status of %s" % path, stated)
    judge_fields(trial, path, reply)
    trial.judge(seconds_of(reply.get("Memento-Datetime")) == seconds(instant), "the date of %s" % path, reply.fields)


def seconds(instant: str) -> int:
    """An instant as seconds, by Python's own calendar."""
    return int(time.mktime(time.strptime(instant[:19] + " UTC", "%Y-%m-%dT%H:%M:%S %Z")) - time.timezone)


ALLOWED = (
    *("date", "link", "vary", "memento-datetime", "content-type", "content-length", "content-encoding", "location"),
    *("content-security-policy", "x-content-type-options", "cross-origin-resource-policy", "referrer-policy"),
    *("cache-control", "x-archived-status", "content-disposition", "accept-ranges", "retry-after", "allow"),
    *("x-archived-file", "etag", "connection"),
)


def judge_fields(trial: Trial, path: str, reply: Reply) -> None:
    """What each memento says to browsers, and that it says nothing else of what was captured."""
    policy = reply.get("Content-Security-Policy") or ""
    trial.judge("sandbox" in policy and "default-src 'none'" in policy, "the policy of %s" % path, policy)
    trial.judge(reply.get("X-Content-Type-Options") == "nosniff", "nosniff of %s" % path)
    trial.judge(reply.get("Cross-Origin-Resource-Policy") == "same-origin", "resource policy of %s" % path)
    names = {name.lower() for name, _ in reply.fields}
    trial.judge(names <= set(ALLOWED), "fields of %s" % path, names - set(ALLOWED))
    is_active = re.search("html|xml", (reply.get("Content-Type") or "").lower()) is not None
    is_saved = reply.get("Content-Disposition") == "attachment"
    trial.judge(is_active == is_saved, "%s is saved, and not shown" % path, reply.fields)


def crawl_is_served(trial: Trial, script: Script) -> None:
    """A Memento client finds each capture of the crawl."""
    catalogued(trial)
    captures = captures_in(trial)
    with served(trial, "c", script=script) as server:
        for target, instants in captures.items():
            try:
                judge_target(trial, server.client, target, instants)
            except (Wrong, ValueError, IndexError) as wrong:
                trial.judge(False, target, repr(wrong))
        judge_of_damaged(trial, server)
    kinds = {str(row[0]) for row in trial.ask("c", "SELECT DISTINCT coalesce(reason, 'none') FROM captures")}
    trial.judge({"none", "P10 Coded", "P5 Unresolved"} <= kinds, "what was crawled", kinds)


def judge_target(trial: Trial, client: Client, target: str, instants: List[str]) -> None:
    """All captures of a target are listed, are found by a date and by links, and are as `replay` has them."""
    if len(target) > 9_000:  # its field Link has the original alone
        judge_memento(trial, client, target, instants[0])
        return
    found = client.timemap("/timemap/link/" + in_path(target))
    paths = ["/memento/%s/%s" % (digits(instant), in_path(target)) for instant in instants]
    uris = [client.base + path for path in paths]
    trial.judge([link.uri for link in found] == uris, "the list of %s" % target, found)
    trial.judge(list(client.walked(paths[0], len(paths) + 1)) == paths, "the way through %s" % target)
    for instant, uri, link in zip(instants, uris, found):
        date = link.parameters["datetime"]
        reply = client.negotiated("/timegate/" + in_path(target), date)
        is_exact = len(digits(instant)) == 14
        is_right = reply.status == 302 and (reply.get("Location") == uri or not is_exact)
        trial.judge(is_right, "%s as of %s" % (target, date), reply)
        judge_memento(trial, client, target, instant)
    last = client.negotiated("/timegate/" + in_path(target), None)
    trial.judge(last.get("Location") == uris[-1], "the latest of %s" % target, last)
    early = client.negotiated("/timegate/" + in_path(target), "Thu, 01 Jan 1970 00:00:00 GMT")
    trial.judge(early.get("Location") == uris[0], "%s before its first capture" % target, early)


def judge_of_damaged(trial: Trial, server: Served) -> None:
    """A good record of a damaged file is served and marked, and a target that it may have is said to be perhaps
    there."""
    query = (
        "SELECT DISTINCT target, instant, state FROM captures JOIN files USING (file) WHERE reason IS NULL"
        " AND state IN ('good', 'refused') ORDER BY state DESC"
    )
    rows = [(os.fsdecode(target), str(at), state) for target, at, state in trial.ask("c", query)]  # type: ignore
    states = {row[2] for row in rows}
    trial.judge(states == {"good", "refused"}, "captures of good and damaged files", states)
    for target, instant, state in [*rows[:1], *rows[-1:]]:
        reply = server.client.ask("/memento/%s/%s" % (digits(instant), in_path(target)))
        mark = "damaged" if state == "refused" else None
        trial.judge(reply.get("X-Archived-File") == mark, "the mark of %s" % target, reply)
    reply = server.client.ask("/timegate/http://nowhere.example/")
    is_right = reply.status == 404 and b"P1 NoCapture" in reply.body and b"three.warc (refused" in reply.body
    trial.judge(is_right, "what a damaged file may have", reply)
    listed = server.client.ask("/timemap/json/http://nowhere.example/")
    trial.judge(listed.status == 404, "a list of nothing", listed)


def catalogued(trial: Trial) -> None:
    """The crawl and the archives made by hand, in the catalogue c, once."""
    if not os.path.exists(trial.path("c")):
        crawled(trial.path("crawl"))
        by_hand(trial.path("hand"))
        done = trial.run("c", "run", "--quiet", trial.path("crawl"), trial.path("hand"))
        trial.judge(done.returncode == 1, "the run over the crawl", done.stderr)


# Archives made by hand

HTTP = b"HTTP/1.1 %s\r\nContent-Type: %s\r\n%s\r\n%s"
EVIL = b"text/html\tSet-Cookie: evil=1"
DATE = "2020-01-01T00:00:00Z"
PROFILE = "http://netpreserve.org/warc/1.1/revisit/identical-payload-digest"
ODD_TARGETS = (
    *(b"http://a.example/\xff\xfe", "http://a.example/\u00fc \u202e".encode(), b"http://a.example/#part"),
    *(b"http://a.example/%C3%BC", b"http://a.example/%zz", b'http://a.example/a b<>"{}|\\^`', b"urn:x-test:1"),
    *(b"nocolon", b"http://a.example/../../etc/passwd", b"http://a.example//x//y/", b"file:///etc/passwd"),
    b"http://a.example/" + b"x" * 60_000,
)


def response(number: int, target: bytes, head: bytes, body: bytes, date: str = DATE, **fields: str) -> bytes:
    return record("response", number, date, target, head + body, content_type="application/http", **fields)


def head_of(status: bytes, media: bytes = b"text/plain", more: bytes = b"") -> bytes:
    return b"HTTP/1.1 %s\r\nContent-Type: %s\r\n%s\r\n" % (status, media, more)


def odd_answers() -> Iterator[bytes]:
    """Answers whose heads try to change the head of the server's, and statuses that servers give seldom."""
    lines = (
        (b"evil", head_of(b"200 OK", EVIL)),
        (b"evil-coding", head_of(b"200 OK", b"text/plain", b"Content-Encoding: gzip\tX-Evil: 1\r\n")),
        (b"evil-place", head_of(b"302 Found", b"text/plain", b"Location: http://b.example/\tX-Evil: 1\r\n")),
        (b"odd-place", head_of(b"302 Found", b"text/plain", 'Location: /\u00fc"<x> y\r\n'.encode())),
        (b"no-place", head_of(b"301 Moved", b"text/plain", b"Location: http://[::1/\r\n")),
        (b"bad-media", head_of(b"200 OK", b"<script>")),
        (b"long-media", head_of(b"200 OK", b"text/" + b"x" * 5000)),
        (b"charset", head_of(b"200 OK", b'TEXT/HTML; a=b; charset="iso-8859-1"')),
        (b"deflated", head_of(b"200 OK", b"text/plain", b"Content-Encoding: x-odd, gzip\r\n")),
        (b"transfer", head_of(b"200 OK", b"text/plain", b"Transfer-Encoding: gzip, chunked\r\n")),
    )
    packed = gzip.compress(b"body")
    chunks = b"%x\r\n%s\r\n0\r\n\r\n" % (len(packed), packed)
    for number, (name, head) in enumerate(lines):
        body = chunks if name == b"transfer" else b"body"
        yield response(1000 + number, b"http://odd.example/" + name, head, body)
    for status in (100, 199, 204, 205, 206, 304, 299, 401, 418, 599, 600, 999):
        yield response(2000 + status, b"http://odd.example/%d" % status, head_of(b"%d X" % status), b"body")


def reasons() -> Iterator[bytes]:
    """Captures that give no body."""
    target = b"http://reason.example/"
    head = head_of(b"200 OK")
    yield record("revisit", 1, DATE, target + b"p3", b"", WARC_Profile="http://unknown.example/")
    yield record("revisit", 2, DATE, target + b"p4", b"", WARC_Profile=PROFILE)
    lost = "<urn:uuid:00000000-0000-4000-8000-999999999999>"
    yield record("revisit", 3, DATE, target + b"p5", b"", WARC_Profile=PROFILE, WARC_Refers_To=lost)
    own = "<urn:uuid:00000000-0000-4000-8000-000000000004>"
    yield record("revisit", 4, DATE, target + b"p6", b"", WARC_Profile=PROFILE, WARC_Refers_To=own)
    yield response(5, target + b"p8", head, b"x", block_digest="sha1:" + "A" * 32)
    yield response(6, target + b"p9", b"no head", b"x")


def by_hand(folder: str) -> None:
    """Odd targets, odd answers, reasons, two captures in one second, and two files that disagree."""
    odd = [record("resource", number, DATE, target, b"%d" % number) for number, target in enumerate(ODD_TARGETS)]
    put(os.path.join(folder, "odd.warc"), b"".join([*odd, *odd_answers(), *reasons()]))
    halves = [("2020-01-01T00:00:00.25Z", b"first"), ("2020-01-01T00:00:00.5Z", b"second"), (DATE, b"none")]
    twice = b"http://twice.example/"
    parts = [record("resource", 100 + number, date, twice, body) for number, (date, body) in enumerate(halves)]
    parts += [record("resource", 110, date, b"http://half.example/", body) for date, body in halves[:2]]
    put(os.path.join(folder, "parts.warc"), b"".join(parts))
    same, other = b"http://same.example/", b"http://other.example/"
    for name, body in (("left", b"one"), ("right", b"two")):
        records = [record("resource", 200, DATE, same, b"same"), record("resource", 201, DATE, other, body)]
        put(os.path.join(folder, name + ".warc"), b"".join(records))
    put(os.path.join(folder, "big.warc"), record("resource", 301, DATE, b"http://big.example/", BIG))
    zeros = record("resource", 300, DATE, b"http://zeros.example/", bytes(ZEROS))
    put(os.path.join(folder, "zeros.warc.gz"), gzip.compress(zeros))


# Bad input

LINE = "GET %s HTTP/1.0\r\n\r\n"
TARGET = "http://a.example/%C3%BC"
TARGETS = {
    "": 400,
    "/": None,
    "//": 404,
    "*": 400,
    "/timegate": 404,
    "/timegate/": 400,
    "//timegate/" + TARGET: 404,
    "/../timegate/" + TARGET: 404,
    "/./timegate/" + TARGET: 404,
    "/TIMEGATE/" + TARGET: 404,
    "/timegate%2F" + TARGET: 404,
    "/timegate/%": 400,
    "/timegate/%2": 400,
    "/timegate/%zz": 400,
    "/timegate/%00": 404,
    "/timegate/http://a.example/#x": 400,
    "/timegate/http://a.example/\xff": 400,
    "/timegate/http://a.example/<x>": 400,
    "/timegate/http://a.example/%0d%0aSet-Cookie:%20x=1": 404,
    "/timegate/http%3A//a.example/%0d%0aSet-Cookie%3A%20x=1": 404,
    "/timegate/" + "x" * 65_536: 404,
    "/timegate/http:" + "%ff" * 65_536: 404,
    "/timegate/" + "%ff" * 65_536: 404,
    "/timegate/http:" + "x" * 300_000: 431,
    "/timemap/" + TARGET: 404,
    "/timemap/cdx/" + TARGET: 404,
    "/timemap/link/%s" % TARGET: 200,
    "/memento/" + TARGET: 400,
    "/memento/%s": 400,
    "/memento/20200101000000": 400,
    "/memento/20200101000000/": 400,
    "/memento/2020010100000/" + TARGET: 400,
    "/memento/202001010000000/" + TARGET: 400,
    "/memento/20200230000000/" + TARGET: 400,
    "/memento/20200101240000/" + TARGET: 400,
    "/memento/20200101006000/" + TARGET: 400,
    "/memento/20200101000060/" + TARGET: 400,
    "/memento/\u0662020010100000/".encode("utf-8").decode("latin-1") + TARGET: 400,
    "/memento/00000101000000/" + TARGET: 404,
    "/memento/99991231235959/" + TARGET: 302,
    "/memento/20200101000000/" + TARGET: 200,
    "http://other.example/memento/20200101000000/" + TARGET: 403,
    "http://localhost/memento/20200101000000/" + TARGET: 200,
    "/memento/20200101000000/file:///etc/hostname": 404,
    "/room/answer/": 400,
    "/room/answer/20200101000000/" + TARGET: 200,
    "/room/answer/20200101000000/http://nowhere.example/": 404,
    "/room/answer/20200101000000": 400,
    "/room/found/": 400,
    "/room/found/%ff": 200,
    "/room/found/http://a.example/": 200,
    "/room/found/" + "%f4%8f%bf%bf" * 5_000: 200,
    "/room/instant/": 400,
    "/room/instant/2020": 200,
    "/room/instant/2020-13": 400,
    "/room/instant/2021-02-29": 400,
    "/room/instant/2020?x": 400,
    "/room/instant/2020/": 400,
    "/room/instant/-": 400,
    "/room/instant/--help": 400,
    "/room/instant/2020%00": 400,
    "/room/instant/2020%0A": 400,
    "/room/instant/%ff": 400,
    "/room/instant/%d9%a2%d9%a0%d9%a2%d9%a0": 400,
    "/room/instant/" + "2" * 60_000: 400,
    "/room/../room.html": 404,
    "/room/room.html": 404,
    "/room/room.py": 404,
    "/room/": 404,
    "/etc/passwd": 404,
    "/catalogue.sqlite": 404,
}
DATES = {
    "Wed, 01 Jan 2020 00:00:00 GMT": 302,
    " Wed, 01 Jan 2020 00:00:00 GMT ": 302,
    "Fri, 31 Dec 9999 23:59:59 GMT": 302,
    "Sat, 01 Jan 0000 00:00:00 GMT": 302,
    "Thu, 01 Jan 2020 00:00:00 GMT": 400,
    "Wed, 1 Jan 2020 00:00:00 GMT": 400,
    "Wed, 01 Jan 2020 00:00:00 UTC": 400,
    "Wed, 01 Jan 2020 00:00:60 GMT": 400,
    "Sun, 30 Feb 2020 00:00:00 GMT": 400,
    "Wednesday, 01-Jan-20 00:00:00 GMT": 400,
    "Wed Jan  1 00:00:00 2020": 400,
    "2020-01-01T00:00:00Z": 400,
    "20200101000000": 400,
    "": 400,
    "now": 400,
    "\xff": 400,
    "Wed, 01 Jan 2020 00:00:00 GMT, Wed, 01 Jan 2020 00:00:00 GMT": 400,
    "x" * 60_000: 400,
}
# What a reader types into the room, and the instant that it means.
TYPED = {
    "2020": "2020-01-01T00:00:00.000000000Z",
    "2020-06": "2020-06-01T00:00:00.000000000Z",
    "2020-02-29": "2020-02-29T00:00:00.000000000Z",
    "2020-06-01T12:30Z": "2020-06-01T12:30:00.000000000Z",
    "2020-06-01T12%3A30%3A05Z": "2020-06-01T12:30:05.000000000Z",
    "2020-06-01T12:30:05.25Z": "2020-06-01T12:30:05.250000000Z",
    "9999": "9999-01-01T00:00:00.000000000Z",
}
HEADS = {
    b"GET /timegate/x\r\n\r\n": 404,
    b"GET /timegate/x HTTP/2.0\r\n\r\n": 404,
    b"GET /timegate/x HTTP/1.0 x\r\n\r\n": 400,
    b"GET  /timegate/x HTTP/1.0\r\n\r\n": 400,
    b"\0\0\0\0\r\n\r\n": 400,
    b"\x16\x03\x01\x02\x00\x01\x00\x01\xfc\x03\x03\r\n\r\n": 400,
    b"POST /timegate/x HTTP/1.0\r\nContent-Length: 4\r\n\r\nbody": 405,
    b"PUT / HTTP/1.0\r\n\r\n": 405,
    b"OPTIONS * HTTP/1.0\r\n\r\n": 400,
    b"get /timegate/x HTTP/1.0\r\n\r\n": 400,
    b"GET /timegate/nocolon HTTP/1.1\r\nHost: x\r\nConnection: close\r\n\r\n": 403,
    b"GET /timegate/nocolon HTTP/1.1\r\nConnection: close\r\n\r\n": 400,
    b"GET /timegate/nocolon HTTP/1.1\r\nHost: localhost\r\nConnection: close\r\n\r\n": 302,
    b"GET /timegate/nocolon HTTP/1.0\r\n" + b"X: y\r\n" * 90 + b"\r\n": 302,
    b"GET /timegate/nocolon HTTP/1.0\r\n" + b"X: y\r\n" * 3000 + b"\r\n": 302,
    b"GET /timegate/nocolon HTTP/1.0\r\nX: " + b"y" * 70_000 + b"\r\n\r\n": 302,
    b"GET /timegate/nocolon HTTP/1.0\r\nX: " + b"y" * 400_000 + b"\r\n\r\n": 431,
    b"GET /timegate/nocolon HTTP/1.0\r\nno colon here\r\n\r\n": 400,
}


def judge_reply(trial: Trial, server: Served, request: bytes, expected: Optional[int]) -> None:
    """An answer to bad input: the status that is expected (any that is no 500, where none is), and a head that is
    one."""
    reply = server.raw(request)
    status = status_in(reply)
    is_right = status == expected if expected is not None else status not in (None, 500)
    trial.judge(is_right and b"\nSet-Cookie:" not in reply.partition(b"\r\n\r\n")[0], request[:120], reply[:300])


def bad_input(trial: Trial, script: Script) -> None:
    """Targets, dates and heads of any form."""
    catalogued(trial)
    with served(trial, "c", script=script) as server:
        for target, expected in TARGETS.items():
            judge_reply(trial, server, (LINE % target.replace("%", "%%") % ()).encode("latin-1"), expected)
        for date, expected in DATES.items():
            request = "GET /timegate/%s HTTP/1.0\r\nAccept-Datetime: %s\r\n\r\n" % (TARGET, date)
            judge_reply(trial, server, request.encode("latin-1"), expected)
        for request_head, expected in HEADS.items():
            judge_reply(trial, server, request_head, expected)
        escapes = bytes(range(256))
        for at in range(0, 256, 16):
            path = "/timegate/" + "".join("%%%02x" % byte for byte in escapes[at : at + 16])
            judge_reply(trial, server, b"GET %s HTTP/1.0\r\n\r\n" % path.encode(), 404)


def odd_captures(trial: Trial, script: Script) -> None:
    """What is captured changes no head; targets of any bytes are found; what disagrees or has no body is refused."""
    catalogued(trial)
    with served(trial, "c", script=script) as server:
        for target, instants in captures_in(trial).items():
            if not target.startswith("http://127.0.0."):
                try:
                    judge_target(trial, server.client, target, instants)
                except (Wrong, ValueError, IndexError) as wrong:
                    trial.judge(False, target[:100], repr(wrong))
        judge_places(trial, server)
        judge_coded(trial, server)
        for name in ("same", "other"):
            reply = server.client.ask("/memento/20200101000000/http://%s.example/" % name)
            is_right = (reply.status, reply.body) == (200, b"same") if name == "same" else reply.status == 502
            trial.judge(is_right, "two files have %s" % name, reply)
        for name, seen in (
            ("twice", (200, None)),
            ("half", (302, server.client.base + "/memento/20200101000000500000000/http://half.example/")),
        ):
            reply = server.client.ask("/memento/20200101000000/http://%s.example/" % name)
            trial.judge((reply.status, reply.get("Location")) == seen, "several in one second: %s" % name, reply)


def judge_places(trial: Trial, server: Served) -> None:
    """Where a captured redirect leads: to the memento of what it names, on this server."""
    path = "/memento/20200101000000/"
    top = server.client.base + path
    places = {
        "evil-place": None,
        "odd-place": top + "http://odd.example/%C3%BC%22%3Cx%3E%20y",
        "no-place": None,
    }
    for name, expected in places.items():
        reply = server.client.ask(path + "http://odd.example/" + name)
        place = reply.get("Location")
        is_right = place == expected if expected or place is None else place.startswith(top) and "\r" not in place
        trial.judge(is_right and 300 <= reply.status < 400, "where %s leads" % name, reply)


def judge_coded(trial: Trial, server: Served) -> None:
    """Coded bodies: what the transfer did is undone, and the coding of the content is stated."""
    for name, coding in (("deflated", "x-odd, gzip"), ("charset", None)):
        reply = server.client.ask("/memento/20200101000000/http://odd.example/" + name)
        trial.judge(reply.get("Content-Encoding") == coding and reply.body == b"body", name, reply)
        if name == "charset":
            media = (reply.get("Content-Type") or "").lower()
            trial.judge(media == "text/html; charset=iso-8859-1", "the charset", media)


# Browsers


def browsers(trial: Trial, script: Script) -> None:
    """A browser never shows a memento: it is led to the room. It may have it as a picture or by a script of the
    room."""
    catalogued(trial)
    uri = "http://a.example/%C3%BC"
    path = "/memento/20200101000000/" + uri
    with served(trial, "c", script=script) as server:
        for kind in ("document", "iframe", "frame", "embed", "object", "Document"):
            reply = server.client.ask(path, {"Sec-Fetch-Dest": kind})
            place = reply.get("Location")
            room = server.client.base + "/#20200101000000/" + uri
            trial.judge((reply.status, place) == (303, room), "shown as %s" % kind, reply)
        for kind in ("image", "empty", "script", "style"):
            reply = server.client.ask(path, {"Sec-Fetch-Dest": kind})
            trial.judge(reply.status == 200, "had as %s" % kind, reply)
        trial.judge("sec-fetch-dest" in (reply.get("Vary") or "").lower(), "an answer varies by Sec-Fetch-Dest", reply)
        head = server.client.ask(path, method="HEAD")
        trial.judge((head.status, head.body, head.get("Content-Length")) == (200, b"", "1"), "a head alone", head)
        for form in ("link", "json"):
            listed = "/timemap/%s/%s" % (form, uri)
            head, whole = server.client.ask(listed, method="HEAD"), server.client.ask(listed)
            lengths = [reply.get("Content-Length") for reply in (head, whole)]
            is_right = head.status == 200 and lengths[0] in (None, str(len(whole.body)))
            trial.judge(is_right and lengths[1] in (None, str(len(whole.body))), "the head of a list", lengths)
        for typed, instant in TYPED.items():
            reply = server.client.ask("/room/instant/" + typed)
            trial.judge(json.loads(reply.body) == {"instant": instant}, "what %s means" % typed, reply)


# Files that change


def changed_files(trial: Trial, script: Script, *words: str) -> None:
    """A file that isn't the one that was read gives nothing, until it is read again."""
    folder = trial.path("changing")
    for old in (folder, trial.path("d")):
        shutil.rmtree(old, ignore_errors=True)
    path = put(os.path.join(folder, "a.warc"), record("resource", 1, DATE, b"http://c.example/", b"before"))
    packed = put(os.path.join(folder, "b.warc.gz"), gzip.compress(record("resource", 2, DATE, b"urn:x:b", b"before")))
    trial.run("d", "run", "--quiet", folder)
    uris = {path: "/memento/20200101000000/http://c.example/", packed: "/memento/20200101000000/urn:x:b"}
    with served(trial, "d", *words, script=script) as server:
        for file, uri in uris.items():
            trial.judge(server.client.ask(uri).body == b"before", "before a change")
            judge_changes(trial, server, file, uri)
        trial.run("d", "run", "--quiet", folder)
        for uri in uris.values():
            reply = server.client.ask(uri)
            trial.judge(reply.status == 404 and b"altered" in reply.body, "after another run", reply)
        trial.run("d", "accept", *uris)
        for uri in uris.values():
            trial.judge(server.client.ask(uri).body == b"behind", "accepted", server.client.ask(uri))
        os.unlink(path)
        gone = server.client.ask(uris[path])
        trial.judge(gone.status == 503 and b"a.warc" in gone.body, "a file that was removed", gone)


def changed_whole_files(trial: Trial, script: Script) -> None:
    """The same where whole files are read, and stay open."""
    changed_files(trial, script, "--whole")


def judge_changes(trial: Trial, server: Served, path: str, uri: str) -> None:
    """Other bytes of the same length in the same file, fewer bytes, and another file of this name."""
    with open(path, "rb") as file:
        data = file.read()
    digest = record("resource", 1, DATE, b"x", b"before").split(b"Digest: ")[1].split(b"\r\n")[0]
    after = record("resource", 1, DATE, b"x", b"behind").split(b"Digest: ")[1].split(b"\r\n")[0]
    plain = gzip.decompress(data) if path.endswith("gz") else data
    other = plain.replace(b"before", b"behind").replace(digest, after)
    other = gzip.compress(other) if path.endswith("gz") else other
    for what, new in (("other bytes", other), ("fewer bytes", data[:200])):
        with open(path, "r+b") as file:
            file.write(new)
            file.truncate(len(new))
        reply = server.client.ask(uri)
        is_right = reply.status == 503 and b"changed" in reply.body and b"before" not in reply.body
        trial.judge(is_right, "%s in %s" % (what, path), reply)
    with open(path + ".new", "wb") as out:
        out.write(other)
    os.replace(path + ".new", path)
    reply = server.client.ask(uri)
    trial.judge(reply.status == 503, "another file as %s" % path, reply)


# Limits


def mapped_archives(server: Served, folder: str) -> int:
    """How many files below a folder the server has mapped. Those count that are there twice, one reading after another,
    since a reading isn't of one moment."""
    found: List[Set[str]] = []
    for _ in range(2):
        with open("/proc/%d/maps" % server.worker(), encoding="utf-8", errors="replace") as file:
            found.append({line.split()[-1] for line in file if folder in line})
    return len(found[0] & found[1])


def many_archives(trial: Trial, script: Script) -> None:
    """More archives than may be open, asked for at once: each answer is right, and no more are open at any time."""
    folder, count, times = trial.path("many"), 12, 10_000
    for number in range(count):
        body = b"%d" % number * times
        put(os.path.join(folder, "%d.warc" % number), record("resource", number, DATE, b"urn:x:%d" % number, body))
    trial.run("e", "run", "--quiet", folder)
    with served(trial, "e", "--archives", "3", "--whole", script=script) as server:

        def ask(turn: int) -> bool:
            number = turn * 7 % count
            reply = server.client.ask("/memento/20200101000000/urn:x:%d" % number)
            return reply.status == 200 and reply.body == b"%d" % number * times

        with concurrent.futures.ThreadPoolExecutor(12) as pool:
            futures = [pool.submit(ask, turn) for turn in range(96)]
            most = 0
            while not all(future.done() for future in futures):
                most = max(most, mapped_archives(server, folder))
        trial.judge(all(future.result() for future in futures), "each answer is right")
        trial.judge(0 < most <= 3, "archives open at once", most)


def unpacked_bytes(trial: Trial, script: Script) -> None:
    """A small file that becomes a large one isn't unpacked beyond the limit, and nothing of it is left."""
    catalogued(trial)
    uri = "/memento/20200101000000/http://zeros.example/"
    small = trial.path("small")
    os.makedirs(small, exist_ok=True)
    words = "--temporary", small, "--whole"
    with served(trial, "c", "--unpacked", "300K", *words, script=script) as server:
        reply = server.client.ask(uri)
        trial.judge(reply.status == 503 and b"--unpacked" in reply.body, "a file of 1 MiB unpacked", reply.status)
        held = sum(os.stat("/proc/%d/fd/%s" % (server.worker(), fd)).st_size for fd in files_of(server.worker(), small))
        trial.judge(held == 0, "what is left", held)
    with served(trial, "c", "--unpacked", "2M", *words, script=script) as server:
        reply = server.client.ask(uri)
        trial.judge(reply.status == 200 and reply.body == bytes(ZEROS), "with room for it", reply.status)


MANY = 150_000
# The list of them, where it is in memory as a whole, takes more.
MOST_MEMORY = 80 << 10


def many_captures(trial: Trial, script: Script) -> None:
    """A list of captures is whole and isn't in memory as a whole, also where all are of one instant."""
    put(trial.path("same", "a.warc"), record("resource", 1, DATE, b"urn:x:same", b"0"))
    trial.run("s", "run", "--quiet", trial.path("same"))
    columns = "date, instant, kind, given, status, media, length, reason, target"
    numbers = "WITH RECURSIVE numbers(n) AS (SELECT 1 UNION ALL SELECT n + 1 FROM numbers WHERE n < %d)" % (MANY - 1)
    with contextlib.closing(trial.base("s")) as base:
        added = "INSERT INTO captures (file, position, %s) %s SELECT file, n, %s FROM captures, numbers"
        base.execute(added % (columns, numbers, columns))
        base.commit()
    with served(trial, "s", script=script) as server:
        path, listed = "/timemap/json/urn:x:same", []
        while path:
            part = json.loads(server.client.ask(path).body)
            listed += [it["position"] for it in part["mementos"]["list"]]
            path = server.client.path(part["next"]) if "next" in part else ""
        trial.judge(listed == list(range(MANY)), "all are listed, in their order", len(listed))
        with open("/proc/%d/status" % server.worker(), encoding="ascii") as file:
            memory = next(int(line.split()[1]) for line in file if line.startswith("VmHWM"))
        trial.judge(memory < MOST_MEMORY, "the memory of a list", memory)


def many_dates(trial: Trial, script: Script) -> None:
    """Dates that readers type are read by no more programs at once than there may be requests at work."""
    catalogued(trial)
    running, counts = trial.path("running"), trial.path("counts")
    os.makedirs(running, exist_ok=True)
    text = '[ "$1" = write ] && { mkdir %s/$$; ls %s | wc -l >> %s; sleep 0.3; rmdir %s/$$; }\nexec %s "$@"\n'
    slow = put_script(trial.path("slow"), text % (running, running, counts, running, trial.warc))
    with served(trial, "c", "--requests", "3", "--warc", slow, script=script) as server:
        crowd = [server.connected() for _ in range(20)]
        for connection in crowd:
            connection.sendall(b"GET /room/instant/2020-01-01 HTTP/1.0\r\n\r\n")
        statuses = [status_in(received(connection)) for connection in crowd]
        for connection in crowd:
            connection.close()
    with open(counts, encoding="ascii") as file:
        most = max(int(line) for line in file)
    trial.judge(statuses == [200] * 20 and most <= 3, "programs at once", (most, statuses))


def coded_bodies(trial: Trial, script: Script) -> None:
    """A body that is decoded is in memory until it is in a file of its own, and so nobody who reads it slowly keeps
    another one waiting; nor does one that is only compressed, which is read from its file."""
    body = b"x" * (16 << 20)
    chunked = head_of(b"200 OK", more=b"Transfer-Encoding: chunked\r\n")
    data = response(1, b"http://coded.example/chunked", chunked, b"%x\r\n%s\r\n0\r\n\r\n" % (len(body), body))
    data += response(2, b"http://coded.example/gzip", head_of(b"200 OK", more=b"Content-Encoding: x-gzip\r\n"), body)
    put(trial.path("coded", "a.warc"), data)
    trial.run("k", "run", "--quiet", trial.path("coded"))
    with served(trial, "k", "--requests", "2", script=script) as server:
        for name in ("chunked", "gzip"):
            crowd = [server.slow_reader("/memento/20200101000000/http://coded.example/" + name) for _ in range(6)]
            all_begin = wait_for(lambda: len(select.select(crowd, [], [], 0)[0]) == 6)
            trial.judge(all_begin, "bodies at once: " + name, len(select.select(crowd, [], [], 0)[0]))
            for connection in crowd:
                connection.close()
        reply = server.client.ask("/memento/20200101000000/http://coded.example/chunked")
        trial.judge(reply.body == body, "a whole body", len(reply.body))


def readers_that_go(trial: Trial, script: Script) -> None:
    """A reader of a long body that goes away gives its archive back."""
    catalogued(trial)
    with served(trial, "c", "--archives", "1", script=script) as server:
        for _ in range(20):
            with server.connected() as connection:
                connection.sendall(b"GET /memento/20200101000000/http://big.example/ HTTP/1.0\r\n\r\n")
        begun, path = time.monotonic(), "/memento/20200101000000/http://a.example/%C3%BC"
        trial.judge(server.client.ask(path).status == 200, "the next reader")
        trial.judge(time.monotonic() - begun < 10, "the next reader doesn't wait", time.monotonic() - begun)
        whole = server.client.ask("/memento/20200101000000/http://big.example/")
        trial.judge(whole.body == BIG, "a long body", len(whole.body))


def files_of(process: int, folder: str) -> List[str]:
    """The descriptors of a process that lead below a folder."""
    names = []
    for name in os.listdir("/proc/%d/fd" % process):
        with contextlib.suppress(OSError):
            if os.readlink("/proc/%d/fd/%s" % (process, name)).startswith(folder):
                names.append(name)
    return names


def slow_clients(trial: Trial, script: Script) -> None:
    """Heads that never end, or come byte by byte, keep no one waiting, and are given up in time."""
    catalogued(trial)
    path = "/memento/20200101000000/http://a.example/%C3%BC"
    with served(trial, "c", script=script) as server:
        open_ones = [server.connected() for _ in range(MOST_OF_ADDRESS - 4)]
        for number, connection in enumerate(open_ones):
            connection.sendall(b"GET / HTTP/1.0\r\n"[: 1 + number % 16])
        begun = time.monotonic()
        trial.judge(server.client.ask(path).status == 200 and time.monotonic() - begun < 5, "beside half-open ones")
        with server.connected() as dripping:
            while time.monotonic() - begun < HEAD_SECONDS + 3:
                with contextlib.suppress(OSError):
                    dripping.sendall(b"x")
                time.sleep(0.5)
            trial.judge(received(dripping, 1) == b"" and is_closed(dripping), "one that comes byte by byte")
        trial.judge(all(is_closed(connection) for connection in open_ones), "half-open ones are given up")
        for connection in open_ones:
            connection.close()
        too_many(trial, server, path)


def is_closed(connection: socket.socket) -> bool:
    """Whether the other side has closed a connection."""
    connection.settimeout(0.2)
    try:
        return connection.recv(1) == b""
    except TimeoutError:
        return False
    except OSError:
        return True


def too_many(trial: Trial, server: Served, path: str) -> None:
    """Of an address too many connections get an answer that says so, or are closed, and later ones are served."""
    crowd = [server.connected() for _ in range(3 * MOST_OF_ADDRESS)]
    last = [connection for connection in crowd if not is_closed(connection)]
    trial.judge(wait_for(lambda: not answers(server, path)), "one connection more")
    trial.judge(MOST_OF_ADDRESS <= len(last) <= 2 * MOST_OF_ADDRESS, "connections of an address", len(last))
    for connection in crowd:
        connection.close()
    trial.judge(wait_for(lambda: answers(server, path)), "served after a crowd")


def answers(server: Served, path: str) -> bool:
    """Whether a server gives a memento now."""
    try:
        return server.client.ask(path).status == 200
    except OSError:
        return False


def one_that_dies(trial: Trial, script: Script) -> None:
    """A process that a failed read of a mapped file ends is started again; and it ends with the one that started it."""
    catalogued(trial)
    path = "/memento/20200101000000/http://a.example/%C3%BC"
    with served(trial, "c", script=script) as server:
        os.kill(server.worker(), signal.SIGBUS)
        trial.judge(wait_for(lambda: answers(server, path)), "served after SIGBUS", server.said())
        worker = server.worker()
        server.child.kill()
        trial.judge(wait_for(lambda: not os.path.exists("/proc/%d" % worker)), "it ends with its parent")


def beside_a_run(trial: Trial, script: Script) -> None:
    """Runs read new files while the catalogue is asked: each answer is right, new captures are found at once, and the
    log of a run is gone after it. Another catalogue in the same place is asked from then on."""
    folder, base = trial.path("growing"), trial.path("f", "catalogue.sqlite")
    put(os.path.join(folder, "0.warc"), record("resource", 1, DATE, b"urn:x:0", b"0"))
    trial.run("f", "run", "--quiet", folder)
    with served(trial, "f", script=script) as server, concurrent.futures.ThreadPoolExecutor(3) as pool:
        is_over = threading.Event()

        def ask() -> Tuple[int, int]:
            count = wrong = 0
            while not is_over.is_set():
                count, wrong = count + 1, wrong + (server.client.ask("/memento/20200101000000/urn:x:0").body != b"0")
            return count, wrong

        futures = [pool.submit(ask) for _ in range(3)]
        for number in range(1, 6):
            put(os.path.join(folder, "%d.warc" % number), record("resource", 1, DATE, b"urn:x:%d" % number, b"new"))
            trial.run("f", "run", "--quiet", folder)
            reply = server.client.ask("/memento/20200101000000/urn:x:%d" % number)
            trial.judge(reply.body == b"new", "what a run has read", reply)
        is_over.set()
        counts = [future.result() for future in futures]
        trial.judge(all(count and not wrong for count, wrong in counts), "answers beside a run", counts)
        trial.run("f", "run", "--quiet", folder)
        trial.judge(not os.path.exists(base + "-wal"), "no log is left", os.listdir(trial.path("f")))
        shutil.rmtree(trial.path("f"))
        os.unlink(os.path.join(folder, "0.warc"))
        trial.run("f", "run", "--quiet", folder)
        gone = server.client.ask("/memento/20200101000000/urn:x:0")
        trial.judge(gone.status == 404, "another catalogue", gone)


# What systemd does before it starts a service with a socket: descriptor 3, and two variables.
PASSES_SOCKET = """
import os, socket, sys
listener = socket.create_server(("127.0.0.1", 0))
os.dup2(listener.fileno(), 3)
os.set_inheritable(3, True)
os.environ.update(LISTEN_PID=str(os.getpid()), LISTEN_FDS="1")
os.execv(sys.executable, [sys.executable, *sys.argv[1:]])
"""


def passed_socket(trial: Trial, script: Script) -> None:
    """The server listens at a socket that systemd passes; without one it says so."""
    catalogued(trial)
    whole = [script or trial.script, "-c", trial.path("c"), "serve", "--listen", "systemd", "--warc", trial.warc]
    whole += ["--host", "127.0.0.1"]
    env = dict(os.environ, PYTHONPATH=PACKAGE)
    alone = subprocess.run([sys.executable, *whole], capture_output=True, env=env, timeout=60, check=False)
    trial.judge(alone.returncode == 3 and b"passes no socket" in alone.stderr, "without a socket", alone)
    words = [sys.executable, "-c", PASSES_SOCKET, *whole]
    with started(trial, words) as server:
        path = "/memento/20200101000000/http://a.example/%C3%BC"
        trial.judge(server.client.ask(path).status == 200, "at a socket that is passed", server.said())


def read_only(trial: Trial, script: Script) -> None:
    """The server writes nothing to the catalogue, and opens nothing by a name that a request has."""
    catalogued(trial)
    base, log = trial.path("c", "catalogue.sqlite"), trial.path("opened")
    before = (os.stat(base), sorted(os.listdir(trial.path("c"))))
    marks = ("/timegate/file:///zogwedu-mark", "/memento/20200101000000/../../zogwedu-mark", "/zogwedu-mark")
    words = ("strace", "-f", "-qq", "-e", "trace=openat,open,execve", "-o", log)
    with served(trial, "c", script=script, before=words) as server:
        for path in (*marks, "/memento/20200101000000/http://a.example/%C3%BC"):
            server.client.ask(path)
    with open(log, encoding="utf-8", errors="replace") as file:
        lines = file.read().splitlines()
    trial.judge(any("odd.warc" in line for line in lines), "what strace sees")
    trial.judge(not any("zogwedu-mark" in line for line in lines), "nothing is opened by a request's name")
    written = [line for line in lines if "catalogue.sqlite" in line and ("O_RDWR" in line or "O_WRONLY" in line)]
    trial.judge(not written, "the catalogue is opened for reading alone", written)
    after = (os.stat(base), sorted(os.listdir(trial.path("c"))))
    is_same = before[1] == after[1] and before[0].st_mtime_ns == after[0].st_mtime_ns
    trial.judge(is_same, "the catalogue stays as it is", after)


# Servers with a fault

BROKEN: Tuple[Tuple[str, str, str, Part], ...] = (
    ("memento.py", '    if b":" in value:\n        return decoded(value)\n', "", odd_captures),
    (
        "memento.py",
        'value.decode("ascii")\n    return urllib',
        'value.decode("ascii").lower()\n    return urllib',
        browsers,
    ),
    ("memento.py", 'r"(%s), (\\d\\d) ', 'r"(%s), (\\d\\d?) ', bad_input),
    ("memento.py", 'raise NotOne("that day isn\'t a %s" % found[1])', "pass", bad_input),
    ("memento.py", '(around.after, "next")', '(None, "next")', odd_captures),
    ("memento.py", "if nanoseconds.strip", "if not nanoseconds.strip", odd_captures),
    ("memento_answers.py", "html|xml|xsl", "nothing|xsl", odd_captures),
    ("memento_answers.py", '"iframe", ', "", browsers),
    ("sending.py", "CHANGING = (204, ", "CHANGING = (", odd_captures),
    ("choosing.py", '"P4", ', "", odd_captures),
    (
        "memento_answers.py",
        '[("Content-Type", content.media), ("Content-Security-Policy", FORBIDS_ALL)]',
        '[("Content-Type", content.media)]',
        odd_captures,
    ),
    ("memento_answers.py", "instants[1] < first:", "False:", odd_captures),
    ("wsgi.py", "            self.site.check(environ)\n", "", bad_input),
    ("lending.py", "return found[1] + ", "return (value or '') + ", odd_captures),
    ("lending.py", 'if body.undone not in ((), ("chunked",)):', "if False:", odd_captures),
    ("lending.py", "if not CODINGS.fullmatch(names):", "if False:", odd_captures),
    ("lending.py", "digest.update(part)", "pass", odd_captures),
    ("replay.py", "check(known, stamp_of(os.stat(path)))", "os.stat(path)", changed_whole_files),
    ("shelf.py", "or self.drop_idle(False)", "or True", many_archives),
    ("shelf.py", "while self.unpacked + count > self.most_unpacked", "while False", unpacked_bytes),
    ("serve.py", "HEAD_SECONDS = 15", "HEAD_SECONDS = 55", slow_clients),
    ("serve.py", "MOST_OF_ADDRESS = 64", "MOST_OF_ADDRESS = 512", slow_clients),
    ("serve.py", "        if status >= 0:", "        if True:", one_that_dies),
    ("serve.py", "MOST_HEAD = 256 << 10", "MOST_HEAD = 16 << 20", bad_input),
    ("catalogue.py", "?mode=ro", "?mode=rw", read_only),
    ("desks.py", '!= "wal"', '!= "x"', beside_a_run),
    ("desks.py", "and catalogue.is_there()", "", beside_a_run),
)


def broken(trial: Trial, _script: Script) -> None:
    """Each planted fault is seen."""
    for number, (name, old, new, part) in enumerate(BROKEN):
        folder = trial.path("broken-%d" % number)
        shutil.copytree(os.path.join(TOP, "collection"), folder)
        for module in ("_members.py", "_wacz.py", "_zip.py", "_surt.py", "_cdxj.py"):
            shutil.copy(os.path.join(TOP, "python", "src", "zogwedu", module), f"{folder}/zogwedu_collection")
        path = os.path.join(folder, "zogwedu_collection", name)
        with open(path, encoding="utf-8") as file:
            text = file.read()
        trial.judge(text.count(old) == 1, "the place of a fault", (name, old))
        with open(path, "w", encoding="utf-8") as out:
            out.write(text.replace(old, new))
        trial.judge(is_seen(trial, part, folder), "a planted fault is seen", (name, new, part.__name__))


def is_seen(trial: Trial, part: Part, script: str) -> bool:
    """Whether a part finds something with a program. What it prints is left out."""
    again = Trial.__new__(Trial)
    again.__dict__.update(trial.__dict__, surprises=0, tried=trial.tried.copy(), part=part.__name__)
    for name in ("d", "e", "f", "changing", "many", "growing"):
        shutil.rmtree(trial.path(name), ignore_errors=True)
    try:
        with open(os.devnull, "w", encoding="utf-8", errors="replace") as nowhere, contextlib.redirect_stdout(nowhere):
            part(again, script)
    except (RuntimeError, OSError, Wrong) as error:
        print("%s: %r" % (part.__name__, error))
        return True
    return again.surprises > 0


PARTS: Tuple[Part, ...] = (
    *(crawl_is_served, odd_captures, bad_input, browsers, changed_files, many_archives, unpacked_bytes),
    *(
        many_captures,
        many_dates,
        coded_bodies,
        readers_that_go,
        slow_clients,
        one_that_dies,
        beside_a_run,
        passed_socket,
        read_only,
        broken,
    ),
)


def main() -> int:
    warc, names = sys.argv[1], sys.argv[2:]
    if isinstance(sys.stdout, io.TextIOWrapper):
        sys.stdout.reconfigure(errors="backslashreplace")
    if not os.path.exists(os.path.join(PACKAGE, "zogwedu", "__init__.py")):
        print("serve: left out, since make python wasn't run")
        return 0
    with tempfile.TemporaryDirectory(prefix="warc-serve-") as folder:
        trial = Trial(warc, folder)
        for part in PARTS:
            if not names or part.__name__ in names:
                trial.begin(part.__name__)
                part(trial, None)
                trial.end()
        return trial.totals()


if __name__ == "__main__":
    sys.exit(main())
