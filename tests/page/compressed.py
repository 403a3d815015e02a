"""Archives that are compressed, or several files: each is as the uncompressed one, or the page says why not."""

from __future__ import annotations

import base64
import gzip
import json
import os
from collections.abc import Callable
from typing import Any

import stations
from browser import Browser
from variant import variant

TOP = os.path.dirname(os.path.dirname(os.path.dirname(os.path.abspath(__file__))))
SAID = "document.getElementById('damage').innerText"
FILES = """Array.from({length: room.rows.count}, (_, position) =>
  room.parts[fileAt(room.rows.row(position).offset)].name)"""
REVISIT = """Array.from({length: room.rows.count}, (_, position) => position).findLast((position) => {
  const {kind, target} = room.rows.row(position);
  return kind === 'revisit' && latin.decode(target).endsWith('/page/12');
})"""
EMPTY = gzip.compress(b"")
ZSTD = b"\x28\xb5\x2f\xfd"
BOMB = 50_000_000
MAKES_BLOB = "const blob = new Blob([bytes]);"
NO_BLOB = "const blob = {slice: () => ({arrayBuffer: () => Promise.reject(new Error('x'))})};"
SMALL_LIMIT = {"const LIMIT = 2 * 1024 ** 3;": "const LIMIT = 2000000;"}
# What comes of a file of members: up to each place, and with each byte changed.
TRIES = """async (text) => {
  const whole = Uint8Array.from(atob(text), (it) => it.charCodeAt(0));
  const outcome = async (bytes) => {
    const parts = [], members = new Members(new Uint8Array(50), 1e6, (part) => void parts.push(...part));
    let damage = null;
    try {
      for (let at = 0; at < bytes.length; at += 7) await members.take(bytes.subarray(at, at + 7));
      await members.end();
    } catch (error) {
      damage = [error.kind, error.offset];
      await members.flush();
    }
    return [btoa(String.fromCharCode(...parts.slice(0, members.whole))), damage];
  };
  const cuts = [], changes = [];
  for (let at = 0; at < whole.length; at += 1) {
    cuts.push(await outcome(whole.subarray(0, at)));
    changes.push(await outcome(whole.map((byte, number) => (number === at ? byte ^ 0x55 : byte))));
  }
  return [cuts, changes];
}"""
HOSTILE = ("<img src=x onerror='window.hacked=1'>.warc.gz", "$(touch hacked).warc.gz", "gnp\u202eexe.warc.gz")
DAMAGES = """Array.from({length: room.damages.count}, (_, number) => {
  const {place, length, fault, gap} = room.damages.at(number);
  return [place, length, gap ? 'gap' : fault.split(' ')[0]];
})"""
SAVED = """bytesOfRanges(room.file, room.runs.ranges(0, room.runs.length)).then(
  (bytes) => btoa(String.fromCharCode(...bytes)))"""
NOT_KEPT = (b"Content-Length", b"WARC-Block")
Same = Callable[..., None]


def records_of(tests: Any, archive: str) -> list[bytes]:
    """The bytes of each record of an archive, by the offsets that the program lists."""
    lines = tests.warc("list", archive)[0].split(b"\n")[:-1]
    with open(archive, "rb") as file:
        data = file.read()
    starts = [int(line.split(b"\t")[1]) for line in lines]
    return [data[start:end] for start, end in zip(starts, [*starts[1:], len(data)])]


def save(folder: str, name: str, data: bytes) -> str:
    """Writes a file, and gives its path."""
    with open(f"{folder}/{name}", "wb") as out:
        out.write(data)
    return f"{folder}/{name}"


def packed(records: list[bytes]) -> bytes:
    """Records as crawlers compress them: a member each."""
    return b"".join(gzip.compress(record) for record in records)


def each_byte(tests: Any, records: list[bytes]) -> None:
    """A file that is cut is torn at the member that is cut, or whole where none is. A byte that changes is found, or
    says nothing. What is given is what the whole members before that place give."""
    parts = [*records[:2], b"", *records[2:4]]
    members = [gzip.compress(it) for it in parts]
    starts = [len(b"".join(members[:number])) for number in range(len(members))]
    browser = Browser()
    browser.go(tests.page)
    cuts, changes = browser.run(f"({TRIES})({json.dumps(base64.b64encode(b''.join(members)).decode())})")
    browser.close()
    wrong = []
    for at, (cut, changed) in enumerate(zip(cuts, changes)):
        before = max(number for number, start in enumerate(starts) if start <= at)
        plain, start = base64.b64encode(b"".join(parts[:before])).decode(), starts[before]
        if cut != [plain, None if at == start else ["torn", start]]:
            wrong.append(("cut", at, cut[1]))
        is_unseen = at - start in range(4, 10)  # the time and the system in the head of a member
        if changed[1] is None and is_unseen:
            plain = base64.b64encode(b"".join(parts)).decode()
        elif changed[1] is None or changed[1][1] != start:
            wrong.append(("changed", at, changed[1]))
        if changed[0] != plain:
            wrong.append(("other bytes", at, changed[1]))
    tests.holds(len(cuts) == len(b"".join(members)) and not wrong, "members, cut or changed at each byte", wrong)


def whole_ones(tests: Any, folder: str, records: list[bytes], same: Same) -> None:
    """Compressed archives that are whole: each is as the uncompressed one."""
    plain, members = b"".join(records), [gzip.compress(record) for record in records]
    archive = save(folder, "plain.warc", plain)
    given = {
        "each": b"".join(members),
        "whole": gzip.compress(plain, 9),
        "empty-members": EMPTY + EMPTY.join(members) + EMPTY,
        "zeros": b"".join(members) + bytes(1000),
        "halves": gzip.compress(plain[:700]) + gzip.compress(plain[700:]),
    }
    for name, data in given.items():
        same(tests, f"compressed, {name}", archive, [save(folder, f"{name}.warc.gz", data)])
    front = save(folder, "front.warc", b"".join(records[:5]))
    same(tests, "compressed, torn at a member's end", front, [save(folder, "front.warc.gz", b"".join(members[:5]))])


def damaged_ones(tests: Any, folder: str, records: list[bytes], same: Same) -> None:
    """Compressed archives with a damaged member, or with other bytes: the page says where, and shows the records of all
    good members."""
    members = [gzip.compress(record) for record in records]
    ends = [sum(map(len, members[:number])) for number in range(len(members) + 1)]
    packed, at = b"".join(members), ends[5] + 40
    changed = packed[:at] + bytes([packed[at] ^ 255]) + packed[at + 1 :]
    without, front = [*records[:5], *records[6:]], packed[: ends[5]]
    cases: dict[str, tuple[bytes, list[bytes], str, int, int]] = {
        "torn": (packed[:at], records[:5], "is torn", ends[5], 40),
        "torn-in-its-sum": (packed[: ends[6] - 1], records[:5], "is torn", ends[5], len(members[5]) - 1),
        "changed": (changed, without, "be decompressed", ends[5], len(members[5])),
        "first": (b"\x1f\x8b\x07" + packed[3:], records[1:], "is damaged", 0, len(members[0])),
        "other": (packed + b"more", records, "that gzip didn\u2019t write", len(packed), 4),
        "other-byte": (packed + b"x", records, "that gzip didn\u2019t write", len(packed), 1),
        "other-between": (front + b"more" + packed[ends[5] :], records, "didn\u2019t write", ends[5], 4),
        "other-after-zeros": (packed + bytes(9) + packed, records * 2, "didn\u2019t write", len(packed), 9),
    }
    for name, (data, good, words, offset, length) in cases.items():
        given = save(folder, f"{name}.warc.gz", data)
        same(tests, f"compressed, {name}", save(folder, "good.warc", b"".join(good)), [given])
        browser = tests.opened(given)
        said, left = browser.run(SAID), f"{length:,} compressed byte"
        wanted = (words, f"byte {offset:,}", left, f"{len(good)} records", f"{name}.warc.gz")
        tests.holds(all(it in said for it in wanted), f"compressed, {name}: says where", said)
        tests.holds(browser.run("room.damages.count") == 1, f"compressed, {name}: one damage")
        tests.picture(browser, f"compressed-{name}")
        browser.close()


def on_both_sides(tests: Any, folder: str, records: list[bytes]) -> None:
    """A record that is cut by a damage isn't closed by the bytes after it, even if they fit. Each damage is a line, and
    a mark on the strip; what is saved is the good records."""
    lines = [it for it in records[0].split(b"\r\n\r\n")[0].split(b"\r\n") if not it.startswith(NOT_KEPT)]
    torn = b"\r\n".join([*lines, b"Content-Length: %d" % (len(records[1]) - 4), b"", b""])
    good, middle = records[1:3], gzip.compress(records[3])
    parts = [torn, b"x", *good, middle[:-9], records[4]]
    data = b"".join(it if it in (b"x", parts[4]) else gzip.compress(it) for it in parts)
    whole = save(folder, "whole.warc", torn + b"".join(records[1:]))
    tests.holds(tests.warc("list", whole)[2] == 0, "compressed, both sides: without the damage it would be closed")
    browser = tests.opened(save(folder, "sides.warc.gz", data))
    try:
        damages = browser.run(DAMAGES)
        place, after = len(torn), len(torn + b"".join(good))
        wanted = [[0, place, "F11"], [place, 0, "gap"], [after, 0, "gap"]]
        tests.holds(damages == wanted, "compressed, both sides: damages", damages)
        offsets = browser.run("Array.from({length: room.rows.count}, (_, it) => room.rows.row(it).offset)")
        tests.holds(offsets == [place, place + len(good[0]), after], "compressed, both sides: records", offsets)
        said = browser.run(SAID)
        wanted_words = ("3 damages", "1 compressed byte is left out", "sides.warc.gz: At byte", "3 records")
        tests.holds(all(it in said for it in wanted_words), "compressed, both sides: says where", said)
        saved = browser.run(SAVED)
        tests.holds(base64.b64decode(saved) == b"".join([*good, records[4]]), "compressed, both sides: what is saved")
        browser.run(f"clickStrip({{offsetX: {after} / room.file.size * byId('strip').clientWidth + 1}}); 0")
        words = browser.run("byId('status').textContent")
        tests.holds("Damage 3 of 3: sides.warc.gz" in words, "compressed, both sides: a mark on the strip", words)
        tests.picture(browser, "compressed-sides")
    finally:
        browser.close()


def a_megabyte_of_heads(tests: Any, folder: str, records: list[bytes]) -> None:
    """Each of them may begin a member, and none does. The good members around them are there."""
    front, end = gzip.compress(records[0]), gzip.compress(records[1])
    browser = tests.opened(save(folder, "heads.warc.gz", front + b"\x1f\x8b\x08" * 350_000 + end))
    found = browser.run("[room.rows.count, room.gaps[0].length, room.isStopped]")
    tests.holds(found == [2, 1_050_000, False], "compressed, a megabyte of heads", found)
    browser.close()


def without_records(tests: Any, folder: str, records: list[bytes]) -> None:
    """Files of which nothing can be shown: a torn one of one member, what only begins as gzip does, and zstd."""
    plain = b"".join(records)
    cases = {
        "torn-whole.warc.gz": (gzip.compress(plain, 9)[:-500], "gzip -dc torn-whole.warc.gz > torn-whole.warc"),
        "packed.warc.gz": (b"\x1f\x8b\x08\0" + b"x" * 100, "It has no record that is whole"),
        "two-bytes.warc.gz": (b"\x1f\x8b", "isn\u2019t whole"),
        "a.warc.zst": (ZSTD + bytes(50), "zstd -d a.warc.zst"),
    }
    for name, (data, words) in cases.items():
        browser = tests.opened(save(folder, name, data))
        said = browser.run(SAID)
        tests.holds(words in said and name in said, f"compressed, {name}: says why", said)
        whole = browser.run("document.body.innerText")
        tests.holds("Looking for findings" not in whole and "stopped" not in whole, f"compressed, {name}: ends", whole)
        tests.picture(browser, f"compressed-{name}")
        browser.close()


def beyond_limits(tests: Any, folder: str, records: list[bytes]) -> None:
    """A few bytes that give many meet the limit: the page says so, and shows the records before them."""
    page, members = variant(tests.page, f"{folder}/limit.html", SMALL_LIMIT), [gzip.compress(it) for it in records]
    bomb = b"".join(members[:5]) + gzip.compress(bytes(BOMB))
    browser = tests.opened(save(folder, "bomb.warc.gz", bomb), page=page)
    said, front = browser.run(SAID), b"".join(records[:5])
    offset = len(b"".join(members[:5]))
    tests.holds(
        all(it in said for it in ("too long to be decompressed", f"{offset:,}", "5 records")), "compressed, bomb", said
    )
    tests.holds(browser.run("room.file.size") == len(front), "compressed, bomb: what comes before it")
    tests.picture(browser, "compressed-bomb")
    browser.close()
    spread = [save(folder, f"part-{number}.warc.gz", gzip.compress(bytes(900_000))) for number in range(9)]
    browser = tests.opened(*spread, page=page)
    said = browser.run(SAID)
    tests.holds("part-2.warc.gz is too long" in said, "compressed, limit of all files together", said)
    tests.holds("6 files after it" in said, "compressed, files that aren't opened", said)
    browser.close()
    page = variant(tests.page, f"{folder}/full.html", {MAKES_BLOB: NO_BLOB})
    browser = tests.opened(save(folder, "full.warc.gz", packed(records)), page=page)
    said = browser.run("document.getElementById('status').textContent")
    tests.holds("no room for what was decompressed" in said, "compressed, a browser without room", said)
    browser.close()


def several(tests: Any, folder: str, records: list[bytes], same: Same) -> None:
    """Several files, compressed and not, are one archive in the order of their names; each record names its file."""
    parts: list[list[bytes]] = [records[:4], records[4:5], [], records[5:9], records[9:]]
    names = ["a.warc.gz", "b.warc", "c.warc", "d.warc.gz", "e.warc"]
    data = [packed(part) if "gz" in name else b"".join(part) for part, name in zip(parts, names)]
    paths = [save(folder, name, it) for name, it in zip(names, data)]
    given = [paths[it] for it in (3, 0, 4, 2, 1)]
    same(tests, "files, mixed", save(folder, "plain.warc", b"".join(records)), given)
    browser = tests.opened(*given)
    told = browser.run(FILES)
    wanted = [name for part, name in zip(parts, names) for _ in part]
    tests.holds(told == wanted, "files: which one a record is from", told)
    tests.picture(browser, "files-list")
    cells = browser.run("[...document.querySelectorAll('.line .file')].map((it) => it.textContent)")
    tests.holds(cells == wanted[: len(cells)] and len(cells) > 5, "files: the list says it", cells)
    browser.run("openRecord(6)")
    browser.until("document.getElementById('panel')?.dataset.ready === 'yes'", 30)
    tests.holds(
        "in d.warc.gz" in browser.run("document.getElementById('record').innerText"), "files: the record says it"
    )
    tests.picture(browser, "files")
    browser.close()
    paths.append(save(folder, "bb.warc.gz", gzip.compress(records[5])[:-3]))
    browser = tests.opened(*paths)
    said = browser.run(SAID)
    tests.holds(
        "bb.warc.gz is torn" in said and f"{len(records)} records" in said,
        "files: a torn one, and those after it",
        said,
    )
    tests.holds(browser.run(FILES) == wanted, "files: which one a record is from, after a torn one")
    browser.close()
    torn = [paths[0], save(folder, "b2.warc", records[4][:-10]), paths[4]]
    browser = tests.opened(*torn)
    said = browser.run(SAID)
    count = len(parts[0]) + len(parts[4])
    tests.holds("(byte 0 of b2.warc)" in said and f"{count} records" in said, "files: a damaged record", said)
    browser.close()


def by_wget(tests: Any, folder: str, same: Same) -> None:
    """A crawl that wget compressed, and the next one, whose revisits lead to it: two files, as wget writes them."""
    os.makedirs(f"{folder}/wget")
    _, paths = stations.crawl_into(f"{folder}/wget")
    parts = []
    for path in paths:
        with gzip.open(path) as file:
            parts.append(file.read())
    same(tests, "compressed by wget", save(folder, "first.warc", parts[0]), paths[:1])
    same(tests, "compressed by wget, two files", save(folder, "both.warc", b"".join(parts)), paths[::-1])
    browser = tests.opened(*paths)
    browser.run(f"room.tab = 'Page'; openRecord({REVISIT})")
    image = "document.querySelector('iframe.view')?.contentDocument?.images[0]"
    browser.until(f"{image}?.complete && {image}.naturalWidth > 0", 30)
    width = browser.run(f"{image}.naturalWidth")
    tests.holds(width == 200, "files: a revisit shows the picture of the file before", width)
    tests.picture(browser, "files-revisit")
    browser.close()


def hostile_names(tests: Any, folder: str, records: list[bytes]) -> None:
    """Names of files are shown as texts, and none of them is part of a command for a shell."""
    os.makedirs(f"{folder}/names")
    whole = packed(records[:3])
    paths = [save(f"{folder}/names", name, whole) for name in HOSTILE]
    browser = tests.opened(*paths)
    cells = browser.run("[...document.querySelectorAll('.line .file')].map((it) => it.textContent)")
    wanted = sorted(name.replace("\u202e", "\u27e8U+202E\u27e9") for name in HOSTILE for _ in records[:3])
    tests.holds(cells == wanted, "names: all are shown", cells)
    browser.run("openRecord(4)")
    browser.until("document.getElementById('panel')?.dataset.ready === 'yes'", 30)
    words = browser.run("document.body.innerText")
    tests.holds(f"in {wanted[4]}" in words, "names: the record says its file", words)
    tests.holds("\u202e" not in words and "\u202e" not in browser.run("document.title"), "names: nothing turns a text")
    tests.holds(browser.run("window.hacked") is None, "names: nothing runs")
    tests.picture(browser, "files-hostile")
    browser.close()
    for name in HOSTILE:
        browser = tests.opened(save(f"{folder}/names", name, whole[:-3]))
        said = browser.run(SAID)
        command = browser.run("document.querySelector('#damage code').textContent")
        tests.holds("is torn" in said and command == "gzip -dc a.warc.gz > a.warc", "names: in a command", command)
        tests.holds(browser.run("window.hacked") is None, "names: nothing runs in what is said")
        browser.close()


def another_archive(tests: Any, folder: str, records: list[bytes]) -> None:
    """Another archive is opened while a long one is decompressed: nothing comes of the first. A drop opens files."""
    long = save(folder, "long.warc.gz", gzip.compress(bytes(300_000_000), 1))
    small = save(folder, "small.warc.gz", gzip.compress(b"".join(records)))
    browser = tests.opened(small)
    browser.give_file("#file-again", long)
    browser.until("document.getElementById('status').textContent.startsWith('Decompressing long')", 20)
    browser.give_file("#file-again", small)
    browser.until("room.names[0] === 'small.warc.gz' && room.isOpen && room.findings !== null", 20)
    browser.settle()
    found = browser.run("[room.rows.count, room.names[0], room.damage, room.isStopped]")
    tests.holds(found == [len(records), "small.warc.gz", None, False], "compressed: another while one is read", found)
    browser.run(
        "room.file.arrayBuffer().then((bytes) => { const given = new DataTransfer();"
        " for (const name of ['2.warc', '1.warc']) given.items.add(new File([bytes], name));"
        " dispatchEvent(new DragEvent('drop', {dataTransfer: given})); })"
    )
    browser.until(f"room.names.length === 2 && room.rows.count === {2 * len(records)} && room.isOpen", 20)
    tests.holds(browser.run("room.parts.map((it) => it.name).join()") == "1.warc,2.warc", "files: dropped ones")
    browser.close()


def compressed(tests: Any, folder: str, same: Same) -> None:
    """All of them."""
    records = records_of(tests, f"{TOP}/examples/crawl.warc")
    each_byte(tests, records)
    whole_ones(tests, folder, records, same)
    damaged_ones(tests, folder, records, same)
    on_both_sides(tests, folder, records)
    a_megabyte_of_heads(tests, folder, records)
    without_records(tests, folder, records)
    beyond_limits(tests, folder, records)
    several(tests, folder, records, same)
    by_wget(tests, folder, same)
    hostile_names(tests, folder, records)
    another_archive(tests, folder, records)
