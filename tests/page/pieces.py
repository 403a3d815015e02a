"""Damaged archives as their pieces: all good records, each damage where it is, answers, and what is saved."""

from __future__ import annotations

import base64
import gzip
import json
import time
from collections.abc import Callable
from typing import Any

import selection
from browser import Browser
from compressed import packed, records_of, save
from variant import variant

TOP = selection.TOP
SAID = "document.getElementById('damage').innerText"
ALL_SAID = "document.getElementById('damage').textContent"  # also what is folded
STATUS = "document.getElementById('status').textContent"
LINES = "document.querySelectorAll('#damage li').length"
DAMAGES = """Array.from({length: room.damages.count}, (_, number) => {
  const {place, length, fault} = room.damages.at(number);
  return ['damage', String(place), String(length), fault].join('\\t');
})"""
RUNS = "Array.from(room.runs.ends)"
SAVE_GOOD = "[...document.querySelectorAll('#damage button')].find((it) => it.textContent === 'Save the good records')"
# The colours on the strip at some places, and the one of a mark.
STRIP = """((places) => {
  const canvas = document.getElementById('strip'), pen = canvas.getContext('2d'), probe = document.createElement('i');
  probe.style.color = 'var(--bad)';
  document.body.append(probe);
  const wanted = getComputedStyle(probe).color.match(/\\d+/g).join();
  probe.remove();
  return places.map((place) => {
    const x = Math.min(canvas.width - 1, Math.floor(place / room.file.size * canvas.width + 1));
    return [...pen.getImageData(x, 10, 1, 1).data].slice(0, 3).join() === wanted;
  });
})"""
OPENS = """(async (position, tab) => {
  room.tab = tab;
  await openRecord(position);
  while (document.getElementById('panel')?.dataset.ready !== 'yes') await new Promise((done) => setTimeout(done, 20));
  return document.getElementById('record').innerText;
})"""
ASKS = """(async (uri, date) => {
  await openAsOf(typed(uri), date, true);
  while (document.getElementById('panel')?.dataset.ready === 'no') await new Promise((done) => setTimeout(done, 20));
  return document.getElementById('record').innerText;
})"""
READS = """(async (position) => {
  const row = room.rows.row(position);
  const bytes = [...await headOf(row), ...await bytesAt(row.blockStart, row.blockLength)];
  return btoa(bytes.map((byte) => String.fromCharCode(byte)).join(''));
})"""
CLICKS = """((place) => {
  const strip = document.getElementById('strip'), {left, top} = strip.getBoundingClientRect();
  const clientX = left + place / room.file.size * strip.clientWidth + 1;
  strip.dispatchEvent(new MouseEvent('click', {bubbles: true, clientX, clientY: top + 5}));
  return document.getElementById('status').textContent;
})"""
NEAR_THE_END = "room.file.size * (1 - 3 / document.getElementById('strip').clientWidth)"
MARK = "damaged archive"
MANY = 3000  # damages
AT_ONCE = 100  # lines of damages that are shown
MOST_OPENING = 20  # seconds
SMALL_LIMIT = {"const LIMIT = 2 * 1024 ** 3;": "const LIMIT = 5000;"}
NO_HELPER = {"Math.min(4, navigator.hardwareConcurrency || 1)": "1"}
SEEKS = "piecesBetween(await filled(this.module, seek), seek.sides)"
NEVER = {SEEKS: "await new Promise(() => {})"}
FAILS = {SEEKS: "nowhere"}
IMPATIENT = {**NEVER, "const PATIENCE = 60000;": "const PATIENCE = 900;"}
FILLS = "this.file = this.take(length);"
FULL = {FILLS: f"self.made = (self.made ?? 0) + 1; if (self.made === 2) throw new RangeError('no memory'); {FILLS}"}
A_CAPTURE = "Array.from({length: room.rows.count}, (_, it) => it).find((it) => isCapture(room.rows.row(it)))"
Same = Callable[..., None]


def pieces_of(tests: Any, archive: str) -> list[list[str]]:
    """The columns of the pieces of an archive, as the program prints them."""
    return [line.split("\t") for line in tests.warc("pieces", archive)[0].decode().split("\n")[:-1]]


def place_of(pieces: list[list[str]], offset: int) -> int:
    """Where a byte of the good records is in the file."""
    for name, start, length, _ in pieces:
        if name != "records":
            continue
        if offset < int(length):
            return int(start) + offset
        offset -= int(length)
    raise ValueError(f"{offset} bytes after the good records")


def lines_in_file(tests: Any, archive: str, lines: bytes) -> bytes:
    """The lines of a list of all good records of a damaged archive, with the offsets that they have in it."""
    pieces, placed = pieces_of(tests, archive), []
    for line in lines.split(b"\n")[:-1]:
        position, offset, rest = line.split(b"\t", 2)
        placed.append(b"%s\t%d\t%s\n" % (position, place_of(pieces, int(offset)), rest))
    return b"".join(placed)


def spoilt(record: bytes, at: int = 20) -> bytes:
    """A record with another byte in its head."""
    return record[:at] + b"\0" + record[at + 1 :]


def resource(number: int, block: bytes, after: bytes = b"\r\n\r\n") -> bytes:
    """A resource, with what follows its block."""
    return (
        b"WARC/1.1\r\nWARC-Type: resource\r\nWARC-Record-ID: <urn:x:%d>\r\nWARC-Date: 2026\r\n"
        b"WARC-Target-URI: http://a.example/%d\r\nContent-Type: text/plain\r\n"
        b"Content-Length: %d\r\n\r\n%s%s" % (number, number, len(block), block, after)
    )


def ten_damages(records: list[bytes]) -> bytes:
    """An archive with ten damages, of several kinds: other bytes in a head, in a length, after a block, and zeros."""
    parts, wide = list(records), len(records) // 11
    for number in range(1, 11):
        record = parts[number * wide]
        kinds = (
            spoilt(record),
            record.replace(b"Content-Length: ", b"Content-Length: x", 1),
            record[:-2],
            bytes(len(record)),
        )
        parts[number * wide] = kinds[number % 4]
    return b"".join(parts)


def cases(records: list[bytes]) -> dict[str, bytes]:
    """Damaged archives by their names."""
    plain = b"".join(records)
    front, back = b"".join(records[:6]), b"".join(records[6:])
    return {
        "middle": b"".join([*records[:3], spoilt(records[3]), *records[4:]]),
        "first": spoilt(records[0]) + b"".join(records[1:]),
        "bytes before": b"not a record\r\n" + plain,
        "torn": plain[:-500],
        "torn in the middle": front[:-30] + back,
        "empty lines": front + b"\r\n\r\n" + back,
        "zeros": plain[:2000] + bytes(3000) + plain[5000:],
        "zeros at the end": plain + bytes(4096),
        "an archive in a block": front + resource(1, plain, b"") + back,
        "ten": ten_damages(4 * records),
        "one record": b"\0" * 70 + records[4] + b"\0" * 70,
        "a byte after a long record": resource(1, b"x" * 300_000) + b"\0",
    }


def shows_pieces(tests: Any, browser: Browser, name: str, archive: str) -> None:
    """The damages are those of the program, in words and on the strip."""
    pieces = pieces_of(tests, archive)
    damages = [piece for piece in pieces if piece[0] == "damage"]
    ends = [end for piece in pieces if piece[0] == "records" for end in (int(piece[1]), int(piece[1]) + int(piece[2]))]
    told = browser.run(DAMAGES)
    tests.holds(told == ["\t".join(it) for it in damages], f"pieces, {name}: damages", told)
    tests.holds(browser.run(RUNS) == ends, f"pieces, {name}: runs", browser.run(RUNS))
    said = browser.run(SAID)
    for _, place, length, fault in damages:
        words = f"{int(length):,} byte{'s' if length != '1' else ''} from byte {int(place):,} on: {fault}"
        tests.holds(words in said, f"pieces, {name}: the line of a damage", (words, said))
        meaning = f"{' '.join(fault.split(' ')[:2])}: "
        told = browser.run(ALL_SAID)
        tests.holds(told.count(meaning) == 1, f"pieces, {name}: what its fault means", (meaning, told))
    total = sum(int(it[2]) for it in damages)
    tests.holds(f"{total:,} byte" in said, f"pieces, {name}: how many bytes", said)
    marked = browser.run(f"{STRIP}({json.dumps([int(it[1]) for it in damages])})")
    tests.holds(all(marked), f"pieces, {name}: marks where they lie", marked)
    middles = [int(it[1]) + int(it[2]) // 2 for it in pieces if it[0] == "records" and int(it[2]) > 1000]
    marked = browser.run(f"{STRIP}({json.dumps(middles)})")
    tests.holds(not any(marked), f"pieces, {name}: no marks elsewhere", marked)
    said = browser.run(f"{CLICKS}({damages[-1][1]})")
    last = f"Damage {len(damages)} of {len(damages)}: "
    tests.holds(last in said, f"pieces, {name}: a click on a mark", said)
    browser.run(f"{STATUS} = ''")
    said = browser.run(f"{CLICKS}({NEAR_THE_END})")
    tests.holds((last in said) == (pieces[-1] in damages), f"pieces, {name}: a click near the end", said)


def gives_records(tests: Any, browser: Browser, name: str, archive: str, folder: str) -> None:
    """What is saved is what the program salvages, all of it or some; heads and blocks are those of the file."""
    wanted = tests.warc("salvage", archive, "--all")[0]
    good = save(folder, "salvaged.warc", wanted)
    for button in (SAVE_GOOD, selection.BUTTON):
        called, data = selection.saved(browser, folder, button)
        tests.holds(data == wanted, f"pieces, {name}: saved by {button[-30:]}", (called, len(data), len(wanted)))
    records = records_of(tests, good)
    browser.run("room.order = room.order.filter((it) => it % 3 !== 1); drawSaving()")
    some = b"".join(it for number, it in enumerate(records) if number % 3 != 1)
    called, data = selection.saved(browser, folder)
    tests.holds(data == some, f"pieces, {name}: some records saved", (called, len(data), len(some)))
    browser.run("filter()")
    for position in {0, len(records) // 2, len(records) - 1}:
        mine = base64.b64decode(browser.run(f"{READS}({position})"))
        tests.holds(mine + b"\r\n\r\n" == records[position], f"pieces, {name}: record {position}", mine[:200])


def each_case(tests: Any, folder: str, archives: dict[str, bytes], same: Same) -> None:
    """Each damaged archive: list, verdicts, findings and replays as of what is salvaged; damages and saved bytes."""
    for name, data in archives.items():
        archive = save(folder, f"{name.replace(' ', '-')}.warc", data)
        same(tests, f"pieces, {name}", archive)
        browser: Browser = tests.opened(archive)
        tests.picture(browser, f"pieces-{name.replace(' ', '-')}")
        shows_pieces(tests, browser, name, archive)
        gives_records(tests, browser, name, archive, folder)
        browser.close()


def no_record(tests: Any, folder: str) -> None:
    """Files without a good record: the damage, and nothing else."""
    for name, data in {"zeros": bytes(5000), "text": b"hello\r\n" * 99, "head": resource(1, b"x", b"")}.items():
        archive = save(folder, f"none-{name}.warc", data)
        browser = tests.opened(archive)
        fault, said = pieces_of(tests, archive)[0][3], browser.run(SAID)
        tests.holds(f"can\u2019t be read: {fault}" in said, f"pieces, none of {name}: why", said)
        shown = browser.run("getComputedStyle(document.querySelector('.records')).display")
        tests.holds(shown == "none" and browser.run(SAVE_GOOD) is None, f"pieces, none of {name}: nothing else", shown)
        browser.close()


def marked_answers(tests: Any, folder: str, records: list[bytes]) -> None:
    """Each answer from a damaged archive is marked, and none from a whole one."""
    data = cases(records)
    for name in ("middle", "torn", "whole"):
        browser = tests.opened(save(folder, f"marked-{name}.warc", data.get(name, b"".join(records))))
        told = [browser.run(f"{OPENS}({A_CAPTURE}, '{tab}')") for tab in ("Page", "Record head", "Facts")]
        told.append(browser.run(f"{ASKS}('http://nowhere.example/', '9999')"))
        told.append(browser.run(f"{ASKS}('http://127.0.0.1:8765/', '9999')"))
        marks = [MARK in it for it in told]
        tests.holds(marks == [name != "whole"] * 5, f"pieces: answers of {name} are marked", marks)
        notes = ["may have been in bytes that are damaged" in told[it] for it in (0, 2, 3, 4)]
        tests.holds(notes == [name != "whole"] * 4, f"pieces: answers of {name} say what that means", notes)
        tests.picture(browser, f"pieces-answer-{name}")
        browser.close()


def compressed_and_several(tests: Any, folder: str, records: list[bytes], same: Same) -> None:
    """A damaged archive that is compressed, or is several files: each damage names the file that it is in."""
    damaged = [*records[:3], spoilt(records[3]), *records[4:]]
    plain = save(folder, "plain.warc", b"".join(damaged))
    same(tests, "pieces, compressed", plain, [save(folder, "packed.warc.gz", packed(damaged))])
    names = ["a.warc", "gnp\u202eexe.warc.gz", "z.warc"]
    parts = [b"".join(damaged[:2]), packed(damaged[2:6]), b"".join(damaged[6:])]
    paths = [save(folder, name, part) for name, part in zip(names, parts)]
    same(tests, "pieces, several files", plain, paths)
    browser = tests.opened(*paths)
    said = browser.run(SAID)
    inside = len(records[2])
    words = f"(byte {inside:,} of gnp\u27e8U+202E\u27e9exe.warc.gz, decompressed)"
    tests.holds(words in said and "\u202e" not in said, "pieces, several files: which one is damaged", said)
    browser.close()
    torn = save(folder, "torn.warc.gz", packed(damaged)[:-9])
    browser = tests.opened(torn)
    said = browser.run(SAID)
    tests.holds("2 damages" in said and "F3 Field" in said, "pieces: torn and damaged", said)
    tests.holds(browser.run("room.rows.count") == len(records) - 2, "pieces: torn and damaged, its records")
    browser.close()


def many_damages(tests: Any, folder: str) -> None:
    """Thousands of damages: the page opens, and shows some lines at once, and more of them if they are wanted."""
    data = b"".join(resource(number, b"x") + b"\0" for number in range(MANY))
    begun = time.monotonic()
    browser = tests.opened(save(folder, "many.warc", data))
    took = time.monotonic() - begun
    tests.holds(took < MOST_OPENING, "pieces, many: opened", took)
    tests.holds(browser.run("room.damages.count") == MANY, "pieces, many: damages", browser.run("room.damages.count"))
    tests.holds(browser.run("room.rows.count") == MANY, "pieces, many: records", browser.run("room.rows.count"))
    tests.holds(not browser.run("document.querySelector('#damage details').open"), "pieces, many: folded")
    tests.holds(browser.run(LINES) == AT_ONCE, "pieces, many: lines", browser.run(LINES))
    browser.run("document.querySelector('#damage details').open = true")
    browser.run("document.querySelector('#damage details button').click()")
    tests.holds(browser.run(LINES) == 2 * AT_ONCE, "pieces, many: more lines", browser.run(LINES))
    first = len(resource(0, b"x"))
    said = browser.run(SAID)
    tests.holds(f"1 byte from byte {first:,} on: F1 Version at {first}" in said, "pieces, many: the first", said)
    draw = browser.run("(() => { const begun = performance.now(); drawStrip(); return performance.now() - begun; })()")
    tests.holds(draw < 200, "pieces, many: the strip is drawn quickly", draw)
    print(f"pieces: {MANY} damages opened in {took:.1f} s, the strip drawn in {draw:.0f} ms", flush=True)
    nameless = browser.nameless()
    tests.holds(not nameless, "pieces, many: each control has a name", nameless)
    called, saved = selection.saved(browser, folder, SAVE_GOOD)
    wanted = b"".join(resource(number, b"x") for number in range(MANY))
    tests.holds(saved == wanted, "pieces, many: saved", (called, len(saved)))
    tests.picture(browser, "pieces-many")
    browser.close()


def not_found(tests: Any, folder: str, records: list[bytes]) -> None:
    """Where the pieces aren't looked for, or aren't found, the front is shown, and the page says why."""
    archive = save(folder, "middle.warc", cases(records)["middle"])
    for name, changes, why in (
        ("long", SMALL_LIMIT, "longer than what this page keeps"),
        ("failing", FAILS, "nowhere is not defined"),
        ("endless", IMPATIENT, "answer"),
        ("full", FULL, "no memory"),
    ):
        browser = tests.opened(archive, page=variant(tests.page, f"{folder}/{name}.html", changes))
        said, front = browser.run(SAID), b"".join(records[:3])
        tests.holds(why in said and "Nobody looked for good records" in said, f"pieces, {name}: says why", said)
        tests.holds(browser.run("room.rows.count") == 3, f"pieces, {name}: the front", browser.run("room.rows.count"))
        called, data = selection.saved(browser, folder, SAVE_GOOD)
        tests.holds(data == front, f"pieces, {name}: saved", (called, len(data)))
        browser.close()
    browser = tests.opened(archive, page=variant(tests.page, f"{folder}/alone.html", NO_HELPER))
    tests.holds(browser.run("room.rows.count") == len(records) - 1, "pieces, without helpers: the records")
    browser.close()


def another_archive(tests: Any, folder: str, records: list[bytes]) -> None:
    """While pieces are looked for, another archive can be opened."""
    browser = Browser()
    browser.go(variant(tests.page, f"{folder}/never.html", NEVER))
    browser.give_file("#file", save(folder, "middle.warc", cases(records)["middle"]))
    browser.until(f"{STATUS}.includes('Looking for good records after it')", 20)
    browser.give_file("#file-again", save(folder, "whole.warc.gz", gzip.compress(b"".join(records))))
    browser.until("room.isOpen && room.findings !== null", 20)
    found = browser.run("[room.rows.count, room.damages.count, room.isStopped]")
    tests.holds(found == [len(records), 0, False], "pieces: another archive while they are looked for", found)
    browser.close()


def while_sought(tests: Any, folder: str, records: list[bytes]) -> None:
    """While pieces are looked for, a record is marked already, and nobody says that the archive is too long."""
    browser = Browser()
    browser.go(variant(tests.page, f"{folder}/sought.html", NEVER))
    browser.give_file("#file", save(folder, "middle.warc", cases(records)["middle"]))
    browser.until(f"{STATUS}.includes('Looking for good records after it')", 20)
    told = browser.run(f"{OPENS}({A_CAPTURE}, 'Page')")
    tests.holds(MARK in told, "pieces: a record is marked while they are looked for", told)
    tests.holds("too long" not in told and "still being read" in told, "pieces: why nothing is replayed yet", told)
    browser.run("openAsOf(typed('http://127.0.0.1:8765/'), '9999', true)")
    said = browser.run(STATUS)
    tests.holds("still being read" in said, "pieces: why no question is answered yet", said)
    browser.close()


def pieces(tests: Any, folder: str, crawled: str, same: Same) -> None:
    """All of them."""
    records = records_of(tests, f"{TOP}/examples/crawl.warc")
    each_case(tests, folder, {**cases(records), "a crawl": ten_damages(records_of(tests, crawled))}, same)
    no_record(tests, folder)
    marked_answers(tests, folder, records)
    compressed_and_several(tests, folder, records, same)
    many_damages(tests, folder)
    not_found(tests, folder, records)
    another_archive(tests, folder, records)
    while_sought(tests, folder, records)
