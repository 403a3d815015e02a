"""WACZ packages: a ZIP of archives, with the hashes of what is in it, and lists of pages.

A hash says that the bytes are as they were packed, and not by whom. Signatures aren't checked, no index is read, and
nothing is fetched. No part of this is proved.
"""
import hashlib
import json
import re
from datetime import datetime, timedelta, timezone
from typing import Any, Dict, Iterator, List, NamedTuple, Optional, Sequence, Tuple

from ._members import GZIP, Damaged, Members, Note, Read
from ._zip import MOST_ENTRIES, STORED, BadEntry, BadZip, Entry, content_of, entries_of, part_of, shown

ARCHIVE = re.compile(r"archive/[^/]+\.warc(\.gz|\.zst)?", re.DOTALL)
PACKAGE = re.compile(r"[^/]+\.wacz", re.DOTALL)
HASH = re.compile(r"(sha256|sha512|sha1|md5):([0-9a-f]+)", re.ASCII | re.IGNORECASE)
DATAPACKAGE, DIGEST = "datapackage.json", "datapackage-digest.json"
PAGES = ("pages/pages.jsonl", "pages/extraPages.jsonl")
OF_GZIP, OF_ZSTD = b"\x1f\x8b", b"\x28\xb5\x2f\xfd"
MOST_JSON = MOST_LINE = 16 << 20
MOST_PAGES = 100_000
MOST_URL = 65_536  # bytes: no head of a record holds a longer one
MOST_TITLE = 1_000
RFC3339 = re.compile(
    r"(\d{4})-(\d\d)-(\d\d)[Tt ](\d\d):(\d\d):(\d\d)(?:\.(\d{1,6})\d*)?(?:[Zz]|([+-])(\d\d):(\d\d))", re.ASCII
)
SEVERE, LIGHT = ("bad", "missing"), ("unchecked", "unlisted", "absent")
# The verdicts that come of several statements on a file: the first one counts.
ORDER = ("bad", "unchecked", "good")


class Resource(NamedTuple):
    """What a package says of one of its files, and whether it is so.

    `verdict` is "good" if the bytes have the hash, the number and the CRC that are stated, and "bad" if they haven't;
    "missing" if the file is listed and isn't there; "unchecked" if no hash is stated that is known; "unlisted" if it is
    there and isn't listed. That of `datapackage.json` is by the file `datapackage-digest.json`, and "absent" where that
    isn't there. `stated` is the hash that is stated, if any.
    """

    path: str
    verdict: str
    stated: Optional[str]


class Page(NamedTuple):
    """A page that a package lists, as a place to begin. `instant` and `title` are as they are written there."""

    url: str
    instant: Optional[str]
    title: Optional[str]


class Statement(NamedTuple):
    """What is stated of a file: its hash, and how many bytes it has."""

    hash: Optional[str]
    size: Optional[int]


class Package:
    """A package in a file that is read at offsets. Raises BadZip."""

    def __init__(self, read: Read, size: int) -> None:
        self.read = read
        self.entries: Dict[str, Entry] = {}
        self.roots: List[str] = [""]  # what the names of each package begin with that is in this one
        self._add("", 0, entries_of(read, size))
        for entry in [entry for entry in self.entries.values() if PACKAGE.fullmatch(entry.name)]:
            self._add_package(entry)
        names = sorted(self.entries, key=lambda name: name.encode())
        self.archives = [self.entries[name] for name in names if self._is_archive(name)]
        if not self.archives:
            raise BadZip("NoArchive", "it holds neither archive/*.warc nor archive/*.warc.gz", 0)

    def _add(self, root: str, begin: int, entries: Sequence[Entry]) -> None:
        """Adds entries, whose offsets are those in a part of the file."""
        for entry in entries:
            name = root + entry.name
            at = {"offset": begin + entry.offset, "begin": begin + entry.begin}
            self.entries[name] = entry._replace(name=name, **at)

    def _add_package(self, entry: Entry) -> None:
        """Adds the entries of a package that is in this one."""
        if entry.method != STORED:
            raise BadZip("Coded", f"the package {shown(entry.name)} is compressed", entry.offset)
        root, most = f"{entry.name}/", max(MOST_ENTRIES - len(self.entries), 0)
        try:
            entries = entries_of(part_of(self.read, entry.begin, entry.packed), entry.packed, most)
        except BadZip as bad:
            raise BadZip(bad.fault, f"in {shown(entry.name)}: {bad}", entry.begin + bad.offset) from None
        if any(root + it.name in self.entries for it in entries):
            raise BadZip("Twice", f"a folder has the name of the package {shown(entry.name)}", entry.offset)
        self.roots.append(root)
        self._add(root, entry.begin, entries)

    def _is_archive(self, name: str) -> bool:
        """Whether a name is that of an archive."""
        return any(name.startswith(root) and ARCHIVE.fullmatch(name[len(root) :]) for root in self.roots)

    def file_of(self, name: str) -> Optional[bytes]:
        """The bytes of a file. None if it isn't there, is too long, or is damaged."""
        entry = self.entries.get(name)
        if entry is None or entry.size > MOST_JSON:
            return None
        try:
            return b"".join(content_of(self.read, entry))
        except Damaged:
            return None

    def said(self, root: str = "") -> Dict[str, Any]:
        """What the file datapackage.json says; nothing if it isn't an object of JSON."""
        return _object_of(self.file_of(root + DATAPACKAGE))

    def signer(self, root: str = "") -> Optional[str]:
        """Who a signature names, which isn't checked."""
        signed = _object_of(self.file_of(root + DIGEST)).get("signedData")
        names = [signed.get(key) for key in ("domain", "publicKey")] if isinstance(signed, dict) else []
        return next((name for name in names if isinstance(name, str) and name), None)

    def _statements(self) -> Dict[str, List[Statement]]:
        """What is stated of each file that is listed."""
        found: Dict[str, List[Statement]] = {}
        for root in self.roots:
            listed = self.said(root).get("resources")
            for it in listed if isinstance(listed, list) else []:
                if isinstance(it, dict) and isinstance(it.get("path"), str):
                    found.setdefault(root + it["path"], []).append(_statement(it))
        return found

    def resources(self) -> Iterator[Resource]:
        """The verdict on each file, in the order of their names. Reads the whole package."""
        stated, own = self._statements(), {root + DATAPACKAGE for root in self.roots}
        own |= {root + DIGEST for root in self.roots}
        for name in sorted({*self.entries, *stated}, key=_in_bytes):
            entry = self.entries.get(name)
            if name not in own and not (entry is not None and entry.is_folder):
                yield self._resource(name, entry, stated.get(name, []))
        for root in self.roots:
            yield self._judged_datapackage(root)

    def _resource(self, name: str, entry: Optional[Entry], statements: Sequence[Statement]) -> Resource:
        """The verdict on one file."""
        hashes = [it.hash for it in statements if it.hash is not None]
        stated = hashes[0] if hashes else None
        if entry is None:
            return Resource(name, "missing", stated)
        verdict = _verdict(self.read, entry, statements)
        return Resource(name, verdict if statements or verdict == "bad" else "unlisted", stated)

    def _judged_datapackage(self, root: str) -> Resource:
        """The verdict on datapackage.json, by the file beside it."""
        name, entry = root + DATAPACKAGE, self.entries.get(root + DATAPACKAGE)
        if root + DIGEST not in self.entries:
            return Resource(name, "absent", None)
        stated = _object_of(self.file_of(root + DIGEST)).get("hash")
        return self._resource(name, entry, [Statement(stated if isinstance(stated, str) else None, None)])

    def pages(self) -> "Pages":
        """The pages that the package lists."""
        return Pages(self)


def _in_bytes(name: str) -> bytes:
    """A name from JSON, which may hold halves of characters."""
    return name.encode("utf-8", "surrogatepass")


def _object_of(data: Optional[bytes]) -> Dict[str, Any]:
    """An object of JSON; an empty one if the bytes are none."""
    try:
        value = json.loads(data or b"")
    except (ValueError, RecursionError):
        return {}
    return value if isinstance(value, dict) else {}


def _statement(said: Dict[str, Any]) -> Statement:
    """What a resource says of its file."""
    stated, size = said.get("hash"), said.get("bytes")
    is_number = isinstance(size, int) and not isinstance(size, bool)
    return Statement(stated if isinstance(stated, str) else None, size if is_number else None)


def _digest_of(stated: Optional[str]) -> Optional[Tuple[str, str]]:
    """The algorithm and the digits of a hash, if they are known."""
    found = HASH.fullmatch(stated or "")
    if found is None:
        return None
    algorithm, digits = found[1].lower(), found[2].lower()
    return (algorithm, digits) if len(digits) == 2 * hashlib.new(algorithm).digest_size else None


def _verdict(read: Read, entry: Entry, statements: Sequence[Statement]) -> str:
    """How the bytes of an entry compare with what is stated of them."""
    wanted = [_digest_of(it.hash) for it in statements]
    hashes = {algorithm: hashlib.new(algorithm) for algorithm, _ in filter(None, wanted)}
    try:
        for piece in content_of(read, entry):
            for it in hashes.values():
                it.update(piece)
    except Damaged:
        return "bad"
    if any(it.size not in (None, entry.size) for it in statements):
        return "bad"
    verdicts = {"unchecked" if it is None else _compared(hashes[it[0]].hexdigest(), it[1]) for it in wanted}
    return next((verdict for verdict in ORDER if verdict in verdicts), "unchecked")


def _compared(digits: str, wanted: str) -> str:
    """Whether a digest is the one that is wanted."""
    return "good" if digits == wanted else "bad"


class Unpacked:
    """Gives what an archive holds, in pieces. Raises Damaged, with an offset in the file of the package.

    `whole` is how many bytes are known to be good: those of whole members of gzip, or else all or none. `note` hears of
    each good member, where it is in the file of the package, unless that compressed the archive once more.
    """

    def __init__(self, read: Read, entry: Entry, note: Note = lambda *_places: None) -> None:
        self._read = read
        self._entry = entry
        self._note = note
        self.whole = 0

    def __iter__(self) -> Iterator[bytes]:
        source = content_of(self._read, self._entry)
        first = next(source, b"")
        if first.startswith(OF_ZSTD):
            raise Damaged(self._entry.offset, ValueError("compressed by zstd, which isn't read in a package"))
        pieces = _again(first, source)
        if first.startswith(OF_GZIP):
            yield from self._members(Members(pieces, GZIP, self._noted))
            return
        yield from pieces
        self.whole = self._entry.size

    def _noted(self, offset: int, end: int, begin: int, stop: int) -> None:
        """Passes on where a member is."""
        if self._entry.method == STORED:
            self._note(self._entry.begin + offset, self._entry.begin + end, begin, stop)

    def _members(self, members: Members) -> Iterator[bytes]:
        """What members of gzip hold."""
        try:
            yield from members
        except BadEntry:
            raise
        except Damaged as damaged:
            entry = self._entry
            at = entry.begin + damaged.offset if entry.method == STORED else entry.offset
            raise Damaged(at, damaged.why) from None
        finally:
            self.whole = members.given


def _again(first: bytes, rest: Iterator[bytes]) -> Iterator[bytes]:
    """Pieces, of which the first was taken."""
    yield first
    yield from rest


class Pages:
    """Gives the pages that a package lists: those of pages.jsonl, then those of extraPages.jsonl.

    `others` is how many lines weren't pages, and `is_cut` whether there were more than are given.
    """

    def __init__(self, package: Package) -> None:
        self._package = package
        self.others = 0
        self.is_cut = False

    def __iter__(self) -> Iterator[Page]:
        self.others, self.is_cut, count = 0, False, 0
        for name in PAGES:
            for root in self._package.roots:
                for page in self._pages_in(root + name):
                    self.is_cut = count == MOST_PAGES
                    if self.is_cut:
                        return
                    count += 1
                    yield page

    def _pages_in(self, name: str) -> Iterator[Page]:
        """The pages of one file, unless it is damaged."""
        entry = self._package.entries.get(name)
        if entry is None or not is_whole(self._package.read, entry):
            return
        is_first = True
        for line in lines_of(content_of(self._package.read, entry)):
            page = None if line is None else page_of(line)
            is_head = is_first and line is not None and "format" in _object_of(line)
            is_first = False
            if page is not None:
                yield page
            elif not is_head:
                self.others += 1


def is_whole(read: Read, entry: Entry) -> bool:
    """Whether the bytes of an entry are what the directory says of them."""
    try:
        for _ in content_of(read, entry):
            pass
    except Damaged:
        return False
    return True


def lines_of(pieces: Iterator[bytes]) -> Iterator[Optional[bytes]]:
    """The lines of a file that aren't empty. One that is too long is None."""
    held: List[bytes] = []
    length = 0
    for piece in pieces:
        *ends, rest = piece.split(b"\n")
        for end in ends:
            held.append(end)
            yield from _line(held, length + len(end))
            held, length = [], 0
        length += len(rest)
        if length <= MOST_LINE:
            held.append(rest)
    yield from _line(held, length)


def _line(parts: Sequence[bytes], length: int) -> Iterator[Optional[bytes]]:
    """A line of its parts, unless it is empty."""
    if length > MOST_LINE:
        yield None
        return
    line = b"".join(parts).strip()
    if line:
        yield line


def page_of(line: bytes) -> Optional[Page]:
    """The page of a line, whose text is dropped. None if it isn't one."""
    said = _object_of(line)
    url, instant, title = (_text_of(said.get(name)) for name in ("url", "ts", "title"))
    if url is None or len(url.encode()) > MOST_URL or "\ufffd" in url:
        return None
    return Page(url, instant, None if title is None else title[:MOST_TITLE])


def _text_of(value: object) -> Optional[str]:
    """A text of JSON that isn't empty. Halves of characters, which no bytes spell, are replaced."""
    if not isinstance(value, str) or not value:
        return None
    return value.encode("utf-16", "surrogatepass").decode("utf-16", "replace")


def instant_of(text: Optional[str]) -> Optional[datetime]:
    """The instant of a date as RFC 3339 has it, to the microsecond."""
    found = RFC3339.fullmatch(text or "")
    if found is None:
        return None
    day, time, sign = [int(it) for it in found.group(1, 2, 3)], [int(it) for it in found.group(4, 5, 6)], found[8]
    ahead = timedelta(hours=int(found[9] or 0), minutes=int(found[10] or 0))
    fraction = int((found[7] or "").ljust(6, "0"))
    try:
        local = datetime(day[0], day[1], day[2], time[0], time[1], time[2], fraction, timezone.utc)
        return local + ahead if sign == "-" else local - ahead
    except (ValueError, OverflowError):
        return None
