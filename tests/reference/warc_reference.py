#!/usr/bin/env python3
"""A second reading of the format, to compare the program `warc` with.

It is written from docs/FORMAT.md and docs/PROGRAM.md alone, and favours short code over speed. A whole archive is
in memory. `run` gives what a command writes to standard output and standard error, and its exit status.

    python3 tests/reference/warc_reference.py COMMAND ARCHIVE ARGUMENT..
"""
import base64
import binascii
import hashlib
import re
import sys
from typing import Callable, Dict, List, NamedTuple, Optional, Sequence, Set, Tuple, TypeVar

MAX_HEAD = 65536
MAX_BLOCK = 2**40
MAX_NUMBER = 2**48
MAX_HTTP_FIELDS = 256
VERSIONS = (b"WARC/1.0\r\n", b"WARC/1.1\r\n")

KINDS = ("warcinfo", "response", "resource", "request", "metadata", "revisit", "conversion", "continuation")
CAPTURES = ("response", "resource", "revisit")

# Each row: the field, the kinds that require it, the kinds that forbid it.
TARGETED = ("response", "resource", "request", "revisit", "conversion", "continuation")
NOT_REVISIT = tuple(kind for kind in KINDS if kind != "revisit")
NOT_WARCINFO = tuple(kind for kind in KINDS if kind != "warcinfo")
NOT_CONTINUATION = tuple(kind for kind in KINDS if kind != "continuation")
FIELD_TABLE = (
    ("WARC-Target-URI", TARGETED, ("warcinfo",)),
    ("WARC-Concurrent-To", (), ("warcinfo", "conversion", "continuation")),
    ("WARC-IP-Address", (), ("warcinfo", "conversion", "continuation")),
    ("WARC-Refers-To", (), ("warcinfo", "response", "resource", "request", "continuation")),
    ("WARC-Refers-To-Target-URI", (), NOT_REVISIT),
    ("WARC-Refers-To-Date", (), NOT_REVISIT),
    ("WARC-Filename", (), NOT_WARCINFO),
    ("WARC-Profile", ("revisit",), ()),
    ("WARC-Warcinfo-ID", (), ("warcinfo",)),
    ("WARC-Segment-Number", ("continuation",), ()),
    ("WARC-Segment-Origin-ID", ("continuation",), NOT_CONTINUATION),
    ("WARC-Segment-Total-Length", (), NOT_CONTINUATION),
    ("WARC-Block-Digest", (), ()),
    ("WARC-Payload-Digest", (), ()),
    ("WARC-Truncated", (), ()),
    ("WARC-Identified-Payload-Type", (), ()),
    ("Content-Type", (), ()),
)

PROFILES = tuple(
    b"http://netpreserve.org/warc/%s/revisit/%s" % (version, name)
    for version in (b"1.1", b"1.0")
    for name in (b"identical-payload-digest", b"server-not-modified")
)

TOKEN = re.compile(rb'[^\x00-\x20\x7f-\xff()<>@,;:\\"/\[\]?={}]+')
CONTROL = re.compile(rb"[\x00-\x08\x0a-\x1f\x7f]")
FOLD = re.compile(rb"\r\n[ \t]+")
LINE_END = re.compile(rb"\r\n(?![ \t])")
UUID_ID = re.compile(rb"urn:uuid:[0-9a-f]{8}(-[0-9a-f]{4}){3}-[0-9a-f]{12}", re.IGNORECASE)
SHA1 = re.compile(rb"sha1:([a-z2-7]{32})", re.IGNORECASE)
STATED = re.compile(rb"(md5|sha-?(?:1|256|384|512)):(.*)", re.IGNORECASE | re.DOTALL)
DATE = re.compile(rb"(\d{4})(?:-(\d\d)(?:-(\d\d)(?:T(\d\d):(\d\d)(?::(\d\d)(?:\.(\d{1,9}))?)?Z)?)?)?")
STATUS_LINE = re.compile(rb"HTTP/1\.[01] (\d{3})(?: [\t\x20-\x7e\x80-\xff]*)?")
MEDIA_TYPE = re.compile(rb"[!#$%&'*+\-.^_`|~0-9A-Za-z]+/[!#$%&'*+\-.^_`|~0-9A-Za-z]+")
HTTP_FIELD = re.compile(rb"([!#$%&'*+\-.^_`|~0-9A-Za-z]+):([\t\x20-\x7e\x80-\xff]*)")

Instant = Tuple[int, int, int, int, int, int, int]
Fields = List[Tuple[bytes, bytes]]
Pair = Tuple[bytes, Instant]
Change = Callable[[bytes, bytes], bytes]
Answer = Tuple[bytes, bytes, int]
Value = TypeVar("Value")


class Fault(Exception):
    """The archive is refused: the number and name, and the offset."""

    def __init__(self, name: str, offset: int) -> None:
        super().__init__(name)
        self.name = name
        self.offset = offset


class Reason(Exception):
    """A command gives nothing: the number and name of the reason."""


def judged(value: Optional[Value]) -> Value:
    """A value that is there, since the record was judged before."""
    assert value is not None
    return value


# Values


def number_of(value: bytes, greatest: int) -> Optional[int]:
    """The number that a value holds, or None. Leading zeros are allowed."""
    if re.fullmatch(rb"[0-9]+", value) is None:
        return None
    digits = value.lstrip(b"0")
    if len(digits) > 20:
        return None
    number = int(digits or b"0")
    return number if number <= greatest else None


def days_in_month(year: int, month: int) -> int:
    if month == 2:
        is_leap = year % 4 == 0 and (year % 100 != 0 or year % 400 == 0)
        return 29 if is_leap else 28
    return 30 if month in (4, 6, 9, 11) else 31


def instant_of(value: bytes) -> Optional[Instant]:
    """The instant of a date as a tuple that sorts by time, or None."""
    match = DATE.fullmatch(value)
    if match is None:
        return None
    year, month, day = int(match[1]), int(match[2] or b"1"), int(match[3] or b"1")
    hour, minute, second = int(match[4] or b"0"), int(match[5] or b"0"), int(match[6] or b"0")
    if not 1 <= month <= 12 or not 1 <= day <= days_in_month(year, month):
        return None
    if hour > 23 or minute > 59 or second > 59:
        return None
    return (year, month, day, hour, minute, second, int((match[7] or b"0").ljust(9, b"0")))


def bare_text(value: bytes) -> bytes:
    """The value without one pair of brackets around it, and without the spaces inside them."""
    inside = value[1:-1]
    if (
        len(value) >= 2
        and value.startswith(b"<")
        and value.endswith(b">")
        and b"<" not in inside
        and b">" not in inside
    ):
        value = inside
    return value.strip(b" \t")


def id_of(value: bytes) -> Optional[bytes]:
    """A text that is equal for the same ids, or None where the value holds no id."""
    bare = bare_text(value)
    if not bare or re.search(rb"[<> \t]", bare):
        return None
    return bare.lower() if UUID_ID.fullmatch(bare) else bare


def sha1_text(block: bytes) -> bytes:
    return base64.b32encode(hashlib.sha1(block).digest())


def decoded(text: bytes, length: int) -> Optional[bytes]:
    """The digest of this many bytes that a text in capitals states, in hexadecimal or in base32."""
    is_padded = b"=" in text
    padded = text if is_padded else text + b"=" * (-len(text) % 8)
    is_hexadecimal = len(text) == 2 * length and not is_padded
    try:
        digest = base64.b16decode(text) if is_hexadecimal else base64.b32decode(padded)
    except ValueError:
        return None
    # Python passes over bits that are left over, so the digest is written again.
    written = base64.b32encode(digest)
    texts = (base64.b16encode(digest), written, written.rstrip(b"="))
    return digest if len(digest) == length and text in texts else None


def stated_verdict(value: Optional[bytes], data: bytes) -> str:
    """How bytes compare with the digest that a value states: `good`, `bad` or `unchecked`."""
    match = STATED.fullmatch(value or b"")
    if match is None:
        return "unchecked"
    state = hashlib.new(match.group(1).decode().lower().replace("-", ""), data)
    stated = decoded(match.group(2).upper(), state.digest_size)
    if stated is None:
        return "unchecked"
    return "good" if stated == state.digest() else "bad"


def is_utf8(value: bytes) -> bool:
    try:
        value.decode("utf-8")
    except UnicodeDecodeError:
        return False
    return True


# Records


class Record:
    """A record that can be read: its place, version, fields and block."""

    def __init__(self, position: int, offset: int, version: bytes, fields: Fields, head: bytes, block: bytes) -> None:
        self.position = position
        self.offset = offset
        self.version = version
        self.fields = fields
        self.head = head
        self.block = block
        self.kind = self.kind_of()
        self.id = judged(id_of(self.stated("WARC-Record-ID")))
        self.instant = judged(instant_of(self.stated("WARC-Date")))
        self.target = self.target_of()

    def values(self, name: str) -> List[bytes]:
        wanted = name.lower().encode()
        return [value for field, value in self.fields if field.lower() == wanted]

    def first(self, name: str) -> Optional[bytes]:
        """The value of the first field with a name, or None if it is absent."""
        values = self.values(name)
        return values[0] if values and values[0] else None

    def stated(self, name: str) -> bytes:
        """The value of a field that each record has."""
        return judged(self.first(name))

    def kind_of(self) -> Optional[str]:
        kind = self.stated("WARC-Type").lower().decode("ascii")
        return kind if kind in KINDS else None

    def target_of(self) -> Optional[bytes]:
        value = self.first("WARC-Target-URI")
        return (bare_text(value) or None) if value is not None else None

    def is_absent(self, name: str) -> bool:
        if name == "WARC-Target-URI":
            return self.target is None
        return self.first(name) is None

    def number(self, name: str) -> Optional[int]:
        value = self.first(name)
        return None if value is None else number_of(value, MAX_NUMBER)

    def stated_id(self, name: str) -> Optional[bytes]:
        value = self.first(name)
        return None if value is None else id_of(value)

    def digest_verdict(self) -> str:
        """`good`, `bad` or `unchecked`, by SHA-1 in base32 alone, as findings and replays judge."""
        value = self.first("WARC-Block-Digest")
        match = SHA1.fullmatch(value) if value is not None else None
        if match is None:
            return "unchecked"
        return "good" if match.group(1).upper() == sha1_text(self.block) else "bad"

    def stated_verdict(self) -> str:
        """`good`, `bad` or `unchecked`, by whatever digest is stated."""
        return stated_verdict(self.first("WARC-Block-Digest"), self.block)

    def canonical(self, version: Optional[bytes] = None, change: Optional[Change] = None) -> bytes:
        lines = [version or self.version]
        for name, value in self.fields:
            lines.append(name + b": " + (change(name, value) if change else value) + b"\r\n")
        return b"".join(lines) + b"\r\n" + self.block + b"\r\n\r\n"


def field_of(line: bytes) -> Optional[Tuple[bytes, bytes]]:
    """The name and value of a line without its CRLF, or None."""
    name, colon, rest = line.partition(b":")
    if not colon or TOKEN.fullmatch(name) is None:
        return None
    value = FOLD.sub(b" ", rest).strip(b" \t")
    return None if CONTROL.search(value) else (name, value)


def fields_of(area: bytes, offset: int) -> Fields:
    """The fields of a field area that begins at an offset of the archive."""
    fields: Fields = []
    start = 0
    while start < len(area):
        match = LINE_END.search(area, start)
        field = field_of(area[start : match.start()]) if match else None
        if match is None or field is None:
            raise Fault("F3 Field", offset + start)
        fields.append(field)
        start = match.end()
    return fields


def head_of(data: bytes, start: int) -> bytes:
    """The bytes of the head of the record at an offset."""
    there = data[start : start + 10]
    if not any(version.startswith(there) for version in VERSIONS):
        raise Fault("F1 Version", start)
    end = data.find(b"\r\n\r\n", start, start + MAX_HEAD)
    if end < 0:
        if len(data) - start >= MAX_HEAD:
            raise Fault("F2 HeadTooLong", start)
        raise Fault("F11 Truncated", len(data))
    return data[start : end + 4]


def single(fields: Fields, name: str, start: int) -> bytes:
    """The value of a field that a record has exactly once."""
    values = [value for field, value in fields if field.lower() == name.lower().encode()]
    if not values:
        raise Fault("F4 Missing " + name, start)
    if len(values) > 1:
        raise Fault("F5 Repeated " + name, start)
    return values[0]


def judged_length(fields: Fields, start: int) -> int:
    """The length of the block, after the four fields of every record were judged in their order."""
    length = number_of(single(fields, "Content-Length", start), MAX_BLOCK)
    if length is None:
        raise Fault("F6 Length", start)
    if TOKEN.fullmatch(single(fields, "WARC-Type", start)) is None:
        raise Fault("F7 BadType", start)
    if id_of(single(fields, "WARC-Record-ID", start)) is None:
        raise Fault("F8 Id", start)
    if instant_of(single(fields, "WARC-Date", start)) is None:
        raise Fault("F9 Date", start)
    return length


def read_record(data: bytes, start: int, position: int) -> Record:
    head = head_of(data, start)
    fields = fields_of(head[10:-2], start + 10)
    if 12 + sum(4 + len(name) + len(value) for name, value in fields) > MAX_HEAD:
        raise Fault("F2 HeadTooLong", start)
    length = judged_length(fields, start)
    end = start + len(head) + length
    if end <= len(data) and not b"\r\n\r\n".startswith(data[end : end + 4]):
        raise Fault("F10 End", end)
    if end + 4 > len(data):
        raise Fault("F11 Truncated", len(data))
    return Record(position, start, head[:10], fields, head, data[end - length : end])


class Archive:
    """The records from an offset to the first fault, the fault or None, and the offset where these records end."""

    def __init__(self, data: bytes, start: int = 0) -> None:
        self.data = data
        self.records: List[Record] = []
        self.fault: Optional[Fault] = None
        self.end = start
        try:
            self.read_all()
        except Fault as fault:
            self.fault = fault

    def read_all(self) -> None:
        while self.end < len(self.data):
            record = read_record(self.data, self.end, len(self.records))
            self.records.append(record)
            self.end += len(record.head) + len(record.block) + 4


class Piece(NamedTuple):
    """Good records in a row, or damage: where it begins and ends, its records, and the fault of damage."""

    start: int
    end: int
    records: List[Record]
    fault: Optional[Fault]


def next_good(data: bytes, start: int) -> int:
    """The least offset from one on at which a whole good record begins, or the end of the bytes."""
    for offset in range(start, len(data)):
        if data.startswith(VERSIONS, offset):
            try:
                read_record(data, offset, 0)
                return offset
            except Fault:
                pass
    return len(data)


def pieces_of(data: bytes) -> List[Piece]:
    pieces: List[Piece] = []
    start = 0
    while start < len(data):
        run = Archive(data, start)
        if run.records:
            pieces.append(Piece(start, run.end, run.records, None))
        start = run.end
        if run.fault is not None:
            start = next_good(data, run.end + 1)
            pieces.append(Piece(run.end, start, [], run.fault))
    return pieces


# Findings


def findings_of(record: Record, used: Set[bytes]) -> List[str]:
    """The findings of a record as texts, in their order. `used` holds the ids of the records before it."""
    if record.kind is None:
        return used_id(record, used) + not_utf8(record) + bare_id(record)
    return (
        required(record)
        + forbidden(record)
        + repeated(record)
        + wrong_digest(record)
        + wrong_segment(record)
        + used_id(record, used)
        + no_content_type(record)
        + unknown_profile(record)
        + not_utf8(record)
        + bare_id(record)
        + no_origin(record)
    )


def required(record: Record) -> List[str]:
    return ["N1 " + name for name, kinds, _ in FIELD_TABLE if record.kind in kinds and record.is_absent(name)]


def forbidden(record: Record) -> List[str]:
    return ["N2 " + name for name, _, kinds in FIELD_TABLE if record.kind in kinds and not record.is_absent(name)]


def repeated(record: Record) -> List[str]:
    return ["N3 " + name for name, _, _ in FIELD_TABLE if name != "WARC-Concurrent-To" and len(record.values(name)) > 1]


def wrong_digest(record: Record) -> List[str]:
    return ["N4"] if record.digest_verdict() == "bad" else []


def wrong_segment(record: Record) -> List[str]:
    is_continuation = record.kind == "continuation"
    wrong = False
    if not record.is_absent("WARC-Segment-Number"):
        number = record.number("WARC-Segment-Number")
        wrong = number is None or (number < 2 if is_continuation else number != 1)
    if is_continuation and not record.is_absent("WARC-Segment-Total-Length"):
        wrong = wrong or record.number("WARC-Segment-Total-Length") is None
    return ["N5"] if wrong else []


def used_id(record: Record, used: Set[bytes]) -> List[str]:
    return ["N6"] if record.id in used else []


def no_content_type(record: Record) -> List[str]:
    is_lacking = record.is_absent("Content-Type") and record.block and record.kind != "continuation"
    return ["N7"] if is_lacking else []


def has_known_profile(record: Record) -> bool:
    value = record.first("WARC-Profile")
    return value is not None and bare_text(value) in PROFILES


def unknown_profile(record: Record) -> List[str]:
    is_wrong = record.kind == "revisit" and not record.is_absent("WARC-Profile") and not has_known_profile(record)
    return ["N8"] if is_wrong else []


def not_utf8(record: Record) -> List[str]:
    return ["N9 " + name.decode("ascii") for name, value in record.fields if not is_utf8(value)]


def bare_id(record: Record) -> List[str]:
    value = record.stated("WARC-Record-ID")
    return [] if value.startswith(b"<") and value.endswith(b">") else ["N10"]


def no_origin(record: Record) -> List[str]:
    is_wrong = (
        record.kind == "continuation"
        and not record.is_absent("WARC-Segment-Origin-ID")
        and record.stated_id("WARC-Segment-Origin-ID") is None
    )
    return ["N11"] if is_wrong else []


# Segments


def series_of(records: List[Record], record: Record) -> List[Tuple[int, Record]]:
    """The continuations of a record, each with its number."""
    return [
        (judged(other.number("WARC-Segment-Number")), other)
        for other in records
        if other.kind == "continuation"
        and other.stated_id("WARC-Segment-Origin-ID") == record.id
        and (other.number("WARC-Segment-Number") or 0) >= 2
    ]


def first_absent(numbers: List[int], last: int) -> Optional[int]:
    """The least number from 2 to `last` that isn't there, or None. It doesn't count up to `last`."""
    expected = 2
    for number in sorted(numbers):
        if number != expected:
            break
        expected += 1
    return expected if expected <= last else None


def joined(records: List[Record], record: Record) -> List[Record]:
    """The records whose blocks make the joined block, in order. Raises Reason with a gap."""
    if record.is_absent("WARC-Segment-Number"):
        return [record]
    if record.number("WARC-Segment-Number") != 1:
        raise Reason("P7 Segment G6 Number")
    series = series_of(records, record)
    numbers = [number for number, _ in series]
    twice = [number for number in numbers if numbers.count(number) > 1]
    if twice:
        raise Reason("P7 Segment G1 Repeated %d" % min(twice))
    totals = [
        (number, judged(other.number("WARC-Segment-Total-Length")))
        for number, other in series
        if other.number("WARC-Segment-Total-Length") is not None
    ]
    if not totals:
        raise Reason("P7 Segment G2 Unfinished")
    last, total = min(totals)
    after = [number for number in numbers if number > last]
    if after:
        raise Reason("P7 Segment G3 AfterEnd %d" % min(after))
    absent = first_absent(numbers, last)
    if absent is not None:
        raise Reason("P7 Segment G4 Absent %d" % absent)
    parts = [record] + [other for _, other in sorted(series, key=lambda pair: pair[0])]
    if sum(len(part.block) for part in parts) != total:
        raise Reason("P7 Segment G5 Total")
    return parts


# Captures


def chosen_capture(records: List[Record], target: bytes, moment: Instant) -> Record:
    captures = [record for record in records if record.kind in CAPTURES and record.target == target]
    if not captures:
        raise Reason("P1 NoCapture")
    early = [record for record in captures if record.instant <= moment]
    if not early:
        raise Reason("P2 NotYet")
    return max(early, key=lambda record: (record.instant, record.position))


def pair_of(record: Record) -> Optional[Pair]:
    """The target and instant that a revisit names, or None."""
    target = record.first("WARC-Refers-To-Target-URI")
    date = record.first("WARC-Refers-To-Date")
    if target is None or date is None:
        return None
    bare, instant = bare_text(target), instant_of(date)
    return (bare, instant) if bare and instant is not None else None


def is_stored(record: Record) -> bool:
    return record.kind in ("response", "resource")


def named_referent(records: List[Record], record_id: Optional[bytes], pair: Optional[Pair]) -> Record:
    for record in records:
        if record_id is not None and record.kind in CAPTURES and record.id == record_id:
            return record
    for record in records:
        if pair is not None and is_stored(record) and (record.target, record.instant) == pair:
            return record
    raise Reason("P5 Unresolved")


def same_payload(records: List[Record], revisit: Record) -> Record:
    """The referent of a revisit that names nothing."""
    digest = revisit.first("WARC-Payload-Digest")
    found = [
        record
        for record in records
        if is_stored(record)
        and digest is not None
        and record.first("WARC-Payload-Digest") == digest
        and revisit.target is not None
        and record.target == revisit.target
        and record.instant <= revisit.instant
    ]
    if not found:
        raise Reason("P4 NoReference")
    return max(found, key=lambda record: (record.instant, record.position))


def referent_of(records: List[Record], revisit: Record) -> Record:
    if not has_known_profile(revisit):
        raise Reason("P3 UnknownProfile")
    record_id = revisit.stated_id("WARC-Refers-To")
    pair = pair_of(revisit)
    if record_id is not None or pair is not None:
        return named_referent(records, record_id, pair)
    return same_payload(records, revisit)


def origin_of(records: List[Record], capture: Record) -> Record:
    seen: Set[int] = set()
    while capture.kind == "revisit":
        if capture.position in seen:
            raise Reason("P6 Loop")
        seen.add(capture.position)
        capture = referent_of(records, capture)
    return capture


# Payloads


def http_line(text: bytes, start: int) -> Tuple[Optional[bytes], int]:
    """A line without its end, and where the next one begins; None if it isn't whole."""
    end = text.find(b"\n", start)
    if end < 0:
        return None, start
    line = text[start:end]
    return (line[:-1] if line.endswith(b"\r") else line), end + 1


def http_fields(text: bytes, start: int) -> Tuple[Optional[Fields], int]:
    """The fields of an HTTP head, and where the body begins; None if it is no head."""
    fields: Fields = []
    while True:
        line, start = http_line(text, start)
        if line == b"":
            return fields, start
        match = HTTP_FIELD.fullmatch(line) if line is not None else None
        if match is None or len(fields) == MAX_HTTP_FIELDS:
            return None, start
        fields.append((match.group(1).lower(), match.group(2).strip(b" \t")))


def http_head(block: bytes) -> Optional[Tuple[int, Fields, int]]:
    """The status, the fields, and where the body begins, or None."""
    text = block[:MAX_HEAD]
    line, start = http_line(text, 0)
    while line == b"":
        line, start = http_line(text, start)
    match = STATUS_LINE.fullmatch(line) if line is not None else None
    if match is None:
        return None
    fields, start = http_fields(text, start)
    return None if fields is None else (int(match.group(1)), fields, start)


def codings_of(fields: Fields, names: Sequence[bytes] = (b"transfer-encoding", b"content-encoding")) -> List[bytes]:
    """What is said of the fields that say that a body is coded."""
    return [name + b"=" + value for name, value in fields if name in names and value.lower() not in (b"", b"identity")]


def media_type_of(values: List[bytes]) -> bytes:
    """The media type that the first of the values begins with, or a dash."""
    match = MEDIA_TYPE.match(values[0]) if values else None
    return b"-" if match is None else match.group()


def is_http_response(record: Record) -> bool:
    return (
        record.kind == "response"
        and record.target is not None
        and re.match(rb"https?:", record.target, re.IGNORECASE) is not None
    )


class Stored(NamedTuple):
    """What is stored of a body, and what is said of it."""

    status: str
    media_type: bytes
    codings: List[bytes]
    truncated: str
    body: bytes
    is_transfer_coded: bool


def stored_of(records: List[Record], origin: Record) -> Stored:
    """What is stored of an origin, coded or not. Raises Reason."""
    parts = joined(records, origin)
    if any(part.digest_verdict() == "bad" for part in parts):
        raise Reason("P8 BadDigest")
    body = b"".join(part.block for part in parts)
    truncated = "no" if all(part.is_absent("WARC-Truncated") for part in parts) else "yes"
    if not is_http_response(origin):
        return Stored("-", media_type_of(origin.values("Content-Type")), [], truncated, body, False)
    head = http_head(body)
    if head is None:
        raise Reason("P9 BadHead")
    status, fields, start = head
    media_type = media_type_of([value for name, value in fields if name == b"content-type"])
    coded = bool(codings_of(fields, (b"transfer-encoding",)))
    return Stored(str(status), media_type, codings_of(fields), truncated, body[start:], coded)


def line_of(capture: Record, origin: Record, stored: Stored) -> bytes:
    return (
        "chosen %d given %d status %s truncated %s length %d"
        % (capture.position, origin.position, stored.status, stored.truncated, len(stored.body))
    ).encode()


def payload_of(records: List[Record], capture: Record) -> Tuple[bytes, bytes]:
    """The body that a capture gives, and the line about it. Raises Reason."""
    origin = origin_of(records, capture)
    stored = stored_of(records, origin)
    if stored.codings:
        raise Reason("P10 Coded")
    return stored.body, line_of(capture, origin, stored) + b"\n"


class Payload(NamedTuple):
    """The bytes that a payload digest is compared with, and whether a transfer coding is named."""

    data: bytes
    is_coded: bool


def own_payload(record: Record) -> Optional[Payload]:
    """The payload in the block of a record; None if it has to have an HTTP head, and has none."""
    if not is_http_response(record):
        return Payload(record.block, False)
    head = http_head(record.block)
    if head is None:
        return None
    return Payload(record.block[head[2] :], bool(codings_of(head[1], (b"transfer-encoding",))))


def digest_verdict(record: Record, payload: Optional[Payload]) -> Tuple[str, str]:
    """How a payload compares with the payload digest of a record: the verdict, and why it is unchecked."""
    if not record.is_absent("WARC-Segment-Number"):
        return "unchecked", "segment"
    verdict = stated_verdict(record.first("WARC-Payload-Digest"), payload.data if payload else b"")
    if verdict == "unchecked":
        return verdict, "algorithm"
    if payload is None:
        return "unchecked", "head"
    return ("unchecked", "coded") if verdict == "bad" and payload.is_coded else (verdict, "-")


def payload_verdict(records: List[Record], record: Record) -> Tuple[str, str]:
    """The verdict on the payload of a record with a payload digest, and why it is unchecked."""
    if record.kind == "request":
        return "unchecked", "request"
    if record.kind != "revisit":
        return digest_verdict(record, own_payload(record))
    try:
        stored = stored_of(records, origin_of(records, record))
    except Reason:
        return "unchecked", "revisit"
    return digest_verdict(record, Payload(stored.body, stored.is_transfer_coded))


# Commands. Each takes the archive and its arguments, and gives standard output, standard error and the status.


def list_command(archive: Archive) -> Answer:
    lines = []
    for record in archive.records:
        columns = (
            b"%d" % record.position,
            b"%d" % record.offset,
            b"%d" % len(record.block),
            record.stated("WARC-Type"),
            record.stated("WARC-Date"),
            record.stated("WARC-Record-ID"),
            b"-" if record.target is None else record.target,
        )
        lines.append(b"\t".join(columns) + b"\n")
    return b"".join(lines), b"", 0


def check_command(archive: Archive) -> Answer:
    lines = [] if archive.records else ["- N12\n"]
    used: Set[bytes] = set()
    for record in archive.records:
        lines += ["%d %s\n" % (record.position, finding) for finding in findings_of(record, used)]
        used.add(record.id)
    return "".join(lines).encode(), b"", 1 if lines else 0


def fixity_line(record: Record, verdict: str, *rest: bytes) -> bytes:
    """The line of a record whose digest doesn't match or can't be compared."""
    columns = (b"%d" % record.position, verdict.encode(), bare_text(record.stated("WARC-Record-ID")), *rest)
    return b"\t".join(columns) + b"\n"


def counts_line(verdicts: List[str]) -> bytes:
    counts = tuple(verdicts.count(verdict) for verdict in ("good", "bad", "unchecked"))
    return b"records %d good %d bad %d unchecked %d\n" % ((len(verdicts),) + counts)


def fixity_command(archive: Archive, flag: Optional[bytes] = None) -> Answer:
    if flag is not None:
        return payloads_command(archive)
    verdicts = [record.stated_verdict() for record in archive.records]
    lines = [
        fixity_line(record, verdict, record.first("WARC-Block-Digest") or b"-")
        for record, verdict in zip(archive.records, verdicts)
        if verdict != "good"
    ]
    status = 1 if "bad" in verdicts else 4 if "unchecked" in verdicts else 0
    return b"".join(lines) + counts_line(verdicts), b"", status


def payloads_command(archive: Archive) -> Answer:
    """`fixity --payload`."""
    found = []
    lines = []
    for record in archive.records:
        value = record.first("WARC-Payload-Digest")
        if value is not None:
            verdict, reason = payload_verdict(archive.records, record)
            found.append((verdict, reason))
            if verdict != "good":
                lines.append(fixity_line(record, verdict, reason.encode(), value))
    verdicts = [verdict for verdict, _ in found]
    is_open = not found or any(pair[0] == "unchecked" and pair[1] != "request" for pair in found)
    status = 1 if "bad" in verdicts else 4 if is_open else 0
    return b"".join(lines) + counts_line(verdicts), b"", status


def extract_command(archive: Archive, wanted: bytes) -> Answer:
    wanted_id = id_of(wanted)
    for record in archive.records:
        if wanted_id is not None and record.id == wanted_id:
            return record.block, b"", 0
    raise Reason("E1 NoRecord")


def record_at(archive: Archive, position: bytes) -> Record:
    number = judged(number_of(position, MAX_NUMBER))
    if number >= len(archive.records):
        raise Reason("E1 NoRecord")
    return archive.records[number]


def head_command(archive: Archive, position: bytes) -> Answer:
    return record_at(archive, position).head, b"", 0


def block_command(archive: Archive, position: bytes) -> Answer:
    return record_at(archive, position).block, b"", 0


def replay_command(archive: Archive, target: bytes, date: bytes, flag: Optional[bytes] = None) -> Answer:
    target = target if flag is None else binascii.unhexlify(target)
    capture = chosen_capture(archive.records, target, judged(instant_of(date)))
    body, line = payload_of(archive.records, capture)
    return body, line, 0


def body_command(archive: Archive, position: bytes, flag: Optional[bytes] = None) -> Answer:
    capture = record_at(archive, position)
    if capture.kind not in CAPTURES:
        raise Reason("E2 NoCapture")
    if flag is None:
        body, line = payload_of(archive.records, capture)
        return body, line, 0
    origin = origin_of(archive.records, capture)
    stored = stored_of(archive.records, origin)
    words = [line_of(capture, origin, stored)] + ([b"coded"] + stored.codings if stored.codings else [])
    return stored.body, b" ".join(words) + b"\n", 0


def outcome_of(records: List[Record], capture: Record) -> Tuple[bytes, bytes, bytes, bytes, bytes]:
    """Five columns: the position of the origin, the status, the media type, the length and the reason."""
    try:
        origin = origin_of(records, capture)
    except Reason as reason:
        return b"-", b"-", b"-", b"-", str(reason).encode()
    given = b"%d" % origin.position
    try:
        stored = stored_of(records, origin)
    except Reason as reason:
        return given, b"-", b"-", b"-", str(reason).encode()
    if stored.codings:
        return given, stored.status.encode(), stored.media_type, b"-", b"P10 Coded"
    return given, stored.status.encode(), stored.media_type, b"%d" % len(stored.body), b"-"


def captures_command(archive: Archive, target: Optional[bytes] = None, flag: Optional[bytes] = None) -> Answer:
    target = target if flag is None or target is None else binascii.unhexlify(target)
    captures = [record for record in archive.records if record.kind in CAPTURES]
    if target is not None:
        captures = [record for record in captures if record.target == target]
        captures.sort(key=lambda record: (record.instant, record.position))
    if not captures:
        raise Reason("P1 NoCapture")
    lines = []
    for record in captures:
        columns = (
            b"%d" % record.position,
            record.stated("WARC-Date"),
            b"%04d-%02d-%02dT%02d:%02d:%02d.%09dZ" % record.instant,
            record.stated("WARC-Type"),
            *outcome_of(archive.records, record),
            b"-" if record.target is None else record.target,
        )
        lines.append(b"\t".join(columns) + b"\n")
    return b"".join(lines), b"", 0


def dates_of(records: List[Record]) -> Tuple[bytes, bytes]:
    """The dates of the first and the last record by instant, as they are written."""
    if not records:
        return b"-", b"-"
    dates = [record.stated("WARC-Date") for record in records]
    instants = [record.instant for record in records]
    last = len(instants) - 1 - instants[::-1].index(max(instants))
    return dates[instants.index(min(instants))], dates[last]


def summary_command(archive: Archive) -> Answer:
    records = archive.records
    verdicts = [record.stated_verdict() for record in records]
    kinds = [record.kind or "other" for record in records]
    values = [("records", len(records)), ("bytes", len(archive.data))]
    values += [(kind, kinds.count(kind)) for kind in (*KINDS, "other")]
    values += [("captures", sum(kind in CAPTURES for kind in kinds))]
    values += [(verdict, verdicts.count(verdict)) for verdict in ("good", "bad", "unchecked")]
    for name, field in (("truncated", "WARC-Truncated"), ("segmented", "WARC-Segment-Number")):
        values.append((name, sum(not record.is_absent(field) for record in records)))
    lines = [b"%s\t%d\n" % (name.encode(), value) for name, value in values]
    lines += [b"%s date\t%s\n" % pair for pair in zip((b"first", b"last"), dates_of(records))]
    return b"".join(lines), b"", 0


def survey_command(archive: Archive) -> Answer:
    parts = []
    for name in SURVEYED:
        out, _, _ = run_on(archive, name, ())
        parts.append(b"# %s\n" % name.encode() + out)
    out, _, _ = run_on(archive, "fixity", (b"--payload",))
    parts.append(b"# payloads\n" + out)
    return b"".join(parts), b"", 0


def rewrite_command(archive: Archive) -> Answer:
    return b"".join(record.canonical() for record in archive.records), b"", 0


def bare_target(name: bytes, value: bytes) -> bytes:
    return bare_text(value) if name.lower() == b"warc-target-uri" else value


def convert_command(archive: Archive) -> Answer:
    return b"".join(record.canonical(VERSIONS[1], bare_target) for record in archive.records), b"", 0


def salvage_command(archive: Archive) -> Answer:
    saved = archive.data[: archive.end]
    counts = "%d records, %d bytes\n" % (len(archive.records), archive.end)
    if archive.fault is None:
        return saved, ("warc: good " + counts).encode(), 0
    return saved, fault_line(archive.fault) + ("warc: salvaged " + counts).encode(), 2


def columns_of(piece: Piece) -> Tuple[str, str, str, str]:
    """The columns of a piece: its name, offset and length, and how many records it has, or its fault."""
    last = str(len(piece.records)) if piece.fault is None else fault_text(piece.fault)
    return "records" if piece.fault is None else "damage", str(piece.start), str(piece.end - piece.start), last


def pieces_command(data: bytes) -> Answer:
    pieces = pieces_of(data)
    lines = ["\t".join(columns_of(piece)) + "\n" for piece in pieces]
    return "".join(lines).encode(), b"", 2 if any(piece.fault for piece in pieces) else 0


def salvage_all_command(data: bytes) -> Answer:
    pieces = pieces_of(data)
    saved = b"".join(data[piece.start : piece.end] for piece in pieces if piece.fault is None)
    lines = ["warc: %s\n" % " ".join(columns_of(piece)) for piece in pieces if piece.fault is not None]
    counts = "%d records, %d bytes\n" % (sum(len(piece.records) for piece in pieces), len(saved))
    last = "warc: %s %s" % ("salvaged" if lines else "good", counts)
    return saved, ("".join(lines) + last).encode(), 2 if lines else 0


COMMANDS: Dict[str, Callable[..., Answer]] = {
    "list": list_command,
    "check": check_command,
    "fixity": fixity_command,
    "extract": extract_command,
    "head": head_command,
    "block": block_command,
    "replay": replay_command,
    "body": body_command,
    "captures": captures_command,
    "rewrite": rewrite_command,
    "convert": convert_command,
    "summary": summary_command,
    "survey": survey_command,
}
# The commands of a survey, in its order. `fixity --payload` is its last part.
SURVEYED = ("list", "fixity", "check", "summary", "captures")


def fault_text(fault: Fault) -> str:
    return "%s at %d" % (fault.name, fault.offset)


def fault_line(fault: Fault) -> bytes:
    return ("warc: %s\n" % fault_text(fault)).encode()


def is_hex(word: bytes) -> bool:
    return re.fullmatch(rb"([0-9A-Fa-f]{2})*", word) is not None


def bad_argument(command: str, arguments: Sequence[bytes]) -> Optional[bytes]:
    """The line about an argument that is refused before the archive is read, or None."""
    if command in ("head", "block", "body") and number_of(arguments[0], MAX_NUMBER) is None:
        return b"warc: bad position\n"
    if "--uri-hex" in [argument.decode("latin-1") for argument in arguments] and not is_hex(arguments[0]):
        return b"warc: bad hex\n"
    if command == "replay" and instant_of(arguments[1]) is None:
        return b"warc: bad date\n"
    return None


def run_on(archive: Archive, command: str, arguments: Sequence[bytes]) -> Answer:
    """What a command gives over an archive that was read: output, message, status."""
    line = bad_argument(command, arguments)
    if line is not None:
        return b"", line, 3
    if command == "pieces":
        return pieces_command(archive.data)
    if command == "salvage":
        return salvage_all_command(archive.data) if b"--all" in arguments else salvage_command(archive)
    if archive.fault is not None:
        return b"", fault_line(archive.fault), 2
    try:
        return COMMANDS[command](archive, *arguments)
    except Reason as reason:
        return b"", ("warc: %s\n" % reason).encode(), 1


def run(command: str, data: bytes, arguments: Sequence[bytes] = ()) -> Answer:
    return run_on(Archive(data), command, list(arguments))


def main(words: List[str]) -> int:
    with open(words[1], "rb") as file:
        data = file.read()
    out, message, status = run(words[0], data, [word.encode() for word in words[2:]])
    sys.stdout.buffer.write(out)
    sys.stderr.buffer.write(message)
    return status


if __name__ == "__main__":
    sys.exit(main(sys.argv[1:]))
