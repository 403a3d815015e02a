"""ZIP files, read strictly: one with any structural fault is refused as a whole.

Readers of ZIP differ in what they make of a file that contradicts itself, so that one shows what another checked not.
This one takes a file only if all that it says agrees. Nothing is ever written by the name of an entry.

No part of this is proved.
"""
import zlib
from struct import Struct
from typing import Iterator, List, NamedTuple, NoReturn, Optional, Sequence, Set

from ._members import PIECE, Damaged, Read

MAGIC = b"PK\3\4"
OF_CENTRAL, OF_END, OF_LOCATOR, OF_END64 = b"PK\1\2", b"PK\5\6", b"PK\6\7", b"PK\6\6"
LOCAL, CENTRAL = Struct("<4s5H3I2H"), Struct("<4s6H3I5H2I")
END, LOCATOR, END64 = Struct("<4s4H2IH"), Struct("<4sIQI"), Struct("<4sQ2H2I4Q")
FIELD, WIDE = Struct("<2H"), Struct("<Q")
MOST_COMMENT = 65535
ONES = 0xFFFFFFFF
ZIP64 = 1
DESCRIPTOR = 12  # bytes that follow an entry at least, where a flag says so
HAS_DESCRIPTOR = 1 << 3
CODED = 1 << 0 | 1 << 6 | 1 << 13
STORED, DEFLATED = 0, 8
RAW_DEFLATE = -15  # the window bits by which zlib reads it
STEP = 1 << 12  # compressed bytes that zlib is given at once
MOST_ENTRIES = 10_000
MOST_DIRECTORY = 16 << 20
MOST_NAME = 1024


class BadZip(Exception):
    """A ZIP is refused: its fault, what is wrong, and at which offset."""

    def __init__(self, fault: str, why: str, offset: int) -> None:
        super().__init__(f"{fault}: {why}")
        self.fault = fault
        self.offset = offset


class Entry(NamedTuple):
    """An entry of a ZIP: where its head and its bytes are, and what they are to become."""

    name: str
    offset: int
    begin: int
    packed: int
    size: int
    crc: int
    flags: int
    method: int

    @property
    def end(self) -> int:
        """Where the next entry may begin."""
        return self.begin + self.packed + (DESCRIPTOR if self.flags & HAS_DESCRIPTOR else 0)

    @property
    def is_folder(self) -> bool:
        """Whether it is a folder, which has no bytes."""
        return self.name.endswith("/")


class _Place(NamedTuple):
    """Where the directory is, and how many entries it has."""

    offset: int
    length: int
    entries: int


def _refuse(fault: str, why: str, offset: int) -> NoReturn:
    raise BadZip(fault, why, offset)


def _bytes(read: Read, count: int, offset: int) -> bytes:
    """Bytes of the file, all of them."""
    data = read(count, offset)
    if len(data) != count:
        _refuse("NoEnd", "the file is shorter than it was", offset)
    return data


def shown(name: str) -> str:
    """A name as a message has it, whatever it holds."""
    return ascii(name if len(name) <= 200 else name[:200] + "..")


def part_of(read: Read, begin: int, length: int) -> Read:
    """Reads a part of a file, whose offsets begin at 0."""
    return lambda count, at: read(max(min(count, length - at), 0), begin + at)


def entries_of(read: Read, size: int, most: int = MOST_ENTRIES) -> List[Entry]:
    """The entries of a ZIP of a size, in the order of its directory. Raises BadZip."""
    place = _place_of(read, size, most)
    entries: List[Entry] = []
    names: Set[str] = set()
    for entry in _directory(_bytes(read, place.length, place.offset), place):
        _judge_name(entry, names)
        _judge_form(entry)
        entries.append(_located(read, entry, place.offset))
    _refuse_overlaps(entries, place.offset)
    return entries


def _end_of(read: Read, size: int) -> int:
    """Where the end of the directory is, whose comment ends with the file."""
    begin = max(size - END.size - MOST_COMMENT, 0)
    tail = _bytes(read, size - begin, begin)
    ends, at = [], tail.find(OF_END)
    while at >= 0:
        if at + END.size <= len(tail) and at + END.size + END.unpack_from(tail, at)[7] == len(tail):
            ends.append(begin + at)
        at = tail.find(OF_END, at + 1)
    if not ends:
        _refuse("NoEnd", "no end of a directory: the file is cut, or no ZIP", size)
    if len(ends) > 1:
        _refuse("TwoEnds", "two ends of a directory", ends[0])
    return ends[0]


def _place_of(read: Read, size: int, most: int) -> _Place:
    """Where the directory is, which both ends have to say in the same way."""
    end = _end_of(read, size)
    _, *numbers, _ = END.unpack(_bytes(read, END.size, end))
    at = end
    locator = _bytes(read, LOCATOR.size, end - LOCATOR.size) if end >= LOCATOR.size else b""
    if locator.startswith(OF_LOCATOR):
        _, disk, at, disks = LOCATOR.unpack(locator)
        if disk or disks > 1:
            _refuse("Spans", "it is on several disks", end - LOCATOR.size)
        numbers = _wide_numbers(read, at, end - LOCATOR.size, numbers)
    disk, disk_of_directory, here, count, length, offset = numbers
    if disk or disk_of_directory or here != count:
        _refuse("Spans", "it is on several disks", end)
    if offset + length != at:
        _refuse("Place", "the directory isn't just before its end", end)
    if count > most or length > MOST_DIRECTORY:
        _refuse("TooMany", f"more than {most} entries, or {MOST_DIRECTORY} bytes of directory", end)
    return _Place(offset, length, count)


def _wide_numbers(read: Read, at: int, locator: int, numbers: Sequence[int]) -> List[int]:
    """The numbers of the end of ZIP64, which those of the other end have to be, or all ones."""
    if at + END64.size != locator:
        _refuse("Place", "the end of ZIP64 isn't where its locator says", locator)
    sign, rest, _, _, *wide = END64.unpack(_bytes(read, END64.size, at))
    if sign != OF_END64 or rest != END64.size - 12:
        _refuse("Place", "the end of ZIP64 isn't where its locator says", at)
    ones = (0xFFFF,) * 4 + (ONES,) * 2
    if any(number not in (its, most) for number, its, most in zip(numbers, wide, ones)):
        _refuse("Place", "the end of ZIP64 differs from the other one", at)
    return list(wide)


def _directory(data: bytes, place: _Place) -> Iterator[Entry]:
    """The entries as the directory has them. `begin` isn't known yet."""
    at = 0
    for _ in range(place.entries):
        offset = place.offset + at
        if at + CENTRAL.size > len(data) or not data.startswith(OF_CENTRAL, at):
            _refuse("Entry", "the directory has fewer entries than it says", offset)
        head = CENTRAL.unpack_from(data, at)
        names = at + CENTRAL.size
        extras = names + head[10]
        at = extras + head[11] + head[12]
        if at > len(data):
            _refuse("Entry", "a head is longer than the directory", offset)
        yield _entry(head, data[names:extras], data[extras : extras + head[11]], offset)
    if at != len(data):
        _refuse("Entry", "the directory has more than its entries", place.offset + at)


def _entry(head: Sequence[int], name: bytes, extra: bytes, offset: int) -> Entry:
    """An entry of its head in the directory."""
    _, _, _, flags, method, _, _, crc, packed, size, _, _, _, disk, _, _, at = head
    if disk:
        _refuse("Spans", "it is on several disks", offset)
    wide = _widened((size, packed, at), extra)
    if wide is None:
        _refuse("Entry", "the fields of ZIP64 don't fit", offset)
    size, packed, at = wide
    return Entry(_text_of(name, offset), at, offset, packed, size, crc, flags, method)


def _widened(numbers: Sequence[int], extra: bytes) -> Optional[List[int]]:
    """Numbers of a head: those that are all ones are in the field of ZIP64, one after another. None if that field isn't
    there, is too short, or is there twice, and if the fields don't fill their place."""
    fields, at = [], 0
    while at < len(extra):
        if at + FIELD.size > len(extra):
            return None
        kind, length = FIELD.unpack_from(extra, at)
        at += FIELD.size + length
        if kind == ZIP64:
            fields.append(extra[at - length : at])
    wanted = sum(number == ONES for number in numbers)
    if at != len(extra) or len(fields) > 1 or (wanted and not fields):
        return None
    if not wanted:
        return list(numbers)
    if len(fields[0]) < wanted * WIDE.size:
        return None
    wide = iter([WIDE.unpack_from(fields[0], WIDE.size * place)[0] for place in range(wanted)])
    return [next(wide) if number == ONES else number for number in numbers]


def _text_of(raw: bytes, offset: int) -> str:
    """The name of an entry: UTF-8, whatever its flags say."""
    try:
        return raw.decode("utf-8")
    except UnicodeDecodeError:
        _refuse("Name", f"{ascii(raw[:200])} isn't UTF-8", offset)


def _judge_name(entry: Entry, names: Set[str]) -> None:
    """Refuses a name that leads elsewhere, and one that is there twice."""
    name = entry.name[:-1] if entry.is_folder else entry.name
    parts = name.split("/")
    is_plain = all(part not in ("", ".", "..") for part in parts) and ":" not in parts[0] and "\\" not in name
    is_plain = is_plain and not any(ord(sign) < 32 or 127 <= ord(sign) < 160 for sign in name)
    if not is_plain or len(name.encode()) > MOST_NAME:
        _refuse("Name", f"{shown(entry.name)} is no name of a file below a folder", entry.begin)
    if name in names:
        _refuse("Twice", f"two entries are named {shown(name)}", entry.begin)
    names.add(name)


def _judge_form(entry: Entry) -> None:
    """Refuses what is coded in a way that isn't read here, and sizes that contradict each other."""
    if entry.flags & CODED or entry.method not in (STORED, DEFLATED):
        _refuse("Coded", f"{shown(entry.name)} is encrypted, or compressed by another method", entry.begin)
    if (entry.method == STORED and entry.size != entry.packed) or (entry.is_folder and entry.size):
        _refuse("Size", f"{shown(entry.name)} is stored, and has two sizes, or is a folder with bytes", entry.begin)


def _located(read: Read, entry: Entry, limit: int) -> Entry:
    """An entry with the place of its bytes, once its own head agrees with the directory."""
    at, why = entry.offset, f"the head of {shown(entry.name)} differs from the directory"
    if at + LOCAL.size > limit:
        _refuse("Local", why, entry.begin)
    sign, _, flags, method, _, _, crc, packed, size, names, extras = LOCAL.unpack(_bytes(read, LOCAL.size, at))
    begin = at + LOCAL.size + names + extras
    if sign != MAGIC or begin > limit or (flags ^ entry.flags) & (CODED | HAS_DESCRIPTOR) or method != entry.method:
        _refuse("Local", why, at)
    texts = _bytes(read, names + extras, at + LOCAL.size)
    wide = _widened((size, packed), texts[names:])
    if wide is None or texts[:names] != entry.name.encode():
        _refuse("Local", why, at)
    for number, its in zip((crc, *wide), (entry.crc, entry.size, entry.packed)):
        if number != its and (number or not flags & HAS_DESCRIPTOR):
            _refuse("Local", why, at)
    return entry._replace(begin=begin)


def _refuse_overlaps(entries: Sequence[Entry], limit: int) -> None:
    """Refuses entries that share bytes, with each other or with the directory."""
    end = 0
    for entry in sorted(entries, key=lambda it: it.offset):
        if entry.offset < end or entry.end > limit:
            _refuse("Overlap", f"{shown(entry.name)} shares bytes with another entry, or the directory", entry.offset)
        end = entry.end


class BadEntry(Damaged):
    """The bytes of an entry aren't what the directory says of them."""


def content_of(read: Read, entry: Entry) -> Iterator[bytes]:
    """What an entry holds, in pieces. Raises BadEntry at the latest after the last of them."""
    crc = length = 0
    for piece in _inflated(read, entry) if entry.method == DEFLATED else _packed(read, entry):
        length += len(piece)
        if length > entry.size:
            raise BadEntry(entry.offset, ValueError("it holds more bytes than the directory says"))
        crc = zlib.crc32(piece, crc)
        yield piece
    if length < entry.size:
        raise BadEntry(entry.offset, ValueError("it holds fewer bytes than the directory says"))
    if crc != entry.crc:
        raise BadEntry(entry.offset, ValueError("its CRC differs"))


def _packed(read: Read, entry: Entry) -> Iterator[bytes]:
    """The bytes of an entry as they are in the file."""
    end = entry.begin + entry.packed
    for at in range(entry.begin, end, PIECE):
        piece = read(min(PIECE, end - at), at)
        if len(piece) < min(PIECE, end - at):
            raise BadEntry(entry.offset, EOFError("the file is shorter than it was"))
        yield piece


def _inflated(read: Read, entry: Entry) -> Iterator[bytes]:
    """The bytes of an entry, inflated."""
    inflater, left = zlib.decompressobj(RAW_DEFLATE), entry.packed
    for data in _packed(read, entry):
        for at in range(0, len(data), STEP):
            try:
                piece = inflater.decompress(data[at : at + STEP])
            except zlib.error as error:
                raise BadEntry(entry.offset, error) from None
            left -= min(STEP, len(data) - at)
            yield piece
            if inflater.eof and (left or inflater.unused_data):
                raise BadEntry(entry.offset, ValueError("other bytes follow what was deflated"))
    if not inflater.eof:
        raise BadEntry(entry.offset, EOFError("what was deflated isn't whole"))
