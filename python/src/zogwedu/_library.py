"""libwarc.so, by ctypes. warc.h documents the calls."""
import ctypes as c
import os
import threading
from itertools import accumulate
from struct import Struct
from typing import Any, Callable, Dict, Iterable, Iterator, List, NamedTuple, Optional, Tuple, Type

from ._problems import BadDate, Changed, Closed, NoBody, NoRecord, NotMade, Refused, WarcError, WriteFailed

ABI_VERSION = 4
FIRST_REASON, LAST_REASON = 101, 110
SEGMENT = 107
BAD_HEAD, CODED = 109, 110
NO_RECORD, NOT_A_CAPTURE, CHANGED, NO_MEMORY, BAD_DATE = 201, 202, 203, 204, 205
WRITE_FAILED = 208
FIRST_UNMADE, LAST_UNMADE = 301, 305
TRUNCATED, LAST_FAULT = 11, 14

U32, U64, SIZE, POINTER, INT = c.c_uint32, c.c_uint64, c.c_size_t, c.c_void_p, c.c_int

# A row as the C struct warc_row has it.
ROW = Struct("@QQQ5I4x")
# How many records one call is asked for that are read one after another.
MANY = 64
# The lines of any head have fewer bytes.
MOST_LINES = 98304
# How much room there is at first for the text of a portion of an output. Most heads are shorter.
FIRST_TEXT = 16384

Field = Tuple[bytes, bytes]
# The fields of a head: a name, its value, the next name, and so on.
Fields = List[str]
# What is kept of a record: the offsets of its head and of its block, the block's length, 1 if it is truncated, and its
# type, date, id and target.
Known = Tuple[int, int, int, int, str, str, str, str]
Spans = List[Tuple[int, int]]
# Has the portion at a cursor put: it takes the archive, the cursor, the portion, a buffer, its length and the problem.
Ask = Callable[..., bool]


class Problem(c.Structure):
    _fields_ = [("code", U32), ("detail", U32), ("number", U64)]


class CPiece(c.Structure):
    _fields_ = [("offset", U64), ("length", U64), ("count", U64), ("fault", Problem)]


class Span(c.Structure):
    _fields_ = [("offset", U64), ("length", U64)]


class Cursor(c.Structure):
    _fields_ = [("place", U64), ("segment", U64)]


class Portion(c.Structure):
    _fields_ = [("before", U64), ("after", U64), ("span", Span), ("next", Cursor)]


class Answer(c.Structure):
    _fields_ = [("chosen", U64), ("given", U64), ("length", U64), ("status", U32), ("is_truncated", U32)]


class CField(c.Structure):
    _fields_ = [("name", POINTER), ("name_length", SIZE), ("value", POINTER), ("value_length", SIZE)]


class CHttp(c.Structure):
    _fields_ = [
        ("status", U32),
        ("minor", U32),
        ("reason", POINTER),
        ("reason_length", SIZE),
        ("fields", SIZE),
        ("body", Span),
    ]


class CBytes(c.Structure):
    _fields_ = [("bytes", POINTER), ("length", SIZE)]


class Draft(c.Structure):
    _fields_ = [(name, CBytes) for name in ("kind", "uri", "date", "uuid", "type", "block")]


class View(c.Structure):
    """The C struct Py_buffer; `rest` is at least as long as its other members."""

    _fields_ = [("address", POINTER), ("owner", c.py_object), ("length", c.c_ssize_t), ("rest", POINTER * 12)]


class HttpHead(NamedTuple):
    """What the library says of an HTTP head."""

    status: int
    minor: int
    reason: bytes
    fields: Fields
    body: Tuple[int, int]


def path_of_library() -> str:
    """Where libwarc.so is: what ZOGWEDU_LIBRARY says, or beside this file."""
    beside = os.path.join(os.path.dirname(os.path.abspath(__file__)), "libwarc.so")
    return os.environ.get("ZOGWEDU_LIBRARY", beside)


def _calls() -> Any:
    """The calls of warc.h: the type that each gives, and those that it takes."""
    problem, answer, spans = c.POINTER(Problem), c.POINTER(Answer), c.POINTER(Span)
    write, positions = [POINTER, INT, c.POINTER(U64), problem], [c.POINTER(U64), SIZE]
    cursor, portion = c.POINTER(Cursor), c.POINTER(Portion)
    text = [POINTER, SIZE, problem]
    return {
        "problem_text": (SIZE, [problem, POINTER, SIZE]),
        "open": (c.c_bool, [c.POINTER(POINTER), POINTER, SIZE, problem]),
        "open_front": (c.c_bool, [c.POINTER(POINTER), POINTER, SIZE, problem, problem]),
        "grow": (c.c_bool, [POINTER, POINTER, SIZE, problem]),
        "close": (None, [POINTER]),
        "count": (SIZE, [POINTER]),
        "length": (SIZE, [POINTER]),
        "rows": (SIZE, [POINTER, SIZE, POINTER, SIZE, POINTER, SIZE, problem]),
        "fields": (SIZE, [POINTER, SIZE, POINTER, SIZE, POINTER, SIZE, problem]),
        "verdict_at": (U32, [POINTER, SIZE, problem]),
        "stated_verdict_at": (U32, [POINTER, SIZE, problem]),
        "payload_verdict_at": (U32, [POINTER, SIZE, problem]),
        "http_at": (c.c_bool, [POINTER, SIZE, c.POINTER(CHttp), problem]),
        "http_field_at": (c.c_bool, [POINTER, SIZE, SIZE, c.POINTER(CField), problem]),
        "captures": (SIZE, [POINTER, c.c_char_p, SIZE, c.POINTER(U64), SIZE, problem]),
        "replay": (SIZE, [POINTER, c.c_char_p, SIZE, c.c_char_p, SIZE, answer, spans, SIZE, problem]),
        "body_at": (SIZE, [POINTER, SIZE, answer, spans, SIZE, problem]),
        "check": (SIZE, [POINTER, POINTER, SIZE, problem]),
        "list": (SIZE, [POINTER, POINTER, SIZE, problem]),
        "fixity": (SIZE, [POINTER, POINTER, SIZE, problem]),
        "pieces": (SIZE, [POINTER, SIZE, c.POINTER(CPiece), SIZE, problem]),
        "rewrite": (c.c_bool, write),
        "convert": (c.c_bool, write),
        "split": (c.c_bool, [POINTER, U64, *write[1:]]),
        "select": (c.c_bool, [POINTER, *positions, c.c_bool, c.c_bool, *write[1:]]),
        "make": (c.c_bool, [c.POINTER(Draft), *write[1:]]),
        "chosen": (SIZE, [POINTER, *positions, c.c_bool, c.c_bool, *positions, problem]),
        "next_rewritten": (c.c_bool, [POINTER, cursor, portion, *text]),
        "next_converted": (c.c_bool, [POINTER, cursor, portion, *text]),
        "next_split": (c.c_bool, [POINTER, U64, cursor, portion, *text]),
        "next_selected": (c.c_bool, [POINTER, *positions, cursor, portion, problem]),
        "made": (c.c_bool, [c.POINTER(Draft), portion, *text]),
    }


def load() -> Any:
    """The library, whose version must be the one that this package knows."""
    path = path_of_library()
    try:
        library = c.CDLL(path)
    except OSError as error:
        raise ImportError(
            f"zogwedu needs the library libwarc.so, and {path} can't be loaded ({error}). `make python` builds both;"
            " the environment variable ZOGWEDU_LIBRARY names a library elsewhere."
        ) from error
    if not hasattr(library, "warc_abi_version"):
        raise ImportError(f"{path} isn't the library libwarc.so of zogwedu: it has no warc_abi_version.")
    library.warc_abi_version.restype = U32
    if library.warc_abi_version() != ABI_VERSION:
        version = library.warc_abi_version()
        raise ImportError(f"{path} has version {version} of its interface, and this package needs {ABI_VERSION}.")
    for name, (result, arguments) in _calls().items():
        if not hasattr(library, "warc_" + name):
            raise ImportError(f"{path} is another libwarc.so than this package needs: it has no warc_{name}.")
        call = getattr(library, "warc_" + name)
        call.restype, call.argtypes = result, arguments
    return library


lib = load()


def problem_text(problem: Problem) -> str:
    """The text of a problem."""
    text = c.create_string_buffer(128)
    length = lib.warc_problem_text(c.byref(problem), text, len(text))
    return c.string_at(text, length).decode("ascii")


def _no_body(text: str, code: int, answer: Optional[Answer]) -> NoBody:
    """The exception for a body that isn't there."""
    if answer is None or code < SEGMENT or code == NOT_A_CAPTURE:
        return NoBody(text, code)
    return NoBody(text, code, answer.chosen, answer.given)


def error_of(problem: Problem, answer: Optional[Answer] = None, sent: int = 0) -> WarcError:
    """The exception for a problem."""
    code, text = problem.code, problem_text(problem)
    if code <= LAST_FAULT:
        return Refused(text, code, problem.number)
    if FIRST_REASON <= code <= LAST_REASON or code == NOT_A_CAPTURE:
        return _no_body(text, code, answer)
    if FIRST_UNMADE <= code <= LAST_UNMADE:
        return NotMade(text, code)
    if code == WRITE_FAILED or sent:
        return WriteFailed(text, code, sent)
    kinds: Dict[int, Type[WarcError]] = {NO_RECORD: NoRecord, CHANGED: Changed, BAD_DATE: BadDate}
    return kinds.get(code, WarcError)(text, code)


def fault_of(problem: Problem, begin: int = 0) -> Optional[Refused]:
    """The exception for a fault, if there is one, in bytes that begin at an offset."""
    problem.number += begin
    return Refused(problem_text(problem), problem.code, problem.number) if problem.code else None


def fault_between(lent: "Lent", begin: int, end: int) -> Optional[Refused]:
    """Why the bytes between two offsets aren't an archive by themselves."""
    at, problem = POINTER(), Problem()
    if lib.warc_open(c.byref(at), (lent.address or 0) + begin, end - begin, c.byref(problem)):
        lib.warc_close(at)
        return None
    if problem.code > LAST_FAULT:
        raise error_of(problem)
    return fault_of(problem, begin)


class Lent:
    """Bytes at an address that stays the same until they are given back."""

    def __init__(self, owner: Any) -> None:
        self.owner = owner
        self._view = View()
        self._take()

    def _take(self) -> None:
        c.pythonapi.PyObject_GetBuffer(c.py_object(self.owner), c.byref(self._view), 0)
        self.address, self.length = self._view.address, self._view.length
        view = memoryview(self.owner)
        self.bytes = view.cast("B") if view.nbytes else memoryview(b"")

    def give_back(self) -> None:
        """Ends the use of the bytes."""
        self.bytes.release()
        c.pythonapi.PyBuffer_Release(c.byref(self._view))

    def take_again(self) -> None:
        """Uses them again."""
        self._take()


def text_of(value: bytes) -> str:
    """Bytes as a text: UTF-8, with `surrogateescape` for other bytes."""
    return value.decode("utf-8", "surrogateescape")


def lines_of(held: bytes) -> List[str]:
    """The lines of bytes, each of which ends with a line feed."""
    if held.isascii():
        return held.decode("ascii").split("\n")[:-1]
    return [text_of(line) for line in held.split(b"\n")[:-1]]


def _field_bytes(field: CField) -> Field:
    return c.string_at(field.name, field.name_length), c.string_at(field.value, field.value_length)


class Opened:
    """An archive of the library, used by one thread at a time. Once it is closed, each call raises Closed."""

    def __init__(self, lent: Lent, front: bool = False) -> None:
        self.lent = lent
        self.lock = threading.RLock()
        self.fault: Optional[Refused] = None
        self._lines = c.create_string_buffer(MOST_LINES)
        self._rows = c.create_string_buffer(ROW.size * MANY)
        self._sizes = (U32 * (2 * MANY))()
        self._sizes_seen = memoryview(self._sizes).cast("B").cast("I")
        # The fields that the last call gave, those of the records from this position on, and the index of each head's
        # first name.
        self._first = 0
        self._fields: Fields = []
        self._begins: List[int] = [0]
        self._at: Optional[int] = None
        at, fault, problem = POINTER(), Problem(), Problem()
        bytes_of = (c.byref(at), lent.address, lent.length)
        if front:
            is_open = lib.warc_open_front(*bytes_of, c.byref(fault), c.byref(problem))
        else:
            is_open = lib.warc_open(*bytes_of, c.byref(problem))
        if not is_open:
            raise error_of(problem)
        self.fault = fault_of(fault)
        self._at = at.value

    def _open(self) -> int:
        """What the calls take. The caller holds the lock."""
        if self._at is None:
            raise Closed("the archive is closed")
        return self._at

    def require_open(self) -> None:
        """Raises Closed if it is closed."""
        with self.lock:
            self._open()

    @property
    def is_open(self) -> bool:
        """Whether it isn't closed."""
        return self._at is not None

    def close(self, give_back: Callable[[Any], bool]) -> bool:
        """Frees what the archive holds, once `give_back` answers that the bytes may go. Else it stays open.

        The lock keeps other threads from reading bytes that go.
        """
        with self.lock:
            if self._at is None:
                return True
            self.lent.give_back()
            if not give_back(self.lent.owner):
                self.lent.take_again()
                return False
            lib.warc_close(self._at)
            self._fields, self._begins = [], [0]
            self._at = self.lent.owner = None
            return True

    def grow(self, lent: Lent) -> Lent:
        """Reads on in longer bytes, and has these from then on. Answers the old ones."""
        problem = Problem()
        with self.lock:
            if not lib.warc_grow(self._open(), lent.address, lent.length, c.byref(problem)):
                raise error_of(problem)
            old, self.lent, self.fault = self.lent, lent, None
            self._fields, self._begins = [], [0]
            return old

    def slice(self, offset: int, length: int) -> memoryview:
        """A part of the bytes."""
        with self.lock:
            self._open()
            return self.lent.bytes[offset : offset + length].toreadonly()

    def count(self) -> int:
        """How many records there are."""
        with self.lock:
            return int(lib.warc_count(self._open()))

    def require(self, *positions: int) -> None:
        """Raises NoRecord for the first of the positions that no record has."""
        count = self.count()
        for position in positions:
            if not 0 <= position < count:
                raise NoRecord(problem_text(Problem(NO_RECORD)), NO_RECORD, position, count)

    def length(self) -> int:
        """How many bytes they have."""
        with self.lock:
            return int(lib.warc_length(self._open()))

    def rows(self, position: int, most: int) -> List[Known]:
        """What is kept of the records from a position on: of at least one, unless there are no more."""
        problem = Problem()
        with self.lock:
            at, room = self._open(), min(most, MANY)
            count = lib.warc_rows(at, position, self._rows, room, self._lines, MOST_LINES, c.byref(problem))
            rows = list(ROW.iter_unpack(self._rows.raw[: ROW.size * count]))
            size = sum([row[3] + row[4] + row[5] + row[6] + 4 for row in rows])
            lines = iter(lines_of(c.string_at(self._lines, size)))
        if problem.code:
            raise error_of(problem)
        return [
            (row[0], row[1], row[2], row[7], kind, date, identity, target)
            for row, kind, date, identity, target in zip(rows, lines, lines, lines, lines)
        ]

    def _verdict(self, call: Any, position: int) -> int:
        """The verdict that a call gives on a record."""
        problem = Problem()
        with self.lock:
            archive = self._open()
            self.require(position)
            verdict = int(call(archive, position, c.byref(problem)))
        if problem.code:
            raise error_of(problem)
        return verdict

    def verdict(self, position: int) -> int:
        """How the block of a record compares with its digest: 0 good, 1 bad, 2 unchecked."""
        return self._verdict(lib.warc_verdict_at, position)

    def stated_verdict(self, position: int) -> int:
        """How the block of a record compares with its digest, by any algorithm that is known."""
        return self._verdict(lib.warc_stated_verdict_at, position)

    def payload_verdict(self, position: int) -> int:
        """How the payload of a record compares with its digest: 0 good, 1 bad, 2 none is stated, then reasons."""
        return self._verdict(lib.warc_payload_verdict_at, position)

    def _http_fields(self, position: int) -> Iterator[Field]:
        """The fields of the HTTP head of a record. The caller holds the lock."""
        field, problem, place = CField(), Problem(), 0
        while lib.warc_http_field_at(self._open(), position, place, c.byref(field), c.byref(problem)):
            yield _field_bytes(field)
            place += 1
        if problem.code:
            raise error_of(problem)

    def fields(self, position: int) -> Fields:
        """The fields of a record's head. Those of the next records are read with them where that was so before."""
        with self.lock:
            self._open()
            at = position - self._first
            if not 0 <= at < len(self._begins) - 1:
                is_next = 0 <= at < len(self._begins) - 1 + MANY
                self._read_heads(position, MANY if is_next else 1)
                at = 0
            return self._fields[self._begins[at] : self._begins[at + 1]]

    def _read_heads(self, position: int, most: int) -> None:
        """Reads the fields of the records from a position on, of at least one. The caller holds the lock."""
        problem = Problem()
        room = (self._sizes, most, self._lines, MOST_LINES)
        count = lib.warc_fields(self._open(), position, *room, c.byref(problem))
        if problem.code:
            raise error_of(problem)
        self.require(position)
        sizes = self._sizes_seen[: 2 * count].tolist()
        begins = list(accumulate([2 * number for number in sizes[::2]], initial=0))
        self._fields = lines_of(c.string_at(self._lines, sum(sizes[1::2])))
        self._first, self._begins = position, begins

    def http(self, position: int) -> Optional[HttpHead]:
        """What the HTTP head of a record's block says, if it has one."""
        http, problem = CHttp(), Problem()
        with self.lock:
            is_there = lib.warc_http_at(self._open(), position, c.byref(http), c.byref(problem))
            if problem.code == BAD_HEAD:
                return None
            if not is_there:
                raise error_of(problem)
            reason = c.string_at(http.reason, http.reason_length)
            fields = [text_of(part) for pair in self._http_fields(position) for part in pair]
        return HttpHead(http.status, http.minor, reason, fields, (http.body.offset, http.body.length))

    def _located(self, ask: Any) -> Tuple[Answer, Spans]:
        """What is said of a body, and its spans. `ask` is called again if there are more than it had room for."""
        room = 4
        while True:
            answer, spans, problem = Answer(), (Span * room)(), Problem()
            with self.lock:
                count = ask(self._open(), c.byref(answer), spans, room, c.byref(problem))
            if problem.code:
                raise error_of(problem, answer)
            if count <= room:
                return answer, [(spans[i].offset, spans[i].length) for i in range(count)]
            room = count

    def replay(self, uri: bytes, date: bytes) -> Tuple[Answer, Spans]:
        """The body for a URI as of a date."""
        try:
            return self._located(lambda at, *rest: lib.warc_replay(at, uri, len(uri), date, len(date), *rest))
        except BadDate as error:
            raise BadDate(error.text, error.code, date) from None

    def body_at(self, position: int) -> Tuple[Answer, Spans]:
        """The body that the capture at a position gives."""
        return self._located(lambda at, *rest: lib.warc_body_at(at, position, *rest))

    def captures(self, uri: bytes) -> List[int]:
        """The positions of the captures of a URI."""
        room = 64
        while True:
            positions, problem = (U64 * room)(), Problem()
            with self.lock:
                count = lib.warc_captures(self._open(), uri, len(uri), positions, room, c.byref(problem))
            if problem.code:
                raise error_of(problem)
            if count <= room:
                return list(positions[:count])
            room = count

    def text(self, name: str) -> bytes:
        """The text that a call gives of the archive, asked for again if it is longer than the buffer."""
        call, room = getattr(lib, "warc_" + name), 65536
        while True:
            text, problem = c.create_string_buffer(room), Problem()
            with self.lock:
                length = call(self._open(), text, room, c.byref(problem))
            if problem.code:
                raise error_of(problem)
            if length <= room:
                return c.string_at(text, length)
            room = length

    def write(self, call: Any, file: int, *which: Any) -> None:
        """Has a call write an output of the archive to a file descriptor."""
        with self.lock:
            at = self._open()
            written(lambda *rest: call(at, *which, file, *rest))

    def select(self, file: int, positions: List[int], except_: bool, closed: bool) -> None:
        """Writes the records at positions, or all others, to a file descriptor; with what they need, if `closed`."""
        self.write(lib.warc_select, file, (U64 * len(positions))(*positions), len(positions), except_, closed)

    def selected(self, positions: List[int], except_: bool, closed: bool) -> Iterator[memoryview]:
        """The parts of the same."""
        problem = Problem()
        with self.lock:
            at, room = self._open(), self.count()
            which, chosen = ((U64 * len(positions))(*positions), len(positions), except_, closed), (U64 * room)()
            count = lib.warc_chosen(at, *which, chosen, room, c.byref(problem))
        if problem.code:
            raise error_of(problem)
        return self.parts(lambda at, cursor, it, *rest: lib.warc_next_selected(at, chosen, count, cursor, it, rest[-1]))

    def parts(self, ask: Ask) -> Iterator[memoryview]:
        """The parts of an output of the archive, in order. Each is good until the next one is asked for."""
        room, cursor, portion, problem = c.create_string_buffer(FIRST_TEXT), Cursor(), Portion(), Problem()
        while True:
            with self.lock:
                at = self._open()
                is_there = ask(at, c.byref(cursor), c.byref(portion), room, len(room), c.byref(problem))
                span = _span_of(portion, self.lent) if is_there else memoryview(b"")
            if problem.code:
                raise error_of(problem)
            if not is_there:
                return
            if portion.before + portion.after <= len(room):
                yield from _parts_of(portion, memoryview(room).cast("B"), span)
                cursor = Cursor(portion.next.place, portion.next.segment)
            else:
                room = c.create_string_buffer(2 * (portion.before + portion.after))


def pieces(lent: Lent) -> List[CPiece]:
    """The pieces of bytes, asked for again if there are more than the buffer has room for."""
    room = 64
    while True:
        found, problem = (CPiece * room)(), Problem()
        count = lib.warc_pieces(lent.address, lent.length, found, room, c.byref(problem))
        if problem.code:
            raise error_of(problem)
        if count <= room:
            return list(found[:count])
        room = count


def written(ask: Any) -> None:
    """Has something written, and raises what went wrong."""
    sent, problem = U64(), Problem()
    if not ask(c.byref(sent), c.byref(problem)):
        if problem.code == NO_MEMORY:
            raise WriteFailed(problem_text(problem), problem.code, sent.value)
        raise error_of(problem, sent=sent.value)


def _span_of(portion: Portion, lent: Lent) -> memoryview:
    """The span of a portion among the bytes that it is of."""
    return lent.bytes[portion.span.offset : portion.span.offset + portion.span.length]


def _parts_of(portion: Portion, text: memoryview, span: memoryview) -> Iterator[memoryview]:
    """The bytes of a portion: its text, with the span in it."""
    yield text[: portion.before]
    yield span
    yield text[portion.before : portion.before + portion.after]


class Making:
    """A record that is made: of its kind, URI, date, UUID and media type, and its block."""

    def __init__(self, texts: Tuple[bytes, ...], block: Lent) -> None:
        self.block = block
        self._texts = texts
        self._draft = Draft()
        for name, text in zip(("kind", "uri", "date", "uuid", "type"), texts):
            setattr(self._draft, name, CBytes(c.cast(c.c_char_p(text), POINTER), len(text)))
        self._draft.block = CBytes(block.address, block.length)

    def write(self, file: int) -> None:
        """Writes it to a file descriptor."""
        written(lambda *rest: lib.warc_make(c.byref(self._draft), file, *rest))

    def parts(self) -> Iterator[memoryview]:
        """Its parts, in order."""
        room, portion, problem = c.create_string_buffer(FIRST_TEXT), Portion(), Problem()
        while lib.warc_made(c.byref(self._draft), c.byref(portion), room, len(room), c.byref(problem)):
            if portion.before + portion.after <= len(room):
                yield from _parts_of(portion, memoryview(room).cast("B"), _span_of(portion, self.block))
                return
            room = c.create_string_buffer(portion.before + portion.after)
        raise error_of(problem)
