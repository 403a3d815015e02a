"""Archives, their records and bodies."""
import os
import threading
from collections.abc import Sequence
from typing import Any, Callable, Iterable, Iterator, List, Literal, NamedTuple, NoReturn, Optional, Tuple
from typing import TYPE_CHECKING, Union, overload

from ._decoding import CONTENT, DECODED_LIMIT, TRANSFER, codings_of, decode
from ._files import Contents, Upon, path_of, read_object, read_path, refuse_same, unmap
from ._joined import archive_at, counts_of, open_joined
from ._heads import Headers, Http
from ._library import CODED, MANY, TRUNCATED, Known, Lent, Opened, Spans, lib, text_of
from ._problems import Closed, CompressedError, NoBody, Refused, Undecodable, ViewsAlive
from ._writing import Date, Output, Text, buffer_of, bytes_of, date_of, integer_of, write_output

if TYPE_CHECKING:
    Records = Sequence["Record"]
    Path = Union[str, "os.PathLike[str]"]
else:
    Records = Sequence

Decoding = Union[bool, Literal["transfer"]]

VERDICTS = ("good", "bad", "unchecked")
# The reasons why a payload is unchecked, by their numbers in warc.h, and the number before them.
NO_DIGEST = 2
REASONS = ("revisit", "request", "segment", "algorithm", "head", "coded")


class Finding(NamedTuple):
    """What is wrong with a record that can be read: `number` is N1 to N12, `field` the field that it is about.

    `position` is None for N12, an archive without records.
    """

    position: Optional[int]
    number: str
    field: Optional[str]


class UnfitBlock(NamedTuple):
    """A block that its digest doesn't fit ("bad"), or that can't be checked ("unchecked")."""

    position: int
    verdict: str
    id: str
    digest: Optional[str]


class Fixity(NamedTuple):
    """How the blocks of an archive compare with their digests; `blocks` are those that aren't good."""

    records: int
    good: int
    bad: int
    unchecked: int
    blocks: List[UnfitBlock]


class PayloadVerdict(NamedTuple):
    """How a payload compares with the digest that its record states: "good", "bad" or "unchecked".

    `reason` says why it is unchecked, and is None otherwise. It is the first of these that fits: "revisit", the revisit
    gives no body; "request", the record is a request; "segment", the record is a part of one, by its
    `WARC-Segment-Number`; "algorithm", the value states no digest of an algorithm that is known; "head", the block of
    an HTTP response begins with no HTTP head; "coded", the digest differs, and a `Transfer-Encoding` says that the
    payload is coded.
    """

    verdict: str
    reason: Optional[str]


class Body:
    """A body, or what is stored of a coded one.

    `chosen` and `given` are the positions of the chosen capture and of the record that gives the body; `status` is the
    status of the HTTP response, None if the record isn't one; `truncated` says that a record of it isn't whole;
    `undone` lists the codings that were undone, none unless `decoded=True` was asked for.
    """

    def __init__(
        self,
        archive: "Archive",
        chosen: int,
        given: int,
        status: Optional[int],
        truncated: bool,
        spans: Spans,
        own: Optional[bytes] = None,
        undone: Tuple[str, ...] = (),
    ) -> None:
        self._archive = archive
        self._own = own
        self.chosen = chosen
        self.given = given
        self.status = status
        self.truncated = truncated
        self.spans = spans
        self.undone = undone

    @property
    def parts(self) -> List[memoryview]:
        """Its bytes, one view for each span that isn't empty, without a copy."""
        if self._own is not None:
            return [memoryview(self._own)]
        return [self._archive._slice(offset, length) for offset, length in self.spans if length]

    @property
    def data(self) -> memoryview:
        """Its bytes: without a copy, unless they are in several spans."""
        parts = self.parts
        if len(parts) == 1:
            return parts[0]
        return memoryview(b"".join(parts))

    def __bytes__(self) -> bytes:
        return b"".join(self.parts)

    def __len__(self) -> int:
        return len(self._own) if self._own is not None else sum(length for _, length in self.spans)

    def __repr__(self) -> str:
        undone = f", undone {', '.join(self.undone)}" if self.undone else ""
        return f"<zogwedu.Body of {len(self)} bytes, chosen {self.chosen}, given {self.given}{undone}>"


class Record:
    """A record of an archive: `position`, `type`, `date`, `id`, `target` (None if absent), `offset` of its head and
    `length` of its block in bytes, and `truncated`. `headers`, `http`, `verdict`, `head`, `block` and `body()` read the
    archive.

    Records of one archive are equal where their positions are. Texts are decoded as UTF-8, with `surrogateescape` for
    other bytes: `text.encode("utf-8", "surrogateescape")` gives the bytes.
    """

    __slots__ = (
        "_archive",
        "position",
        "offset",
        "length",
        "type",
        "date",
        "id",
        "target",
        "truncated",
        "_block",
        "_verdict",
    )

    def __init__(self, archive: "Archive", position: int, known: Known) -> None:
        offset, block, length, is_truncated, kind, date, identity, target = known
        self._archive = archive
        self._block = block
        self.position = position
        self.offset = offset
        self.length = length
        self.type = kind
        self.date = date
        self.id = identity
        self.target: Optional[str] = target or None
        self.truncated = bool(is_truncated)
        self._verdict: Optional[str] = None

    @property
    def verdict(self) -> str:
        """How its block compares with the digest that its head states: "good", "bad" or "unchecked".

        SHA-1 in base32 is judged alone; `Archive.stated_verdict` and `Archive.fixity` judge other digests too. The
        block is hashed when this is read for the first time; the answer is kept.
        """
        if self._verdict is None:
            self._verdict = VERDICTS[self._archive._use().verdict(self.position)]
        return self._verdict

    @property
    def head(self) -> memoryview:
        """Its head, from the version line to the empty line, as it is stored."""
        return self._archive._slice(self.offset, self._block - self.offset)

    @property
    def block(self) -> memoryview:
        """Its block, as it is stored."""
        return self._archive._slice(self._block, self.length)

    @property
    def headers(self) -> Headers:
        """The fields of its head. They are made each time that this is read.

        In a loop over records the heads of the next 63 are read together with one.
        """
        return Headers(self._archive._use().fields(self.position))

    @property
    def http(self) -> Optional[Http]:
        """The head of the HTTP response that its block begins with; None if it begins with no such head."""
        head = self._archive._use().http(self.position)
        return None if head is None else Http(self._archive, head)

    def body(self, decoded: Decoding = False, *, decoded_limit: int = DECODED_LIMIT) -> Body:
        """The body that this capture gives: the record's own, or the body of the record that a revisit leads to.

        Raises NoBody if there is none, with the reason P3 to P10, or if the record is no capture. `decoded=True` undoes
        the codings of a body that is stored chunked or compressed, and says in `undone` which these were; that isn't
        part of what is proved. Undecodable says that a coding is unknown, that its bytes are damaged, that there are
        more than 8 codings, or that one of them gives more than `decoded_limit` bytes. A coded body in segments raises
        NoBody. `decoded="transfer"` undoes what `Transfer-Encoding` names, and leaves the content as it is coded.
        """
        opened = self._archive._use()
        return self._archive._body(lambda: opened.body_at(self.position), decoded, decoded_limit)

    def __eq__(self, other: object) -> bool:
        if not isinstance(other, Record):
            return NotImplemented
        return self._archive is other._archive and self.position == other.position

    def __hash__(self) -> int:
        return hash((id(self._archive), self.position))

    def __repr__(self) -> str:
        return f"<zogwedu.Record {self.position} {self.type} {self.date} {self.target or '-'}>"


class Archive(Records):
    """An open archive. `Archive.open(path)` opens a file, `Archive(data)` bytes.

    It is a sequence of its records: `len(archive)`, `archive[position]`, `archive[2:5]`, `record in archive`,
    `for record in archive`. It may be used by several threads, whose calls wait for each other; open one for each
    thread to have them run at the same time. Once it is closed, each use raises Closed, also in other threads.
    """

    def __init__(
        self,
        data: Any,
        *,
        front: bool = False,
        _path: Optional[str] = None,
        _mapped: bool = False,
        _contents: Contents = Contents(None),
    ) -> None:
        self._path = _path
        self._wants_mapping = _mapped
        self._contents = _contents._replace(data=None)
        self._growing = threading.Lock()
        self._opened: Optional[Opened] = None
        lent = Lent(buffer_of(data, "Archive(data) takes bytes, and Archive.open(path) a file"))
        try:
            self._opened = open_joined(lent, front, _contents.parts)
        except BaseException:
            lent.give_back()
            unmap(data)
            raise

    @classmethod
    def open(cls, file: Union["Path", Any], *, mmap: bool = True, front: bool = False) -> "Archive":
        """Opens a file by its path, or reads a binary file object such as `sys.stdin.buffer` to its end.

        Raises Refused with the first fault and its offset. With `front=True` it opens the records before the first
        fault, which is then `archive.fault`.

        A file that begins as the output of gzip or zstd does is decompressed first, into a file without a name in the
        folder that TMPDIR names, which needs the room: nothing else limits what a small file may become. Offsets are
        those of the uncompressed bytes. Raises CompressedError if a member is damaged or torn; `front=True` opens what
        the members before it hold. The undoing isn't part of what is proved.

        A package (WACZ) is opened as all archives in it, one after another in the order of their names; `source` says
        which of them has a record. A ZIP that contradicts itself raises CompressedError. `Wacz` says what a package has
        beside its archives.

        A path is mapped into memory. A read of a mapped file that fails kills the process by SIGBUS: where the file
        became shorter, and where its disk or network fails. `mmap=False` reads the file into memory instead, all of it.
        """
        upon = Upon.END if front else Upon.RAISE
        if hasattr(file, "read"):
            contents = read_object(file, mmap, upon)
            return cls(contents.data, front=front, _contents=contents)
        path = path_of(file, "Archive(data)")
        contents = read_path(path, mmap, upon)
        return cls(contents.data, front=front, _path=path, _mapped=mmap, _contents=contents)

    @property
    def compressed(self) -> Optional[str]:
        """How the file was compressed that was opened: "gzip" or "zstd"; "wacz" for a package; None if it wasn't."""
        return self._contents.compressed

    def source(self, position: int) -> Optional[str]:
        """The name of the archive in a package that has the record at a position; None for a file that is no package.

        Raises NoRecord if the position isn't that of a record.
        """
        return archive_at(self._contents.parts, self[position].offset)

    def _counts(self) -> List[int]:
        """How many records each archive of a package has."""
        return counts_of(self._use(), self._contents.parts)

    @property
    def fault(self) -> Union[Refused, CompressedError, None]:
        """The fault after the records, if the archive was opened with `front=True` and isn't whole.

        It is a CompressedError if the file is damaged as a compressed one. If that leaves a part of a record, it is the
        Refused of this record, and the CompressedError is its cause.
        """
        fault, damage = self._use().fault, self._contents.damage
        if fault is None:
            return damage
        if fault.code == TRUNCATED:
            fault.__cause__ = damage
        return fault

    @property
    def length(self) -> int:
        """How many bytes its records have, from the first byte on."""
        return self._use().length()

    def _use(self) -> Opened:
        if self._opened is None:
            raise Closed("the archive is closed")
        return self._opened

    def _slice(self, offset: int, length: int) -> memoryview:
        return self._use().slice(offset, length)

    def close(self) -> None:
        """Closes the archive. Closing again does nothing.

        Raises ViewsAlive, and leaves it open, if memoryviews of a mapped file are in use: release them
        (`view.release()`) or copy them (`bytes(view)`) first. Views of bytes in memory stay valid. The end of `with`
        never raises it: there the archive is closed, and a mapping goes with its last view.
        """
        if self._opened is not None and not self._opened.close(unmap):
            raise ViewsAlive("memoryviews of the archive are in use")

    def _close_for_good(self) -> None:
        """Closes it. A mapping goes now, or with the last view."""
        opened = getattr(self, "_opened", None)
        if opened is not None:
            opened.close(lambda data: unmap(data) or True)

    def __enter__(self) -> "Archive":
        self._use().require_open()
        return self

    def __exit__(self, *_exception: object) -> None:
        self._close_for_good()

    def __del__(self) -> None:
        self._close_for_good()

    def __reduce__(self) -> NoReturn:
        raise TypeError("an archive can't be copied or pickled: open it again")

    def __len__(self) -> int:
        return self._use().count()

    def _record(self, position: int) -> Record:
        opened = self._use()
        for known in opened.rows(position, 1):
            return Record(self, position, known)
        opened.require(position)
        raise AssertionError("a record has no row")

    @overload
    def __getitem__(self, position: int) -> Record:
        ...

    @overload
    def __getitem__(self, position: slice) -> List[Record]:
        ...

    def __getitem__(self, position: Union[int, slice]) -> Union[Record, List[Record]]:
        count = len(self)
        if isinstance(position, slice):
            return [self._record(number) for number in range(*position.indices(count))]
        wanted = integer_of(position, "a position")
        number = wanted + count if -count <= wanted < 0 else wanted
        self._use().require(number)
        return self._record(number)

    def __iter__(self) -> Iterator[Record]:
        position, opened = 0, self._use()
        while True:
            rows = opened.rows(position, MANY)
            if not rows:
                return
            for known in rows:
                if not opened.is_open:
                    opened.require_open()
                yield Record(self, position, known)
                position += 1

    def __contains__(self, record: object) -> bool:
        return isinstance(record, Record) and record._archive is self and record.position < len(self)

    def replay(
        self,
        uri: Text,
        date: Date,
        *,
        decoded: Decoding = False,
        decoded_limit: int = DECODED_LIMIT,
    ) -> Body:
        """The body that was captured of a URI, as of a date: the latest capture that isn't later has it.

        A date is a text such as "2021", "2021-06-30" or "2021-06-30T12:00:00Z"; a `datetime.date`, which is the first
        instant of that day; or a datetime, which is read as UTC if it has no time zone. Raises BadDate if the text is
        no date, and NoBody with the reason P1 to P10 if there is no body; it never gives an older capture in its place.
        For `decoded` see `Record.body`.
        """
        opened, words = self._use(), (bytes_of(uri, "a URI"), date_of(date))
        return self._body(lambda: opened.replay(*words), decoded, decoded_limit)

    def captures(self, uri: Text) -> List[Record]:
        """The captures of a URI: responses, resources and revisits, by date, then by position."""
        return [self[position] for position in self._use().captures(bytes_of(uri, "a URI"))]

    def stated_verdict(self, position: int) -> str:
        """How the block of a record compares with the digest that its head states: "good", "bad" or "unchecked".

        The digest is the one that the first `WARC-Block-Digest` states. As `Archive.fixity` does, this judges MD5,
        SHA-1, SHA-256, SHA-384 and SHA-512, in hexadecimal or base32; `Record.verdict` judges SHA-1 in base32 alone.
        The block is hashed each time. Raises NoRecord if the position isn't that of a record, as one below 0, and
        Changed.
        """
        return VERDICTS[self._use().stated_verdict(integer_of(position, "a position"))]

    def payload_verdict(self, position: int) -> Optional[PayloadVerdict]:
        """How the payload of a record compares with the digest that its head states; None if it states none.

        The digest is the one that the first `WARC-Payload-Digest` states, in the algorithms of `stated_verdict`. The
        payload of an HTTP response is what follows its HTTP head, as it is stored; of another record it is the block;
        of a revisit it is what its replay gives. The verdict is what `warc fixity --payload` prints. The payload is
        hashed each time. Raises NoRecord if the position isn't that of a record, as one below 0, and Changed.
        """
        number = self._use().payload_verdict(integer_of(position, "a position"))
        if number == NO_DIGEST:
            return None
        if number < NO_DIGEST:
            return PayloadVerdict(VERDICTS[number], None)
        return PayloadVerdict("unchecked", REASONS[number - NO_DIGEST - 1])

    def check(self) -> List[Finding]:
        """What is wrong with records that can be read."""
        return [_finding(line) for line in self._use().text("check").decode("ascii").split("\n")[:-1]]

    def list_text(self) -> bytes:
        """The lines that `warc list` writes."""
        return self._use().text("list")

    def fixity(self) -> Fixity:
        """How the blocks compare with the digests that their heads state. Reads the whole archive."""
        *lines, counts = text_of(self._use().text("fixity")).split("\n")[:-1]
        numbers = [int(word) for word in counts.split(" ")[1::2]]
        blocks = [_unfit(line) for line in lines]
        return Fixity(numbers[0], numbers[1], numbers[2], numbers[3], blocks)

    def grow(self) -> int:
        """Reads on in a file that became longer, and answers how many records it has more.

        Raises Refused, and leaves the archive as it was, if what follows is damaged, or isn't whole yet; Changed if the
        file is shorter than the archive, or if the head of the last record isn't what it was. Only an archive that was
        opened by its path grows. Its file is mapped or read, as when it was opened, and decompressed anew from its
        beginning if it is compressed: CompressedError leaves the archive as it was, too.
        """
        if self._path is None:
            raise ValueError("only an archive that was opened by its path can grow")
        if self._contents.parts:
            raise ValueError("a package doesn't grow")
        with self._growing:
            opened = self._use()
            before = opened.count()
            contents = read_path(self._path, self._wants_mapping, Upon.RAISE)
            lent = Lent(contents.data)
            try:
                old = opened.grow(lent)
            except BaseException:
                lent.give_back()
                unmap(contents.data)
                raise
            old.give_back()
            unmap(old.owner)
            self._contents = contents._replace(data=None)
            return opened.count() - before

    def _body(self, ask: Callable[[], Any], decoded: Decoding, limit: int) -> Body:
        names = _fields_of(decoded)
        try:
            answer, spans = ask()
        except NoBody as reason:
            if not names or reason.code != CODED:
                raise
            return self._decoded(reason, names, limit)
        return Body(self, answer.chosen, answer.given, answer.status or None, bool(answer.is_truncated), spans)

    def _decoded(self, reason: NoBody, names: Tuple[str, ...], limit: int) -> Body:
        """The body of a response that is stored coded, with the codings undone that the fields of these names have."""
        if reason.chosen is None or reason.given is None:
            raise reason
        origin = self[reason.given]
        http = origin.http
        if http is None or origin.headers.get("WARC-Segment-Number"):
            raise reason
        codings = codings_of(http.headers.fields, names)
        if not codings:
            spans = [(http.offset, http.length)]
            return Body(self, reason.chosen, reason.given, http.status, origin.truncated, spans)
        try:
            own = decode(http.stored, codings, limit)
        except Undecodable as error:
            raise error from reason
        return Body(self, reason.chosen, reason.given, http.status, origin.truncated, [], own, tuple(codings))

    def rewrite(self, out: Output) -> None:
        """Writes the archive in canonical form to a binary file.

        A plain file is flushed and then written by its descriptor; any other object gets the bytes in pieces. Raises
        WriteFailed, whose `sent` is how many bytes went out, if a write fails. Nothing is synced. Raises ValueError,
        and writes nothing, if the file is the one that the archive was opened from; one that is opened by mode "wb"
        has been emptied before.
        """
        self._write(out, lib.warc_rewrite, lib.warc_next_rewritten)

    def convert(self, out: Output) -> None:
        """Writes the archive as one of WARC/1.1, in the same way."""
        self._write(out, lib.warc_convert, lib.warc_next_converted)

    def split(self, out: Output, size: int) -> None:
        """Writes the archive with its records split into segments of `size` bytes, in the same way."""
        number = integer_of(size, "a size")
        if not 0 < number < 1 << 64:
            raise ValueError(f"a segment has from 1 to 2^64 - 1 bytes, not {number}")
        self._write(out, lib.warc_split, lib.warc_next_split, number)

    def select(self, out: Output, positions: Iterable[int], *, except_: bool = False, closed: bool = False) -> None:
        """Writes the records at positions, or with `except_` all others, byte for byte, in the same way.

        The positions come in any order, and any of them may be there twice: each record is written once, in the
        archive's order. Raises NoRecord if a position isn't that of a record, and then writes nothing. A position
        below 0 is no record's.

        With `closed` answers stay. With each record all that it needs is written: the records on the way to its
        origin, and the segments of all these. With `except_` as well, no record is written that needs one of those
        at the positions. Then each capture that is written gives what it gives among all records.

        What is written is an archive. Without `closed` a revisit in it may give another reason than before, or the
        body of another record that fits (the same id, URI and date, or digest), and a segmented record another gap,
        or a body, if a record that it leads to is left out. Neither keeps what a replay chooses among captures of a
        URI, nor warcinfo and request records.
        """
        opened = self._use()
        chosen = [integer_of(position, "a position") for position in positions]
        opened.require(*chosen)
        refuse_same(self._contents.source, out)
        write_output(
            out,
            lambda file: opened.select(file, chosen, except_, closed),
            lambda: opened.selected(chosen, except_, closed),
        )

    def _write(self, out: Output, to_file: Any, next_portion: Any, *size: int) -> None:
        """Has an output written: to a file by one call, or to an object portion by portion by another."""
        opened = self._use()
        refuse_same(self._contents.source, out)
        write_output(
            out,
            lambda file: opened.write(to_file, file, *size),
            lambda: opened.parts(lambda at, *rest: next_portion(at, *size, *rest)),
        )

    def __repr__(self) -> str:
        if self._opened is None or not self._opened.is_open:
            return "<zogwedu.Archive, closed>"
        return f"<zogwedu.Archive {self._path or 'of bytes'}, {len(self)} records>"


def _fields_of(decoded: Decoding) -> Tuple[str, ...]:
    """The fields whose codings are undone. What isn't True, False or "transfer" is refused."""
    if isinstance(decoded, bool):
        return (TRANSFER, CONTENT) if decoded else ()
    if decoded == "transfer":
        return (TRANSFER,)
    kind = ValueError if isinstance(decoded, str) else TypeError
    raise kind(f"decoded is True, False or 'transfer', not {decoded!r}")


def _finding(line: str) -> Finding:
    """A line of `warc check`: the position or `-`, the number, and the field, if it is about one."""
    position, number, *field = line.split(" ", 2)
    return Finding(None if position == "-" else int(position), number, field[0] if field else None)


def _unfit(line: str) -> UnfitBlock:
    """A line of `warc fixity`: the position, the verdict, the id, and the digest, which alone may have tabs."""
    position, verdict, identity, digest = line.split("\t", 3)
    return UnfitBlock(int(position), verdict, identity, None if digest == "-" else digest)
