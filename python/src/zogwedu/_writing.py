"""Archives and records written to a file."""
import io
import os
import signal
import uuid as uuids
from datetime import date as Day, datetime, timezone
from operator import index
from typing import Any, Callable, Iterable, Iterator, Optional, Union

from . import _library as library
from ._problems import WarcError, WriteFailed

Bytes = Union[bytes, memoryview]
Text = Union[str, bytes]
Date = Union[Text, datetime, Day]
Output = Any  # a binary file object, or the number of a file descriptor
PIECE = 1 << 20


def bytes_of(text: Text, what: str) -> bytes:
    """A text as bytes: UTF-8, and lone surrogates by `surrogateescape`. TypeError says what isn't one."""
    if isinstance(text, str):
        return text.encode("utf-8", "surrogateescape")
    if not isinstance(text, (bytes, bytearray, memoryview)):
        raise TypeError(f"{what} is a text or bytes, not {text!r}")
    return bytes(text)


def date_of(date: Date) -> bytes:
    """A date as bytes. A datetime without a time zone is read as UTC, and a day as its first instant."""
    if isinstance(date, datetime):
        moment = date.astimezone(timezone.utc) if date.tzinfo else date
        return moment.strftime(f"{moment.year:04}-%m-%dT%H:%M:%S.%fZ").encode("ascii")
    if isinstance(date, Day):
        return date.isoformat().encode("ascii")
    return bytes_of(date, "a date is a datetime, a day, or")


def integer_of(number: Any, what: str) -> int:
    """A number as Python's sequences take it. TypeError says what isn't one."""
    try:
        return index(number)
    except TypeError:
        raise TypeError(f"{what} is an integer, not {number!r}") from None


def buffer_of(data: Any, what: str) -> Any:
    """An object whose bytes can be lent. TypeError says what isn't one."""
    try:
        memoryview(data).release()
    except TypeError:
        raise TypeError(f"{what}, not {data!r}") from None
    return data


def _descriptor(out: Output) -> Optional[int]:
    """The descriptor of a plain file, to which bytes may be written past the object; None for any other object, such as
    one that compresses what it is given."""
    if isinstance(out, int):
        return out
    raw = out.raw if type(out) in (io.BufferedWriter, io.BufferedRandom) else out
    return out.fileno() if type(raw) is io.FileIO else None


def _put(piece: Bytes, put: Callable[[Bytes], Optional[int]], sent: int) -> int:
    """Writes a piece after what was sent, and gives how many bytes are sent then."""
    while piece:
        try:
            taken = put(piece)
        except OSError as error:
            raise WriteFailed(f"write failed: {error}", library.WRITE_FAILED, sent) from error
        except MemoryError as error:
            text = library.problem_text(library.Problem(library.NO_MEMORY))
            raise WriteFailed(text, library.NO_MEMORY, sent) from error
        if not taken:
            raise WriteFailed("write failed: nothing was taken", library.WRITE_FAILED, sent)
        sent += taken
        piece = piece[taken:]
    return sent


def _write_quietly(file: int, piece: Bytes) -> int:
    """Writes to a descriptor, and lets no SIGPIPE reach the process, as warc.c does."""
    was_pending = signal.SIGPIPE in signal.sigpending()
    old = signal.pthread_sigmask(signal.SIG_BLOCK, ())
    try:
        signal.pthread_sigmask(signal.SIG_BLOCK, (signal.SIGPIPE,))
        return os.write(file, piece)
    except BrokenPipeError:
        if not was_pending:
            signal.sigtimedwait((signal.SIGPIPE,), 0)
        raise
    finally:
        signal.pthread_sigmask(signal.SIG_SETMASK, old)


def _joined(parts: Iterable[memoryview]) -> Iterator[bytes]:
    """Copies of parts one after another, which an object may keep: short parts joined, and long ones cut."""
    held = bytearray()
    for part in parts:
        for begin in range(0, len(part), PIECE):
            held += part[begin : begin + PIECE]
            if len(held) >= PIECE:
                yield bytes(held)
                held.clear()
    if held:
        yield bytes(held)


def _begin(out: Output) -> Optional[int]:
    """The descriptor of an output, if it is written by that: then what its object holds back is written before."""
    if isinstance(out, io.TextIOBase):
        raise TypeError("an archive is written to a binary file: open it with mode 'wb'")
    file = _descriptor(out)
    if file is not None and not isinstance(out, int):
        try:
            out.flush()
        except OSError as error:
            raise WriteFailed(f"write failed: {error}", library.WRITE_FAILED) from error
    return file


def write_output(out: Output, write: Callable[[int], None], parts: Callable[[], Iterable[memoryview]]) -> None:
    """Has an output written to a file by its descriptor, or its parts to an object."""
    file = _begin(out)
    if file is not None:
        write(file)
    else:
        _write_joined(out, parts())


def _write_joined(out: Output, parts: Iterable[memoryview]) -> None:
    """Writes parts to an object. What goes wrong after a write raises WriteFailed, and so does a failed allocation."""
    sent = 0
    try:
        for piece in _joined(parts):
            sent = _put(piece, out.write, sent)
    except WriteFailed:
        raise
    except WarcError as error:
        if sent == 0 and error.code != library.NO_MEMORY:
            raise
        raise WriteFailed(error.text, error.code, sent) from error


def write_parts(out: Output, parts: Iterable[memoryview]) -> None:
    """Writes parts one after another: to a file by its descriptor, or to an object in copies, which it may keep."""
    file = _begin(out)
    if file is None:
        _write_joined(out, parts)
    else:
        _write_all(file, parts)


def _write_all(file: int, parts: Iterable[memoryview]) -> None:
    """Writes parts one after another to a descriptor."""
    sent = 0
    for part in parts:
        for begin in range(0, len(part), PIECE):
            sent = _put(part[begin : begin + PIECE], lambda piece: _write_quietly(file, piece), sent)


def make(
    out: Output,
    kind: str,
    uri: Text,
    date: Date,
    media_type: Text,
    block: Any,
    *,
    uuid: Union[Text, uuids.UUID, None] = None,
) -> None:
    """Writes one record of WARC/1.1 to a binary file, with the digest of its block.

    `kind` is "resource", "metadata" or "conversion"; `date` a text, a day (`datetime.date`), or a datetime, which is
    read as UTC if it has no time zone; `block` bytes; `uuid` that of its id, a text or a `uuid.UUID`, a random one if
    it is left out. Raises NotMade with M1 to M5 if no record can be made of these, and then nothing is written;
    WriteFailed, whose `sent` is how many bytes went out, if a write fails. Nothing is synced.
    """
    own = uuids.uuid4() if uuid is None else uuid
    identity = str(own) if isinstance(own, uuids.UUID) else own
    texts = (
        bytes_of(kind, "a kind"),
        bytes_of(uri, "a URI"),
        date_of(date),
        bytes_of(identity, "a UUID"),
        bytes_of(media_type, "a media type"),
    )
    lent = library.Lent(buffer_of(block, "a block is bytes"))
    try:
        making = library.Making(texts, lent)
        write_output(out, making.write, making.parts)
    finally:
        lent.give_back()
