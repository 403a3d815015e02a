"""A stand-in for the Python package `zogwedu`, so that the room can be tried where the library wasn't built. What it
gives is what the second reading of the format says; it undoes `chunked` alone."""
from __future__ import annotations

import os
import sys
from typing import Any, Dict, List, Optional, Tuple

sys.path.insert(0, os.path.join(os.path.dirname(os.path.abspath(__file__)), "..", "..", "reference"))
import warc_reference as reference  # noqa: E402


class WarcError(Exception):
    """What the package raises."""


class Undecodable(WarcError):
    """A body that can't be decoded."""


class NoBody(WarcError):
    """A capture without a body, and the record that was to give it."""

    def __init__(self, text: str, given: Optional[int]) -> None:
        super().__init__(text)
        self.text = text
        self.given = given


class Headers(Dict[str, str]):
    """The fields of a head, by their names in lower case."""

    def __init__(self, fields: List[Tuple[bytes, bytes]]) -> None:
        self.all = [(name.decode().lower(), value.decode("utf-8", "surrogateescape")) for name, value in fields]
        super().__init__(reversed(self.all))

    def __getitem__(self, name: str) -> str:
        return super().__getitem__(name.lower())

    def __contains__(self, name: object) -> bool:
        return super().__contains__(str(name).lower())

    def get(self, name: str, default: Any = None) -> Any:
        return super().get(name.lower(), default)

    def get_all(self, name: str) -> List[str]:
        return [value for own, value in self.all if own == name.lower()]


class Http:
    """The head of an HTTP response."""

    def __init__(self, block: bytes) -> None:
        head = reference.http_head(block)
        self.status, fields, self.start = head or (0, [], 0)
        self.headers = Headers(fields)


class Body:
    """The body of a capture: where it is, or what it is if it was decoded."""

    def __init__(self, archive: Archive, given: int, spans: List[Tuple[int, int]], http: Optional[Http]) -> None:
        self.archive = archive
        self.given = given
        self.spans = spans
        self.status = http.status if http else None
        self.truncated = False
        self.own: Optional[bytes] = None
        self.undone: Tuple[str, ...] = ()

    @property
    def parts(self) -> List[memoryview]:
        if self.own is not None:
            return [memoryview(self.own)]
        view = memoryview(self.archive.data)
        return [view[offset : offset + length] for offset, length in self.spans if length]

    def __len__(self) -> int:
        return len(self.own) if self.own is not None else sum(length for _, length in self.spans)

    def undo_chunks(self) -> None:
        data, body = b"".join(self.parts), b""
        while data:
            size, _, data = data.partition(b"\r\n")
            count = int(size, 16)
            body, data = body + data[:count], data[count + 2 :] if count else b""
        self.own, self.undone = body, ("chunked",)


def spans_after(parts: List[reference.Record], begin: int) -> List[Tuple[int, int]]:
    """Where the blocks of records are, but for the first bytes of them all."""
    spans = []
    for part in parts:
        left = min(begin, len(part.block))
        spans.append((part.offset + len(part.head) + left, len(part.block) - left))
        begin -= left
    return spans


class Record:
    """A record of an archive."""

    def __init__(self, archive: Archive, position: int) -> None:
        self.archive = archive
        self.record = archive.records[position]
        self.position = position
        self.headers = Headers(self.record.fields)

    @property
    def http(self) -> Optional[Http]:
        return Http(self.record.block) if reference.http_head(self.record.block) else None

    def body(self, decoded: object = False, decoded_limit: int = 0) -> Body:
        """Its body. One that is coded is given where the codings of the transfer are to be undone."""
        given: Optional[int] = None
        try:
            origin = reference.origin_of(self.archive.records, self.record)
            given = origin.position
            stored = self.archive.stored(origin)
            if stored.codings and not decoded:
                raise reference.Reason("P10 Coded")
        except reference.Reason as reason:
            raise NoBody(str(reason), given) from None
        parts = reference.joined(self.archive.records, origin)
        block = b"".join(part.block for part in parts)
        http = Http(block) if reference.is_http_response(origin) else None
        spans = spans_after(parts, http.start if http else 0)
        body = Body(self.archive, origin.position, spans, http)
        if decoded and stored.is_transfer_coded:
            body.undo_chunks()
        return body


class Archive:
    """An archive in memory."""

    def __init__(self, data: Any) -> None:
        self.data = data
        whole = reference.Archive(bytes(data))
        if whole.fault is not None:
            raise WarcError(reference.fault_text(whole.fault))
        self.records = whole.records
        self.known: Dict[int, reference.Stored] = {}

    def stored(self, origin: reference.Record) -> reference.Stored:
        """What is stored of a record, whose digest is judged once."""
        if origin.position not in self.known:
            self.known[origin.position] = reference.stored_of(self.records, origin)
        return self.known[origin.position]

    def __enter__(self) -> Archive:
        return self

    def __exit__(self, *_: object) -> None:
        """Its bytes go with their last user."""

    def __getitem__(self, position: int) -> Record:
        return Record(self, position)
