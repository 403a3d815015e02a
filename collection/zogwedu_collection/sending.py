"""Captured bodies as answers: whole or in part, from memory, from their file, or from one that has them alone."""
from __future__ import annotations

import contextlib
import functools
import os
import threading
from typing import Any, Callable, Iterable, Iterator, Optional, Tuple

from .asking import Asking
from .bodies import Wanted, has_already, opened_again, spooled, tag_of, wanted_of, within
from .catalogue import Catalogue
from .lending import Content, Lent, Reader, Unfit
from .responses import ASKED_EACH_TIME, Headers, Refusal, Response
from .shelf import PATIENCE_SECONDS, Shelf
from .texts import Trouble

# A body of at most this many bytes is read as a whole before any of it is sent.
SMALL = 1 << 20
MOST_BODY = 4 << 30
# Statuses of HTTP that change how an answer is read: they go out as 200.
CHANGING = (204, 205, 206, 304)


class Sender:
    """Reads what captures give, by the program and the archives of a shelf, and sends it."""

    def __init__(self, warc: str, shelf: Shelf, most_decoded: int, is_whole: bool) -> None:
        self.warc = warc
        self.shelf = shelf
        self.is_whole = is_whole
        self.decoded = threading.BoundedSemaphore(most_decoded)

    def temporary_folder(self) -> str:
        return self.shelf.temporary or os.environ.get("TMPDIR") or "/tmp"

    def reader(self, catalogue: Catalogue, asking: Asking) -> Reader:
        return Reader(catalogue, self.warc, self.shelf, asking.judge, self.is_whole)

    def sent(
        self,
        asking: Asking,
        answer: Lent,
        head: Callable[[Content], Headers],
        status: Optional[int] = None,
        *links: Tuple[str, str],
    ) -> Response:
        """An answer with its bytes, and the status that was captured, or another one."""
        with contextlib.ExitStack() as stack:
            if answer.reason is not None:
                stack.enter_context(self.one_decoded())
            archive = stack.enter_context(self.shelf.lent(answer.selection))
            content = given(lambda: answer.own_reader().content(answer, archive), *links)
            stack.callback(content.release)
            if content.length() > MOST_BODY:
                raise Refusal(502, "the body has more than %d bytes" % MOST_BODY, *links)
            headers = [*head(content), ASKED_EACH_TIME, ("Accept-Ranges", "none" if content.is_decoded else "bytes")]
            response = self.with_body(asking, answer, content, status or status_of(content), headers)
        return response

    def with_body(self, asking: Asking, answer: Lent, content: Content, status: int, headers: Headers) -> Response:
        """An answer with the bytes that are wanted of its body, or with none if the reader has them already."""
        length = content.length()
        if status != 200:
            return Response(status, [*headers, *Wanted(0, length).headers(length)], self.body(asking, answer, content))
        tag = tag_of(answer)
        headers.append(("ETag", tag))
        if has_already(asking.field("IF_NONE_MATCH") or "", tag):
            return Response(304, [it for it in headers if not it[0].startswith("Content-")])
        is_range = not content.is_decoded and not asking.is_head() and asking.field("IF_RANGE") in (None, tag)
        wanted = wanted_of(asking.field("RANGE") if is_range else None, length, *headers)
        body = self.body(asking, answer, content, wanted)
        return Response(200 if wanted.is_all else 206, [*headers, *wanted.headers(length)], body)

    def body(self, asking: Asking, answer: Lent, content: Content, wanted: Optional[Wanted] = None) -> Iterable[bytes]:
        """The bytes that are wanted. A short body is in memory. A long one is read from its file again, or from a file
        that has it alone, so that whoever reads it slowly keeps no archive open."""
        first, count = (0, content.length()) if wanted is None else (wanted.first, wanted.count)
        if asking.is_head():
            return []
        pieces = answer.own_reader().pieces(answer, content, first, count)
        if count <= SMALL:
            return list(pieces)
        spans = self.shelf.in_file(answer.selection, content.spans) if content.spans else None
        if spans:
            return opened_again(answer.files[0], within(spans, first, count))
        self.shelf.take_room(count)
        give_back = functools.partial(self.shelf.give_room, count)
        try:
            return spooled(pieces, count, self.temporary_folder(), give_back)
        except BaseException:
            give_back()
            raise

    @contextlib.contextmanager
    def one_decoded(self) -> Iterator[None]:
        """A place for a coded body, which may be decoded in memory: as many as requests at work."""
        if not self.decoded.acquire(timeout=PATIENCE_SECONDS):
            raise Trouble("too many coded bodies at once: try again")
        try:
            yield
        finally:
            self.decoded.release()


def given(ask: Callable[[], Any], *headers: Tuple[str, str]) -> Any:
    """What is asked for, or 502 where its bytes can't be sent."""
    try:
        return ask()
    except Unfit as error:
        raise Refusal(502, str(error), *headers) from None


def status_of(content: Content) -> int:
    """The status that goes out."""
    status = content.status or 200
    return status if 200 <= status <= 599 and status not in CHANGING else 200
