"""What captures give, by the Python package zogwedu, over archives that a server keeps open. Which captures are asked,
in which files, is decided as for `replay`."""
from __future__ import annotations

import dataclasses
import hashlib
import re
from typing import Any, Callable, Iterator, List, Optional, Sequence, Tuple

from .captures import Capture
from .catalogue import Catalogue, Known
from .needed import Names, Selection
from .replay import CODED, DISAGREE, Answer, Replayer, check_path, do_agree, names_of
from .shelf import Shelf
from .texts import Stored, Trouble, escaped

PIECE = 1 << 20
# The most bytes of a body from which the transfer codings are undone, since that is done in memory.
MOST_CODED = 64 << 20
# The longest Location that goes out.
MOST_LOCATION = 8 << 10
TOKEN = r"[A-Za-z0-9!#$%&'*+.^_`|~-]{1,100}"
MEDIA = re.compile(r"\s*(%s/%s)(?:\s*;.*?\bcharset\s*=\s*\"?(%s))?" % (TOKEN, TOKEN, TOKEN), re.ASCII | re.IGNORECASE)
CODINGS = re.compile(r"%s(?: *, *%s){0,7}" % (TOKEN, TOKEN), re.ASCII)
UNKNOWN_MEDIA = "application/octet-stream"


@dataclasses.dataclass(frozen=True)
class Lent(Answer):
    """What a capture gives. Its bytes are in an archive of the shelf, in which the record that gives them, or leads to
    it, has the position `at`."""

    at: int = 0
    reader: Optional[Reader] = None
    selection: Selection = Selection(())

    def own_reader(self) -> Reader:
        """What reads its bytes."""
        assert self.reader is not None
        return self.reader

    def fact(self) -> Tuple[Optional[str], str, str, Optional[str]]:
        has_bytes = self.reason is None or self.reason.startswith(CODED)
        digest = self.reader.digest(self) if self.reader is not None and has_bytes else None
        return digest, self.about, self.codings, self.reason


@dataclasses.dataclass(frozen=True)
class Content:
    """The bytes that an answer gives, as parts of an archive, or in memory if they had to be decoded; and what is said
    of them."""

    parts: List[memoryview]
    status: Optional[int]
    media: str
    coding: Optional[str]
    location: Optional[str]
    is_decoded: bool = False
    # Where the parts are in the archive, if they aren't decoded.
    spans: Tuple[Tuple[int, int], ...] = ()

    def length(self) -> int:
        return sum(len(part) for part in self.parts)

    def release(self) -> None:
        """Ends the use of the archive's bytes, which it keeps from being closed."""
        for part in self.parts:
            part.release()


class Unfit(Exception):
    """There are bytes, and they can't be sent as the server sent them: why."""


def media_of(value: Optional[str]) -> str:
    """The media type of a field, with its charset, or the one that says nothing."""
    found = MEDIA.match(value or "")
    if found is None:
        return UNKNOWN_MEDIA
    return found[1] + ("; charset=" + found[2] if found[2] else "")


def coding_of(values: Sequence[str]) -> Optional[str]:
    """The codings of a content, for the field that names them."""
    names = ", ".join(value for value in (it.strip(" \t,") for it in values) if value)
    if not names:
        return None
    if not CODINGS.fullmatch(names):
        raise Unfit("the codings of the content have no names")
    return names


class Reader(Replayer):
    """Gives what captures give. It serves one request."""

    def __init__(
        self,
        catalogue: Catalogue,
        warc: str,
        shelf: Shelf,
        judge: Callable[[Stored, str], None] = lambda _target, _instant: None,
        is_whole: bool = False,
    ) -> None:
        """Before anything is given of a record, `judge` hears its target and its instant, and may raise."""
        super().__init__(catalogue, warc, shelf.temporary, is_whole=is_whole)
        self.shelf = shelf
        self.package = shelf.package
        self.judge = judge

    def body_in(self, capture: Capture, selection: Selection, at: int) -> Answer:
        files = selection.files
        file: Optional[Known]
        with self.shelf.lent(selection) as archive:
            try:
                body = archive[at].body()
            except self.package.NoBody as reason:
                file, position = self.judged(selection, reason.given)
                return Lent(capture, files, None, None, file, position, "", "", reason.text, at, self, selection)
            except self.package.WarcError as error:
                raise Trouble("%s: %s" % (escaped(capture.path), escaped(str(error)))) from None
            file, position = self.judged(selection, body.given)
            words = body.status or "-", "yes" if body.truncated else "no", len(body)
            about = "status %s truncated %s length %d" % words
            return Lent(capture, files, None, None, file, position, about, "", None, at, self, selection)

    def without_body(self, capture: Capture, files: Tuple[Known, ...]) -> Answer:
        return Lent(capture, files, reason=capture.reason, reader=self)

    def judged(self, selection: Selection, given: Optional[int]) -> Tuple[Optional[Known], int]:
        """The record that gives a body, or the reason why there is none, if it may be given: a revisit may lead to a
        record of another URI."""
        if given is None:
            return None, 0
        file, position = selection.record_at(given)
        query = "SELECT target, instant FROM captures WHERE file = ? AND position = ?"
        row = self.catalogue.one(query, (file.file, position))
        if row is not None and row[0] is not None:
            self.judge(row[0], row[1])
        return file, position

    def names_in(self, selection: Selection, at: int) -> Names:
        with self.shelf.lent(selection) as archive:
            return names_of(archive[at].headers)

    def answer(self, captures: Sequence[Capture]) -> Lent:
        """What captures of one instant give, if they agree."""
        answers = self.all_answers(captures)
        self.shelf.note_passed(self.passed)
        if not do_agree(answers):
            raise Unfit("\n".join([DISAGREE, *(answer.described() for answer in answers)]))
        first = answers[0]
        assert isinstance(first, Lent)
        return first

    def digest(self, answer: Lent) -> str:
        """The SHA-256 of the bytes of an answer."""
        digest = hashlib.sha256()
        with self.shelf.lent(answer.selection) as archive:
            content = self.content(answer, archive)
            for part in content.parts:
                digest.update(part)
            content.release()
        return digest.hexdigest()

    def content(self, answer: Lent, archive: Any) -> Content:
        """The bytes of an answer: of a coded body what is left when the transfer codings are undone."""
        try:
            body = archive[answer.at].body(decoded="transfer", decoded_limit=MOST_CODED)
        except self.package.Undecodable as error:
            raise Unfit(str(error)) from None
        except self.package.NoBody as reason:
            raise Unfit("the body is in segments and coded: %s" % reason) from None
        if body.undone not in ((), ("chunked",)):
            raise Unfit("the transfer has a coding other than chunked: %s" % " ".join(body.undone))
        record = archive[body.given]
        spans = () if body.undone else tuple(body.spans)
        if body.status is None:
            media = media_of(record.headers.get("Content-Type"))
            return Content(body.parts, None, media, None, None, spans=spans)
        head = record.http.headers
        coding = coding_of(head.get_all("Content-Encoding")) if answer.reason else None
        location = head.get("Location")
        location = None if location is None or len(location) > MOST_LOCATION else location
        media, is_decoded = media_of(head.get("Content-Type")), bool(body.undone)
        return Content(body.parts, body.status, media, coding, location, is_decoded, spans)

    def pieces(self, answer: Lent, content: Content, first: int, count: int) -> Iterator[bytes]:
        """Bytes of an answer, from the first on. Before each piece is given, its files are those that were read."""
        for part in content.parts:
            begin, end = min(first, len(part)), min(first + count, len(part))
            first, count = max(first - len(part), 0), count - (end - begin)
            for at in range(begin, end, PIECE):
                piece = bytes(part[at : min(at + PIECE, end)])
                for file in answer.files:
                    check_path(file)
                yield piece
