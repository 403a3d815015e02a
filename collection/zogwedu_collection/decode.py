"""Codings of stored bodies, undone by the Python package zogwedu. No part of that is proved."""
from __future__ import annotations

import hashlib
from typing import Tuple

from .package import package_for
from .replay import MOST_READ, Answer, Replayer
from .texts import Trouble, counted, escaped


class Decoder:
    """The Python package zogwedu. A Trouble where it isn't there."""

    def __init__(self) -> None:
        self.package = package_for("--decoded", ("Undecodable",))

    def undo(self, replayer: Replayer, answer: Answer) -> str:
        """Puts the decoded body of an answer in the place of the stored one. Returns a line that says what was undone,
        or no text where there was nothing to undo."""
        if not answer.codings or answer.file is None or answer.body is None:
            return ""
        record = replayer.record(answer.file, answer.position, "; --stored writes them")
        try:
            body, names = self.decoded(record, answer)
        except self.package.WarcError as error:
            raise Trouble("%s; --stored writes it as it is stored" % escaped(str(error))) from None
        answer.body.seek(0)
        answer.body.truncate()
        answer.body.write(body)
        by = "by the Python package zogwedu, which isn't proved"
        return "undone %s, %s: %s" % (" ".join(map(escaped, names)), by, counted(len(body), "byte"))

    def decoded(self, record: bytes, answer: Answer) -> Tuple[memoryview, Tuple[str, ...]]:
        """The decoded body of a record, and the names of the codings. What is decoded must be what the program gave."""
        with self.package.Archive(record) as archive:
            http = archive[0].http
            stored = b"" if http is None else http.stored
            if hashlib.sha256(stored).hexdigest() != answer.digest:
                raise Trouble("the body is in segments; --stored writes it as it is stored")
            body = archive[0].body(decoded=True, decoded_limit=MOST_READ)
            return body.data, tuple(body.undone)
