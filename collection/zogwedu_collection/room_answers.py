"""The answers to the script of the reading room, as JSON, or as bytes that no browser shows."""
from __future__ import annotations

import json
from typing import Tuple

from .asking import Asking, Route
from .choosing import chosen, refuse_without_body
from .desks import Desks, name_of
from .hosts import Site
from .lending import Content, Lent
from .memento import NotOne, instants_of, target_in
from .near import as_rows, near_captures, targets_below
from .program import BadDate, instant_of
from .responses import FORBIDS_ALL, Headers, Response, as_json
from .search_room import Finder, Hosts, tree_answer
from .sending import Sender, given
from .texts import Stored, escaped
from .timemaps import Seen
from .wacz import pages_from

# How many targets are found that begin with a text.
MOST_FOUND = 200
# A longer text is no date, and the program isn't asked.
MOST_OF_DATE = 100


class RoomAnswers:
    """Answers the room's script."""

    def __init__(self, site: Site, desks: Desks, sender: Sender, finder: Finder) -> None:
        self.site = site
        self.desks = desks
        self.sender = sender
        self.finder = finder
        self.hosts = Hosts()

    def routes(self) -> Tuple[Tuple[str, str, Route], ...]:
        """The kinds of questions: the beginning of the path, a name, and what answers."""
        return (
            ("/room/answer/", "answer", self.answer),
            ("/room/found/", "found", self.found),
            ("/room/near/", "near", self.near),
            ("/room/pages/", "pages", self.listed_pages),
            ("/room/instant/", "instant", self.instant),
            ("/search/json", "search", self.search),
            ("/search/json?", "search", self.search),
            ("/room/hosts", "hosts", self.all_hosts),
            ("/room/tree/", "tree", self.tree),
        )

    def answer(self, asking: Asking, text: str) -> Response:
        """What the collection gives of a URI as of a date, for the room's script: bytes that no browser shows."""
        digits, _, uri = text.partition("/")
        instants, target = instants_of(digits), asking.target(uri)
        with self.desks.one(asking.noted) as catalogue:
            captures = chosen(catalogue, asking, target, instants, True)
            found = given(lambda: self.sender.reader(catalogue, asking).answer(captures))
            refuse_without_body(catalogue, target, found)
        return self.sender.sent(asking, found, lambda content: self.answer_head(found, content), 200)

    def answer_head(self, answer: Lent, content: Content) -> Headers:
        """The fields of an answer for the room's script. What was captured is in one of them, as JSON."""
        about = {
            "instant": answer.capture.instant,
            "chosen": [self.shown_path(answer.capture.path), answer.capture.position],
            "given": [None if answer.file is None else self.shown_path(answer.file.path), answer.position],
            "joined": len(answer.files),
            "damaged": answer.damaged(),
            "reason": answer.reason,
            "status": content.status,
            "type": content.media,
            "coding": content.coding or "",
            "location": content.location,
        }
        return [
            ("Content-Type", "application/octet-stream"),
            ("Content-Disposition", "attachment"),
            ("Content-Security-Policy", FORBIDS_ALL),
            ("X-Archived-About", json.dumps(about)),
        ]

    def shown_path(self, path: Stored) -> str:
        return escaped(path if self.site.has_paths else name_of(path))

    def found(self, asking: Asking, text: str) -> Response:
        """The targets that begin with a text, and other URIs that are near it."""
        front = target_in(text)
        with self.desks.one(asking.noted) as catalogue:
            found = list(targets_below(catalogue, front, asking.access, asking.address, MOST_FOUND))
            near = near_captures(catalogue, front, asking.access, asking.address)
        below = {it[0] for it in found}
        others = as_rows([it for it in near if it[0] not in below])
        return as_json({"most": MOST_FOUND, "found": as_rows(found), "near": others})

    def near(self, asking: Asking, text: str) -> Response:
        """The near URIs that have captures."""
        target = target_in(text)
        with self.desks.one(asking.noted) as catalogue:
            return as_json({"found": as_rows(near_captures(catalogue, target, asking.access, asking.address))})

    def listed_pages(self, asking: Asking, text: str) -> Response:
        """The pages that packages list, as places to begin: some of them, after a file and a line."""
        file, _, line = text.partition("-")
        if not all(part.isdigit() and part.isascii() and len(part) < 16 for part in (file, line)):
            raise NotOne("no place among pages")
        with self.desks.one(asking.noted) as catalogue:
            found, last = pages_from(catalogue, (int(file), int(line)), asking.access, asking.address)
        return as_json({"found": found, "next": None if last is None else "%d-%d" % last})

    def search(self, asking: Asking, text: str) -> Response:
        """The pages that have words."""
        return as_json(self.finder.answer(text, Seen(asking.access, asking.address)))

    def all_hosts(self, asking: Asking, _text: str) -> Response:
        """The hosts, with their numbers and spans."""
        with self.desks.one() as catalogue:
            return as_json(self.hosts.answer(catalogue, Seen(asking.access, asking.address)))

    def tree(self, asking: Asking, text: str) -> Response:
        """The targets that begin with a text, by what follows it."""
        with self.desks.one() as catalogue:
            return as_json(tree_answer(catalogue, Seen(asking.access, asking.address), target_in(text)))

    def instant(self, _asking: Asking, text: str) -> Response:
        """The instant that a date means. The program reads the date, in each form that it has."""
        date = target_in(text)
        try:
            if not isinstance(date, str) or not date.isascii() or len(date) > MOST_OF_DATE:
                raise BadDate("bad date")
            with self.desks.one():  # no more programs run at once than there may be requests at work
                return as_json({"instant": instant_of(self.sender.warc, date)})
        except BadDate as error:
            raise NotOne(str(error)) from None
