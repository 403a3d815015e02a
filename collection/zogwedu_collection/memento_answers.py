"""The answers of Memento (RFC 7089): where captures are, which there are, and what one gives."""
from __future__ import annotations

import functools
import re
from typing import Any, Dict, Tuple

from .access import ALWAYS
from .asking import Asking, Route
from .captures import end_instant
from .choosing import chosen, refuse_without_body
from .desks import Desks, name_of
from .hosts import Site
from .lending import Content
from .memento import TIMEMAPS, NotOne, Paths, digits_of, http_date, instants_of_http_date
from .memento import instants_of, json_timemap, key_in, link_timemap, referred
from .responses import FORBIDS_ALL, Headers, Refusal, Response, in_memory, moved
from .sending import Sender, given, status_of
from .timemaps import Listing, Seen

# What a browser would show or run, and what it says where it would.
ACTIVE = re.compile(r"html|xml|xsl|svg|multipart|mhtml|message/rfc822", re.IGNORECASE)
SHOWN_BY_BROWSERS = ("document", "iframe", "frame", "embed", "object")
DATE_VARIES = ("Vary", "accept-datetime")
USE_VARIES = ("Vary", "sec-fetch-dest")


class Mementos:
    """Answers clients of Memento."""

    def __init__(self, site: Site, desks: Desks, sender: Sender) -> None:
        self.site = site
        self.desks = desks
        self.sender = sender

    def routes(self) -> Tuple[Tuple[str, str, Route], ...]:
        """The kinds of questions: the beginning of the path, a name, and what answers."""
        lists = ((form, functools.partial(self.timemap, form)) for form in TIMEMAPS)
        parts = ((form, functools.partial(self.timemap_part, form)) for form in TIMEMAPS)
        return (
            ("/timegate/", "timegate", self.timegate),
            *(("/timemap/%s/" % form, "timemap", route) for form, route in lists),
            *(("/timemap/%s-after/" % form, "timemap", route) for form, route in parts),
            ("/memento/", "memento", self.memento),
        )

    def timegate(self, asking: Asking, text: str) -> Response:
        """Leads to the capture as of a date, to the first one for an earlier date, or to the latest one."""
        target = asking.target(text, DATE_VARIES)
        asked = asking.field("ACCEPT_DATETIME")
        try:
            instants = (ALWAYS, ALWAYS) if asked is None else instants_of_http_date(asked)
        except NotOne as error:
            raise Refusal(400, str(error), DATE_VARIES) from None
        with self.desks.one(asking.noted) as catalogue:
            first = end_instant(catalogue, target.uri, "ASC")
            if first is not None and instants[1] < first:
                instants = first, first
            capture = chosen(catalogue, asking, target, instants, False, DATE_VARIES)[0]
            links = target.links(catalogue, capture.instant, False)
        return moved(302, target.paths.memento(capture.instant), DATE_VARIES, links)

    def timemap(self, form: str, asking: Asking, text: str, key: str = "") -> Response:
        """The captures of all files that the reader may see, or some thousands of them."""
        target = asking.target(text)
        with self.desks.one(asking.noted) as catalogue:
            ends = target.around(catalogue)
            if ends is None:
                first = end_instant(catalogue, target.uri, "ASC") or ALWAYS
                chosen(catalogue, asking, target, (first, ALWAYS), True)
                raise Refusal(404, "P1 NoCapture")
            seen = Seen(asking.access, asking.address)
            listing = Listing(catalogue, target.uri, form, target.decision.last(), seen)
            found = listing.parts(key_in(key, form) if key else None)
            if found is None:
                raise Refusal(404, "there is nothing in this part")
            parts, keys = found
            if form == "link":
                body = link_timemap(target.paths, ends, parts, (it[0] for it in keys))
            else:
                facts = ((instant, self.facts(it)) for instant, it in listing.captures(keys))
                body = json_timemap(target.paths, ends, parts, facts)
        return in_memory(TIMEMAPS[form], body.encode("utf-8", "replace"))

    def timemap_part(self, form: str, asking: Asking, text: str) -> Response:
        key, _, uri = text.partition("/")
        return self.timemap(form, asking, uri, key)

    def facts(self, facts: Dict[str, Any]) -> Dict[str, Any]:
        """What is said of a capture: the name of its file, or its path."""
        return facts if self.site.has_paths else dict(facts, path=str(name_of(facts["path"])))

    def memento(self, asking: Asking, text: str) -> Response:
        """The body of a capture. A date that isn't its own leads to its own."""
        digits, _, uri = text.partition("/")
        instants, target = instants_of(digits), asking.target(uri)
        paths = target.paths
        with self.desks.one(asking.noted) as catalogue:
            captures = chosen(catalogue, asking, target, instants, True)
            instant = captures[0].instant
            links = target.links(catalogue, instant, True)
            if (asking.field("SEC_FETCH_DEST") or "").lower() in SHOWN_BY_BROWSERS:
                place = paths.memento(instant)[len(paths.top + "/memento/") :]
                return moved(303, "%s/#%s" % (paths.top, place), USE_VARIES)
            if digits_of(instant) != digits:
                return moved(302, paths.memento(instant), USE_VARIES, links)
            own = [links, USE_VARIES, ("Memento-Datetime", http_date(instant))]
            answer = given(lambda: self.sender.reader(catalogue, asking).answer(captures), links)
            refuse_without_body(catalogue, target, answer, links)
            own += [("X-Archived-File", "damaged")] if answer.damaged() else []
        return self.sender.sent(
            asking, answer, lambda content: [*own, *memento_head(content, paths, instant)], None, links
        )


def memento_head(content: Content, paths: Paths, instant: str) -> Headers:
    """The fields of a memento: of what was captured no more than the media type, the coding and where it leads."""
    headers = [("Content-Type", content.media), ("Content-Security-Policy", FORBIDS_ALL)]
    if content.coding is not None:
        headers.append(("Content-Encoding", content.coding))
    if content.status is not None and status_of(content) != content.status:
        headers.append(("X-Archived-Status", str(content.status)))
    if ACTIVE.search(content.media):
        headers.append(("Content-Disposition", "attachment"))
    if 300 <= status_of(content) < 400 and content.location is not None:
        uri = referred(paths.target, content.location)
        headers += [] if uri is None else [("Location", "%s/memento/%s/%s" % (paths.top, digits_of(instant), uri))]
    return headers
