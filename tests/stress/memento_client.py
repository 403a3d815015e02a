"""A client of Memento, written from RFC 7089 (and RFC 8288 for links) alone: it knows nothing of the server's code."""
from __future__ import annotations

import dataclasses
import email.utils
import http.client
import re
from typing import Dict, Iterator, List, Optional, Tuple

MOST_SECONDS = 60
LINK = re.compile(r'\s*<([^>]*)>((?:\s*;\s*[a-z-]+\s*=\s*(?:"[^"]*"|[^\s",;]+))*)\s*(?:,|$)')
PARAMETER = re.compile(r'\s*;\s*([a-z-]+)\s*=\s*(?:"([^"]*)"|([^\s",;]+))')


class Wrong(Exception):
    """The server doesn't do what the RFC says."""


@dataclasses.dataclass(frozen=True)
class Link:
    """A link: where it leads, its relations, and its other parameters."""

    uri: str
    relations: Tuple[str, ...]
    parameters: Dict[str, str]


@dataclasses.dataclass(frozen=True)
class Reply:
    """What a server gave."""

    status: int
    fields: List[Tuple[str, str]]
    body: bytes

    def get(self, name: str) -> Optional[str]:
        """The value of a field that may be there once."""
        values = [value for field, value in self.fields if field.lower() == name.lower()]
        if len(values) > 1:
            raise Wrong("%s is there %d times" % (name, len(values)))
        return values[0] if values else None

    def links(self) -> List[Link]:
        return links_in(self.get("Link") or "")


def links_in(text: str) -> List[Link]:
    """The links of a text. All of it must be links."""
    found, at = [], 0
    while text[at:].strip():
        match = LINK.match(text, at)
        if match is None:
            raise Wrong("not a link: %r" % text[at : at + 80])
        parameters = {name: quoted or bare for name, quoted, bare in PARAMETER.findall(match[2])}
        found.append(Link(match[1], tuple(parameters.pop("rel", "").split()), parameters))
        at = match.end()
    return found


def one(links: List[Link], relation: str) -> Link:
    """The one link with a relation."""
    found = [link for link in links if relation in link.relations]
    if len(found) != 1:
        raise Wrong("%d links are %s" % (len(found), relation))
    return found[0]


def seconds_of(date: Optional[str]) -> int:
    """A date of HTTP as seconds."""
    if date is None or not date.endswith(" GMT"):
        raise Wrong("no date: %r" % date)
    return int(email.utils.parsedate_to_datetime(date).timestamp())


class Client:
    """A client of one server. It has the path of its TimeGate and of its TimeMaps from the server's own description.
    What it asks for is a path, or the URI of a link, which has to lead to that server."""

    def __init__(self, host: str, port: int) -> None:
        self.host = host
        self.port = port
        self.base = "http://%s:%d" % (host, port)

    def path(self, uri: str) -> str:
        """The path of a URI of the server. Links are URIs, and not paths (RFC 7089, appendix B)."""
        if not uri.startswith(self.base + "/"):
            raise Wrong("%s isn't a URI of this server" % uri)
        return uri[len(self.base) :]

    def ask(self, path: str, fields: Optional[Dict[str, str]] = None, method: str = "GET") -> Reply:
        connection = http.client.HTTPConnection(self.host, self.port, timeout=MOST_SECONDS)
        try:
            connection.putrequest(method, path, skip_accept_encoding=True)
            for name, value in (fields or {}).items():
                connection.putheader(name, value)
            connection.endheaders()
            reply = connection.getresponse()
            return Reply(reply.status, reply.getheaders(), reply.read())
        finally:
            connection.close()

    def negotiated(self, timegate: str, date: Optional[str]) -> Reply:
        """What a TimeGate leads to, and that it says what it must (4.1, 4.5)."""
        reply = self.ask(timegate, {} if date is None else {"Accept-Datetime": date}, "HEAD")
        if "accept-datetime" not in (reply.get("Vary") or "").lower():
            raise Wrong("a TimeGate varies by Accept-Datetime")
        if reply.get("Memento-Datetime") is not None:
            raise Wrong("a TimeGate is no memento")
        if reply.status == 302:
            one(reply.links(), "original")
        return reply

    def memento(self, uri: str) -> Reply:
        """A memento, which says of when and of what it is (2.1.1, 2.2.1)."""
        reply = self.ask(uri)
        seconds_of(reply.get("Memento-Datetime"))
        links = reply.links()
        for relation in ("original", "timegate", "timemap"):
            one(links, relation)
        return reply

    def part(self, uri: str) -> List[Link]:
        """The links of a TimeMap, and that it is one (section 5)."""
        reply = self.ask(uri)
        if reply.status != 200 or (reply.get("Content-Type") or "").split(";")[0] != "application/link-format":
            raise Wrong("no TimeMap: %d" % reply.status)
        links = links_in(reply.body.decode("ascii"))
        one(links, "original")
        one(links, "timegate")
        own = one(links, "self")
        dates = [seconds_of(link.parameters.get("datetime")) for link in mementos_of(links)]
        ends = [seconds_of(own.parameters.get(name)) for name in ("from", "until")]
        if not dates or dates != sorted(dates) or ends != [dates[0], dates[-1]] or self.path(own.uri) != uri:
            raise Wrong("the dates of a TimeMap: %s, %s" % (ends, dates))
        return links

    def timemap(self, uri: str) -> List[Link]:
        """The mementos that a TimeMap lists, and those that it links to: one that is long is in several (5.1.1). Each
        says for which time it is."""
        waiting, known, mementos = [uri], {uri}, []
        while waiting:
            links = self.part(waiting.pop(0))
            mementos += mementos_of(links)
            for link in (it for it in links if "timemap" in it.relations):
                for name in ("from", "until"):
                    seconds_of(link.parameters.get(name))
                if self.path(link.uri) not in known:
                    waiting.append(self.path(link.uri))
                    known.add(self.path(link.uri))
        one(mementos, "first")
        one(mementos, "last")
        return sorted(mementos, key=lambda link: seconds_of(link.parameters.get("datetime")))

    def walked(self, first: str, most: int) -> Iterator[str]:
        """The mementos from one on, by the links to the next one."""
        uri: Optional[str] = first
        for _ in range(most):
            if uri is None:
                return
            yield uri
            links = mementos_of(self.ask(uri).links())
            following = [self.path(link.uri) for link in links if "next" in link.relations]
            uri = following[0] if following else None


def mementos_of(links: List[Link]) -> List[Link]:
    return [link for link in links if "memento" in link.relations]
