"""Who may see which captures, by the lines of a file. All that gives captures to others asks `Access.decide`.

A pattern and a URI are compared in one spelling, so that a near spelling is no way round a line.
"""
from __future__ import annotations

import dataclasses
import datetime
import ipaddress
import re
import urllib.parse
from typing import Dict, Iterator, List, Optional, Sequence, Tuple, Union

from .texts import Stored, Trouble, escaped, path_bytes, shown

Network = Union[ipaddress.IPv4Network, ipaddress.IPv6Network]
LINE = re.compile(r"(block|allow|onsite|embargo[ \t]+(\d{1,4})([yd]))[ \t]+([^\s\x00-\x1f\x7f]+)", re.ASCII)
# A URI with a host, as browsers read it: a backslash ends the host too.
WITH_HOST = re.compile(r"([A-Za-z][A-Za-z0-9+.-]*)://([^/?#\\]*)(.*)", re.ASCII | re.DOTALL)
# Of these schemes a URI names a host, however many slashes follow, and browsers leave out tabs and ends of lines.
SPECIAL = re.compile(r"(https?|ftp|wss?):[/\\]*", re.ASCII | re.IGNORECASE)
UNSEEN = re.compile(r"[\t\r\n]|^[\x00-\x20]+|[\x00-\x20]+$")
OPAQUE = re.compile(r"([A-Za-z][A-Za-z0-9+.-]*):(.*)", re.ASCII | re.DOTALL)
# A scheme without a dot: what looks like a host and a port is neither a URI nor a host.
PATTERN_URI = re.compile(r"[A-Za-z][A-Za-z0-9+-]*:.+", re.ASCII)
PATTERN_HOST = re.compile(r"[^\s/:?#@\\%*]+|\[[0-9A-Fa-f:.]+\]", re.ASCII)
# Schemes whose URIs name a host at once.
NAMES_HOST = ("dns", "whois")
DEFAULT_PORTS = ("", "80", "443")
UNRESERVED = "-._~"
# The most severe of several lines of one length comes first.
SEVERITY = ("block", "embargo", "onsite", "allow")
# Later than each instant of the catalogue, and earlier than each.
ALWAYS, NEVER = "9999-12-31T23:59:59.999999999Z", ""
MOST_BYTES = 64 << 20


@dataclasses.dataclass(frozen=True)
class Withheld:
    """Why something isn't given: the status of HTTP, and a sentence."""

    status: int
    text: str


@dataclasses.dataclass(frozen=True)
class Rule:
    """A line: its number, what it says, for which years and days, and the spelling that it is for: of the beginning of
    a URI, or of a host."""

    number: int
    text: str
    word: str
    years: int
    days: int
    spelling: str
    is_host: bool

    def rank(self) -> Tuple[int, int, int, int]:
        """The least of the lines that fit decides: a URI before a host, the longest, and the most severe."""
        longest_embargo = -(self.years * 366 + self.days)
        return int(self.is_host), -len(self.spelling), SEVERITY.index(self.word), longest_embargo

    def open_from(self, instant: str) -> datetime.date:
        """The first day on which an embargo is over for a capture: all years and days have passed before it."""
        year, month, day = (int(part) for part in instant[:10].split("-"))
        try:
            return day_of(max(year, 1) + self.years, month, day) + datetime.timedelta(self.days + 1)
        except (OverflowError, ValueError):
            return datetime.date.max

    def last_open(self, today: datetime.date) -> str:
        """The last instant of which captures are open today."""
        try:
            day = today - datetime.timedelta(self.days)
            first_closed = day_of(day.year - self.years, day.month, day.day, is_later=True)
            return (first_closed - datetime.timedelta(1)).isoformat() + ALWAYS[10:]
        except (OverflowError, ValueError):
            return NEVER


def day_of(year: int, month: int, day: int, is_later: bool = False) -> datetime.date:
    """A day. In a year without 29 February it is the day before, or the one after."""
    if (month, day) == (2, 29) and not (year % 4 == 0 and (year % 100 != 0 or year % 400 == 0)):
        month, day = (3, 1) if is_later else (2, 28)
    return datetime.date(year, month, day)


def today() -> datetime.date:
    return datetime.datetime.now(datetime.timezone.utc).date()


@dataclasses.dataclass(frozen=True)
class Decision:
    """What is decided for a URI and a reader: by which line, if there is one, and whether the reader is on site."""

    rule: Optional[Rule] = None
    is_on_site: bool = False

    def withheld(self) -> Optional[Withheld]:
        """Why nothing of the URI is given, whatever its date."""
        word = self.rule.word if self.rule else "allow"
        if word == "block":
            return Withheld(451, "withheld: this URI is blocked")
        if word == "onsite" and not self.is_on_site:
            return Withheld(403, "withheld: this URI is for readers on site alone")
        return None

    def withheld_of(self, instant: str) -> Optional[Withheld]:
        """Why a capture of an instant isn't given."""
        if self.rule is None or instant <= self.last():
            return self.withheld()
        return Withheld(403, "withheld until %s: this capture is under an embargo" % self.rule.open_from(instant))

    def last(self) -> str:
        """The last instant of which captures are given, if any are."""
        return self.rule.last_open(today()) if self.rule and self.rule.word == "embargo" else ALWAYS


@dataclasses.dataclass(frozen=True)
class Access:
    """The lines of a file, by what they are for, and the networks of readers on site."""

    uris: Dict[str, Rule]
    hosts: Dict[str, Rule]
    lengths: Tuple[int, ...]
    networks: Tuple[Network, ...] = ()

    def decide(self, target: Stored, address: Optional[str] = None) -> Decision:
        """What is decided for a URI, and a reader at an address of the network. This is the one call that all use."""
        if not self.uris and not self.hosts:
            return Decision()
        rules = [rule for rule in map(self.rule_for, wholes_of(text_of(target))) if rule is not None]
        # Of a URI within another one the most severe line counts.
        rule = min(rules, key=lambda it: (SEVERITY.index(it.word), it.rank()), default=None)
        return Decision(rule, self.is_on_site(address))

    def rule_for(self, uri: str) -> Optional[Rule]:
        """The line that decides for one URI."""
        spelling = spelled(uri)
        for length in self.lengths:
            if spelling[:length] in self.uris and length <= len(spelling):
                return self.uris[spelling[:length]]
        found = (self.hosts.get(host) for host in hosts_above(host_of(uri)))
        return next((rule for rule in found if rule is not None), None)

    def is_on_site(self, address: Optional[str]) -> bool:
        try:
            reader = ipaddress.ip_address((address or "").partition("%")[0])
        except ValueError:
            return False
        mapped = getattr(reader, "ipv4_mapped", None) or reader
        return any(mapped in network for network in self.networks if network.version == mapped.version)


EVERYTHING = Access({}, {}, ())


# The one spelling of URIs


def text_of(target: Stored) -> str:
    return path_bytes(target).decode("utf-8", "surrogateescape")


def wholes_of(uri: str) -> Iterator[str]:
    """A URI as browsers read it, and the one that it is about: `urn:view:http://a.example/` is a picture of a page."""
    uri = as_read(uri)
    yield uri
    found = OPAQUE.fullmatch(uri)
    while found is not None and not found[2].startswith("//"):
        uri = as_read(found[2])
        found = OPAQUE.fullmatch(uri)
        if found is not None and found[2].startswith("//"):
            yield uri


def as_read(uri: str) -> str:
    """A URI as browsers read it."""
    uri = UNSEEN.sub("", uri)
    found = SPECIAL.match(uri)
    return uri if found is None else "%s://%s" % (found[1], uri[found.end() :])


def host_of(uri: str) -> str:
    """The host that a URI names, in one spelling, or no text."""
    found = WITH_HOST.fullmatch(uri)
    if found is not None:
        return authority_of(found[2])[0]
    opaque = OPAQUE.fullmatch(uri)
    is_named = opaque is not None and opaque[1].lower() in NAMES_HOST
    return one_host(re.split(r"[/?#;\\]", opaque[2].lstrip("/"))[0]) if opaque is not None and is_named else ""


def hosts_above(host: str) -> Iterator[str]:
    """A host, and the domains above it, one after another."""
    while host:
        yield host
        host = "" if host.startswith("[") else host.partition(".")[2]


def authority_of(text: str) -> Tuple[str, str]:
    """The host and the port of a URI's authority. A port that is the default one is none."""
    found = re.fullmatch(r"(\[[^\]]*\]|[^:]*)(?::(.*))?", text.rpartition("@")[2], re.DOTALL)
    if found is None:
        return one_host(text), ""
    port = (found[2] or "").lstrip("0")
    return one_host(found[1]), "" if port in DEFAULT_PORTS else port


def one_host(host: str) -> str:
    """A host in one spelling: in lower case, in ASCII, and without a dot at its end."""
    host = urllib.parse.unquote(host, errors="surrogateescape").strip().rstrip(".")
    try:
        return host.encode("idna").decode("ascii").lower()
    except UnicodeError:
        return host.lower()


def spelled(uri: str) -> str:
    """A URI in one spelling: the scheme and the host in lower case, http for https, without a user and a default port,
    and with no escapes and dots in the path that mean nothing."""
    found = WITH_HOST.fullmatch(as_read(uri))
    if found is None:
        scheme, colon, rest = uri.partition(":")
        return scheme.lower() + colon + one_escape(rest)
    scheme = "http" if found[1].lower() == "https" else found[1].lower()
    host, port = authority_of(found[2])
    parts = re.fullmatch(r"([^?#]*)(.*)", found[3], re.DOTALL)
    path, rest = (parts[1], parts[2]) if parts is not None else (found[3], "")
    path = without_dots(one_escape(path.replace("\\", "/")))
    return "%s://%s%s%s%s" % (scheme, host, port and ":" + port, path, one_escape(rest))


def one_escape(text: str) -> str:
    """A text with an escape for each byte that needs one, and for no other."""
    pieces = re.split(r"(%[0-9A-Fa-f]{2})", text)
    return "".join(escape_of(piece) if number % 2 else quoted(piece) for number, piece in enumerate(pieces))


def escape_of(escape: str) -> str:
    character = chr(int(escape[1:], 16))
    is_plain = character.isascii() and (character.isalnum() or character in UNRESERVED)
    return character if is_plain else escape.upper()


def quoted(text: str) -> str:
    return urllib.parse.quote(text.encode("utf-8", "surrogateescape"), safe="!$&'()*+,/:;=?@[]-._~%#")


def without_dots(path: str) -> str:
    """A path without parts that are dots, as clients ask for it. One that is empty is the top."""
    made: List[str] = []
    parts = path.split("/")
    for number, part in enumerate(parts):
        if part not in (".", ".."):
            made.append(part)
            continue
        if part == ".." and len(made) > 1:
            made.pop()
        made += [""] if number == len(parts) - 1 else []
    return "/".join(made) or "/"


# The file


def read_access(path: Optional[str], networks: Sequence[str] = ()) -> Access:
    """The lines of a file; without one everything may be seen. A Trouble names the line that isn't one."""
    on_site = tuple(network_of(text) for text in networks)
    if path is None:
        return dataclasses.replace(EVERYTHING, networks=on_site)
    try:
        with open(path, "rb") as file:
            text = file.read(MOST_BYTES + 1).decode("utf-8-sig")
    except OSError as error:
        raise Trouble("%s: %s" % (shown(path), error.strerror)) from None
    except UnicodeDecodeError:
        raise Trouble("%s: not UTF-8" % shown(path)) from None
    if len(text) > MOST_BYTES:
        raise Trouble("%s: more than %d bytes" % (shown(path), MOST_BYTES))
    lines = ((number, line.strip()) for number, line in enumerate(text.split("\n"), 1))
    rules = [rule_of(path, number, line) for number, line in lines if line and not line.startswith("#")]
    uris, hosts = ({it.spelling: it for it in ranked(rules) if it.is_host == is_host} for is_host in (False, True))
    return Access(uris, hosts, tuple(sorted({len(it) for it in uris}, reverse=True)), on_site)


def ranked(rules: Sequence[Rule]) -> List[Rule]:
    """Lines in such an order that of those for one spelling the one that decides comes last."""
    return sorted(rules, key=Rule.rank, reverse=True)


def network_of(text: str) -> Network:
    try:
        return ipaddress.ip_network(text)
    except ValueError as error:
        raise Trouble("--onsite: %s" % escaped(str(error)), 2) from None


def rule_of(path: str, number: int, line: str) -> Rule:
    """The rule of a line."""
    found = LINE.fullmatch(line)
    is_uri = found is not None and PATTERN_URI.fullmatch(found[4]) is not None
    is_host = found is not None and PATTERN_HOST.fullmatch(found[4]) is not None
    if found is None or not (is_uri or is_host):
        what = "block, allow, embargo 10y or onsite, and then the beginning of a URI or a host without a port"
        raise Trouble("%s:%d: %s: a line is %s" % (shown(path), number, escaped(line[:200]), what))
    count, unit = int(found[2] or 0), found[3]
    times = (count, 0) if unit == "y" else (0, count)
    spelling = spelled(found[4]) if is_uri else one_host(found[4])
    return Rule(number, line, found[1].split()[0], *times, spelling, not is_uri)
