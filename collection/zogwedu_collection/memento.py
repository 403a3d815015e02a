"""Memento, RFC 7089: URIs and instants in paths, dates in heads, links between captures, and lists of them."""
from __future__ import annotations

import dataclasses
import datetime
import json
import re
import urllib.parse
from typing import Any, Dict, Iterable, Iterator, List, Optional, Sequence, Tuple

from .texts import Stored, decoded, path_bytes

# What may be in a URI as it is, by RFC 3986. A `#` begins a fragment, which no request has.
IN_URI = "!$&'()*+,/:;=?@[]-._~%"
PLAIN_URI = re.compile(rb"[A-Za-z0-9%s]*" % re.escape(IN_URI).encode("ascii"))
# Parts of a path that clients take away, with the part before.
DOTS = re.compile(rb"(?:^|/)(?:\.|%2e){1,2}(?=[/?]|$)", re.IGNORECASE)
BAD_ESCAPE = re.compile(rb"%(?![0-9A-Fa-f]{2})")
DIGITS = re.compile(r"(\d{4})(\d\d)(\d\d)(\d\d)(\d\d)(\d\d)(\d{9})?", re.ASCII)
DAYS = ("Mon", "Tue", "Wed", "Thu", "Fri", "Sat", "Sun")
MONTHS = ("Jan", "Feb", "Mar", "Apr", "May", "Jun", "Jul", "Aug", "Sep", "Oct", "Nov", "Dec")
HTTP_DATE = re.compile(
    r"(%s), (\d\d) (%s) (\d{4}) (\d\d):(\d\d):(\d\d) GMT" % ("|".join(DAYS), "|".join(MONTHS)), re.ASCII
)
# After this many years each date has the same day of the week again. Python knows no year 0.
CYCLE = 400
# The longest field with several links.
MOST_LINKS = 16 << 10
LINK_FORMAT = "application/link-format"
JSON_FORMAT = "application/json"
TIMEMAPS = {"link": LINK_FORMAT, "json": JSON_FORMAT}
# The key of a part of a list: the last capture before it, by its instant, and in JSON by its file and position too.
PART_KEY = re.compile(r"(\d{23})(?:-(\d{1,18})-(\d{1,18}))?", re.ASCII)


class NotOne(ValueError):
    """A text is no URI, or no date."""


# URIs


def path_of(target: Stored) -> str:
    """A target as it is written in a path: as it is if it is made of what a URI may have, else with all but letters,
    digits and a few marks as escapes, and so without a `:`. No two targets are written in the same way."""
    value = path_bytes(target)
    if b":" in value and PLAIN_URI.fullmatch(value) and not DOTS.search(value):
        return value.decode("ascii")
    return urllib.parse.quote(value, safe="")


def target_in(text: str) -> Stored:
    """The target that a part of a path means. Escapes are undone if it has no `:`, and only then."""
    value = text.encode("latin-1")
    if not value or not PLAIN_URI.fullmatch(value):
        raise NotOne("the request has bytes that no URI has, or none: write each as an escape, and each : and % too")
    if b":" in value:
        return decoded(value)
    if BAD_ESCAPE.search(value):
        raise NotOne("a % begins no escape")
    return decoded(urllib.parse.unquote_to_bytes(value))


def referred(target: Stored, location: str) -> Optional[str]:
    """The URI that a Location means, as it is written in a path, without its fragment; None where it means none."""
    base = path_bytes(target).decode("utf-8", "surrogateescape")
    try:
        uri, _ = urllib.parse.urldefrag(urllib.parse.urljoin(base, location.strip()))
        value = urllib.parse.quote(uri.encode("utf-8", "surrogateescape"), safe=IN_URI)
    except ValueError:
        return None
    return path_of(value) if ":" in value else None


# Instants, which are texts of the catalogue: YYYY-MM-DDThh:mm:ss.nnnnnnnnnZ


def day_in_cycle(year: int, month: int, day: int) -> datetime.date:
    return datetime.date(year % CYCLE + CYCLE, month, day)


def is_day(year: int, month: int, day: int) -> bool:
    """Whether there is such a day. A year 0 is one too."""
    try:
        day_in_cycle(year, month, day)
    except ValueError:
        return False
    return True


def instant_text(parts: Sequence[str], nanoseconds: str) -> str:
    """The instant of a year, month, day, hour, minute and second."""
    year, month, day, hour, minute, second = map(int, parts)
    if not is_day(year, month, day) or hour > 23 or minute > 59 or second > 59:
        raise NotOne("there is no such date")
    return "%04d-%02d-%02dT%02d:%02d:%02d.%sZ" % (year, month, day, hour, minute, second, nanoseconds)


def digits_of(instant: str) -> str:
    """An instant in a path: fourteen digits, and nine more where it isn't at the beginning of a second."""
    seconds, _, nanoseconds = re.sub("[-:TZ]", "", instant).partition(".")
    return seconds + (nanoseconds if nanoseconds.strip("0") else "")


def instants_of(digits: str) -> Tuple[str, str]:
    """The first and the last instant that digits in a path mean: with fourteen of them those of a second."""
    found = DIGITS.fullmatch(digits)
    if found is None:
        raise NotOne("a date in a path has fourteen digits, YYYYMMDDhhmmss, or nine more for nanoseconds")
    ends = (found[7], found[7]) if found[7] else ("0" * 9, "9" * 9)
    return instant_text(found.groups()[:6], ends[0]), instant_text(found.groups()[:6], ends[1])


def http_date(instant: str) -> str:
    """The second of an instant, as heads of HTTP have it."""
    year, month, day = (int(part) for part in instant[:10].split("-"))
    week_day = DAYS[day_in_cycle(year, month, day).weekday()]
    return "%s, %02d %s %04d %s GMT" % (week_day, day, MONTHS[month - 1], year, instant[11:19])


def instants_of_http_date(text: str) -> Tuple[str, str]:
    """The first and the last instant of the second that a date means, as heads of HTTP have it."""
    found = HTTP_DATE.fullmatch(text.strip(" \t"))
    if found is None:
        raise NotOne("a date is written as in Thu, 26 Nov 2026 04:49:36 GMT")
    parts = found[4], str(MONTHS.index(found[3]) + 1), found[2], found[5], found[6], found[7]
    first, last = instant_text(parts, "0" * 9), instant_text(parts, "9" * 9)
    if not http_date(first).startswith(found[1]):
        raise NotOne("that day isn't a %s" % found[1])
    return first, last


# Links


@dataclasses.dataclass(frozen=True)
class Around:
    """The instants of the captures of a target around one of them: the first and the last, and those next to it."""

    first: str
    last: str
    before: Optional[str] = None
    after: Optional[str] = None


@dataclasses.dataclass(frozen=True)
class Part:
    """A part of a list of captures: its key, which the first part doesn't have, and its first and last instant."""

    key: str
    first: str
    last: str


@dataclasses.dataclass(frozen=True)
class Parts:
    """A part of a list of captures, and those beside it."""

    own: Part
    before: Optional[Part] = None
    after: Optional[Part] = None

    def beside(self) -> Iterator[Tuple[str, Part]]:
        """Those beside it, with their relations to it."""
        return ((word, it) for word, it in (("prev", self.before), ("next", self.after)) if it is not None)


@dataclasses.dataclass(frozen=True)
class Paths:
    """The URIs of a target below the URL of this server."""

    top: str
    target: Stored

    def timegate(self) -> str:
        return "%s/timegate/%s" % (self.top, path_of(self.target))

    def timemap(self, form: str = "link", key: str = "") -> str:
        """The list of captures, or the part of it that has a key."""
        part = "%s-after/%s" % (form, key) if key else form
        return "%s/timemap/%s/%s" % (self.top, part, path_of(self.target))

    def memento(self, instant: str) -> str:
        return "%s/memento/%s/%s" % (self.top, digits_of(instant), path_of(self.target))

    def original(self) -> str:
        """The target as a reference. Bytes that no URI has are escaped."""
        return urllib.parse.quote(path_bytes(self.target), safe=IN_URI + "#")


def link(uri: str, relation: str, **more: Optional[str]) -> str:
    """A link, as RFC 8288 writes it."""
    facts = ['%s="%s"' % (name, value) for name, value in more.items() if value is not None]
    return "; ".join(["<%s>" % uri, 'rel="%s"' % relation, *facts])


def map_link(paths: Paths, around: Around, relation: str = "timemap") -> str:
    """The link to the list of all captures."""
    span = {"from": http_date(around.first), "until": http_date(around.last)}
    return link(paths.timemap(), relation, type=LINK_FORMAT, **span)


def relations(around: Around, chosen: Optional[str]) -> Dict[str, str]:
    """The captures that are linked to, by their instants, with their relations to the chosen one."""
    found: Dict[str, List[str]] = {}
    named = ((around.first, "first"), (around.before, "prev"), (chosen, ""), (around.after, "next"))
    for instant, word in (*named, (around.last, "last")):
        if instant is not None:
            found.setdefault(instant, []).append(word)
    return {instant: " ".join(filter(None, (*words, "memento"))) for instant, words in found.items()}


def head_links(paths: Paths, around: Optional[Around], chosen: Optional[str], is_memento: bool) -> str:
    """The field Link of an answer. Without captures there is only the original. Of a long target there are fewer links,
    since readers and servers on the way take no head of any length."""
    original = link(paths.original(), "original")
    links = [original] + ([link(paths.timegate(), "timegate")] if is_memento else [])
    mementos: List[str] = []
    if around is not None:
        links.append(map_link(paths, around))
        mementos = [
            link(paths.memento(instant), words, datetime=http_date(instant))
            for instant, words in sorted(relations(around, chosen).items())
        ]
    texts = (", ".join(some) for some in (links + mementos, links))
    return next((text for text in texts if len(text) <= MOST_LINKS), original)


# Lists of captures


def key_of(instant: str, *place: int) -> str:
    """The key of the part that follows a capture."""
    return "-".join([re.sub("[-:TZ.]", "", instant), *map(str, place)])


def key_in(text: str, form: str) -> Tuple[Any, ...]:
    """The instant that a key of a part means, and of a part in JSON the file and the position."""
    found = PART_KEY.fullmatch(text)
    if found is None or (found[2] is None) != (form == "link"):
        raise NotOne("no part of a list has this key")
    instant = instants_of(found[1])[0]
    return (instant,) if form == "link" else (instant, int(found[2]), int(found[3]))


def part_link(paths: Paths, part: Part, relation: str) -> str:
    """The link to a part of the list of all captures."""
    span = {"from": http_date(part.first), "until": http_date(part.last)}
    return link(paths.timemap("link", part.key), relation, type=LINK_FORMAT, **span)


def link_timemap(paths: Paths, around: Around, parts: Parts, instants: Iterable[str]) -> str:
    """A part of the list of all captures, as RFC 7089, section 5, writes it. By 5.1.1 it links to those beside it."""
    lines = [
        link(paths.original(), "original"),
        part_link(paths, parts.own, "self"),
        link(paths.timegate(), "timegate"),
        *(part_link(paths, part, word + " timemap") for word, part in parts.beside()),
    ]
    ends = relations(dataclasses.replace(around, before=None, after=None), None)
    for instant in instants:
        words = ends.get(instant, "memento")
        lines.append(link(paths.memento(instant), words, datetime=http_date(instant)))
    return ",\n".join(lines) + "\n"


def json_timemap(paths: Paths, around: Around, parts: Parts, captures: Iterable[Tuple[str, Dict[str, Any]]]) -> str:
    """A list of captures in JSON, in the form that other archives use, with what the catalogue says of each capture."""
    mementos: Dict[str, Any] = {}
    for name, instant in (("first", around.first), ("last", around.last)):
        mementos[name] = json_memento(paths, instant)
    mementos["list"] = [{**json_memento(paths, instant), **facts} for instant, facts in captures]
    about = {
        "original_uri": paths.original(),
        "self": paths.timemap("json", parts.own.key),
        "from": json_date(parts.own.first),
        "until": json_date(parts.own.last),
        "timegate_uri": paths.timegate(),
        "timemap_uri": {"link_format": paths.timemap(), "json_format": paths.timemap("json")},
        **{word: paths.timemap("json", part.key) for word, part in parts.beside()},
        "mementos": mementos,
    }
    return json.dumps(about) + "\n"


def json_date(instant: str) -> str:
    return instant[:19] + "Z"


def json_memento(paths: Paths, instant: str) -> Dict[str, str]:
    """A capture in JSON."""
    return {"datetime": json_date(instant), "uri": paths.memento(instant)}
