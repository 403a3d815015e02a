"""Lines of indexes that other programs of web archives read: CDXJ, and CDX with eleven fields.

No part of this is proved. The lines are for those programs: no answer here rests on one.
"""
import json
import re
from typing import Any, Dict, NamedTuple, Optional

from ._surt import surt

# The first line of an index with eleven fields, which says what they are.
HEAD_11 = " CDX N b a m s k r M S V g\n"
REVISIT = "warc/revisit"
# What a key and a field of a line can't have.
UNFIT = re.compile(rb"[^!-~]")
FIT = re.compile(r"[!-~]+", re.ASCII)
MEDIA = re.compile(r"[ \t]*([^; \t]+)")
NO_MEDIA = re.compile(r"application/http\b", re.ASCII | re.IGNORECASE)
SHA1 = "sha1:"


class Facts(NamedTuple):
    """What the heads of a capture say: the media type, the status and the payload digest, where they do."""

    mime: Optional[str]
    status: Optional[str]
    digest: Optional[str]


class Entry(NamedTuple):
    """A capture in an index. `url` is its target, whose bytes that aren't UTF-8 are lone surrogates, and `instant`
    begins with the date. The offset and the length are those of its bytes in the file."""

    url: str
    instant: str
    facts: Facts
    offset: int
    length: int
    name: str

    def key(self) -> str:
        """What lines are sorted by: the key of the URL and the time, without fractions."""
        key = escaped(surt(self.url).encode("utf-8", "surrogateescape"))
        return "%s %s" % (key, digits_of(self.instant))


def escaped(text: bytes) -> str:
    """A text in which bytes that a field can't have are escaped."""
    return UNFIT.sub(lambda found: b"%%%02X" % found[0][0], text).decode("ascii")


def digits_of(instant: str) -> str:
    """The 14 digits of a date, which may be a short one: it means its first instant."""
    digits = re.sub(r"[^0-9]", "", instant.partition(".")[0])
    return digits + "00000101000000"[len(digits) :]


def is_fit(field: str) -> bool:
    """Whether a text can be a field of a line that spaces divide."""
    return FIT.fullmatch(field) is not None


def media_of(value: Optional[str]) -> Optional[str]:
    """The media type that a field begins with."""
    found = MEDIA.match(value or "")
    return None if found is None else found[1]


def facts_of(kind: str, headers: Any, http: Any) -> Facts:
    """What the heads of a record say. `http` is the head of the HTTP response in it, or None."""
    digest, own = headers.get("WARC-Payload-Digest") or None, headers.get("Content-Type")
    is_revisit = kind.lower() == "revisit"
    if kind.lower() == "resource":
        return Facts(media_of(own), None, digest)
    if http is None:
        is_plain = not is_revisit and NO_MEDIA.match(own or "") is None
        return Facts(REVISIT if is_revisit else media_of(own) if is_plain else None, None, digest)
    return Facts(REVISIT if is_revisit else media_of(http.headers.get("Content-Type")), str(http.status), digest)


def line_of(entry: Entry) -> str:
    """A line of CDXJ. A field that isn't known is left out."""
    facts = entry.facts._asdict()
    values: Dict[str, Optional[str]] = {"url": written(entry.url), **{name: facts[name] for name in facts}}
    values.update(length=str(entry.length), offset=str(entry.offset), filename=entry.name)
    return "%s %s\n" % (entry.key(), json.dumps({name: it for name, it in values.items() if it is not None}))


def line_11_of(entry: Entry) -> str:
    """A line of CDX with eleven fields. A field that isn't known, or has a space, is a hyphen."""
    facts = entry.facts
    digest = facts.digest or ""
    digest = digest[len(SHA1) :] if digest.lower().startswith(SHA1) else digest
    url = escaped(entry.url.encode("utf-8", "surrogateescape"))
    fields = url, facts.mime, facts.status, digest, "-", "-", str(entry.length), str(entry.offset), entry.name
    return "%s %s\n" % (entry.key(), " ".join(it if it and is_fit(it) else "-" for it in fields))


def written(url: str) -> str:
    """A URL whose bytes that aren't UTF-8 are escaped."""
    return re.sub("[\udc80-\udcff]", lambda found: "%%%02X" % (ord(found[0]) - 0xDC00), url)
