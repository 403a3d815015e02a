"""Keys of URLs in the form SURT, as indexes of other programs have them: the host backwards, and near URLs as one.

No part of this is proved. A key is a help to search with, and never an answer.
"""
import functools
import re
from typing import List, Pattern, Sequence, Tuple

# Of these a key is the text itself.
AS_THEY_ARE = ("filedesc:", "warcinfo:", "dns:", "mailto:", "urn:")
SCHEME = re.compile(rb"([A-Za-z][A-Za-z0-9+.-]*):")
SCHEME_TWICE = re.compile(rb"(https?://)+", re.IGNORECASE)
PARTS = re.compile(rb"[^:]*:(?://([^/?#]*))?([^?#]*)(?:\?([^#]*))?", re.DOTALL)
PORT = re.compile(rb"(.*?)(?::(\d*))?", re.DOTALL)
HEX = b"0123456789ABCDEFabcdef"
# What is escaped: all but letters, digits and these marks.
ESCAPED = re.compile(rb"[^A-Za-z0-9\-._~!\"$&'()*+,/:;<=>?@\[\\\]^{|}`]")
UNSEEN = re.compile(rb"[\t\r\n]")
WWW = re.compile(rb"(?:www\d*\.)+")
NUMBER = re.compile(rb"\d{1,10}")
DEFAULT_PORTS = {b"http": b"80", b"https": b"443"}
# Hosts have no more bytes; of longer paths and queries sessions aren't looked for.
MOST_OF_HOST, MOST_SEARCHED = 255, 1 << 12
HOSTS_KEPT = 256
# Sessions in paths of ASP.NET, and in queries. What is before and after them stays.
IN_PATHS = (
    re.compile(rb"(.*/)\((?:[a-z]\([0-9a-z]{24}\))+\)/([^?]+\.aspx.*)", re.DOTALL),
    re.compile(rb"(.*/)\([0-9a-z]{24}\)/([^?]+\.aspx.*)", re.DOTALL),
)
IN_QUERIES = tuple(
    re.compile(rb"(.*)" + session + rb"(?:&(.*))?", re.DOTALL)
    for session in (
        rb"jsessionid=[0-9a-z]{32}",
        rb"phpsessid=[0-9a-z]{32}",
        rb"sid=[0-9a-z]{32}",
        rb"aspsessionid[a-z]{8}=[a-z]{24}",
        rb"cfid=(?:(?!cfid=[^&])[^&])+&cftoken=[^&]+",
    )
)


def surt(url: str) -> str:
    """The key of a URL. Bytes of it that aren't UTF-8 are lone surrogates, as Python has them."""
    if not url:
        return "-"
    if url.startswith(AS_THEY_ARE):
        return url
    text = UNSEEN.sub(b"", url.encode("utf-8", "surrogateescape").strip())
    if SCHEME.match(text) is None:
        text = b"http://" + text
    parts = PARTS.match(SCHEME_TWICE.sub(rb"\1", text, 1))
    assert parts is not None  # it begins with a scheme
    scheme, authority = text.partition(b":")[0].lower(), parts[1] or b""
    host, port = _host_and_port(authority.rpartition(b"@")[2], scheme)
    key = b",".join(reversed(host.split(b"."))) + port + b")" + _path(parts[2])
    query = b"" if parts[3] is None else _query(parts[3])
    return (key + (b"?" + query if query else b"")).decode("ascii")


def _unescaped(text: bytes) -> bytes:
    """A text without escapes, also of escapes that were escaped, in one pass."""
    if b"%" not in text:
        return text
    made = bytearray()
    for byte in text:
        made.append(byte)
        while made[-3:-2] == b"%" and made[-2] in HEX and made[-1] in HEX:
            made[-3:] = [int(made[-2:], 16)]
    return bytes(made)


def _escaped(text: bytes) -> bytes:
    return ESCAPED.sub(lambda found: b"%%%02X" % found[0][0], text)


@functools.lru_cache(maxsize=HOSTS_KEPT)
def _host_and_port(text: bytes, scheme: bytes) -> Tuple[bytes, bytes]:
    """The host and the port of a key, the port with its colon, unless it is the scheme's own."""
    found = PORT.fullmatch(text)
    assert found is not None  # any text does
    host = re.sub(rb"\.{2,}", b".", _ascii(_unescaped(found[1]))).strip(b".").lower()
    if NUMBER.fullmatch(host) and int(host) < 1 << 32:
        host = b".".join(b"%d" % part for part in int(host).to_bytes(4, "big"))
    front = WWW.match(host)
    host = _escaped(host[front.end() if front else 0 :]).lower()
    is_default = not found[2] or found[2] == DEFAULT_PORTS.get(scheme)
    return host, b"" if is_default else b":" + found[2]


def _ascii(host: bytes) -> bytes:
    """A host in ASCII, as IDNA has it; the same bytes where it has none."""
    try:
        return host.decode("utf-8").encode("idna") if len(host) <= MOST_OF_HOST else host
    except UnicodeError:
        return host


def _path(text: bytes) -> bytes:
    """The path of a key."""
    made: List[bytes] = []
    for part in _unescaped(text).split(b"/"):
        if part == b"..":
            del made[-1:]
        elif part not in (b"", b"."):
            made.append(part)
    return _without(_escaped(b"/" + b"/".join(made)).lower(), IN_PATHS)


def _query(text: bytes) -> bytes:
    """The query of a key: its fields in order."""
    fields = _without(_escaped(_unescaped(text)).lower(), IN_QUERIES).split(b"&")
    return b"&".join(b"=".join(parts) for parts in sorted(field.split(b"=", 1) for field in fields))


def _without(text: bytes, sessions: Sequence[Pattern[bytes]]) -> bytes:
    """A text without what names a session."""
    for session in sessions if len(text) <= MOST_SEARCHED else ():
        found = session.fullmatch(text)
        text = text if found is None else found[1] + (found[2] or b"")
    return text
