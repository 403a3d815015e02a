"""What a server is called, how it names itself in links, and who asks it."""
from __future__ import annotations

import dataclasses
import re
import urllib.parse
from typing import Any, Dict, Optional, Sequence, Tuple

from .responses import Refusal
from .texts import Trouble

Environ = Dict[str, Any]
NAME = re.compile(r"(\[[0-9A-Fa-f:.]+\]|[A-Za-z0-9._-]+)(?::\d{0,5})?", re.ASCII)
WHOLE = re.compile(r"(https?)://([^/?#]*)(/.*|\Z)", re.ASCII | re.IGNORECASE | re.DOTALL)
EVERYWHERE = ("", "0.0.0.0", "::")
OTHER_NAME = "this server isn't called so: see --host"


@dataclasses.dataclass(frozen=True)
class Site:
    """The names of a server, the URL under which others reach it, whether what a proxy says of a request counts, and
    whether answers have paths of files, or names alone."""

    hosts: Tuple[str, ...]
    base_url: Optional[str] = None
    is_behind_proxy: bool = False
    has_paths: bool = False

    def check(self, environ: Environ) -> None:
        """Refuses a request under another name, as a page elsewhere makes it whose name leads to this server; and a
        request of another site's page, but for one that leads a reader here."""
        name = self.name(environ)
        found = NAME.fullmatch(name)
        if not name and environ.get("SERVER_PROTOCOL") != "HTTP/1.0":
            raise Refusal(400, "a request has a Host")
        if name and (found is None or found[1].lower() not in self.hosts):
            raise Refusal(403, OTHER_NAME)
        asked = [environ.get("HTTP_SEC_FETCH_" + word, "").strip().lower() for word in ("SITE", "MODE", "DEST")]
        if asked[0] == "cross-site" and asked[1:] != ["navigate", "document"]:
            raise Refusal(403, "another site's page may lead here, and may not read from here")

    def name(self, environ: Environ) -> str:
        """The name and the port that a request is for."""
        whole = WHOLE.fullmatch(str(environ.get("REQUEST_URI", environ.get("RAW_URI", ""))))
        forwarded = last_of(environ, "HTTP_X_FORWARDED_HOST") if self.is_behind_proxy else ""
        return forwarded or (whole[2] if whole else environ.get("HTTP_HOST", "").strip())

    def top(self, environ: Environ) -> str:
        """The path of the application on its server."""
        path = urllib.parse.urlsplit(self.base_url).path.rstrip("/") if self.base_url else ""
        return path or str(environ.get("SCRIPT_NAME", ""))

    def base(self, environ: Environ) -> str:
        """What links of the application begin with. The request was checked."""
        if self.base_url:
            return self.base_url.rstrip("/")
        scheme = str(environ.get("wsgi.url_scheme", "http"))
        forwarded = last_of(environ, "HTTP_X_FORWARDED_PROTO").lower() if self.is_behind_proxy else ""
        name = self.name(environ) or "%s:%s" % (self.hosts[0], environ.get("SERVER_PORT", "80"))
        return "%s://%s%s" % (forwarded if forwarded in ("http", "https") else scheme, name, self.top(environ))

    def address(self, environ: Environ) -> str:
        """The address of the reader. A proxy adds it at the end of the field that it got."""
        forwarded = last_of(environ, "HTTP_X_FORWARDED_FOR") if self.is_behind_proxy else ""
        return forwarded or str(environ.get("REMOTE_ADDR", ""))

    def target(self, environ: Environ, raw: str) -> str:
        """The target of a request as it was sent, below the path of the application."""
        whole = WHOLE.fullmatch(raw)
        path = whole[3] if whole else raw
        tops = [str(environ.get("SCRIPT_NAME", "")), self.top(environ)]
        for top in sorted(tops, key=len, reverse=True):
            if path.startswith(top + "/"):
                return path[len(top) :]
        if self.base_url and path.startswith("/") and not tops[0]:  # by a proxy that takes the path away
            return path
        raise Refusal(400, "the target of a request is a path")


def last_of(environ: Environ, name: str) -> str:
    """The last of the values of a field."""
    return str(environ.get(name, "")).rpartition(",")[2].strip()


def site_for(
    address: Optional[str], hosts: Sequence[str], base_url: Optional[str], is_behind_proxy: bool, has_paths: bool
) -> Site:
    """The names of a server that listens at an address; None is a socket that somebody else opened."""
    names = [checked(name) for name in hosts]
    if base_url is not None:
        parts = urllib.parse.urlsplit(base_url)
        if parts.scheme not in ("http", "https") or not parts.netloc or parts.query or parts.fragment:
            raise Trouble("--base-url takes a URL such as https://room.example/collection", 2)
        names.append(checked(parts.netloc))
    if not names and (address is None or address in EVERYWHERE):
        raise Trouble("--host has to say by which names readers ask this server", 2)
    if not names and address is not None:
        names = [checked("[%s]" % address if ":" in address else address), "localhost"]
    return Site(tuple(dict.fromkeys(names)), base_url, is_behind_proxy, has_paths)


def checked(name: str) -> str:
    """A name without its port, in lower case."""
    found = NAME.fullmatch(name)
    if found is None:
        raise Trouble("--host takes names such as room.example, without http:// before them", 2)
    return found[1].lower()
