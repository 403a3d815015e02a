"""The reading room over a collection: one page, its script and its style. What they show, the server answers."""
from __future__ import annotations

import html
import pkgutil
import secrets
from typing import Dict, Tuple

from .responses import Refusal, Response

# The view of a page has its own styles, and its frame has this policy too.
POLICY = (
    "default-src 'none'; script-src 'nonce-%s'; style-src 'self' 'unsafe-inline'; img-src blob: data:;"
    " font-src blob: data:; connect-src 'self'; frame-src 'none'; form-action 'none'; base-uri 'none';"
    " frame-ancestors 'none'; require-trusted-types-for 'script'; trusted-types zogwedu-parser zogwedu-worker"
)
# The files by their paths, with their media types. No other file is given.
FILES: Dict[str, Tuple[str, str]] = {
    "/room/room.js": ("room.js", "text/javascript; charset=utf-8"),
    "/room/room.css": ("room.css", "text/css; charset=utf-8"),
}
NO_ROOM = "this program was made without the reading room, which needs node-dompurify, node-pako and node-css-tree"
PATHS = "no such path: /timegate/URI, /timemap/link/URI, /timemap/json/URI, /memento/DATE/URI, /search/json?q=WORDS, /"


class Pages:
    """The files of the room, which are read once."""

    def __init__(self) -> None:
        self.files = {path: data_of(name) for path, (name, _) in FILES.items()}
        self.html = data_of("room.html").decode("utf-8")

    def page(self, top: str, target: str, has_search: bool = False) -> Response:
        """The room, with the form for words if there is an index, or a file of it."""
        path = target.partition("?")[0]
        if path != "/" and path not in FILES:
            raise Refusal(404, PATHS)
        if not all(self.files.values()):
            raise Refusal(404, NO_ROOM)
        if path in FILES:
            return answer(FILES[path][1], self.files[path], "default-src 'none'")
        nonce = secrets.token_urlsafe(18)
        body = self.html.replace("{nonce}", nonce).replace("{search}", "yes" if has_search else "no")
        body = body.replace("{top}", html.escape(top))
        return answer("text/html; charset=utf-8", body.encode("utf-8"), POLICY % nonce)


def data_of(name: str) -> bytes:
    """A file of the package, which may be in an archive. The script and the style are there once they were made."""
    try:
        return pkgutil.get_data(__package__ or "", name) or b""
    except OSError:
        return b""


def answer(media: str, body: bytes, policy: str) -> Response:
    headers = [("Content-Type", media), ("Content-Length", str(len(body))), ("Content-Security-Policy", policy)]
    return Response(200, [*headers, ("X-Frame-Options", "DENY"), ("Cross-Origin-Opener-Policy", "same-origin")], [body])
