"""Answers of the server: a status, fields of a head, and a body."""
from __future__ import annotations

import dataclasses
import http
import json
import re
from typing import Any, Callable, Dict, Iterable, List, Tuple

FORBIDS_ALL = "sandbox; default-src 'none'"
VISIBLE = re.compile(r"[\x20-\x7e]*")
Headers = List[Tuple[str, str]]
SAFE: Tuple[Tuple[str, str], ...] = (
    ("X-Content-Type-Options", "nosniff"),
    ("Cross-Origin-Resource-Policy", "same-origin"),
    ("Referrer-Policy", "no-referrer"),
)
# Each use of a captured body asks whether it may still be seen.
ASKED_EACH_TIME = ("Cache-Control", "private, no-cache")
NEVER_KEPT = ("Cache-Control", "no-store")


@dataclasses.dataclass
class Response:
    """A status, fields of a head, and a body."""

    status: int
    headers: Headers
    body: Iterable[bytes] = ()

    def all_headers(self) -> Headers:
        """The fields of its head, with those of each answer. What isn't said otherwise is kept nowhere."""
        is_said = any(name == NEVER_KEPT[0] for name, _ in self.headers)
        return [*self.headers, *SAFE, *(() if is_said else (NEVER_KEPT,))]


class Refusal(Exception):
    """A request that gets no more than a status and a sentence."""

    def __init__(self, status: int, text: str, *headers: Tuple[str, str]) -> None:
        super().__init__(text)
        self.status = status
        self.headers = headers

    @property
    def response(self) -> Response:
        return self.renamed(str)

    def renamed(self, change: Callable[[str], str]) -> Response:
        """The answer, with its sentence changed."""
        return plain(self.status, change(str(self)), *self.headers)


def plain(status: int, text: str, *headers: Tuple[str, str]) -> Response:
    """An answer of a few words."""
    body = (text + "\n").encode("utf-8", "replace")
    own = [("Content-Type", "text/plain; charset=utf-8"), ("Content-Length", str(len(body)))]
    return Response(status, [*own, ("Content-Security-Policy", FORBIDS_ALL), *headers], [body])


def close(body: Iterable[bytes]) -> None:
    """Ends the use of a body."""
    end = getattr(body, "close", None)
    if end is not None:
        end()


def phrase(status: int) -> str:
    try:
        return http.HTTPStatus(status).phrase
    except ValueError:
        return "Archived"


def moved(status: int, path: str, *headers: Tuple[str, str]) -> Response:
    """Leads to another path of this server."""
    return plain(status, path, ("Location", path), *headers)


def with_details(lines: Iterable[str], details: Iterable[str]) -> str:
    """What is said to a reader, and after an empty line what an operator needs."""
    more = list(details)
    return "\n".join([*lines, *([""] if more else []), *more])


def as_json(value: Dict[str, Any], status: int = 200) -> Response:
    """An answer to a script."""
    return dataclasses.replace(in_memory("application/json", json.dumps(value).encode("ascii")), status=status)


def in_memory(media: str, body: bytes) -> Response:
    """An answer that nobody captured."""
    headers = [("Content-Type", media), ("Content-Length", str(len(body)))]
    return Response(200, [*headers, ("Content-Security-Policy", FORBIDS_ALL)], [body])
