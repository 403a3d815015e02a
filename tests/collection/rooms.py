"""What the tests of the room share: a collection that is read, and the application over it, asked without a network."""
from __future__ import annotations

import functools
import io
import json
import os
import shutil
import sys
from typing import Any, Dict, Iterable, List, Optional, Sequence, Tuple

import pytest
from conftest import IS_WHOLE, PACKAGE, PROJECT, TOP, Collection, record

sys.path.insert(0, os.path.join(PROJECT, "collection"))
sys.path.insert(0, PACKAGE)
# The stand-in that has all commands, since the room needs revisits and dates.
STAND_IN = os.path.join(TOP, "tests", "standin", "warc.py")
PROFILE = "http://netpreserve.org/warc/1.1/revisit/identical-payload-digest"
ID = "<urn:uuid:00000000-0000-4000-8000-%012d>"
HTTP = b"HTTP/1.1 %s\r\nContent-Type: %s\r\n%s\r\n%s"


def response(number: int, target: str, date: str, body: bytes, status: bytes = b"200 OK", **more: Any) -> bytes:
    """A response. `media` and `head`, further lines of its HTTP head, are bytes."""
    media, head = more.pop("media", b"text/plain"), more.pop("head", b"")
    fields = {"WARC_Type": "response", "Content_Type": "application/http;msgtype=response", **more}
    return record(number, HTTP % (status, media, head, body), target, date=date, **fields)


def revisit(number: int, target: str, date: str, of: str, **more: str) -> bytes:
    """A revisit of the record with an id."""
    return record(number, b"", target, date=date, WARC_Type="revisit", WARC_Profile=PROFILE, WARC_Refers_To=of, **more)


class Reply:
    """What the application answered."""

    def __init__(self, status: int, headers: Sequence[Tuple[str, str]], body: bytes) -> None:
        self.status = status
        self.headers = list(headers)
        self.body = body

    def __repr__(self) -> str:
        return "%d %r %r" % (self.status, self.headers, self.body[:2000])

    def get(self, name: str) -> Optional[str]:
        values = [value for own, value in self.headers if own.lower() == name.lower()]
        assert len(values) < 2, values
        return values[0] if values else None

    @property
    def text(self) -> str:
        return self.body.decode()

    @property
    def json(self) -> Any:
        return json.loads(self.body)

    @property
    def all(self) -> str:
        """Everything that was said."""
        return "%r\n%s" % (self.headers, self.body.decode("utf-8", "replace"))


def program() -> str:
    built = os.path.join(TOP, "bin", "warc")
    return os.environ.get("WARC") or (built if os.path.exists(built) else STAND_IN)


class Room:
    """The application over the collection `catalogue` of a folder."""

    def __init__(self, collection: Collection, **words: Any) -> None:
        from zogwedu_collection.access import read_access
        from zogwedu_collection.hosts import site_for
        from zogwedu_collection.limits import Limits
        from zogwedu_collection.wsgi import Application

        self.address = "192.0.2.1"
        access, networks = words.pop("access", None), words.pop("networks", ())
        hosts = words.pop("hosts", ("room.example",))
        base_url, is_behind_proxy = words.pop("base_url", None), words.pop("is_behind_proxy", False)
        site = site_for(None, hosts, base_url, is_behind_proxy, words.pop("has_paths", False))
        limits = Limits(**words.pop("limits", {}))
        folder = collection.path("catalogue")
        rules = functools.partial(read_access, access, networks)
        words.setdefault("is_whole", IS_WHOLE)
        self.app = Application(folder, program(), collection.folder, limits, site, rules, **words)

    def ask(self, path: str, method: str = "GET", environ: Any = None, **fields: Any) -> Reply:
        """Asks for a path, as waitress would, with fields of a head."""
        asked: Dict[str, Any] = {
            "REQUEST_METHOD": method,
            "REQUEST_URI": path,
            "SCRIPT_NAME": "",
            "SERVER_PROTOCOL": "HTTP/1.1",
            "SERVER_PORT": "80",
            "HTTP_HOST": "room.example",
            "REMOTE_ADDR": self.address,
            "wsgi.url_scheme": "http",
            "wsgi.input": io.BytesIO(),
        }
        asked.update(("HTTP_" + name.upper(), value) for name, value in fields.items())
        asked.update(environ or {})
        begun: List[Tuple[str, List[Tuple[str, str]]]] = []
        body: Iterable[bytes] = self.app(asked, lambda status, headers: begun.append((status, headers)))
        data = b"".join(body)
        end = getattr(body, "close", None)
        if end is not None:
            end()
        status, headers = begun[-1]
        return Reply(int(status.split()[0]), headers, data)


def new_collection(folders: pytest.TempPathFactory) -> Collection:
    """A collection that several tests share."""
    if shutil.which("parallel") is None:
        pytest.skip("GNU parallel isn't installed")
    return Collection(str(folders.mktemp("shared")))


def read(collection: Collection, *paths: str) -> None:
    """A night over the disk."""
    collection.warc = program()
    done = collection.night(*(paths or ("disk",)))
    assert done.returncode in (0, 1), done.stderr.decode()
