"""The server over a collection, as a WSGI application: which part answers a request, and what is refused.

`application` takes the catalogue from the environment, as docs/ROOM.md says. What a capture is, which one is
chosen and what it gives is decided elsewhere, as for `find` and `replay`. Nothing is opened by a name that comes from a
request: a request names a target and an instant, which are looked up in the catalogue.
"""
from __future__ import annotations

import functools
import os
import signal
import sqlite3
import time
import traceback
from typing import Any, Callable, Iterable, Optional, Set, Tuple

from .access import Access, read_access
from .ages import last_end
from .asking import Asking, Environ, Route
from .bodies import Body
from .desks import Desks, named
from .hosts import Site, site_for
from .limits import Limits, limits_in
from .memento import NotOne
from .memento_answers import Mementos
from .package import package_for
from .program import usable_program
from .responses import VISIBLE, Headers, Refusal, Response, as_json, close, in_memory, phrase, plain
from .room import Pages
from .room_answers import RoomAnswers
from .search_room import Finder
from .sending import Sender
from .shelf import Shelf
from .texts import Stored, Trouble, say
from .watch import METRICS, Watch

NAMES = ("Archive", "NoBody", "Undecodable", "WarcError")
Start = Callable[[str, Headers], Any]


class NoTarget(Exception):
    """The server that runs the application gives no raw target of a request."""


class Application:
    """The application over one catalogue."""

    def __init__(
        self,
        folder: str,
        warc: Optional[str],
        temporary: Optional[str],
        limits: Limits,
        site: Site,
        rules: Callable[[], Access] = lambda: read_access(None),
        log: Optional[str] = None,
        is_whole: bool = False,
    ) -> None:
        package = package_for("the server", NAMES)
        program = usable_program(warc)
        self.site = site
        self.rules = rules
        self.access = rules()
        self.trouble: Optional[str] = None
        self.watch = Watch(log)
        self.shelf = Shelf(package, program, temporary, limits.archives, limits.unpacked)
        self.desks = Desks(folder, limits.requests)
        self.sender = Sender(program, self.shelf, limits.requests, is_whole)
        self.own_paths: Set[Stored] = {os.path.abspath(folder), program, self.sender.temporary_folder()}
        with self.desks.one():
            pass
        self.finder = Finder(folder, program, site.has_paths)
        self.routes = self.all_routes()
        self.pages = Pages()

    def all_routes(self) -> Tuple[Tuple[str, str, Route], ...]:
        """The kinds of questions: the beginning of the path, a name, and what answers."""
        return (
            *Mementos(self.site, self.desks, self.sender).routes(),
            *RoomAnswers(self.site, self.desks, self.sender, self.finder).routes(),
            ("/health", "health", self.health),
            ("/metrics", "metrics", self.metrics),
        )

    def reload(self) -> None:
        """Takes the access rules and opens the log anew. Rules that can't be read change nothing, and are said."""
        try:
            self.access, self.trouble = self.rules(), None
        except (Trouble, OSError, MemoryError) as trouble:
            self.trouble = str(trouble)
            say("the rules of before stay: %s" % trouble)
        try:
            self.watch.open_log()
        except Trouble as trouble:
            say("the log of before is written on: %s" % trouble)

    def __call__(self, environ: Environ, start: Start) -> Iterable[bytes]:
        begun = time.monotonic()
        kind, response = self.response(environ)
        for name, value in response.all_headers():
            if not VISIBLE.fullmatch(value):
                say("the field %s isn't a line" % name)
                response = plain(500, "a field of the answer isn't a line")
        seconds = time.monotonic() - begun
        self.watch.note(kind, response.status, seconds)
        words = [str(environ.get(name, "-")) for name in ("REQUEST_METHOD", "REQUEST_URI", "SERVER_PROTOCOL")]
        length = dict(response.headers).get("Content-Length", "-")
        self.watch.log(self.site.address(environ), " ".join(words), response.status, length, seconds)
        start("%d %s" % (response.status, phrase(response.status)), response.all_headers())
        if environ.get("REQUEST_METHOD") == "HEAD":
            close(response.body)
            return []
        wrapper = environ.get("wsgi.file_wrapper")
        # waitress reads such a file itself, while others are answered.
        is_read = isinstance(response.body, Body) and "waitress" in str(getattr(wrapper, "__module__", ""))
        return wrapper(response.body) if is_read else response.body  # type: ignore[misc, no-any-return]

    def response(self, environ: Environ) -> Tuple[str, Response]:
        """The kind of a question and its answer, whatever comes of it."""
        kind, noted = "other", set(self.own_paths)
        try:
            raw = environ.get("REQUEST_URI", environ.get("RAW_URI"))
            if not isinstance(raw, str):
                raise NoTarget
            self.site.check(environ)
            target = self.site.target(environ, raw)
            kind, route, text = self.route(target)
            base, top, address = self.site.base(environ), self.site.top(environ), self.site.address(environ)
            return kind, route(Asking(environ, base, top, address, self.access, noted), text)
        except NoTarget:
            return kind, stop_without_target()
        except Exception as error:
            return kind, self.refused(error, noted)

    def route(self, target: str) -> Tuple[str, Route, str]:
        """What answers a request, and the rest of its path."""
        for path, kind, route in self.routes:
            if target.startswith(path) if path.endswith(("/", "?")) else target == path:
                return kind, self.reading(route), target[len(path) :]
        has_search = self.finder.has_index()
        return "room", self.reading(lambda asking, text: self.pages.page(asking.top, text, has_search)), target

    def reading(self, route: Route) -> Route:
        """A route that nothing but a question to read comes to."""

        def answer(asking: Asking, text: str) -> Response:
            if asking.environ.get("REQUEST_METHOD") not in ("GET", "HEAD"):
                raise Refusal(405, "only GET and HEAD", ("Allow", "GET, HEAD"))
            return route(asking, text)

        return answer

    def refused(self, error: Exception, noted: Set[Stored]) -> Response:
        """What is answered where something isn't given. Paths of files are their names, unless they were asked for."""
        again = ("Retry-After", "30")
        if isinstance(error, Refusal):
            return error.response if self.site.has_paths else error.renamed(lambda text: named(text, noted))
        if isinstance(error, NotOne):
            return plain(400, str(error))
        if isinstance(error, Trouble):
            return plain(503, str(error) if self.site.has_paths else named(str(error), noted), again)
        say("%s: %s" % (type(error).__name__, error))
        if isinstance(error, (sqlite3.Error, OSError, MemoryError)):
            return plain(503, "the collection can't be read now: try again", again)
        traceback.print_exception(type(error), error, error.__traceback__)  # a fault of this program
        return plain(500, "a fault of this program")

    # For operators

    def health(self, _asking: Asking, _text: str) -> Response:
        """Whether the catalogue answers, and the access rules are those of their file; and when the last run ended."""
        with self.desks.one() as catalogue:
            last = last_end(catalogue)
        about = {"is_well": self.trouble is None, "last_run": last and last["ended"]}
        return as_json(about, 200 if self.trouble is None else 503)

    def metrics(self, _asking: Asking, _text: str) -> Response:
        body = self.watch.metrics(*self.shelf.counts(), self.trouble is None)
        return in_memory(METRICS, body.encode("ascii"))


def stop_without_target() -> Response:
    """Ends a server that can't serve."""
    say("this server gives no raw target of a request (REQUEST_URI or RAW_URI), so no URI can be cut from it: stopped")
    os.kill(os.getpid(), signal.SIGTERM)
    return plain(500, "this server gives no raw target of a request")


@functools.lru_cache(maxsize=1)
def own_application() -> Application:
    """The application that the environment describes."""
    known = os.environ
    folder = known.get("WARC_CATALOGUE", "catalogue")
    words = {name: known.get("WARC_SERVE_" + name, "").split() for name in ("HOST", "ONSITE")}
    is_set = [bool(known.get("WARC_SERVE_" + name)) for name in ("BEHIND_PROXY", "PATHS")]
    site = site_for(None, words["HOST"], known.get("WARC_SERVE_BASE_URL"), *is_set)
    rules = functools.partial(read_access, known.get("WARC_SERVE_ACCESS"), words["ONSITE"])
    about = limits_in(known), site, rules, known.get("WARC_SERVE_LOG"), bool(known.get("WARC_SERVE_WHOLE"))
    return Application(folder, None, None, *about)


def application(environ: Environ, start: Start) -> Iterable[bytes]:
    """The application for a server of your choice."""
    return own_application()(environ, start)
