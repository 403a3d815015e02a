"""The server of `serve`: waitress, with limits on connections and on time.

It runs in a process of its own. A read of a mapped file that fails ends that process (SIGBUS): it is started again.
"""
from __future__ import annotations

import collections
import dataclasses
import ipaddress
import logging
import os
import re
import resource
import signal
import socket
import threading
import time
import traceback
from typing import Any, Callable, Counter, Dict, NoReturn, Optional, Tuple

from waitress.adjustments import Adjustments  # type: ignore[import]
from waitress.channel import HTTPChannel  # type: ignore[import]
from waitress.server import TcpWSGIServer  # type: ignore[import]
from waitress.task import ThreadedTaskDispatcher  # type: ignore[import]

from .access import Access
from .hosts import Site
from .limits import Limits
from .texts import Trouble, say
from .turns import Turns
from .wsgi import Application

# How long the head of a request may take, however its bytes come.
HEAD_SECONDS = 15
# How long a connection may be idle, and how long a reader may take no byte of an answer.
IDLE_SECONDS = 60
# A URI of 65,536 bytes, each as an escape, and room for other fields.
MOST_HEAD = 256 << 10
# No request here has a body.
MOST_REQUEST_BODY = 64 << 10
MOST_CONNECTIONS = 4096
# Of one address, and as many again that get an answer that says so.
MOST_OF_ADDRESS = 64
# Files that are open beside connections.
OTHER_FILES = 1024
# How many connections are accepted before the others are looked at again.
ACCEPTED_AT_ONCE = 64
# Threads beside those of requests at work: they serve what needs no catalogue.
MORE_THREADS = 8
RESTART_SECONDS = 1.0
WAITING = 1024
LISTEN = re.compile(r"(?:\[([0-9A-Fa-f:.]+)\]|([^\[\]:/]*)):(\d{1,5})", re.ASCII)
# The first descriptor that systemd passes.
PASSED = 3
REFUSED = b"HTTP/1.1 503 Service Unavailable\r\nContent-Length: 0\r\nRetry-After: 30\r\nConnection: close\r\n\r\n"


class Channel(HTTPChannel):  # type: ignore[misc]
    """A connection. One too many of an address gets 503 as soon as it asks."""

    close_when_flushed: bool
    is_refused = False
    head_began = 0.0
    key = ""

    def received(self, data: bytes) -> bool:
        """Takes bytes of a request."""
        if self.is_refused:
            self.refuse()
            return False
        if self.request is None:
            self.head_began = time.time()
        return bool(super().received(data))

    def refuse(self) -> None:
        """Answers without the application."""
        with self.outbuf_lock:
            if not self.close_when_flushed:
                self.outbufs[-1].append(REFUSED)
                self.total_outbufs_len += len(REFUSED)
                self.close_when_flushed = True

    def is_idle(self) -> bool:
        """Whether nothing is asked here, and nothing is on its way out."""
        return not self.requests and not self.total_outbufs_len and not self.will_close

    def is_late(self, now: float) -> bool:
        """Whether its head takes too long."""
        begun = self.creation_time if self.is_refused else self.head_began if self.request is not None else now
        return bool(not self.requests and now - begun > HEAD_SECONDS)

    def add_channel(self, map: Optional[Dict[int, Any]] = None) -> None:
        super().add_channel(map)
        self.server.turns.touch(self._fileno)

    def del_channel(self, map: Optional[Dict[int, Any]] = None) -> None:
        if self._fileno is not None:
            self.server.turns.forget(self._fileno)
        super().del_channel(map)
        if self.key:
            self.server.leave(self.key)
            self.key = ""


class Server(TcpWSGIServer):  # type: ignore[misc]
    """The server over a socket that listens already."""

    channel_class = Channel

    def __init__(self, listener: socket.socket, application: Application, place: Place) -> None:
        self.of_address: Counter[str] = collections.Counter()
        self.most_of_address = None if place.site.is_behind_proxy else place.of_address
        self.most = most_connections()
        adjustments = Adjustments(
            sockets=[listener],
            backlog=WAITING,
            connection_limit=2 * self.most,  # ours is another one: waitress would accept nobody
            cleanup_interval=2,
            channel_timeout=IDLE_SECONDS,
            max_request_header_size=MOST_HEAD,
            max_request_body_size=MOST_REQUEST_BODY,
            clear_untrusted_proxy_headers=False,  # the application says which count
            log_socket_errors=False,
            ident="",
        )
        dispatcher = ThreadedTaskDispatcher()
        dispatcher.set_thread_count(place.limits.requests + MORE_THREADS)
        info = listener.family, listener.type, listener.proto, listener.getsockname()
        words = {"dispatcher": dispatcher, "adj": adjustments, "sockinfo": info, "bind_socket": False}
        objects: Dict[int, Any] = {}
        super().__init__(application, objects, True, listener, **words)
        self.turns = Turns(objects)

    def run(self) -> None:
        """Serves until it is asked to end."""
        try:
            while self._map:
                self.turns.touch(self._fileno)  # it does what is due from time to time
                self.turns.turn()
        except (SystemExit, KeyboardInterrupt):
            end_once()
            self.task_dispatcher.shutdown()

    def handle_accept(self) -> None:
        """Accepts those that wait. Where there are too many, the connection that is idle longest is closed."""
        for _ in range(ACCEPTED_AT_ONCE):
            try:
                accepted = self.accept()
            except OSError:
                return
            if accepted is None:
                return
            self.take(*accepted)

    def take(self, connection: socket.socket, address: Tuple[Any, ...]) -> None:
        """Takes a connection, unless its address has too many."""
        key, most = key_of(str(address[0])), self.most_of_address
        count = self.of_address[key]
        is_one_too_many = most is not None and count >= most
        if (most is not None and count >= 2 * most) or (
            len(self.active_channels) >= self.most and not self.close_idle()
        ):
            connection.close()
            return
        self.set_socket_options(connection)
        channel = self.channel_class(self, connection, address, self.adj, map=self._map)
        channel.is_refused, channel.key = is_one_too_many, key
        self.of_address[key] += 1

    def close_idle(self) -> bool:
        """Closes the connection that is idle longest. Returns whether there was one."""
        idle = [channel for channel in self.active_channels.values() if channel.is_idle()]
        if idle:
            self.end(min(idle, key=lambda channel: float(channel.last_activity)))
        return bool(idle)

    def end(self, channel: Channel) -> None:
        """Has a connection closed in the next turn."""
        channel.will_close = True
        self.turns.touch(channel._fileno)

    def leave(self, key: str) -> None:
        """Counts a connection that is closed."""
        self.of_address[key] -= 1
        if not self.of_address[key]:
            del self.of_address[key]

    def maintenance(self, now: float) -> None:
        """Closes connections that were idle too long, and those whose heads take too long."""
        super().maintenance(now)
        for channel in self.active_channels.values():
            if channel.will_close or channel.is_late(now):
                self.end(channel)


def key_of(address: str) -> str:
    """What an address counts as: one of IPv6 is one of the many of its network."""
    try:
        found = ipaddress.ip_address(address.partition("%")[0])
    except ValueError:
        return address
    mapped = getattr(found, "ipv4_mapped", None)
    return str(mapped or (ipaddress.ip_network((found, 64), strict=False) if found.version == 6 else found))


def most_connections() -> int:
    """How many connections there may be, as far as the system lets this process have open files."""
    soft, hard = resource.getrlimit(resource.RLIMIT_NOFILE)
    wanted = MOST_CONNECTIONS + OTHER_FILES
    allowed = wanted if hard == resource.RLIM_INFINITY else min(hard, wanted)
    if soft != resource.RLIM_INFINITY and soft < allowed:
        resource.setrlimit(resource.RLIMIT_NOFILE, (allowed, hard))
        soft = allowed
    return MOST_CONNECTIONS if soft == resource.RLIM_INFINITY else max(min(soft, wanted) - OTHER_FILES, 128)


class Said(logging.Handler):
    """What waitress says, as this program says it."""

    def emit(self, record: logging.LogRecord) -> None:
        say(record.getMessage())
        if record.exc_info:
            traceback.print_exception(*record.exc_info)


def hear_waitress() -> None:
    """Has faults said, and nothing else."""
    for name in ("waitress", "waitress.queue"):
        logging.getLogger(name).setLevel(logging.ERROR)
    logging.getLogger("waitress").addHandler(Said())


@dataclasses.dataclass(frozen=True)
class Place:
    """Where a server listens, and over what."""

    listen: str
    catalogue: str
    warc: Optional[str]
    temporary: Optional[str]
    limits: Limits
    site: Site
    rules: Callable[[], Access]
    log: Optional[str] = None
    of_address: int = MOST_OF_ADDRESS
    is_whole: bool = False


def address_of(listen: str) -> Tuple[str, int]:
    """A host and a port."""
    found = LISTEN.fullmatch(listen)
    if found is None or int(found[3]) > 65535:
        raise Trouble("--listen takes ADDRESS:PORT, such as 127.0.0.1:8080 or [::1]:8080, or systemd", 2)
    return found[1] or found[2], int(found[3])


def listener_of(listen: str) -> socket.socket:
    """A socket that listens: at an address, or the one that systemd passes."""
    if listen == "systemd":
        if os.environ.get("LISTEN_PID") != str(os.getpid()) or os.environ.get("LISTEN_FDS") != "1":
            raise Trouble("systemd passes no socket, or several")
        return socket.socket(fileno=PASSED)
    host, port = address_of(listen)
    family = socket.AF_INET6 if ":" in host else socket.AF_INET
    return socket.create_server((host, port), family=family, backlog=WAITING)


def serve(place: Place) -> int:
    """Serves until it is asked to end. A process that a signal ended is started again."""
    place.rules()  # a line that is none is said once
    listener = listener_of(place.listen)
    while True:
        status = served(place, listener)
        if status >= 0:
            return status
        say("the server was ended by signal %d, and is started again" % -status)
        time.sleep(RESTART_SECONDS)


def served(place: Place, listener: socket.socket) -> int:
    """Serves in a process of its own. Returns its exit status, or the signal that ended it as a negative number. The
    process ends where this one does, and hears SIGHUP through it."""
    alive, end = os.pipe()
    # No SIGHUP comes between the fork and what hears it.
    signal.pthread_sigmask(signal.SIG_BLOCK, [signal.SIGHUP])
    child = os.fork()
    if child == 0:
        os.close(end)
        threading.Thread(target=end_with, args=(alive,), daemon=True).start()
        run_and_exit(place, listener)
    os.close(alive)
    signal.signal(signal.SIGHUP, lambda _signal, _frame: os.kill(child, signal.SIGHUP))
    signal.pthread_sigmask(signal.SIG_UNBLOCK, [signal.SIGHUP])
    try:
        status = os.waitpid(child, 0)[1]
    except KeyboardInterrupt:
        end_once()
        os.kill(child, signal.SIGTERM)
        os.waitpid(child, 0)
        return 0
    finally:
        signal.signal(signal.SIGHUP, signal.SIG_IGN)
        os.close(end)
    return -os.WTERMSIG(status) if os.WIFSIGNALED(status) else os.WEXITSTATUS(status)


def end_once() -> None:
    """Passes over all that asks again to end. systemd asks both processes, and one of them asks the other too."""
    if threading.current_thread() is threading.main_thread():
        for ending in (signal.SIGINT, signal.SIGTERM):
            signal.signal(ending, signal.SIG_IGN)


def end_with(alive: int) -> None:
    """Ends this process when the other end of a pipe is closed."""
    os.read(alive, 1)
    os._exit(0)


def run_and_exit(place: Place, listener: socket.socket) -> NoReturn:
    """What the process of a server does."""
    status = 3
    try:
        hear_waitress()
        words = place.catalogue, place.warc, place.temporary, place.limits, place.site, place.rules, place.log
        application = Application(*words, place.is_whole)
        hear_reload(application)
        server = Server(listener, application, place)
        say("serving http://%s/" % shown_address(listener))
        server.run()
        status = 0
    except Trouble as trouble:
        say(str(trouble))
    except KeyboardInterrupt:
        status = 0
    except BaseException:  # whatever it is, the process ends here
        traceback.print_exc()
    finally:
        os._exit(status)


def hear_reload(application: Application) -> None:
    """Has the rules and the log taken anew at SIGHUP, in a thread, since what a signal interrupts may hold a lock."""
    reload = threading.Lock()

    def again() -> None:
        with reload:
            application.reload()

    signal.signal(signal.SIGHUP, lambda _signal, _frame: threading.Thread(target=again, daemon=True).start())
    signal.pthread_sigmask(signal.SIG_UNBLOCK, [signal.SIGHUP])


def shown_address(listener: socket.socket) -> str:
    host, port = listener.getsockname()[:2]
    return ("[%s]:%d" if ":" in host else "%s:%d") % (host, port)
