"""The server of the room: its connections, its readers, its restarts, and a client of Memento."""
from __future__ import annotations

import contextlib
import os
import re
import resource
import select
import signal
import socket
import subprocess
import sys
import threading
import time
from typing import Any, Callable, Dict, Iterator, List, Optional

import pytest
from conftest import PACKAGE, PROJECT, TOP, URI, Collection
from rooms import Room, new_collection, program, read, response

pytest.importorskip("waitress")
sys.path.insert(0, os.path.join(TOP, "tests", "stress"))
from memento_client import Client, seconds_of  # noqa: E402

# They share collections.
pytestmark = pytest.mark.xdist_group("room_serve")
FIRST, SECOND = "2020-01-01T00:00:00Z", "2021-06-01T12:00:00Z"
MEMENTO = "/memento/20200101000000/" + URI
BIG = bytes(range(256)) * 12_000
READERS = 12
MOST_SECONDS = 30.0


@pytest.fixture(name="served", scope="module")
def served_fixture(tmp_path_factory: pytest.TempPathFactory) -> Collection:
    """A short page, captured twice, and long ones, each in a file of its own."""
    collection = new_collection(tmp_path_factory)
    collection.put("disk/a.warc", response(1, URI, FIRST, b"snow"), response(2, URI, SECOND, b"rain"))
    for number in range(READERS):
        collection.put("disk/b%d.warc" % number, response(100 + number, "%sbig%d" % (URI, number), FIRST, BIG))
    read(collection)
    return collection


def becomes(is_so: Callable[[], Any], seconds: float = MOST_SECONDS) -> bool:
    """Waits until something is so. Returns whether it is."""
    end = time.monotonic() + seconds
    while not is_so() and time.monotonic() < end:
        time.sleep(0.01)
    return bool(is_so())


class Running:
    """A server in a thread, which is asked over the network of this machine."""

    def __init__(self, collection: Collection, **words: Any) -> None:
        from zogwedu_collection.serve import Place, Server

        more = {name: words.pop(name) for name in ("of_address", "most") if name in words}
        room = Room(collection, hosts=["127.0.0.1"], **words)
        self.listener = socket.create_server(("127.0.0.1", 0), backlog=512)
        self.port = self.listener.getsockname()[1]
        place = Place("", "", None, None, room_limits(words), room.app.site, lambda: room.app.access)
        if "of_address" in more:
            place = replaced(place, of_address=more["of_address"])
        self.server = Server(self.listener, room.app, place)
        self.server.most = more.get("most", self.server.most)
        self.thread = threading.Thread(target=self.server.run)
        self.thread.start()

    def close(self) -> None:
        self.server.trigger.pull_trigger(self.close_all)
        self.thread.join()
        self.server.task_dispatcher.shutdown()

    def close_all(self) -> None:
        for channel in list(self.server._map.values()):
            channel.close()
        self.server.turns.close()

    def connected(self, address: str = "127.0.0.1", buffer: int = 0) -> socket.socket:
        """A connection from one of this machine's addresses."""
        connection = socket.socket()
        if buffer:
            connection.setsockopt(socket.SOL_SOCKET, socket.SO_RCVBUF, buffer)
        connection.settimeout(MOST_SECONDS)
        connection.bind((address, 0))
        connection.connect(("127.0.0.1", self.port))
        return connection

    def ask(self, path: str = MEMENTO, address: str = "127.0.0.1") -> bytes:
        """A whole answer over a connection of its own."""
        with self.connected(address) as connection:
            connection.sendall(request(path, "Connection: close\r\n"))
            return received(connection)


def room_limits(words: Dict[str, Any]) -> Any:
    from zogwedu_collection.limits import Limits

    return Limits(**words.get("limits", {}))


def replaced(place: Any, **words: Any) -> Any:
    import dataclasses

    return dataclasses.replace(place, **words)


def request(path: str, more: str = "") -> bytes:
    return ("GET %s HTTP/1.1\r\nHost: 127.0.0.1\r\n%s\r\n" % (path, more)).encode()


def received(connection: socket.socket) -> bytes:
    """What comes until the other side closes."""
    data = b""
    with contextlib.suppress(ConnectionResetError):
        for piece in iter(lambda: connection.recv(1 << 16), b""):
            data += piece
    return data


def is_closed(connection: socket.socket) -> bool:
    """Whether the other side has closed a connection that it had nothing to send to."""
    if not select.select([connection], [], [], 0)[0]:
        return False
    try:
        return connection.recv(1) == b""
    except OSError:
        return True


@contextlib.contextmanager
def running(collection: Collection, **words: Any) -> Iterator[Running]:
    server = Running(collection, **words)
    try:
        yield server
    finally:
        server.close()


def test_a_connection_has_many_requests(served: Collection) -> None:
    with running(served) as server, server.connected() as connection:
        reader = connection.makefile("rb")
        for _ in range(3):
            connection.sendall(request(MEMENTO))
            head = list(iter(reader.readline, b"\r\n"))
            assert head[0] == b"HTTP/1.1 200 OK\r\n" and b"Content-Length: 4\r\n" in head, head
            assert not [line for line in head if line.lower().startswith(b"server:")]
            assert reader.read(4) == b"snow"


def test_slow_readers_keep_nobody_waiting(served: Collection) -> None:
    """More of them than archives and than requests at work, each of another file, and all get the whole."""
    with running(served, limits={"archives": 2, "requests": 2}) as server:
        slow = [server.connected(buffer=4096) for _ in range(READERS)]
        for number, connection in enumerate(slow):
            connection.sendall(request("/memento/20200101000000/%sbig%d" % (URI, number), "Connection: close\r\n"))
        assert becomes(lambda: len(select.select(slow, [], [], 0)[0]) == READERS)
        begun = time.monotonic()
        assert server.ask().endswith(b"\r\n\r\nsnow")
        assert time.monotonic() - begun < 5
        assert received(slow[7]).endswith(b"\r\n\r\n" + BIG)
        for connection in slow:
            connection.close()


def test_the_connection_that_is_idle_longest_is_closed(served: Collection) -> None:
    """Where there are too many. One that is read from isn't idle."""
    with running(served, most=20, of_address=100) as server:
        busy = server.connected(buffer=4096)
        busy.sendall(request("/memento/20200101000000/%sbig0" % URI, "Connection: close\r\n"))
        assert select.select([busy], [], [], MOST_SECONDS)[0]
        idle = []
        for count in range(2, 21):
            idle.append(server.connected())
            assert becomes(lambda: len(server.server.active_channels) == count)
        assert server.ask().endswith(b"snow")
        assert becomes(lambda: is_closed(idle[0]) and len(server.server.active_channels) == 19)
        for place in (0, 1, 2):
            idle.append(server.connected())
            assert becomes(lambda: len(server.server.active_channels) == 20 and (not place or is_closed(idle[place])))
        assert not any(is_closed(it) for it in idle[3:])
        assert received(busy).endswith(BIG)
        for connection in idle:
            connection.close()


def test_an_address_with_too_many_connections(served: Collection) -> None:
    """An answer says so at once, others have theirs, and it has them again when it closes some."""
    with running(served, of_address=5) as server:
        crowd = [server.connected("127.0.0.2") for _ in range(5)]
        assert becomes(lambda: len(server.server.active_channels) == 5)
        assert server.ask(address="127.0.0.2").startswith(b"HTTP/1.1 503 ")
        assert server.ask(address="127.0.0.3").endswith(b"snow")
        more = [server.connected("127.0.0.2") for _ in range(6)]
        assert becomes(lambda: any(is_closed(it) for it in more))
        for connection in [*crowd, *more]:
            connection.close()
        assert becomes(lambda: not server.server.active_channels and not server.server.of_address)
        assert server.ask(address="127.0.0.2").endswith(b"snow")


def test_a_proxy_has_as_many_connections_as_it_needs(served: Collection) -> None:
    with running(served, of_address=5, is_behind_proxy=True) as server:
        crowd = [server.connected() for _ in range(30)]
        assert becomes(lambda: len(server.server.active_channels) == 30)
        assert server.ask().endswith(b"snow")
        for connection in crowd:
            connection.close()


def test_what_an_address_counts_as() -> None:
    """One of IPv6 is one of the many of its network."""
    from zogwedu_collection.serve import key_of

    assert key_of("2001:db8:0:1::1") == key_of("2001:db8:0:1:ffff::2") != key_of("2001:db8:0:2::1")
    assert key_of("::ffff:192.0.2.1") == key_of("192.0.2.1") == "192.0.2.1"
    assert key_of("fe80::1%eth0") == "fe80::/64" and key_of("/run/socket") == "/run/socket"


def test_heads_that_never_end(served: Collection) -> None:
    """However their bytes come, they are given up in time, and others keep theirs."""
    with running(served) as server:
        late, idle, busy = (server.connected(buffer=4096) for _ in range(3))
        late.sendall(b"GET / HTTP/1.1\r\n")
        busy.sendall(request("/memento/20200101000000/%sbig0" % URI))
        channels = server.server.active_channels.values
        assert becomes(lambda: len([it for it in channels() if it.request is not None]) == 1)
        assert select.select([busy], [], [], MOST_SECONDS)[0]
        late.sendall(b"X: y\r\n")
        server.server.maintenance(time.time() + 16)
        server.server.pull_trigger()
        assert becomes(lambda: is_closed(late))
        assert not is_closed(idle)
        idle.sendall(request(MEMENTO, "Connection: close\r\n"))
        assert received(idle).endswith(b"snow")
        for connection in (late, busy):
            connection.close()


HEADS = {
    b"GET /timegate/x\r\n\r\n": 404,
    b"\0\0\0\0\r\n\r\n": 400,
    b"POST / HTTP/1.1\r\nHost: 127.0.0.1\r\nContent-Length: 4\r\n\r\nbody": 405,
    b"POST / HTTP/1.1\r\nHost: 127.0.0.1\r\nContent-Length: 999999999\r\n\r\n": 413,
    b"GET / HTTP/1.1\r\nHost: 127.0.0.1\r\nX: " + b"y" * 300_000: 431,
    b"GET /memento/20200101000000/http:/../x HTTP/1.1\r\nHost: 127.0.0.1\r\n\r\n": 404,
    b"GET //memento/ HTTP/1.1\r\nHost: 127.0.0.1\r\n\r\n": 404,
    b"GET /timegate/\xff HTTP/1.1\r\nHost: 127.0.0.1\r\n\r\n": 400,
}


@pytest.mark.parametrize("head", HEADS, ids=range(len(HEADS)))
def test_heads(served: Collection, head: bytes) -> None:
    with running(served) as server, server.connected() as connection:
        connection.sendall(head)
        assert connection.recv(100).split(b" ")[1] == b"%d" % HEADS[head]


# The program


@contextlib.contextmanager
def program_running(collection: Collection, *words: str, before: Optional[List[str]] = None) -> Iterator[Any]:
    """`warc-collection serve`, and its port."""
    listen = [] if "--listen" in words else ["--listen", "127.0.0.1:0"]
    command = [*(before or []), sys.executable, os.path.join(PROJECT, "collection"), "-c", collection.path("catalogue")]
    command += ["serve", "--warc", program(), *listen, *words]
    log = collection.path("serve-%d" % time.monotonic_ns())
    with open(log, "wb") as out:
        env = dict(os.environ, PYTHONPATH=PACKAGE, PYTHONDONTWRITEBYTECODE="1")
        child: Any = subprocess.Popen(command, stderr=out, env=env, start_new_session=True)
    try:
        assert becomes(lambda: child.poll() is not None or b"serving http" in said(log), 60)
        found = re.search(rb"serving http://\S+:(\d+)/", said(log))
        child.port = int(found[1]) if found else 0
        child.log = log
        yield child
    finally:
        with contextlib.suppress(ProcessLookupError):
            os.killpg(child.pid, signal.SIGTERM)
        child.wait(30)
    assert b"Traceback" not in said(log), said(log).decode()


def said(log: str) -> bytes:
    with open(log, "rb") as file:
        return file.read()


def worker_of(child: Any) -> int:
    """The process that answers."""
    with open("/proc/%d/task/%d/children" % (child.pid, child.pid), encoding="ascii") as file:
        return int(file.read().split()[0])


def status_of(port: int, path: str) -> int:
    try:
        return Client("127.0.0.1", port).ask(path).status
    except OSError:
        return 0


def test_rules_are_taken_anew(served: Collection) -> None:
    """At SIGHUP. Bad ones leave those of before, and show."""
    rules = served.put("rules", b"allow a.example\n")
    with program_running(served, "--access", rules) as child:
        assert status_of(child.port, MEMENTO) == 200
        served.put("rules", b"block a.example\n")
        child.send_signal(signal.SIGHUP)
        assert becomes(lambda: status_of(child.port, MEMENTO) == 451)
        served.put("rules", b"nonsense\n")
        child.send_signal(signal.SIGHUP)
        assert becomes(lambda: status_of(child.port, "/health") == 503)
        assert status_of(child.port, MEMENTO) == 451 and b"rules:1: nonsense" in said(child.log)
        served.put("rules", b"")
        child.send_signal(signal.SIGHUP)
        assert becomes(lambda: status_of(child.port, "/health") == 200)
        assert status_of(child.port, MEMENTO) == 200


def test_a_process_that_dies_is_started_again(served: Collection) -> None:
    """And it hears SIGHUP as the first one did; and it ends with its parent."""
    rules = served.put("rules", b"")
    with program_running(served, "--access", rules) as child:
        os.kill(worker_of(child), signal.SIGBUS)
        assert becomes(lambda: status_of(child.port, MEMENTO) == 200)
        served.put("rules", b"block a.example\n")
        child.send_signal(signal.SIGHUP)
        assert becomes(lambda: status_of(child.port, MEMENTO) == 451)
        worker = worker_of(child)
        child.kill()
        assert becomes(lambda: not os.path.exists("/proc/%d" % worker))


def test_it_ends_when_it_is_asked_to(served: Collection) -> None:
    with program_running(served) as child:
        assert status_of(child.port, MEMENTO) == 200
        child.terminate()
        assert child.wait(30) == 0


PASSES_SOCKET = """
import os, socket, sys
listener = socket.create_server(("127.0.0.1", 0))
os.dup2(listener.fileno(), 3)
os.set_inheritable(3, True)
os.environ.update(LISTEN_PID=str(os.getpid()), LISTEN_FDS="1")
os.execv(sys.argv[1], sys.argv[1:])
"""


def test_a_socket_of_systemd(served: Collection) -> None:
    words = ["--listen", "systemd", "--host", "127.0.0.1"]
    with program_running(served, *words, before=[sys.executable, "-c", PASSES_SOCKET]) as child:
        assert status_of(child.port, MEMENTO) == 200


def test_it_is_asked_to_end_again(served: Collection) -> None:
    """systemd asks each process, and so the server twice. The second time breaks off nothing."""
    with program_running(served) as child:
        assert status_of(child.port, MEMENTO) == 200
        for _ in range(50):
            with contextlib.suppress(ProcessLookupError):
                os.killpg(child.pid, signal.SIGTERM)
            time.sleep(0.002)
        assert child.wait(30) == 0


@pytest.mark.parametrize(
    "words, status, text",
    [
        (["--access", "nothing"], 3, b"nothing: No such file or directory"),
        (["--access", "bad"], 3, b"bad:1: nonsense: a line is "),
        (["--onsite", "10.0.0.1/8"], 2, b"--onsite"),
        (["--listen", "0.0.0.0:0"], 2, b"--host"),
        (["--listen", "systemd"], 2, b"--host"),
        (["--listen", "systemd", "--host", "x.example"], 3, b"passes no socket"),
        (["--base-url", "room.example"], 2, b"--base-url"),
    ],
)
def test_it_does_not_start(served: Collection, words: List[str], status: int, text: bytes) -> None:
    served.put("bad", b"nonsense\n")
    done = served.run("serve", "--warc", program(), "--listen", "127.0.0.1:0", *words, env={"PYTHONPATH": PACKAGE})
    assert done.returncode == status and text in done.stderr, done


def test_a_client_of_memento(served: Collection) -> None:
    """It is written from the RFC alone, and walks from the TimeGate to the TimeMap and the mementos."""
    with program_running(served) as child:
        client = Client("127.0.0.1", child.port)
        gate = client.negotiated("/timegate/" + URI, None)
        latest = client.memento(client.path(str(gate.get("Location"))))
        assert latest.body == b"rain"
        listed = client.timemap("/timemap/link/" + URI)
        assert [client.memento(client.path(it.uri)).body for it in listed] == [b"snow", b"rain"]
        paths = [client.path(it.uri) for it in listed]
        assert list(client.walked(paths[0], 5)) == paths
        for date, body in (("Mon, 01 Jan 1990 00:00:00 GMT", b"snow"), ("Fri, 01 Jan 2021 00:00:00 GMT", b"snow")):
            found = client.negotiated("/timegate/" + URI, date)
            reply = client.memento(client.path(str(found.get("Location"))))
            assert reply.body == body and seconds_of(reply.get("Memento-Datetime")) == 1577836800


def test_the_one_file_has_the_server(tmp_path: Any) -> None:
    """And needs none of Debian's packages."""
    path = str(tmp_path / "warc-collection")
    subprocess.run([sys.executable, os.path.join(TOP, "tools", "make_collection.py"), path], check=True)
    code = "import sys; sys.path[:0] = sys.argv[1:]; from zogwedu_collection.serve import TcpWSGIServer as it"
    code += "; print(it.__module__)"
    done = subprocess.run([sys.executable, "-I", "-S", "-c", code, path], capture_output=True, check=True)
    assert done.stdout == b"waitress.server\n"


def test_open_files() -> None:
    """There are no more connections than the system lets this process have."""
    from zogwedu_collection.serve import MOST_CONNECTIONS, most_connections

    soft, hard = resource.getrlimit(resource.RLIMIT_NOFILE)
    assert 128 <= most_connections() <= MOST_CONNECTIONS
    resource.setrlimit(resource.RLIMIT_NOFILE, (soft, hard))
