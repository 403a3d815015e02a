"""A listener on this computer that counts the connections of a browser, and reads which host each of them is for."""

from __future__ import annotations

import socket
import threading
from typing import Any

PATIENCE = 0.5  # seconds that a connection has to say what it wants
LONGEST = 16384  # bytes that are read of it
HANDSHAKE, CLIENT_HELLO, SERVER_NAME = 22, 1, 0  # numbers of TLS
SILENT = "-"  # the host of a connection that says nothing


def number(data: bytes, at: int, width: int) -> int:
    """A number of a message of TLS."""
    return int.from_bytes(data[at : at + width], "big")


def extensions(hello: bytes) -> bytes:
    """The extensions of a TLS hello, after its random number, its session, its ciphers and its compressions."""
    at = 9 + 2 + 32
    at += 1 + number(hello, at, 1)
    at += 2 + number(hello, at, 2)
    at += 1 + number(hello, at, 1)
    return hello[at + 2 : at + 2 + number(hello, at, 2)]


def host_of_hello(hello: bytes) -> str:
    """The host that a TLS hello names."""
    rest = extensions(hello)
    while len(rest) >= 4:
        length = number(rest, 2, 2)
        if number(rest, 0, 2) == SERVER_NAME:
            return rest[9 : 9 + number(rest, 7, 2)].decode("ascii", "replace")
        rest = rest[4 + length :]
    return SILENT


def host_of_request(request: bytes) -> str:
    """The host that a request of HTTP names."""
    for line in request.decode("latin-1").split("\r\n"):
        if line.lower().startswith("host:"):
            return line[5:].strip().partition(":")[0]
    return SILENT


def host_of(data: bytes) -> str:
    """The host that the first bytes of a connection name."""
    is_hello = len(data) > 43 and data[0] == HANDSHAKE and data[5] == CLIENT_HELLO
    return host_of_hello(data) if is_hello else host_of_request(data)


class Listener:
    """Accepts each connection, keeps the host that it names, and closes it."""

    def __init__(self, port: int = 0) -> None:
        self.socket = socket.create_server(("127.0.0.1", port))
        self.port: int = self.socket.getsockname()[1]
        self.hosts: list[str] = []
        threading.Thread(target=self.accept, daemon=True).start()

    def accept(self) -> None:
        """Takes connections until the listener is closed."""
        while True:
            try:
                connection, _ = self.socket.accept()
            except OSError:
                return
            threading.Thread(target=self.hear, args=(connection,), daemon=True).start()

    def hear(self, connection: socket.socket) -> None:
        """Counts a connection, and closes it."""
        data = b""
        with connection:
            connection.settimeout(PATIENCE)
            try:
                data = connection.recv(LONGEST)
            except OSError:
                pass
        self.hosts.append(host_of(data))

    def until_now(self, browser: Any, host: str) -> list[str]:
        """The hosts of the connections that came before one to a host, which the browser makes now. By TLS each of its
        sockets names the host at once; another one that the browser opens in advance would be silent."""
        browser.settle()
        browser.connect(f"https://{host}:{self.port}/", lambda: host in self.hosts)
        found = sorted(set(self.hosts) - {host})
        self.hosts.clear()
        return found

    def close(self) -> None:
        """Stops to listen."""
        self.socket.close()
