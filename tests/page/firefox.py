"""A headless Firefox that a script drives by Marionette, with Python's standard library alone, and its tests.

Firefox resolves every name to this computer, so the listeners need the ports 80 and 443: without the right to use them,
or without Firefox, the test is left out, and a line says so.
"""

from __future__ import annotations

import base64
import gzip
import json
import os
import re
import shutil
import socket
import subprocess
import tempfile
import time
from typing import Any

import leaks
from compressed import records_of
from listener import Listener

PROGRAM = "firefox-esr"
PATIENCE = 300.0  # seconds
SECONDS = 0.3  # that a case has to connect
MOST_SAVING = 30  # seconds
PORTS = (80, 443)
PREFERENCES: dict[str, Any] = {
    "network.dns.forceResolve": "127.0.0.1",
    "marionette.port": 0,
    "browser.shell.checkDefaultBrowser": False,
    "datareporting.policy.dataSubmissionEnabled": False,
    "network.captive-portal-service.enabled": False,
    "browser.download.folderList": 2,  # the one that is named
}
SHOW = """const [name] = arguments;
document.getElementById('uri').value = name;
document.getElementById('moment').value = '9999';
document.getElementById('as-of').requestSubmit();"""
SHOWN = """const title = document.querySelector('#record h2');
return Boolean(title && title.textContent === arguments[0] && document.querySelector('#panel[data-ready=yes]') &&
  document.querySelector('iframe.view[data-shown], img.picture'));"""
CLICK = """const page = document.querySelector('iframe.view')?.contentDocument;
for (const it of page ? Document.prototype.querySelectorAll.call(page, '[id=click], a') : []) {
  it.dispatchEvent(new MouseEvent('click', { bubbles: true, cancelable: true }));
}"""


TOP = os.path.dirname(os.path.dirname(os.path.dirname(os.path.abspath(__file__))))
FILES = """return [...document.querySelectorAll('.line .file')].map((it) => it.textContent);"""
ENDED = "return /findings after|stopped/.test(document.getElementById('status').textContent)"
SAVE = """document.getElementById('only').click();
document.getElementById('save-shown').click();"""


def is_there() -> bool:
    """Whether Firefox is installed. A line says that it isn't."""
    if shutil.which(PROGRAM):
        return True
    print(f"Firefox: left out, since {PROGRAM} isn't installed", flush=True)
    return False


class Firefox:
    """One Firefox with one window."""

    def __init__(self) -> None:
        self.folder = tempfile.mkdtemp(prefix="zogwedu-firefox-")
        with open(f"{self.folder}/user.js", "w", encoding="utf-8") as out:
            for name, value in {**PREFERENCES, "browser.download.dir": f"{self.folder}/saved"}.items():
                out.write(f"user_pref({json.dumps(name)}, {json.dumps(value)});\n")
        words = [PROGRAM, "--headless", "--marionette", "--profile", self.folder, "--no-remote", "about:blank"]
        quiet, home = subprocess.DEVNULL, {**os.environ, "HOME": self.folder}
        self.process = subprocess.Popen(words, stdout=quiet, stderr=quiet, env=home)
        self.rest, self.number = b"", 0
        try:
            self.socket = self.connect()
            self.hear()
            self.ask("WebDriver:NewSession", {})
        except BaseException:
            self.close()
            raise

    def connect(self) -> socket.socket:
        """A connection, once Firefox has written its port."""
        end = time.monotonic() + PATIENCE
        while time.monotonic() < end:
            try:
                with open(f"{self.folder}/MarionetteActivePort", encoding="utf-8") as port:
                    return socket.create_connection(("127.0.0.1", int(port.read())), timeout=PATIENCE)
            except (OSError, ValueError):
                time.sleep(0.1)
        raise RuntimeError("Firefox doesn't start")

    def hear(self) -> Any:
        """The next message: its length, a colon, and JSON."""
        while b":" not in self.rest or len(self.rest.partition(b":")[2]) < int(self.rest.partition(b":")[0]):
            piece = self.socket.recv(1 << 16)
            if not piece:
                raise RuntimeError("Firefox ended")
            self.rest += piece
        length, _, rest = self.rest.partition(b":")
        message, self.rest = rest[: int(length)], rest[int(length) :]
        return json.loads(message)

    def ask(self, command: str, parameters: dict[str, Any]) -> Any:
        """What Firefox answers to a command."""
        self.number += 1
        data = json.dumps([0, self.number, command, parameters]).encode()
        self.socket.sendall(str(len(data)).encode() + b":" + data)
        _, _, error, result = self.hear()
        if error:
            raise RuntimeError(f"{command}: {error.get('message')}")
        return result

    def run(self, script: str, *words: str) -> Any:
        """What a script gives."""
        return self.ask("WebDriver:ExecuteScript", {"script": script, "args": list(words)})["value"]

    def until(self, script: str, *words: str) -> None:
        """Waits until a script gives true."""
        end = time.monotonic() + PATIENCE
        while not self.run(script, *words):
            if time.monotonic() > end:
                raise RuntimeError(f"never true: {script} {words}")
            time.sleep(0.03)

    def give_file(self, selector: str, *paths: str) -> None:
        """Chooses files, as a reader does."""
        found = self.ask("WebDriver:FindElement", {"using": "css selector", "value": selector})["value"]
        self.ask("WebDriver:ElementSendKeys", {"id": next(iter(found.values())), "text": "\n".join(paths)})

    def saved(self, script: str, name: str, length: int) -> bytes:
        """The bytes of a file that a script saves, once it is as long as it must be."""
        self.run(script)
        path, end = f"{self.folder}/saved/{name}", time.monotonic() + MOST_SAVING
        while time.monotonic() < end and not (os.path.exists(path) and os.path.getsize(path) >= length):
            time.sleep(0.1)
        with open(path, "rb") as file:
            return file.read()

    def picture(self, path: str) -> None:
        """Takes a picture of the window."""
        data = self.ask("WebDriver:TakeScreenshot", {"full": False})["value"]
        with open(path, "wb") as out:
            out.write(base64.b64decode(data))

    def close(self) -> None:
        """Ends this Firefox, and no other."""
        self.process.terminate()
        try:
            self.process.wait(10)
        except subprocess.TimeoutExpired:
            self.process.kill()
        shutil.rmtree(self.folder, ignore_errors=True)


def hosts_after(listeners: list[Listener], seconds: float) -> list[str]:
    """The hosts of cases of the connections that came until now. Firefox makes others by itself."""
    time.sleep(seconds)
    found = {host for it in listeners for host in it.hosts if host.endswith(leaks.ZONE)}
    for it in listeners:
        it.hosts.clear()
    return sorted(found)


def try_cases(tests: Any, firefox: Firefox, listeners: list[Listener], folder: str) -> None:
    """No case connects in the reading room; the page of a case connects as it is."""
    leaks.make(f"{folder}/firefox.warc")
    connected = []
    firefox.ask("WebDriver:Navigate", {"url": f"file://{tests.page}"})
    firefox.give_file("#file", f"{folder}/firefox.warc")
    firefox.until("return /findings after/.test(document.getElementById('status').textContent)")
    for case in leaks.CASES:
        firefox.run(SHOW, f"{leaks.SITE}/{case.name}")
        firefox.until(SHOWN, f"{leaks.SITE}/{case.name}")
        time.sleep(SECONDS / 2)
        firefox.run(CLICK)
        hosts = hosts_after(listeners, SECONDS)
        connected += hosts
        tests.holds(not hosts, f"Firefox: {case.name}", hosts)
    tests.holds(not hosts_after(listeners, 2), "Firefox: none comes late")
    with open(f"{folder}/control.html", "w", encoding="utf-8") as page:
        page.write(leaks.hint("alive"))
    firefox.ask("WebDriver:Navigate", {"url": f"file://{folder}/control.html"})
    alive = hosts_after(listeners, 3)
    tests.holds(alive == [f"alive.{leaks.ZONE}"], "Firefox: it connects without protection", alive)
    print(f"Firefox: {len(connected)} of {len(leaks.CASES)} cases connect in the reading room", flush=True)


def opens_files(tests: Any, folder: str) -> None:
    """Two files that gzip compressed are one archive, and its list names the file of a record."""
    with open(f"{TOP}/examples/crawl.warc", "rb") as file:
        data = file.read()
    paths = [f"{folder}/{name}.warc.gz" for name in ("second", "first")]
    for path in paths:
        with open(path, "wb") as out:
            out.write(gzip.compress(data[:700]) + gzip.compress(data[700:]) + bytes(20))
    firefox = Firefox()
    try:
        firefox.ask("WebDriver:Navigate", {"url": f"file://{tests.page}"})
        firefox.give_file("#file", *paths)
        firefox.until(ENDED)
        status = firefox.run("return document.getElementById('status').textContent")
        tests.holds(status.startswith("36 records"), "Firefox: compressed files", status)
        tests.holds(set(firefox.run(FILES)) == {"first.warc.gz"}, "Firefox: the list names the file")
        is_capture = re.compile(rb"\r\nWARC-Type: *(response|resource|revisit)\r\n", re.IGNORECASE)
        wanted = b"".join(it for it in records_of(tests, f"{TOP}/examples/crawl.warc") if is_capture.search(it))
        saved = firefox.saved(SAVE, "records-of-archive.warc", 2 * len(wanted))
        tests.holds(saved == 2 * wanted, "Firefox: what the list shows is saved", (len(saved), 2 * len(wanted)))
    finally:
        firefox.close()


def no_connections(tests: Any, folder: str) -> None:
    """The cases in Firefox, where the ports can be had."""
    try:
        listeners = [Listener(port) for port in PORTS]
    except OSError as error:
        print(f"Firefox: left out, since its listeners can't have ports 80 and 443: {error}", flush=True)
        return
    firefox = None
    try:
        firefox = Firefox()
        try_cases(tests, firefox, listeners, folder)
    finally:
        for it in listeners:
            it.close()
        if firefox:
            firefox.close()


def in_firefox(tests: Any, folder: str) -> None:
    """All of them, where Firefox can be had."""
    if not is_there():
        return
    opens_files(tests, folder)
    no_connections(tests, folder)
