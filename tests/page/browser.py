"""A headless Chromium that a script drives by the DevTools protocol, over a pipe, with Python's standard library
alone."""

from __future__ import annotations

import base64
import json
import os
import select
import shutil
import subprocess
import tempfile
import time
from collections.abc import Callable
from typing import Any

FLAGS = [
    "--headless=new",
    "--no-sandbox",
    "--no-first-run",
    "--disable-gpu",
    "--disable-extensions",
    "--hide-scrollbars",
    "--disable-background-networking",
    "--disable-component-update",
    "--disable-sync",
    "--remote-debugging-pipe",
    "--disable-dev-shm-usage",
    "--force-color-profile=srgb",
]

PATIENCE = 300  # seconds
# The page has heard what its worker answered until now, and has acted on it, and is drawn.
SETTLED = """(async () => {
  for (let turn = 0; turn < 8; turn += 1) {
    if (globalThis.room?.library?.worker) await room.library.send([{position: 0}]).catch(() => {});
    await new Promise((done) => requestAnimationFrame(() => setTimeout(done)));
  }
})()"""
SLOWNESS = float(os.environ.get("PAGE_SLOWNESS", "1"))  # how many times longer everything takes on a busy computer
CONTROLS = ("button", "textbox", "searchbox", "combobox", "grid", "tab", "tabpanel", "image", "Iframe")


class Browser:
    """One browser with one page. Events of the page are kept as they come."""

    def __init__(
        self, program: str = "chromium", size: Any = (1440, 1000), dark: bool = False, flags: Any = ()
    ) -> None:
        self.folder = tempfile.mkdtemp(prefix="zogwedu-browser-")
        to_read, self.to_write = os.pipe()
        self.to_hear, to_tell = os.pipe()

        def connect() -> None:
            os.dup2(to_read, 3)
            os.dup2(to_tell, 4)

        os.set_inheritable(to_read, True)
        os.set_inheritable(to_tell, True)
        high = [os.dup(to_read), os.dup(to_tell)]
        self.process = subprocess.Popen(
            [
                program,
                *FLAGS,
                *flags,
                f"--user-data-dir={self.folder}",
                f"--window-size={size[0]},{size[1]}",
                "about:blank",
            ],
            preexec_fn=connect,
            close_fds=False,
            stdout=subprocess.DEVNULL,
            stderr=subprocess.DEVNULL,
        )
        for end in (to_read, to_tell, *high):
            os.close(end)
        self.rest, self.number = b"", 0
        self.events: list[Any] = []
        self.session = self.ask("Target.attachToTarget", {"targetId": self.first_page(), "flatten": True}, None)[
            "sessionId"
        ]
        for domain in ("Page", "Runtime", "Network", "Log", "DOM", "Audits"):
            self.ask(f"{domain}.enable")
        self.ask("Target.setAutoAttach", {"autoAttach": True, "waitForDebuggerOnStart": False, "flatten": True})
        self.ask(
            "Emulation.setEmulatedMedia",
            {"features": [{"name": "prefers-color-scheme", "value": "dark" if dark else "light"}]},
        )
        self.ask(
            "Emulation.setDeviceMetricsOverride",
            {"width": size[0], "height": size[1], "deviceScaleFactor": 1, "mobile": False},
        )

    def first_page(self) -> str:
        """The page that the browser begins with, as soon as it is there."""
        end = time.monotonic() + PATIENCE
        while time.monotonic() < end:
            for target in self.ask("Target.getTargets", session=None)["targetInfos"]:
                if target["type"] == "page":
                    return str(target["targetId"])
            time.sleep(0.05)
        raise RuntimeError("the browser has no page")

    def hear(self) -> Any:
        """The next message of the browser."""
        while b"\0" not in self.rest:
            if not select.select([self.to_hear], [], [], PATIENCE)[0]:
                raise RuntimeError("the browser doesn't answer")
            piece = os.read(self.to_hear, 1 << 20)
            if not piece:
                raise RuntimeError("the browser ended")
            self.rest += piece
        message, _, self.rest = self.rest.partition(b"\0")
        return json.loads(message)

    def ask(self, method: str, params: Any = None, session: str | None = "page") -> Any:
        """What the browser answers to a command."""
        self.number += 1
        message = {"id": self.number, "method": method, "params": params or {}}
        if session:
            message["sessionId"] = self.session if session == "page" else session
        data = json.dumps(message).encode() + b"\0"
        while data:
            data = data[os.write(self.to_write, data) :]
        wanted = self.number
        while True:
            heard = self.hear()
            if heard.get("id") == wanted:
                if "error" in heard:
                    raise RuntimeError(f"{method}: {heard['error']}")
                return heard["result"]
            if "method" in heard:
                self.events.append(heard)
                if heard["method"] == "Target.attachedToTarget":
                    self.watch(heard["params"]["sessionId"], heard["params"]["targetInfo"])

    def watch(self, session: str | None, target: str) -> None:
        """Also hears what a frame or a worker loads."""
        for domain in ("Network", "Audits", "Log"):
            self.number += 1
            message = {"id": self.number, "method": f"{domain}.enable", "params": {}, "sessionId": session}
            os.write(self.to_write, json.dumps(message).encode() + b"\0")

    def run(self, code: str, wait: bool = True) -> Any:
        """The value of an expression in the page."""
        result = self.ask(
            "Runtime.evaluate",
            {"expression": code, "awaitPromise": wait, "returnByValue": True, "allowUnsafeEvalBlockedByCSP": True},
        )
        if "exceptionDetails" in result:
            details = result["exceptionDetails"]
            raise RuntimeError(details.get("exception", {}).get("description") or details["text"])
        return result["result"].get("value")

    def until(self, code: str, seconds: int = 60) -> float:
        """Waits until an expression is true, and gives how long that took."""
        begun = time.monotonic()
        while not self.run(code):
            if time.monotonic() - begun > seconds * SLOWNESS:
                raise RuntimeError(
                    f"never true: {code}; the page says: {self.run('document.body.innerText.slice(-300)')}"
                )
            time.sleep(0.02)
        return time.monotonic() - begun

    def settle(self) -> None:
        """Waits until what was begun has come to its end: for what must not happen."""
        self.run(SETTLED)

    def connect(self, url: str, is_there: Callable[[], bool]) -> None:
        """Opens an address in a window of its own, and waits until something is there, such as its connection."""
        target, end = self.ask("Target.createTarget", {"url": url}, session=None)["targetId"], time.monotonic() + 60
        while not is_there():
            if time.monotonic() > end:
                raise RuntimeError(f"the browser doesn't open {url}")
            self.run("0")  # so that the browser's events are read
            time.sleep(0.01)
        self.ask("Target.closeTarget", {"targetId": target}, session=None)

    def go(self, path: str) -> None:
        self.ask("Page.navigate", {"url": f"file://{path}"})
        self.until("document.readyState === 'complete' && typeof room === 'object'")

    def give_file(self, selector: str, *paths: str) -> None:
        """Chooses files, as a reader does."""
        root = self.ask("DOM.getDocument")["root"]["nodeId"]
        node = self.ask("DOM.querySelector", {"nodeId": root, "selector": selector})["nodeId"]
        self.ask("DOM.setFileInputFiles", {"nodeId": node, "files": [os.path.abspath(path) for path in paths]})

    def press(self, key: str, text: str = "") -> None:
        for kind in ("keyDown", "keyUp"):
            self.ask(
                "Input.dispatchKeyEvent",
                {
                    "type": kind,
                    "key": key,
                    "code": key,
                    **({"text": text} if text and kind == "keyDown" else {}),
                    "windowsVirtualKeyCode": {
                        "Tab": 9,
                        "Enter": 13,
                        "ArrowDown": 40,
                        "ArrowUp": 38,
                        "Home": 36,
                        "End": 35,
                        "Escape": 27,
                    }.get(key, 0),
                },
            )

    def nameless(self) -> list[Any]:
        """The attributes of each control that has no name for readers who hear the page."""
        tree = self.ask("Accessibility.getFullAXTree")["nodes"]
        found = [
            it["backendDOMNodeId"]
            for it in tree
            if it.get("role", {}).get("value") in CONTROLS
            and not it.get("ignored")
            and not it.get("name", {}).get("value")
        ]
        return [self.ask("DOM.describeNode", {"backendNodeId": it})["node"].get("attributes") for it in found]

    def picture(self, path: str, whole: bool = False) -> None:
        data = self.ask("Page.captureScreenshot", {"format": "png", "captureBeyondViewport": whole})["data"]
        with open(path, "wb") as out:
            out.write(base64.b64decode(data))

    def close(self) -> None:
        """Ends this browser, and no other."""
        try:
            self.ask("Browser.close", session=None)
        except (RuntimeError, OSError):
            pass
        try:
            self.process.wait(10)
        except subprocess.TimeoutExpired:
            self.process.kill()
        shutil.rmtree(self.folder, ignore_errors=True)
