"""The build of the page: a folder that others may write to isn't used, a missing home is said, and packages that are
missing are named."""

from __future__ import annotations

import os
import subprocess
import sys
from typing import Any

TOP = os.path.dirname(os.path.dirname(os.path.dirname(os.path.abspath(__file__))))
WITHOUT_PURIFIER = "import build_page; build_page.PURIFIER = '/nowhere/purify.js'; build_page.purifier()"
WITHOUT_INFLATER = "import build_page; build_page.INFLATER = '/nowhere'; build_page.inflater()"
WITHOUT_TOKENIZER = "import build_page; build_page.TOKENIZER = '/nowhere'; build_page.tokenizer()"
MISSING = (
    ("node-dompurify", WITHOUT_PURIFIER),
    ("node-pako", WITHOUT_INFLATER),
    ("node-css-tree", WITHOUT_TOKENIZER),
)


def outcome(words: list[str], build: str = "", home: str = "") -> tuple[int, str]:
    """The status of a run in the folder of the tools, and what it said."""
    places = {"ZOGWEDU_BUILD": build, "XDG_CACHE_HOME": "", "HOME": home}
    words = [sys.executable, *words]
    env = {**os.environ, **places}
    run = subprocess.run(words, cwd=f"{TOP}/tools", env=env, capture_output=True, text=True, check=False)
    return run.returncode, run.stderr


def building(tests: Any, folder: str) -> None:
    """All of them."""
    shared = f"{folder}/shared"
    os.mkdir(shared)
    os.chmod(shared, 0o777)
    status, words = outcome(["build_page.py"], shared)
    tests.holds(status == 1 and "alone may write to" in words, "building: in a folder of others", (status, words))
    os.mkdir(f"{folder}/own", 0o700)
    os.symlink(f"{folder}/own", f"{folder}/link")
    status, words = outcome(["build_page.py"], f"{folder}/link")
    tests.holds(
        status == 1 and "alone may write to" in words, "building: in a folder that a link names", (status, words)
    )
    status, words = outcome(["build_page.py"])
    tests.holds(status == 1 and "set ZOGWEDU_BUILD" in words, "building: without a home", (status, words))
    status, words = outcome(["build_page.py"], home="/proc/nowhere")
    tests.holds(status == 1 and "set ZOGWEDU_BUILD" in words, "building: in a home that isn't there", (status, words))
    for package, code in MISSING:
        status, words = outcome(["-c", code])
        tests.holds(
            status == 1 and f"apt-get install {package}" in words, f"building: without {package}", (status, words)
        )
