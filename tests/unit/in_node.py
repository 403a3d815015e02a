"""Runs the page's scripts in node, without a page."""
from __future__ import annotations

import json
import os
import shutil
import subprocess
from typing import Any, Sequence

import pytest

TOP = os.path.dirname(os.path.dirname(os.path.dirname(os.path.abspath(__file__))))
SECONDS = 300
# What the scripts ask of a browser as they are read, and node doesn't have.
AROUND = "const window = globalThis, module = undefined;\n"
TELL = """
const asJson = (_, value) => value instanceof Uint8Array ? Buffer.from(value).toString('hex') : value;
Promise.resolve((%s)(...%s)).then((it) => console.log(JSON.stringify(it ?? null, asJson)));
"""


def without(what: str) -> None:
    """Leaves a test out since something isn't installed, which is a failure where everything has to be."""
    if os.environ.get("CI") == "true":
        pytest.fail(f"{what} isn't installed")
    pytest.skip(f"{what} isn't installed")


def in_node(names: Sequence[str], function: str, *values: object, before: str = "") -> Any:
    """What a function gives for values, after the page's scripts of these names. Bytes come as hexadecimal digits."""
    if shutil.which("node") is None:
        without("node")
    texts = []
    for name in names:
        with open(f"{TOP}/page/{name}", encoding="utf-8") as file:
            texts.append(file.read())
    script = AROUND + before + "\n".join(texts) + TELL % (function, json.dumps(values))
    done = subprocess.run(["node", "-"], input=script, capture_output=True, text=True, timeout=SECONDS, check=False)
    assert done.returncode == 0, done.stderr[-2000:]
    return json.loads(done.stdout)
