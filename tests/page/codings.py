"""How coded bodies are read: the cases that Python's tests read too, in the browser."""

from __future__ import annotations

import base64
import json
import os
from typing import Any

from browser import Browser

CASES = os.path.join(os.path.dirname(os.path.dirname(os.path.abspath(__file__))), "callers", "codings.json")
OPTIONAL = {"br": "brotli", "zstd": "zstd"}  # codings that not every browser undoes, by the formats' names

GIVES = """async (blocks) => {
  const found = [], hex = (byte) => byte.toString(16).padStart(2, '0');
  for (const block of blocks) {
    try {
      const bytes = Uint8Array.from(atob(block), (it) => it.charCodeAt(0)), front = bytes.subarray(0, MOST_OF_HEAD);
      const [{http}] = await room.library.heads([{head: null, front}]);
      const {body, steps} = await decoded(bytes, http && httpHead(http, bytes));
      found.push({gives: [...body].map(hex).join(''), undone: steps});
    } catch (error) {
      found.push({fails: error.coding ?? String(error)});
    }
  }
  return found;
}"""
HAS = "(() => { try { return Boolean(new DecompressionStream('%s')); } catch { return false; } })()"


def block_of(case: dict[str, Any]) -> bytes:
    """A block of HTTP with the status, the fields and the body of a case."""
    lines = [f"HTTP/1.1 {case['status']} x", *(f"{name}: {value}" for name, value in case["fields"])]
    return "".join(f"{line}\r\n" for line in [*lines, ""]).encode("latin-1") + bytes.fromhex(case["body"])


def lacks(case: dict[str, Any], missing: list[str]) -> bool:
    """Whether a case needs a coding that the browser doesn't have."""
    named = ",".join(value for name, value in case["fields"] if name.lower().endswith("encoding"))
    return any(coding in named.split(",") for coding in missing)


def codings(tests: Any) -> None:
    """Each case gives the bytes and the codings that it states, or fails at the coding that it states."""
    with open(CASES, encoding="utf-8") as file:
        cases = json.load(file)
    browser = Browser()
    try:
        browser.go(tests.page)
        missing = [coding for coding, format in OPTIONAL.items() if not browser.run(HAS % format)]
        cases = [case for case in cases if not lacks(case, missing)]
        blocks = [base64.b64encode(block_of(case)).decode() for case in cases]
        for case, found in zip(cases, browser.run(f"({GIVES})({json.dumps(blocks)})")):
            wanted = {name: case[name] for name in ("fails", "undone", "gives") if name in case}
            tests.holds(found == wanted, f"codings: {case['name']}", found)
        print(f"codings: {len(cases)} cases, without {missing}", flush=True)
    finally:
        browser.close()
