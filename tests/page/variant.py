"""The built page with other code in places, for a test."""

from __future__ import annotations

import base64
import hashlib
import re


def variant(page: str, path: str, changes: dict[str, str]) -> str:
    """Writes the page with each text of its script changed, and with the digest of the script that its policy then
    wants."""
    with open(page, encoding="utf-8", newline="") as text:
        whole = text.read()
    start, end = whole.rindex("<script>") + 8, whole.rindex("</script>")
    before, script, after = whole[:start], whole[start:end], whole[end:]
    for old, new in changes.items():
        if script.count(old) != 1:
            raise RuntimeError(f"the page has {script.count(old)} times: {old}")
        script = script.replace(old, new)
    digest = base64.b64encode(hashlib.sha256(script.encode()).digest()).decode()
    with open(path, "w", encoding="utf-8", newline="") as out:
        out.write(re.sub(r"sha256-[\w+/=]+", f"sha256-{digest}", before, count=1) + script + after)
    return path
