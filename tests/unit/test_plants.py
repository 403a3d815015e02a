"""What tools/plants.py says of a crate that has no planted bugs of its own."""
from __future__ import annotations

import subprocess
import sys

from shared import TOP


def test_a_crate_without_planted_bugs_is_named() -> None:
    words = [sys.executable, f"{TOP}/tools/plants.py", "warc_order", "warc_odrer"]
    ran = subprocess.run(words, check=False, capture_output=True, text=True, timeout=60)
    assert (ran.returncode, ran.stdout) == (1, "")
    assert ran.stderr == "no planted bugs of warc_odrer in tests/plants\n"
