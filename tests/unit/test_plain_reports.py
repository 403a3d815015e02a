"""A failure whose text isn't UTF-8 hides no other test, where tests run in several processes."""
from __future__ import annotations

import os
import subprocess
import sys
from pathlib import Path

import pytest

TOP = os.path.dirname(os.path.dirname(os.path.dirname(os.path.abspath(__file__))))
TESTS = """
def test_fails():
    print("out \\udc8b")
    assert "\\udc8b" == "8b"


def test_passes():
    pass
"""


def test_no_test_is_hidden(tmp_path: Path) -> None:
    """The test after the one that fails is run by the same process."""
    pytest.importorskip("xdist")
    (tmp_path / "test_two.py").write_text(TESTS, encoding="ascii")
    words = [sys.executable, "-m", "pytest", "-q", "-n", "1", "-p", "tests.plain_reports", "--rootdir", str(tmp_path)]
    run = subprocess.run([*words, str(tmp_path)], cwd=TOP, capture_output=True, check=False)
    assert b"1 failed, 1 passed" in run.stdout, run.stdout.decode("utf-8", "replace")
