"""Tests of small parts, which take no proved program: `python3 -m pytest tests/unit`, by Debian's Python."""
