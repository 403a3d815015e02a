#!/usr/bin/env python3
"""Runs the program as the toolchain compiles it with checks, before any proof: about a minute until it starts.

Usage: FILE=my.warc RUN="check my.warc" try_program.py

Without both it lists examples/abc.warc. With FILE it lists that file, and with RUN it runs that command line. A file
that gzip or zstd compressed is decompressed first.
"""
from __future__ import annotations

import os
import shlex
import subprocess
import sys
import tempfile

from shared import TOP

SECONDS = 60
PACKERS = {b"\x1f\x8b": "gzip", b"\x28\xb5\x2f\xfd": "zstd"}
NOTE = f"""Compiled with checks, and not proved: nothing that the pages promise of the program is promised of this run.
It is some five times slower, and is stopped after {SECONDS} seconds. `make` builds the proved program."""


def unpacked(path: str, folder: str) -> str:
    """The path of what a file holds: its own, or that of a copy in the folder if it is compressed."""
    with open(path, "rb") as file:
        begin = file.read(4)
    packer = next((name for mark, name in PACKERS.items() if begin.startswith(mark)), None)
    if not packer:
        return os.path.abspath(path)
    name = f"{folder}/{len(os.listdir(folder))}.warc"
    with open(path, "rb") as file, open(name, "wb") as out:
        done = subprocess.run([packer, "-dc"], stdin=file, stdout=out, check=False)
    if done.returncode:
        more = "docs/FIRST-HOUR.md says what to do with a damaged file"
        sys.exit(f"{path} can't be decompressed: {packer} ended with status {done.returncode}; {more}")
    return name


def words_wanted() -> list[str]:
    """The words that the program is run with."""
    if os.environ.get("RUN"):
        return shlex.split(os.environ["RUN"])
    return ["list", os.environ.get("FILE") or f"{TOP}/examples/abc.warc"]


def main() -> int:
    """Runs the program, and ends with its status."""
    words = words_wanted()
    print(f"{NOTE}\n\nwarc {shlex.join(words)}", flush=True)
    with tempfile.TemporaryDirectory(prefix="zogwedu-try-") as folder:
        os.chmod(folder, 0o755)
        paths = [unpacked(word, folder) if os.path.isfile(word) else word for word in words]
        command = ["rt", "try", "--seconds", str(SECONDS), "--", *paths]
        return subprocess.run(command, cwd=f"{TOP}/crates/warc_tool", check=False).returncode


if __name__ == "__main__":
    sys.exit(main())
