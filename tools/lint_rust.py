#!/usr/bin/env python3
"""Has clippy look at the Rust crate, its examples and its tests. Each of its warnings fails.

Clippy links nothing, so it is given an empty library where libwarc.a would be: it runs before the library is proved.
"""
import os
import subprocess
import sys

from shared import TOP

FOLDER = f"{TOP}/out/clippy"
WORDS = ("cargo", "clippy", "--quiet", "--offline", "--all-targets", f"--manifest-path={TOP}/rust/Cargo.toml")


def main() -> int:
    """Runs it, and answers its exit status."""
    os.makedirs(FOLDER, exist_ok=True)
    with open(f"{FOLDER}/libwarc.a", "wb") as library:
        library.write(b"!<arch>\n")
    places = {**os.environ, "ZOGWEDU_LIB": FOLDER, "CARGO_TARGET_DIR": FOLDER}
    return subprocess.run([*WORDS, "--", "-D", "warnings"], env=places, check=False).returncode


if __name__ == "__main__":
    sys.exit(main())
