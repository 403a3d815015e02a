#!/usr/bin/env python3
"""Looks for `unsafe` in the Rust crate outside of raw.rs, where all of it is."""
import glob
import re
import sys

from shared import TOP, read


def main() -> int:
    """Prints each file that has some."""
    paths = [path[len(TOP) + 1 :] for path in glob.glob(f"{TOP}/rust/**/*.rs", recursive=True)]
    found = [path for path in paths if path != "rust/src/raw.rs" and re.search(r"\bunsafe\b", read(path))]
    print("\n".join(found), end="")
    return 1 if found else 0


if __name__ == "__main__":
    sys.exit(main())
