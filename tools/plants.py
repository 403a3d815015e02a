#!/usr/bin/env python3
"""Tries the planted bugs of tests/plants/, each of which the prover must refuse; hours. The gate has some of its own.

What was proved on this machine is taken as it is, and so is a planted bug that was tried, where nothing that it rests
on has changed.

Usage: plants.py [NAME ..]    those of these crates alone
"""
from __future__ import annotations

import os
import sys

from proofs import Tree
from shared import TOP


def main(names: list[str]) -> None:
    """Tries them, and prints the last line of `rt ci`."""
    known = sorted(os.listdir(f"{TOP}/tests/plants"))
    unknown = [name for name in names if name not in known]
    if unknown:
        sys.exit(f"no planted bugs of {', '.join(unknown)} in tests/plants")
    folders = names or known
    edits = [
        f"tests/plants/{name}/{file}" for name in folders for file in sorted(os.listdir(f"{TOP}/tests/plants/{name}"))
    ]
    tree = Tree("plants")
    with tree.in_turn():
        print(f"{len(edits)} planted bugs: {tree.prove(folders, edits)}")


if __name__ == "__main__":
    main(sys.argv[1:])
