#!/usr/bin/env python3
"""Proves the crates of the program, and builds bin/warc.

What the gate or an earlier run proved on this machine is taken as it is. A line is printed for each crate when it is
done, with the seconds since the beginning.
"""
from __future__ import annotations

import os
import time

from proofs import Tree
from shared import TOP, put_copy

PROGRAM = "warc_tool"


def main() -> None:
    begin = time.monotonic()
    tree = Tree("program")
    with tree.in_turn():
        tree.prove([PROGRAM])
        os.makedirs(f"{TOP}/bin", exist_ok=True)
        put_copy(f"{tree.folder(PROGRAM)}/out/{PROGRAM}", f"{TOP}/bin/warc")
    print(f"bin/warc is built, {time.monotonic() - begin:.0f} s in all")


if __name__ == "__main__":
    main()
