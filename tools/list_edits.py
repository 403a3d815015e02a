#!/usr/bin/env python3
"""Prints a line for each planted bug that the prover must refuse: its crate, the function, and what the bug does.

What it does is the line `why:` of its file, and else the name of the file.
"""
from __future__ import annotations

import glob
import os
import re

from shared import TOP, read


def function_of(crate: str, path: str, old: str) -> str:
    """The name of the function of a source file in which a line is."""
    before = read(f"crates/{crate}/{path}").partition(old)[0]
    names: list[str] = re.findall(r"^ *(?:pub(?:\([a-z]+\))? )?(?:const )?fn (\w+)", before, re.MULTILINE)
    return names[-1] if names else path


def main() -> None:
    """Prints them, in the order of their files."""
    in_gate = glob.glob(f"{TOP}/crates/*/must-fail/*.edit")
    for path in sorted(in_gate + glob.glob(f"{TOP}/tests/plants/*/*.edit")):
        crate = path.split("/")[-3 if path in in_gate else -2]
        text = read(os.path.relpath(path, TOP))
        lines = dict(re.findall(r"^(file|old|why): ?(.*)$", text, re.MULTILINE)[::-1])
        name = os.path.basename(path)[:-5].replace("_", " ")
        print(f"{crate}: {function_of(crate, lines['file'], lines['old'])}: {lines.get('why', name)}")


main()
