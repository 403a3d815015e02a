#!/usr/bin/env python3
"""Makes the file copyright of a package and of a release: the project's, and that of each crate of the toolchain that
is linked into the program or the library, with the licence that the toolchain has for it.

Usage: make_copyright.py FILE
"""
from __future__ import annotations

import glob
import os
import re
import subprocess
import sys

from shared import below, crates, read

ROOTS = ("warc_tool", "warc_c", "warc_page")
USES = re.compile(r"^\s*(?:pub |ghost )?use (?:Rattle\.)?([a-z_0-9]+)", re.MULTILINE)


def kit() -> str:
    """The folder of the toolchain's crates."""
    done = subprocess.run(["rt", "doc"], capture_output=True, text=True, check=True)
    return f"{os.path.dirname(done.stdout.strip())}/rattle"


def used_by(folder: str) -> set[str]:
    """The crates that the source of a crate of the toolchain names."""
    found = set()
    for path in glob.glob(f"{folder}/src/**/*.rt", recursive=True):
        with open(path, encoding="utf-8") as source:
            found |= set(USES.findall(source.read()))
    return found


def linked(top: str) -> list[str]:
    """The crates of the toolchain that are linked in: those that the project's crates use, and those that they use."""
    uses = crates()
    waiting = {it for root in ROOTS for crate in below(root, uses) for it in uses[crate]} - set(uses)
    found: set[str] = set()
    while waiting:
        name = waiting.pop()
        if name not in found and os.path.isdir(f"{top}/{name}/src"):
            found.add(name)
            waiting |= used_by(f"{top}/{name}")
    return sorted(found)


def indented(lines: str) -> str:
    """A text as the lines of a field."""
    return "".join(f" {line.rstrip() or '.'}\n" for line in lines.strip("\n").splitlines())


def stanza(top: str, name: str) -> str:
    """What is said of a linked crate. One without a licence of its own is the toolchain's."""
    paths = sorted(glob.glob(f"{top}/{name}/LICENSE*"))
    if not paths:
        return ""
    path = next((it for it in paths if "MIT" in it), paths[0])
    with open(path, encoding="utf-8") as file:
        licence = file.read()
    holder = re.search(r"^\s*Copyright (?:\(c\) )?(.*?)\s*$", licence, re.MULTILINE)
    whose = holder[1] if holder and "notice" not in holder[1] else f"the authors of the crate {name}"
    return f"\nFiles: linked/{name}\nCopyright: {whose}\nLicense: MIT-{name}\n{indented(licence)}"


def text() -> str:
    """The whole file."""
    top = kit()
    names = linked(top)
    own = [name for name in names if not glob.glob(f"{top}/{name}/LICENSE*")]
    first, _, rest = read("packaging/debian/copyright").partition("\n\n")
    comment = (
        "Comment:\n The program and the library are built by the Rattle kit. linked/NAME is its crate NAME,\n"
        f" which is compiled into them. Those of the kit itself have no licence file: {', '.join(own)}.\n"
    )
    return f"{first}\n{comment}\n{rest.rstrip()}\n" + "".join(stanza(top, name) for name in names)


def main() -> None:
    """Writes the file."""
    with open(sys.argv[1], "w", encoding="utf-8") as out:
        out.write(text())


if __name__ == "__main__":
    main()
