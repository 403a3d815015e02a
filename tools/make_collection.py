#!/usr/bin/env python3
"""Makes the one file `warc-collection` of the package in collection/, the same bytes each time.

Usage: make_collection.py FILE

The reading room that it serves is made of scripts of page/, of DOMPurify, pako and css-tree, of Debian's packages
node-dompurify, node-pako and node-css-tree. Where these aren't installed, the file has no room, and a line says so. The
server is waitress, of Debian's package python3-waitress. Where that isn't installed, the file has no server, and a line
says so.
"""
from __future__ import annotations

import io
import os
import sys
import zipapp
import zipfile

from build_page import INFLATER, INFLATER_LICENCE, NO_INFLATER, NO_TOKENIZER, PURIFIER, TOKENIZER, TOKENIZER_LICENCE
from build_page import debian, inflater, joined, numbers, purifier, quoted, tokenizer
from shared import TOP, read

SOURCE = f"{TOP}/collection"
# Python's archives begin in 1980: no file has a time of its own.
BEGINNING = (1980, 1, 1, 0, 0, 0)
SUFFIXES = (".py", ".css", ".html")
SERVER = "/usr/lib/python3/dist-packages/waitress"
SERVER_LICENCE = "/usr/share/doc/python3-waitress/copyright"
# It is for the command line of waitress, which isn't used.
LEFT_OUT = ("runner.py", "__main__.py")
ROOM = "zogwedu_collection/room"
# Modules of the Python package that this one needs too.
OF_PYTHON = ("_members.py", "_wacz.py", "_zip.py", "_surt.py", "_cdxj.py")
# Those of zogwedu.html that don't need the module, and the one that asks the server.
SCRIPTS = (
    *("shared.js", "elements.js", "members.js", "words.js", "stored.js", "nodes.js", "allowed.js", "style.js"),
    *("view.js", "pageview.js", "finding.js", "served.js"),
)
ABOUT_ROOM = """/* The script holds DOMPurify, (c) Cure53 and other contributors, under the Apache License 2.0:
{}
It also holds the files of pako that inflate, as Debian has them, under the Zlib licence and the MIT (Expat) licence:
{}
It also holds the tokenizer of css-tree, as Debian has it, under the MIT (Expat) licence:
{}
*/
"""


def members() -> list[tuple[str, bytes]]:
    """The files of the package, with their names below collection/, those of the room, and the modules of the Python
    package."""
    found = [os.path.join(at, name) for at, _, names in os.walk(SOURCE) for name in names]
    names = [os.path.relpath(path, SOURCE) for path in found if path.endswith(SUFFIXES)]
    of_python = ((f"zogwedu_collection/{name}", read(f"python/src/zogwedu/{name}").encode()) for name in OF_PYTHON)
    return sorted([*((name, content(name)) for name in names), *of_python, *room(), *server()])


def content(name: str) -> bytes:
    """The bytes of a file of the package."""
    return bytes_of(os.path.join(SOURCE, name))


def room() -> list[tuple[str, bytes]]:
    """The script and the style of the reading room; none where a part isn't installed."""
    if not all(map(os.path.exists, (PURIFIER, INFLATER, TOKENIZER))):
        print("made without the reading room: node-dompurify, node-pako or node-css-tree isn't there", file=sys.stderr)
        return []
    licences = (INFLATER_LICENCE, NO_INFLATER), (TOKENIZER_LICENCE, NO_TOKENIZER)
    about = ABOUT_ROOM.format(read("LICENSE-APACHE"), *(debian(*it, "Expat", r"\*/") for it in licences))
    parts = f"{purifier()}{inflater()}{tokenizer()}"
    script = f"{about}'use strict';\nconst NUMBERS = {quoted(numbers())};\n{parts}{joined(SCRIPTS)}"
    return [(f"{ROOM}.js", script.encode()), (f"{ROOM}.css", read("page/page.css").encode())]


def server() -> list[tuple[str, bytes]]:
    """The files of waitress, with their licence; none where it isn't installed."""
    if not os.path.isdir(SERVER):
        print("made without the server: python3-waitress isn't installed", file=sys.stderr)
        return []
    names = [name for name in os.listdir(SERVER) if name.endswith(".py") and name not in LEFT_OUT]
    paths = {f"waitress/{name}": f"{SERVER}/{name}" for name in names}
    return [(name, bytes_of(path)) for name, path in {**paths, "waitress/copyright": SERVER_LICENCE}.items()]


def bytes_of(path: str) -> bytes:
    with open(path, "rb") as file:
        return file.read()


def packed() -> io.BytesIO:
    """The files as an archive that Python runs."""
    out = io.BytesIO()
    with zipfile.ZipFile(out, "w", zipfile.ZIP_STORED) as archive:
        for name, data in members():
            info = zipfile.ZipInfo(name, BEGINNING)
            info.external_attr = 0o644 << 16
            archive.writestr(info, data)
    out.seek(0)
    return out


def make(path: str) -> None:
    """Writes the file, in the place of an older one."""
    os.makedirs(os.path.dirname(os.path.abspath(path)), exist_ok=True)
    zipapp.create_archive(packed(), f"{path}.new", "/usr/bin/env python3")
    os.chmod(f"{path}.new", 0o755)
    os.replace(f"{path}.new", path)


if __name__ == "__main__":
    make(sys.argv[1])
