#!/usr/bin/env python3
"""Proves the crates of the library that C, Python and Rust call, and puts libwarc.a, libwarc.so and warc.h under
out/lib.

What the gate, `make` or an earlier run proved on this machine is taken as it is. The libraries are the proved
functions, c/warc.c, and what the toolchain has of the C library's memory (liblibc_c.a).
"""
from __future__ import annotations

import os
import re
import shutil
import subprocess
import sys
import tempfile
import time
from collections.abc import Sequence

from proofs import Tree, kit
from shared import TOP, matched, read

CRATE = "warc_c"
OUT = f"{TOP}/out/lib"
COMPILER = os.environ.get("CC", "cc")
FLAGS = ["-std=c11", "-O2", "-fPIC", "-Wall", "-Wextra", "-Wconversion", "-ffile-prefix-map=" + TOP + "=."]


def run(words: Sequence[str], folder: str) -> None:
    """Runs a command, whose failure ends this script."""
    if subprocess.run(words, cwd=folder, check=False).returncode:
        sys.exit(f"failed: {' '.join(words)}")


def exported() -> list[str]:
    """The names that c/warc.map lists: what both libraries show."""
    return re.findall(r"\b(warc_\w+);", read("c/warc.map"))


def abi() -> str:
    """The version of the interface, which is part of the library's name."""
    return matched(re.search(r"^#define WARC_ABI_VERSION (\d+)$", read("c/warc.h"), re.MULTILINE))[1]


def link_static(objects: Sequence[str], folder: str) -> None:
    """Makes libwarc.a of one object, which shows the calls of warc.h alone."""
    run([COMPILER, "-r", "-nostdlib", "-o", "whole.o", *objects], folder)
    keep = [f"--keep-global-symbol={name}" for name in exported()]
    run(["objcopy", *keep, "whole.o", "libwarc.o"], folder)
    if os.path.exists(f"{OUT}/libwarc.a"):
        os.remove(f"{OUT}/libwarc.a")
    run(["ar", "rcsD", f"{OUT}/libwarc.a", "libwarc.o"], folder)


def link_shared(objects: Sequence[str], folder: str) -> None:
    """Makes libwarc.so.N, whose symbols have a version, and libwarc.so, the same file: the gate stops at a symbolic
    link anywhere in the checkout, so tools/install.py makes that."""
    name = f"libwarc.so.{abi()}"
    run(
        [
            COMPILER,
            "-shared",
            "-o",
            f"{OUT}/{name}",
            f"-Wl,--version-script={TOP}/c/warc.map",
            f"-Wl,-soname,{name}",
            "-Wl,-z,defs",
            "-Wl,-z,now",
            "-Wl,-z,relro",
            "-Wl,--gc-sections",
            "-Wl,--build-id=none",
            *objects,
        ],
        folder,
    )
    if os.path.lexists(f"{OUT}/libwarc.so"):
        os.remove(f"{OUT}/libwarc.so")
    os.link(f"{OUT}/{name}", f"{OUT}/libwarc.so")


def link(proved: str, memory: str) -> None:
    """Puts both libraries and the header under out/lib. `proved` and `memory` are archives of objects."""
    os.makedirs(OUT, exist_ok=True)
    shutil.copyfile(f"{TOP}/c/warc.h", f"{OUT}/warc.h")
    with tempfile.TemporaryDirectory() as folder:
        run([COMPILER, *FLAGS, "-c", f"{TOP}/c/warc.c", "-o", f"{folder}/warc.o"], folder)
        for archive in (proved, memory):
            run(["ar", "x", archive], folder)
        objects = sorted(name for name in os.listdir(folder) if name.endswith(".o"))
        link_static(objects, folder)
        link_shared(objects, folder)


def main() -> None:
    """Proves, builds and links."""
    begin = time.monotonic()
    tree = Tree("library")
    with tree.in_turn():
        link(f"{tree.build_static(CRATE, 'staticlib')}/out/lib{CRATE}.a", f"{kit()}/c/liblibc_c.a")
    print(f"out/lib has libwarc.a, libwarc.so and warc.h, {time.monotonic() - begin:.0f} s in all")


if __name__ == "__main__":
    main()
