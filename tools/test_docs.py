#!/usr/bin/env python3
"""Runs the command lines that the pages show over a built program, and compares what they write with what the page
says.

Usage: test_docs.py [--write] PROGRAM PAGE..

A block between ```console and ``` is run by one shell, in a folder with a copy of examples/, with the program first in
PATH, and `warc-collection` of the source tree. A line that begins with `$ ` is a command, and goes on in the next line
where it ends with a backslash; what follows is all that it writes, to standard output and standard error. The blocks of
a page share the folder. In a block that begins with ```sh each `make TARGET` has to be a target of the Makefile.
--write puts what was written into the page.
"""
from __future__ import annotations

import os
import re
import shlex
import shutil
import subprocess
import sys
import tempfile

from shared import TOP

BLOCK = re.compile(r"^```(console|sh)\n(.*?)^```$", re.MULTILINE | re.DOTALL)
END = "@@ end of a command"


def commands(block: str) -> list[list[str]]:
    """The commands of a block, each with the text that the page shows after it."""
    found: list[list[str]] = []
    goes_on = False
    for line in block.splitlines(keepends=True):
        if goes_on:
            found[-1][0] += line
        elif line.startswith("$ "):
            found.append([line[2:], ""])
        else:
            found[-1][1] += line
            continue
        goes_on = line.endswith("\\\n")
    return found


def run(block: str, folder: str, program: str) -> list[str]:
    """What each command of a block writes."""
    script = "".join(f"{words}s=$?; printf '%s\\n' '{END}'; (exit $s)\n" for words, _ in commands(block))
    path = f"{os.path.dirname(os.path.abspath(program))}:{folder}/.bin:{TOP}/shell:{os.environ['PATH']}"
    ran = subprocess.run(
        ["bash", "-c", script],
        cwd=folder,
        env={**os.environ, "PATH": path, "LC_ALL": "C"},
        stdin=subprocess.DEVNULL,
        stdout=subprocess.PIPE,
        stderr=subprocess.STDOUT,
        timeout=120,
    )
    return ran.stdout.decode(errors="replace").split(f"{END}\n")[:-1]


def put_collection(folder: str) -> None:
    """Puts a program into a folder that runs `warc-collection` of the source tree."""
    os.mkdir(folder)
    with open(f"{folder}/warc-collection", "w", encoding="utf-8") as out:
        out.write(f'#!/bin/sh\nexec /usr/bin/python3 {shlex.quote(TOP)}/collection "$@"\n')
    os.chmod(f"{folder}/warc-collection", 0o755)


def missing_targets(block: str) -> list[str]:
    """The targets of `make` lines that the Makefile doesn't have."""
    targets = [line.split() for line in block.splitlines() if re.match(r"make\b", line)]
    named = [word for words in targets for word in words[1:2] if re.fullmatch(r"[a-z-]+", word)]
    return [it for it in named if subprocess.run(["make", "-n", it], cwd=TOP, capture_output=True).returncode]


def try_page(page: str, program: str) -> tuple[str, str, int]:
    """Runs the blocks of a page; gives the page as it ought to be, and how many commands were run."""
    with open(page, encoding="utf-8") as text:
        old = text.read()
    count = 0

    def block_as_run(match: re.Match[str]) -> str:
        nonlocal count
        if match[1] == "sh":
            for it in missing_targets(match[2]):
                sys.exit(f"{page}: make {it}: no such target")
            return match[0]
        wrote = run(match[2], folder, program)
        lines = ""
        for (words, shown), text in zip(commands(match[2]), wrote):
            count += 1
            if shown != text:
                print(f"{page}: $ {words}the page shows:\n{shown}the program writes:\n{text}", end="")
            lines += f"$ {words}{text}"
        return f"```console\n{lines}```"

    with tempfile.TemporaryDirectory() as folder:
        shutil.copytree(f"{TOP}/examples", f"{folder}/examples")
        put_collection(f"{folder}/.bin")
        new = BLOCK.sub(block_as_run, old)
    return old, new, count


def main() -> None:
    words = sys.argv[1:]
    write = words[0] == "--write"
    program, *pages = words[write:]
    differ = 0
    for page in pages:
        old, new, count = try_page(page, program)
        differ += old != new
        print(f"{page}: {count} commands, {'as shown' if old == new else 'NOT as shown'}")
        if write and old != new:
            with open(page, "w", encoding="utf-8") as out:
                out.write(new)
    sys.exit(differ > 0 and not write)


main()
