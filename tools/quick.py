#!/usr/bin/env python3
"""Everything that can be known without a proof: some ten minutes on four slow processors, from a fresh clone.

The checks of the text and of the code that isn't proved; the suites, and the cases of commands, over programs that the
toolchain compiles with checks and doesn't prove (`rt try`); unit tests of Python and JavaScript, and the collection
over a stand-in for `warc`. The last line is `N passed, M failed`: each of these counts as one.
"""
from __future__ import annotations

import os
import subprocess
import sys
import time
from collections.abc import Callable
from concurrent.futures import ThreadPoolExecutor, as_completed
from typing import NamedTuple

from shared import TOP, crates

PYTHON = "/usr/bin/python3" if os.path.exists("/usr/bin/python3") else sys.executable
# `rt try` stops a program that runs longer. The suites take a minute or two.
SECONDS = "900"
SAID = 4000
# The suite of failures runs its commands thousands of times: a quarter of an hour as `rt try` compiles it.
OF_FAILURES = "suites_failures"


class Outcome(NamedTuple):
    """Whether a step passed, and what it said."""

    passed: bool
    said: str


def command(*words: str) -> Callable[[], Outcome]:
    """A step that runs a command at the top of the tree, and passes if its status is 0."""

    def step() -> Outcome:
        run = subprocess.run(words, cwd=TOP, stdin=subprocess.DEVNULL, capture_output=True, text=True, check=False)
        return Outcome(run.returncode == 0, run.stdout + run.stderr)

    return step


def tests(folder: str) -> Callable[[], Outcome]:
    """A step that runs the tests of a folder, in a process for each processor if Debian's python3-pytest-xdist is
    there."""
    has_processes = subprocess.run([PYTHON, "-c", "import xdist"], capture_output=True, check=False).returncode == 0
    processes = ("-n", str(os.cpu_count() or 1), "--dist=loadgroup") if has_processes else ()
    return command(PYTHON, "-m", "pytest", "-q", *processes, folder)


def suite(name: str) -> Callable[[], Outcome]:
    """A step that runs a suite as `rt try` does, and passes if it writes its report."""
    folder = f"{TOP}/crates/{name}"

    def step() -> Outcome:
        words = ["rt", "try", "--steps", "1", "--seconds", SECONDS]
        if os.path.exists(f"{folder}/args"):
            with open(f"{folder}/args", encoding="utf-8") as text:
                words += ["--", *(f"data/{line}" for line in text.read().splitlines())]
        script = f"{folder}/stdin" if os.path.exists(f"{folder}/stdin") else os.devnull
        with open(script, "rb") as cases, open(f"{folder}/stdout", encoding="utf-8") as report:
            run = subprocess.run(words, cwd=folder, stdin=cases, capture_output=True, text=True, check=False)
            return Outcome(run.returncode == 0 and run.stdout == report.read(), run.stdout + run.stderr)

    return step


def suites() -> dict[str, Callable[[], Outcome]]:
    """The suites, which are programs, but for the one of failures."""
    names = [name for name in crates() if os.path.exists(f"{TOP}/crates/{name}/src/main.rt")]
    return {name: suite(name) for name in names if name.startswith("suites_") and name != OF_FAILURES}


def steps() -> dict[str, Callable[[], Outcome]]:
    """All steps by name, the longest first."""
    return {
        **suites(),
        "cases of commands": command(PYTHON, "tests/cases/unproved.py"),
        "code that isn't proved": command(sys.executable, "tools/lint_code.py"),
        "collection": tests("tests/collection"),
        "unit tests": tests("tests/unit"),
        "pages": command(sys.executable, "tools/lint_docs.py"),
        "text": command(sys.executable, "tools/lint.py"),
    }


def main() -> int:
    """Runs all, as many at a time as there are processors."""
    failed, begun, found = 0, time.monotonic(), steps()
    with ThreadPoolExecutor(os.cpu_count() or 1) as pool:
        running = {pool.submit(step): name for name, step in found.items()}
        for done in as_completed(running):
            outcome = done.result()
            failed += not outcome.passed
            print(f"{running[done]:24} {'passed' if outcome.passed else 'FAILED'} {time.monotonic() - begun:5.0f} s")
            if not outcome.passed:
                print(outcome.said[-SAID:])
            sys.stdout.flush()
    print(f"{len(found) - failed} passed, {failed} failed")
    return 1 if failed else 0


if __name__ == "__main__":
    sys.exit(main())
