#!/usr/bin/env python3
"""Everything that must pass before a change lands: `make test`, and what CI runs.

First the checks of the text and of the code that isn't proved; then `rt ci`, which proves each crate, tries planted
bugs, and runs the suites; then the program, the library and the page are put in place of what was proved, and what
people touch is tested over them. The tree is tested as it is. The last line is `N passed, M failed`, of all together,
and the status is 0 exactly if M is 0.
"""
from __future__ import annotations

import re
import subprocess
import sys
import time
from collections.abc import Sequence

import proofs
from shared import TOP

FIRST = """Checks the tree as it is, proves each crate, tries planted bugs, and tests what people touch. That takes some
two hours on four processors. Where the kit kept the proofs of all of it, it takes a quarter of an hour."""
COUNTS = re.compile(r"^(\d+) passed, (\d+) failed$")
# What runs alone, in this order; none begins where one before it failed.
CHECKS = (
    ("python3", "tools/lint.py"),
    ("python3", "tools/lint_docs.py"),
    ("python3", "tools/lint_code.py"),
)
BUILDS = (("python3", "tools/build.py"), ("python3", "tools/build_lib.py"), ("python3", "tools/build_page.py"))


class Counts:
    """How many have passed and failed so far."""

    def __init__(self) -> None:
        self.passed, self.failed, self.begun = 0, 0, time.monotonic()

    def run(self, words: Sequence[str]) -> bool:
        """Runs a command and shows what it prints; returns whether it passed. It counts as what its last line says, or
        else as one."""
        minutes = (time.monotonic() - self.begun) / 60
        print(f"== {' '.join(words)} (minute {minutes:.0f})", flush=True)
        last = ""
        with subprocess.Popen(
            words,
            cwd=TOP,
            env=proofs.side_by_side(),
            stdin=subprocess.DEVNULL,
            stdout=subprocess.PIPE,
            stderr=subprocess.STDOUT,
            text=True,
            errors="replace",
        ) as run:
            for line in run.stdout or ():
                print(line, end="", flush=True)
                last = line.strip() or last
        found = COUNTS.match(last)
        passed, failed = (int(found[1]), int(found[2])) if found else (int(not run.returncode), 0)
        failed = max(failed, 1) if run.returncode else failed
        self.passed, self.failed = self.passed + passed, self.failed + failed
        return failed == 0

    def run_all(self, commands: Sequence[Sequence[str]]) -> bool:
        """Runs commands, one after another, until one fails; returns whether all passed."""
        return all(self.run(words) for words in commands)


def main() -> int:
    """Runs everything."""
    print(FIRST, flush=True)
    counts = Counts()
    if counts.run_all(CHECKS) and counts.run(["rt", "ci"]):
        proofs.keep_proved(TOP)
        if counts.run_all(BUILDS):
            counts.run(["python3", "tools/test_around.py"])
    print(f"{counts.passed} passed, {counts.failed} failed")
    return 1 if counts.failed else 0


if __name__ == "__main__":
    sys.exit(main())
