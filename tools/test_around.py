#!/usr/bin/env python3
"""Tries what people touch, over what was built: the pages' command lines and samples, cases of commands, zwarc, Python,
C, Rust, the wheel, files of other programs, the collection, and the reading room in Chromium.

Usage: test_around.py [WORD ..]

Takes bin/warc, out/lib and zogwedu.html as they are. The words go to pytest: `-k WORD` picks tests. The tests are
pytest's, by Debian's own Python, in several processes. They need neither root nor a network. With CI=true what they
need is installed first, and a test that is left out is a failure. Reports are under out/around. The last line is 'N
passed, M failed', and the status is 1 if a test failed, or none was tried.
"""
from __future__ import annotations

import concurrent.futures
import dataclasses
import os
import subprocess
import sys
import time
import xml.etree.ElementTree

from shared import TOP

PYTHON = "/usr/bin/python3"
OUT = f"{TOP}/out/around"
BUILT = ("bin/warc", "out/lib/libwarc.so", "out/lib/libwarc.a", "out/lib/warc.h", "zogwedu.html")
PACKAGE = ("python", "compressed", "verdicts", "edges", "heads", "packages", "wheel")
CALLERS = tuple(f"tests/callers/test_{name}.py" for name in PACKAGE)
MOST_SECONDS = 2400
NONE_PICKED = 5  # pytest's status where no test was picked
# Why a test may be left out also where everything has to be there: only root can mount, and not everywhere.
MAY_BE_LEFT_OUT = ("no small disk can be made here",)
IS_CI = os.environ.get("CI") == "true"


@dataclasses.dataclass
class Lane:
    """A run of pytest over folders, in some processes, and what came of it. Each has its own `conftest`."""

    name: str
    paths: tuple[str, ...]
    processes: int
    passed: int = 0
    failed: int = 0

    def words(self, more: list[str]) -> list[str]:
        """The command."""
        words = [PYTHON, "-m", "pytest", "-q", "-rfEs", "--durations=12", f"--junitxml={OUT}/{self.name}.xml"]
        words += ["-p", "tests.plain_reports"]
        words += ["-o", f"cache_dir={OUT}/cache-{self.name}", "--continue-on-collection-errors", "--tb=short"]
        return [*words, "-n", str(self.processes), "--dist=loadgroup", *more, *self.paths]

    def run(self, more: list[str]) -> None:
        """Runs it. Its output is printed when it is at its end."""
        begun, report = time.monotonic(), f"{OUT}/{self.name}.xml"
        try:
            done = subprocess.run(
                self.words(more),
                cwd=TOP,
                stdin=subprocess.DEVNULL,
                stdout=subprocess.PIPE,
                stderr=subprocess.STDOUT,
                timeout=MOST_SECONDS,
                check=False,
            )
            text, status = done.stdout, done.returncode
        except subprocess.TimeoutExpired as error:
            text, status = error.stdout or b"", 124
        self.count(report, bool(more))
        if not self.failed and status != 0 and not (more and status == NONE_PICKED):
            self.failed += 1
        print(f"== {self.name}, {time.monotonic() - begun:.0f} s, status {status}", flush=True)
        sys.stdout.write(text.decode(errors="replace"))
        sys.stdout.flush()

    def count(self, report: str, is_picked: bool) -> None:
        """Counts the tests of a report. Where there is none, or no test in it, that is a failure."""
        cases = list(xml.etree.ElementTree.parse(report).iter("testcase")) if os.path.exists(report) else []
        for case in cases:
            tags = {child.tag: child.get("message", "") for child in case}
            is_left_out = "skipped" in tags
            is_fine = not IS_CI or tags.get("skipped", "") in MAY_BE_LEFT_OUT
            failed = bool({"failure", "error"} & set(tags)) or (is_left_out and not is_fine)
            self.failed += failed
            self.passed += not failed and not is_left_out
        if not cases and not is_picked:
            self.failed += 1


def lanes() -> list[list[Lane]]:
    """What runs side by side, and in each of these one after another."""
    there = [name for name in ("unit", "cases", "collection") if os.path.isdir(f"{TOP}/tests/{name}")]
    return [[Lane("around", ("tests/around", *CALLERS), 3)], [Lane(name, (f"tests/{name}",), 2) for name in there]]


def run_all(some: list[Lane], more: list[str]) -> None:
    """Runs lanes, one after another."""
    for lane in some:
        lane.run(more)


def prepared() -> bool:
    """Whether what was built is there, and what is needed is installed. Puts the Python package together."""
    missing = [path for path in BUILT if not os.path.exists(f"{TOP}/{path}")]
    for path in missing:
        print(f"{path} isn't there", flush=True)
    steps = [["bash", "tools/need.sh", "around"]] if IS_CI else []
    steps += [] if missing else [["bash", "tests/callers/package.sh"]]
    return all(subprocess.run(words, cwd=TOP, check=False).returncode == 0 for words in steps) and not missing


def main() -> int:
    """Runs everything."""
    os.makedirs(OUT, exist_ok=True)
    for name in os.listdir(OUT):
        if name.endswith(".xml"):
            os.remove(f"{OUT}/{name}")
    if not prepared():
        print("0 passed, 1 failed")
        return 1
    begun, every = time.monotonic(), lanes()
    with concurrent.futures.ThreadPoolExecutor(len(every)) as pool:
        list(pool.map(lambda some: run_all(some, sys.argv[1:]), every))
    passed = sum(lane.passed for some in every for lane in some)
    failed = sum(lane.failed for some in every for lane in some)
    print(f"around: {time.monotonic() - begun:.0f} s")
    print(f"{passed} passed, {failed} failed", flush=True)
    return 0 if passed and not failed else 1


if __name__ == "__main__":
    sys.exit(main())
