#!/usr/bin/env python3
"""Checks the code that isn't proved: its types, its layout, and the tools' own warnings.

Each check names the programs and files that it needs. Where one isn't installed, the check is left out, and a line says
so. With CI=true what is missing is installed first, and a check that still can't run is a failure. A check that runs
and fails ends this script with 1, after all others have run. So does a Python file whose types or whose layout no check
looks at.
"""
from __future__ import annotations

import dataclasses
import glob
import os
import shutil
import subprocess
import sys
from concurrent.futures import ThreadPoolExecutor

from shared import TOP


@dataclasses.dataclass(frozen=True)
class Check:
    """One command, run in the top folder."""

    name: str
    words: tuple[str, ...]
    programs: tuple[str, ...] = ()  # beside the first word
    files: tuple[str, ...] = ()

    def lacks(self) -> list[str]:
        """Which of the programs and files that it needs aren't here."""
        programs = [name for name in (self.words[0], *self.programs) if not shutil.which(name)]
        return programs + [path for path in self.files if not os.path.exists(path)]

    def said(self) -> str:
        """Runs it, and returns what it wrote if it failed, or else nothing."""
        run = subprocess.run(self.words, cwd=TOP, capture_output=True, text=True, check=False)
        return (run.stdout + run.stderr or "it failed and said nothing\n") if run.returncode else ""


def scripts(folder: str) -> tuple[str, ...]:
    """The Python files of a folder."""
    return tuple(path[len(TOP) + 1 :] for path in sorted(glob.glob(f"{TOP}/{folder}/*.py")))


PACKAGES = "tests/reference/packages.py"  # makes what tests read
SCRIPTS = "tests/cases/cases_script.py"  # reads the cases, of which tools/make_program.py makes examples
PROVING = ("tools/proofs.py", "tools/shared.py")
# Tests of scripts for the machine.
MACHINE = ("tests/tools/test_install.py", "tests/tools/test_proofs.py", "tests/stress/zwarc.py", PACKAGES)

SHELL = (
    *(".ci/run", "shell/zwarc", "tools/need.sh", "packaging/build.sh", "packaging/test.sh"),
    *(f"packaging/debian/tests/{name}" for name in ("library", "program", "python")),
    *("tests/callers/package.sh", "tests/callers/python.sh", "tests/callers/run.sh", "tests/stress/run.sh"),
)

C_FLAGS = ("-std=c11", "-fsyntax-only", "-Wall", "-Wextra", "-Wconversion", "-Wpedantic", "-Werror", "-Ic")
C_PROGRAMS = (
    "c/example.c",
    "c/headers.c",
    "tests/callers/report.c",
    "tests/callers/mutated.c",
    "tests/callers/refused.c",
    "tests/callers/threads.c",
)
GENERATED = "tests/callers/generated.py"
CALLERS = (
    *(path for path in scripts("tests/callers") if path != GENERATED),
    "tests/reference/warc_reference.py",
    PACKAGES,
)
SYSTEM = (
    "tests/reference/warc_reference.py",
    "tests/callers/archives.py",
    *(f"tests/stress/{name}.py" for name in ("differential", "floods", "generate", "memory", "pieces")),
    *(f"tests/stress/{name}.py" for name in ("selections", "system", "terminal")),
)
PAGE_SCRIPTS = tuple(sorted(path[len(TOP) + 1 :] for path in glob.glob(f"{TOP}/page/*.js")))
PAGE_PYTHON = scripts("tests/page")
COMPATIBILITY = scripts("tests/compatibility")
# The tests of cases import the second reading and what compares it with the program.
CASES = (*scripts("tests/cases"), *SYSTEM[:1], "tests/stress/differential.py", "tests/stress/generate.py")
PYTEST = ("/usr/lib/python3/dist-packages/pytest/__init__.py",)  # Debian's, for Debian's mypy
UNTYPED_CALLS = ("--allow-untyped-calls",)  # they use scripts that have no types yet

EXAMPLES = ("python/crawler.py", "python/example.py")
WITHOUT_STUBS = ("--ignore-missing-imports", "--allow-subclassing-any")  # setuptools has none

OF_BENCH = ("tests/page/browser.py", "tests/stress/floods.py")
TYPES = ("mypy", "--strict", "--python-version=3.9")
LAYOUT = ("black", "--quiet", "--check", "--line-length=120")
COLLECTION = (
    *("collection/__main__.py", "collection/zogwedu_collection"),
    *(f"python/src/zogwedu/{name}.py" for name in ("_members", "_wacz", "_zip", "_surt", "_cdxj")),
)
# The second reading and the generator are checked with the trials of the program.
TRIALS = (
    *("tests/stress/collection.py", "tests/stress/collection_faults.py", "tests/stress/collection_trial.py"),
    *("tests/stress/collection_slurm.py", "tests/stress/collection_units.py"),
    *("--follow-imports=skip", "--ignore-missing-imports"),
)
AROUND = (
    "tests/plain_reports.py",
    *("tests/page/test_page.py", "tests/page/test_served.py", "tests/page/listener.py", "tests/page/pieces.py"),
    *("tests/stress/zwarc.py", PACKAGES),
    *("tests/stress/collection_faults.py", "tests/stress/serve.py", "tests/stress/collection_trial.py"),
)
UNIT = (
    *("tests/standin/warc.py", "tests/reference/warc_reference.py", PACKAGES, "tests/stress/collection_trial.py"),
    *("tools/build_page.py", "tools/build.py", "tools/lint_heads.py", "tools/shared.py", *scripts("tests/unit")),
    SCRIPTS,
)
NIGHTS = (
    *(*scripts("tests/collection"), *scripts("tests/collection/standin")),
    *("tests/reference/warc_reference.py", PACKAGES, "tests/stress/memento_client.py"),
)
SERVER = tuple(f"tests/stress/{name}.py" for name in ("serve", "serve_trial", "memento_client"))

# Debian's programs work with Debian's Python, so each is called by its own name, and finds Debian's modules.
HYPOTHESIS = ("/usr/lib/python3/dist-packages/hypothesis",)
CHECKS = [
    Check("types of tools/", (*TYPES, *scripts("tools"), SCRIPTS)),
    Check("layout of tools/", (*LAYOUT, "tools")),
    Check("names that tools/ and bench/ import and don't use", ("pyflakes3", "tools", "bench")),
    Check("types of bench/", ("mypy", "--strict", *scripts("bench"), *COLLECTION, *OF_BENCH)),
    Check("layout of bench/", (*LAYOUT, "bench")),
    Check("shell scripts", ("shellcheck", *SHELL)),
    Check("types of the tests of the machine", ("mypy", "--strict", "--follow-imports=silent", *MACHINE, *PROVING)),
    Check("tools/install.py, tried", ("python3", "tests/tools/test_install.py")),
    Check("tools/proofs.py, tried", ("python3", "tests/tools/test_proofs.py")),
    Check("types of the Python package", ("mypy", "--strict", "python/src/zogwedu")),
    Check("types of the examples in Python", (*TYPES, "python/src/zogwedu", *EXAMPLES)),
    Check("types of python/setup.py", ("mypy", "--strict", *WITHOUT_STUBS, "python/setup.py")),
    Check("layout of python/", (*LAYOUT, "python")),
    Check("layout of tests/", (*LAYOUT, "tests")),
    Check("types of tests/callers", (*TYPES, "python/src/zogwedu", *CALLERS)),
    Check(
        "types of tests/callers/generated.py",
        (*TYPES, "python/src/zogwedu", *CALLERS, GENERATED),
        files=HYPOTHESIS,
    ),
    Check("types of the second reading and the trials of the program", ("mypy", "--strict", *SYSTEM)),
    Check("types of tests/cases", ("mypy", "--strict", "--python-version=3.9", *CASES), files=PYTEST),
    Check("warnings of c/warc.c", ("gcc", *C_FLAGS, "c/warc.c")),
    Check("warnings of C's programs", ("gcc", *C_FLAGS, *C_PROGRAMS)),
    Check("warnings of bench/walk.c", ("gcc", *C_FLAGS, "bench/walk.c")),
    Check("warnings of c/compressed.c", ("gcc", *C_FLAGS, "c/compressed.c"), files=("/usr/include/zlib.h",)),
    Check("c/warc.h as C++", ("g++", "-x", "c++", "-std=c++11", *C_FLAGS[1:], "c/warc.h")),
    Check("layout of the Rust crate", ("cargo", "fmt", "--check", "--manifest-path=rust/Cargo.toml")),
    Check("clippy of the Rust crate", ("python3", "tools/lint_rust.py"), programs=("cargo", "cargo-clippy")),
    Check("no unsafe in Rust outside of raw.rs", ("python3", "tools/find_unsafe.py")),
    Check("heads that are read by hand", ("python3", "tools/lint_heads.py")),
    Check("types of collection/", (*TYPES, *COLLECTION)),
    Check("types of tests/stress/collection*.py", (*TYPES, *TRIALS)),
    Check("types of the trials of the server", (*TYPES, *SERVER, TRIALS[2])),
    Check(
        "types of tests/around",
        ("mypy", "--strict", "--follow-imports=silent", *scripts("tests/around"), *AROUND),
        files=PYTEST,
    ),
    Check("types of tests/unit", (*TYPES, *COLLECTION, *UNIT), files=(*HYPOTHESIS, *PYTEST)),
    Check("types of tests/collection", (*TYPES, *COLLECTION, *NIGHTS), files=PYTEST),
    Check("layout of collection/", (*LAYOUT, "collection")),
    Check("types of the page", ("tsc", "-p", "page")),
    Check("types of the page's workers", ("tsc", "-p", "page/tsconfig.worker.json")),
    Check("layout of the page", ("clang-format", "--dry-run", "--Werror", *PAGE_SCRIPTS)),
    Check("widths and functions of the page", ("python3", "tools/lint_page.py")),
    Check("types of tests/compatibility", (*TYPES, *COMPATIBILITY)),
    Check(
        "types of the tests of the page",
        ("mypy", "--strict", "--follow-imports=silent", *PAGE_PYTHON, PACKAGES, *SERVER[1:], TRIALS[2]),
    ),
]


def unchecked(program: str) -> list[str]:
    """The Python files of the tree that no check by a program names, nor a folder above them."""
    run = subprocess.run(
        ["git", "ls-files", "-co", "--exclude-standard", "*.py"], cwd=TOP, check=True, capture_output=True, text=True
    )
    named = [word for check in CHECKS if check.words[0] == program for word in check.words[1:]]
    return [path for path in run.stdout.split("\n") if path and not any(is_below(path, word) for word in named)]


def is_below(path: str, word: str) -> bool:
    """Whether a path is that of a file, or of one in a folder."""
    return path == word or path.startswith(f"{word}/")


def main() -> int:
    """Runs all checks."""
    is_ci = os.environ.get("CI") == "true"
    # What later steps need is installed now, too, so that a mirror that fails is noticed before all else.
    need = ["bash", f"{TOP}/tools/need.sh", "lint", "around"]
    failed = subprocess.run(need, check=False).returncode if is_ci else 0
    for program in ("mypy", "black"):
        for path in unchecked(program):
            print(f"{path}: no check by {program} names it", flush=True)
            failed += 1
    for check in CHECKS:
        lacking = check.lacks()
        if lacking:
            word = "FAILED" if is_ci else "left out"
            print(f"{check.name}: {word}, since {' and '.join(lacking)} isn't installed", flush=True)
            failed += is_ci
    here = [check for check in CHECKS if not check.lacks()]
    with ThreadPoolExecutor(os.cpu_count() or 1) as pool:
        for check, said in zip(here, pool.map(Check.said, here)):
            print(f"{check.name}: {'FAILED' if said else 'passed'}\n{said}", end="", flush=True)
            failed += bool(said)
    return 1 if failed else 0


if __name__ == "__main__":
    sys.exit(main())
