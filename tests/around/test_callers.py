"""The library as C, Python and Rust call it, compared with the program, in small sizes."""
from __future__ import annotations

import glob
import os
import subprocess
import sys
from pathlib import Path
from typing import List

import pytest

from .conftest import TOP, built, needs, passes

FLAGS = ("-std=c11", "-Wall", "-Wextra", "-Wconversion", "-Werror", "-O1", "-g", "-Iout/lib")
CARGO = ("--quiet", "--offline", "--manifest-path", "rust/Cargo.toml")
RUST = {"CARGO_TARGET_DIR": os.path.join(TOP, "out", "rust")}
VALGRIND = ("valgrind", "-q", "--leak-check=full", "--show-leak-kinds=all", "--errors-for-leak-kinds=all")
COMPARED = 120  # archives of the suites
DAMAGED = 150  # archives under valgrind
GENERATED = 30  # archives of hypothesis


def compiled(name: str, folder: Path, *flags: str) -> str:
    """A program in C over the library."""
    needs("gcc")
    program = str(folder / name)
    library = built("out/lib/libwarc.a")
    passes(["gcc", *FLAGS, *flags, f"tests/callers/{name}.c", library, "-o", program])
    return program


def archives(folder: Path, count: int) -> List[str]:
    """Archives of the suites' scripts, from all over them."""
    made = str(folder / "archives")
    passes([sys.executable, "tests/callers/archives.py", made])
    paths = sorted(glob.glob(f"{made}/*.warc"))
    return paths[:: max(len(paths) // count, 1)]


def test_threads(tmp_path: Path) -> None:
    """The thread sanitizer sees nothing."""
    passes([compiled("threads", tmp_path, "-fsanitize=thread"), "examples/crawl.warc"])


def test_damaged_archives(tmp_path: Path) -> None:
    """valgrind sees nothing while the library reads damaged archives."""
    needs("valgrind")
    program, paths = compiled("mutated", tmp_path), archives(tmp_path, 60)
    passes([*VALGRIND, "--error-exitcode=9", program, str(DAMAGED), "1", *paths, "examples/crawl.warc"])


def test_damaged_archives_alone(tmp_path: Path) -> None:
    """More of them, without valgrind."""
    program, paths = compiled("mutated", tmp_path), archives(tmp_path, 200)
    passes([program, str(DAMAGED * 10), "2", *paths, "examples/crawl.warc"])


def test_doctests() -> None:
    """The examples in the package's own text."""
    built("out/python/zogwedu/libwarc.so")
    passes([sys.executable, "-c", "import doctest, sys, zogwedu; sys.exit(doctest.testmod(zogwedu).failed)"])


@pytest.mark.xdist_group("rust")
class TestRust:
    """What cargo builds is built once, so one process tries all of it."""

    def test_crate(self) -> None:
        needs("cargo")
        built("out/lib/libwarc.a")
        passes(["cargo", "test", *CARGO], **RUST)

    def report(self) -> str:
        """The program that writes what Rust gives of an archive."""
        needs("cargo")
        passes(["cargo", "build", "--release", "--examples", *CARGO], **RUST)
        return built("out/rust/release/examples/report")

    def test_same_as_the_program(self, warc: str, tmp_path: Path) -> None:
        """C, Python, Rust and the program give the same of archives."""
        paths = [*archives(tmp_path, COMPARED), *sorted(glob.glob(f"{TOP}/examples/*.warc"))]
        passes([sys.executable, "tests/callers/compare.py", warc, compiled("report", tmp_path), self.report(), *paths])

    def test_generated(self, warc: str, tmp_path: Path) -> None:
        """They do so of archives that hypothesis makes."""
        words = [warc, compiled("report", tmp_path), self.report(), str(tmp_path)]
        passes([sys.executable, "tests/callers/generated.py", *words], CALLERS_EXAMPLES=str(GENERATED))

    def test_samples(self) -> None:
        needs("cargo")
        passes([sys.executable, "tests/callers/test_samples.py", "docs/RUST.md"])

    def test_examples(self) -> None:
        """The example programs of C, Python and Rust."""
        self.report()
        built("bin/warc")
        said = passes([sys.executable, "tests/callers/test_examples.py"])
        assert "skipped" not in said


def test_the_library_is_of_this_version() -> None:
    """The header beside the library is the one in c/."""
    with open(built("out/lib/warc.h"), "rb") as one, open(f"{TOP}/c/warc.h", "rb") as other:
        assert one.read() == other.read()
    said = subprocess.run(["nm", "-D", built("out/lib/libwarc.so")], capture_output=True, text=True, check=True).stdout
    assert " T warc_open" in said
