"""What the tests of cases are run over: WARC names the program, and bin/warc is taken otherwise."""
from __future__ import annotations

import importlib
import os
import sys
import types

import pytest
from cases_commands import Place
from cases_script import TOP

sys.path[:0] = [str(TOP / "tests" / "reference"), str(TOP / "tests" / "stress")]
LIBRARY = TOP / "out" / "lib" / "libwarc.so"


@pytest.fixture(scope="session")
def program() -> str:
    """The path of the program."""
    path = os.path.abspath(os.environ.get("WARC", str(TOP / "bin" / "warc")))
    if not os.access(path, os.X_OK):
        pytest.fail(f"no program {path}: run `make`, or set WARC to a program", pytrace=False)
    return path


@pytest.fixture(scope="session")
def place(program: str, tmp_path_factory: pytest.TempPathFactory) -> Place:
    """The program, and a folder for files."""
    return Place(program, tmp_path_factory.mktemp("cases"))


@pytest.fixture(scope="session")
def package() -> types.ModuleType:
    """The Python package over the library that `make lib` built, or over the one that ZOGWEDU_LIBRARY names."""
    path = os.environ.setdefault("ZOGWEDU_LIBRARY", str(LIBRARY))
    if not os.path.exists(path):
        pytest.fail(f"no library {path}: run `make lib`, or set ZOGWEDU_LIBRARY", pytrace=False)
    sys.path.insert(0, str(TOP / "python" / "src"))
    return importlib.import_module("zogwedu")
