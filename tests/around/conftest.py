"""What the tests over a built program share: where things are, and the harnesses of the other folders as fixtures."""
from __future__ import annotations

import os
import shutil
import subprocess
import sys
import unittest
from pathlib import Path
from typing import Iterator, List, Sequence

import pytest

TOP = os.path.dirname(os.path.dirname(os.path.dirname(os.path.abspath(__file__))))
# tests/page is first: it has a module with the name of one of tests/stress.
sys.path[:0] = [os.path.join(TOP, "tests", name) for name in ("page", "stress", "callers", "compatibility")]
PACKAGE = os.path.join(TOP, "out", "python")
sys.path.insert(0, PACKAGE)
sys.dont_write_bytecode = True
os.environ.setdefault("PAGE_SLOWNESS", "6")  # several browsers at once on a busy machine
os.environ["PYTHONPATH"] = PACKAGE
os.environ["PYTHONDONTWRITEBYTECODE"] = "1"
os.environ.pop("ZOGWEDU_LIBRARY", None)
MOST_SECONDS = 900

from collection_trial import Trial  # noqa: E402


# Groups that take minutes: each begins at once, in a process of its own.
LONG = ("rust", "served", "served-page", "page-0")


def group_of(item: pytest.Item) -> str:
    """The name of the tests that one process has to run in turn, or an empty text."""
    mark = item.get_closest_marker("xdist_group")
    return str(mark.kwargs["name"] if "name" in mark.kwargs else mark.args[0]) if mark else ""


@pytest.hookimpl(tryfirst=True)  # type: ignore[misc]
def pytest_collection_modifyitems(items: List[pytest.Item]) -> None:
    """Puts long groups first, and has one process run all tests of a class that prepares something for them."""
    for item in items:
        cls = getattr(item, "cls", None)
        if isinstance(cls, type) and issubclass(cls, unittest.TestCase):
            item.add_marker(pytest.mark.xdist_group(f"{cls.__module__}.{cls.__name__}"))
    items.sort(key=lambda item: LONG.index(group_of(item)) if group_of(item) in LONG else len(LONG))


def built(path: str) -> str:
    """What was built, as a path. Where it isn't there, a test fails."""
    whole = os.path.join(TOP, path)
    if not os.path.exists(whole):
        pytest.fail(f"{path} isn't there", pytrace=False)
    return whole


def needs(*programs: str) -> None:
    """Leaves a test out where a program isn't installed, which is a failure where everything has to be."""
    missing = [name for name in programs if shutil.which(name) is None]
    if missing and os.environ.get("CI") == "true":
        pytest.fail(f"{', '.join(missing)} isn't installed", pytrace=False)
    if missing:
        pytest.skip(f"{', '.join(missing)} isn't installed")


def passes(words: Sequence[str], **more: str) -> str:
    """Runs a command in the top folder, which ends with 0. Returns what it wrote."""
    done = subprocess.run(
        words,
        cwd=TOP,
        stdin=subprocess.DEVNULL,
        stdout=subprocess.PIPE,
        stderr=subprocess.STDOUT,
        env={**os.environ, **more},
        timeout=MOST_SECONDS,
        check=False,
    )
    text = done.stdout.decode(errors="replace")
    if done.returncode:
        pytest.fail(f"{' '.join(words)} ended with {done.returncode}:\n{text[-6000:]}", pytrace=False)
    return text


@pytest.fixture(name="warc", scope="session")
def warc_fixture() -> str:
    """The program: the one that WARC names, or the one that was built."""
    return os.environ.get("WARC") or built("bin/warc")


@pytest.fixture(name="trial")
def trial_fixture(warc: str, tmp_path: Path, request: pytest.FixtureRequest) -> Iterator[Trial]:
    """The programs over a new folder. Each surprise is printed, and one fails the test."""
    needs("parallel")
    it = Trial(warc, str(tmp_path))
    it.begin(request.node.name)
    yield it


def hold(trial: Trial) -> None:
    """Fails a test that saw a surprise, or tried nothing."""
    assert trial.tried[trial.part] > 0, "nothing was tried"
    assert trial.surprises == 0, f"{trial.surprises} surprises, which are printed"
