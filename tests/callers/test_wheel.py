#!/usr/bin/env python3
"""The wheel of the Python package: it has the tag of this system, and is installed and imported in an environment of
its own, without a network.

It is made by the command of docs/PYTHON.md, in which no index answers: by this Python, or by Debian's where this one
lacks what makes wheels. Needs pip, setuptools, wheel and venv.
"""
import glob
import os
import re
import shlex
import subprocess
import sys
import tempfile
import unittest
import zipfile
from typing import List, Optional

TOP = os.path.dirname(os.path.dirname(os.path.dirname(os.path.abspath(__file__))))
NAME = "zogwedu-*-py3-none-linux_x86_64.whl"
NEEDED = "import setuptools, wheel.bdist_wheel, pip, ensurepip, venv"  # in this order: pip loads Python's own distutils
COMMAND = re.compile(r"^/usr/bin/python3 (-m pip wheel .*) out/python$", re.MULTILINE)
# Nothing listens there, so what asks an index fails.
NO_INDEX = {"PIP_INDEX_URL": "http://127.0.0.1:9/", "PIP_RETRIES": "0", "PIP_DISABLE_PIP_VERSION_CHECK": "1"}
OPEN = """
import sys, zogwedu
with zogwedu.Archive.open(sys.argv[1]) as archive:
    print(len(archive), archive[0].target, zogwedu.__file__)
"""


def maker() -> Optional[str]:
    """A Python that makes wheels."""
    for python in (sys.executable, "/usr/bin/python3"):
        if (
            os.path.exists(python)
            and not subprocess.run([python, "-c", NEEDED], capture_output=True, check=False).returncode
        ):
            return python
    return None


def words_of_page() -> List[str]:
    """The words by which docs/PYTHON.md makes a wheel, but for the Python and the folder."""
    with open(f"{TOP}/docs/PYTHON.md", encoding="utf-8") as page:
        (words,) = COMMAND.findall(page.read())
    return shlex.split(words)


@unittest.skipUnless(maker(), "no Python here has pip, setuptools, wheel and venv")
class Wheel(unittest.TestCase):
    folder: "tempfile.TemporaryDirectory[str]"
    wheels: str
    python: str

    @classmethod
    def setUpClass(cls) -> None:
        """Makes the wheel of a copy, since setuptools writes beside what it packs, and installs it."""
        cls.folder = tempfile.TemporaryDirectory()
        top = cls.folder.name
        cls.wheels, cls.python = f"{top}/wheels", f"{top}/venv/bin/python"
        subprocess.run(["cp", "-r", f"{TOP}/out/python", f"{top}/package"], check=True)
        offline = ("--quiet", "--no-index", "--no-deps", "--disable-pip-version-check")
        words = [str(maker()), *words_of_page(), "--quiet", "-w", cls.wheels, f"{top}/package"]
        subprocess.run(words, env={**os.environ, **NO_INDEX}, check=True)
        subprocess.run([str(maker()), "-m", "venv", f"{top}/venv"], check=True)
        subprocess.run([cls.python, "-m", "pip", "install", *offline, *glob.glob(f"{cls.wheels}/*")], check=True)

    @classmethod
    def tearDownClass(cls) -> None:
        cls.folder.cleanup()

    def test_its_tag(self) -> None:
        wheels = glob.glob(f"{self.wheels}/*")
        self.assertEqual(wheels, glob.glob(f"{self.wheels}/{NAME}"))
        self.assertEqual(len(wheels), 1)
        with zipfile.ZipFile(wheels[0]) as wheel:
            names = wheel.namelist()
            facts = wheel.read(next(name for name in names if name.endswith(".dist-info/WHEEL"))).decode()
        self.assertIn("\nTag: py3-none-linux_x86_64\n", facts)
        self.assertIn("\nRoot-Is-Purelib: false\n", facts)
        sources = {f"zogwedu/{os.path.basename(path)}" for path in glob.glob(f"{TOP}/python/src/zogwedu/*.*")}
        packed = {name for name in names if ".dist-info/" not in name}
        self.assertEqual(packed, sources | {"zogwedu/libwarc.so"})

    def run_python(self, code: str, *words: str) -> "subprocess.CompletedProcess[str]":
        """Runs code by the Python of the environment, which sees nothing but that."""
        return subprocess.run(
            [self.python, "-I", "-c", code, *words], capture_output=True, check=False, cwd=self.folder.name, text=True
        )

    def test_it_opens_an_archive(self) -> None:
        done = self.run_python(OPEN, f"{TOP}/examples/abc.warc")
        self.assertEqual((done.stderr, done.returncode), ("", 0))
        count, target, path = done.stdout.split()
        self.assertEqual((count, target), ("1", "http://a.example/x"))
        self.assertTrue(path.startswith(f"{self.folder.name}/venv/lib/"), path)

    def test_without_its_library(self) -> None:
        (library,) = glob.glob(f"{self.folder.name}/venv/lib/python*/site-packages/zogwedu/libwarc.so")
        os.rename(library, f"{self.folder.name}/elsewhere")
        try:
            done = self.run_python("import zogwedu")
        finally:
            os.rename(f"{self.folder.name}/elsewhere", library)
        last = done.stderr.splitlines()[-1]
        self.assertEqual(done.returncode, 1)
        self.assertTrue(last.startswith("ImportError: zogwedu needs the library libwarc.so, and "), last)
        self.assertIn(library, last)
        self.assertTrue(last.endswith("."), last)


if __name__ == "__main__":
    unittest.main()
