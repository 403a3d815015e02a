#!/usr/bin/env python3
"""Tries tools/install.py on a copy of the project in which what is built is stood in for by small files.

Needs Python and make alone; pkg-config, cc and pip are asked where they are.
"""
from __future__ import annotations

import os
import shutil
import stat
import subprocess
import sys
import tempfile
import unittest

TOP = os.path.dirname(os.path.dirname(os.path.dirname(os.path.abspath(__file__))))
COPIED = ("Makefile", "README.md", "CHANGELOG.md", "CONTRIBUTING.md", "LICENSE-APACHE", "LICENSE-MIT")
FOLDERS = ("tools", "shell", "collection", "docs", "examples", "rust", "python")
WORDS = "crates/warc_arguments/src/help.rt"
STAND_INS = (
    "bin/warc",
    "out/warc-collection",
    "out/man/man1/warc.1",
    "out/man/man5/warc.5",
    *(f"out/completions/{it}.bash" for it in ("warc", "zwarc", "warc-collection")),
    *(f"out/completions/_{it}" for it in ("warc", "zwarc", "warc-collection")),
    *(f"out/completions/{it}.fish" for it in ("warc", "zwarc", "warc-collection")),
    "out/lib/libwarc.a",
    "out/lib/libwarc.so",
    "out/lib/warc.h",
    "zogwedu.html",
    "out/python/zogwedu/libwarc.so",
    "out/python/zogwedu/__init__.py",
)


class Install(unittest.TestCase):
    """Each test installs into a folder of its own."""

    def setUp(self) -> None:
        self.folder = tempfile.mkdtemp(prefix="install-")
        self.addCleanup(shutil.rmtree, self.folder)
        self.tree = f"{self.folder}/the tree"
        for name in FOLDERS:
            ignored = shutil.ignore_patterns("target", "__pycache__")
            shutil.copytree(f"{TOP}/{name}", f"{self.tree}/{name}", ignore=ignored)
        for name in (*COPIED, WORDS):
            os.makedirs(os.path.dirname(f"{self.tree}/{name}"), exist_ok=True)
            shutil.copy(f"{TOP}/{name}", f"{self.tree}/{name}")
        for name in STAND_INS:
            self.put(f"{self.tree}/{name}", name)
        self.root = f'{self.folder}/a root\'s "folder" $x'

    def put(self, path: str, text: str) -> None:
        """Writes a file, and makes its folder."""
        os.makedirs(os.path.dirname(path), exist_ok=True)
        with open(path, "w", encoding="utf-8") as out:
            out.write(text)

    def make(self, *words: str, **more: str) -> subprocess.CompletedProcess[str]:
        """Runs make with a mask that leaves the owner alone what is made."""
        environment = {**os.environ, "DESTDIR": self.root, **more}
        environment.pop("MAKEFLAGS", None)
        return subprocess.run(
            ["make", "-s", *words],
            cwd=self.tree,
            env=environment,
            umask=0o077,
            capture_output=True,
            text=True,
            check=False,
        )

    def found(self) -> list[str]:
        """Each file that is installed, below the root."""
        paths = [os.path.join(at, name) for at, _, names in os.walk(self.root) for name in names]
        return sorted(os.path.relpath(path, self.root) for path in paths)

    def mode(self, name: str) -> int:
        """The mode of an installed file or folder."""
        return stat.S_IMODE(os.stat(f"{self.root}/{name}").st_mode)

    def test_everybody_can_run_what_is_installed(self) -> None:
        done = self.make("install")
        self.assertEqual((done.returncode, done.stderr), (0, ""))
        for at, folders, names in os.walk(self.root):
            for name in folders:
                self.assertEqual(stat.S_IMODE(os.stat(f"{at}/{name}").st_mode), 0o755, f"{at}/{name}")
            for name in names:
                self.assertIn(stat.S_IMODE(os.stat(f"{at}/{name}").st_mode), (0o644, 0o755), f"{at}/{name}")
        for name in ("warc", "zwarc", "warc-collection"):
            self.assertEqual(self.mode(f"usr/local/bin/{name}"), 0o755)
        self.assertIn("usr/local/share/zogwedu/zogwedu.html", self.found())

    def test_uninstall_leaves_nothing(self) -> None:
        self.make("install")
        self.put(f"{self.root}/usr/local/bin/other", "")
        done = self.make("uninstall")
        self.assertEqual((done.returncode, done.stderr), (0, ""))
        self.assertEqual(self.found(), ["usr/local/bin/other"])
        self.assertEqual(self.make("uninstall").returncode, 2)
        left = [at for at, _, _ in os.walk(self.root) if "zogwedu" in at[len(self.root) :]]
        self.assertEqual(left, [])

    def test_what_an_older_version_had_is_removed(self) -> None:
        self.make("install")
        listed = f"{self.root}/usr/local/share/doc/zogwedu/FILES"
        old = f"{self.root}/usr/local/share/doc/zogwedu/docs/OLD.md"
        kept = f"{self.root}/usr/kept"
        self.put(old, "")
        self.put(kept, "")
        with open(listed, "a", encoding="utf-8") as out:
            out.write("share/doc/zogwedu/docs/OLD.md\n../kept\nshare/doc/zogwedu/gone\n")
        self.make("install")
        self.assertFalse(os.path.exists(old))
        self.assertTrue(os.path.exists(kept))
        with open(listed, encoding="utf-8") as text:
            self.assertNotIn("OLD.md", text.read())

    def test_a_running_program_is_replaced_and_not_written(self) -> None:
        self.make("install")
        with open(f"{self.root}/usr/local/bin/warc", encoding="utf-8") as running:
            self.put(f"{self.tree}/bin/warc", "newer")
            self.make("install")
            self.assertEqual(running.read(), "bin/warc")

    def test_the_library_goes_to_libdir(self) -> None:
        for libdir, prefix in (("/usr/lib/x86_64-linux-gnu", "/usr"), ("/lib64", "/usr"), ("", "/opt/zogwedu")):
            with self.subTest(libdir=libdir):
                self.make("install", LIBDIR=libdir, PREFIX=prefix)
                folder = libdir or f"{prefix}/lib"
                for name in ("libwarc.a", "libwarc.so", "pkgconfig/warc.pc"):
                    self.assertIn(f"{folder}/{name}"[1:], self.found())
                self.assertIn(f"{prefix}/include/warc.h"[1:], self.found())
                self.make("uninstall", LIBDIR=libdir, PREFIX=prefix)
                self.assertEqual(self.found(), [])

    @unittest.skipUnless(shutil.which("pkg-config"), "pkg-config isn't installed")
    def test_pkg_config_finds_the_library(self) -> None:
        self.root = f"{self.folder}/root"
        for libdir in ("", "/usr/lib/x86_64-linux-gnu"):
            with self.subTest(libdir=libdir):
                self.make("install", LIBDIR=libdir, PREFIX="/usr")
                folder = self.root + (libdir or "/usr/lib")
                words = ["pkg-config", "--cflags", "--libs", "--define-variable=x=y", "warc"]
                environment = {
                    **os.environ,
                    "PKG_CONFIG_PATH": f"{folder}/pkgconfig",
                    "PKG_CONFIG_ALLOW_SYSTEM_LIBS": "1",
                }
                done = subprocess.run(words, env=environment, capture_output=True, text=True, check=True)
                paths = [os.path.realpath(word[2:]) for word in done.stdout.split() if word[:2] in ("-I", "-L")]
                self.assertEqual(paths, [f"{os.path.realpath(self.root)}/usr/include", os.path.realpath(folder)])
                self.assertIn("-lwarc", done.stdout)
                self.make("uninstall", LIBDIR=libdir, PREFIX="/usr")

    def test_nothing_is_built(self) -> None:
        for name in ("bin/warc", "out/man", "out/completions"):
            path = f"{self.tree}/{name}"
            os.rename(path, f"{path}.away")
            done = self.make("-j4", "install")
            self.assertEqual(done.returncode, 2)
            self.assertIn("run `make`", done.stderr)
            self.assertEqual(self.found(), [], name)
            os.rename(f"{path}.away", path)

    def test_what_is_left_out_is_named(self) -> None:
        shutil.rmtree(f"{self.tree}/out/lib")
        os.remove(f"{self.tree}/zogwedu.html")
        done = self.make("install")
        self.assertEqual(done.returncode, 0)
        for command in ("make lib", "make page"):
            self.assertIn(command, done.stdout)
        self.assertFalse(
            [name for name in self.found() if "libwarc" in name or name.endswith(("warc.h", ".html", ".pc"))]
        )

    def test_the_library_is_a_link_to_the_one_with_a_version(self) -> None:
        os.link(f"{self.tree}/out/lib/libwarc.so", f"{self.tree}/out/lib/libwarc.so.9")
        self.make("install")
        self.assertEqual(os.readlink(f"{self.root}/usr/local/lib/libwarc.so"), "libwarc.so.9")
        self.make("install")
        self.make("uninstall")
        self.assertEqual(self.found(), [])

    def test_the_python_package(self) -> None:
        folder = f"{self.folder}/packages"
        done = self.make("install-python", PYTHONDIR=folder, DESTDIR="")
        self.assertEqual((done.returncode, done.stderr), (0, ""))
        self.put(f"{folder}/zogwedu/__pycache__/__init__.cpython-311.pyc", "")
        listed = subprocess.run(
            [
                sys.executable,
                "-c",
                "import importlib.metadata as m; print(m.version('zogwedu'), len(m.files('zogwedu')))",
            ],
            env={**os.environ, "PYTHONPATH": folder},
            capture_output=True,
            text=True,
            check=True,
        )
        self.assertRegex(listed.stdout, r"^\d+\.\d+\.\d+ 5\n$")
        self.make("install-python", PYTHONDIR=folder, DESTDIR="")
        done = self.make("uninstall-python", PYTHONDIR=folder, DESTDIR="")
        self.assertEqual((done.returncode, os.listdir(folder)), (0, []))

    def test_a_package_has_all_files(self) -> None:
        """Also those of a tree with more names than one command takes."""
        shutil.copytree(f"{TOP}/packaging", f"{self.tree}/packaging")
        for number in range(1500):
            self.put(f"{self.tree}/zz/{'long-' * 20}{number}", "x")
        subprocess.run("git init -q && git add -A", shell=True, cwd=self.tree, check=True)
        builder = f"{self.folder}/bin/dpkg-buildpackage"
        self.put(
            builder, f"#!/bin/sh\nls zz | wc -l > '{self.folder}/count'\ntouch ../x.deb ../x.changes ../x.buildinfo\n"
        )
        os.chmod(builder, 0o755)
        search = f"{self.folder}/bin:{os.environ['PATH']}"
        words = ["bash", f"{self.tree}/packaging/build.sh", self.folder]
        done = subprocess.run(words, env={**os.environ, "PATH": search}, capture_output=True, text=True, check=False)
        self.assertEqual((done.returncode, done.stderr), (0, ""))
        with open(f"{self.folder}/count", encoding="utf-8") as count:
            self.assertEqual(int(count.read()), 1500)


if __name__ == "__main__":
    unittest.main()
