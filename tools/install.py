#!/usr/bin/env python3
"""Installs what is built, or removes what it installed. It copies, and builds nothing.

Usage: install.py install|uninstall|install-python|uninstall-python

The environment says where: PREFIX (/usr/local), LIBDIR for the library (PREFIX/lib), PYTHONDIR for the Python package
(where Debian's Python looks for local packages), and DESTDIR, a folder that is put before each of them, as for a
package. The program, its pages and its completions must be there. The library, the reading room and the Rust crate are
left out where they aren't built, and a line says so. What is installed is listed in PREFIX/share/doc/zogwedu/FILES, and
the Python package's files in its RECORD. These are removed, also by the next `install` if they aren't installed again.
"""
from __future__ import annotations

import base64
import csv
import dataclasses
import glob
import hashlib
import os
import pathlib
import shutil
import subprocess
import sys
from collections.abc import Iterator

from shared import TOP, put_copy, version

DOCS = "share/doc/zogwedu"
LIST = f"{DOCS}/FILES"
COLLECTION = "out/warc-collection"
PYTHON = "/usr/bin/python3"
PYTHON_PACKAGE = "out/python/zogwedu"


@dataclasses.dataclass(frozen=True)
class Place:
    """Where files are installed. Each of the folders is absolute, and `destdir` is put before it."""

    prefix: str
    libdir: str
    destdir: str = ""

    def at(self, name: str) -> str:
        """The path of an installed file, which is below the prefix or absolute."""
        return self.destdir + (name if name.startswith("/") else f"{self.prefix}/{name}")

    def library(self, name: str) -> str:
        """The name of a file of the library, as `at` takes it."""
        path = f"{self.libdir}/{name}"
        return os.path.relpath(path, self.prefix) if path.startswith(f"{self.prefix}/") else path


def place() -> Place:
    """Where the environment says that files are installed."""
    prefix = os.path.normpath(os.path.join("/", os.environ.get("PREFIX") or "/usr/local"))
    libdir = os.path.normpath(os.path.join("/", os.environ.get("LIBDIR") or f"{prefix}/lib"))
    destdir = os.environ.get("DESTDIR") or ""
    return Place(prefix, libdir, os.path.abspath(destdir) if destdir else "")


def program_files() -> Iterator[tuple[str, str]]:
    """The program, the scripts beside it, pages, completions and documents: where each comes from, and its name."""
    yield "bin/warc", "bin/warc"
    yield "shell/zwarc", "bin/zwarc"
    yield COLLECTION, "bin/warc-collection"
    for page in sorted(glob.glob(f"{TOP}/out/man/man?/*")) or [f"{TOP}/out/man/man1/warc.1"]:
        yield os.path.relpath(page, TOP), "share/man/" + os.path.relpath(page, f"{TOP}/out/man")
    for name in ("warc", "zwarc", "warc-collection"):
        yield f"out/completions/{name}.bash", f"share/bash-completion/completions/{name}"
        yield f"out/completions/_{name}", f"share/zsh/site-functions/_{name}"
        yield f"out/completions/{name}.fish", f"share/fish/vendor_completions.d/{name}.fish"
    for name in ("README.md", "CHANGELOG.md", "CONTRIBUTING.md", "LICENSE-APACHE", "LICENSE-MIT"):
        yield name, f"{DOCS}/{name}"
    for path in sorted(glob.glob(f"{TOP}/docs/*") + glob.glob(f"{TOP}/examples/*")):
        name = os.path.relpath(path, TOP)
        yield name, f"{DOCS}/{name}"


def library_files(to: Place) -> Iterator[tuple[str, str]]:
    """The library for C and its header."""
    for path in sorted(glob.glob(f"{TOP}/out/lib/libwarc.*")):
        name = os.path.basename(path)
        yield f"out/lib/{name}", to.library(name)
    yield "out/lib/warc.h", "include/warc.h"


def crate_files() -> Iterator[tuple[str, str]]:
    """The Rust crate, without what cargo made."""
    for path in sorted(glob.glob(f"{TOP}/rust/**", recursive=True)):
        name = os.path.relpath(path, f"{TOP}/rust")
        if os.path.isfile(path) and not name.startswith("target/"):
            yield f"rust/{name}", f"share/cargo/registry/zogwedu-{version()}/{name}"


def files(to: Place) -> Iterator[tuple[str, str]]:
    """Each file that is installed: where it comes from, and its name as `at` takes it."""
    yield from program_files()
    parts = (
        ("out/lib/libwarc.a", "the library for C", "make lib", library_files(to)),
        ("zogwedu.html", "the reading room", "make page", iter([("zogwedu.html", "share/zogwedu/zogwedu.html")])),
        ("out/lib/libwarc.a", "the Rust crate", "make lib", crate_files()),
    )
    for needed, name, command, those in parts:
        if os.path.exists(f"{TOP}/{needed}"):
            yield from those
        else:
            print(f"left out: {name}, which `{command}` builds")


def pkg_config(to: Place) -> str:
    """The file by which pkg-config finds the library. Below the prefix it names no absolute path."""
    prefix, libdir = to.prefix, to.libdir
    if libdir.startswith(f"{prefix}/"):
        prefix = "${pcfiledir}/" + os.path.relpath(prefix, f"{libdir}/pkgconfig")
        libdir = "${prefix}/" + os.path.relpath(libdir, to.prefix)
    return (
        f"prefix={prefix}\nlibdir={libdir}\nincludedir=${{prefix}}/include\n\n"
        "Name: warc\nDescription: Reads, checks and replays WARC archives by proved code\n"
        f"Version: {version()}\nLibs: -L${{libdir}} -lwarc -lm\nCflags: -I${{includedir}}\n"
    )


def make_folder(path: str) -> None:
    """Makes a folder and those above it that aren't there, open to everybody whatever the umask is."""
    if not os.path.isdir(path):
        make_folder(os.path.dirname(path))
        os.mkdir(path)
        os.chmod(path, 0o755)


def put_text(path: str, text: str) -> None:
    """Writes a file in the place of an old one."""
    with open(f"{path}.new", "w", encoding="utf-8") as out:
        out.write(text)
    os.chmod(f"{path}.new", 0o644)
    os.replace(f"{path}.new", path)


def put(source: str, to: str) -> None:
    """Copies a file in the place of an old one. A program and a shared library can be run. A shared library without a
    version in its name is a link to the one with its version beside it."""
    make_folder(os.path.dirname(to))
    versions = glob.glob(f"{source}.[0-9]*") if source.endswith(".so") else []
    if versions:
        if os.path.lexists(to):
            os.remove(to)
        os.symlink(os.path.basename(versions[0]), to)
        return
    runs = os.path.basename(os.path.dirname(to)) == "bin" or ".so" in os.path.basename(to)
    put_copy(source, to, 0o755 if runs else 0o644)


def listed(to: Place) -> list[str]:
    """The names that an earlier install listed, none of which leads out of the prefix by `..`."""
    if not os.path.exists(to.at(LIST)):
        return []
    with open(to.at(LIST), encoding="utf-8") as names:
        return [name for name in names.read().splitlines() if name and ".." not in name.split("/")]


def project_folders(names: list[str]) -> list[str]:
    """The folders of the project that hold files, the deepest first."""
    found = {str(folder) for name in names for folder in pathlib.PurePosixPath(name).parents}
    return sorted((folder for folder in found if "zogwedu" in folder), key=len, reverse=True)


def remove(to: Place, names: list[str]) -> None:
    """Removes files, and the folders of the project that are empty then."""
    for name in names:
        if os.path.lexists(to.at(name)):
            os.remove(to.at(name))
    for folder in map(to.at, project_folders(names)):
        if os.path.isdir(folder) and not os.listdir(folder):
            os.rmdir(folder)


def refresh(to: Place) -> None:
    """Has the system's loader look for the library anew, where it is installed on this system."""
    program = shutil.which("ldconfig") or "/sbin/ldconfig"
    if not to.destdir and os.geteuid() == 0 and os.path.exists(program):
        subprocess.run([program], check=False)


def install(to: Place) -> None:
    """Copies each file, lists them, and removes what an older version had."""
    pairs = list(files(to))
    for source, _ in pairs:
        if not os.path.exists(f"{TOP}/{source}"):
            sys.exit(f"{source} isn't there: run `make`, as yourself, before `make install`")
    old, names = listed(to), [LIST]
    for source, name in pairs:
        put(f"{TOP}/{source}", to.at(name))
        names.append(name)
    if "include/warc.h" in names:
        name = to.library("pkgconfig/warc.pc")
        make_folder(os.path.dirname(to.at(name)))
        put_text(to.at(name), pkg_config(to))
        names.append(name)
    put_text(to.at(LIST), "".join(f"{name}\n" for name in names))
    remove(to, sorted(set(old) - set(names)))
    refresh(to)


def uninstall(to: Place) -> None:
    """Removes each file that is listed, and the folders of the project."""
    if not os.path.exists(to.at(LIST)):
        sys.exit(f"nothing is installed: there is no {to.at(LIST)}")
    remove(to, [name for name in listed(to) if name != LIST] + [LIST])
    refresh(to)


def python_folder() -> str:
    """Where Debian's Python looks for packages that aren't Debian's."""
    script = "import sysconfig; print(sysconfig.get_path('purelib'))"
    return subprocess.run([PYTHON, "-c", script], capture_output=True, text=True, check=True).stdout.strip()


def record_line(path: str, name: str) -> list[str]:
    """A file's line of RECORD."""
    with open(path, "rb") as file:
        data = file.read()
    digest = base64.urlsafe_b64encode(hashlib.sha256(data).digest()).rstrip(b"=").decode()
    return [name, f"sha256={digest}", str(len(data))]


def python_place() -> tuple[str, str]:
    """The folder that the Python package is installed in, and the name of what describes it there."""
    folder = os.environ.get("PYTHONDIR") or python_folder()
    destdir = os.environ.get("DESTDIR") or ""
    return (os.path.abspath(destdir) if destdir else "") + os.path.abspath(folder), f"zogwedu-{version()}.dist-info"


def install_python() -> None:
    """Copies the Python package, with what makes it known to pip."""
    folder, about = python_place()
    if not os.path.exists(f"{TOP}/{PYTHON_PACKAGE}/libwarc.so"):
        sys.exit(f"{PYTHON_PACKAGE} isn't there: run `make python`, as yourself, before `make install-python`")
    for old in glob.glob(f"{glob.escape(folder)}/zogwedu-*.dist-info"):
        remove_python(folder, os.path.basename(old))
    names = []
    for path in sorted(glob.glob(f"{TOP}/{PYTHON_PACKAGE}/**", recursive=True)):
        if os.path.isfile(path) and "__pycache__" not in path:
            names.append(os.path.relpath(path, f"{TOP}/out/python"))
            put(path, f"{folder}/{names[-1]}")
    make_folder(f"{folder}/{about}")
    texts = {"METADATA": f"Metadata-Version: 2.1\nName: zogwedu\nVersion: {version()}\n", "INSTALLER": "make\n"}
    for name, text in texts.items():
        put_text(f"{folder}/{about}/{name}", text)
        names.append(f"{about}/{name}")
    with open(f"{folder}/{about}/RECORD", "w", encoding="utf-8", newline="") as out:
        csv.writer(out).writerows(
            [record_line(f"{folder}/{name}", name) for name in names] + [[f"{about}/RECORD", "", ""]]
        )
    os.chmod(out.name, 0o644)
    print(f"installed in {folder}")


def remove_python(folder: str, about: str) -> None:
    """Removes the files that a RECORD lists, the compiled ones beside them, and the folders that are empty then."""
    with open(f"{folder}/{about}/RECORD", encoding="utf-8", newline="") as record:
        names = [row[0] for row in csv.reader(record) if row and ".." not in row[0].split("/")]
    for name in names:
        compiled = glob.glob(
            f"{glob.escape(folder)}/zogwedu/__pycache__/{glob.escape(os.path.basename(name)[:-3])}.*.pyc"
        )
        for path in [f"{folder}/{name}", *(compiled if name.endswith(".py") else [])]:
            if os.path.lexists(path):
                os.remove(path)
    for name in ("zogwedu/__pycache__", "zogwedu", about):
        if os.path.isdir(f"{folder}/{name}") and not os.listdir(f"{folder}/{name}"):
            os.rmdir(f"{folder}/{name}")


def uninstall_python() -> None:
    """Removes the Python package."""
    folder, _ = python_place()
    found = glob.glob(f"{glob.escape(folder)}/zogwedu-*.dist-info")
    if not found:
        sys.exit(f"nothing is installed: there is no {folder}/zogwedu-*.dist-info")
    for path in found:
        remove_python(folder, os.path.basename(path))


def main() -> None:
    """Does what the one word says."""
    commands = {
        "install": lambda: install(place()),
        "uninstall": lambda: uninstall(place()),
        "install-python": install_python,
        "uninstall-python": uninstall_python,
    }
    if len(sys.argv) != 2 or sys.argv[1] not in commands:
        sys.exit(__doc__)
    commands[sys.argv[1]]()


if __name__ == "__main__":
    main()
