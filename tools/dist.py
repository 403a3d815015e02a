#!/usr/bin/env python3
"""Makes what a release has, the same bytes each time: tarballs of the program with all that is installed, the library
for C among it, of the Python package, of the Rust crate and of the source, and the reading room.

Usage: dist.py make           writes them to dist/, with their SHA-256 in dist/SHA256SUMS
       dist.py verify FILE    makes the tarball of the program anew and compares it with FILE
"""
from __future__ import annotations

import contextlib
import glob
import gzip
import hashlib
import io
import os
import re
import subprocess
import sys
import tarfile
import tempfile
from collections.abc import Iterable, Iterator

import install
import make_copyright
from shared import TOP, read, version

LEFT_OUT = ("out", "bin", "dist", "target", "__pycache__")
LICENCES = ("LICENSE-APACHE", "LICENSE-MIT")


def moment() -> int:
    """The time that all files of a tarball have: midnight of the version's day in CHANGELOG.md, in seconds of Unix."""
    found = re.search(rf"^## {re.escape(version())} \((\d+-\d+-\d+)\)$", read("CHANGELOG.md"), re.MULTILINE)
    if not found:
        sys.exit(f"CHANGELOG.md has no section of {version()} with its day")
    done = subprocess.run(["date", "-u", "-d", found[1], "+%s"], capture_output=True, text=True, check=True)
    return int(done.stdout)


def libraries(program: str) -> list[str]:
    """The shared libraries that a program needs."""
    done = subprocess.run(["readelf", "-d", program], capture_output=True, text=True, check=True)
    return re.findall(r"\(NEEDED\).*\[(.*)\]", done.stdout)


def needs(program: str) -> str:
    """What the program needs, in a few lines: the processor, the C library, the toolchain that built it."""
    found = re.findall(rb"GLIBC_(\d+)\.(\d+)", bytes_of(program))
    major, minor = max((int(a), int(b)) for a, b in found)
    others = sorted(name for name in libraries(program) if not name.startswith(("libc.so", "libm.so")))
    kit = subprocess.run(["rt", "version"], capture_output=True, text=True, check=True).stdout.strip()
    return (
        f"warc {version()}\n\nProcessor: x86-64-v2 (any x86-64 processor since about 2009)\n"
        f"System: Linux with glibc {major}.{minor} or later{''.join(f', and {name}' for name in others)}\n"
        f"Toolchain: {kit}\n\n"
        "To install, copy all folders to a prefix: cp -r bin include lib share /usr/local\n"
    )


def add(archive: tarfile.TarFile, name: str, data: bytes, mode: int, time: int) -> None:
    """Adds a file that depends on nothing but its name, bytes, mode and time."""
    info = tarfile.TarInfo(name)
    info.size, info.mode, info.mtime, info.uname, info.gname = len(data), mode, time, "root", "root"
    archive.addfile(info, io.BytesIO(data))


def tarball(folder: str, files: Iterable[tuple[str, bytes, int]]) -> bytes:
    """A compressed tarball of these files, each a name, its bytes and its mode."""
    raw, time = io.BytesIO(), moment()
    with tarfile.open(fileobj=raw, mode="w", format=tarfile.PAX_FORMAT) as archive:
        for name, data, mode in sorted(files):
            add(archive, f"{folder}/{name}", data, mode, time)
    return gzip.compress(raw.getvalue(), 9, mtime=0)


def bytes_of(path: str) -> bytes:
    """The bytes of a file."""
    with open(path, "rb") as file:
        return file.read()


def program_files() -> Iterator[tuple[str, bytes, int]]:
    """What is installed, and what the program needs."""
    with tempfile.TemporaryDirectory() as folder:
        with contextlib.redirect_stdout(sys.stderr):
            install.install(install.Place("/usr/local", "/usr/local/lib", folder))
        for at, _, names in os.walk(folder):
            for path in (f"{at}/{name}" for name in names):
                yield os.path.relpath(path, f"{folder}/usr/local"), bytes_of(path), 0o755 if os.access(
                    path, os.X_OK
                ) else 0o644
    yield f"{install.DOCS}/copyright", make_copyright.text().encode(), 0o644
    yield "BUILD.txt", needs(f"{TOP}/bin/warc").encode(), 0o644


def python_files() -> Iterator[tuple[str, bytes, int]]:
    """The Python package with the library, to be put into a folder of PYTHONPATH."""
    for path in glob.glob(f"{TOP}/out/python/zogwedu/*.*"):
        yield os.path.relpath(path, f"{TOP}/out/python"), bytes_of(path), 0o644
    for name in ("python/README.md", *LICENCES):
        yield os.path.basename(name), bytes_of(f"{TOP}/{name}"), 0o644


def crate_files() -> Iterator[tuple[str, bytes, int]]:
    """The Rust crate, and the library where its build looks for it."""
    for source, name in install.crate_files():
        yield "rust/" + name.partition("/zogwedu-")[2].partition("/")[2], bytes_of(f"{TOP}/{source}"), 0o644
    yield "out/lib/libwarc.a", bytes_of(f"{TOP}/out/lib/libwarc.a"), 0o644
    for name in LICENCES:
        yield name, bytes_of(f"{TOP}/{name}"), 0o644


def source_paths() -> Iterator[str]:
    """The paths of the project's files: those that git knows, or in a source tarball all that isn't built."""
    if os.path.exists(f"{TOP}/.git"):
        listed = subprocess.run(["git", "ls-files", "-z"], cwd=TOP, capture_output=True, text=True, check=True)
        yield from filter(None, listed.stdout.split("\0"))
        return
    for at, folders, names in os.walk(TOP):
        folders[:] = [it for it in folders if it not in LEFT_OUT]
        yield from (os.path.relpath(f"{at}/{name}", TOP) for name in names)


def source_files() -> Iterator[tuple[str, bytes, int]]:
    """The files of the project, without what is built."""
    for path in source_paths():
        yield path, bytes_of(f"{TOP}/{path}"), 0o755 if os.access(f"{TOP}/{path}", os.X_OK) else 0o644


def release() -> Iterator[tuple[str, bytes]]:
    """Each file of a release: its name, and its bytes."""
    number = version()
    yield f"warc-{number}-x86_64-linux.tar.gz", tarball(f"warc-{number}", program_files())
    yield f"zogwedu-python-{number}-x86_64-linux.tar.gz", tarball(f"zogwedu-python-{number}", python_files())
    yield f"zogwedu-rust-{number}-x86_64-linux.tar.gz", tarball(f"zogwedu-rust-{number}", crate_files())
    yield f"zogwedu-{number}.html", bytes_of(f"{TOP}/zogwedu.html")
    yield f"zogwedu-{number}.tar.gz", tarball(f"zogwedu-{number}", source_files())


def make() -> None:
    """Writes the files of a release, and their SHA-256."""
    os.makedirs(f"{TOP}/dist", exist_ok=True)
    sums = ""
    for name, data in release():
        sums += f"{hashlib.sha256(data).hexdigest()}  {name}\n"
        with open(f"{TOP}/dist/{name}", "wb") as out:
            out.write(data)
    with open(f"{TOP}/dist/SHA256SUMS", "w", encoding="utf-8") as listed:
        listed.write(sums)
    print(sums + needs(f"{TOP}/bin/warc"), end="")


def verify(path: str) -> None:
    """Compares a tarball with the one that this folder makes."""
    ours, theirs = tarball(f"warc-{version()}", program_files()), bytes_of(path)
    print(f"built here: {hashlib.sha256(ours).hexdigest()}\n{path}: {hashlib.sha256(theirs).hexdigest()}")
    sys.exit("they differ" if ours != theirs else 0)


def main() -> None:
    """Does what the words say."""
    if sys.argv[1] == "verify":
        verify(sys.argv[2])
    else:
        make()


if __name__ == "__main__":
    main()
