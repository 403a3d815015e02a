#!/usr/bin/env python3
"""The example programs do what they say, where it isn't easy too: many spans, a full disk, no file, a torn one."""
import gzip
import os
import resource
import signal
import subprocess
import sys
import tempfile
import unittest
from typing import Any, Dict, List, Tuple

TOP = os.path.dirname(os.path.dirname(os.path.dirname(os.path.abspath(__file__))))
CRAWL = f"{TOP}/examples/crawl.warc"
URI = "http://127.0.0.1:8765/"
COMPILER = os.environ.get("CC", "cc")
FLAGS = ["-Wall", "-Wextra", "-Wconversion", "-Werror", "-O1", f"-I{TOP}/out/lib"]


def run(*words: str, **how: Any) -> Tuple[bytes, bytes, int]:
    """What a program writes, its messages and its status."""
    done = subprocess.run(words, capture_output="stdout" not in how, check=False, **how)
    return done.stdout, done.stderr, done.returncode


def compiled(name: str, folder: str, *libraries: str) -> str:
    """The program of an example of C."""
    path = f"{folder}/{name}"
    words = [COMPILER, *FLAGS, f"{TOP}/c/{name}.c", f"{TOP}/out/lib/libwarc.a", *libraries, "-o", path]
    subprocess.run(words, check=True)
    return path


def has_zlib() -> bool:
    """Whether a compiler finds the header of zlib."""
    words = [COMPILER, "-E", "-include", "zlib.h", "-x", "c", "/dev/null"]
    return subprocess.run(words, capture_output=True, check=False).returncode == 0


class Examples(unittest.TestCase):
    folder: "tempfile.TemporaryDirectory[str]"
    programs: Dict[str, List[str]]

    @classmethod
    def setUpClass(cls) -> None:
        cls.folder = tempfile.TemporaryDirectory()
        for name in ("example", "headers"):
            compiled(name, cls.folder.name)
        cls.programs = {
            "C": [f"{cls.folder.name}/example"],
            "Python": [sys.executable, f"{TOP}/python/example.py"],
        }
        rust = f"{TOP}/out/rust/release/examples/page"
        if os.path.exists(rust):
            cls.programs["Rust"] = [rust]

    @classmethod
    def tearDownClass(cls) -> None:
        cls.folder.cleanup()

    def test_a_page_in_many_segments(self) -> None:
        whole = run(f"{TOP}/bin/warc", "replay", CRAWL, URI, "9999")[0]
        path = f"{self.folder.name}/split.warc"
        with open(path, "wb") as out:
            out.write(run(f"{TOP}/bin/warc", "split", CRAWL, "3")[0])
        for name, program in self.programs.items():
            with self.subTest(name):
                written, message, status = run(*program, path, URI, "9999")
                self.assertEqual((written.split(b"\n", 1)[1], message, status), (whole, b"", 0))

    def test_a_full_disk(self) -> None:
        """Also where a write fails before the last one."""
        head = "WARC/1.1\r\nWARC-Type: resource\r\nWARC-Record-ID: <urn:x:1>\r\nWARC-Date: 2020\r\n"
        large = f"{self.folder.name}/large.warc"
        with open(large, "wb") as out:
            out.write(f"{head}WARC-Target-URI: {URI}\r\nContent-Length: 1000000\r\n\r\n".encode())
            out.write(bytes(1_000_000) + b"\r\n\r\n")
        programs = [[*program, path, URI, "9999"] for program in self.programs.values() for path in (CRAWL, large)]
        programs += [[f"{self.folder.name}/headers", CRAWL]]
        for words in programs:
            with self.subTest(words=words), open("/dev/full", "wb") as full:
                self.assertNotEqual(run(*words, stdout=full, stderr=subprocess.PIPE)[2], 0)

    def test_no_file_no_bytes_no_page(self) -> None:
        empty = f"{self.folder.name}/empty"
        with open(empty, "wb"):
            pass
        for name, program in self.programs.items():
            for words in (
                (f"{TOP}/nowhere", URI, "1"),
                (empty, URI, "1"),
                (CRAWL, URI, "1000"),
                (CRAWL, URI, "soon"),
                (),
            ):
                with self.subTest(name, words=words):
                    _, message, status = run(*program, *words)
                    self.assertNotEqual(message, b"")
                    self.assertNotEqual(status, 0)

    def test_a_pipe_is_no_mapped_file(self) -> None:
        """A pipe has no length, and isn't an archive without records."""
        with open(CRAWL, "rb") as crawl:
            written, message, status = run(*self.programs["C"], "/dev/stdin", URI, "9999", input=crawl.read())
        self.assertEqual((written, status), (b"", 2))
        self.assertIn(b"/dev/stdin", message)

    def test_headers(self) -> None:
        written, _, status = run(f"{self.folder.name}/headers", CRAWL)
        self.assertEqual((written.count(b"record "), written.count(b" HTTP/1."), status), (18, 6, 0))
        with open(f"{self.folder.name}/cut", "wb") as out, open(CRAWL, "rb") as crawl:
            out.write(crawl.read()[:-1])
        written, _, status = run(f"{self.folder.name}/headers", f"{self.folder.name}/cut")
        self.assertEqual(
            (written.count(b"record "), written.splitlines()[-1][:18], status), (17, b"then F11 Truncated", 0)
        )


class Compressed(unittest.TestCase):
    """The examples that read what gzip compressed."""

    folder: "tempfile.TemporaryDirectory[str]"
    programs: Dict[str, str]

    @classmethod
    def setUpClass(cls) -> None:
        cls.folder = tempfile.TemporaryDirectory()
        cls.programs = {}
        if has_zlib():
            cls.programs["C"] = compiled("compressed", cls.folder.name, "-lz")
        else:
            print("no zlib.h: c/compressed.c isn't tried")
        rust = f"{TOP}/out/rust/release/examples/compressed"
        if os.path.exists(rust):
            cls.programs["Rust"] = rust

    @classmethod
    def tearDownClass(cls) -> None:
        cls.folder.cleanup()

    def setUp(self) -> None:
        with open(CRAWL, "rb") as file:
            self.crawl = file.read()
        offsets = [int(row.split(b"\t")[1]) for row in run(f"{TOP}/bin/warc", "list", CRAWL)[0].splitlines()]
        ends = [*offsets[1:], len(self.crawl)]
        self.members = [gzip.compress(self.crawl[begin:end]) for begin, end in zip(offsets, ends)]

    def file(self, data: bytes) -> str:
        path = f"{self.folder.name}/-a.warc.gz"
        with open(path, "wb") as file:
            file.write(data)
        return path

    def test_good(self) -> None:
        whole, wanted = b"".join(self.members), run(f"{TOP}/bin/warc", "list", CRAWL)[0]
        empty = gzip.compress(b"")
        for data in (whole, gzip.compress(self.crawl), empty.join(self.members) + empty, whole + bytes(200_000)):
            for name, program in self.programs.items():
                with self.subTest(name, length=len(data)):
                    self.assertEqual(run(program, self.file(data)), (wanted, b"", 0))
        front = b"".join(wanted.splitlines(True)[:5])
        for name, program in self.programs.items():
            with self.subTest(name):
                self.assertEqual(run(program, self.file(b"".join(self.members[:5]))), (front, b"", 0))
                self.assertEqual(run(program, self.file(empty)), (b"", b"", 0))

    def test_damaged(self) -> None:
        whole, begin = b"".join(self.members), len(b"".join(self.members[:5]))
        ends = [whole[:-1], whole[:-9], whole[: begin + 1], whole[: begin + 30], whole[:1], b""]
        changed = [whole[:at] + bytes([whole[at] ^ 0xE0]) + whole[at + 1 :] for at in (begin, begin + 1, begin + 60)]
        after = [
            whole + b"abc",
            whole + b"\n",
            whole + self.crawl,
            whole + bytes(99) + b"a",
            whole + bytes(200_000) + b"a",
        ]
        for data in (*ends, *changed, *after, self.crawl, gzip.compress(self.crawl[:-1]), gzip.compress(whole)):
            for name, program in self.programs.items():
                with self.subTest(name, length=len(data)):
                    written, message, status = run(program, self.file(data))
                    self.assertEqual((written, status), (b"", 1))
                    self.assertNotEqual(message, b"")

    def test_no_file_and_full_disks(self) -> None:
        for name, program in self.programs.items():
            for words in ((f"{TOP}/nowhere",), (TOP,), ()):
                with self.subTest(name, words=words):
                    written, message, status = run(program, *words)
                    self.assertEqual((written, message != b"", status != 0), (b"", True, True))
            for count in (1, 100):
                path = self.file(gzip.compress(self.crawl * count))
                with self.subTest(name, count=count), open("/dev/full", "wb") as full:
                    self.assertNotEqual(run(program, path, stdout=full, stderr=subprocess.PIPE)[2], 0)

    def test_no_room_for_what_is_decompressed(self) -> None:
        def limit() -> None:
            signal.signal(signal.SIGXFSZ, signal.SIG_IGN)
            resource.setrlimit(resource.RLIMIT_FSIZE, (4096, 4096))

        if "C" in self.programs:
            written, message, status = run(self.programs["C"], self.file(b"".join(self.members)), preexec_fn=limit)
            self.assertEqual((written, status), (b"", 1))
            self.assertIn(b"no room", message)


if __name__ == "__main__":
    unittest.main()
