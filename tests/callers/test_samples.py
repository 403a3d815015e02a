#!/usr/bin/env python3
"""Runs each sample of the programmers' pages, and compares what it writes with the block of text after it.

Usage: test_samples.py [PAGE..]

A sample is a block of Python, C or Rust, and is run at the top of the repository. One without a block of text after it
must write nothing. Rust's are left out where cargo isn't installed.
"""
import os
import re
import shutil
import subprocess
import sys
import tempfile
from typing import Any, Iterator, Optional, Sequence

TOP = os.path.dirname(os.path.dirname(os.path.dirname(os.path.abspath(__file__))))
PAGES = ["docs/PYTHON.md", "docs/C.md", "docs/RUST.md", "docs/FROM_WARCIO.md"]
SAMPLE = re.compile(r"^```(python|c|rust)\n(.*?)^```$(?:\n\n```text\n(.*?)^```$)?", re.MULTILINE | re.DOTALL)
FLAGS = ["-std=c11", "-Wall", "-Wextra", "-Wconversion", "-Werror", f"-I{TOP}/out/lib"]
CARGO = f"""[package]
name = "sample"
version = "0.0.0"
edition = "2021"

[dependencies]
zogwedu = {{ path = "{TOP}/rust" }}

[workspace]
"""


def run(words: Sequence[str], **how: Any) -> str:
    """What a program writes, and its messages if it fails."""
    done: "subprocess.CompletedProcess[str]" = subprocess.run(
        words, cwd=TOP, capture_output=True, text=True, check=False, **how
    )
    return done.stdout + (done.stderr if done.returncode else "")


def run_python(code: str, folder: str) -> str:
    """Runs a script."""
    return run([sys.executable, "-"], input=code, env={**os.environ, "PYTHONPATH": f"{TOP}/out/python"})


def run_c(code: str, folder: str) -> str:
    """Compiles a program and runs it."""
    with open(f"{folder}/sample.c", "w", encoding="utf-8") as file:
        file.write(code)
    compiler, program = os.environ.get("CC", "cc"), f"{folder}/sample"
    messages = run([compiler, *FLAGS, f"{folder}/sample.c", f"{TOP}/out/lib/libwarc.a", "-o", program])
    return messages or run([program])


def run_rust(code: str, folder: str) -> str:
    """Builds a program over the crate and runs it."""
    os.makedirs(f"{folder}/src", exist_ok=True)
    for name, text in (("Cargo.toml", CARGO), ("src/main.rs", code)):
        with open(f"{folder}/{name}", "w", encoding="utf-8") as file:
            file.write(text)
    target = {**os.environ, "CARGO_TARGET_DIR": f"{TOP}/out/rust"}
    words = ["cargo", "run", "--quiet", "--offline", "--manifest-path", f"{folder}/Cargo.toml"]
    return run(words, env=target)


RUNNERS = {"python": run_python, "c": run_c, "rust": run_rust}


def differences(page: str) -> Iterator[Optional[str]]:
    """Runs the samples of a page, and gives a text for each that writes something else. Counts them, too."""
    with open(f"{TOP}/{page}", encoding="utf-8") as file:
        text = file.read()
    for language, code, wanted in SAMPLE.findall(text):
        if language == "rust" and shutil.which("cargo") is None:
            continue
        with tempfile.TemporaryDirectory() as folder:
            written = RUNNERS[language](code, folder)
        said = f"{page}: {code.splitlines()[0]} ..\n wanted {wanted!r}\n writes {written!r}"
        yield None if written == wanted else said


def main(pages: Sequence[str]) -> int:
    """Runs all samples, and answers the exit status."""
    answers = [answer for page in pages for answer in differences(page)]
    wrong = [answer for answer in answers if answer]
    print("".join(f"{answer}\n" for answer in wrong) + f"{len(answers)} samples, {len(wrong)} differences")
    return 1 if wrong or not answers else 0


if __name__ == "__main__":
    sys.exit(main(sys.argv[1:] or PAGES))
