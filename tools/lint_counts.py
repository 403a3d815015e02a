"""What the pages count, and the tree has: pages that try to connect, planted bugs, proofs by hand, crates to copy.

`make lint-docs` fails where a page says another number, or lacks the sentence.
"""
from __future__ import annotations

import glob
import re
import subprocess
import sys
from collections.abc import Iterator

import lint
from shared import TOP, crates, read

WORDS = "no one two three four five six seven eight nine ten eleven twelve".split()


def worded(count: int) -> str:
    """A number as a page writes it."""
    return WORDS[count] if count < len(WORDS) else f"{count:,}"


def leaks() -> str:
    """How many pages of the tests try to connect."""
    words = [sys.executable, "-B", "-c", "import leaks; print(len(leaks.CASES))"]
    return subprocess.run(words, cwd=f"{TOP}/tests/page", check=True, capture_output=True, text=True).stdout.strip()


def files(pattern: str) -> str:
    """How many files or folders of the tree fit a pattern."""
    return worded(len(glob.glob(f"{TOP}/{pattern}")))


def by_hand(crate: str) -> str:
    """How many functions of the types of a crate have proofs of their own."""
    return files(f"crates/{crate}/proofs/*/*/*/")


def library() -> str:
    """The crates that `warc` uses, and itself, in the order of crates.txt."""
    uses, found = crates(), ["warc"]
    for name in found:
        found += [it for it in uses[name] if it in uses and it not in found]
    return " ".join(name for name in uses if name in found)


def held() -> Iterator[tuple[str, str, str]]:
    """Each page, what it says with the number in brackets, and the number that the tree has."""
    yield "docs/PAGE.md", r"\b(\d+) pages", leaks()
    for crate in ("warc_handle", "warc_page", "warc_heap"):
        yield "docs/TRUST.md", rf"(\w+) of `{crate}`(?:,| and|\))", by_hand(crate)
    yield "docs/TRUST.md", r"plants\.py warc_order` tries (\w+) planted bugs", files("tests/plants/warc_order/*.edit")
    most = f"{lint.MOST_EDITS} in at most {worded(lint.MOST_CRATES_WITH_EDITS)}"
    yield "CONTRIBUTING.md", r"are tried by the gate, at most (\d+ in at most \w+) crates", most
    things = len(re.findall(r"^## \d+\. ", read("docs/FROM_WARCIO.md"), re.MULTILINE))
    yield "docs/FROM_WARCIO.md", r"(\w+) things that people do with warcio", worded(things)
    yield "docs/LIBRARY.md", r"copy these crates and their lines of `crates\.txt`: ([^.]*)\.", library()


def faults(page: str, text: str, pattern: str, wanted: str) -> Iterator[str]:
    """Where a text says another number than the wanted one."""
    found = [" ".join(re.findall(r"[\w,]*\w", it)) for it in re.findall(pattern, " ".join(text.split()))]
    if not found:
        yield f"{page}: nothing is as tools/lint_counts.py reads it: {pattern}"
    for it in found:
        if it.lower().replace(",", "") != wanted.replace(",", ""):
            yield f"{page}: {it}, and the tree has {wanted}"


def wrong() -> Iterator[str]:
    """What is wrong with the counts of the pages."""
    for page, pattern, wanted in held():
        yield from faults(page, read(page), pattern, wanted)
