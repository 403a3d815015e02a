#!/usr/bin/env python3
"""Counts what a reader has to believe: the definitions of specs/ that the words of a contract reach.

Usage: count_specs.py [--write | --all | CLAIM]

For each claim of docs/TRUST.md it follows the words of the contracts that the claim links, and counts the lines of the
definitions. It prints the table that TRUST has; --write puts the counts there, and leaves the words to begin with as
they are. --all prints the files that all public contracts rest on, in reading order, and the number of a claim prints
its definitions, so that they can be read one after another. `make lint-docs` fails where TRUST has other counts, or
begins with a word that the claim doesn't rest on.

A word counts if the contract cites it, or if the definition of a word that counts uses it. Public are functions with
`pub`, those of a public trait, and those that implement a trait. Comments and empty lines aren't counted.
"""
from __future__ import annotations

import dataclasses
import glob
import os
import re
import sys
from collections.abc import Iterator
from typing import Dict, List, Tuple

import lint_trust
from shared import TOP, crates, read

PAGE = lint_trust.PAGE
# They test and show the library, so nobody has to believe what they define.
BESIDE = ("suites_", "example_", "warc_vectors")
FUNCTION = re.compile(r'^\s*(pub )?(?:const |unsafe )*(?:extern "C" )?fn (\w+)')
USE = re.compile(r"^\s*(?:ghost )?use Rattle\.(\w+)\.specs\.(\w+)\.\{([^}]*)\}", re.MULTILINE)
CONTRACT = re.compile(r"^\[`?([\w:]+)`?\]\(\.\./(crates/\w+/src/[\w/]+\.rt)\)$")
HEAD = "| Claim | Definitions | Lines | Lines that no claim above needs | Begin with |\n"
TABLE = re.compile(rf"{re.escape(HEAD)}(?:\|.*\n)*")
ROW = re.compile(r"^\| (\d+) \|.*\| ([^|\n]*) \|$", re.MULTILINE)
# "`Opens` of `warc_reading`", or several words of a crate.
BEGINNING = re.compile(r"((?:`\w+`(?:, )?)+) of `(\w+)`")
ALL = re.compile(r"(All public contracts rest on) [\d,]+ definitions of [\d,]+ lines, in [\d,]+ files")
Word = Tuple[str, str, str]
Names = Dict[str, Word]


@dataclasses.dataclass(frozen=True)
class Specs:
    """A file of specs/: the word that each imported name is, and the text of each of its definitions."""

    imports: Names
    words: Dict[str, str]


Files = Dict[Tuple[str, str], Specs]


def imports_of(text: str) -> Names:
    """The word that each imported name is, which may have another name where it is defined."""
    found = {}
    for crate, file, names in USE.findall(text):
        for name in names.split(","):
            word, _, here = name.strip().replace("◌", "").partition(" as ")
            found[here or word] = (crate, file, word)
    return found


def definitions(text: str) -> dict[str, str]:
    """The text of each definition, by its word; the lines of a word that has several belong together."""
    found: dict[str, str] = {}
    word = ""
    for line in text.splitlines():
        if line[:1].strip() and not line.startswith(("--", "use ", "ghost use ")):
            head = re.sub(r"^(?:(?:abbrev|unfoldable|opaque|record|data|pub|inductive) )+", "", line)
            word = re.split(r"[\s:({]", head, maxsplit=1)[0].replace("◌", "") or word
        if word and not line.startswith("--"):
            found[word] = found.get(word, "") + line + "\n"
    return found


def specs_of(top: str) -> Files:
    """All files of specs/, by crate and name."""
    found = {}
    for path in sorted(glob.glob(f"{top}/crates/*/specs/*.antt")):
        crate, _, file = path.split("/")[-3:]
        with open(path, encoding="utf-8") as source:
            text = source.read()
        found[crate, file[:-5]] = Specs(imports_of(text), definitions(text))
    return found


def contracts(text: str) -> Iterator[tuple[str, str]]:
    """The name of each public function, with each line between its head and its body."""
    name, block = "", ""
    for line in text.splitlines():
        if re.match(r"(?:pub trait|impl\b.* for )", line):
            block = line
        elif line == "}":
            block = ""
        head = FUNCTION.match(line)
        if head:
            name = head[2] if head[1] or block else ""
        if name:
            yield name, line
            if re.match(r"^\s*\{\s*$|^\s*\}", line) or line.rstrip().endswith(";"):
                name = ""
            elif line.rstrip().endswith("{") and "ensures" not in line and "requires" not in line:
                name = ""


def names_in(text: str) -> set[str]:
    """What may be a name in a text."""
    return set(re.findall(r"[^\s(){}\[\],;:.]+", text))


def cited(path: str, function: str = "") -> set[Word]:
    """The words of specs/ that the contract of a function of a file cites, or those of all its public functions."""
    with open(path, encoding="utf-8") as source:
        text = source.read()
    imports = imports_of(text)
    lines = [line for name, line in contracts(text) if function in ("", name)]
    if function and not lines:
        raise ValueError(f"{path} has no public function {function}")
    return {imports[name] for name in names_in("\n".join(lines)) if name in imports}


def reached(specs: Files, words: set[Word]) -> set[Word]:
    """The words, and those that their definitions use."""
    todo = sorted(words)
    seen: set[Word] = set()
    while todo:
        crate, file, word = todo.pop()
        if (crate, file, word) in seen or (crate, file) not in specs:
            continue
        seen.add((crate, file, word))
        here = specs[crate, file]
        for name in names_in(here.words.get(word, "")):
            if name in here.words:
                todo.append((crate, file, name))
            if name in here.imports:
                todo.append(here.imports[name])
    return seen


def lines_of(specs: Files, word: Word) -> int:
    """How many lines the definition of a word has."""
    text = specs[word[0], word[1]].words.get(word[2], "")
    return sum(bool(line.strip()) for line in text.splitlines())


def of_claims(specs: Files) -> Iterator[set[Word]]:
    """The words that each claim of the page rests on."""
    for _, lines in lint_trust.claims(read(PAGE)):
        words: set[Word] = set()
        for text, path in lint_trust.LINK.findall(lines.get("Contract", "")):
            words |= cited(f"{TOP}/{path}", text.strip("`").split("::")[-1])
        yield reached(specs, words)


def of_all(specs: Files) -> set[Word]:
    """The words that all public contracts rest on."""
    found: set[Word] = set()
    for path in glob.glob(f"{TOP}/crates/*/src/**/*.rt", recursive=True):
        if not os.path.relpath(path, f"{TOP}/crates").startswith(BESIDE):
            found |= cited(path)
    return reached(specs, found)


def by_file(specs: Files, words: set[Word]) -> List[Tuple[str, str, int]]:
    """The files of words, in the order of crates.txt, with the lines of their definitions."""
    order = {name: at for at, name in enumerate(crates())}
    files = sorted({word[:2] for word in words}, key=lambda it: (order[it[0]], it[1]))
    return [(crate, file, sum(lines_of(specs, it) for it in words if it[:2] == (crate, file))) for crate, file in files]


def defining(text: str, words: set[str]) -> Iterator[str]:
    """The paragraphs of a file that define words, with their comments."""
    for paragraph in re.split(r"\n{2,}", text.strip()):
        if words & set(definitions(paragraph)):
            yield paragraph


def texts(specs: Files, words: set[Word]) -> Iterator[str]:
    """The definitions of words with their comments, file by file."""
    for crate, file, count in by_file(specs, words):
        path = f"crates/{crate}/specs/{file}.antt"
        yield f"==== {path}: {count} lines"
        yield from defining(read(path), {word for *place, word in words if place == [crate, file]})


def beginnings(text: str) -> dict[int, str]:
    """What the table of a page begins each claim with."""
    found = TABLE.search(text)
    return {int(number): cell for number, cell in ROW.findall(found[0] if found else "")}


def strange(begin: str, words: set[Word]) -> Iterator[str]:
    """The words to begin with that aren't among those of a claim."""
    for names, crate in BEGINNING.findall(begin):
        for name in re.findall(r"\w+", names):
            if not any((place, word) == (crate, name) for place, _, word in words):
                yield f"{name} of {crate}"


def table() -> str:
    """The table of the page."""
    specs, begin = specs_of(TOP), beginnings(read(PAGE))
    rows = ""
    before: set[Word] = set()
    for number, words in enumerate(of_claims(specs), 1):
        more = words - before
        before |= words
        counts = [sum(lines_of(specs, it) for it in part) for part in (words, more)]
        rows += f"| {number} | {len(words)} | {counts[0]:,} | {counts[1]:,} | {begin.get(number, '')} |\n"
    return f"{HEAD}|---|---|---|---|---|\n{rows}"


def page() -> str:
    """The page, with its counts made anew."""
    specs = specs_of(TOP)
    words = of_all(specs)
    count = sum(lines_of(specs, it) for it in words)
    said = f"{len(words):,} definitions of {count:,} lines, in {len(by_file(specs, words))} files"
    made = TABLE.sub(lambda _: table(), read(PAGE))
    return ALL.sub(lambda found: f"{found[1]} {said}", made)


def wrong() -> Iterator[str]:
    """What is wrong with the counts of the page."""
    text = read(PAGE)
    if not TABLE.search(text) or not ALL.search(text):
        yield f"{PAGE}: has no counts of definitions as tools/count_specs.py writes them"
    elif page() != text:
        yield f"{PAGE}: its counts of definitions are others: run tools/count_specs.py --write"
    for number, words in enumerate(of_claims(specs_of(TOP)), 1):
        begin = beginnings(text).get(number, "")
        if not BEGINNING.search(begin):
            yield f"{PAGE}: claim {number} begins with no definition"
        for name in strange(begin, words):
            yield f"{PAGE}: claim {number} doesn't rest on {name}"


def main() -> None:
    if sys.argv[1:] == ["--all"]:
        specs = specs_of(TOP)
        for crate, file, count in by_file(specs, of_all(specs)):
            print(f"{count:5} crates/{crate}/specs/{file}.antt")
    elif sys.argv[1:] and sys.argv[1].isdigit():
        specs = specs_of(TOP)
        print(*texts(specs, list(of_claims(specs))[int(sys.argv[1]) - 1]), sep="\n\n")
    elif sys.argv[1:] == ["--write"]:
        made = page()
        with open(f"{TOP}/{PAGE}", "w", encoding="utf-8") as out:
            out.write(made)
    else:
        print(table(), end="")


if __name__ == "__main__":
    main()
