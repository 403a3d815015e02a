#!/usr/bin/env python3
"""Checks of the text of the repository that the prover doesn't make. Python 3 alone; takes about a second.

usage: lint.py [FOLDER]      the top of the repository; without it, the folder above this file

It reports, a line each, and exits with 1 where there is any:

- a word of specs/ that two specs files define;
- a specs file that says "no public clause cites them" where the contract of a public function cites one of its words;
- a line of over 120 characters: in src/ or specs/, but for imports (`ghost use`, `use`) and tactics, which rt fmt keeps
  in one line; in a page, but for rows of tables and what a command writes (tools/wrap_pages.py breaks paragraphs); and
  of over 120 bytes in tools/, bench/, packaging/ and shell/, and in Python, shell, C and Rust of tests/, collection/,
  python/, rust/ and c/;
- a planted bug, of must-fail/ or of tests/plants/, that doesn't apply (a text that isn't in its file exactly once), or
  that has no line `why:`; two of one crate with one name; more than the gate has time for;
- a number of a paper or of a request in place of a plain name;
- a file of src/ that doesn't begin with `//!`, which says what is in it;
- a crates.txt, a file of a crate's, or a symbolic link below the checkout and outside of crates/, also where git
  doesn't see it: the gate stops there, so no target may leave one;
- a name in src/ or specs/ with one of the words that docs/GLOSSARY.md gives up for another, and a
  file of src/ that is called by a gerund;
- one of these words, and of a few phrases, in a comment, a docstring or a page (tools/lint_retired.py).
"""
from __future__ import annotations

import os
import re
import subprocess
import sys
from collections.abc import Iterator

import lint_retired

WIDTH = 120
# Files of which no line may be wider, with what begins a line that may. CALLING.md is made of texts of crates/.
NARROW = (
    (re.compile(r"crates/\w+/(src/.*\.rt|specs/.*\.antt)"), re.compile(r"\s*(ghost use |use |#\[tactic)")),
    (re.compile(r"(?!crates/).*\.md"), re.compile(r"\|")),
    (re.compile(r"(tools/(?!.*\.md)|bench/\w+\.py|packaging/|shell/|\.ci/|Makefile).*"), None),
    (re.compile(r"(tests|collection|python|rust|c)/.*\.(py|sh|c|h|rs)"), None),
)
WORD = re.compile(r"^(?:abbrev|unfoldable|opaque|record|data) pub ([^\s:({]+)|^pub (?:record|data) ([^\s:({]+)")
IMPORT = re.compile(r"^use Rattle\.(\w+)\.specs\.(\w+)\.\{([^}]*)\}")
GHOST_IMPORT = re.compile(r"^\s*ghost use Rattle\.(\w+)\.specs\.(\w+)\.\{([^}]*)\}")
PRIVATE = "no public clause cites them"
PUBLIC_FN = re.compile(r"^\s*pub (?:const )?fn (\w+)")
PAPER = re.compile(r"\b(?:[DLTW][0-9]{1,2}(?:\.[0-9]+)?|R[0-9]{1,2}|[Rr]ow [0-9]+|document 0[1-4]|0[1-4], section)\b")
# Names with a word that docs/GLOSSARY.md, "One word for one thing", gives up; code without its comments and strings.
RETIRED = re.compile(
    r"\b(?:\w*_)?(?:told|tells?|telling|behind|stands?|standings?)(?=_|\b)"
    r"|\b\w*(?:Told|Tells?|Telling|Behind|Stands?|Standings?)(?=[A-Z_]|\b)"
)
NO_CODE = {".rt": re.compile(r'//[^\n]*|"(?:\\.|[^"\\])*"'), ".antt": re.compile(r'--[^\n]*|"(?:\\.|[^"\\])*"')}
BY_ANOTHER = re.compile(r"^(?![ \t]*///)[^\n]*\n[ \t]*/// (The same|Those of|That of)\b", re.MULTILINE)
GERUND = re.compile(r"crates/\w+/src/(?:\w+/)*(?!listing\.)\w+ing\.rt")
# Each planted bug in the gate costs a minute of a processor, and each crate that has any is checked once more.
EDIT = re.compile(r"(?:crates/\w+/must-fail|tests/plants/\w+)/\w+\.edit")
MOST_EDITS = 12
MOST_CRATES_WITH_EDITS = 7
NO_PAPER = re.compile(r"T[0-9]{2}:|[0-9]T[0-9]|urn:uuid|--stored")


def files(top: str) -> list[str]:
    """The files that git tracks, and the new ones that it doesn't ignore."""
    out = subprocess.run(
        ["git", "ls-files", "-co", "--exclude-standard"], cwd=top, check=True, capture_output=True, text=True
    )
    return [path for path in sorted(set(out.stdout.split("\n"))) if path and os.path.isfile(os.path.join(top, path))]


def lines_of(top: str, path: str) -> list[str]:
    """The lines of a text file; none where it isn't UTF-8."""
    try:
        with open(os.path.join(top, path), encoding="utf-8") as file:
            return file.read().split("\n")
    except UnicodeDecodeError:
        return []


def defined(top: str, paths: list[str]) -> dict[str, list[str]]:
    """Each word of specs/ with the places that define it."""
    words: dict[str, list[str]] = {}
    for path in paths:
        if re.fullmatch(r"crates/\w+/specs/\w+\.antt", path):
            for number, line in enumerate(lines_of(top, path), 1):
                found = WORD.match(line)
                if found:
                    words.setdefault(found.group(1) or found.group(2), []).append(f"{path}:{number}")
    return words


def defined_twice(top: str, paths: list[str]) -> Iterator[str]:
    words = defined(top, paths)
    twice = {word for word, places in words.items() if len({place.split(":")[0] for place in places}) > 1}
    for word in sorted(twice):
        yield f"{words[word][0]}: {word} is defined here and at {', '.join(words[word][1:])}"


def clauses_of_public_functions(lines: list[str]) -> Iterator[str]:
    """The lines between the head and the body of each public function."""
    inside = False
    for line in lines:
        if PUBLIC_FN.match(line):
            inside = True
        if inside:
            yield line
            if re.match(r"^\s*\{\s*$", line) or (line.rstrip().endswith("{") and "ensures" not in line):
                inside = False


def cited_publicly(top: str, paths: list[str]) -> set[tuple[str, str, str]]:
    """Of each crate, the words (crate, file, word) that clauses of its public functions cite."""
    cited = set()
    for path in paths:
        if not re.fullmatch(r"crates/\w+/src/.*\.rt", path):
            continue
        lines = lines_of(top, path)
        imported = {}
        for line in lines:
            found = GHOST_IMPORT.match(line)
            if found:
                for name in found.group(3).split(","):
                    imported[name.strip().split(" as ")[-1]] = (found.group(1), found.group(2))
        text = "\n".join(clauses_of_public_functions(lines))
        for name, (crate, file) in imported.items():
            if re.search(rf"(?<![\w.]){re.escape(name)}(?![\w])", text):
                cited.add((crate, file, name))
    return cited


def untrue_headers(top: str, paths: list[str]) -> Iterator[str]:
    cited = cited_publicly(top, paths)
    for path in paths:
        found = re.fullmatch(r"crates/(\w+)/specs/(\w+)\.antt", path)
        if not found:
            continue
        lines = lines_of(top, path)
        header = " ".join(line[2:].strip() for line in lines[:4] if line.startswith("--"))
        if PRIVATE not in header:
            continue
        for crate, file, name in sorted(cited):
            if (crate, file) == found.groups():
                yield f"{path}:1: says '{PRIVATE}', and a public contract cites {name}"


def shown_lines(lines: list[str]) -> set[int]:
    """The numbers of the lines of a page that show what commands write, which stays as it is."""
    shown, inside = set(), False
    for number, line in enumerate(lines, 1):
        if line.startswith("```"):
            inside = line == "```console"
        elif inside and not line.startswith("$ "):
            shown.add(number)
    return shown


def wide_lines(top: str, paths: list[str]) -> Iterator[str]:
    for path in paths:
        unit = "characters" if path.startswith("crates/") or path.endswith(".md") else "bytes"
        for files, wide in NARROW:
            if not files.fullmatch(path):
                continue
            lines = lines_of(top, path)
            shown = shown_lines(lines)
            for number, line in enumerate(lines, 1):
                width = len(line if unit == "characters" else line.encode())
                if width > WIDTH and number not in shown and not (wide and wide.match(line)):
                    yield f"{path}:{number}: {width} {unit}"


def edit_faults(top: str, path: str) -> Iterator[str]:
    """What is wrong with a planted bug."""
    crate = f"crates/{crate_of_edit(path)}"
    texts: dict[str, str] = {}
    why, file, old = False, "", None
    for line in lines_of(top, path):
        key, _, text = line.partition(":")
        text = text[1:] if text.startswith(" ") else text
        if key == "why":
            why = True
        elif key == "file":
            file = f"{crate}/{text.strip()}"
            if file not in texts:
                texts[file] = "\n".join(lines_of(top, file)) if os.path.isfile(os.path.join(top, file)) else ""
        elif key == "old":
            old = text
        elif key == "new" and file and old is not None:
            count = texts[file].count(old)
            if count != 1:
                yield f"{path}: its old text is {count} times in {file}"
            texts[file] = texts[file].replace(old, text, 1)
            old = None
    if not why:
        yield f"{path}: no line 'why: PROMISE; refused by CLAUSE'"


def crate_of_edit(path: str) -> str:
    """The crate that a planted bug is of: crates/NAME/must-fail/X.edit or tests/plants/NAME/X.edit."""
    parts = path.split("/")
    return parts[1] if parts[0] == "crates" else parts[2]


def bad_edits(top: str, paths: list[str]) -> Iterator[str]:
    edits = [path for path in paths if EDIT.fullmatch(path)]
    names: dict[tuple[str, str], str] = {}
    for path in edits:
        yield from edit_faults(top, path)
        other = names.setdefault((crate_of_edit(path), os.path.basename(path)), path)
        if other != path:
            yield f"{path}: has the name of {other}"
    in_gate = [path for path in edits if path.startswith("crates/")]
    if len(in_gate) > MOST_EDITS or len({crate_of_edit(path) for path in in_gate}) > MOST_CRATES_WITH_EDITS:
        yield f"crates/*/must-fail: {len(in_gate)} in the gate; others belong in tests/plants/NAME/"


def numbers_of_papers(top: str, paths: list[str]) -> Iterator[str]:
    for path in paths:
        if path.endswith((".edit", "/stdin", "/stdout", ".script", ".warc", ".lock")) or path.startswith("tools/lint"):
            continue
        for number, line in enumerate(lines_of(top, path), 1):
            found = PAPER.search(line)
            if found and not NO_PAPER.search(line):
                yield f"{path}:{number}: {found[0]}"


def without_head(top: str, paths: list[str]) -> Iterator[str]:
    for path in paths:
        if re.fullmatch(r"crates/\w+/src/.*\.rt", path) and not lines_of(top, path)[0].startswith("//! "):
            yield path


def without_subject(top: str, paths: list[str]) -> Iterator[str]:
    """Doc comments that say what a call does by the one above it, which a reader may not see, and which may move."""
    for path in paths:
        if re.fullmatch(r"crates/\w+/src/.*\.rt", path):
            text = "\n".join(lines_of(top, path))
            for found in BY_ANOTHER.finditer(text):
                yield f"{path}:{text.count(chr(10), 0, found.start(1)) + 1}: {found[1]}"


def strays(top: str, _: list[str]) -> Iterator[str]:
    """What stops the gate wherever it is: `crates/NAME/out` alone is set aside."""
    for at, folders, names in os.walk(top):
        inside = os.path.relpath(at, top).split("/")
        folders[:] = [] if inside[0] == "crates" and "out" in inside else sorted(set(folders) - {".git"})
        for name in (*names, *(it for it in folders if os.path.islink(f"{at}/{it}"))):
            is_list = name in ("crates.txt", "BUILD.bazel", "MODULE.bazel") and inside != ["."]
            is_link = os.path.islink(f"{at}/{name}")
            if is_list or is_link or name.endswith((".rt", ".antt")) and inside[0] != "crates":
                yield os.path.relpath(f"{at}/{name}", top)


def retired_names(top: str, paths: list[str]) -> Iterator[str]:
    for path in paths:
        if not re.fullmatch(r"crates/\w+/(src/.*\.rt|specs/.*\.antt)", path):
            continue
        if GERUND.fullmatch(path):
            yield f"{path}: a file is called by a noun"
        blank = NO_CODE[os.path.splitext(path)[1]]
        code = blank.sub(lambda found: "\n" * found[0].count("\n"), "\n".join(lines_of(top, path)))
        for number, line in enumerate(code.split("\n"), 1):
            found = RETIRED.search(line)
            if found:
                yield f"{path}:{number}: {found[0]}"


def main(words: list[str]) -> int:
    top = words[0] if words else os.path.join(os.path.dirname(os.path.abspath(__file__)), "..")
    paths = files(top)
    found = [
        f"{what}: {line}"
        for what, check in (
            ("defined twice", defined_twice),
            ("untrue header", untrue_headers),
            ("too wide", wide_lines),
            ("bad edit", bad_edits),
            ("number of a paper", numbers_of_papers),
            ("no first line //!", without_head),
            ("says nothing alone", without_subject),
            ("stops the gate", strays),
            ("retired name", retired_names),
            ("retired word", lint_retired.found),
        )
        for line in check(top, paths)
    ]
    print("\n".join(found + [f"lint: {len(paths)} files, {len(found)} found"]))
    return 1 if found else 0


if __name__ == "__main__":
    sys.exit(main(sys.argv[1:]))
