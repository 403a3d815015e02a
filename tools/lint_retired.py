"""Finds words that docs/GLOSSARY.md gives up for others, in comments, docstrings, pages and reasons of planted bugs."""
from __future__ import annotations

import io
import os
import re
import tokenize
from collections.abc import Iterator

OF_MEMORY = r"(?:lack|want)\s+of\s+memory|growth\s+of\s+the\s+memory|(?:it|and|which)\s+takes\s+no\s+memory"
WORDS = re.compile(
    rf"\b(?:tells|told|stands|behind|lies|so\s+many|that\s+of\s+the|of\s+one\s+kind|whichever|{OF_MEMORY})\b",
    re.IGNORECASE,
)
# Those of crates/. The others wait there for what proves their crates anew, since a comment does that too.
OF_CRATES = re.compile(rf"(?<!-)\b(?:tells|told|stands|behind|lies|{OF_MEMORY})\b", re.IGNORECASE)
# What these words are right in.
IDIOMS = re.compile(r"\btold\s+apart\b|\b(?:a\s+file\s+that|fails\s+or)\s+lies\b|\bbehind\s+a\s+proxy\b", re.IGNORECASE)
# The page that lists the words, what is made of texts of crates/, and what isn't ours.
LEFT_OUT = re.compile(r"docs/(?:GLOSSARY|NUMBERS|PROGRAM)\.md|LICENSE.*|tools/lint_retired\.py")
CODE = re.compile(r"^```.*?^```$|`[^`\n]*`|\]\([^)\s]*\)", re.MULTILINE | re.DOTALL)
# What is no comment, and what is one: a text in quotes comes first, so that a mark in it begins none.
STRING = r'"(?:\\.|[^"\\\n])*"|\'(?:\\.|[^\'\\\n])*\'|`(?:\\.|[^`\\])*`'
SLASHES = re.compile(rf"{STRING}|(//[^\n]*|/\*.*?\*/)", re.DOTALL)
RATTLE = re.compile(r'"(?:\\.|[^"\\])*"|(//[^\n]*)')
HYPHENS = re.compile(r'"(?:\\.|[^"\\\n])*"|(--[^\n]*)')
HASHES = re.compile(r"^[ \t]*(#[^\n]*)|[^\S\n](# [^\n]*)", re.MULTILINE)
WHYS = re.compile(r"^why:([^\n]*)", re.MULTILINE)
COMMENTS = {
    **dict.fromkeys((".js", ".ts", ".c", ".h", ".rs", ".css"), SLASHES),
    **dict.fromkeys((".sh", ".script", ".toml", ".conf", "", ".yml"), HASHES),
    **{".rt": RATTLE, ".antt": HYPHENS, ".edit": WHYS},
}


def blank(text: str) -> str:
    """As many lines without a word."""
    return "\n" * text.count("\n")


def of_python(text: str) -> str:
    """The comments and the docstrings of a script in Python, in their lines."""
    lines = [""] * (text.count("\n") + 2)
    begins = True
    for kind, word, (row, _), _, _ in tokenize.generate_tokens(io.StringIO(text).readline):
        if kind == tokenize.COMMENT or kind == tokenize.STRING and begins:
            for at, line in enumerate(word.split("\n")):
                lines[row - 1 + at] += " " + line
        if kind not in (tokenize.COMMENT, tokenize.NL):
            begins = kind in (tokenize.NEWLINE, tokenize.INDENT, tokenize.DEDENT)
    return "\n".join(lines)


def prose(path: str, text: str) -> str:
    """What a file says to its readers, in its lines."""
    ending = os.path.splitext(path)[1]
    if ending == ".md":
        return CODE.sub(lambda found: blank(found[0]), text)
    if ending == ".py":
        return of_python(text)
    if ending not in COMMENTS:
        return ""
    parts, at = [], 0
    for found in COMMENTS[ending].finditer(text):
        comment = next(filter(None, found.groups()), "")
        parts += [blank(text[at : found.start()]), comment or blank(found[0])]
        at = found.end()
    return "".join(parts)


def found_in(path: str, text: str) -> Iterator[str]:
    """The words in a file, with their lines."""
    said = re.sub(r"(?m)^[ \t]*(?://[/!]?|\*|#+|--)", "", prose(path, text))
    said = re.sub(r"`[^`\n]*`", "", said)
    said = IDIOMS.sub(lambda found: blank(found[0]), said)
    for word in (OF_CRATES if path.startswith("crates/") else WORDS).finditer(said):
        yield f"{path}:{said.count(chr(10), 0, word.start()) + 1}: {' '.join(word[0].split())}"


def found(top: str, paths: list[str]) -> Iterator[str]:
    """The words in the files of a tree."""
    for path in paths:
        if not LEFT_OUT.fullmatch(path):
            try:
                with open(os.path.join(top, path), encoding="utf-8") as file:
                    yield from found_in(path, file.read())
            except UnicodeDecodeError:
                pass
