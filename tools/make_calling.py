#!/usr/bin/env python3
"""Makes crates/NAME/CALLING.md for each crate that others call: what it is, a proved caller, and its contracts.

Usage: make_calling.py [--check]

What a crate is comes from crates.txt and from its root file. The caller is code of a crate above it, and the contracts
are those of its sources, so that nothing is written twice. With --check it compares, and the exit status is 1 if a page
differs.
"""
from __future__ import annotations

import os
import re
import sys
import textwrap
from collections.abc import Iterator
from dataclasses import dataclass

from shared import TOP, matched, read

# Beside each crate the functions of crates above it that its page shows as callers, by file.
CALLERS: dict[str, tuple[str, tuple[str, ...]]] = {
    "warc_field": ("warc_frame/src/front.rt", ("read_fields",)),
    "warc_lanes": ("warc_checking/src/batch.rt", ("judge_each",)),
    "warc_value": ("warc_commands/src/words.rt", ("read_moment",)),
    "warc_frame": ("warc_digest/src/lib.rt", ("update_range",)),
    "warc_record": ("warc_reading/src/reread.rt", ("judged",)),
    "warc_quick": ("warc_replay/src/replay/origin.rt", ("origin_in",)),
    "warc_fixity": ("warc_judged/src/stated.rt", ("block_verdict",)),
    "warc_digest": ("warc_rewrite/src/segments.rt", ("put_segment",)),
    "warc_payload": ("warc_answer/src/body.rt", ("start_through",)),
    "warc_order": ("warc_index/src/index.rt", ("first_with",)),
    "warc_segment": ("warc_replay/src/replay/known_gaps.rt", ("join_alone", "join_once")),
    "warc_index": ("warc_replay/src/replay/answer.rt", ("path_in",)),
    "warc_reading": ("warc/src/opened/listing.rt", ("open",)),
    "warc_write": ("warc_rewrite/src/segments.rt", ("put_segment",)),
    "warc_answer": ("warc_replay/src/replay/stored.rt", ("look_at",)),
    "warc_checking": ("warc/src/opened/checked.rt", ("check",)),
    "warc_pieces": ("warc_lent/src/pieces.rt", ("put_pieces",)),
    "warc": ("example_page/src/page.rt", ("opened", "replayed", "page")),
}
# How many lines a page may have, and how many of them are neither the caller nor contracts. Where they would be more, a
# call and its clauses share a line.
MOST_LINES = 150
LINES_AROUND = 21
CLAUSE = re.compile(r" *(?:requires|ensures)\b")
CONTRACTS = """\
## Contracts

Each call with its clauses, by files of src/. `self` is its value before the call, and `self'` the one after it;
`S.seen` is what contracts see of a source of type `S`. The words are defined in specs/ of the crates that the
`ghost use` lines of the file name. Comments in src/ say in plain words what each call does.
"""


@dataclass
class Call:
    """A public function: what it is called, its signature in a line, and its clauses, a line each."""

    name: str
    signature: str
    clauses: list[str]


def paths(crate: str) -> list[str]:
    """The source files of a crate, below crates/, the root file first."""
    found = []
    for at, folders, names in os.walk(f"{TOP}/crates/{crate}/src"):
        folders.sort()
        found += [os.path.relpath(f"{at}/{name}", f"{TOP}/crates") for name in sorted(names) if name.endswith(".rt")]
    roots = [path for path in found if path.endswith("/src/lib.rt")]
    return roots + [path for path in found if path not in roots and not path.endswith("/tests.rt")]


def functions(text: str) -> Iterator[tuple[str, list[str], list[str]]]:
    """Each function of a source file: the line of its `impl`, if it has one; its lines down to the body; its body."""
    kind = ""
    taken: list[str] = []
    body: list[str] = []
    end = ""
    for line in text.splitlines():
        if body:
            body.append(line)
            if line == end:
                yield kind, taken, body
                taken, body = [], []
            continue
        if line.startswith("impl") or line == "}":
            kind = line if line.startswith("impl") else ""
        is_function = bool(re.match(r" *(?:pub(?:\(crate\))? )?(?:const )?fn ", line))
        if is_function or line.lstrip().startswith(("///", "#[")) or any("fn " in it for it in taken):
            taken.append(line)
        else:
            taken = []
        if not any(re.match(r" *(?:pub.* )?fn ", it) for it in taken):
            continue
        if line.endswith("{}") and not line.endswith("record {}"):
            yield kind, taken[:-1] if line.strip() == "{}" else taken, [line]
            taken = []
        elif line.strip() == "{" or (line.endswith(" {") and not any(CLAUSE.match(it) for it in taken)):
            end = re.sub(r"\S.*", "}", taken[-1] if line.strip() == "{" else taken[0])
            body = [line]
            taken = taken[:-1] if line.strip() == "{" else taken


def as_line(lines: list[str]) -> str:
    """Lines of code as one line."""
    text = " ".join(line.strip() for line in lines)
    return re.sub(r",? \)", ")", re.sub(r"\( ", "(", text))


def named(kind: str, name: str) -> str:
    """A function's name with the type that it belongs to."""
    if not kind:
        return name
    text, depth = kind[len("impl") :], 0
    for at, letter in enumerate(text):
        depth += (letter == "<") - (letter == ">")
        if letter == " " and depth == 0:
            return f"{matched(re.match(r'[A-Za-z]+', text[at + 1:]))[0]}::{name}"
    return name


def call_of(kind: str, head: list[str]) -> Call | None:
    """A public function as a line and its clauses."""
    lines = [line for line in head if line.strip() and not line.strip().startswith(("//", "#["))]
    found = re.match(r" *pub (?:const )?fn (\w+)", lines[0])
    if not found:
        return None
    begin = next((at for at, line in enumerate(lines) if CLAUSE.match(line)), len(lines))
    signature = re.sub(r"^pub (?:const )?fn \w+", f"fn {named(kind, found[1])}", as_line(lines[:begin]))
    clauses: list[str] = []
    for line in lines[begin:]:
        if CLAUSE.match(line):
            clauses.append(line.strip())
        else:
            clauses[-1] += f" {line.strip()}"
    return Call(found[1], re.sub(r" where( S: Drop,| A: .*)?$", "", signature).rstrip(" {}"), clauses)


def shown(clause: str) -> str:
    """A clause without its braces, and with shorter names for `self` before and after the call."""
    found = matched(re.match(r"(requires|ensures) ?([a-z_]*) ?\{ ?(.*?) ?\}$", clause))
    text = re.sub(r"\bself\.(?:old|now)\b", "self", found[3]).replace("self.new", "self'")
    return f"  {found[1]}{' ' + found[2] if found[2] else ''}: {text}"


def is_exported(crate: str, kind: str, name: str) -> bool:
    """Whether the root file of a crate shows a function, or the type that it belongs to, to other crates."""
    root = read(f"crates/{crate}/src/lib.rt")
    word = named(kind, name).partition("::")[0]
    exports = " ".join(re.findall(r"pub use [^;]*;|pub mod \w+;|pub struct \w+|pub type \w+|pub fn \w+", root))
    return bool(re.search(rf"\b{word}\b", exports))


def sections(crate: str, is_short: bool) -> Iterator[str]:
    """The public calls of each file of a crate. A call whose clauses are those of an earlier one is named alone."""
    known: dict[tuple[str, str], str] = {}
    for path in paths(crate):
        if path.endswith("/laws.rt"):
            continue
        lines, same = [], []
        for kind, head, _ in functions(read(f"crates/{path}")):
            call = call_of(kind, head)
            if call is None or not is_exported(crate, kind, call.name):
                continue
            clauses = [shown(clause) for clause in call.clauses]
            key = (call.name, re.sub(r"\.listing\b", "", " ".join(clauses)))
            if key in known and key[1]:
                same.append((named(kind, call.name), known[key]))
                continue
            known[key] = named(kind, call.name)
            lines += (
                ["; ".join(it.strip() for it in [call.signature, *clauses])] if is_short else [call.signature, *clauses]
            )
        if same:
            of = same[0][1].partition("::")[0]
            lines.append(f"-- with the clauses of {of}: {', '.join(name for name, _ in same)}")
        if lines:
            yield "\n".join([f"-- {path.partition('/src/')[2]}", *lines])


def callers(crate: str) -> Iterator[str]:
    """The callers of a crate that its page shows, with comment, contract and body."""
    path, names = CALLERS[crate]
    for _, head, body in functions(read(f"crates/{path}")):
        found = re.search(r"\bfn (\w+)", "\n".join(head))
        if found and found[1] in names:
            lines = [line for line in head if not line.strip().startswith("#[")]
            lines += body if body[0].strip() == "{" else body[1:]
            indent = len(lines[0]) - len(lines[0].lstrip())
            yield "\n".join(line[indent:] for line in lines)


def front(crate: str) -> str:
    """What a crate is: its comment in crates.txt, and the first paragraph of its root file."""
    comment = matched(re.search(rf"((?:^# .*\n)+){crate}(?: staticlib)?:", read("crates.txt"), re.MULTILINE))[1]
    about = " ".join(line[2:] for line in comment.splitlines())
    text = matched(re.match(r"((?://! .*\n)+)", read(f"crates/{crate}/src/lib.rt")))[1]
    return textwrap.fill(f"{about} {' '.join(line[4:] for line in text.splitlines())}", 120)


def page(crate: str) -> str:
    """The whole page of a crate."""
    path = CALLERS[crate][0]
    caller = "\n\n".join(callers(crate))
    shows = f"Of `crates/{path}`, which has its imports, and whose crate is proved:"
    text = "\n\n".join(sections(crate, is_short=False))
    if text.count("\n") + caller.count("\n") > MOST_LINES - LINES_AROUND:
        text = "\n\n".join(sections(crate, is_short=True))
    return (
        f"# Calling `{crate}`\n\n{front(crate)}\n\n## A caller\n\n{shows}\n\n```rust\n{caller}\n```\n\n"
        f"{CONTRACTS}\n```text\n{text}\n```\n"
    )


def pages() -> Iterator[tuple[str, str]]:
    """The path and the text of each page."""
    for crate in CALLERS:
        yield f"crates/{crate}/CALLING.md", page(crate)


def faults() -> Iterator[str]:
    """What is wrong with the pages in the tree, a line each."""
    for path, text in pages():
        lines = text.count("\n")
        if lines > MOST_LINES:
            yield f"{path}: {lines} lines, and at most {MOST_LINES} are allowed"
        if not os.path.exists(f"{TOP}/{path}") or read(path) != text:
            yield f"{path}: run tools/make_calling.py"


def main() -> None:
    if sys.argv[1:] != ["--check"]:
        for path, text in pages():
            with open(f"{TOP}/{path}", "w", encoding="utf-8") as out:
                out.write(text)
    found = list(faults())
    if found:
        sys.exit("\n".join(found))


if __name__ == "__main__":
    main()
