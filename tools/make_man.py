#!/usr/bin/env python3
"""Makes the manual pages from docs/: warc.1, a page for each command and zwarc.1 from PROGRAM.md, warc.5 from
FORMAT.md, and warc-collection.1 from COLLECTIONS.md, CATALOGUE.md and ROOM.md.

Usage: make_man.py FOLDER

Of Markdown it knows what these pages use: headings, paragraphs, lists, tables, blocks of code, `code`, **bold**,
*italic*. A section `## warc NAME` of PROGRAM.md is the page warc-NAME.1; the first block of code in it is the synopsis.
"""
from __future__ import annotations

import os
import re
import sys
from collections.abc import Iterator

from shared import matched, read, version

# The pages of warc-collection.1, with the sections of it that they become.
TITLES = {
    "COLLECTIONS.md": "Description",
    "CATALOGUE.md": "The catalogue of a collection",
    "ROOM.md": "The room of a collection",
}
OF_COLLECTIONS = tuple(TITLES)
HEADING = re.compile(r"^(#+) (.*)$")
ITEM = re.compile(r"^(-|\d+\.) +(.*)$")


def plain(text: str) -> str:
    """Text as roff reads it."""
    text = text.replace("\\", "\\e")
    return "\\&" + text if text.startswith((".", "'")) else text


def code(text: str) -> str:
    """Code: hyphens that can be copied, and no line broken at them."""
    return plain(text).replace("-", "\\-").replace("^", "\\(ha").replace("~", "\\(ti").replace("`", "\\(ga")


def inline(text: str) -> str:
    """A paragraph's code, bold and italic words, and the page that a document became."""
    text = text.replace("docs/FORMAT.md", "warc(5)").replace("docs/PROGRAM.md", "warc(1)")
    for name in OF_COLLECTIONS:
        text = text.replace(f"docs/{name}", "warc-collection(1)")
    parts = re.split(r"(`[^`]+`|\*\*[^*]+\*\*|\*[^*\s][^*]*\*)", text)
    out = ""
    for part in parts:
        if part.startswith("`"):
            out += f"\\fB{code(part[1:-1])}\\fR"
        elif part.startswith("**"):
            out += f"\\fB{inline(part[2:-2])}\\fR"
        elif part.startswith("*") and len(part) > 2:
            out += f"\\fI{inline(part[1:-1])}\\fR"
        else:
            words = plain(re.sub(r"\[([^]]*)\]\([^)]*\)", r"\1", part))
            out += words.replace("\\&.", ".") if out else words
    return "\\&" + out if out.startswith((".", "'")) else out


def cells(row: str) -> list[str]:
    """The cells of a table's row."""
    return [it.strip().replace("\\|", "|") for it in re.split(r"(?<!\\)\|", row.strip())[1:-1]]


def sentence(title: str, cell: str) -> str:
    """What a cell says, with the title of its column where that isn't plain."""
    label = {"Status": "Status ", "Meaning": "", "Means": "", "When": "", "What to do": ""}.get(title, f"{title}: ")
    return inline(label + cell) + ("" if cell.endswith(".") else ".")


def table(rows: list[str]) -> list[str]:
    """A table: its first column as the tags of a list, a column called Name beside it."""
    head, *body = [cells(it) for it in rows if not re.fullmatch(r"[|\s:-]+", it)]
    named = 2 if len(head) > 2 and head[1] == "Name" else 1
    out = []
    for row in body:
        rest = [(title, cell) for title, cell in zip(head[named:], row[named:]) if cell]
        words = [inline(cell) if len(head) == named + 1 else sentence(title, cell) for title, cell in rest]
        out += [".TP", inline(" ".join(it for it in row[:named] if it)) or "\\&", " ".join(words) or "\\&"]
    return out


def blocks(text: str) -> Iterator[tuple[str, list[str]]]:
    """The blocks of a page: (kind, its lines)."""
    kind: str | None = None
    lines: list[str] = []
    for line in [*text.splitlines(), ""]:
        if kind == "code":
            if line.startswith("```"):
                yield "code", lines
                kind, lines = None, []
            else:
                lines.append(line)
            continue
        new = (
            "code"
            if line.startswith("```")
            else "head"
            if HEADING.match(line)
            else "table"
            if line.startswith("|")
            else "item"
            if ITEM.match(line)
            else "text"
            if line.strip()
            else None
        )
        goes_on = new == kind and kind in ("table", "text") or kind == "item" and new == "text"
        if not goes_on:
            if kind and lines:
                yield kind, lines
            kind, lines = new, []
        if new and new != "code":
            lines.append(line)
    if kind and lines:
        yield kind, lines


def body(text: str) -> list[str]:
    """The roff lines of a page's blocks."""
    out = []
    for kind, lines in blocks(text):
        if kind == "head":
            marks, title = matched(HEADING.match(lines[0])).groups()
            out.append(f".SH {plain(title).upper()}" if len(marks) < 4 else f".SS {plain(title)}")
        elif kind == "code":
            out += [".PP", ".EX", *("\\&" + code(it) for it in lines), ".EE"]
        elif kind == "table":
            out += table(lines)
        elif lines[0].startswith("!["):
            continue  # a page has no pictures
        elif kind == "item":
            mark, first = matched(ITEM.match(lines[0])).groups()
            words = " ".join([first, *(it.strip() for it in lines[1:])])
            sign = "\\(bu" if mark == "-" else mark
            out += [f".IP {sign} 3", inline(words)]
        else:
            out += [".PP", inline(" ".join(it.strip() for it in lines))]
    return out


def page(name: str, section: int, summary: str, text: str, also: list[str]) -> str:
    """A whole page."""
    title = f'.TH {name.upper()} {section} "" "Zogwedu {version()}" "Zogwedu manual"'
    see = ", ".join(f"\\fB{it.partition('(')[0]}\\fR({it.partition('(')[2]}" for it in also)
    lines = [title, ".SH NAME", f"{name} \\- {summary}", *body(text), ".SH SEE ALSO", see]
    return "\n".join(lines) + "\n"


def sections(text: str) -> tuple[str, list[tuple[str, str]]]:
    """The parts of a page below its first heading: the text before the first `## `, and each section by its title."""
    first, *rest = re.split(r"^## ", text, flags=re.MULTILINE)
    return first.partition("\n")[2], [it.partition("\n")[::2] for it in rest]


def deeper(text: str) -> str:
    """Headings of a section as those of a page: ### is then its highest."""
    return re.sub(r"^###", "#", text, flags=re.MULTILINE)


def synopsis(text: str) -> str:
    """A section with its first block of code as the synopsis, and the rest as the description."""
    usage, rest = matched(re.match(r"\s*```\n(.*?)```\n(.*)", text, re.DOTALL)).groups()
    return f"# Synopsis\n\n```\n{usage}```\n\n# Description\n\n{deeper(rest)}"


def main_page(front: str, common: str, commands: list[tuple[str, str, str]]) -> str:
    """warc.1: what all commands share, and a table of the commands."""
    usage = matched(re.search(r"```\n.*?```\n", front, re.DOTALL))[0]
    rows = "".join(f"| `{title}` | {summary} |\n" for title, summary, _ in commands)
    intro = re.sub(r"This page is generated .*?\n\n", "", front.replace(usage, ""), flags=re.DOTALL).strip()
    text = f"# Synopsis\n\n{usage}\n# Description\n\n{intro}\n\n# Commands\n\n| Command | Does |\n|---|---|\n{rows}\n"
    also = [*(f"{title.replace(' ', '-')}(1)" for title, _, _ in commands), "zwarc(1)", "warc(5)"]
    return page("warc", 1, "reads, checks, replays and writes web archives", text + deeper(common), also)


def write(folder: str, name: str, section: int, text: str) -> None:
    """Writes a page into the folder of its section."""
    os.makedirs(f"{folder}/man{section}", exist_ok=True)
    with open(f"{folder}/man{section}/{name}.{section}", "w", encoding="utf-8") as out:
        out.write(text)


def main() -> None:
    folder = sys.argv[1]
    front, parts = sections(read("docs/PROGRAM.md"))
    commands = []
    for title, text in parts:
        if title.startswith("warc "):
            summary = matched(re.search(r"```\n.*?```\n\s*(.*?)\n", text, re.DOTALL))[1]
            commands.append((title, summary, text))
    for title, summary, text in commands:
        name = title.replace(" ", "-")
        short = summary[0].lower() + summary[1:].partition(": ")[0].rstrip(".")
        write(folder, name, 1, page(name, 1, short, synopsis(text), ["warc(1)", "warc(5)"]))
    shared = [part for part in parts if not part[0].startswith("warc ") and part[0] != "zwarc"]
    zwarc = synopsis(dict(parts)["zwarc"])
    write(
        folder,
        "zwarc",
        1,
        page("zwarc", 1, "runs warc over a compressed archive", zwarc, ["warc(1)", "gzip(1)", "zstd(1)"]),
    )
    common = shared[0][1] + "".join(f"### {title}\n{text}" for title, text in shared[1:])
    write(folder, "warc", 1, main_page(front, common, commands))
    first, rules = sections(read("docs/FORMAT.md"))
    text = (
        "# Description\n"
        + first
        + "".join(f"# {title}\n{re.sub('^###', '####', it, flags=re.M)}" for title, it in rules)
    )
    write(folder, "warc", 5, page("warc", 5, "the WARC format, as Zogwedu reads it", text, ["warc(1)"]))
    write(folder, "warc-collection", 1, collection_page(*(read(f"docs/{it}") for it in OF_COLLECTIONS)))


def collection_page(text: str, *others: str) -> str:
    """warc-collection.1: the whole page, with its first block of code as the synopsis, and the others after it."""
    first, parts = sections(text)
    summary, usage, rest = matched(re.match(r"\s*(.*?)\n\n```\n(.*?)```\n(.*)", first, re.DOTALL)).groups()
    text = f"# Synopsis\n\n```\n{usage}```\n\n# Description\n\n{summary}\n\n{rest}"
    text += "".join(f"# {title}\n{re.sub('^###', '####', it, flags=re.M)}" for title, it in parts)
    text += "".join("\n" + re.sub("^##+ ", "#### ", it, flags=re.M) for it in others)
    for name in OF_COLLECTIONS:
        text = re.sub(rf"\[{name}\]\({name}\)", f"'{TITLES[name]}'", text)
    return page(
        "warc-collection", 1, "checks, catalogues and replays many web archives", text, ["warc(1)", "parallel(1)"]
    )


main()
