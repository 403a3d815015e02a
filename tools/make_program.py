#!/usr/bin/env python3
"""Makes docs/PROGRAM.md: of each command how it is called, what it does, its arguments and its exit statuses from the
help texts in crates/warc_arguments/src/help.rt, its examples from tests/cases/examples.script, and of zwarc the same
from the help in shell/zwarc. tools/program_page.md has what all commands share, and below that notes by command.

Usage: make_program.py

So `--help`, the manual pages, which are made from docs/PROGRAM.md, and the page are one text. `make lint-docs` fails
where the page isn't what this makes, where a command has no example, and where program_page.md has too many words.
"""
from __future__ import annotations

import re
import shlex
import sys
import textwrap
from collections.abc import Iterator
from dataclasses import dataclass

from shared import TOP, matched, read

sys.path.insert(0, f"{TOP}/tests/cases")
from cases_commands import ALONE
from cases_script import CASES, Case

WORDS = "crates/warc_arguments/src/help.rt"
PAGE = "docs/PROGRAM.md"
TEMPLATE = "tools/program_page.md"
EXAMPLES = "examples"  # the script of cases
OF_ZWARC = "shell/zwarc"
MOST_WORDS = 1_200  # of the template
WIDTH = 120
ANSWER = re.compile(r"(.*?)(?:! (.*\n))?= (\d)\n", re.DOTALL)
ZWARC_HELP = re.compile(
    r"cat << 'END'\n(.*?)\n\nUsage: (.*?)\n\n(.*?)\n\nOptions:\n(.*?)\n\nExit status: (.*?)\n\n", re.DOTALL
)
OPTION = re.compile(r"^  (--[\w-]+)  ((?:.*\n?)(?:^ {3,}.*\n?)*)", re.MULTILINE)
CONSTANT = re.compile(r'^(?:pub\(crate\) )?const (\w+): &str =\s+"(.*?)";$', re.MULTILINE | re.DOTALL)
WORD = re.compile(r'Word \{\n\s+name: "([\w-]+)",\n\s+help: "(.*?)",\s+\}')
NAMED_WORD = re.compile(r"^(?:pub\(crate\) )?const (\w+): Word = (" + WORD.pattern + ")", re.MULTILINE)
WORD_LIST = re.compile(r"^(?:pub\(crate\) )?const (\w+): \[Word; \d+\] = \[\n(.*?)^\];", re.MULTILINE | re.DOTALL)
ENTRY = re.compile(
    r'^    CommandEntry \{\n        name: "(\w+)",\n        about: "(.*)",\n        notes: (\w+),\n'
    r"        words: &(.*),\n        optional: &\[(.*)\],\n        flags: &\[(.*)\],$",
    re.MULTILINE,
)
FLAG_USED = re.compile(r"(?<![`\w-])(--[\w-]+)")
QUOTED = re.compile(r"(?<![\w'])'([^']+)'(?!\w)")
BRACKETED = re.compile(r"(<[^>\s]+>)")
STATUS = re.compile(r"(?:^|; )(\d) ")
HELP = "see 'warc --help'"
SHARED = "as for all commands"
LAST = "There is no status"
MOST = 4


@dataclass
class Word:
    """A word of a command line: how its usage shows it, and what it is."""

    shown: str
    help: str


@dataclass
class Command:
    """A command: its name, what it does, its words, its notes, what each exit status means, and what follows that."""

    name: str
    about: str
    words: list[Word]
    flags: list[Word]
    notes: str
    statuses: dict[int, str]
    rest: str


def words_of(text: str) -> dict[str, list[tuple[str, str]]]:
    """The words that the table of commands names, each with its help: one, or those of a list."""
    found = {name: [(word, about)] for name, _, word, about in NAMED_WORD.findall(text)}
    return {**found, **{name: WORD.findall(items) for name, items in WORD_LIST.findall(text)}}


def listed(names: str, words: dict[str, list[tuple[str, str]]], form: str) -> list[Word]:
    """The words of a list of the table, each in a form."""
    found = [it for name in re.findall(r"\w+", names) for it in words[name]]
    return [Word(form % (name.upper() if "--" not in form else name), about) for name, about in found]


def commands() -> Iterator[Command]:
    """The commands, in the order of help."""
    text = read(WORDS)
    texts, words = dict(CONSTANT.findall(text)), words_of(text)
    entries = ENTRY.findall(text)
    if not entries:
        raise ValueError(f"{WORDS}: the table of commands isn't as this script reads it")
    for name, about, notes, needed, optional, flags in entries:
        shown = listed(needed, words, "%s") + listed(optional, words, "[%s]")
        yield command(name, about, shown, listed(flags, words, "[--%s]"), texts[notes])


def command(name: str, about: str, words: list[Word], flags: list[Word], text: str) -> Command:
    """A command by the notes of its help, which end with its statuses and an example."""
    notes, _, after = text.partition("\n\nExit status: ")
    means = " ".join(matched(re.match(r"(.*?)\n\n", after, re.DOTALL))[1].split())
    named, dot, rest = means.partition(f" {LAST}")
    _, *parts = STATUS.split(named.rstrip("."))
    statuses = {int(number): means for number, means in zip(parts[::2], parts[1::2])}
    if len(statuses) != len(parts) // 2 or HELP not in statuses.get(3, ""):
        raise ValueError(f"{WORDS}: the statuses of {name} aren't as this script reads them")
    return Command(name, about, words, flags, notes, statuses, (dot + rest).strip())


def wrapped(item: str, indent: str = "") -> str:
    """A paragraph or an item of a list, in lines as wide as those of the pages. Code isn't broken."""
    whole = re.sub(r"`[^`]*`", lambda found: found[0].replace(" ", "\0"), item)
    lines = textwrap.wrap(whole, WIDTH, subsequent_indent=indent, break_long_words=False, break_on_hyphens=False)
    return "\n".join(lines).replace("\0", " ")


def plain(text: str) -> str:
    """A text of help as the pages write it: commands, flags and what is quoted as code."""
    parts = re.split("(`[^`]*`)", QUOTED.sub(r"`\1`", text))
    parts[::2] = [FLAG_USED.sub(r"`\1`", BRACKETED.sub(r"`\1`", part)) for part in parts[::2]]
    return "".join(parts)


def cell(means: str) -> str:
    """What a status means, in the matrix. What commands share is said below it."""
    means = re.sub("^, or ", "", re.sub(rf",? ?(?:or )?{HELP}", ", or failed", means))
    means = means.replace("the archive is refused, and nothing was written", "refused")
    return plain(re.sub("^nothing was written: ", "", means.replace(", and nothing was written", "")))


def matrix() -> str:
    """The table of commands and statuses."""
    out = ["| Command | 0 | 1 | 2 | 3 | 4 |", "|---|---|---|---|---|---|"]
    for it in commands():
        names = ", ".join(f"`{word}`" for word in [it.name, *(flag.shown.strip("[]") for flag in it.flags)])
        cells = [f" {cell(it.statuses[at])} " if at in it.statuses else " " for at in range(MOST + 1)]
        out.append(f"| {names} |{'|'.join(cells)}|")
    return "\n".join([*out, "| `help`, `--help`, `--version` | written | | | failed | |"])


def statuses(it: Command) -> str:
    """What a command's section says of its statuses: a list."""
    rows = [plain(f"- {number}: {means.replace(HELP, SHARED)}") for number, means in sorted(it.statuses.items())]
    return "\n".join(wrapped(row, "  ") for row in rows) + (f"\n\n{it.rest}" if it.rest else "")


def paragraphs(text: str) -> str:
    """The paragraphs of a help text, as the page has them."""
    return "\n\n".join(wrapped(plain(" ".join(part.split()))) for part in text.split("\n\n"))


def usage(words: str) -> str:
    """How a program is called."""
    return f"```\n{words}\n```\n\n"


def section(it: Command, note: str) -> str:
    """The section of a command, with a note of the template."""
    words = it.words + it.flags
    call = usage(" ".join(["warc", it.name, *(word.shown for word in words)]))
    rows = "".join(f"| `{word.shown.strip('[]')}` | {plain(word.help)} |\n" for word in words)
    # What an archive is the page says of all commands.
    table = f"| Argument | Meaning |\n|---|---|\n{rows}\n" if len(words) > 1 else ""
    text = f"## warc {it.name}\n\n{call}{plain(it.about)}.\n\n{paragraphs(it.notes)}\n\n{table}"
    more = f"### More\n\n{note}\n\n" if note else ""
    lines = "".join(map(example, examples(it.name)))
    return f"{text}### Exit status\n\n{statuses(it)}\n\n{more}### Examples\n\n```console\n{lines}```"


def examples(name: str) -> list[Case]:
    """The cases that are the examples of a command."""
    found = [case for case in CASES if (case.script, case.name) == (EXAMPLES, name)]
    if not found:
        raise ValueError(f"tests/cases/{EXAMPLES}.script: no case of {name}")
    return found


def line_of(case: Case) -> str:
    """The command line of a case, over the files in examples/."""
    name, *words = [case.word(index).decode() for index in range(len(case.words))]
    given = (case.given or b"").decode()
    words = sorted(words, key=lambda word: word.startswith("--"))
    front = ""
    if name == "select":
        front = f"echo {given} | " if "\n" not in given else "printf '%s' | " % given.replace("\n", "\\n")
        words = [*case.files, "-", *words]
    elif name == "write":
        front = f"printf {case.archive.decode()} | "
        words = [*words, "/dev/stdin"]
    elif name.encode() not in ALONE:
        front = f"cat {' '.join(case.files)} | " if len(case.files) > 1 else ""
        words = [*(case.files if len(case.files) == 1 else ["-"]), *words]
    return front + shlex.join(["warc", name, *words])


def example(case: Case) -> str:
    """A case as lines of a terminal: a command, what it writes, and its status if that isn't 0."""
    is_length = case.verb == b"length"
    out, message, status = matched(ANSWER.fullmatch((case.wanted or b"").decode())).groups("")
    line = line_of(case.after(1) if is_length else case)
    if is_length:
        line, out, message = f"{line} | wc -c", message, out.replace(" bytes", "")
    elif "\r" in out:
        line, out = f"{line} | tr -d '\\r'", out.replace("\r", "")
    elif out and not out.endswith("\n"):
        line, out = f"{line}; echo", f"{out}\n"
    asked = f"$ echo $?\n{status}\n" if status != "0" and not is_length else ""
    broken = " \\\n".join(textwrap.wrap(line, WIDTH - len("$  \\"), subsequent_indent="    ", break_on_hyphens=False))
    return f"$ {broken}\n{out}{message}{asked}"


def zwarc() -> str:
    """The section of zwarc."""
    about, call, notes, options, ends = matched(ZWARC_HELP.search(read(OF_ZWARC))).groups()
    rows = "".join(f"| `{name}` | {plain(' '.join(help.split()))} |\n" for name, help in OPTION.findall(options))
    table = f"| Option | Meaning |\n|---|---|\n{rows}\n"
    ends = paragraphs(ends[0].upper() + ends[1:])
    return f"## zwarc\n\n{usage(call)}{about}.\n\n{paragraphs(notes)}\n\n{table}### Exit status\n\n{ends}"


def page() -> str:
    """The page."""
    front, *parts = re.split("^## warc ", read(TEMPLATE), flags=re.MULTILINE)
    notes = {name: note.strip() for name, _, note in (part.partition("\n") for part in parts)}
    made = "\n\n".join(section(it, notes.pop(it.name, "")) for it in commands())
    if notes:
        raise ValueError(f"{TEMPLATE}: no command {min(notes)}")
    text = front.replace("{{statuses}}", matrix()).replace("{{commands}}", made)
    return f"{text.strip()}\n\n{zwarc()}\n"


def wrong() -> Iterator[str]:
    """What is wrong with the page or the template."""
    if page() != read(PAGE):
        yield f"{PAGE}: isn't made from the help texts, the cases and {TEMPLATE}: run make program-page"
    count = len(read(TEMPLATE).split())
    if count > MOST_WORDS:
        yield f"{TEMPLATE}: {count:,} words, and {MOST_WORDS:,} are allowed"


if __name__ == "__main__":
    made_page = page()
    with open(f"{TOP}/{PAGE}", "w", encoding="utf-8") as out:
        out.write(made_page)
