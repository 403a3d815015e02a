#!/usr/bin/env python3
"""Makes completions for bash, zsh and fish from the help that the programs themselves print: for warc, for zwarc,
which has the commands of warc, and for warc-collection.

Usage: make_completions.py PROGRAM FOLDER

Completed are the commands, their options, and each argument: a path by the names of files, a record's
kind by the three kinds, a number that is explained by all numbers, and any other argument by nothing. The arguments
of warc-collection are completed by the names of files.
"""
from __future__ import annotations

import dataclasses
import os
import re
import subprocess
import sys
import typing
from collections.abc import Sequence

from install import COLLECTION
from make_numbers import entries
from shared import TOP

KINDS = ["resource", "metadata", "conversion"]
FILES = {"archive", "file", "positions"}
ONCE = {"list", "check", "fixity", "summary"}
Row = typing.Tuple[str, str]


@dataclasses.dataclass(frozen=True)
class Command:
    """A command as its help shows it."""

    name: str
    about: str
    arguments: list[str]
    options: list[Row]


@dataclasses.dataclass(frozen=True)
class Tool:
    """A program with its commands and its own options. The arguments of one that `takes_files` are names of files."""

    name: str
    commands: list[Command]
    options: list[Row]
    takes_files: bool = False

    def function(self) -> str:
        """The name of its function in bash and zsh."""
        return "_" + self.name.replace("-", "_")


def helped(*words: str) -> str:
    """The help of a program, or of one command, in lines that aren't broken."""
    environment = {**os.environ, "COLUMNS": "1000"}
    return subprocess.run([*words, "--help"], capture_output=True, text=True, check=True, env=environment).stdout


def rows(text: str, *titles: str) -> list[Row]:
    """The rows below a title of help: a word, and what it is for."""
    part = re.search(rf"^(?:{'|'.join(titles)}):\n((?:  .*\n)+)", text, re.MULTILINE)
    return re.findall(r"^ {2,6}(\S.*?)(?: {2,}(.*))?$", part[1], re.MULTILINE) if part else []


def options_of(text: str) -> list[Row]:
    """The words of the options, `-h` and `--help` apart, without the names of their values."""
    found = rows(text, "Options", "options", "optional arguments")
    return [(word.partition(" ")[0], about) for words, about in found for word in words.split(", ")]


def command_of(program: str, name: str, about: str) -> Command:
    """A command of warc."""
    text = "" if name == "help" else helped(program, name)
    arguments = [re.sub(r"[^a-z]", "", word) for word, _ in rows(text, "Arguments")]
    return Command(name, about, arguments, options_of(text))


def warc(program: str) -> Tool:
    """The program."""
    text = helped(program)
    return Tool("warc", [command_of(program, *row) for row in rows(text, "Commands")], options_of(text))


def zwarc(program: Tool) -> Tool:
    """The script zwarc, which has the commands of the program, and an option for those that read an archive once."""
    own = options_of(helped(f"{TOP}/shell/zwarc"))
    extra = [row for row in own if row[0] == "--stream"]
    commands = [
        dataclasses.replace(it, options=it.options + extra) if it.name in ONCE else it for it in program.commands
    ]
    return Tool("zwarc", commands, own)


def collection() -> Tool:
    """The script warc-collection."""
    path = f"{TOP}/{COLLECTION}"
    text = helped(sys.executable, path)
    found = [row for row in rows(text, "positional arguments") if row[0] != "COMMAND"]
    commands = [Command(name, about, [], options_of(helped(sys.executable, path, name))) for name, about in found]
    return Tool("warc-collection", commands, options_of(text), True)


def values(argument: str) -> list[str]:
    """The values that an argument may have, if they are known."""
    return {"kind": KINDS, "number": [number for number, *_ in entries()]}.get(argument, [])


def bash_words(words: Sequence[str]) -> str:
    """How bash completes one of some words."""
    return f'mapfile -t COMPREPLY < <(compgen -W "{" ".join(words)}" -- "$word")'


def bash_action(argument: str) -> str:
    """How bash completes an argument."""
    if argument in FILES:
        return 'compopt -o filenames; mapfile -t COMPREPLY < <(compgen -f -- "$word")'
    return bash_words(values(argument)) if values(argument) else ""


def bash_command(command: Command) -> list[str]:
    """The cases of a command in bash's completion."""
    lines = []
    if command.options:
        lines.append(f"    {command.name}:*:-*) {bash_words([it for it, _ in command.options])} ;;")
    actions = [(at, bash_action(it)) for at, it in enumerate(command.arguments, 2)]
    return lines + [f"    {command.name}:{at}:*) {action} ;;" for at, action in actions if action]


def bash(tool: Tool) -> str:
    """The completion of bash."""
    names = [it.name for it in tool.commands]
    lines = [
        f"# Completion of {tool.name} for bash, made from its --help.",
        f"{tool.function()}() {{",
        '    local word="${COMP_WORDS[COMP_CWORD]}"',
        '    if [ "$COMP_CWORD" -eq 1 ]; then',
        f"        {bash_words([*names, *(it for it, _ in tool.options)])}",
        "        return",
        "    fi",
        '    case "${COMP_WORDS[1]}:$COMP_CWORD:$word" in',
    ]
    if "help" in names:
        lines.append(f"    help:2:*) {bash_words(names)} ;;")
    lines += [line for it in tool.commands for line in bash_command(it)]
    default = "-o default " if tool.takes_files else ""
    return "\n".join([*lines, "    esac", "}", f"complete {default}-F {tool.function()} {tool.name}", ""])


def quoted(text: str) -> str:
    """Text between single quotes, for a description of zsh."""
    return text.replace("\\", "\\\\").replace("'", "'\\''").replace("[", "(").replace("]", ")").replace(":", "\\:")


def quoted_for_fish(text: str) -> str:
    """Text in single quotes, as fish reads it."""
    return "'" + text.replace("\\", "\\\\").replace("'", "\\'") + "'"


def zsh_action(argument: str) -> str:
    """How zsh completes an argument."""
    known = f"({' '.join(values(argument))})" if values(argument) else " "
    return f"':{argument}:{'_files' if argument in FILES else known}'"


def zsh_command(command: Command, takes_files: bool) -> str:
    """The case of a command in zsh's completion."""
    if command.name == "help":
        return "    help) _describe command commands ;;"
    specs = [f"'{it}[{quoted(about)}]'" for it, about in command.options]
    specs += ["'*:file:_files'"] if takes_files else [zsh_action(it) for it in command.arguments]
    return f"    {command.name}) _arguments {' '.join(specs)} ;;"


def zsh(tool: Tool) -> str:
    """The completion of zsh."""
    lines = [
        f"#compdef {tool.name}",
        f"# Completion of {tool.name} for zsh, made from its --help.",
        f"{tool.function()}() {{",
        "    local -a commands=(",
        *(f"        '{it.name}:{quoted(it.about)}'" for it in tool.commands),
        "    )",
        "    if (( CURRENT == 2 )); then",
        "        _describe command commands",
        f"        compadd -- {' '.join(it for it, _ in tool.options)}",
        "        return",
        "    fi",
        "    shift words",
        "    (( CURRENT-- ))",
        "    case $words[1] in",
        *(zsh_command(it, tool.takes_files) for it in tool.commands),
    ]
    return "\n".join([*lines, "    esac", "}", f'{tool.function()} "$@"', ""])


def fish_option(tool: Tool, row: Row, when: str) -> str:
    """The line of an option in fish's completion."""
    word, about = row
    kind = "l" if word.startswith("--") else "s"
    return f"complete -c {tool.name} -n '{when}' -{kind} {word.lstrip('-')} -d {quoted_for_fish(about)}"


def fish_argument(tool: Tool, command: Command, at: int, argument: str) -> list[str]:
    """The line of an argument in fish's completion, if it is completed."""
    here = f"__fish_seen_subcommand_from {command.name}; and test (count (commandline -opc)) -eq {at}"
    if argument in FILES:
        return [f"complete -c {tool.name} -n '{here}' -F"]
    return [f"complete -c {tool.name} -n '{here}' -a '{' '.join(values(argument))}'"] if values(argument) else []


def fish_command(tool: Tool, command: Command) -> list[str]:
    """The lines of a command in fish's completion."""
    lines = [fish_option(tool, row, f"__fish_seen_subcommand_from {command.name}") for row in command.options]
    if tool.takes_files:
        return lines + [f"complete -c {tool.name} -n '__fish_seen_subcommand_from {command.name}' -F"]
    found = [fish_argument(tool, command, at, it) for at, it in enumerate(command.arguments, 2)]
    return lines + [line for those in found for line in those]


def fish(tool: Tool) -> str:
    """The completion of fish."""
    lines = [f"# Completion of {tool.name} for fish, made from its --help.", f"complete -c {tool.name} -f"]
    for it in tool.commands:
        about = quoted_for_fish(it.about)
        lines.append(f"complete -c {tool.name} -n __fish_use_subcommand -a {it.name} -d {about}")
    lines += [fish_option(tool, row, "__fish_use_subcommand") for row in tool.options]
    lines += [line for it in tool.commands for line in fish_command(tool, it)]
    return "\n".join([*lines, ""])


def put(folder: str, name: str, text: str) -> None:
    """Writes a completion."""
    with open(f"{folder}/{name}", "w", encoding="utf-8") as out:
        out.write(text)


def main() -> None:
    """Writes the completions of each program for each shell."""
    program, folder = sys.argv[1:]
    os.makedirs(folder, exist_ok=True)
    first = warc(os.path.abspath(program))
    for tool in (first, zwarc(first), collection()):
        put(folder, f"{tool.name}.bash", bash(tool))
        put(folder, f"_{tool.name}", zsh(tool))
        put(folder, f"{tool.name}.fish", fish(tool))


if __name__ == "__main__":
    main()
