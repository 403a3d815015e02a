"""The configuration file: what the options of the command line say, a section for each command. Which options there are
it asks of the command line itself, so that each option can be said in the file."""
from __future__ import annotations

import argparse
import configparser
import os
from typing import Any, Callable, Dict, Iterator, List, Optional, Sequence, Set, Tuple

from .texts import Trouble, escaped, shown

PATH = "/etc/warc-collection.conf"
# The section of what is said before the command.
ALL = "warc-collection"
Parser = argparse.ArgumentParser
Values = Dict[str, Any]


class Reader(configparser.ConfigParser):
    """Reads sections of keys and values. Keys are as they are written, nothing in a value is replaced, and no section
    says what the others mean."""

    def __init__(self) -> None:
        super().__init__(default_section="", delimiters=("=",), interpolation=None, empty_lines_in_values=False)

    def optionxform(self, optionstr: str) -> str:
        return optionstr


def said_in(path: str) -> Dict[str, Dict[str, str]]:
    """The values that a file states, by their sections and keys."""
    reader = Reader()
    try:
        with open(path, encoding="utf-8", errors="surrogateescape") as file:
            reader.read_file(file, path)
    except configparser.Error as error:
        raise Trouble("%s: %s" % (shown(path), escaped(told(error)).replace("\\n", " ")), 2) from None
    return {section: dict(reader.items(section)) for section in reader.sections()}


def told(error: configparser.Error) -> str:
    """What is wrong with a file, and in which line."""
    if isinstance(error, configparser.DuplicateOptionError):
        return "line %s: [%s] %s is there twice" % (error.lineno, error.section, error.option)
    if isinstance(error, configparser.DuplicateSectionError):
        return "line %s: [%s] is there twice" % (error.lineno, error.section)
    if isinstance(error, configparser.MissingSectionHeaderError):
        return "line %s: before the first section" % error.lineno
    if isinstance(error, configparser.ParsingError):
        return "; ".join("line %s: not a key and a value" % number for number, _ in error.errors)
    return str(error)


def names_of(action: argparse.Action) -> Iterator[str]:
    """The keys of an option: its long names. What takes any number of words without an option has a name too."""
    yield from (name[2:] for name in action.option_strings if name.startswith("--"))
    if not action.option_strings and action.nargs == argparse.ZERO_OR_MORE:
        yield action.dest


def options_of(parser: Parser) -> Dict[str, argparse.Action]:
    """The options of a command by their keys, without --help and what may stand in a file in no case."""
    left_out = ("help", "configuration")
    return {name: it for it in parser._actions for name in names_of(it) if name not in left_out}


def commands_of(parser: Parser) -> Dict[str, Parser]:
    """The commands by their names."""
    found = [it for it in parser._actions if isinstance(it, argparse._SubParsersAction)]
    return dict(found[0].choices)


def value_of(action: argparse.Action, text: str) -> Any:
    """What an option is where a file has a text for it; None where it isn't given. A ValueError where it can't be
    that."""
    if action.nargs == 0:
        if text not in ("yes", "no"):
            raise ValueError("neither yes nor no")
        return action.const if text == "yes" else None
    words = [line.strip() for line in text.splitlines() if line.strip()]
    is_list = isinstance(action, argparse._AppendAction) or action.nargs == argparse.ZERO_OR_MORE
    if not words or (len(words) > 1 and not is_list):
        raise ValueError("not one value" if words else "no value")
    convert: Callable[[str], Any] = action.type if callable(action.type) else str
    values = [convert(word) for word in words]
    if action.choices is not None and not set(values) <= set(action.choices):
        raise ValueError("not one of %s" % ", ".join(map(str, action.choices)))
    return values if is_list else values[0]


class Stated:
    """What a file states of the options of a command."""

    def __init__(self, path: str, section: str, parser: Parser, said: Dict[str, str]) -> None:
        self.parser = parser
        self.values: List[Tuple[argparse.Action, Any]] = []
        options = options_of(parser)
        for key, text in said.items():
            about = "%s: [%s] %s" % (shown(path), escaped(section), escaped(key))
            if key not in options:
                raise Trouble("%s: no such option" % about, 2)
            try:
                self.values.append((options[key], value_of(options[key], text)))
            except (ValueError, argparse.ArgumentTypeError) as error:
                raise Trouble("%s: %s: %s" % (about, escaped(text), error), 2) from None

    def defaults(self, given: Set[str]) -> Values:
        """The values for options that the command line doesn't give: nor another one that excludes them."""
        excluded = set(given)
        for group in self.parser._mutually_exclusive_groups:
            those = {it.dest for it in group._group_actions}
            if those & given:
                excluded |= those
        return {it.dest: value for it, value in self.values if it.dest not in excluded and value is not None}


def without_defaults(parser: Parser) -> Parser:
    """A parser that keeps what is given alone."""
    for it in (parser, *commands_of(parser).values()):
        it._defaults.clear()
        for action in it._actions:
            action.default = argparse.SUPPRESS
    return parser


def configured(make: Callable[[], Parser], elsewhere: Set[str], words: Optional[Sequence[str]]) -> argparse.Namespace:
    """What the command line says, and where it says nothing what the file says, but for what is said elsewhere."""
    plain = make().parse_args(words)
    path = PATH if plain.configuration is None else plain.configuration
    if plain.command == "job" or (plain.configuration is None and not os.path.exists(path)):
        return plain
    try:
        said = said_in(path)
    except OSError as error:
        raise Trouble("%s: %s" % (shown(path), error.strerror), 2) from None
    parser = make()
    parsers = {ALL: parser, **commands_of(parser)}
    for section in said:
        if section not in parsers:
            raise Trouble("%s: [%s]: no such command" % (shown(path), escaped(section)), 2)
    stated = {section: Stated(path, section, parsers[section], values) for section, values in said.items()}
    given = elsewhere | set(vars(without_defaults(make()).parse_args(words)))
    for section in (ALL, plain.command):
        if section in stated:
            parsers[section].set_defaults(**stated[section].defaults(given))
    return parser.parse_args(words)
