"""The configuration file: what options say, in sections by the names of commands."""
from __future__ import annotations

import argparse
import os
import sys
from typing import Any, Dict, List

import pytest
from conftest import PROJECT, Collection, put, record

sys.path.insert(0, os.path.join(PROJECT, "collection"))


def options(tmp_path: Any, text: str, *words: str) -> Dict[str, Any]:
    """What a command line says, with a configuration file."""
    from zogwedu_collection.command_line import command_line
    from zogwedu_collection.configuration import configured

    path = put(str(tmp_path / "conf"), os.fsencode(text))
    return vars(configured(command_line, set(), ["--configuration", path, *words]))


def test_the_file_says_what_options_say(tmp_path: Any) -> None:
    text = """
# Of the whole program.
[warc-collection]
catalogue = /srv/a catalogue

[run]
paths = /disks/1
    /disks/it's 2
quiet = yes
all = no
within = 30d
rate = 200M
jobs = 3
fail-on = gone,bad
json = yes
json = no

[serve]
listen = 127.0.0.1:9000
"""
    found = options(tmp_path, text.replace("json = yes\n", ""), "run")
    assert found["catalogue"] == "/srv/a catalogue"
    assert found["paths"] == ["/disks/1", "/disks/it's 2"]
    assert (found["quiet"], found["all"], found["form"]) == (True, False, "text")
    assert (found["within"], found["rate"], found["jobs"]) == (30 * 86_400, 200 << 20, "3")
    assert found["fail_on"] == ("gone", "bad")
    assert options(tmp_path, text.replace("json = no\n", ""), "run")["form"] == "json"
    assert options(tmp_path, text.replace("json = no\n", ""), "serve")["listen"] == "127.0.0.1:9000"
    assert "quiet" not in options(tmp_path, text.replace("json = no\n", ""), "status")


def test_the_command_line_wins(tmp_path: Any) -> None:
    text = "[warc-collection]\ncatalogue = /a\n[run]\npaths = /disks/1\nfiles = x\n y\nrate = 1M\nstrict = yes\n"
    found = options(tmp_path, text, "-c", "/b", "run", "--files", "z", "--rate", "2M", "--fail-on", "gone", "/disks/2")
    assert (found["catalogue"], found["paths"], found["files"]) == ("/b", ["/disks/2"], ["z"])
    assert (found["rate"], found["fail_on"], found["strict"]) == (2 << 20, ("gone",), False)
    found = options(tmp_path, text, "run")
    assert (found["catalogue"], found["files"], found["strict"]) == ("/a", ["x", "y"], True)


def test_the_variable_for_the_catalogue_wins(collection: Collection) -> None:
    conf = collection.put("conf", b"[warc-collection]\ncatalogue = %s\n" % os.fsencode(collection.path("one")))
    words = [*collection.script(), "--configuration", conf, "status"]
    assert b"no catalogue in %s/one" % os.fsencode(collection.folder) in collection.run_words(words).stderr
    done = collection.run_words(words, {"WARC_CATALOGUE": collection.path("other")})
    assert b"no catalogue in %s/other" % os.fsencode(collection.folder) in done.stderr


def every_option() -> List[Any]:
    """Each option of each command, with the command."""
    from zogwedu_collection.command_line import command_line
    from zogwedu_collection.configuration import commands_of

    parsers = {"warc-collection": command_line(), **commands_of(command_line())}
    return [
        (section, word[2:], action)
        for section, parser in parsers.items()
        for action in parser._actions
        for word in action.option_strings
        if word.startswith("--") and word not in ("--help", "--configuration")
    ]


def test_every_option_of_every_command_can_be_said(tmp_path: Any) -> None:
    from zogwedu_collection.command_line import command_line
    from zogwedu_collection.configuration import Stated, commands_of, value_of

    assert len(every_option()) > 50
    for section, name, action in every_option():
        texts = ("yes",) if action.nargs == 0 else ("7", "7d", "gone", *map(str, action.choices or ()))
        values = [value for value in (tried(value_of, action, text) for text in texts) if value is not None]
        assert values, (section, name)
        parser = {"warc-collection": command_line(), **commands_of(command_line())}[section]
        assert any(tried(Stated, "conf", section, parser, {name: text}) for text in texts)


def tried(call: Any, *words: Any) -> Any:
    """What a call gives, or None where it refuses its words."""
    from zogwedu_collection.texts import Trouble

    try:
        return call(*words)
    except (ValueError, argparse.ArgumentTypeError, Trouble):
        return None


@pytest.mark.parametrize(
    "text, why",
    [
        ("[run]\nquite = yes\n", "conf: [run] quite: no such option"),
        ("[run]\nQuiet = yes\n", "conf: [run] Quiet: no such option"),
        ("[run]\nquiet = 1\n", "conf: [run] quiet: 1: neither yes nor no"),
        ("[run]\nrate = fast\n", "conf: [run] rate: fast: not a number that is at least 1: fast"),
        ("[run]\nrate = 1M\n 2M\n", "conf: [run] rate: 1M\\n2M: not one value"),
        ("[run]\nrate =\n", "conf: [run] rate: : no value"),
        ("[serve]\nrequests = 0\n", "conf: [serve] requests: 0: not a number that is at least 1: 0"),
        ("[runn]\nquiet = yes\n", "conf: [runn]: no such command"),
        ("[DEFAULT]\nquiet = yes\n", "conf: [DEFAULT]: no such command"),
        ("[run]\nquiet = yes\nquiet = no\n", "conf: line 3: [run] quiet is there twice"),
        ("[run]\n[status]\n[run]\n", "conf: line 3: [run] is there twice"),
        ("quiet = yes\n", "conf: line 1: before the first section"),
        ("[run]\nquiet\n", "conf: line 2: not a key and a value"),
        ("[run]\nhelp = yes\n", "conf: [run] help: no such option"),
        ("[run]\n\x1b[2J = yes\n", "conf: [run] \\x1b[2J: no such option"),
    ],
)
def test_what_is_wrong_is_named(tmp_path: Any, text: str, why: str) -> None:
    from zogwedu_collection.texts import Trouble

    with pytest.raises(Trouble) as found:
        options(tmp_path, text, "status")
    assert str(found.value) == "%s/%s" % (tmp_path, why) and found.value.status == 2


def test_a_night_by_the_file(collection: Collection) -> None:
    collection.put("disk/a.warc", record(1, digest="-"))
    conf = collection.put("conf", b"[run]\npaths = disk\nquiet = yes\n")
    words = ["--configuration", conf, "-c", collection.path("catalogue")]
    assert run(collection, *words, "run").stdout == b""
    assert collection.states() == {"a.warc": "unchecked"}
    put(conf, b"[run]\nstrict = yes\n")
    done = run(collection, *words, "run")
    assert done.returncode == 1 and b"unchecked\t" in done.stdout
    put(conf, b"[run]\nstrict = ja\n")
    done = run(collection, *words, "status")
    assert done.returncode == 2 and done.stderr.endswith(b"conf: [run] strict: ja: neither yes nor no\n")
    assert run(collection, "--configuration", "nowhere", "status").returncode == 2


def run(collection: Collection, *words: str) -> Any:
    """Runs a command line as it is, but that the program is named."""
    more = ["--warc", collection.warc] if words[-1] == "run" else []
    return collection.run_words([*collection.script(), *words, *more])
