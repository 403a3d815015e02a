"""The package's units of systemd, and its configuration file. tests/stress/collection_units.py starts the units."""
from __future__ import annotations

import glob
import os
import re
import shlex
import shutil
import subprocess
import sys
from typing import Any, List

import pytest
from conftest import PROJECT, put

sys.path.insert(0, os.path.join(PROJECT, "collection"))
PACKAGING = os.path.join(PROJECT, "packaging")
PROGRAM = "/usr/bin/warc-collection"


def units() -> List[str]:
    return sorted(path for path in glob.glob(PACKAGING + "/systemd/*") if not path.endswith(".sysusers"))


def text_of(path: str) -> str:
    with open(path, encoding="utf-8") as file:
        return file.read()


def commands() -> List[str]:
    """What the services run."""
    return [line for path in units() for line in re.findall("^ExecStart=(.*)$", text_of(path), re.MULTILINE)]


@pytest.mark.skipif(shutil.which("systemd-analyze") is None, reason="systemd isn't installed")
def test_systemd_takes_the_units(tmp_path: Any) -> None:
    """It looks for the program, so the copies of the units name one that is here."""
    assert len(units()) == 4
    copies = [
        put(str(tmp_path / os.path.basename(path)), text_of(path).replace(PROGRAM, "/bin/true").encode())
        for path in units()
    ]
    done = subprocess.run(
        ["systemd-analyze", "verify", "--man=no", *copies], capture_output=True, text=True, check=False
    )
    assert (done.returncode, done.stdout + done.stderr) == (0, "")


def test_the_services_run_commands_that_there_are() -> None:
    from zogwedu_collection.command_line import command_line

    found = [shlex.split(line) for line in commands()]
    assert len(found) == 2 and all(words[0] == PROGRAM for words in found)
    assert sorted(command_line().parse_args(words[1:]).command for words in found) == ["run", "serve"]


def test_the_configuration_file_says_nothing_by_itself(tmp_path: Any) -> None:
    """Each key in its comments is one that there is."""
    from zogwedu_collection.command_line import command_line
    from zogwedu_collection.configuration import configured

    text = text_of(PACKAGING + "/warc-collection.conf")
    assert all(line.startswith("#") or not line for line in text.splitlines())
    example = re.sub("^#", "", text.partition("\n\n")[2], flags=re.MULTILINE)
    path = put(str(tmp_path / "conf"), example.encode())
    options = configured(command_line, set(), ["--configuration", path, "run"])
    assert options.catalogue == "/srv/catalogue" and options.paths == ["/disks/1", "/disks/2"]
    assert configured(command_line, set(), ["--configuration", path, "serve"]).archives == 64
