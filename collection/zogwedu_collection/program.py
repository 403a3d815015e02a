"""The program `warc`: which one it is, and what it says of a date."""
from __future__ import annotations

import dataclasses
import os
import re
import shutil
import subprocess
import sys
from typing import List, Optional

from .limits import Limits
from .texts import Trouble, counted, shown

MOST_SECONDS = 60


@dataclasses.dataclass(frozen=True)
class Settings:
    """How the files are read: by which program, where they are unpacked, in which time (seconds), how many bytes all
    jobs together read in a second, how many the jobs of a machine unpack at once, how many jobs a machine does at
    once, where that is known, and, where the texts of pages are read too, the folder that has the Python package."""

    warc: str
    version: str
    temporary: Optional[str] = None
    timeout: Optional[float] = None
    rate: Optional[int] = None
    unpacked: int = Limits.unpacked
    jobs: Optional[int] = None
    package: Optional[str] = None


class BadDate(Trouble):
    """A text is in none of the program's forms of a date."""


def own_words() -> List[str]:
    """The words by which this program is run again: its one file, or Python with its folder."""
    path = os.path.realpath(sys.argv[0])
    if os.path.basename(path) == "__main__.py":
        path = os.path.dirname(path)
    return [path] if os.path.isfile(path) and os.access(path, os.X_OK) else [sys.executable, path]


def program_path(asked: Optional[str]) -> str:
    """The program: the one that was asked for, the one beside this one, or the one in PATH."""
    beside = os.path.dirname(own_words()[-1])
    warc = asked or shutil.which("warc", path=beside) or shutil.which("warc")
    if warc is None:
        raise Trouble("no program warc in PATH; give --warc")
    return os.path.abspath(warc)


def version_of(warc: str) -> str:
    """What the program says of itself. It is asked before anything is taken for its answer about a file."""
    try:
        done = subprocess.run(
            [warc, "--version"], stdin=subprocess.DEVNULL, capture_output=True, timeout=MOST_SECONDS, check=False
        )
    except subprocess.TimeoutExpired:
        raise Trouble("%s --version takes too long" % shown(warc)) from None
    except OSError as error:
        raise Trouble("%s doesn't run: %s" % (shown(warc), error.strerror)) from None
    said = done.stdout.decode("utf-8", "replace").strip()
    if done.returncode != 0 or not re.fullmatch(r"warc \d[\w.+~-]*", said):
        raise Trouble("%s isn't the program warc: --version ends with %d" % (shown(warc), done.returncode))
    return said


def usable_program(asked: Optional[str]) -> str:
    """The program, which runs."""
    warc = program_path(asked)
    version_of(warc)
    return warc


def check_program(settings: Settings) -> None:
    """Refuses to go on where another program runs than the one that was planned for."""
    version = version_of(settings.warc)
    if version != settings.version:
        raise Trouble("%s is %s here; the list was made for %s" % (shown(settings.warc), version, settings.version))


def instant_of(warc: str, date: str) -> str:
    """The instant of a date in one of the program's forms, by the program."""
    words = [warc, "instant", "--", date]
    try:
        done = subprocess.run(words, stdin=subprocess.DEVNULL, capture_output=True, timeout=MOST_SECONDS, check=False)
    except ValueError:  # no word can be this text
        raise BadDate("bad date") from None
    except subprocess.TimeoutExpired:
        raise Trouble("warc instant takes too long") from None
    except OSError as error:
        raise Trouble("%s doesn't run: %s" % (shown(warc), error.strerror)) from None
    if done.returncode == 0:
        return done.stdout.decode("ascii").strip()
    message = said(done.stderr)
    raise BadDate(message) if message == "bad date" else Trouble("warc instant: %s" % message)


def said(message: bytes) -> str:
    """A message of the program without its name."""
    return re.sub(r"^warc: ", "", message.decode("utf-8", "replace"), flags=re.MULTILINE).strip()


def not_done(left: int, run: int) -> str:
    return "%s of run %d not read" % (counted(left, "file"), run)
