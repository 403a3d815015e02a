"""Texts: how a file's name is kept, and how it is shown. What is said to people goes by `messages`."""
from __future__ import annotations

import os
import time
import unicodedata
from typing import Union

from .messages import inform as inform, say as say

Stored = Union[str, bytes]
# Control characters, and those that change the direction of a line, break it, or can't be seen.
UNSHOWN = ("Cc", "Cf", "Cs", "Zl", "Zp")
SHORT = {"\\": "\\\\", "\n": "\\n", "\r": "\\r", "\t": "\\t"}


class Trouble(Exception):
    """The command can't be done: a line for standard error, and the exit status."""

    def __init__(self, line: str, status: int = 3) -> None:
        super().__init__(line)
        self.status = status


def decoded(value: bytes) -> Stored:
    """Bytes as text, or as they are where they aren't UTF-8: SQLite then keeps a BLOB."""
    try:
        return value.decode("utf-8")
    except UnicodeDecodeError:
        return value


def stored_path(path: str) -> Stored:
    """A path as the catalogue keeps it."""
    return decoded(os.fsencode(path))


def path_bytes(stored: Stored) -> bytes:
    """A path of the catalogue as the system knows it."""
    return stored if isinstance(stored, bytes) else stored.encode("utf-8")


def real_path(stored: Stored) -> str:
    """A path of the catalogue as Python opens it."""
    return os.fsdecode(path_bytes(stored))


def shown_character(character: str) -> str:
    """A character of a name, escaped if it could change what the line looks like."""
    if character in SHORT:
        return SHORT[character]
    code = ord(character)
    if 0xDC80 <= code <= 0xDCFF:
        return "\\x%02x" % (code - 0xDC00)
    if unicodedata.category(character) not in UNSHOWN:
        return character
    return "\\x%02x" % code if code < 0x80 else "\\u%04x" % code if code < 0x10000 else "\\U%08x" % code


def escaped(value: Stored) -> str:
    """A text as it is printed: on one line, and without a character that a terminal obeys."""
    text = value.decode("utf-8", "surrogateescape") if isinstance(value, bytes) else value
    return "".join(map(shown_character, text))


def shown(path: str) -> str:
    """A path as it is printed."""
    return escaped(os.fsencode(path))


def counted(count: int, singular: str, plural: str = "") -> str:
    """A number of things."""
    return "%d %s" % (count, singular if count == 1 else plural or singular + "s")


def last_line(message: str) -> str:
    """The last line of a message."""
    lines = message.splitlines()
    return lines[-1] if lines else ""


def now() -> str:
    """The time, as the catalogue keeps it."""
    return time.strftime("%Y-%m-%dT%H:%M:%SZ", time.gmtime())
