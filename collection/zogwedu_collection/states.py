"""The states of a file, and which of them are good, are readings, or are tried again."""
from __future__ import annotations

STATES = {
    "good": "nothing was found",
    "grown": "records were added, and nothing was found",
    "findings": "can be read; check found something",
    "unchecked": "can be read; some blocks can't be checked",
    "bad": "a block or a payload doesn't have its digest",
    "altered": "not the records or the bytes of before",
    "rotten": "other bytes than before, with the same size and time",
    "refused": "damaged: no archive as a whole",
    "gunzip": "the compressed file is damaged",
    "unsupported": "compressed in a way that isn't read here",
    "no-room": "no room to unpack it: its captures aren't known",
    "failed": "couldn't be read",
    "changing": "changed while it was read",
    "unread": "not read yet",
    "gone": "isn't there any more",
}
# What the alarm rings for, if nothing else is asked. The others are said, and are no reason to get up.
ALARMING = (
    *("altered", "bad", "rotten", "refused", "gunzip"),
    *("gone", "failed", "no-room", "unread"),
)
# The rows of such a reading replace those of the one before. So do those of the good records of a damaged file.
READ = ("good", "grown", "findings", "unchecked", "bad")
# The good records of such a file are read, as far as they are found.
DAMAGED = ("refused", "gunzip")
# States that say something of the bytes of a file, and not of the machine that read it.
ABOUT_BYTES = (*READ, "refused", "gunzip", "no-room", "rotten", "altered")
TRIED_AGAIN = ("no-room", "failed", "changing", "unsupported", "unread", "gone")


def as_list(states: tuple[str, ...]) -> str:
    """States as a list for SQL."""
    return ", ".join("'%s'" % state for state in states)
