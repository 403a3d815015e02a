#!/usr/bin/python3
"""A stand-in for the program, before any is proved: what the second reading of the format says, by the program's words.

    warc.py COMMAND [OPTION ..] [--] FILE|- [WORD ..]

It has the commands that warc-collection and zwarc call, reads the whole file first, and prints no hints. What writes
archives is left out.
"""
from __future__ import annotations

import os
import sys
from typing import List

TOP = os.path.dirname(os.path.dirname(os.path.dirname(os.path.realpath(__file__))))
sys.path[:0] = [os.path.join(TOP, "tests", "reference"), os.path.join(TOP, "tools")]
sys.dont_write_bytecode = True  # many run at once, and none leaves anything
import shared  # noqa: E402
import warc_reference  # noqa: E402

INSTANT = b"%04d-%02d-%02dT%02d:%02d:%02d.%09dZ\n"


def answer_of_date(date: str) -> warc_reference.Answer:
    """The instant of a date."""
    instant = warc_reference.instant_of(os.fsencode(date))
    return (b"", b"warc: bad date\n", 3) if instant is None else (INSTANT % instant, b"", 0)


def answer(words: List[str]) -> warc_reference.Answer:
    """What the program writes, its message and its status."""
    if words[:1] == ["--version"]:
        return b"warc %s\n" % shared.version().encode(), b"", 0
    if words[:2] == ["instant", "--"]:
        return answer_of_date(words[2])
    command, rest = words[0], words[1:]
    marked = rest.index("--") if "--" in rest else len(rest)
    flags = [word for word in rest[:marked] if word.startswith("--")]
    path, *more = [word for word in rest[:marked] if word not in flags] + rest[marked + 1 :]
    try:
        with open("/dev/stdin" if path == "-" else path, "rb") as file:
            data = file.read()
    except OSError:
        return b"", b"warc: read failed after 0\n", 3
    return warc_reference.run(command, data, [os.fsencode(word) for word in (*more, *flags)])


def main() -> int:
    """Answers, and fails where the reader has gone."""
    out, message, status = answer(sys.argv[1:])
    try:
        sys.stdout.buffer.write(out)
        sys.stdout.flush()
    except BrokenPipeError:
        os.dup2(os.open(os.devnull, os.O_WRONLY), 1)
        return 3
    sys.stderr.buffer.write(message)
    return status


if __name__ == "__main__":
    sys.exit(main())
