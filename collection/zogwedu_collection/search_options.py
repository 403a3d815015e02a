"""The options of the command `search`."""
from __future__ import annotations

import argparse

MOST_HITS, DEFAULT_HITS = 1_000, 20


def most_of(text: str) -> int:
    """A number of hits."""
    count = int(text) if text.isascii() and text.isdigit() else 0
    if not 1 <= count <= MOST_HITS:
        raise ValueError("not a number from 1 to %d" % MOST_HITS)
    return count


def add_search(parser: argparse.ArgumentParser) -> None:
    """The options of `search`."""
    add = parser.add_argument
    add("words", nargs="*", metavar="WORD", help='words that a page has to have, "a phrase", -word, word*')
    add("--without", action="append", default=[], metavar="WORDS", help="words that a page must not have")
    add("--host", metavar="HOST", help="of this host alone; .town.example is that host and all below it")
    add("--type", metavar="TYPE", help="of this media type alone, as text/plain or html")
    add("--from", dest="begin", metavar="DATE", help="captures from this date on")
    add("--before", dest="end", metavar="DATE", help="captures before this date")
    add(
        "--most",
        type=most_of,
        default=DEFAULT_HITS,
        metavar="N",
        help="hits, %d without it, and at most %d" % (DEFAULT_HITS, MOST_HITS),
    )
    add("--captures", action="store_true", help="a line for each capture that has the words")
