"""The command `search`: which pages have words, a line for each."""
from __future__ import annotations

import argparse
import contextlib
import json
from typing import Any, Dict, Iterator, Optional, Tuple

from .access import read_access
from .catalogue import Catalogue
from .listing import put
from .memento import path_of
from .program import instant_of, usable_program
from .query import BadQuery, Query, query_of
from .search import FIRST, LAST, Filters, Hit, Place, Search, searching, unread
from .search import words_without_texts
from .search_index import Index
from .texts import Stored, Trouble, counted, escaped, path_bytes, say
from .timemaps import Seen

Options = argparse.Namespace


def shown_text(value: Stored) -> str:
    """A text as JSON has it."""
    return escaped(value) if isinstance(value, bytes) else value


def hit_values(hit: Hit, place: Any = lambda it: [shown_text(it.path), it.position, it.instant]) -> Dict[str, Any]:
    """A hit as JSON has it."""
    latest, shown = hit.latest(), hit.shown()
    return {
        "uri": shown_text(hit.target),
        "uri_path": path_of(hit.target),
        "first": hit.periods[0][0],
        "last": hit.periods[-1][1],
        "periods": [list(period) for period in hit.periods],
        "count": hit.count,
        "of": hit.of,
        "chosen": place(latest),
        "captures": [place(it) for it in hit.captures],
        "mark": latest.mark,
        "title": shown.title,
        "snippet": shown.snippet,
        "marks": [list(mark) for mark in shown.marks],
    }


def hit_line(hit: Hit, place: Place) -> Tuple[Stored, str]:
    """The file of a hit, and the rest of its line."""
    about = str(place.position), place.instant, hit.periods[0][0], hit.periods[-1][1], str(hit.count), str(hit.of)
    shown = hit.shown(place)
    texts = (escaped(it) for it in (shown.title or "-", shown.snippet, hit.target))
    return place.path, "\t".join([*about, place.mark or "-", *texts])


def lines_of(hit: Hit, has_captures: bool) -> Iterator[Tuple[Stored, str]]:
    """A line for a hit, or for each of its captures."""
    return (hit_line(hit, place) for place in (hit.captures if has_captures else [hit.latest()]))


def put_hit(hit: Hit, options: Options) -> None:
    """Prints a hit."""
    if options.form == "json":
        put(json.dumps(hit_values(hit)) + "\n")
        return
    for path, line in lines_of(hit, options.captures):
        if options.form == "names":
            put(path_bytes(path) + b"\t" + line.encode("utf-8", "replace") + b"\0")
        else:
            put(escaped(path) + "\t" + line + "\n")


def asked_query(options: Options) -> Query:
    """What is looked for. A Trouble with status 2 where that is nothing."""
    without = " ".join("-%s" % word if word.startswith('"') else '-"%s"' % word for word in options.without)
    try:
        return query_of(" ".join([*options.words, without]))
    except BadQuery as error:
        raise Trouble("search: %s" % escaped(str(error)), 2) from None


def instant_in(options: Options, date: Optional[str], other: str) -> str:
    """The first instant of what a date names."""
    return other if date is None else instant_of(usable_program(options.warc), date)


def search_command(options: Options) -> int:
    """Prints the hits. The status is 1 if there are none."""
    query = asked_query(options)
    instants = instant_in(options, options.begin, FIRST), instant_in(options, options.end, LAST)
    filters = Filters(options.host, options.type, *instants, options.most, is_of_each=options.captures)
    catalogue, seen = Catalogue(options.catalogue), Seen(read_access(options.access))
    with contextlib.closing(Index(catalogue)):
        pass  # what a run that was killed had begun is undone here
    with searching(options.catalogue) as reading:
        found = Search(reading, query, filters, seen).found()
        missing = [] if found.hits or options.access else words_without_texts(reading, query)
        left, files = unread(reading)
    for hit in found.hits:
        put_hit(hit, options)
    if left:
        say("%d of %s have no texts here, or only older ones: run reads them" % (left, counted(files, "file")))
    for line in (found.left_out, "the first %d URIs, and there are more" % options.most if found.is_more else ""):
        if line:
            say(line)
    if missing:
        say("no text has: %s" % ", ".join(map(escaped, missing)))
    return 0 if found.hits else 1
