"""The part of a text in which a reader sees what was looked for."""
from __future__ import annotations

from typing import Dict, List, Sequence, Tuple

from .query import Query, Term
from .words import places_of

MOST_OF_SNIPPET = 160  # signs
MOST_SEARCHED = 1 << 18  # signs of a text
BEFORE = 40  # signs before the first word that was found
MOST_PLACES = 1_000  # that are weighed
MOST_WINDOWS = 8  # terms whose first places are looked at
Place = Tuple[str, int, int]
Mark = Tuple[int, int]


def begins(places: Sequence[Place], at: int, term: Term) -> bool:
    """Whether a term is at a word of a text."""
    words, is_prefix = term
    there = tuple(word for word, _, _ in places[at : at + len(words)])
    if not is_prefix:
        return there == words
    return len(there) == len(words) and there[:-1] == words[:-1] and there[-1].startswith(words[-1])


def found_in(places: Sequence[Place], query: Query) -> List[Tuple[int, int, int]]:
    """Where the terms of a query are: the number of the term, and the signs where it begins and ends."""
    found: List[Tuple[int, int, int]] = []
    by_first: Dict[str, List[int]] = {}
    for number, (words, is_prefix) in enumerate(query.wanted):
        if len(words) > 1 or not is_prefix:
            by_first.setdefault(words[0], []).append(number)
    prefixes = [number for number, (words, is_prefix) in enumerate(query.wanted) if is_prefix and len(words) == 1]
    for at, (word, begin, _) in enumerate(places):
        for number in (*by_first.get(word, ()), *prefixes):
            term = query.wanted[number]
            if begins(places, at, term):
                found.append((number, begin, places[at + len(term[0]) - 1][2]))
        if len(found) > MOST_PLACES:
            break
    return found


def best(found: Sequence[Tuple[int, int, int]]) -> int:
    """The first of those places that have most terms near them."""
    counts = []
    for number, (_, begin, _) in enumerate(found):
        near = {it[0] for it in found[number : number + 50] if it[2] <= begin + MOST_OF_SNIPPET - BEFORE}
        counts.append(len(near))
    return counts.index(max(counts))


def snippet_of(text: str, query: Query) -> Tuple[str, List[Mark]]:
    """A part of a text, and where the words are in it. It begins and ends between words, so that no letter loses its
    marks."""
    made = [part_of(text, begin, end, query) for begin, end in windows(text, query)]
    return max(made, key=lambda it: it[0])[1:] if made else part_of(text, 0, min(len(text), MOST_SEARCHED), query)[1:]


def windows(text: str, query: Query) -> List[Mark]:
    """The parts of a text around the first place of each term as it is written, where that is soon found: reading the
    words of a whole text takes a hundred times as long."""
    lower, found = text[:MOST_SEARCHED].lower(), set()
    if len(lower) != min(len(text), MOST_SEARCHED):
        return []
    for words, _ in query.wanted[:MOST_WINDOWS]:
        at = lower.find(" ".join(words))
        if at >= 0:
            begin = lower.rfind(" ", 0, max(at - BEFORE, 0)) + 1
            end = lower.find(" ", at + MOST_OF_SNIPPET)
            found.add((begin, len(lower) if end < 0 or end > at + 2 * MOST_OF_SNIPPET else end))
    return sorted((begin, min(end, begin + 4 * MOST_OF_SNIPPET)) for begin, end in found)


def part_of(text: str, start: int, stop: int, query: Query) -> Tuple[int, str, List[Mark]]:
    """A part of a text between two places, how many terms are in it, and where the words are."""
    places = [(word, at + start, last + start) for word, at, last in places_of(text[start:stop])]
    if not places:
        return 0, text[:MOST_OF_SNIPPET], []
    found = found_in(places, query)
    first = found[best(found)][1] if found else start
    inside = [it for it in places if it[1] >= first - BEFORE and it[2] <= first - BEFORE + MOST_OF_SNIPPET]
    inside = inside or [next(it for it in places if it[1] >= first)]
    begin, end = (0 if start == 0 and inside[0] == places[0] else inside[0][1]), inside[-1][2]
    if inside[-1] == places[-1] and len(text) - begin <= MOST_OF_SNIPPET:
        end = len(text)
    end = min(end, begin + 4 * MOST_OF_SNIPPET)
    marks = apart(sorted({(at - begin, last - begin) for _, at, last in found if begin <= at and last <= end}))
    before, after = ("… " if begin else ""), (" …" if end < len(text) else "")
    marks = [(at + len(before), last + len(before)) for at, last in marks]
    return len({number for number, _, _ in found}), before + text[begin:end] + after, marks


def apart(marks: Sequence[Mark]) -> List[Mark]:
    """Marks that don't overlap, in order."""
    made: List[Mark] = []
    for begin, end in marks:
        if made and begin < made[-1][1]:
            made[-1] = made[-1][0], max(made[-1][1], end)
        else:
            made.append((begin, end))
    return made
