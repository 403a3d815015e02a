"""What a reader looks for, as the index is asked: words, "a phrase", -word, -"a phrase", and word* for a beginning.

All else separates words: `AND`, `NEAR(` and `title:` are words as any other, and what the index is asked is made of
words alone. So no text is an error of the index.
"""
from __future__ import annotations

import dataclasses
import re
from typing import List, Tuple

from .words import ALONE, words_of

MOST_CHARACTERS = 2_000
MOST_WORDS = 32
LEAST_OF_PREFIX = 3  # letters
PART = re.compile(r'(-?)"([^"]*)(?:"|$)|(-?)([^\s"]+)')
Term = Tuple[Tuple[str, ...], bool]


class BadQuery(Exception):
    """Nothing can be looked for: why."""


@dataclasses.dataclass(frozen=True)
class Query:
    """Words that follow each other, which have to be there, and whether the last one is a beginning; and those that
    must not be there."""

    wanted: Tuple[Term, ...]
    without: Tuple[Term, ...]

    def words(self) -> List[str]:
        """The words that have to be there."""
        return list(dict.fromkeys(word for term, _ in self.wanted for word in term))

    def match(self) -> str:
        """The query as FTS5 has it."""
        asked = " AND ".join(map(quoted, self.wanted))
        return asked if not self.without else "(%s) NOT (%s)" % (asked, " OR ".join(map(quoted, self.without)))


def quoted(term: Term) -> str:
    """A term as FTS5 has it. No word holds a quotation mark."""
    words, is_prefix = term
    return '"%s"%s' % (" ".join(words), " *" if is_prefix else "")


def term_of(text: str, may_be_prefix: bool) -> Term:
    """The words of a part of a query. A letter that is a word by itself is no beginning of one."""
    words = tuple(words_of(text))
    is_prefix = may_be_prefix and text.endswith("*") and bool(words) and ALONE.fullmatch(words[-1]) is None
    if is_prefix and len(words[-1]) < LEAST_OF_PREFIX:
        raise BadQuery("%s*: the beginning of a word has %d letters or more" % (words[-1], LEAST_OF_PREFIX))
    return words, is_prefix


def query_of(text: str) -> Query:
    """What a text asks for. An open quotation mark ends with it."""
    if len(text) > MOST_CHARACTERS:
        raise BadQuery("more than %d characters" % MOST_CHARACTERS)
    wanted: List[Term] = []
    without: List[Term] = []
    for found in PART.finditer(text):
        is_phrase = found[2] is not None
        term = term_of(found[2] if is_phrase else found[4], not is_phrase)
        if term[0]:
            (without if found[1] or found[3] else wanted).append(term)
    if not wanted:
        raise BadQuery("no word to look for")
    if sum(len(words) for words, _ in (*wanted, *without)) > MOST_WORDS:
        raise BadQuery("more than %d words" % MOST_WORDS)
    return Query(tuple(dict.fromkeys(wanted)), tuple(dict.fromkeys(without)))
