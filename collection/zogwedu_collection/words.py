"""Words of a text, in the one spelling in which they are compared.

The index of SQLite gets words and spaces alone, so its own rules decide nothing. A word is in lower case and without
accents; Russian ё is е, and й stays. A letter of a script that is written without spaces is a word by itself.
"""
from __future__ import annotations

import re
import unicodedata
from typing import Dict, Iterator, List, Tuple

VERSION = 1  # of what is a word
MOST_OF_WORD = 64  # signs; a longer one is left out
SIGNS = "LMN"
# What Unicode doesn't take apart, and is read as other letters.
OTHERS = {"ø": "o", "đ": "d", "ł": "l", "ı": "i", "æ": "ae", "œ": "oe", "ς": "σ"}
# Signs without a width, which are no part of a word: a soft hyphen, joiners, marks of the order of bytes and variants.
VANISHING = re.compile("[\u00ad\u200d\u2060\ufeff\ufe00-\ufe0f\U000e0100-\U000e01ef]")
# Han, kana, Thai, Lao, Khmer and Burmese letters, and the marks that follow them.
LETTERS = (
    "\u2e80-\u2fdf\u3005-\u3007\u3021-\u3029\u3031-\u3035\u3038-\u303c\u3041-\u3096\u309b-\u309f\u30a1-\u30fa"
    "\u30fc-\u30ff\u31f0-\u31ff\u3400-\u4dbf\u4e00-\u9fff\uf900-\ufaff\uff66-\uff9d\U0001b000-\U0001b16f"
    "\U00020000-\U0003ffff\u0e01-\u0e30\u0e32\u0e33\u0e40-\u0e46\u0e81-\u0eb0\u0eb2\u0eb3\u0ebd-\u0ec6\u0edc-\u0edf"
    "\u1780-\u17b3\u17d7\u17dc\u1000-\u102a\u103f\u1050-\u1055\u105a-\u105d\u1061\u1065\u1066\u106e-\u1070"
    "\u1075-\u1081\u108e\ua9e0-\ua9ef\ua9fa-\ua9fe\uaa60-\uaa7a\uaa7e\uaa7f"
)
MARKS = (
    "\u3099\u309a\uff9e\uff9f\u302a-\u302f\u0e31\u0e34-\u0e3a\u0e47-\u0e4e\u0eb1\u0eb4-\u0ebc\u0ec8-\u0ece"
    "\u17b4-\u17d3\u17dd\u102b-\u103e\u1056-\u1059\u105e-\u1060\u1062-\u1064\u1067-\u106d\u1071-\u1074\u1082-\u108d"
    "\u108f\u109a-\u109d\ua9e5\uaa7b-\uaa7d"
)
PLAIN = re.compile("[a-z0-9]+")
ALONE = re.compile("[%s][%s]*" % (LETTERS, MARKS))


class Spellings(Dict[int, str]):
    """The spelling of each character, made when it is met: signs of words, or a space."""

    def __missing__(self, code: int) -> str:
        made = "".join(map(sign, spelled(chr(code))))
        self[code] = made
        return made


def spelled(character: str) -> str:
    """A character without accents, in lower case."""
    if VANISHING.match(character):
        return ""
    if character in "Йй":
        return "й"
    return "".join(OTHERS.get(it, it) for it in unicodedata.normalize("NFC", bare(bare(character).casefold())))


def bare(text: str) -> str:
    """A text taken apart, without accents."""
    return "".join(it for it in unicodedata.normalize("NFKD", text) if not "\u0300" <= it <= "\u036f")


def sign(character: str) -> str:
    """A sign of a word, or a space in the place of any other one."""
    category = unicodedata.category(character)
    return character if category[0] in SIGNS or category == "Co" else " "


SPELLINGS = Spellings()


def words_of(text: str) -> List[str]:
    """The words of a text, in their order."""
    folded = unicodedata.normalize("NFC", unicodedata.normalize("NFC", text).translate(SPELLINGS))
    return [word for word in ALONE.sub(r" \g<0> ", folded).split() if len(word) <= MOST_OF_WORD]


def places_of(text: str) -> Iterator[Tuple[str, int, int]]:
    """The words of a text, each with the place in it. The text is in composed form."""
    for found in re.finditer(r"\S+", text):
        if found[0].isascii():
            begin = found.start()
            for word in PLAIN.finditer(found[0].lower()):
                if len(word[0]) <= MOST_OF_WORD:
                    yield word[0], begin + word.start(), begin + word.end()
            continue
        made = words_of(found[0])
        if len(made) == 1 and found[0].isalnum():
            yield made[0], found.start(), found.end()
        elif made:
            yield from places_in(found[0], found.start())


def places_in(text: str, begin: int) -> Iterator[Tuple[str, int, int]]:
    """The words of a part of a text without spaces, with their places."""
    folded: List[str] = []
    owners: List[int] = []  # of each folded sign the place of what it is made of
    for place, character in enumerate(text):
        made = SPELLINGS[ord(character)]
        folded.append(made)
        owners += [place] * len(made)
    whole = "".join(folded)
    for found in re.finditer(r"\S+", whole):
        for word, first, last in within(found[0]):
            yield word, begin + owners[found.start() + first], begin + owners[found.start() + last - 1] + 1


def within(run: str) -> Iterator[Tuple[str, int, int]]:
    """The words of a run of signs: letters that are words by themselves, and what is between them."""
    at = 0
    for found in ALONE.finditer(run):
        if found.start() > at:
            yield run[at : found.start()], at, found.start()
        yield unicodedata.normalize("NFC", found[0]), found.start(), found.end()
        at = found.end()
    if at < len(run):
        yield run[at:], at, len(run)
