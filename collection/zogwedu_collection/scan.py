"""HTML as the text that a reader sees, in one pass.

Tokens are those of the HTML Standard. No tree is made of them: the text of a page needs none, and trees of hostile
pages take time that grows with the square of the length. Each expression here either moves on or ends the page, so the
time grows with the length alone. Nothing is fetched, run or expanded but references to characters.
"""
from __future__ import annotations

import re
import unicodedata
from html.entities import html5
from typing import Dict, Iterator, List, NamedTuple, Optional, Pattern, Tuple

VERSION = 1  # of what is text
MOST_CHARACTERS = 2_000_000  # of the text of a page
MOST_OF_TITLE = 300
MOST_ATTRIBUTES = 64  # that are read of a tag
MOST_NESTED = 64  # parts of SVG and MathML within each other

NAME = r"<(/?)([A-Za-z][^\t\n\f\r />]*)"
TAG = re.compile(NAME)
# Most tags end so. Others are read attribute by attribute.
QUICK_END = r"(?:[\t\n\f\r ]+[A-Za-z0-9:_-]+=\"[^\"]*\")*[\t\n\f\r ]*/?>"
QUICK = re.compile("([^<]*)%s%s" % (NAME, QUICK_END))
ATTRIBUTE = re.compile(
    r"[\t\n\f\r /]*([^\t\n\f\r />][^\t\n\f\r />=]*)"
    r"(?:[\t\n\f\r ]*=[\t\n\f\r ]*(?:\"([^\"]*)\"|'([^']*)'|([^\t\n\f\r >\"'][^\t\n\f\r >]*)|(?=>)|([\"'])))?"
)
END = re.compile(r"[\t\n\f\r /]*>")
NO_MARKUP = re.compile(r"(?:<(?![A-Za-z/!?])[^<]*)+")
COMMENT_END = re.compile(r"--!?>")
IN_SCRIPT = re.compile(r"<!--|-->|<(/?)script(?=[\t\n\f\r />])", re.IGNORECASE | re.ASCII)
REFERENCE = re.compile(r"&(?:#([0-9]+)|#[xX]([0-9a-fA-F]+)|([A-Za-z0-9]{1,32}))(;?)")
LONGEST_OLD = 6  # letters of a name that is known without a semicolon
# Elements whose content is no markup, and those of which a reader sees nothing.
RAW = ("script", "style", "xmp", "iframe", "noembed", "noframes", "title", "textarea")
UNSEEN = ("script", "style", "iframe", "noembed", "noframes")
CLOSED = (*RAW, "plaintext")
OF_SVG = ("script", "style")
RAW_ENDS: Dict[str, Pattern[str]] = {
    name: re.compile("</%s(?=[\t\n\f\r />])" % name, re.IGNORECASE | re.ASCII) for name in RAW
}
# Elements before and after which a word ends. All others are within a line.
APART = frozenset(
    "address area article aside audio blockquote body br button canvas caption center col colgroup dd details dialog"
    " dir div dl dt embed fieldset figcaption figure footer form frame frameset h1 h2 h3 h4 h5 h6 head header hgroup hr"
    " html iframe img input legend li listing main menu nav noscript object ol optgroup option p plaintext pre search"
    " section select summary svg table tbody td text textarea tfoot th thead tr ul video xmp".split()
)
WITH_ALT = ("img", "area", "input")
# Elements that end a part of SVG or MathML around them, and those within which HTML goes on.
OUTSIDE = frozenset(
    "b big blockquote body br center code dd div dl dt em embed h1 h2 h3 h4 h5 h6 head hr i img li listing menu meta"
    " nobr ol p pre ruby s small span strong strike sub sup table tt u ul var".split()
)
FOREIGN = ("svg", "math")
SPECIAL = frozenset((*CLOSED, *FOREIGN, "template"))
AGAIN_HTML = ("foreignobject", "desc", "title", "mi", "mo", "mn", "ms", "mtext")
# Zero bytes, soft hyphens, word joiners and marks of the order of bytes are no part of a text.
VANISHING = "\0\u00ad\u2060\ufeff"

TEXT, START, FINISH, CONTENT = range(4)


# A part of a page: a text, a start tag, an end tag, or content that is no markup; with the name of its element, and
# where it begins and ends. A tag's place is that of its attributes.
Token = Tuple[int, str, int, int]


class PageText(NamedTuple):
    """The title and the text of a page, and whether the text is only its beginning."""

    title: str
    text: str
    is_cut: bool


class Nesting:
    """Which elements around a place change how it is read: templates, whose content is no part of the page, and SVG and
    MathML, in which no content is raw."""

    def __init__(self) -> None:
        self.templates = 0
        self.foreign: List[str] = []

    def is_foreign(self) -> bool:
        return bool(self.foreign) and self.foreign[-1] not in AGAIN_HTML

    def start(self, name: str, is_closed: bool) -> None:
        """Takes a start tag."""
        if name == "template" and not self.is_foreign():
            self.templates += 1
        elif self.is_foreign() and name in OUTSIDE:
            self.foreign.clear()
        elif (name in FOREIGN or (self.is_foreign() and name in AGAIN_HTML)) and not is_closed:
            self.foreign += [name] if len(self.foreign) < MOST_NESTED else []

    def finish(self, name: str) -> None:
        """Takes an end tag."""
        if name == "template" and not self.is_foreign():
            self.templates = max(self.templates - 1, 0)
        elif name in self.foreign:
            while self.foreign.pop() != name:
                pass


def tokens(page: str) -> Iterator[Token]:
    """The parts of a page that are no comments and in no template."""
    at, length, nesting = 0, len(page), Nesting()
    while at < length:
        quick = QUICK.match(page, at)
        if quick is None:
            is_within = nesting.templates > 0  # as the text is that comes before the tag
            made, at = slowly(page, at, nesting)
            yield from (it for it in made if not (is_within if it[0] == TEXT else nesting.templates))
            continue
        text, slash, name = quick.groups()
        name = name.lower()
        begin, at = at, quick.end()
        if text and not nesting.templates:
            yield TEXT, "", begin, begin + len(text)
        if name in SPECIAL or nesting.foreign:
            made, at = of_tag(page, bool(slash), name, (quick.end(3), at), nesting)
            if not nesting.templates:
                yield from made
        elif not nesting.templates:
            yield (FINISH if slash else START), name, quick.end(3), at


def slowly(page: str, at: int, nesting: Nesting) -> Tuple[List[Token], int]:
    """A text, and the tag or the comment after it; and where that ends."""
    mark = page.find("<", at)
    if mark < 0:
        return [(TEXT, "", at, len(page))], len(page)
    literal = NO_MARKUP.match(page, mark)
    if literal is not None:
        return [(TEXT, "", at, literal.end())], literal.end()
    text, found = [(TEXT, "", at, mark)], TAG.match(page, mark)
    if found is not None:
        end = tag_end(page, found.end())
        if end < 0:  # the page ends in the tag
            return text, len(page)
        made, at = of_tag(page, found[1] == "/", found[2].lower(), (found.end(), end), nesting)
        return text + made, at
    end = after_markup(page, mark, nesting.is_foreign())
    if page.startswith("<![CDATA[", mark) and nesting.is_foreign():
        return [*text, (CONTENT, "", mark + 9, max(end - 3, mark + 9))], end
    return ([(TEXT, "", at, mark + 1)], mark + 1) if end == mark else (text, end)


def of_tag(page: str, is_end: bool, name: str, place: Tuple[int, int], nesting: Nesting) -> Tuple[List[Token], int]:
    """A tag, and the content of the element that it begins, where that is raw; and where they end."""
    if is_end:
        nesting.finish(name)
        return [(FINISH, name, *place)], place[1]
    is_foreign, is_closed = nesting.is_foreign(), page[place[1] - 2] == "/"
    nesting.start(name, is_closed)
    tag, end = (START, name, *place), place[1]
    # Within SVG, styles and scripts may hold markup. It is no text all the same.
    if name not in (OF_SVG if is_foreign else CLOSED) or (is_foreign and is_closed):
        return [tag], end
    end = len(page) if name == "plaintext" else raw_end(page, name, end)
    return [tag, (CONTENT, name, place[1], end)], end


def after_markup(page: str, mark: int, is_foreign: bool) -> int:
    """Where a comment or a declaration ends that begins at a place; the place itself if none does."""
    if page.startswith("<!--", mark):
        for empty in (">", "->"):
            if page.startswith(empty, mark + 4):
                return mark + 4 + len(empty)
        found = COMMENT_END.search(page, mark + 4)
        return found.end() if found else len(page)
    if page.startswith("<![CDATA[", mark) and is_foreign:
        end = page.find("]]>", mark)
        return len(page) if end < 0 else end + 3
    if page.startswith(("<!", "<?"), mark) or (page.startswith("</", mark) and mark + 2 < len(page)):
        end = page.find(">", mark + 2)
        return len(page) if end < 0 else end + 1
    return mark


def tag_end(page: str, at: int) -> int:
    """Where a tag ends whose attributes begin at a place; -1 if the page ends before."""
    for end, _, _ in attributes(page, at):
        at = end
    found = END.match(page, at)
    return found.end() if found else -1


def attributes(page: str, at: int) -> Iterator[Tuple[int, str, str]]:
    """The attributes of a tag: where each ends, its name, and its value as it is written. A value that the page ends in
    is none."""
    while True:
        found = ATTRIBUTE.match(page, at)
        if found is None or found[5] is not None:
            return
        at = found.end()
        yield at, found[1], found[2] or found[3] or found[4] or ""


def attributes_of(page: str, begin: int, end: int) -> Dict[str, str]:
    """The first attributes of a tag by their names. Of those with one name the first one counts."""
    found: Dict[str, str] = {}
    for number, (at, name, value) in enumerate(attributes(page, begin)):
        if at > end or number == MOST_ATTRIBUTES:
            break
        found.setdefault(name.lower(), value)
    return {name: unescaped(value, True) for name, value in found.items()}


def raw_end(page: str, name: str, at: int) -> int:
    """Where the content of an element ends that holds no markup."""
    if name == "script":
        return script_end(page, at)
    found = RAW_ENDS[name].search(page, at)
    return found.start() if found else len(page)


def script_end(page: str, at: int) -> int:
    """Where a script ends. After `<!--` a script may hold another one."""
    is_comment = is_within = False
    while True:
        found = IN_SCRIPT.search(page, at)
        if found is None:
            return len(page)
        at = found.end()
        if found[0] == "<!--":
            is_comment = True
            at -= 2  # its hyphens may end it, too
        elif found[0] == "-->":
            is_comment = is_within = False
        elif not found[1]:
            is_within = is_comment
        elif is_within:
            is_within = False
        else:
            return found.start()


def unescaped(text: str, is_attribute: bool = False) -> str:
    """A text with its references to characters undone."""
    if "&" not in text:
        return text
    return REFERENCE.sub(lambda found: referred(found, is_attribute), text)


def referred(found: re.Match[str], is_attribute: bool) -> str:
    """What a reference means; the reference as it is written if it means nothing."""
    if found[3] is None:
        return character(found[1] or found[2], 10 if found[1] else 16)
    name, whole = found[3], html5.get(found[3] + ";") if found[4] else None
    if whole is not None:
        return whole
    for length in range(min(len(name), LONGEST_OLD), 1, -1):
        if name[:length] in html5:
            if is_attribute and is_name_of_more(found, length):
                return found[0]
            return html5[name[:length]] + name[length:] + found[4]
    return found[0]


def is_name_of_more(found: re.Match[str], length: int) -> bool:
    """Whether letters, digits or an equals sign follow a name without a semicolon: then it is a part of a query."""
    return length < len(found[3]) or (not found[4] and found.string[found.end() : found.end() + 1] == "=")


def character(digits: str, base: int) -> str:
    """The character of a number. Some numbers mean what windows-1252 has there, and some mean nothing."""
    digits = digits.lstrip("0") or "0"
    code = int(digits, base) if len(digits) < 8 else 0
    if 0x80 <= code < 0xA0:
        return bytes([code]).decode("cp1252", "ignore") or chr(code)
    return "\ufffd" if code == 0 or 0xD800 <= code < 0xE000 or code > 0x10FFFF else chr(code)


def tidied(text: str, most: int) -> Tuple[str, bool]:
    """A text on one line, without what vanishes, in composed form (NFC); and whether it was longer."""
    for sign in VANISHING:  # thirty times as fast as a table that names them
        text = text.replace(sign, "")
    text = unicodedata.normalize("NFC", " ".join(text.split()))
    return text[:most], len(text) > most


def plain_text(text: str) -> PageText:
    """A text that is no markup."""
    return PageText("", *tidied(text[: 2 * MOST_CHARACTERS], MOST_CHARACTERS))


class Gathered:
    """The text of a page, while it is read."""

    def __init__(self) -> None:
        self.parts: List[str] = []
        self.length = 0
        self.title: Optional[str] = None

    def add(self, text: str) -> None:
        self.parts.append(text)
        self.length += len(text)

    def take_content(self, name: str, text: str) -> None:
        """Takes content that is no markup. The first title of the page is its title, and no part of its text."""
        if name == "title":
            self.title = unescaped(text) if self.title is None else self.title
        elif name not in UNSEEN:
            self.add(unescaped(text) if name == "textarea" else text)


def scanned(page: str) -> PageText:
    """The title and the text of a page."""
    it, is_cut = Gathered(), False
    for kind, name, begin, end in tokens(page):
        if kind == TEXT:
            it.add(unescaped(page[begin:end]))
        elif kind == CONTENT:
            it.take_content(name, page[begin:end])
        elif name in APART:
            it.parts.append(" ")
            if kind == START and name in WITH_ALT:
                it.add(attributes_of(page, begin, end).get("alt", "") + " ")
        if it.length > 2 * MOST_CHARACTERS:
            is_cut = True
            break
    text, is_longer = tidied("".join(it.parts), MOST_CHARACTERS)
    return PageText(tidied(it.title or "", MOST_OF_TITLE)[0], text, is_cut or is_longer)


def metas(page: str) -> Iterator[Dict[str, str]]:
    """The attributes of the elements `meta` of a page."""
    for kind, name, begin, end in tokens(page):
        if kind == START and name == "meta":
            yield attributes_of(page, begin, end)
