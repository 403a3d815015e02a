"""Styles as the page writes them anew: no reference leaves, nothing stays open, and all else is as it was."""
from __future__ import annotations

import os
from typing import Any, List, Tuple

import build_page
import pytest

from .in_node import in_node, without

RANDOM_STYLES = int(os.environ.get("RANDOM_STYLES", "20000"))  # 300,000 for a change of how styles are read

REWRITTEN = """(styles) => styles.map((css) => {
  const asked = [], cuts = [];
  const host = {
    url: (it) => { asked.push(it); return 'OK'; },
    sheet: (it, media) => { asked.push(`${it} ${media}`.replace(/ +/g, ' ').replace(/ $/, '')); return '@S'; },
    cut: () => cuts.push(1),
  };
  return {text: rewritten(css, host), asked, isCut: cuts.length > 0};
})"""

# A style, what is written, and the references that the host is asked for.
STYLES: Tuple[Tuple[str, str, List[str]], ...] = (
    ("a{color:red}", "a{color:red}", []),
    ("a{background:url(x.png)}", 'a{background:url("OK")}', ["x.png"]),
    ("a{background:url( 'x y' )}", 'a{background:url( "OK" )}', ["x y"]),
    ("a{background:url( x\\ )}", 'a{background:url("OK")}', ["x "]),
    ("a{background:URL(x)}", 'a{background:url("OK")}', ["x"]),
    ("a{background:u\\72l(x)}", 'a{background:url("OK")}', ["x"]),
    ("a{background:xu\\72l(x)}", "a{background:xurl(x)}", []),
    ("a{background:\\\\u\\72l(x)}", "a{background:\\5c url(x)}", []),
    ('a{background:src("x")}', 'a{background:src("OK")}', ["x"]),
    ("a{background:src(//x)}", "a{background:src(//x)}", []),
    ("a{background:src(var(--x))}", "a{background:src(none(--x))}", []),
    ("a{background:url(x y)}", "a{background:url(()}", []),
    ('a{background:image-set("x" 1x)}', 'a{background:image-set("OK" 1x)}', ["x"]),
    ('a{background:image-set(if(else:"x"))}', 'a{background:image-set(none(else:"x"))}', []),
    ("a{b:<!--url(//x)}", 'a{b:<!--url("OK")}', ["//x"]),
    ('a{b:1type("x")}', 'a{b:1type("x")}', []),
    ("a{b:image-set(1type('x'))}", 'a{b:image-set(1type("OK"))}', ["x"]),
    ("a{b:1\\65 3}", "a{b:1\\65 3}", []),
    ("a{b:#1\\,#\\31 }", "a{b:#1\\2c #\\31 }", []),
    ("\ufeffa\xa0b\U0001f600{}", "\\feff a\\a0 b\\1f600 {}", []),
    ('@import "x.css" screen;', " @S ", ["x.css screen"]),
    ("@import url(x.css) layer(a);", " @S ", ["x.css"]),
    ("@import url(x.css) layer screen;", " @S ", ["x.css screen"]),
    ("@import 'x' url(y) a;", " @S ", ['x url("data:,") a']),
    ("@import 'x' \"a\n;", " @S ", ['x "\n']),
    ('a{} @import "x.css";', "a{}   ", []),
    ("u@import 'x';rl(//x)", "u @S rl(//x)", ["x"]),
    ("@import u'x'rl(//x);", " @S ", ["x u rl(//x)"]),
    ("a{content:'\\22 x'}", 'a{content:"\\22 x"}', []),
    ("a{b:url(", 'a{b:url("OK")}', [""]),
    ("a{b:url(x\\)", 'a{b:url("OK")}', ["x)"]),
    ("a{b:(c", "a{b:(c)}", []),
    ("a{b:c)}d", 'a{b:c"\n}d', []),
    ("a{b:c\\\n}", "a{b:c`\n}", []),
    ("a/*b", "a/**/", []),
    ("a{b:'c\nd", 'a{b:"\nd}', []),
    ("a{b:'c\\", 'a{b:"c"}', []),
    ("a{b:'\\c\\'", 'a{b:"\\c \'"}', []),
    ('@namespace a "x";', ' @namespace  a   "x"; ', []),
    ("@namespace \"a\n'x';", ' @namespace  "\n  "x"; ', []),
)

# Styles of random bits, each of which is written anew. What was read and what is written are compared as css-tree's
# tokens, and each reference is the host's. Gives what is wrong with the first few.
COMPARED = r"""(count, seed) => {
  const [ident, string] = ['ident', 'string'].map((it) => require(`/usr/share/nodejs/css-tree/cjs/utils/${it}.cjs`));
  const {tokenize, tokenTypes: K} = cssTree;
  const bits = [
    ...['url(', 'URL( ', 'u\\72l(', '\\75 \\52l(', '\\url(', '\\\\url(', 'src(', 'SRC(', 's\\72 c(', 'image-set('],
    ...['\\69mage-set(', '-webkit-image-set(', 'image(', 'cross-fade(', 'var(--x)', 'if(else:', 'type("a/b")'],
    ...['calc(', 'paint(', 'rgb(', 'format(', '"', "'", '//evil.example/x', 'http://evil.example/', 'x', 'u', 'rl('],
    ...['-', '--', '--x:', '1', '1e', '.5', '+', '%', 'e3', '#', '@', '.', '\\', '\\\n', '\n', '\r\n', '\f', ' ', '\t'],
    ...['\0', '\x01', '(', ')', '[', ']', '{', '}', ';', ',', ':', '!', '$', '&', '`', '/', '*', '/*', '*/', '<!--'],
    ...['-->', '<', '>', '@import ', '@import"', '@IMP\\4frt/**/', '@namespace ', '@media ', '@font-face{'],
    ...['@layer a{', 'layer', 'layer(a)', 'supports(', '\\22 ', '\\29 ', '\\2f\\2a', '\\0', '\\110000 ', '\\d800'],
    ...['\\31 ', 'a{b:', '\u00e9', '\u00a0', '\u2003', '\ud83d\ude00', '\ud83d', '</style>'],
  ];
  let state = seed;
  const random = () => {
    state = state + 0x9e3779b9 | 0;
    const once = Math.imul(state ^ state >>> 16, 0x21f0aaad), twice = Math.imul(once ^ once >>> 15, 0x735a2d97);
    return ((twice ^ twice >>> 15) >>> 0) / 2 ** 32;
  };
  const some = () => Array.from({length: 1 + random() * 14}, () => bits[Math.floor(random() * bits.length)]).join('');
  const tokens = (css) => {
    const found = [];
    tokenize(css, (kind, from, to) => found.push([kind, css.slice(from, to)]));
    return found;
  };
  const nameOf = (text) => ident.decode(text.slice(0, -1)).toLowerCase();
  const closers = {'(': ')', '[': ']', '{': '}'};
  const kindOf = {')': K.RightParenthesis, ']': K.RightSquareBracket, '}': K.RightCurlyBracket};
  const addresses = /^(?:url|src|(?:-webkit-)?(?:image-set|cross-fade)|image)$/;
  const saysOk = (kind, text, outer) => kind !== K.String || !addresses.test(outer) || /^"(?:OK|data:,)"$/.test(text);

  // What is wrong with a style that was written, as a browser reads it.
  const leaks = (css) => {
    const open = [];
    let before = '';
    for (const [kind, text] of tokens(css)) {
      const inner = open[open.length - 1] ?? '', name = kind === K.Function ? nameOf(text) : '';
      if (kind === K.Url) return `an address without quotes: ${text}`;
      if (kind === K.AtKeyword && ident.decode(text).toLowerCase() === '@import') return 'an import';
      if (name === 'url' && text.toLowerCase() !== 'url(') return `an address by ${text}`;
      if (before.toLowerCase() === 'url(' && !/^["' \n\t]/.test(text)) return `an address that isn't a text: ${text}`;
      if (!saysOk(kind, text, inner)) return `${text} in ${inner}`;
      if (kind !== K.String && /[^\x00-\x7f]/.test(text)) return `a letter outside of ASCII: ${text}`;
      if (kind === K.Function) open.push(name);
      if (text in closers) open.push(text === '(' ? inner : '');
      if (/^[)\]}]$/.test(text)) open.pop();
      before = text;
    }
    return open.length ? `open: ${open}` : '';
  };

  // What a style is written as, token by token; null where the test doesn't know.
  const wanted = (css) => {
    const list = [], open = [], all = tokens(css);
    const isAddress = () => addresses.test(open[open.length - 1]?.[0] ?? '');
    for (const [kind, text] of all) {
      const isLast = text === all[all.length - 1][1], inner = open[open.length - 1] ?? ['', ''];
      const name = kind === K.Function ? nameOf(text) : '';
      if (kind === K.AtKeyword && /^@(?:import|namespace)$/i.test(ident.decode(text))) return null;
      if (name === 'url' && text.length > 4) return null;
      if ((kind === K.String || kind === K.Url) && isLast && text.includes('\\')) return null;
      if (kind === K.BadUrl && text.includes('\\')) return null;
      if (kind === K.Comment || kind === K.BadUrl || kind === K.BadString)
        list.push([kind, '']);
      else if (kind === K.WhiteSpace)
        list.push([kind, ' ']);
      else if (kind === K.String)
        list.push([kind, isAddress() ? 'OK' : string.decode(text)]);
      else if (kind === K.Url)
        list.push([K.Function, 'url'], [K.String, 'OK'], [K.RightParenthesis, ')']);
      else if (kind === K.Function) {
        const isIn = isAddress() && inner[0] !== 'url', isKept = addresses.test(name) || KNOWN_IN_CHOICES.test(name);
        list.push([kind, isIn && !isKept ? 'none' : name]);
        open.push([name, ')']);
      } else if (text in closers) {
        list.push([kind, text]);
        open.push([text === '(' ? inner[0] : '', closers[text]]);
      } else if (/^[)\]}]$/.test(text) && inner[1] === text) {
        list.push([kind, text]);
        open.pop();
      } else if (/^[)\]}]$/.test(text))
        list.push([K.BadString, '']);
      else if (text === '\\')
        list.push([K.Delim, '`']);
      else
        list.push([kind, ident.decode(text)]);
    }
    return [...list, ...open.reverse().map(([, closer]) => [kindOf[closer], closer])];
  };
  const seenAs = ([kind, text]) => {
    switch (kind) {
      case K.Comment: case K.BadUrl: case K.BadString: return [kind, ''];
      case K.WhiteSpace: return [kind, ' '];
      case K.String: return [kind, string.decode(text)];
      case K.Function: return [kind, nameOf(text)];
      default: return [kind, ident.decode(text)];
    }
  };

  const wrong = [];
  let compared = 0;
  for (let turn = 0; turn < count && wrong.length < 5; turn += 1) {
    const css = some(), out = rewritten(css, {url: () => 'OK', sheet: () => '', cut: () => {}}), leak = leaks(out);
    if (leak) wrong.push([leak, css, out]);
    const list = wanted(css.replace(/\r\n?|\f/g, '\n').replace(/[\0\p{Surrogate}]/gu, '\ufffd'));
    if (!list) continue;
    compared += 1;
    const one = JSON.stringify(list), other = JSON.stringify(tokens(out).map(seenAs));
    if (one !== other) wrong.push(['differs', css, out, one, other]);
  }
  return {wrong, compared};
}"""

# All spellings of the name of an address, of which some are tried with each letter after them.
SPELLED = r"""() => {
  const spelled = (letter) => {
    const codes = [letter, letter.toUpperCase()].map((it) => it.charCodeAt(0).toString(16));
    const digits = codes.flatMap((it) => [it, it.toUpperCase()]);
    const numbers = digits.flatMap((it) => [0, 1, 4].map((zeros) => '\\' + '0'.repeat(zeros) + it));
    return [letter, letter.toUpperCase(), `\\${letter}`, ...numbers.flatMap((it) => [it, `${it} `, `${it}\n`])];
  };
  const missed = [];
  for (const u of spelled('u')) for (const r of spelled('r')) for (const l of spelled('l')) {
    const asked = [], css = `a{b:${u}${r}${l}(//x)}`;
    const out = rewritten(css, {url: (it) => { asked.push(it); return 'OK'; }, sheet: () => '', cut: () => {}});
    if (out !== 'a{b:url("OK")}' || asked[0] !== '//x') missed.push([css, out]);
  }
  return missed.slice(0, 5);
}"""


def in_page(function: str, *values: object) -> Any:
    """What a function gives after the script that writes styles anew."""
    if not os.path.exists(build_page.TOKENIZER):
        without("node-css-tree")
    return in_node(("style.js",), function, *values, before=build_page.tokenizer())


@pytest.fixture(scope="module", name="written")
def written_fixture() -> List[Any]:
    """Each of them, by one run of node."""
    found: List[Any] = in_page(REWRITTEN, [css for css, _, _ in STYLES])
    return found


@pytest.mark.parametrize("number", range(len(STYLES)), ids=[css for css, _, _ in STYLES])
def test_a_style(written: List[Any], number: int) -> None:
    _, text, asked = STYLES[number]
    assert (written[number]["text"], written[number]["asked"]) == (text, asked)


def test_brackets_that_nest_too_deep_are_cut() -> None:
    shallow, deep = in_page(REWRITTEN, ["(" * 100, "(" * 101])
    assert (shallow["isCut"], deep["isCut"]) == (False, True)
    assert deep["text"].count("(") == deep["text"].count(")") == 101


def test_an_address_is_read_by_each_spelling_of_its_name() -> None:
    assert in_page(SPELLED) == []


def test_random_styles_are_written_as_they_were_read() -> None:
    found = in_page(COMPARED, RANDOM_STYLES, 1)
    assert found["wrong"] == [] and found["compared"] > RANDOM_STYLES // 2
