"""Random styles as they are written anew: the browser must read of them what it reads of them as they were."""

from __future__ import annotations

import json
import os
from typing import Any

from browser import Browser

RANDOM_STYLES = int(os.environ.get("RANDOM_STYLES", "5000"))
# Parts of styles. An address is in a value alone: in the place of a name it is a function once it is written anew, and
# browsers leave out more of what follows a function. Custom properties, and values with `var()`, stay as texts.
PARTS = (
    *("a{", "b.c{", "*{", "&{", "&:hover{", ":is(a,b){", "::before{", '[href="x"]{', "[a=b]{", "#a{", "#\\31 x{"),
    *(".\\e9 t\\e9{", "\u00e9{", ".a\u00a0b{", "@media screen{", "@media (min-width:1px){", "@supports (color:red){"),
    *("@layer q{", "@keyframes k{from{", "@x y;", "@x {", "@", "}", "}", "}", ";", ";", ",", " ", "\n", "\t", "\f"),
    *("\r\n", "/*c*/", "/*", "*/", "<!--", "-->", "(", ")", "[", "]", "{", '"', "'", '"s"', "'t'", "\\22 ", "\\75"),
    *("\\\n", "\\", "color:red", "!important", "width:10%", "margin:1px 2px", "font:1em/2 'A B',serif", "x", ">", "~"),
    *("content:'a' url(x);", "background:url( y )", "cursor:u\\72l(z),auto;", "background-image:url('z' ),url(\"w\");"),
    *("background-image:src('s')", "background-image:src(//t)", "background-image:image-set('i' 1x,url(j) 2x)"),
    *("background:image-set('x' type('image/png') 1x)", "background-image:cross-fade(url(a),url(b),50%)"),
    *("background:linear-gradient(red,blue)", "width:calc(1px + 2px)", "1px", "1e3px", "+.5", "-", "+", "U+26"),
    *("@font-face{font-family:f;src:url(f) format('woff');unicode-range:U+0-7F,U+4??}", "list-style:<!--url(x)"),
)
COMPARED = r"""(parts, count) => {
  let state = 1;
  const random = () => {
    state = state + 0x9e3779b9 | 0;
    const once = Math.imul(state ^ state >>> 16, 0x21f0aaad), twice = Math.imul(once ^ once >>> 15, 0x735a2d97);
    return ((twice ^ twice >>> 15) >>> 0) / 2 ** 32;
  };
  const part = () => parts[Math.floor(random() * parts.length)];
  const some = () => Array.from({length: 1 + random() * 18}, part).join('');
  const read = (css) => {
    const sheet = new CSSStyleSheet();
    sheet.replaceSync(css);
    const texts = [...sheet.cssRules].map((it) => it.cssText);
    return texts.map((it) => it.replace(/url\("(?:[^"\\]|\\[^])*"\)/g, 'url("data:,")')).join('\n');
  };
  const wrong = [];
  let there = 0;
  for (let turn = 0; turn < count && wrong.length < 5; turn += 1) {
    const css = some().replace(/\\+$/, '');  // at the end it is a letter, which nobody needs
    const out = rewritten(css, {url: () => 'data:,', sheet: () => '', cut: () => {}});
    const one = read(css), other = read(out);
    there += Boolean(one);
    if (one !== other && !/--/.test(one)) wrong.push([css, out, one, other]);
  }
  return [wrong, there];
}"""


def styles(tests: Any) -> None:
    """Each style says the same as before."""
    browser = Browser()
    try:
        browser.go(tests.page)
        wrong, read = browser.run(f"({COMPARED})({json.dumps(PARTS)}, {RANDOM_STYLES})")
        tests.holds(not wrong, "styles: the browser reads the same", wrong)
        tests.holds(read > RANDOM_STYLES // 5, "styles: there is something to read", read)
    finally:
        browser.close()
