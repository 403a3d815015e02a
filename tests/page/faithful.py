"""A page of a site that means no harm looks as it was made: what the reading room leaves out isn't missed there."""

from __future__ import annotations

import gzip
from typing import Any

from burdens import SITE, Site, show
from hostile import record
from stations import picture

STYLE = """@charset "utf-8"; @import url("imported.css") screen;
/* </style> and <link> in a comment */
.box { border: 2px solid rgb(204, 51, 51) } .box::before { content: '\\201C</style>' }
#body { color: rgb(0, 102, 51) } [data-x="1"] { background: rgb(255, 255, 221) }
@media (min-width: 10px) { .inner { color: rgb(128, 0, 128) } }
.cover { background: linear-gradient(90deg, #0003, #fff3), url( 'p.png' ) center/cover no-repeat }
:root { --picture: url(p.png) } .by-variable { background: var(--picture) }
.escaped { background: \\75 rl(p.png) } #\\31 23 { color: rgb(1, 2, 3) } .a\\:b { color: rgb(4, 5, 6) }
.open { color: rgb(7, 8, 9)"""
PAGE = """<?xml version="1.0"?><!-- <html class=no> --><!doctype html><!--[if IE]><html class=ie><![endif]-->
<html lang=en class=top><head><link rel=stylesheet href=style.css>
<style>html.top i { margin: 2px } p.own { color: rgb(0, 128, 128) } /* <b> */</style>
<style>.stray { color: rgb(9, 9, 9) } .closed { margin: 3px; color: rgb(1, 1, 1)) } } .stray { color: red }</style>
<style>@namespace s url(http://www.w3.org/2000/svg); s|circle { fill: rgb(2, 2, 2) }</style>
<style>@import "imported.css" print { x: y } .after { color: rgb(3, 3, 3) }</style>
<style>@import url( "wide.css" ) layer(x.y) supports(display: block)/**/screen and (min-width: 1px);</style>
</head><body id=body bgcolor="#eeeeff"><center>\
<font color=navy>x</font></center>
<table bgcolor="#ffffee" cellpadding=6><tr><td width=120 align=right>x</td></tr></table><div class=box data-x=1>x</div>
<p class=imported>x</p><p class=own>x</p><p class=inner>x</p><div class=cover>x</div><div class=by-variable>x</div>
<div class=escaped>x</div><p id=123>x</p><p class=a:b>x</p><p class=open>x</p><my-card class=box>x</my-card><noscript>\
<i>x</i></noscript>
<svg width=120 height=50><defs><linearGradient id=g><stop offset=0 stop-color=red /></linearGradient></defs>
<rect width=120 height=50 fill="url(#g)" /></svg><picture><source srcset=none.webp><img src=p.png width=100></picture>
<svg><circle r=9 /></svg><p class=stray>x</p><p class=closed>x</p><p class=after>x</p><p class=wide>x</p>
<img srcset="w_1,h_2/p.png 1x, none.png 2x"><img src="" srcset=", p.png, none.png 2x">
<img srcset="data:image/gif;base64,\
R0lGODlhAQABAIAAAAAAAP///yH5BAEAAAAALAAAAAABAAEAAAIBRAA7 1x">
<form action=/x><input name=q value=text><select><option>1<option selected>2</select></form><p id=last>x</p></body>\
</html>"""
LOOKS = [
    (".box", "borderTopColor", "rgb(204, 51, 51)"),
    (".box", "backgroundColor", "rgb(255, 255, 221)"),
    ("my-card", "borderTopColor", "rgb(204, 51, 51)"),
    ("#body", "color", "rgb(0, 102, 51)"),
    ("#body", "backgroundColor", "rgb(238, 238, 255)"),
    ("font", "color", "rgb(0, 0, 128)"),
    ("table", "backgroundColor", "rgb(255, 255, 238)"),
    ("td", "textAlign", "right"),
    (".imported", "fontStyle", "italic"),
    (".own", "color", "rgb(0, 128, 128)"),
    (".inner", "color", "rgb(128, 0, 128)"),
    (".cover", "backgroundImage", 'url("blob:'),
    (".by-variable", "backgroundImage", 'url("blob:'),
    (".escaped", "backgroundImage", 'url("blob:'),
    ("#\\\\31 23", "color", "rgb(1, 2, 3)"),
    (".a\\\\:b", "color", "rgb(4, 5, 6)"),
    (".open", "color", "rgb(7, 8, 9)"),
    ("rect", "fill", 'url("#g")'),
    ("i", "fontStyle", "italic"),
    ("i", "marginLeft", "2px"),
    ("html", "className", "top"),
    (".stray", "color", "rgb(9, 9, 9)"),
    (".closed", "marginTop", "3px"),
    (".closed", "color", "rgb(0, 102, 51)"),
    ("circle", "fill", "rgb(2, 2, 2)"),
    (".after", "color", "rgb(3, 3, 3)"),
    (".wide", "color", "rgb(5, 5, 5)"),
]
WORD = "\u041f\u0440\u0438\u0432\u0435\u0442"
LAST, META = f"<p id=last>{WORD}", "<meta charset=windows-1251>"
XML = '<?xml version="1.0" encoding="windows-1251"?>'
# The charset of a page's bytes, its media type, and the page: each is read as browsers read it.
CHARSETS = {
    "mark": ("utf-8-sig", "text/html; charset=iso-8859-1", LAST),
    "mark-16": ("utf-16", "text/html; charset=utf-8", LAST),
    "stated": ("koi8-r", 'text/html; charset="KOI8-R"', META + LAST),
    "unknown": ("cp1251", "text/html; charset=none", META + LAST),
    "named-16": ("utf-8", "text/html", "<meta charset=utf-16>" + LAST),
    "in-comment": ("cp1251", "text/html", "<!-- <meta charset=koi8-r> -->" + META + LAST),
    "in-script": ("cp1251", "text/html", "<script>'<meta charset=koi8-r>'</script>" + META + LAST),
    "in-title": ("utf-8", "text/html", "<title><meta charset=koi8-r></title>" + LAST),
    "late": ("cp1251", "text/html", f"<!doctype html>{' ' * 3000}{META}{LAST}"),
    "equivalent": (
        "cp1251",
        "text/html",
        "<meta http-equiv=Content-Type content='text/html; charset = windows-1251'>" + LAST,
    ),
    "twice": ("koi8-r", "text/html; charset=utf-8\r\nContent-Type: text/html; charset=koi8-r", LAST),
    "twice-without": ("koi8-r", "text/html; charset=koi8-r\r\nContent-Type: text/html", LAST),
    "declared": ("cp1251", "application/xhtml+xml", f"{XML}<html><body>{LAST}</p></body></html>"),
    "none": ("utf-8", "text/html", LAST),
}
LONG = 550_000_000  # bytes: a browser has no text of this length
PLACES = (
    "<a id=to href='#old'>x</a><a id=up href='#'>x</a><a id=up-by-name href='#top'>x</a><p style='height: 5000px'></p>"
    "<a name=old>x</a><p id=last>x"
)


def charsets(tests: Any, folder: str) -> None:
    """A page is read by the charset by which browsers read it, and an HTTP head wherever the library finds it."""
    site = Site()
    for name, (charset, media, text) in CHARSETS.items():
        site.add(name, text.encode(charset), media)
    site.add(
        "sheet.css", f'@charset "windows-1251"; #last::before {{ content: "{WORD}" }}'.encode("cp1251"), "text/css"
    )
    site.add("sheet", "<link rel=stylesheet href=sheet.css><p id=last>x")
    site.add("text", f"{META} {WORD}", "text/plain")
    for name, body, field in (
        ("empty-lines", LAST.encode("koi8-r"), ""),
        ("coded", gzip.compress(LAST.encode("koi8-r")), "Content-Encoding: gzip\r\n"),
    ):
        block = f"\r\n\n\r\nHTTP/1.1 200 OK\r\nContent-Type: text/html; charset=koi8-r\r\n{field}\r\n".encode() + body
        site.positions[name] = len(site.parts)
        site.parts.append(record(len(site.parts), f"{SITE}/{name}", "response", block, "2026-01-01T00:00:00Z"))
    browser, page = (
        tests.opened(site.save(f"{folder}/charsets.warc")),
        "document.querySelector('iframe.view').contentDocument",
    )
    try:
        for name in (*CHARSETS, "empty-lines", "coded"):
            show(browser, site.positions[name])
            found = browser.run(f"{page}.body.innerText")
            tests.holds(found == WORD, f"charsets: {name}", found[:99])
        show(browser, site.positions["sheet"])
        found = browser.run(f"getComputedStyle({page}.querySelector('p'), '::before').content")
        tests.holds(found == f'"{WORD}"', "charsets: of a sheet", found)
        browser.run(f"openRecord({site.positions['text']}); 0")
        browser.until("document.querySelector('pre.text') !== null", 10)
        found = browser.run("document.querySelector('pre.text').textContent")
        tests.holds(found == f"{META} {WORD}", "charsets: a text that is no page names none", found)
        long = f"textView(textOf(new Uint8Array({LONG}).fill(208), 'text/plain', MOST_TEXT)).textContent"
        found = browser.run(f"(() => {{ const text = {long}; return [text.length, text.slice(-40)]; }})()")
        tests.holds(found[0] > 2_000_000 and "the first 2.1 MB" in found[1], "charsets: of a text over 512 MB", found)
        cut = browser.run(f"textOf(typed('{WORD}'.repeat(9)), 'text/plain', 3).replaceAll('{WORD}', '')")
        tests.holds(len(cut) == 1 and cut in WORD, "charsets: a character that is cut is left out", cut)
    except RuntimeError as error:
        tests.holds(False, "charsets", error)
    finally:
        browser.close()


def places(tests: Any, folder: str) -> None:
    """A link to a place of its own page leads there: to the top, and to a link that has the name and no id."""
    site = Site()
    site.add("places", PLACES)
    browser, page = (
        tests.opened(site.save(f"{folder}/places.warc")),
        "document.querySelector('iframe.view').contentDocument",
    )
    try:
        show(browser, 0)
        for name, is_far in (("to", True), ("up", False), ("to", True), ("up-by-name", False)):
            browser.run(f"{page}.getElementById('{name}').click(); 0")
            top = browser.run(f"{page}.documentElement.scrollTop")
            tests.holds((top > 4000) == is_far, f"places: {name}", top)
    except RuntimeError as error:
        tests.holds(False, "places", error)
    finally:
        browser.close()


def faithful(tests: Any, folder: str) -> None:
    """All of them."""
    for part in (looks, charsets, places):
        part(tests, folder)


def looks(tests: Any, folder: str) -> None:
    """Each part of the page has the look that its style gives it."""
    site = Site()
    site.add("p.png", picture(3), "image/png")
    site.add("w_1,h_2/p.png", picture(3), "image/png")
    site.add("wide.css", ".wide { color: rgb(5, 5, 5) }", "text/css")
    site.add("style.css", STYLE, "text/css")
    site.add("imported.css", ".imported { font-style: italic }", "text/css")
    site.add("page", PAGE)
    browser = tests.opened(site.save(f"{folder}/faithful.warc"))
    page = "document.querySelector('iframe.view').contentDocument"
    try:
        show(browser, site.positions["page"])
        tests.picture(browser, "faithful")
        for selector, name, expected in LOOKS:
            node = f'{page}.querySelector("{selector}")'
            found = browser.run(f"getComputedStyle({node})['{name}'] ?? {node}['{name}']")
            tests.holds(expected in str(found), f"faithful: {name} of {selector}", found)
        content = browser.run(f"getComputedStyle({page}.querySelector('.box'), '::before').content")
        tests.holds(content == '"\u201c</style>"', "faithful: a text with the end of a style element", content)
        drawn = browser.run(f"[...{page}.images].map((it) => it.naturalWidth)")
        tests.holds(drawn == [200, 200, 200, 1], "faithful: pictures, also of sets", drawn)
        chosen = browser.run(f"{page}.querySelector('select').value")
        tests.holds(chosen == "2", "faithful: a choice", chosen)
    except RuntimeError as error:
        tests.holds(False, "faithful", error)
    finally:
        browser.close()
