"""Pages that ask for too much: of pictures, styles, elements and decoded bytes. Each is shown, or says what was left
out."""

from __future__ import annotations

import gzip
import time
from typing import Any

from browser import SLOWNESS
from hostile import record
from stations import picture

SITE = "http://a.example"
QUICK = 3.0 * SLOWNESS  # seconds in which a page must be shown
MOST = 60  # seconds that a test waits for one
PICTURE = picture(1, 900, 760) + bytes(2_000_000)  # a PNG with 2 MB after its end
DEEP = 30_000  # brackets that nest: the browser itself doesn't survive them
NESTED = {
    "rules": "a{" * DEEP,
    "media": "@media screen{" * DEEP,
    "conditions": f"@supports {'(not ' * DEEP}",
    "selectors": ":is(" * DEEP,
    "imports": f"@import 'x' {'(' * DEEP}",
}
# The browser's parser reads styles in a page as soon as it meets them.
NESTED_IN_PAGE = {
    "nested-here": f"<style>p {{ color: rgb(1, 2, 3) }} {'a{' * DEEP}</style>",
    "nested-comment": f"<!--><style>{'a{' * DEEP}</style><!-- -->",
    "nested-root": f'<html a=b"><style>{"a{" * DEEP}</style>">',
    "nested-attribute": f"<p style='color: {'color-mix(in srgb,' * DEEP}'>x</p>",
    "nested-references": f"<p title=' style=\"'style=color:{'color-mix&lpar;in&#9;srgb,' * DEEP}>x</p>",
    "nested-source": f"<picture><source srcset=x media='{'(not ' * DEEP}'></picture>",
    "nested-style": f"<style media='{'(not ' * DEEP}'>b {{ color: red }}</style>",
    "nested-link": f"<link rel=stylesheet href=/p.png media='{'(not ' * DEEP}'>",
    "nested-drawing": f"<svg><rect opacity='{'if(not(' * DEEP}' color='{'color-mix(in srgb,' * DEEP}' /></svg>",
}
SHOWN = """(() => {
  const page = document.querySelector('iframe.view')?.contentDocument;
  return document.getElementById('panel')?.dataset.ready === 'yes' && page?.readyState === 'complete' &&
    Boolean(page.getElementById('last') ?? page.querySelector('body > :last-child')) &&
    [...page.images].every((it) => it.complete);
})()"""


class Site:
    """An archive that is made answer by answer."""

    def __init__(self) -> None:
        self.parts: list[bytes] = []
        self.positions: dict[str, int] = {}

    def add(self, name: str, body: bytes | str, media: str = "text/html", field: str = "") -> None:
        """Adds what the site answers for a name."""
        data = body.encode() if isinstance(body, str) else body
        block = f"HTTP/1.1 200 OK\r\nContent-Type: {media}\r\n{field}\r\n".encode() + data
        self.positions[name] = len(self.parts)
        self.parts.append(record(len(self.parts), f"{SITE}/{name}", "response", block, "2026-01-01T00:00:00Z"))

    def save(self, path: str) -> str:
        """Writes the archive."""
        with open(path, "wb") as out:
            out.writelines(self.parts)
        return path


def styled(site: Site, name: str, css: str) -> None:
    """Adds a page with a style sheet of its own."""
    site.add(f"{name}.css", css, "text/css")
    site.add(name, f'<link rel=stylesheet href="/{name}.css"><p id=last>{name}')


def made() -> Site:
    """The archive with all burdens."""
    site, last = Site(), "<p id=last>last"
    site.add("p.png", PICTURE, "image/png")
    site.add("pictures", "<img src=/p.png width=9>" * 300 + last)
    site.add("elements", "<div><b>x</b>y</div>" * 5000 + last)
    site.add("too-many-elements", last + "<i>x</i>" * 150_000)
    site.add("references", last + "".join(f"<img src=/{it}.gif>" for it in range(12_000)))
    for count in (8, 20):
        styled(site, f"loop-{count}", f"@import 'loop-{count}.css';" * count + "p { color: rgb(1, 2, 3) }")
    for number in range(9):
        site.add(
            f"double-{number}.css", f"@import 'double-{number + 1}.css';" * 30 + "p { color: rgb(1, 2, 3) }", "text/css"
        )
    site.add("doubles", "<link rel=stylesheet href=/double-0.css>" + last)
    styled(site, "styles", "p { color: rgb(1, 2, 3) }" + "q { color: red; margin: 1px } " * 300_000)
    site.add("drawing.svg", "<svg xmlns='http://www.w3.org/2000/svg' width='9' height='9'/>", "image/svg+xml")
    site.add("drawings", "<img src=/drawing.svg><style>p { background: url(/drawing.svg) }</style>" + last)
    site.add(
        "big.svg",
        f"<svg xmlns='http://www.w3.org/2000/svg' width='9' height='9'><!--{'x' * 3_000_000}--></svg>",
        "image/svg+xml",
    )
    site.add("big-drawings", last + "<img src=/big.svg width=9>" * 100)
    site.add("long.css", "q{margin:1px}" * 600_000, "text/css")
    site.add("imports", "<style>" + "@import '/long.css';" * 70 + "</style>" + last)
    for number in range(40):
        site.add(f"around-{number}.css", "@import '/long.css';q{}", "text/css")
    around = "".join(f"@import '/around-{number}.css';" for number in range(40))
    site.add("imports-in-imports", f"<style>{around}</style>" + last)
    site.add("imports-in-attributes", "<p style=\"@import '/long.css'\">x</p>" * 5000 + last)
    site.add("words-of-imports", "<style>@import 'x' " + "'supports(' " * 60_000 + ";</style>" + last)
    for name, css in NESTED.items():
        styled(site, f"nested-{name}", "p { color: rgb(1, 2, 3) }" + css)
    for name, text in NESTED_IN_PAGE.items():
        site.add(name, text + last)
    bomb = gzip.compress(bytes(60_000_000), 1)
    for number in range(20):
        site.add(f"bomb-{number}.png", bomb, "image/png", "Content-Encoding: gzip\r\n")
    site.add("bombs", last + "".join(f"<img src=/bomb-{it}.png>" for it in range(20)))
    return site


def show(browser: Any, position: int) -> float:
    """Opens the record at a position, and gives the seconds until its view is drawn."""
    begun = time.monotonic()
    browser.run(f"room.tab = 'Page'; openRecord({position}); 0")
    browser.until(SHOWN, MOST)
    return time.monotonic() - begun


def words_of(browser: Any) -> str:
    """What the page says of a view."""
    return str(browser.run("document.getElementById('panel').innerText.slice(0, 900)"))


def colour(browser: Any) -> str:
    """The colour of the last paragraph of a view."""
    page = "document.querySelector('iframe.view').contentDocument"
    return str(browser.run(f"getComputedStyle({page}.querySelector('p')).color"))


EXPECTED = {
    "pictures": "",
    "elements": "",
    "too-many-elements": "100,000 elements",
    "references": "10,000 references",
    "loop-8": "",
    "loop-20": "",
    "doubles": "styles of over 8 MB",
    "styles": "styles of over 8 MB",
    "imports": "styles of over 8 MB",
    "imports-in-imports": "styles of over 8 MB",
    "imports-in-attributes": "styles of over 8 MB",
    "words-of-imports": "",
    **{name: "100 brackets" for name in (*(f"nested-{it}" for it in NESTED), *NESTED_IN_PAGE)},
    "drawings": "",
    "big-drawings": "drawings (SVG) of over 32 MB",
    "bombs": "pictures and styles of over 512 MB",
}


def burdens(tests: Any, folder: str) -> None:
    """Each page is drawn in time, and says what was left out of it."""
    site = made()
    browser = tests.opened(site.save(f"{folder}/burdens.warc"))
    try:
        for name, left_out in EXPECTED.items():
            try:
                took = show(browser, site.positions[name])
            except RuntimeError as error:
                tests.holds(False, f"burdens: {name} is shown", error)
                continue
            words = words_of(browser)
            tests.holds(took < QUICK or left_out, f"burdens: {name} is shown in time", f"{took:.1f} s")
            tests.holds(
                left_out in words and ("Left out" in words) == bool(left_out),
                f"burdens: {name} says what is left out",
                words,
            )
            print(f"burdens: {name} in {took:.2f} s", flush=True)
            if name.startswith(("loop", "double")) or name in {f"nested-{it}" for it in NESTED}:
                tests.holds(colour(browser) == "rgb(1, 2, 3)", f"burdens: {name} is styled", colour(browser))
        addresses(tests, browser, site)
    finally:
        browser.close()


def addresses(tests: Any, browser: Any, site: Site) -> None:
    """One address for each picture, which ends with the view; a drawing has one that no browser opens as a page."""
    page = "document.querySelector('iframe.view').contentDocument"
    show(browser, site.positions["pictures"])
    urls = browser.run(f"[...new Set([...{page}.images].map((it) => it.src))]")
    tests.holds(len(urls) == 1 and urls[0].startswith("blob:"), "addresses: one for all references", urls[:3])
    tests.holds(browser.run(f"{page}.images[299].naturalWidth") == 900, "addresses: the picture is drawn")
    show(browser, site.positions["drawings"])
    drawn = browser.run(
        f"[{page}.images[0].src, getComputedStyle({page}.querySelector('p')).backgroundImage, "
        f"{page}.images[0].naturalWidth]"
    )
    tests.holds(
        drawn[0].startswith("data:image/svg+xml") and 'url("data:image/svg+xml' in drawn[1] and drawn[2] == 9,
        "addresses: a drawing",
        drawn,
    )
    gone = browser.run(
        "new Promise((done) => { const it = new Image(); it.onload = () => done('there');"
        f" it.onerror = () => done('gone'); it.src = '{urls[0]}'; }})"
    )
    tests.holds(gone == "gone", "addresses: they end with the view", gone)
