"""What a reader of the room finds without knowing a URI: by words, by hosts and paths, and in a calendar; by keyboard
and by ear, on narrow and wide screens, in light and dark."""

from __future__ import annotations

import json
from typing import Any

HITS = "document.querySelectorAll('ol.hits > li').length"
HOSTS = "document.querySelectorAll('table.hosts tbody tr').length"
HOSTS_SHOWN = (
    ("http://river.example", "2018-03-01", "2019-04-01"),
    ("http://site.example", "2020-01-01", "2021-06-01"),
    ("http://town.example", "2018-03-01", "2019-04-01"),
)
# The texts whose contrast with their background is less than 4.5.
FAINT = """(() => {
  const parts = (color) => {
    const numbers = color.match(/[\\d.]+/g).map(Number), most = color.startsWith('rgb') ? 255 : 1;
    return [...numbers.slice(0, 3).map((it) => it / most), numbers[3] ?? 1];
  };
  const light = (color) => {
    const [r, g, b] = color.map((it) => it <= 0.03928 ? it / 12.92 : ((it + 0.055) / 1.055) ** 2.4);
    return 0.2126 * r + 0.7152 * g + 0.0722 * b;
  };
  const back = (node) => {
    if (!node) return [1, 1, 1];
    const [r, g, b, part] = parts(getComputedStyle(node).backgroundColor);
    const behind = part < 1 ? back(node.parentElement) : [0, 0, 0];
    return [r, g, b].map((it, at) => part * it + (1 - part) * behind[at]);
  };
  const texts = document.createTreeWalker(document.body, NodeFilter.SHOW_TEXT), found = [];
  const isFaint = (color, node) => {
    const pair = [light(parts(color)), light(back(node))].sort();
    return (pair[1] + 0.05) / (pair[0] + 0.05) < 4.5;
  };
  while (texts.nextNode()) {
    const node = texts.currentNode.parentElement;
    const isRead = node.checkVisibility() && !/^(?:script|noscript|option)$/i.test(node.tagName);
    if (!isRead || !texts.currentNode.data.trim()) continue;
    if (isFaint(getComputedStyle(node).color, node)) found.push(texts.currentNode.data.trim().slice(0, 40));
  }
  for (const it of document.querySelectorAll('[placeholder]')) {
    const {color, opacity} = getComputedStyle(it, '::placeholder');
    if (it.checkVisibility() && (opacity !== '1' || isFaint(color, it))) found.push(it.placeholder);
  }
  return found;
})()"""
# What has the focus, whether that is seen, and whether it is on the screen.
FOCUSED = """(() => {
  const it = document.activeElement, box = it.getBoundingClientRect(), {outlineStyle} = getComputedStyle(it);
  const isThere = box.width > 0 && box.left >= 0 && box.right <= innerWidth && it.checkVisibility();
  return [it.id || it.textContent.trim(), outlineStyle !== 'none', isThere];
})()"""
GAP = """document.querySelector('.timeline h3').getBoundingClientRect().top -
  document.querySelector('table.calendar').getBoundingClientRect().bottom"""
SCREENS = tuple((*size, scheme) for size in ((320, 900), (1440, 1000)) for scheme in ("dark", "light"))
MOST_STOPS = 30
SAID = {"status", "generic"}  # what is read out when it changes; of a view that is a line about its parts
PAPER = ("dark", "light")


def roles(tests: Any) -> list[tuple[str, str]]:
    """The roles and names of what is heard."""
    tree = tests.browser.ask("Accessibility.getFullAXTree")["nodes"]
    heard = [it for it in tree if not it.get("ignored")]
    return [(it.get("role", {}).get("value", ""), it.get("name", {}).get("value", "")) for it in heard]


def screens(tests: Any, what: str, folder: str, found: str = "record") -> None:
    """Nothing is beyond the edge, no text is faint, and each control has a name."""
    for width, height, scheme in SCREENS:
        metrics = {"width": width, "height": height, "deviceScaleFactor": 1, "mobile": False}
        tests.browser.ask("Emulation.setDeviceMetricsOverride", metrics)
        features = [
            {"name": "prefers-color-scheme", "value": scheme},
            {"name": "prefers-reduced-motion", "value": "reduce"},
        ]
        tests.browser.ask("Emulation.setEmulatedMedia", {"features": features})
        tests.holds(tests.browser.run("document.documentElement.scrollWidth") <= width, f"{what}, {width}: the edge")
        faint = tests.browser.run(FAINT)
        tests.holds(not faint, f"{what}, {width}, {scheme}: faint texts", faint)
        if folder:
            tests.browser.picture(f"{folder}/{what.replace(' ', '-')}-{width}-{scheme}.png")
    tests.holds(not tests.browser.nameless(), f"{what}: controls without a name", tests.browser.nameless())
    tests.holds(set(read_out(tests)) <= SAID, f"{what}: what is read out", read_out(tests))
    printed(tests, what, folder, found)


def read_out(tests: Any) -> list[str]:
    """The roles of what a screen reader reads out when it changes."""
    nodes = tests.browser.ask("Accessibility.getFullAXTree")["nodes"]
    values = {"live", "polite", "assertive"}
    return [
        it["role"]["value"]
        for it in nodes
        for found in it.get("properties", [])
        if found["name"] == "live" and found["value"].get("value") in values
    ]


def media(tests: Any, name: str, scheme: str) -> None:
    """Has the room drawn for a screen or for paper."""
    features = [{"name": "prefers-color-scheme", "value": scheme}]
    tests.browser.ask("Emulation.setEmulatedMedia", {"media": name, "features": features})


def printed(tests: Any, what: str, folder: str, found: str) -> None:
    """What is found, an element, is on paper, without the forms and without a faint text."""
    for scheme in PAPER:
        media(tests, "print", scheme)
        faint = tests.browser.run(FAINT)
        tests.holds(not faint, f"{what}, printed, {scheme}: faint texts", faint)
        paper = tests.browser.run("getComputedStyle(document.body).backgroundColor")
        tests.holds(paper == "rgb(255, 255, 255)", f"{what}, printed, {scheme}: the paper", paper)
        is_there = f"byId('{found}').checkVisibility() && !byId('ask')?.checkVisibility()"
        tests.holds(tests.browser.run(is_there), f"{what}, printed: what is found, and no form")
        months = "[...document.querySelectorAll('table.calendar button')].every((it) => it.checkVisibility())"
        tests.holds(tests.browser.run(months), f"{what}, printed: the numbers of a calendar")
    if folder:
        tests.browser.picture(f"{folder}/{what.replace(' ', '-')}-printed.png")
    media(tests, "", "light")


def type_words(tests: Any, words: str) -> None:
    """Types words into the form by the keyboard, and sends it."""
    browser = tests.browser
    browser.run("byId('find-words').focus(); byId('find-words').value = ''")
    browser.ask("Input.insertText", {"text": words})
    browser.press("Enter", "\r")


def first_screen(tests: Any, folder: str) -> None:
    """A stranger sees what is there: each host, with its numbers and from when to when."""
    tests.go("")
    tests.holds(tests.becomes(f"{HOSTS} === 3"), "the first screen has the hosts", tests.text())
    rows = tests.browser.run("[...document.querySelectorAll('table.hosts tbody tr')].map((it) => it.innerText)")
    for row, wanted in zip(sorted(rows), HOSTS_SHOWN):
        tests.holds(all(word in row for word in wanted), "a host with its numbers and its span", (row, wanted))
    heard = roles(tests)
    tests.holds(("search", "Words") in heard and ("search", "URI") in heard, "both forms are heard", heard)
    tests.holds(any(role == "rowheader" for role, _ in heard), "rows of hosts have headings", heard)
    screens(tests, "first screen", folder)


def words(tests: Any, folder: str) -> None:
    """Pages by their words: a hit, a mark, a way to the very capture; focus stays, and the count is heard."""
    browser = tests.browser
    tests.go("")
    type_words(tests, "snow site")
    tests.holds(tests.becomes(f"{HITS} === 1"), "a hit", tests.text())
    hit = str(browser.run("document.querySelector('ol.hits > li').innerText"))
    tests.holds("in 1 of 2 captures, 2020-01-01" in hit and "http://site.example/" in hit, "what is said of it", hit)
    marked = browser.run("[...document.querySelectorAll('ol.hits mark')].map((it) => it.textContent)")
    tests.holds("Snow" in marked and "site" in marked, "the words are marked", marked)
    tests.holds(browser.run("document.activeElement.id") == "find-words", "the focus stays in the field")
    heard = roles(tests)
    tests.holds(any(role == "status" for role, _ in heard), "there is a status", heard)
    tests.holds(browser.run("byId('find-status').textContent") == "1 page", "the count is heard")
    tests.holds(browser.run("byId('find-form').contains(byId('find-status'))"), "what is said of words is with them")
    tests.holds(("heading", "Front") in heard and any(role == "listitem" for role, _ in heard), "a list", heard)
    tests.holds(("region", "Pages with snow site") in heard, "what is shown has the name of its heading", heard)
    tests.holds(("link", "first, 2020-01-01") in heard, "a way to the first capture has a name", heard)
    screens(tests, "words", folder)
    browser.run("document.querySelector('ol.hits h3 a').click()")
    tests.holds(tests.shows("Snow"), "a hit leads to its very capture", tests.text())
    tests.holds("20200101000000" in browser.run("location.hash"), "its address", browser.run("location.hash"))
    tests.holds(browser.run("byId('heard').textContent") == "Shown, as of 2020-01-01T00:00:00Z", "a page is heard")
    browser.run("history.back()")
    tests.holds(tests.becomes(f"{HITS} === 1"), "back to the hits", tests.text())
    tests.holds(browser.run("byId('find-words').value") == "snow site", "the words are in the field again")


def keyboard(tests: Any) -> None:
    """By the Tab key alone: a way past the forms, each control in its order, and the focus is always seen."""
    browser = tests.browser
    tests.go("#search?q=snow")
    tests.holds(tests.becomes(f"{HITS} === 1"), "keyboard: a hit", tests.text())
    stops: list[Any] = []
    for _ in range(MOST_STOPS):
        browser.press("Tab")
        found = browser.run(FOCUSED)
        stops += [found] if stops or found[0] == "skip" else []
        if len(stops) == 8:
            break
    names = ["skip", "uri", "moment", "Show", "find", "find-words", "Search", "More"]
    tests.holds([name for name, _, _ in stops] == names, "keyboard: the order", stops)
    tests.holds(all(is_seen and is_there for _, is_seen, is_there in stops), "keyboard: the focus is seen", stops)
    browser.run("byId('skip').focus()")
    browser.press("Enter", "\r")
    tests.holds(browser.run("document.activeElement.id") == "record", "keyboard: past the forms")
    browser.press("Tab")
    tests.holds(browser.run(FOCUSED)[0] == "Front", "keyboard: the first hit", browser.run(FOCUSED))
    browser.press("Enter", "\r")
    tests.holds(tests.shows("Snow"), "keyboard: its page", tests.text())


def words_that_are_not_there(tests: Any) -> None:
    """Nothing found, what is no question, and a question with filters; what is shown of a page is never markup."""
    said = {
        "nowhere": "No page has these words. No text has: nowhere",
        "sn*": "sn*: the beginning of a word has 3 letters or more",
        "-snow": "no word to look for",
        '"': "no word to look for",
    }
    for text, sentence in said.items():
        tests.go("")
        type_words(tests, text)
        is_said = f"byId('find-status').textContent === {json.dumps(sentence)}"
        tests.holds(tests.becomes(is_said), f"words, {text}", tests.text())
    tests.go("#search?q=site&before=2021&host=.example&type=html")
    tests.holds(tests.becomes(f"{HITS} === 1"), "filters", tests.text())
    tests.holds(tests.browser.run("byId('find-before').value") == "2021", "filters are in the form")
    tests.go("#search?q=markup")
    shown = "document.body.innerText.includes('<b>markup</b> \u27e8U+202E\u27e9')"
    tests.holds(tests.becomes(shown), "a page with markup in its text is shown as it is", tests.text())
    tests.holds(tests.browser.run("document.querySelector('ol.hits b')") is None, "it is no markup")


def paths(tests: Any, folder: str) -> None:
    """The pages of a host as a tree, by the keyboard."""
    browser = tests.browser
    tests.go("#below/http://site.example/")
    tests.holds(tests.becomes("!!document.querySelector('ul.tree summary')"), "a tree", tests.text())
    browser.run("document.querySelector('ul.tree summary').focus()")
    browser.press("Enter", "\r")
    tests.holds(tests.becomes("!!document.querySelector('ul.tree ul.tree a')"), "a folder opens", tests.text())
    said = browser.run("byId('heard').textContent")
    tests.holds(said == "1 path in http://site.example/more?", "how many paths there are is heard", said)
    tests.holds(browser.run("document.activeElement.tagName") == "SUMMARY", "the focus stays at the folder")
    screens(tests, "a tree", folder)
    browser.run("document.querySelector('ul.tree ul.tree a').focus()")
    browser.press("Enter", "\r")
    tests.holds(tests.shows("Mehr für alle"), "a page of a folder", tests.text())


def calendar(tests: Any, folder: str) -> None:
    """The captures of a URI by year and month."""
    browser = tests.browser
    tests.go("#99991231235959/http://site.example/often")
    tests.holds(tests.shows("11"), "a page that was captured often", tests.text())
    button = "document.querySelector('table.calendar button')"
    tests.holds(browser.run(f"{button}.ariaLabel") == "Jan 2020: 1 capture", "a month with a capture has a name")
    browser.run(f"{button}.focus()")
    browser.press("Enter", "\r")
    tests.holds(tests.becomes("!!document.querySelector('.timeline li a')"), "the captures of a month", tests.text())
    said = browser.run("byId('heard').textContent")
    tests.holds(said == "Jan 2020: 1 capture, listed below", "how many captures a month has is heard", said)
    tests.holds(browser.run(GAP) >= 6, "the heading of a month is apart from the calendar", browser.run(GAP))
    tests.holds(browser.run(f"{button}.ariaPressed") == "true", "which month it is")
    tests.holds(browser.run(f"document.activeElement === {button}"), "the focus stays at the month")
    heard = roles(tests)
    tests.holds(("table", "Captures by year and month") in heard, "the calendar has a name", heard)
    screens(tests, "a calendar", folder)
    browser.run("document.querySelector('.timeline li a').click()")
    tests.holds(tests.shows("0"), "a capture of a month", tests.text())


def finding(tests: Any, folder: str) -> None:
    """All of this."""
    first_screen(tests, folder)
    words(tests, folder)
    keyboard(tests)
    words_that_are_not_there(tests)
    paths(tests, folder)
    calendar(tests, folder)
