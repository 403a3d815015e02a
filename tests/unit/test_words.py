"""What the room over a collection says to a reader, without a browser: in plain words, and the rest folded."""
from __future__ import annotations

import os
from typing import Any, Dict, List

import build_page

from .in_node import in_node, without

SCRIPTS = (
    *("shared.js", "elements.js", "members.js", "words.js", "stored.js", "nodes.js", "allowed.js", "style.js"),
    *("view.js", "pageview.js", "finding.js", "served.js"),
)
# As much of a page as the scripts ask for as they are read, and elements that only keep what is put into them.
PAGE = """
class Fake {
  constructor(name) { Object.assign(this, {name, children: [], style: {setProperty() {}}, dataset: {}}); }
  append(...children) { this.children.push(...children.filter((it) => it !== '')); }
  replaceChildren(...children) { this.children = children; }
  setAttribute() {}
  addEventListener() {}
  get documentElement() {} get parentNode() {} get ownerDocument() {} get firstChild() {} get textContent() {}
  set textContent(text) { this.children = [text]; }
  get namespaceURI() {} get localName() {}
}
const [Document, Node, Element, DocumentFragment, HTMLFormElement, HTMLTemplateElement, NamedNodeMap, NodeFilter] =
    Array(8).fill(Fake);
const DOMParser = Fake, createPurifier = () => ({}), location = {hash: ''}, addEventListener = () => {};
const document = Object.assign(new Fake(), {
  body: {dataset: {top: ''}}, createElement: (name) => new Fake(name), getElementById: (name) => new Fake(name)});
const NUMBERS = %s;
const textBy = (it) => typeof it === 'string' ? it : it.children.map(textBy).join('');
const openBy = (it) =>
    typeof it === 'string' ? it :
    it.name === 'details' ? textBy(it.children[0]) : it.children.map(openBy).join(' ').replace(/ +/g, ' ');
"""
SAID = """(words) => words.map(([reason, text]) => {
  const it = noAnswer({reason, words: text});
  return [openBy(it), textBy(it)];
})"""
POINTS = """(cases) => cases.map(([instants, digits, isCut = false, instant = undefined]) => {
  const some = {kind: 'response', path: 'a', position: 0, uri: ''};
  const captures = {list: instants.map((instant) => ({instant, datetime: instant, ...some})), isCut};
  return textBy(pointsOf(new Uint8Array(), captures, numberOfAnswer(captures, {instant}, digits)).children[0]);
})"""
RINGS = """(reasons) => reasons.map((reason) => {
  const it = {kind: 'revisit', path: '/srv/a', position: 0, uri: '', instant: '2020-01-01T00:00:00.000000000Z', reason};
  const {className, title} = pointOfServed(new Uint8Array(), it, 0, false);
  return [className, title];
})"""
LINKS = """(hosts) => hosts.map((has) => {
  const host = {line: () => [], lead() {}, ...(has && {has: (it) => it === 'a'})};
  return textBy(listed(host, {there: [], missing: []}, ['a', 'b'], '')[2].children[0]);
})"""
MAY_HAVE = (
    "may have it: /srv/%20x/torn.warc.gz (damaged: invalid distance, read on 2026-11-29)\n"
    "and 7 files more that may have it"
)


def in_page(function: str, *values: object) -> Any:
    """What a function gives after the scripts of the room over a collection."""
    if not all(map(os.path.exists, (build_page.INFLATER, build_page.TOKENIZER))):
        without("node-pako or node-css-tree")
    before = PAGE % build_page.quoted(build_page.numbers()) + build_page.inflater() + build_page.tokenizer()
    return in_node(SCRIPTS, function, *values, before=before)


def said(reason: str, text: str) -> List[str]:
    """What is shown at once of an answer without a body, and all of it."""
    found: List[str] = in_page(SAID, [[reason, text]])[0]
    return found


def test_what_a_reader_can_do_is_shown_and_the_rest_is_folded() -> None:
    shown, whole = said("P1 NoCapture", "P1 NoCapture\n" + MAY_HAVE)
    assert "Nothing was captured of this URI." in shown and "another spelling" in shown
    assert "Some files of this collection couldn’t be read" in shown
    assert "warc list" not in shown and "torn.warc.gz" not in shown and "Details: P1 NoCapture" in shown
    assert "warc list" in whole and "may have it: torn.warc.gz (damaged" in whole and "/srv" not in whole


def test_no_file_is_named_where_all_could_be_read() -> None:
    shown, _ = said("P1 NoCapture", "P1 NoCapture")
    assert "couldn’t be read" not in shown


def test_folders_are_left_out() -> None:
    shown, whole = said("P5 Unresolved", "chosen /srv/a/second.warc.gz 15 P5 Unresolved")
    assert "Choose another capture" in shown and "chosen second.warc.gz 15 P5" in whole and "/srv" not in whole


def test_what_has_no_number_is_said_as_it_is() -> None:
    shown, _ = said("too many coded bodies at once: try again", "too many coded bodies at once: try again")
    assert shown.strip() == "too many coded bodies at once: try again"


def test_each_reason_has_words_for_readers() -> None:
    reasons = [f"{number} {name}" for number, (name, *_) in build_page.numbers().items() if number.startswith("P")]
    found = in_page(SAID, [[reason, reason] for reason in reasons if not reason.startswith("P10 ")])
    assert len(found) == 9 and all(not shown.startswith("P") and "warc " not in shown for shown, _ in found)


def test_which_capture_is_shown() -> None:
    """Also one that has no body, and none where all are later. A date of a second goes to the second's end."""
    instants = ["2020-01-01T00:00:00.000000000Z", "2021-01-01T00:00:00.500000000Z", "2022-01-01T00:00:00.000000000Z"]
    cases: Dict[str, str] = {
        "20210101000000": "Capture 2 of 3 of this URI",
        "20210101000000000000000": "Capture 1 of 3 of this URI",
        "20190101000000": "All 3 captures of this URI are later",
        "99991231235959": "Capture 3 of 3 of this URI",
    }
    assert in_page(POINTS, [[instants, digits] for digits in cases]) == list(cases.values())
    one = [[instants[:1], "20210101000000"], [instants[:1], "20190101000000"]]
    assert in_page(POINTS, one) == ["The only capture of this URI", "The only capture of this URI is later"]


def test_of_many_captures_the_first_are_shown() -> None:
    instants = ["2020-01-01T00:00:00.000000000Z", "2021-01-01T00:00:00.000000000Z"]
    cases = [[instants, "20200601000000", True], [instants, "20220101000000", True]]
    cases += [[instants, "20220101000000", True, "2021-06-01T00:00:00.000000000Z"]]
    later = "The first 2 captures of this URI; this one is later"
    assert in_page(POINTS, cases) == ["Capture 1 of more than 2 of this URI", later, later]


def test_a_capture_with_the_body_of_another_file_is_no_failure() -> None:
    where = ", record 0 of a"
    assert in_page(RINGS, [None, "P5 Unresolved", "elsewhere", "P8 BadDigest"]) == [
        ["revisit", "2020-01-01T00:00:00Z, revisit" + where],
        ["revisit", "2020-01-01T00:00:00Z, revisit, with the body of another file" + where],
        ["revisit", "2020-01-01T00:00:00Z, revisit, with the body of another file" + where],
        ["revisit failed", "2020-01-01T00:00:00Z, revisit, P8 BadDigest" + where],
    ]


def test_near_spellings_are_a_list_to_choose_from() -> None:
    near = "near: http%3A%2F%2Fa.example%2F 3 2020-01-01T00:00:00Z 2021-01-01T00:00:00Z"
    shown, whole = said("P1 NoCapture", f"P1 NoCapture\n{near}\n\n{MAY_HAVE}")
    assert "There are captures of other spellings: http://a.example/ 3 captures, 2020-01-01 to 2021-01-01" in shown
    assert "couldn’t be read" in shown and "near:" not in whole
    shown, _ = said("P1 NoCapture", f"P1 NoCapture\n{near.replace(' 3 ', ' 100 ')}")
    assert "http://a.example/ at least 100 captures, 2020-01-01" in shown


def test_that_a_file_could_not_be_read_is_said_once() -> None:
    shown, whole = said("P5 Unresolved", "P5 Unresolved\nA file that may have it can't be read now.\n\nchosen a 1 P5 x")
    assert "couldn’t be read" in shown and "can't be read now" not in whole and "chosen a 1 P5 x" not in shown


def test_links_are_counted_where_it_is_known_what_is_there() -> None:
    """A server would have to be asked for each of them."""
    found = in_page(LINKS, [True, False])
    assert found == ["Links on this page (2, 1 of them in this archive)", "Links on this page (2)"]
