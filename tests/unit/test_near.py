"""Near URIs, which a reader of the room chooses from: those with one key, as far as the reader may see them."""
from __future__ import annotations

import time
from pathlib import Path
from typing import List, Sequence, Set

import pytest
from zogwedu_collection.access import EVERYTHING, Access, read_access
from zogwedu_collection.catalogue import Catalogue
from zogwedu_collection.keys import MOST_KEYED, key_of, number_of
from zogwedu_collection.moves import forget, prune
from zogwedu_collection.near import MOST_COUNTED, MOST_NEAR, near_captures
from zogwedu_collection.texts import Stored, stored_path

from .test_keys import KEYS

ASKED = "HTTP://example.com/a"
NEAR = "http://www.example.com/A"
READER = "192.0.2.1"
INSTANT = "20%02d-01-01T00:00:00.%09dZ"


def catalogue_of(folder: Path, *files: Sequence[Stored]) -> Catalogue:
    """A catalogue of the version before, with captures of targets, brought to this one."""
    catalogue = Catalogue(str(folder), is_made=True)
    catalogue.make_tables()
    catalogue.base.execute("DROP TABLE spellings")
    for file, targets in enumerate(files, 1):
        add(catalogue, file, targets)
    catalogue.base.execute("PRAGMA user_version = 6")
    catalogue.make_tables()
    return catalogue


def add(catalogue: Catalogue, file: int, targets: Sequence[Stored], state: str = "good") -> None:
    """Adds a file with captures of targets, a year apart."""
    catalogue.insert("files", {"file": file, "path": "/%d.warc" % file, "state": state})
    rows = ((file, it, INSTANT % (it % 100, it), target) for it, target in enumerate(targets))
    with catalogue.transaction():
        put = catalogue.base.executemany
        put("INSERT INTO captures (file, position, instant, target) VALUES (?, ?, ?, ?)", rows)


def near(catalogue: Catalogue, target: Stored, access: Access = EVERYTHING) -> List[Stored]:
    return [it[0] for it in near_captures(catalogue, target, access, READER)]


def spelled(catalogue: Catalogue) -> Set[Stored]:
    """The targets of the table."""
    return {row[0] for row in catalogue.rows("SELECT target FROM spellings")}


def test_all_of_a_key(tmp_path: Path) -> None:
    """For each URI those with its key are offered, and no others."""
    catalogue = catalogue_of(tmp_path, [uri for uris in KEYS.values() for uri in uris])
    for key, uris in KEYS.items():
        for uri in uris:
            assert set(near(catalogue, uri)) == set(uris) - {uri}, (key, uri)


@pytest.mark.parametrize("usual", ("https://example.com/a", "http://www.example.com/a/", "https://www.example.com/a"))
def test_usual_spellings_take_no_room(tmp_path: Path, usual: str) -> None:
    catalogue = catalogue_of(tmp_path, [usual, "https://example.com:8080/?b=1", NEAR, "http://1.2.3.4", "urn:a)b"])
    assert spelled(catalogue) == {NEAR, "urn:a)b"}
    assert near(catalogue, ASKED) == [usual, NEAR] and near(catalogue, "http://1.2.3.4/") == ["http://1.2.3.4"]
    assert near(catalogue, "http://EXAMPLE.com:8080?b=1") == ["https://example.com:8080/?b=1"]


def test_other_bytes(tmp_path: Path) -> None:
    """A target that isn't UTF-8, and captures without a target."""
    catalogue = catalogue_of(tmp_path, [b"http://A.example/\xff", b"urn:\xff"])
    catalogue.base.execute("INSERT INTO captures (file, position, target) VALUES (1, 9, NULL)")
    assert near(catalogue, "http://a.example/%FF") == [b"http://A.example/\xff"]
    assert near(catalogue, b"urn:\xff") == [] and near(catalogue, stored_path("http://a.example/\udcff")) != []


def test_long_ones_have_none(tmp_path: Path) -> None:
    longest = NEAR + "x" * (MOST_KEYED - len(NEAR))
    usual = longest.lower()
    catalogue = catalogue_of(tmp_path, [longest, longest + "x", usual, usual + "x"])
    assert near(catalogue, usual) == [longest] and spelled(catalogue) == {longest}
    assert near(catalogue, longest + "x") == near(catalogue, usual + "x") == []


def test_the_number_of_another_key(tmp_path: Path) -> None:
    """What has the number of a key alone isn't offered."""
    catalogue = catalogue_of(tmp_path, [NEAR, "http://other.example/A"])
    catalogue.base.execute("INSERT INTO spellings VALUES (?, ?)", (number_of(key_of(NEAR)), "http://other.example/A"))
    assert near(catalogue, ASKED) == [NEAR]


def test_what_is_not_given(tmp_path: Path) -> None:
    """Of files that are gone or altered, of a key that no capture has any more, and what the reader may not see."""
    catalogue = catalogue_of(tmp_path, [NEAR, NEAR + "/"], [NEAR + "?"])
    add(catalogue, 3, ["https://example.com/a"], "gone")
    assert near(catalogue, ASKED) == [NEAR, NEAR + "/", NEAR + "?"]
    catalogue.base.execute("UPDATE files SET state = 'altered' WHERE file = 2")
    assert near(catalogue, ASKED) == [NEAR, NEAR + "/"]
    catalogue.base.execute("DELETE FROM captures WHERE target = ?", (NEAR + "/",))
    assert near(catalogue, ASKED) == [NEAR]


@pytest.mark.parametrize("line", ("block example.com", "block http://example.com/A", "onsite example.com"))
def test_what_is_withheld(tmp_path: Path, line: str) -> None:
    """It isn't offered, and takes no place of what is."""
    others: List[Stored] = ["http://example.com/a?sid=%032x" % number for number in range(MOST_NEAR)]
    first = "http://example.com/A"
    catalogue = catalogue_of(tmp_path, [first, *others])
    (tmp_path / "rules").write_text(line + "\nallow http://example.com/a?\n", "ascii")
    assert near(catalogue, ASKED) == [first, *others[:-1]]
    assert near(catalogue, ASKED, read_access(str(tmp_path / "rules"))) == others


def test_under_an_embargo(tmp_path: Path) -> None:
    """Earlier captures are offered, and later ones don't count."""
    catalogue = catalogue_of(tmp_path, [NEAR] * 100)
    (tmp_path / "rules").write_text("embargo 10y example.com\n", "ascii")
    access = read_access(str(tmp_path / "rules"))
    ((_, count, first, last),) = near_captures(catalogue, ASKED, access, READER)
    assert 10 < count < 90 and first == INSTANT % (0, 0) and last == INSTANT % (count - 1, count - 1)


def test_limits(tmp_path: Path) -> None:
    """Many URIs with a key, and one with many captures. Counting ends at some."""
    many: List[Stored] = ["http://a.example/?sid=%032x" % number for number in range(5000)]
    catalogue = catalogue_of(tmp_path, many, [NEAR] * 5000)
    begun = time.process_time()
    found = near_captures(catalogue, "http://a.example/", EVERYTHING, READER)
    assert [it[0] for it in found] == many[:MOST_NEAR] and time.process_time() - begun < 0.1
    ((target, count, first, last),) = near_captures(catalogue, ASKED, EVERYTHING, READER)
    assert (target, count, first, last) == (NEAR, MOST_COUNTED, INSTANT % (0, 0), INSTANT % (99, 4999))


def test_what_is_forgotten_is_dropped(tmp_path: Path) -> None:
    """Its targets aren't kept, unless another file has them; and of files that were read again until `prune`."""
    catalogue = catalogue_of(tmp_path, [NEAR, NEAR + "/", NEAR + "?"], [NEAR])
    add(catalogue, -1, [NEAR + "//"])
    forget(catalogue, 1)
    assert spelled(catalogue) == {NEAR}
    catalogue.base.execute("DELETE FROM captures")
    assert spelled(catalogue) == {NEAR}
    prune(catalogue, 1)
    assert spelled(catalogue) == set()
