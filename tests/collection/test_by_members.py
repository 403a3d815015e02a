"""An answer by the members of the records that it needs is the answer by whole files: over random files, alone and
joined, for the program and for the server. The second reading of the format answers, in this process. MEMBERS_COUNT is
the number of collections; faults that are planted in the choosing of records have to be seen."""
from __future__ import annotations

import functools
import gzip
import io
import itertools
import os
import random
import sys
import tempfile
from typing import IO, Any, Callable, Dict, Iterator, List, Optional, Sequence, Tuple

import pytest
from conftest import TOP, record
from rooms import HTTP, PROFILE

sys.path.insert(0, os.path.join(TOP, "tests", "reference"))
import warc_reference  # noqa: E402
import zogwedu  # noqa: E402
from packages import DEFLATED, STORED, Item, zip_of  # noqa: E402
from zogwedu_collection import job, needed, replay, sample  # noqa: E402
from zogwedu_collection.captures import Capture, captures_where  # noqa: E402
from zogwedu_collection.catalogue import OF_A_FILE, Catalogue, Known  # noqa: E402
from zogwedu_collection.lending import Reader  # noqa: E402
from zogwedu_collection.needed import Chooser, Found, ids_like  # noqa: E402
from zogwedu_collection.parts import Parts  # noqa: E402
from zogwedu_collection.program import BadDate, Settings  # noqa: E402
from zogwedu_collection.replay import Answer, Replayer  # noqa: E402
from zogwedu_collection.shelf import Shelf  # noqa: E402
from zogwedu_collection.states import READ  # noqa: E402
from zogwedu_collection.take_in import load_file  # noqa: E402
from zogwedu_collection.texts import Trouble, stored_path  # noqa: E402

COUNT = int(os.environ.get("MEMBERS_COUNT", "60"))
FAULTY_COUNT = 300
IDS = ["urn:uuid:0000000a-0000-4000-8000-00000000000b", "urn:x:Plain", "urn:x:plain", "urn:x:é", "urn:x:4"]
TARGETS = ["http://a.example/", "http://a.example/b", "urn:x:target"]
DATES = ["2020-01-01T00:00:00Z", "2020-01-01T00:00:00.5Z", "2021-01-01T00:00:00Z", "2022"]
Rows = List[Tuple[Any, ...]]


def spelled(numbers: random.Random, name: str) -> str:
    """An id, as one of its spellings."""
    name = name.upper() if name.startswith("urn:uuid") and numbers.random() < 0.3 else name
    return numbers.choice(["<%s>", "<%s>", "<%s>", "%s", "< %s >", "<\t%s>"]) % name


def block_of(numbers: random.Random) -> bytes:
    """A block: an HTTP response, one that is coded, none, or a few bytes."""
    body = numbers.choice([b"one", b"two", b"", b"a longer body " * 20])
    head = numbers.choice([b"", b"", b"", b"Content-Encoding: gzip\r\n"])
    return numbers.choice([HTTP % (b"200 OK", b"text/plain", head, body), HTTP % (b"404 No", b"a/b", head, body), body])


def fields_of(numbers: random.Random, kind: str) -> Dict[str, str]:
    """The fields of a record that say what it needs."""
    digest = numbers.choice(["sha1:A", "sha1:B", "-"])
    if kind == "continuation":
        total = numbers.choice(["-", "-", "3", "6", "9"])
        number = numbers.choice(["2", "2", "3", "x"])
        of = spelled(numbers, numbers.choice(IDS))
        return {"WARC_Segment_Number": number, "WARC_Segment_Origin_ID": of, "WARC_Segment_Total_Length": total}
    if kind != "revisit":
        number = numbers.choice(["-", "-", "-", "1", "2"])
        return {"WARC_Payload_Digest": digest, "WARC_Segment_Number": number}
    name, uri = spelled(numbers, numbers.choice([*IDS, "urn:x:away", "a b"])), numbers.choice([*TARGETS, "<>"])
    named = numbers.choice(
        [(name, "-", "-"), ("-", uri, "now"), (name, uri, "now"), ("-", "-", "-"), ("<>", uri, "no")]
    )
    date = {"now": numbers.choice(DATES), "no": "no date"}.get(named[2], "-")
    return {
        "WARC_Profile": numbers.choice([PROFILE] * 9 + ["http://a.example/other"]),
        "WARC_Refers_To": named[0],
        "WARC_Refers_To_Target_URI": named[1],
        "WARC_Refers_To_Date": date,
        "WARC_Payload_Digest": digest,
    }


def random_record(numbers: random.Random) -> bytes:
    kinds = ["response", "Response", "resource", "revisit", "revisit", "Revisit", "continuation", "request"]
    kind = numbers.choice(kinds)
    block = numbers.choice([b"abc", b"def"]) if kind.lower() == "continuation" else block_of(numbers)
    digest = "sha1:" + "A" * 32 if numbers.random() < 0.05 else None
    own = {
        "WARC_Type": kind,
        "WARC_Record_ID": spelled(numbers, numbers.choice(IDS)),
        **fields_of(numbers, kind.lower()),
    }
    target = numbers.choice([*TARGETS, *TARGETS, "-"])
    return record(0, block, target, digest, date=numbers.choice(DATES), **own)


def series(numbers: random.Random) -> List[bytes]:
    """The records of a segmented one, perhaps without the last."""
    own, count = {"WARC_Record_ID": spelled(numbers, numbers.choice(IDS))}, numbers.choice([2, 3])
    first = record(0, b"abc", numbers.choice(TARGETS), date=numbers.choice(DATES), WARC_Segment_Number="1", **own)
    rest = []
    for number in range(2, count + 1):
        total = str(3 * count) if number == count else "-"
        of = {"WARC_Segment_Origin_ID": own["WARC_Record_ID"], "WARC_Segment_Total_Length": total}
        own_id = "<urn:x:%d>" % numbers.randrange(99)
        of.update(WARC_Type="continuation", WARC_Segment_Number=str(number), WARC_Record_ID=own_id)
        rest.append(record(0, b"%03d" % number, numbers.choice(TARGETS), date=DATES[0], **of))
    return [first, *rest]


def random_files(numbers: random.Random) -> List[List[bytes]]:
    """The records of some files."""
    files: List[List[bytes]] = [[] for _ in range(numbers.choice([1, 2, 3]))]
    several = [series(numbers) for _ in range(numbers.choice([0, 1, 1]))]
    for it in [*(random_record(numbers) for _ in range(numbers.randrange(4, 16))), *itertools.chain(*several)]:
        own = numbers.choice(files)
        own.insert(numbers.randrange(len(own) + 1), it)
    return [own for own in files if own]


def in_package(numbers: random.Random, records: List[bytes]) -> bytes:
    """Records as two archives of a package: in members of their own, but for some archives."""
    place, items = numbers.randrange(len(records) + 1), []
    for number, own in enumerate((records[:place], records[place:])):
        data = b"".join(own if numbers.random() < 0.1 else map(gzip.compress, own))
        items.append(Item(b"archive/%d.warc.gz" % number, data, DEFLATED if numbers.random() < 0.1 else STORED))
    return zip_of(items)


def packed(numbers: random.Random, records: List[bytes]) -> bytes:
    """Records as a file: in members of their own, but for some, or not compressed, or in a package."""
    whole, way = b"".join(records), numbers.random()
    if way < 0.2:
        return whole
    if way < 0.3:
        return in_package(numbers, records)
    members: List[bytes] = []
    for at, it in enumerate(records):
        if way > 0.6 and numbers.random() < 0.2:  # it is cut
            place = numbers.randrange(len(it))
            members += [it[:place], it[place:]]
        elif way > 0.6 and members and numbers.random() < 0.2:  # it is in the member of the record before it
            members[-1] += it
        else:
            members += [it]
        members += [b""] if numbers.random() < 0.1 else []
    padding = bytes(numbers.choice([0, 0, 1, 512]))
    return b"".join(map(gzip.compress, members)) + padding


@functools.lru_cache(maxsize=10_000)
def answered(command: str, data: bytes, arguments: Tuple[bytes, ...]) -> Tuple[bytes, int, str]:
    out, message, status = warc_reference.run(command, data, arguments)
    return out, status, message.decode().replace("warc: ", "").strip()


def answer_of(words: Sequence[str], file: IO[bytes]) -> Tuple[bytes, int, str]:
    """What the program writes over a file, its status and its message."""
    file.seek(0)
    return answered(words[0], file.read(), tuple(it.encode() for it in words[1:] if it != "-"))


class Counting(Replayer):
    """Counts what was answered by members."""

    by_members = 0

    def by_records(self, capture: Capture, files: Tuple[Known, ...]) -> Answer:
        found = super().by_records(capture, files)
        self.by_members += 1
        return found


class InProcess(Counting):
    """A replayer that asks the second reading."""

    def program(self, command: str, source: IO[bytes], position: int, options: Sequence[str] = ()) -> Any:
        out, status, message = answer_of([command, "-", str(position), *options], source)
        return io.BytesIO(out), status, message


class OfServer(Counting, Reader):
    """What a server does."""


def run_source(source: job.Source, words: List[str], out: IO[bytes]) -> Tuple[int, str]:
    assert source.seekable is not None
    written, status, message = answer_of(words[1:], source.seekable)
    out.seek(0, os.SEEK_END)
    out.write(written)
    return status, message


def instant(_warc: str, date: str) -> str:
    found = warc_reference.instant_of(date.encode())
    if found is None:
        raise BadDate("bad date")
    return "%04d-%02d-%02dT%02d:%02d:%02d.%09dZ" % found


@pytest.fixture(name="world", scope="module")
def world_fixture() -> Iterator[World]:
    """A catalogue, which is filled again and again."""
    with tempfile.TemporaryDirectory() as folder, pytest.MonkeyPatch.context() as patch:
        patch.setattr(job.Source, "run", run_source)
        patch.setattr(sample.Sample, "captures_of", lambda _self, file: answer_of(["captures", "-"], file)[0])
        patch.setattr(needed, "instant_of", instant)
        patch.setattr(replay, "instant_of", instant)
        yield World(folder)


class World:
    """A small collection, made from a seed."""

    def __init__(self, folder: str) -> None:
        self.folder = folder
        self.catalogue = Catalogue(os.path.join(folder, "catalogue"), is_made=True)
        self.catalogue.base.execute("PRAGMA synchronous = OFF")
        self.catalogue.make_tables()
        self.run = 0

    def fill(self, seed: int) -> List[int]:
        """Makes files, reads them, and keeps them alone. Returns their numbers."""
        numbers, files = random.Random(seed), []
        self.run += 1
        with self.catalogue.transaction():
            for table in ("files", "readings", "checks", "counts", "changes", *OF_A_FILE):
                self.catalogue.base.execute("DELETE FROM " + table)
            for file, records in enumerate(random_files(numbers), 1):
                self.read(file, packed(numbers, records))
                files.append(file)
        return files

    def read(self, file: int, data: bytes) -> None:
        """Reads a file as a job does, and takes in what it found."""
        path = os.path.join(self.folder, "%d.warc" % file)
        with open(path, "wb") as out:
            out.write(data)
        settings = Settings("warc", "", self.folder)
        done = job.Job(settings, job.Item(len(data), path), self.folder, self.folder).do()
        assert done.state in READ, done
        self.catalogue.insert("files", {"file": file, "path": stored_path(path), "state": "unread"})
        parts = Parts(os.path.join(self.folder, "part"), done.places)
        load_file(self.catalogue, self.run, done, parts)

    def captures(self) -> List[Capture]:
        return captures_where(self.catalogue, "1", ())

    def replayers(self) -> List[Tuple[Any, Any]]:
        """Pairs that answer by members and by whole files."""
        made: List[Tuple[Any, Any]] = []
        for stored in (False, True):
            words = self.catalogue, "warc", self.folder, stored
            made.append((InProcess(*words), InProcess(*words, True)))
        shelf = Shelf(zogwedu, "warc", self.folder, 8, 1 << 30)
        served = (OfServer(self.catalogue, "warc", shelf, is_whole=whole) for whole in (False, True))
        return [*made, (next(served), next(served))]


def fact(ask: Callable[[], List[Answer]]) -> Any:
    """What answers say, and from where."""
    try:
        return [(it.fact(), it.file and it.file.file, it.position, [file.file for file in it.files]) for it in ask()]
    except Trouble as trouble:
        return str(trouble)


def groups_of(files: Sequence[int], own: int) -> Iterator[Tuple[int, ...]]:
    """Files that are joined in front of another: none, each, and all in both orders."""
    others = [file for file in files if file != own]
    yield ()
    yield from itertools.permutations(others) if others else ()


def differences(world: World, seed: int, most: Optional[int] = None) -> Tuple[int, int, List[str]]:
    """How many answers were compared, how many of these were by members, and those that differ."""
    files, compared, found = world.fill(seed), 0, []
    pairs = world.replayers()[:most]
    for capture, pair in itertools.product(world.captures(), pairs):
        some, whole = (answers_of(it, capture, files) for it in pair)
        compared += len(some)
        found += ["%d: %r: %r, %r" % (seed, capture, *it) for it in zip(some, whole) if it[0] != it[1]]
    return compared, sum(pair[0].by_members for pair in pairs), found


def answers_of(replayer: Replayer, capture: Capture, files: Sequence[int]) -> List[Any]:
    """What a capture gives, alone and joined."""
    joined = [fact(lambda: [replayer.body(capture, it)]) for it in groups_of(files, capture.file)]
    return [fact(lambda: replayer.answers(capture)), *joined]


def test_by_members_is_by_whole_files(world: World) -> None:
    compared = by_members = 0
    for seed in range(COUNT):
        count, own, found = differences(world, seed)
        assert not found, "\n".join(found[:3])
        compared, by_members = compared + count, by_members + own
    assert by_members > compared // 4, (compared, by_members)


# Faults in the choosing of records


def captures_without(condition: str) -> Callable[..., Found]:
    """Looks for captures, but for those that meet such a condition."""
    look = Chooser.captures

    def captures(self: Chooser, files: Sequence[Known], asked: str, *more: Any) -> Found:
        return set() if condition in asked else look(self, files, asked, *more)

    return captures


def captures_by(before: str, after: str) -> Callable[..., Found]:
    """Looks for captures by another condition."""
    look = Chooser.captures
    return lambda self, files, asked, *more: look(self, files, asked.replace(before, after), *more)


def one_step(self: Chooser, files: Sequence[Known], file: int, position: int) -> Any:
    """What a revisit means isn't followed."""
    found = self.meant(files, file, position) | {(file, position)}
    return self.selection(files, found | self.continuations(files))


def of_last_file(look: Callable[..., Found]) -> Callable[..., Found]:
    """What is found in the last file alone."""
    return lambda self, files, *words: look(self, files[-1:], *words)


def last_of(look: Callable[..., Found]) -> Callable[..., Found]:
    """The last one of what is found."""
    return lambda *words: set(sorted(look(*words))[-1:])


FAULTS: Dict[str, Tuple[str, Any]] = {
    "no record with the id": ("with_id", lambda *_: set()),
    "one record with the id": ("with_id", last_of(Chooser.with_id)),
    "ids of the last file": ("with_id", of_last_file(Chooser.with_id)),
    "no pair": ("captures", captures_without("instant = ?")),
    "no payload": ("captures", captures_without("instant <= ?")),
    "no payload of the same instant": ("captures", captures_by("instant <= ?", "instant < ?")),
    "responses alone": ("captures", captures_by(", 'resource'", "")),
    "one step": ("joined", one_step),
    "no continuations": ("continuations", lambda *_: set()),
    "continuations of the last file": ("continuations", of_last_file(Chooser.continuations)),
}


@pytest.mark.parametrize("name", FAULTS)
def test_planted_faults_show(world: World, monkeypatch: pytest.MonkeyPatch, name: str) -> None:
    method, fault = FAULTS[name]
    monkeypatch.setattr(Chooser, method, fault)
    assert any(differences(world, seed, 1)[2] for seed in range(FAULTY_COUNT)), "nothing differs"


def test_ids_with_spaces_that_are_not_looked_up(world: World, monkeypatch: pytest.MonkeyPatch) -> None:
    monkeypatch.setattr(needed, "ids_like", lambda name: ids_like(name, False))
    assert any(differences(world, seed, 1)[2] for seed in range(FAULTY_COUNT)), "nothing differs"
