"""What archives answer to calls of the Python package, in the words of a script."""
from __future__ import annotations

import io
import pathlib
import types
from typing import Any, Callable, Dict, Iterator, List, NamedTuple, Optional, Tuple

import warc_reference
from cases_commands import ARCHIVE, Place, run
from cases_script import Case, ScriptError, chain, link, replaced

# The first instant that a date can name, and the last.
ENDS = (b"0000", b"9999-12-31T23:59:59.999999999Z")
Question = Tuple[bytes, bytes]


class Calls(NamedTuple):
    """The package, and the program beside it with a folder for files."""

    package: types.ModuleType
    place: Place

    @property
    def path(self) -> pathlib.Path:
        return self.place.folder / "grown.warc"

    def opened(self, data: bytes) -> Any:
        """The archive of these bytes, which may grow as its file does."""
        self.path.write_bytes(data)
        return self.package.Archive.open(self.path, mmap=False)


def facts(body: Any) -> bytes:
    """A line of what is said of a body."""
    status = "-" if body.status is None else body.status
    truncated = "yes" if body.truncated else "no"
    line = f"chosen {body.chosen} given {body.given} status {status} truncated {truncated} length {len(body)}\n"
    return line.encode()


def problem(error: Any) -> bytes:
    return f"{error.text}\n".encode()


def replayed(calls: Calls, archive: Any, uri: bytes, date: bytes) -> Tuple[bytes, bytes]:
    """What is said of a replay, and the body."""
    try:
        body = archive.replay(uri, date)
    except calls.package.NoBody as reason:
        return problem(reason), b""
    return facts(body), bytes(body)


def say_replayed(calls: Calls, case: Case) -> bytes:
    archive = calls.opened(case.archive)
    before = archive.list_text()
    said, body = replayed(calls, archive, case.word(1), case.word(2))
    lists = b"lists the same\n" if archive.list_text() == before else b"lists something else\n"
    return said + lists + body


def record_text(record: Any) -> bytes:
    """A record: its version, a line for each field, an empty one, and its block."""
    version = bytes(record.head).split(b"\r\n")[0]
    fields = [f"{name}: {value}".encode("utf-8", "surrogateescape") for name, value in record.headers.fields]
    return b"\n".join([version, *fields, b"", bytes(record.block)])


def say_record(calls: Calls, case: Case) -> bytes:
    try:
        return record_text(calls.opened(case.archive)[case.count(1)])
    except calls.package.NoRecord as reason:
        return problem(reason)


def finding_line(finding: Any) -> str:
    position = "-" if finding.position is None else str(finding.position)
    return " ".join([position, finding.number, *([finding.field] if finding.field else [])]) + "\n"


def say_checked(calls: Calls, case: Case) -> bytes:
    findings = calls.opened(case.archive).check()
    return (f"findings {len(findings)}\n" + "".join(map(finding_line, findings))).encode()


def say_returned(calls: Calls, case: Case) -> bytes:
    """The records that are made of the given lines, written, opened and taken again."""
    out = io.BytesIO()
    for line in (case.given or b"").splitlines():
        kind, uri, date, uuid, media_type, block = line.split(b" ", 5)
        calls.package.make(out, kind.decode(), uri, date, media_type, block, uuid=uuid)
    return b"".join(record_text(record) + b"\n" for record in calls.opened(out.getvalue()))


def all_of(calls: Calls, archive: Any) -> List[bytes]:
    """All that an archive answers: lists, findings, and what it gives of each record and for its target."""
    parts = [archive.list_text(), "".join(map(finding_line, archive.check())).encode()]
    for record in archive:
        target = (record.target or "").encode("utf-8", "surrogateescape")
        parts += [record_text(record), *replayed(calls, archive, target, b"9999")]
    return parts


def grow(calls: Calls, archive: Any, data: bytes) -> bytes:
    """Lets an archive grow by its file, and says why it doesn't. Then it has to answer as before."""
    before = all_of(calls, archive)
    calls.path.write_bytes(data)
    try:
        archive.grow()
    except calls.package.Changed as error:
        refusal = problem(error)
    except calls.package.Refused as error:
        refusal = problem(error) + b"all as before\n"
    else:
        refusal = b""
    if refusal and all_of(calls, archive) != before:
        return refusal + b"not all as before\n"
    return refusal + b"records %d\n" % len(archive)


def say_grown(calls: Calls, case: Case) -> bytes:
    archive = calls.opened(case.archive)
    given = case.given or b""
    if case.verb == b"grown-shorter":
        return grow(calls, archive, case.archive[: case.count(1)])
    damaged = b""
    if case.verb == b"grown-damaged":
        damaged = grow(calls, archive, case.archive + replaced(given, case.word(1), case.word(2)))
    return damaged + grow(calls, archive, case.archive + given)


def say_late(calls: Calls, case: Case) -> bytes:
    """A replay, growth, and the same replay."""
    archive, words = calls.opened(case.archive), (case.word(1), case.word(2))
    before = b"".join(replayed(calls, archive, *words))
    grown = grow(calls, archive, case.archive + (case.given or b""))
    return before + grown + b"".join(replayed(calls, archive, *words))


def grown_by_steps(calls: Calls, steps: List[bytes]) -> Any:
    """An archive of no bytes that grows by these texts, one at a time."""
    archive = calls.opened(b"")
    for step in steps:
        with open(calls.path, "ab") as file:
            file.write(step)
        archive.grow()
    return archive


def chain_steps(case: Case) -> List[bytes]:
    """The archive of a case, and the records of its chain."""
    return [case.archive, *(link(case.given or b"", number) for number in range(1, case.count(1) + 1))]


def say_from_nothing(calls: Calls, case: Case) -> bytes:
    return b"records %d\n" % len(grown_by_steps(calls, [case.archive]))


def say_chain_grown(calls: Calls, case: Case) -> bytes:
    archive = grown_by_steps(calls, chain_steps(case))
    return b"records %d\n" % len(archive) + b"".join(replayed(calls, archive, case.word(2), case.word(3)))


def say_chain_answers(calls: Calls, case: Case) -> bytes:
    """How many bodies and blocks an archive and its chain give, and how often each reason why there is no body."""
    grown = all_of(calls, grown_by_steps(calls, chain_steps(case)))
    archive = calls.opened(b"".join(chain_steps(case)))
    parts = all_of(calls, archive)
    said = parts[3::3]
    counts = {b"bodies": sum(line.startswith(b"chosen ") for line in said), b"blocks": len(archive)}
    for number in range(1, 11):
        reasons = sum(line.startswith(b"P%d " % number) for line in said)
        counts.update({b"P%d" % number: reasons} if reasons else {})
    other = b"" if grown == parts else b"another answer where it grows\n"
    return other + b"".join(b"%s %d\n" % pair for pair in counts.items())


def instants(dates: Iterator[bytes]) -> List[bytes]:
    """Dates of which each names another instant."""
    found: Dict[Optional[warc_reference.Instant], bytes] = {}
    for date in dates:
        found.setdefault(warc_reference.instant_of(date), date)
    return [date for instant, date in found.items() if instant is not None]


def own_questions(data: bytes) -> List[Question]:
    """Each target of an archive as of each of its dates, and as of the first and the last instant of all."""
    records = warc_reference.Archive(data).records
    targets = dict.fromkeys(record.target_of() or b"" for record in records)
    dates = instants(iter((*ENDS, *(record.stated("WARC-Date") for record in records))))
    return [(target, date) for target in targets for date in dates]


def questions_of(case: Case, index: int, data: bytes) -> List[Question]:
    """The dates that a word names, with commas between them, for the targets after it; `-` is the empty one."""
    if len(case.words) <= index:
        return own_questions(data)
    targets = [b"" if word == b"-" else case.word(place) for place, word in enumerate(case.words)][index + 1 :]
    return [(target, date) for target in targets for date in instants(iter(case.words[index].split(b",")))]


def asked(calls: Calls, data: bytes, questions: List[Question]) -> List[Tuple[bytes, bytes]]:
    archive = calls.package.Archive(data)
    return [replayed(calls, archive, target, date) for target, date in questions]


def moved(calls: Calls, data: bytes, questions: List[Question]) -> bytes:
    """How many answers have a body, or which move to WARC 1.1 changes one."""
    before = asked(calls, data, questions)
    out = io.BytesIO()
    calls.package.Archive(data).convert(out)
    if asked(calls, out.getvalue(), questions) != before:
        return b"another answer once it is moved by the library\n"
    (calls.place.folder / ARCHIVE.decode()).write_bytes(data)
    ended = run(calls.place, [b"convert", ARCHIVE])
    if ended.status or ended.message or asked(calls, ended.out, questions) != before:
        return b"another answer once it is moved by the command\n"
    bodies = sum(said.startswith(b"chosen ") for said, _ in before)
    return b"bodies %d of %d\n" % (bodies, len(questions))


def say_moved(calls: Calls, case: Case) -> bytes:
    if case.verb == b"moved":
        return moved(calls, case.archive, questions_of(case, 1, case.archive))
    data = chain(case.archive, case.given or b"", case.count(1))
    return moved(calls, data, questions_of(case, 2, data))


# What answers each verb, and which verbs read the given text.
VERBS: Dict[bytes, Callable[[Calls, Case], bytes]] = {
    b"replayed": say_replayed,
    b"record": say_record,
    b"checked": say_checked,
    b"returned": say_returned,
    b"grown": say_grown,
    b"grown-shorter": say_grown,
    b"grown-damaged": say_grown,
    b"replayed-late": say_late,
    b"listed-from-nothing": say_from_nothing,
    b"chain-grown": say_chain_grown,
    b"chain-answers": say_chain_answers,
    b"moved": say_moved,
    b"chain-moved": say_moved,
}
WITHOUT_TEXT = (b"replayed", b"record", b"checked", b"grown-shorter", b"listed-from-nothing", b"moved")


def answer(calls: Calls, case: Case) -> bytes:
    """What a case answers."""
    if case.given is not None and case.verb in WITHOUT_TEXT:
        raise ScriptError(f"{case.id}: nothing reads the given text")
    return VERBS[case.verb](calls, case)
