#!/usr/bin/env python3
"""report.py ARCHIVE: what the Python package gives of an archive, in the form that compare.py compares."""
import sys
from functools import partial
from typing import Callable, List

import zogwedu


def body_text(ask: Callable[[], zogwedu.Body]) -> bytes:
    """The facts and the bytes of a body, or why there is none."""
    try:
        body = ask()
    except zogwedu.WarcError as error:
        return f"{error}\n".encode()
    truncated = "yes" if body.truncated else "no"
    places = f"chosen {body.chosen} given {body.given} status {body.status or '-'}"
    facts = f"{places} truncated {truncated} length {len(body)}\n"
    return facts.encode() + bytes(body) + b"\n"


def to_bytes(text: str) -> bytes:
    """The bytes of a record's text."""
    return text.encode("utf-8", "surrogateescape")


def row_text(record: zogwedu.Record) -> bytes:
    """The line of `warc list`, made of a record."""
    columns = (record.type, record.date, record.id, record.target or "-")
    front = f"{record.position}\t{record.offset}\t{len(record.block)}\t".encode()
    return front + b"\t".join(to_bytes(column) for column in columns) + b"\n"


def finding_text(finding: zogwedu.Finding) -> bytes:
    """The line of `warc check`, made of a finding."""
    words = ("-" if finding.position is None else str(finding.position), finding.number, finding.field)
    return " ".join(word for word in words if word).encode() + b"\n"


def fixity_text(fixity: zogwedu.Fixity) -> bytes:
    """The lines of `warc fixity`, made of what was found."""
    lines = [f"{it.position}\t{it.verdict}\t{it.id}\t{it.digest or '-'}\n" for it in fixity.blocks]
    counts = f"records {fixity.records} good {fixity.good} bad {fixity.bad} unchecked {fixity.unchecked}\n"
    return to_bytes("".join(lines) + counts)


def counts_text(records: int, verdicts: List[str]) -> str:
    """The last line of `warc fixity`, made of verdicts."""
    counts = " ".join(f"{name} {verdicts.count(name)}" for name in ("good", "bad", "unchecked"))
    return f"records {records} {counts}\n"


def stated_text(archive: zogwedu.Archive) -> bytes:
    """The lines of `warc fixity` without ids and digests, made of the verdicts on single records."""
    verdicts = [archive.stated_verdict(position) for position in range(len(archive))]
    lines = [f"{position}\t{verdict}\n" for position, verdict in enumerate(verdicts) if verdict != "good"]
    return ("".join(lines) + counts_text(len(verdicts), verdicts)).encode()


def payloads_text(archive: zogwedu.Archive) -> bytes:
    """The same of `warc fixity --payload`."""
    asked = [(position, archive.payload_verdict(position)) for position in range(len(archive))]
    judged = [(position, it) for position, it in asked if it is not None]
    lines = [f"{at}\t{it.verdict}\t{it.reason or '-'}\n" for at, it in judged if it.verdict != "good"]
    return ("".join(lines) + counts_text(len(judged), [it.verdict for _, it in judged])).encode()


def fields_text(headers: zogwedu.Headers) -> bytes:
    """The fields of a head."""
    return to_bytes("".join(f"{name}\t{value}\n" for name, value in headers.fields))


def heads_text(record: zogwedu.Record) -> bytes:
    """The fields of a record's head, and what its HTTP head says."""
    parts = [f"== fields {record.position}\n".encode(), fields_text(record.headers)]
    http = record.http
    if http is not None:
        line = f"== http {record.position}\n{http.version} {http.status} {http.reason}\t{http.length}\n"
        parts += [to_bytes(line), fields_text(http.headers), http.stored, b"\n"]
    return b"".join(parts)


def piece_text(piece: zogwedu.Piece) -> str:
    """The line of `warc pieces`, made of a piece."""
    if piece.fault is None:
        return f"records\t{piece.offset}\t{piece.length}\t{piece.count}\n"
    return f"damage\t{piece.offset}\t{piece.length}\t{piece.fault}\n"


def report(path: str, **how: bool) -> bytes:
    """The whole report of an archive."""
    pieces = "== pieces\n" + "".join(map(piece_text, zogwedu.pieces(path, **how)))
    try:
        archive = zogwedu.Archive.open(path, **how)
    except zogwedu.Refused as error:
        return f"{pieces}== refused\n{error}\n".encode()
    with archive:
        parts = [pieces.encode(), b"== list\n", archive.list_text(), b"== rows\n", *map(row_text, archive)]
        parts += [b"== check\n", *map(finding_text, archive.check()), b"== fixity\n", fixity_text(archive.fixity())]
        parts += [b"== verdicts\n", *(f"{record.position} {record.verdict}\n".encode() for record in archive)]
        parts += [b"== stated\n", stated_text(archive), b"== payloads\n", payloads_text(archive)]
        for record in archive:
            parts += [f"== body {record.position}\n".encode(), body_text(record.body)]
            if record.target:
                replay = body_text(partial(archive.replay, record.target, record.date))
                parts += [f"== replay {record.position}\n".encode(), replay]
        parts += map(heads_text, archive)
    return b"".join(parts)


if __name__ == "__main__":
    sys.stdout.buffer.write(report(sys.argv[1]))
