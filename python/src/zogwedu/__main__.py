"""python -m zogwedu unpack [--stored] ARCHIVE FOLDER: writes the bodies of an archive as files.

python -m zogwedu pieces ARCHIVE: prints which parts of an archive, compressed or not, are whole.

python -m zogwedu salvage ARCHIVE OUT: writes all good records of an archive, compressed or not, to a new file.

python -m zogwedu wacz FILE: prints the archives of a package, the verdicts on its files, and its pages.

python -m zogwedu join FILE: writes what the archives of a package hold, one after another, to standard output.

python -m zogwedu cdxj [--cdx11] ARCHIVE: prints an index of its captures, in CDXJ or in CDX with eleven fields.
"""
import os
import sys
from typing import BinaryIO, List, NamedTuple, Sequence, Union

from . import Archive, Body, CompressedError, NoBody, Record, Refused, Undecodable, WarcError
from . import pieces, salvage
from ._cdxj import HEAD_11, is_fit, line_11_of, line_of
from ._indexed import indexed
from ._library import CODED
from ._packages import run

USAGE = """usage: python -m zogwedu unpack [--stored] ARCHIVE FOLDER
       python -m zogwedu pieces ARCHIVE
       python -m zogwedu salvage ARCHIVE OUT
       python -m zogwedu wacz [--verdicts] FILE
       python -m zogwedu join FILE
       python -m zogwedu cdxj [--cdx11] ARCHIVE"""
CAPTURES = ("response", "resource", "revisit")
COLUMNS = ("position", "file", "given", "status", "length", "coding", "type", "date", "target", "reason")


class Unpacked(NamedTuple):
    """What is written of a capture: columns of the index."""

    file: str = "-"
    given: str = "-"
    status: str = "-"
    length: str = "-"
    coding: str = "-"
    reason: str = "-"


def shown(text: str) -> bytes:
    """A text as a column: without tabs and line ends."""
    clean = text.replace("\\", "\\\\").replace("\t", "\\t").replace("\n", "\\n").replace("\r", "\\r")
    return clean.encode("utf-8", "surrogateescape")


def write_parts(path: str, parts: Sequence[memoryview]) -> int:
    """Writes bytes to a new file, and answers how many they are. No view of them is left when this returns."""
    length = 0
    with open(path, "xb") as file:
        for part in parts:
            length += file.write(part)
    return length


def write_body(folder: str, record: Record, body: Body) -> Unpacked:
    """Writes a body, whose codings are undone if it has any."""
    name = f"{record.position}.body"
    length = write_parts(os.path.join(folder, name), body.parts)
    coding = " ".join(("undone", *body.undone)) if body.undone else "-"
    return Unpacked(name, str(body.given), str(body.status or "-"), str(length), coding)


def write_stored(folder: str, record: Record, archive: Archive, reason: NoBody) -> Unpacked:
    """Writes a coded body as it is stored."""
    origin = archive[reason.given] if reason.given is not None else record
    http = origin.http
    if reason.code != CODED or http is None or origin.headers.get("WARC-Segment-Number"):
        raise reason
    name = f"{record.position}.body"
    length = write_parts(os.path.join(folder, name), [http.stored])
    return Unpacked(name, str(origin.position), str(http.status), str(length), "stored")


def unpack_record(folder: str, record: Record, archive: Archive, stored: bool) -> Unpacked:
    """Writes the body that a capture gives, if it gives one."""
    try:
        try:
            return write_body(folder, record, record.body(decoded=not stored))
        except NoBody as reason:
            if not stored:
                raise
            return write_stored(folder, record, archive, reason)
    except (NoBody, Undecodable) as error:
        return Unpacked(reason=error.text)


def write_line(index: BinaryIO, columns: Sequence[str]) -> None:
    """Writes a line of the index."""
    index.write(b"\t".join(shown(column) for column in columns) + b"\n")


def unpack(path: str, folder: str, stored: bool) -> int:
    """Writes POSITION.body for each capture that has a body, and index.tsv; answers how many bodies there are.

    A name never comes from a URI. A folder that exists is refused. The codings of a coded body are undone, and the
    column `coding` says which; with `stored` it is written as it is stored. A body that can't be decoded has its reason
    in the index and no file.
    """
    count = 0
    with Archive.open(path) as archive:
        os.mkdir(folder)
        with open(os.path.join(folder, "index.tsv"), "xb") as index:
            write_line(index, COLUMNS)
            for record in archive:
                if record.type.lower() not in CAPTURES:
                    continue
                it = unpack_record(folder, record, archive, stored)
                count += it.file != "-"
                front = (str(record.position), it.file, it.given, it.status, it.length, it.coding)
                write_line(index, (*front, record.type, record.date, record.target or "-", it.reason))
    return count


def said_of(fault: Union[Refused, CompressedError, None]) -> str:
    """What is said of a damage: of compressed bytes its length there, too."""
    if isinstance(fault, CompressedError):
        return f"{fault}, {fault.length} compressed bytes"
    return str(fault)


def put_pieces(path: str) -> int:
    """Prints the pieces of an archive, as `warc pieces` does; answers the exit status."""
    found = pieces(path)
    for it in found:
        kind, about = ("records", it.count) if it.fault is None else ("damage", said_of(it.fault))
        print(kind, it.offset, it.length, about, sep="\t")
    sys.stdout.flush()
    return 2 if any(it.fault is not None for it in found) else 0


def save(path: str, out: str) -> int:
    """Writes all good records of an archive to a new file, or to standard output for `-`, and says what is left out;
    answers the exit status."""
    if out == "-":
        with open(sys.stdout.fileno(), "wb", buffering=0, closefd=False) as standard:
            salvaged = salvage(path, standard)
    else:
        with open(out, "xb") as file:
            salvaged = salvage(path, file)
    for damage in salvaged.damage:
        print(f"zogwedu: damage {damage.offset} {damage.length} {said_of(damage.fault)}", file=sys.stderr)
    said = f"{salvaged.records} records, {salvaged.length} bytes"
    print(f"zogwedu: salvaged {said}" if out == "-" else said, file=sys.stderr if out == "-" else sys.stdout)
    return 2 if salvaged.damage else 0


def good_parts(words: List[str]) -> int:
    """Does `pieces` and `salvage`; answers the exit status."""
    try:
        return put_pieces(words[1]) if words[0] == "pieces" else save(words[1], words[2])
    except (WarcError, OSError, ValueError) as error:
        print(f"zogwedu: {error}", file=sys.stderr)
        return 3


def put_index(path: str, has_11: bool) -> int:
    """Prints an index, and says how many captures it leaves out; answers the exit status."""
    if has_11 and not is_fit(os.path.basename(path)):
        raise OSError(f"{os.path.basename(path)!r} can't be a field of CDX")
    found = indexed(path)
    lines = sorted(map(line_11_of if has_11 else line_of, found.entries))
    sys.stdout.writelines([HEAD_11, *lines] if has_11 else lines)
    if found.left_out:
        print(f"zogwedu: {found.left_out} captures without a member of gzip of their own are left out", file=sys.stderr)
    return 1 if found.left_out else 0


def index_command(words: List[str]) -> int:
    """Does `cdxj`; answers the exit status."""
    has_11 = words[:1] == ["--cdx11"]
    try:
        return put_index(words[-1], has_11)
    except (CompressedError, OSError) as error:
        print(f"zogwedu: {error}", file=sys.stderr)
        return 3
    except WarcError as error:
        print(f"zogwedu: {error}", file=sys.stderr)
        return 2


def main(words: List[str]) -> int:
    """Runs the command, and answers the exit status: 0, 2 for an archive that is refused, 3 for anything else."""
    status = run(words)
    if status is not None:
        return status
    if words[:1] == ["cdxj"] and len(words) == 2 + (words[1:2] == ["--cdx11"]):
        return index_command(words[1:])
    if {"pieces": 2, "salvage": 3}.get("".join(words[:1])) == len(words):
        return good_parts(words)
    stored = words[1:2] == ["--stored"]
    rest = words[2:] if stored else words[1:]
    if words[:1] != ["unpack"] or len(rest) != 2:
        print(USAGE, file=sys.stderr)
        return 3
    try:
        count = unpack(rest[0], rest[1], stored)
    except (CompressedError, OSError) as error:
        print(f"zogwedu: {error}", file=sys.stderr)
        return 3
    except WarcError as error:
        print(f"zogwedu: {error}", file=sys.stderr)
        return 2
    print(f"{count} bodies")
    return 0


if __name__ == "__main__":
    sys.exit(main(sys.argv[1:]))
