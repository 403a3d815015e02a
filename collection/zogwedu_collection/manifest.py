"""Lists of checksums: those that sha256sum, md5sum and the like write, and the manifests of BagIt (RFC 8493). A file is
altered if its bytes don't have the checksum that a list of the collection states."""
from __future__ import annotations

import os
import re
from typing import IO, Dict, Iterator, Mapping, NamedTuple, Tuple

from .catalogue import Catalogue
from .disk import written
from .job import Outcome
from .texts import counted, escaped, now, path_bytes, shown, stored_path

# The algorithms by the number of their hexadecimal digits, and by the names that --tag and BagIt give them.
ALGORITHMS = {32: "md5", 40: "sha1", 64: "sha256", 128: "sha512"}
NAMES = {"md5": "MD5", "sha1": "SHA-1", "sha256": "SHA-256", "sha512": "SHA-512"}
OF_BAGIT = re.compile(r"manifest-([0-9A-Za-z]+)\.txt")
# The lines of sha256sum, those that it writes with --tag, and those of BagIt.
SUM = re.compile(rb"(\\?)([0-9A-Fa-f]+) [ *](.+)", re.DOTALL)
TAGGED = re.compile(rb"(\\?)(MD5|SHA1|SHA256|SHA512) \((.+)\) = ([0-9A-Fa-f]+)", re.DOTALL)
BAG = re.compile(rb"([0-9A-Fa-f]+)[ \t]+\*?([^ \t].*)", re.DOTALL)
ESCAPES = {b"\\\\": b"\\", b"\\n": b"\n", b"\\r": b"\r"}
PERCENT = re.compile(rb"%(0[ADad]|25)")
# How much of a bad line is shown.
MOST_SHOWN = 100


class BadLine(ValueError):
    """A line that states no checksum."""


class Line(NamedTuple):
    """What a line states: the name of a file, an algorithm, and a checksum in small hexadecimal digits."""

    name: bytes
    algorithm: str
    digest: str


def read_manifest(path: str) -> Dict[Tuple[str, str], str]:
    """The checksums that a list states, by paths and algorithms. Relative names are of the folder of the list. A
    BadLine names the line."""
    with open(path, "rb") as file:
        data = file.read()
    bag, folder = OF_BAGIT.fullmatch(os.path.basename(path)), os.path.dirname(os.path.abspath(path))
    has_zeros = b"\0" in data
    lines = data.splitlines() if bag else data.split(b"\0" if has_zeros else b"\n")
    found: Dict[Tuple[str, str], str] = {}
    for number, line in enumerate(lines, 1):
        if not line or (line.startswith(b"#") and not bag):
            continue
        try:
            it = bag_line(line, bag[1].lower()) if bag else sum_line(line, has_zeros)
            key = os.path.abspath(os.path.join(folder, os.fsdecode(it.name))), it.algorithm
            if found.setdefault(key, it.digest) != it.digest:
                raise BadLine("another checksum than in a line before")
        except BadLine as error:
            raise BadLine("line %d: %s: %s" % (number, error, escaped(line[:MOST_SHOWN]))) from None
    return found


def line_of(name: bytes, digest: bytes, algorithm: str = "") -> Line:
    """What a line states, if the length of the checksum is that of its algorithm."""
    found = ALGORITHMS.get(len(digest))
    if found is None or algorithm not in ("", found):
        raise BadLine("not the length of a checksum")
    return Line(name, found, digest.decode("ascii").lower())


def sum_line(line: bytes, has_zeros: bool) -> Line:
    """A line of sha256sum and the like. Where it begins with a backslash its name has escapes."""
    plain, tagged = SUM.fullmatch(line), TAGGED.fullmatch(line)
    if plain is not None:
        mark, digest, name = plain.groups()
        it = line_of(name, digest)
    elif tagged is not None:
        mark, algorithm, name, digest = tagged.groups()
        it = line_of(name, digest, algorithm.decode("ascii").lower())
    else:
        raise BadLine("not a checksum and a name")
    return it._replace(name=without_escapes(it.name)) if mark and not has_zeros else it


def without_escapes(name: bytes) -> bytes:
    """A name as it is, of one that sha256sum has escaped."""
    parts = re.findall(rb"\\.?|[^\\]+", name, re.DOTALL)
    if any(part.startswith(b"\\") and part not in ESCAPES for part in parts):
        raise BadLine("not an escape that sha256sum writes")
    return b"".join(ESCAPES.get(part, part) for part in parts)


def bag_line(line: bytes, algorithm: str) -> Line:
    """A line of a manifest of BagIt, in which a line end and a percent sign of a name are escaped. No name leads out of
    the bag."""
    found = BAG.fullmatch(line)
    if found is None or algorithm not in NAMES:
        raise BadLine("not a checksum and a name" if found is None else "an unknown algorithm, %s" % algorithm)
    name = PERCENT.sub(lambda it: bytes([int(it[1], 16)]), found[2])
    if name.startswith((b"/", b"~")) or os.path.normpath(name).split(b"/")[0] == b"..":
        raise BadLine("a name outside of the bag")
    return line_of(name, found[1], algorithm)


def note_stated(catalogue: Catalogue, manifest: str, stated: Mapping[Tuple[str, str], str]) -> int:
    """Keeps what a list states of the files of the catalogue. What it stated before and states no more is dropped.
    Returns how many checksums are of no file of the catalogue."""
    name = stored_path(manifest)
    rows = catalogue.rows("SELECT file, algorithm, digest FROM stated WHERE manifest = ?", (name,))
    files = {path_bytes(path): file for file, path in catalogue.rows("SELECT file, path FROM files")}
    wanted = {
        (files[os.fsencode(path)], algorithm): digest
        for (path, algorithm), digest in stated.items()
        if os.fsencode(path) in files
    }
    before = {(file, algorithm): digest for file, algorithm, digest in rows}
    drop = "DELETE FROM stated WHERE file = ? AND algorithm = ? AND manifest = ?"
    other = [key for key, digest in before.items() if wanted.get(key) != digest]
    catalogue.base.executemany(drop, ((*key, name) for key in other))
    new = ((*key, name, wanted[key], now()) for key in wanted if before.get(key) != wanted[key])
    put = "INSERT INTO stated (file, algorithm, manifest, digest, stated_on) VALUES (?, ?, ?, ?, ?)"
    catalogue.base.executemany(put, new)
    return len(stated) - len(wanted)


def algorithms_stated(catalogue: Catalogue) -> Dict[int, Tuple[Tuple[str, ...], bool]]:
    """Which algorithms are stated of a file, and whether its bytes were compared with all that is stated."""
    found: Dict[int, Tuple[Tuple[str, ...], bool]] = {}
    for file, algorithm, is_compared in catalogue.rows("SELECT file, algorithm, found IS NOT NULL FROM stated"):
        algorithms, are_compared = found.get(file, ((), True))
        found[file] = (*algorithms, algorithm), are_compared and bool(is_compared)
    return found


def compare_stated(catalogue: Catalogue, file: int, outcome: Outcome) -> bool:
    """Corrects the state of a file whose bytes don't have a checksum that is stated. Returns whether it is so."""
    if outcome.state in ("failed", "changing"):
        return False
    wrong = []
    query = "SELECT algorithm, manifest, digest, accepted FROM stated WHERE file = ? ORDER BY algorithm, manifest"
    for algorithm, manifest, digest, accepted in catalogue.rows(query, (file,)):
        found = outcome.digests.get(algorithm)
        if found is None:
            continue
        put = "UPDATE stated SET found = ? WHERE file = ? AND algorithm = ? AND manifest = ?"
        catalogue.base.execute(put, (found, file, algorithm, manifest))
        if found not in (digest, accepted):
            wrong.append("its %s isn't that in %s" % (NAMES[algorithm], escaped(manifest)))
    if wrong and outcome.state == "altered":
        outcome.detail = "; ".join([*wrong, outcome.detail])
    elif wrong and outcome.state != "rotten":
        own = [] if outcome.state == "good" else ["%s: %s" % (outcome.state, outcome.detail)]
        outcome.state, outcome.detail = "altered", "; ".join([*wrong, *own])
    return bool(wrong)


# The SHA-256 that a file has to have: of an altered one that of its reading before.
KNOWN_DIGESTS = (
    "SELECT path, CASE state WHEN 'altered' THEN found_sha256 ELSE coalesce(sha256, found_sha256) END"
    " FROM files LEFT JOIN readings USING (file) WHERE state <> 'gone' ORDER BY path"
)


def sums_of(catalogue: Catalogue) -> Iterator[Tuple[bytes, str]]:
    """The names of the files, each with its SHA-256, or an empty text where that isn't known."""
    return ((path_bytes(path), sha256 or "") for path, sha256 in catalogue.base.execute(KNOWN_DIGESTS))


def put_sum(out: IO[bytes], name: bytes, digest: str) -> None:
    """Writes a line as sha256sum does."""
    is_escaped = b"\\" in name or b"\n" in name
    mark, name = (b"\\", name.replace(b"\\", b"\\\\").replace(b"\n", b"\\n")) if is_escaped else (b"", name)
    out.write(mark + digest.encode("ascii") + b"  " + name + b"\n")


def write_manifest(catalogue: Catalogue, path: str) -> int:
    """Writes a list that `sha256sum --check` reads. Returns how many files have no SHA-256."""
    unknown = 0
    with written(path) as out:
        for name, digest in sums_of(catalogue):
            if digest:
                put_sum(out, name, digest)
            else:
                unknown += 1
    return unknown


def told_unknown(path: str, unknown: int) -> str:
    """What is said of files that aren't in a list."""
    return "%s: %s without a SHA-256: a run with --digest finds it" % (shown(path), counted(unknown, "file"))
