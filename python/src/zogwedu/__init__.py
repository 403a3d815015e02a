"""WARC archives, read by proved code.

    >>> import zogwedu
    >>> archive = zogwedu.Archive.open("examples/crawl.warc")
    >>> len(archive)
    18
    >>> archive[2].type, archive[2].target
    ('response', 'http://127.0.0.1:8765/')
    >>> archive[2].headers["warc-date"], archive[2].http.status, archive[2].http.headers["content-type"]
    ('2026-11-26T04:48:36Z', 200, 'text/html')
    >>> body = archive.replay("http://127.0.0.1:8765/", "2026-11-26T04:49Z")
    >>> body.status, body.chosen, len(body)
    (200, 2, 94)
    >>> archive.check()
    [Finding(position=13, number='N4', field=None), Finding(position=15, number='N4', field=None)]
    >>> archive.close()

An archive is a file of records, which is mapped into memory. Heads, blocks and bodies are memoryviews of that memory:
nothing is copied. A file that gzip or zstd compressed is decompressed first, into a file without a name. The library
refuses an archive if any of its records is damaged, and says which rule is broken, and at which byte:

    >>> zogwedu.Archive.open("examples/damaged.warc")
    Traceback (most recent call last):
      ...
    zogwedu.Refused: F10 End at 274
    >>> with zogwedu.Archive.open("examples/damaged.warc", front=True) as front:
    ...     len(front), str(front.fault)
    (0, 'F10 End at 274')

A read of a mapped file that fails kills the process by SIGBUS: where the file became shorter, and where its disk or
network fails. `Archive.open(path, mmap=False)` reads the file into memory.

`Archive` opens, lists, checks, replays and writes; `Record` is one of its records, with `Headers` and `Http`; `Body` is
what a replay gives; `PayloadVerdict` says how a payload compares with its digest; `make` writes a new record. `pieces`
gives the runs of good records of a damaged file, and the damage between them, each a `Piece`; `salvage` writes all good
records, and says by `Salvaged` what was left out. `Wacz` is a package, whose archives `Archive.open` opens as one, with
a `Resource` for each file and a `Page` for each page that it lists; `entry_point` says by an `Entry` as of when a page
is to be replayed. The exceptions are all a `WarcError`:

- `Refused`: the archive is refused, F1 to F14 at an offset.
- `CompressedError`: the file is compressed, and damaged or torn at the offset of a member; or a package is refused.
- `Changed`: bytes aren't what they were when the archive was opened.
- `NoBody`: there is no body, P1 to P10. `Undecodable`: it can't be decoded.
- `NoRecord`: there is no record at the position; it is an `IndexError`.
- `BadDate`: a text is no date; it is a `ValueError`.
- `NotMade`: no record can be made of these, M1 to M5. `WriteFailed`: a write failed, after `sent` bytes.
- `Closed`: the archive is closed. `ViewsAlive`: it can't be closed while views are in use.

What is proved is the library below this package. This package, the interpreter, the decompression of files and the
undoing of codings (`decoded=True`) are not.
"""
from ._archive import Archive, Body, Finding, Fixity, PayloadVerdict, Record, UnfitBlock
from ._heads import Headers, Http
from ._packages import Entry, Wacz, entry_point
from ._pieces import Piece, Salvaged, pieces, salvage
from ._problems import (
    BadDate,
    Changed,
    Closed,
    CompressedError,
    NoBody,
    NoRecord,
    NotMade,
    Refused,
    Undecodable,
    ViewsAlive,
    WarcError,
    WriteFailed,
)
from ._wacz import Page, Resource
from ._writing import make

__all__ = [
    "Archive",
    "BadDate",
    "Body",
    "Changed",
    "Closed",
    "CompressedError",
    "Entry",
    "Finding",
    "Fixity",
    "Headers",
    "Http",
    "NoBody",
    "NoRecord",
    "NotMade",
    "Page",
    "PayloadVerdict",
    "Piece",
    "Record",
    "Refused",
    "Resource",
    "Salvaged",
    "Undecodable",
    "UnfitBlock",
    "ViewsAlive",
    "Wacz",
    "WarcError",
    "WriteFailed",
    "entry_point",
    "make",
    "pieces",
    "salvage",
]
__version__ = "0.3.0"

for _name in __all__:
    globals()[_name].__module__ = __name__  # so that help() and tracebacks name them as callers do
