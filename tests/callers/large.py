#!/usr/bin/env python3
"""Opens a mapped archive of 5 GB, and prints what that takes.

Usage: large.py FOLDER

The file is sparse: it takes no room on most file systems.
"""
import os
import resource
import sys
import time

import zogwedu

BLOCK = 5 << 30
HEAD = (
    "WARC/1.1\r\nWARC-Type: resource\r\nWARC-Record-ID: <urn:uuid:00000000-0000-4000-8000-00000000000{}>\r\n"
    "WARC-Date: 2020-01-01T00:00:00Z\r\nWARC-Target-URI: http://a.example/{}\r\nContent-Length: {}\r\n\r\n"
)


def make(path: str) -> None:
    """Writes an archive of a record with 5 GB, and a small one after it."""
    with open(path, "wb") as file:
        file.write(HEAD.format(1, 1, BLOCK).encode())
        file.seek(BLOCK - 1, os.SEEK_CUR)
        file.write(b"x\r\n\r\n" + HEAD.format(2, 2, 3).encode() + b"abc\r\n\r\n")


def main(folder: str) -> None:
    """Makes the file, opens it, and asks it."""
    path = os.path.join(folder, "large.warc")
    make(path)
    try:
        begun = time.monotonic()
        with zogwedu.Archive.open(path) as archive:
            seconds = time.monotonic() - begun
            assert len(archive) == 2 and len(archive[0].block) == BLOCK
            assert bytes(archive[0].block[-3:]) == b"\0\0x" and bytes(archive[1].block) == b"abc"
            body = archive.replay("http://a.example/1", "2021")
            assert len(body) == BLOCK and bytes(body.data[-1:]) == b"x"
            assert bytes(archive.replay("http://a.example/2", "2021")) == b"abc"
    finally:
        os.remove(path)
    most = resource.getrusage(resource.RUSAGE_SELF).ru_maxrss >> 10
    print(f"5 GB opened in {seconds:.1f} s, at most {most} MiB resident, pages of the file among them")


if __name__ == "__main__":
    main(sys.argv[1])
