"""Room for what is unpacked. Small archives may hold much: the jobs of a machine unpack a limited number of bytes at
once, and leave some of the disk to others."""
from __future__ import annotations

import fcntl
import os
import socket
from typing import IO, List, Optional, Sequence

# What is left of a disk, at most: a part of it, or a number of bytes.
LEFT_PART = 20
LEFT_BYTES = 256 << 20


class Full(Exception):
    """There is no more room for what is unpacked."""


class Room:
    """Half of the room is shared by all jobs alike. Of the other half one job at a time has all, so that a large file
    waits for another large file, and for nothing else."""

    def __init__(self, folder: Optional[str], most: int, jobs: int) -> None:
        self.most = most
        self.share = most // (2 * jobs)
        self.path = None if folder is None else os.path.join(folder, "large." + socket.gethostname())
        self.lock: Optional[IO[str]] = None
        self.taken = 0
        self.why = ""

    def take(self, count: int, out: IO[bytes]) -> None:
        """Takes room before bytes are written to a file."""
        self.taken += count
        if self.path is not None and self.taken > self.share and self.lock is None:
            self.lock = open(self.path, "a", encoding="ascii")
            fcntl.flock(self.lock, fcntl.LOCK_EX)
        if self.path is not None and self.taken > self.share + self.most // 2:
            self.why = "it holds more than %d bytes: see --unpacked" % (self.share + self.most // 2)
            raise Full
        disk = os.fstatvfs(out.fileno())
        left = min(disk.f_blocks * disk.f_frsize // LEFT_PART, LEFT_BYTES)
        if disk.f_bavail * disk.f_frsize < count + left:
            raise Full

    def release(self) -> None:
        """Gives the room back."""
        self.taken = 0
        if self.lock is not None:
            self.lock.close()
            self.lock = None


def full_folders(folders: Sequence[str]) -> List[str]:
    """The folders on disks that are nearly full."""
    found = []
    for folder in dict.fromkeys(folders):
        try:
            disk = os.statvfs(folder)
        except OSError:
            continue
        if disk.f_bavail * disk.f_frsize < min(disk.f_blocks * disk.f_frsize // LEFT_PART, LEFT_BYTES):
            found.append(folder)
    return found
