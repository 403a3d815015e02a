"""Files: opened without waiting, known by what the system says of them, and written so that a power cut leaves the old
bytes or the new ones."""
from __future__ import annotations

import contextlib
import dataclasses
import errno
import os
import re
import stat
import tempfile
import time
from typing import IO, Iterator, Optional

LOCAL_DISKS = ("bcachefs", "btrfs", "ext2", "ext3", "ext4", "f2fs", "jfs", "tmpfs", "xfs", "zfs")


# A file that was modified less than this many nanoseconds before it was seen may be modified again in what its disk
# takes for the same moment: FAT has two seconds.
DOUBTFUL = 2 * 10**9


@dataclasses.dataclass(frozen=True)
class Stamp:
    """What shows that a file is the same as before: its size, its last changes in nanoseconds, its inode; and when that
    was seen, where that is known."""

    size: int
    modified: int
    changed: int
    inode: int
    seen: Optional[int] = dataclasses.field(default=None, compare=False)

    def is_of(self, now: Stamp) -> bool:
        """Whether a file that had this stamp is still the same. Its size and the time of its modification decide: a
        hard link, another owner or another mount change the rest. The rest decides where the file was modified just
        before it was seen, or where it isn't known when that was."""
        is_same = (self.size, self.modified) == (now.size, now.modified)
        is_doubtful = self.seen is None or self.modified > self.seen - DOUBTFUL
        return is_same and (not is_doubtful or (self.changed, self.inode) == (now.changed, now.inode))


def stamp_of(status: os.stat_result) -> Stamp:
    numbers = status.st_mtime_ns, status.st_ctime_ns, status.st_ino, time.time_ns()
    return Stamp(status.st_size, *map(signed, numbers))


def signed(number: int) -> int:
    """A number as databases keep it: the last 64 bits, the first of which is the sign. Some file systems have inodes
    that need all of them, and times may be later than 2262."""
    number %= 1 << 64
    return number - (1 << 64) if number >> 63 else number


def is_regular(path: str) -> bool:
    """Whether a path leads to a regular file: no folder, pipe, socket or device."""
    return stat.S_ISREG(os.stat(path).st_mode)


def open_regular(path: str) -> IO[bytes]:
    """Opens a regular file. A pipe isn't waited for, and a device isn't opened. No byte is read ahead, since programs
    read on where this one stopped."""
    if not is_regular(path):
        raise OSError(errno.EINVAL, "not a regular file", path)
    handle = os.open(path, os.O_RDONLY | os.O_NONBLOCK | os.O_NOCTTY | os.O_CLOEXEC)
    file = os.fdopen(handle, "rb", buffering=0)
    if not stat.S_ISREG(os.fstat(handle).st_mode):
        file.close()
        raise OSError(errno.EINVAL, "not a regular file", path)
    return file


def open_stamp(file: IO[bytes]) -> Stamp:
    """The stamp of an open file."""
    return stamp_of(os.fstat(file.fileno()))


def reason_of(error: OSError, path: str) -> str:
    """What the system says, with the file that it speaks of where that is another one."""
    reason = error.strerror or str(error) or type(error).__name__
    other = error.filename
    return reason if other is None or other == path else "%s: %s" % (reason, os.fsdecode(other))


def plain_mode() -> int:
    """The mode of a new file, as the user's mask has it."""
    mask = os.umask(0)
    os.umask(mask)
    return 0o666 & ~mask


def sync(path: str) -> None:
    """Waits until a file or a folder is on the disk."""
    handle = os.open(path, os.O_RDONLY | os.O_CLOEXEC)
    try:
        os.fsync(handle)
    finally:
        os.close(handle)


def sync_all(folder: str) -> None:
    """Waits until the files of a folder are on the disk, and the folder itself."""
    with os.scandir(folder) as entries:
        for entry in entries:
            if entry.is_file(follow_symlinks=False) and entry.stat(follow_symlinks=False).st_size:
                sync(entry.path)
    sync(folder)


def put_folder(made: str, to: str) -> None:
    """Gives a folder its place by one renaming: all of it is there, or nothing."""
    sync_all(made)
    os.rename(made, to)
    sync(os.path.dirname(to))


def made_folder(prefix: str, within: str) -> str:
    """A new folder that others may enter as the user's mask has it."""
    folder = tempfile.mkdtemp(prefix=prefix, dir=within)
    mode = plain_mode()
    os.chmod(folder, mode | (mode & 0o444) >> 2)
    return folder


@contextlib.contextmanager
def replaced(path: str) -> Iterator[IO[bytes]]:
    """A new file in the place of an old one, which stays until the new one is whole. A link isn't followed."""
    handle, made = tempfile.mkstemp(prefix="." + os.path.basename(path)[:100] + ".", dir=os.path.dirname(path) or ".")
    try:
        with os.fdopen(handle, "wb") as out:
            yield out
            out.flush()
            os.fchmod(out.fileno(), plain_mode())
            os.fsync(out.fileno())
        os.rename(made, path)
    except BaseException:
        with contextlib.suppress(OSError):
            os.unlink(made)
        raise
    sync(os.path.dirname(path) or ".")


@contextlib.contextmanager
def written(path: str) -> Iterator[IO[bytes]]:
    """A file to write to: a regular file is replaced as a whole, also where a link leads to it; anything else, such as
    a device or a pipe, is written to as it is."""
    target = os.path.realpath(path)
    if os.path.exists(target) and not is_regular(target):
        with open(target, "wb") as out:
            yield out
        return
    with replaced(target) as out:
        yield out


def temporary_folder(asked: Optional[str]) -> str:
    """Where files are unpacked and joined: no other place is looked for where this one is full."""
    return asked or os.environ.get("TMPDIR") or "/tmp"


def disk_of(path: str, mounts: str = "/proc/self/mountinfo") -> str:
    """The kind of file system that a path is on, or an empty text where that isn't known."""
    path, best, kind = os.path.realpath(path), -1, ""
    try:
        with open(mounts, encoding="utf-8", errors="surrogateescape") as file:
            lines = file.read().splitlines()
    except OSError:
        return ""
    for line in lines:
        words, _, more = line.partition(" - ")
        at = re.sub(r"\\([0-7]{3})", lambda found: chr(int(found[1], 8)), words.split(" ")[4])
        if (path == at or path.startswith(at.rstrip("/") + "/")) and len(at) >= best:
            best, kind = len(at), more.split(" ")[0]
    return kind


def is_on_local_disk(path: str) -> bool:
    """Whether a path is on a disk that this machine alone writes to."""
    return disk_of(path) in LOCAL_DISKS
