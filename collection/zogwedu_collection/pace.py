"""How fast files are read: all jobs of a run together read no more than a number of bytes a second."""
from __future__ import annotations

import contextlib
import fcntl
import os
import signal
import subprocess
import time
from typing import Optional, Tuple

# How often it is looked how much a program has read, in seconds.
LOOK_SECONDS = 0.1
# A time that is farther ahead was written by a clock that was set back since.
MOST_AHEAD = 86_400.0


class Pace:
    """The jobs of a run share a file with the time until which all that was read is paid for. Who reads puts that time
    off, and waits for it."""

    def __init__(self, folder: str, rate: Optional[int]) -> None:
        self.path = os.path.join(folder, "pace")
        self.rate = rate

    def wait_for(self, count: int) -> float:
        """Puts the time off by what `count` bytes take. Returns how many seconds there are to wait."""
        if not self.rate or count <= 0:
            return 0.0
        with open(self.path, "a+", encoding="ascii") as file:
            fcntl.flock(file, fcntl.LOCK_EX)
            file.seek(0)
            now, text = time.time(), file.read()
            paid = max(time_in(text, now), now) + count / self.rate
            file.truncate(0)
            file.write(repr(paid))
        return paid - now

    def take(self, count: int) -> None:
        """Waits until `count` bytes are paid for."""
        time.sleep(self.wait_for(count))

    def finish(self, child: subprocess.Popen[bytes], size: int) -> Tuple[bytes, bytes]:
        """Waits for a program that reads `size` bytes, and stops it meanwhile where it is ahead."""
        seen = 0
        while self.rate:
            try:
                done = child.communicate(timeout=LOOK_SECONDS)
                self.take(size - seen)
                return done
            except subprocess.TimeoutExpired:
                count = min(read_by(child.pid), size)
                seconds = self.wait_for(count - seen)
                seen = max(count, seen)
                pause(child, seconds)
        return child.communicate()


def time_in(text: str, now: float) -> float:
    """The time that the file has. A half line, as after a full disk, is none."""
    try:
        return float(text) if float(text) < now + MOST_AHEAD else now
    except ValueError:
        return now


def pause(child: subprocess.Popen[bytes], seconds: float) -> None:
    """Stops a program for a time."""
    if seconds <= 0:
        return
    child.send_signal(signal.SIGSTOP)
    try:
        time.sleep(seconds)
    finally:
        child.send_signal(signal.SIGCONT)


def read_by(number: int) -> int:
    """How many bytes a process has read, as Linux counts them; 0 where it doesn't."""
    with contextlib.suppress(OSError, ValueError, IndexError):
        with open("/proc/%d/io" % number, encoding="ascii") as file:
            return int(file.readline().split()[1])
    return 0
