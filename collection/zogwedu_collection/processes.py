"""The process that does what a job does over one file. It ends with its job, however that ends, and on this machine a
job ends with the run that began it: a pipe that only the other one holds open ends with it."""
from __future__ import annotations

import contextlib
import json
import os
import select
import signal
import stat
import traceback
from typing import Dict, List, Mapping, NoReturn, Optional, Sequence

from .job import Item, Job
from .program import Settings
from .texts import Trouble

GRACE_SECONDS = 5.0
# The variable that names the end of a pipe which is open as long as the run that began a job, with the pipe's inode.
LIFELINE = "WARC_COLLECTION_LIFELINE"


def lifeline_of(handle: int) -> Dict[str, str]:
    """The variable by which a job finds the pipe that ends with its run."""
    return {LIFELINE: "%d %d" % (handle, os.fstat(handle).st_ino)}


def lifeline_in(variables: Mapping[str, str]) -> List[int]:
    """The end of the pipe that ends with the run, if it got here: not on another machine, nor to a scheduler's task."""
    try:
        handle, inode = map(int, variables.get(LIFELINE, "").split())
        status = os.fstat(handle)
    except (OSError, ValueError, OverflowError):
        return []
    return [handle] if stat.S_ISFIFO(status.st_mode) and status.st_ino == inode else []


def ended(settings: Settings, item: Item, own: str, folder: str, lifeline: Sequence[int]) -> Optional[str]:
    """Runs the process over a file to its end. Returns why there is no outcome, or None. It outlives neither this job
    nor the run that began it."""
    (seen, held), (watch, alive) = os.pipe(), os.pipe()
    child = os.fork()
    if child == 0:
        os.close(seen)
        os.close(alive)
        do_and_exit(Job(settings, item, own, folder), own, held, watch)
    os.close(held)
    os.close(watch)
    try:
        ready = select.select([seen, *lifeline], [], [], settings.timeout or None)[0]
        if seen in ready:
            return why_ended(os.waitpid(child, 0)[1])
        kill(child, seen)
        if ready:
            raise Trouble("the run that began this job is at its end")
        return "took too long"
    except KeyboardInterrupt:
        kill(child, seen)
        raise
    finally:
        os.close(seen)
        os.close(alive)


def why_ended(status: int) -> Optional[str]:
    """What a process says of its end, as the system has it; None if all is well."""
    if os.WIFSIGNALED(status):
        return "the job was ended by signal %d" % os.WTERMSIG(status)
    if os.WEXITSTATUS(status):
        return "the job ended with status %d" % os.WEXITSTATUS(status)
    return None


def do_and_exit(job: Job, own: str, held: int, watch: int) -> NoReturn:
    """What the process over a file does. It has a group of processes of its own, with the program that it runs."""
    status = 1
    try:
        os.setpgid(0, 0)
        signal.signal(signal.SIGTERM, signal.SIG_DFL)
        if os.fork() == 0:
            end_with_job(held, watch)
        values = job.do().values()
        with open(os.path.join(own, "outcome"), "wb") as out:
            out.write(json.dumps(values).encode("ascii"))
        status = 0
    except BaseException:  # whatever it is, the process ends here
        traceback.print_exc()
    finally:
        os._exit(status)


def end_with_job(held: int, watch: int) -> NoReturn:
    """Waits for the end of the job, and ends the group of processes: a job that is killed can't do that itself."""
    try:
        os.close(held)
        os.read(watch, 1)
    finally:
        os.killpg(0, signal.SIGKILL)
        os._exit(1)


def kill(child: int, seen: int) -> None:
    """Ends the processes of a job. `seen` is a pipe that ends with them: one that the system doesn't let end isn't
    waited for."""
    for end in (os.killpg, os.kill):
        with contextlib.suppress(ProcessLookupError):
            end(child, signal.SIGKILL)
    if select.select([seen], [], [], GRACE_SECONDS)[0]:
        os.waitpid(child, 0)
