"""The folders of the lists of jobs. They stay until their run is at its end, since tasks of a scheduler may still wait
for them; what the tasks of a run that wasn't good wrote stays after it."""
from __future__ import annotations

import contextlib
import os
import re
import shutil
from typing import List, Optional

from .catalogue import Catalogue
from .states import ALARMING, as_list
from .texts import say, shown

NAME = re.compile(r"(\d+)-(\d+)", re.ASCII)
LOG = ".log"


def names_in(folder: str) -> List[str]:
    """The names in a folder; none where it can't be read."""
    try:
        return os.listdir(folder)
    except OSError:
        return []


def folders_of(catalogue: Catalogue, run: int) -> List[str]:
    """The folders of a run's lists, the newest one last."""
    names = filter(None, map(NAME.fullmatch, names_in(catalogue.jobs)))
    found = sorted((int(it[2]), it[0]) for it in names if int(it[1]) == run)
    return [os.path.join(catalogue.jobs, name) for _, name in found]


def drop_folders(catalogue: Catalogue, open_run: Optional[int]) -> None:
    """Removes the folders of all runs but of one that isn't at its end."""
    kept = [] if open_run is None else folders_of(catalogue, open_run)
    for name in names_in(catalogue.jobs):
        folder = os.path.join(catalogue.jobs, name)
        if folder not in kept:
            keep_logs(catalogue, name)
            shutil.rmtree(folder, ignore_errors=True)


def was_good(catalogue: Catalogue, run: int) -> bool:
    """Whether a run was planned once, and found nothing that rings."""
    query = "SELECT 1 FROM checks WHERE run = ? AND state IN (%s) LIMIT 1" % as_list(ALARMING)
    attempts = catalogue.one("SELECT attempts FROM runs WHERE run = ?", (run,))
    return attempts == (1,) and catalogue.one(query, (run,)) is None


def keep_logs(catalogue: Catalogue, name: str) -> None:
    """Moves what the tasks of a run wrote, if it wasn't good, to a folder of its own."""
    found, folder = NAME.fullmatch(name), os.path.join(catalogue.jobs, name)
    logs = [log for log in names_in(folder) if log.endswith(LOG) and is_full(os.path.join(folder, log))]
    if found is None or not logs or was_good(catalogue, int(found[1])):
        return
    to = os.path.join(logs_folder(catalogue), name)
    os.makedirs(to, exist_ok=True)
    for log in logs:
        os.replace(os.path.join(folder, log), os.path.join(to, log))
    say("what the tasks of run %s wrote is in %s" % (found[1], shown(to)))


def is_full(path: str) -> bool:
    """Whether a file has a byte."""
    with contextlib.suppress(OSError):
        return os.path.isfile(path) and os.path.getsize(path) > 0
    return False


def logs_folder(catalogue: Catalogue) -> str:
    return os.path.join(catalogue.folder, "logs")


def drop_logs(catalogue: Catalogue, last: int) -> None:
    """Drops what the tasks wrote of the runs up to one."""
    for name in names_in(logs_folder(catalogue)):
        found = NAME.fullmatch(name)
        if found is not None and int(found[1]) <= last:
            shutil.rmtree(os.path.join(logs_folder(catalogue), name), ignore_errors=True)
