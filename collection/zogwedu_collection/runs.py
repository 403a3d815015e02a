"""Runs: the list of jobs, GNU parallel that does them, and what is done of them."""
from __future__ import annotations

import contextlib
import ctypes
import dataclasses
import functools
import os
import re
import shlex
import shutil
import signal
import subprocess
import sys
import tempfile
from typing import Iterator, List, Optional, Sequence, Tuple

from .ages import note_due, told_due
from .alarm import log_changes
from .catalogue import Catalogue, Run
from .discover import batches, files_to_do, found_files, note_changes, note_manifests
from .job_folders import drop_folders, folders_of
from .jobs import settings_in, write_jobs
from .limits import Limits
from .manifest import BadLine, read_manifest
from .messages import MESSAGES
from .processes import lifeline_of
from .program import Settings, not_done, own_words, program_path, version_of
from .progress import Progress
from .revisits import look_up_revisits
from .search_index import choose_texts, lacking_texts, package_for_texts, settle_texts
from .space import full_folders
from .take_in import end_run, take_in, take_in_all, taken_in
from .texts import Trouble, inform, now, shown
from .unpack import NO_ROOM
from .watched import note_reading, watch, watched

# How long a job should take, here and on other machines, where each is a login of its own.
SECONDS_A_JOB = 5.0
SECONDS_A_FAR_JOB = 15.0
SSH = "ssh -o BatchMode=yes -o ConnectTimeout=10 -o ServerAliveInterval=10 -o ServerAliveCountMax=3"
PR_SET_PDEATHSIG = 1
BRACE = "'\"$(printf '\\173')\"'"


@dataclasses.dataclass(frozen=True)
class Plan:
    """A list of jobs: its run, its folder, where temporary files go, how many bytes each job reads, how many files
    there are and how many are to be read, and whether a part of the collection can't be read."""

    run: int
    folder: str
    temporary: str
    job_bytes: Sequence[int]
    files: int
    to_read: int
    is_partly_unread: bool

    @property
    def count(self) -> int:
        """How many jobs there are."""
        return len(self.job_bytes)

    def bytes_of(self, name: str) -> int:
        """How many bytes a job reads, by its number as a text."""
        return self.job_bytes[int(name) - 1] if name.isdecimal() and 0 < int(name) <= self.count else 0


@dataclasses.dataclass(frozen=True)
class Asked:
    """What is asked of a run: folders and files, lists of files, whether all are read, and how."""

    paths: Sequence[str]
    lists: Sequence[str]
    is_over_all: bool
    warc: Optional[str] = None
    temporary: Optional[str] = None
    timeout: Optional[float] = None
    digest: bool = False
    within: Optional[int] = None
    rate: Optional[int] = None
    may_be_missing: bool = False
    unpacked: int = Limits.unpacked
    jobs: Optional[str] = None
    batch: Optional[int] = None
    seconds_a_job: float = SECONDS_A_JOB
    manifests: Sequence[str] = ()
    text: Optional[bool] = None

    def settings(self, own: str, package: Optional[str]) -> Settings:
        """How files are read. What is unpacked goes to a folder of the catalogue, where nothing else is asked."""
        warc = program_path(self.warc)
        temporary = own if self.temporary is None else os.path.abspath(self.temporary)
        check_temporary(temporary, self.temporary is None)
        jobs = int(self.jobs) if self.jobs is not None and re.fullmatch("[1-9][0-9]{0,4}", self.jobs) else None
        how = temporary, self.timeout, self.rate, self.unpacked, jobs, package
        return Settings(warc, version_of(warc), *how)


@dataclasses.dataclass(frozen=True)
class Machines:
    """Where jobs are done, in GNU parallel's words."""

    logins: Sequence[str]
    login_files: Sequence[str]
    jobs: Optional[str]

    def are_far(self) -> bool:
        """Whether a job may be done on another machine."""
        return bool(self.logins or self.login_files)


def check_temporary(folder: str, is_own: bool) -> None:
    """Refuses a folder for temporary files that isn't there or can't be written to: each file would fail for it. What a
    killed run left in the catalogue's own is removed."""
    try:
        if is_own:
            os.makedirs(folder, exist_ok=True)
            for entry in os.scandir(folder):
                if not entry.is_dir(follow_symlinks=False):
                    os.unlink(entry.path)
        tempfile.TemporaryFile(dir=folder).close()
    except OSError as error:
        if error.errno not in NO_ROOM:
            raise Trouble("--temporary: %s: %s" % (shown(folder), error.strerror), 2) from None


def check_manifests(paths: Sequence[str]) -> None:
    """Refuses a list of checksums with a line that states none, before anything is changed."""
    for path in paths:
        try:
            read_manifest(os.path.abspath(path))
        except OSError as error:
            raise Trouble("--manifest: %s: %s" % (shown(path), error.strerror), 2) from None
        except BadLine as error:
            raise Trouble("--manifest: %s: %s" % (shown(path), error), 2) from None


def begin_run(catalogue: Catalogue, is_over_all: bool) -> Run:
    """Goes on with a run that isn't at its end, or begins one."""
    last = catalogue.last_run()
    if last is not None and last.ended is None:
        inform("run %d goes on" % last.number)
        last = dataclasses.replace(last, scope="all" if is_over_all else last.scope)
        catalogue.base.execute("UPDATE runs SET scope = ? WHERE run = ?", (last.scope, last.number))
        return last
    run = Run(1 if last is None else last.number + 1, now(), None, "all" if is_over_all else "changed")
    catalogue.base.execute(
        "INSERT INTO runs (run, began, scope, attempts) VALUES (?, ?, ?, 0)", (run.number, run.began, run.scope)
    )
    return run


def make_plan(catalogue: Catalogue, asked: Asked) -> Plan:
    """Takes in what earlier jobs left, looks for files, and writes the list of jobs."""
    check_manifests(asked.manifests)
    package = package_for_texts(catalogue, asked.text)
    settings = asked.settings(os.path.join(catalogue.folder, "temporary"), package)
    catalogue.keep_temporary(settings.temporary or catalogue.folder)
    take_in_all(catalogue)
    choose_texts(catalogue, asked.text)
    settle_texts(catalogue)
    with catalogue.transaction():
        watch(catalogue, asked.paths, asked.lists, asked.manifests)
        whole = watched(catalogue)
        if not whole:
            raise Trouble("name the folders of the collection")
        run = begin_run(catalogue, asked.is_over_all)
        found = found_files(whole)
        note_changes(catalogue, run.number, found, whole, asked.may_be_missing)
        note_manifests(catalogue, found)
        note_reading(catalogue, found.troubles())
        if asked.within is not None:
            note_due(catalogue, run, found.files, asked.within)
            inform(told_due(catalogue, run, found.files))
        chosen = batches(
            files_to_do(catalogue, run, found, asked.digest, lacking_texts(catalogue, package)),
            asked.batch,
            asked.seconds_a_job,
        )
        catalogue.base.execute("UPDATE runs SET attempts = attempts + 1 WHERE run = ?", (run.number,))
        attempt = catalogue.one("SELECT attempts FROM runs WHERE run = ?", (run.number,))[0]
    log_changes(catalogue, run.number)
    folder = os.path.join(catalogue.jobs, "%d-%d" % (run.number, attempt))
    write_jobs(folder, settings, chosen)
    counts = sum(stamp is not None for stamp in found.files.values()), sum(map(len, chosen))
    inform("run %d: %d files, %d to read" % (run.number, *counts))
    sizes = [sum(item.size for item in items) for items in chosen]
    return Plan(run.number, folder, settings.temporary or "/tmp", sizes, *counts, bool(found.unread or found.missing))


def for_parallel(words: Sequence[str]) -> str:
    """Words for a shell, without a brace: GNU parallel runs what it finds between braces."""
    return " ".join(shlex.quote(word) if "{" not in word else "'%s'" % braceless(word) for word in words)


def braceless(word: str) -> str:
    return word.replace("'", "'\"'\"'").replace("{", BRACE)


def parallel_words(machines: Machines, folder: str) -> List[str]:
    """The words that have GNU parallel do the jobs of a list."""
    is_far = machines.are_far()
    # Ungrouped: what jobs say isn't kept in files, which a full disk would end.
    words = ["parallel", "--will-cite", "--ungroup", "--joblog", os.path.join(folder, "joblog"), "--retries", "3"]
    words += ["-n", "1"]
    words += ["--jobs", machines.jobs] if machines.jobs else []
    words += [word for host in machines.logins for word in ("--sshlogin", host)]
    words += [word for path in machines.login_files for word in ("--sshloginfile", path)]
    words += ["--ssh", SSH] if is_far else []
    return [*words, for_parallel([*own_words(), "job", folder]) + " {}"]


def end_with(parent: int) -> None:
    """Has Linux send SIGTERM to this process when its parent is killed, so that no more jobs are begun."""
    if sys.platform == "linux":
        ctypes.CDLL(None).prctl(PR_SET_PDEATHSIG, signal.SIGTERM)
        if os.getppid() != parent:
            os.kill(os.getpid(), signal.SIGTERM)


def stop(child: subprocess.Popen[bytes]) -> None:
    """GNU parallel waits for its jobs at a first SIGTERM, and stops them at a second one."""
    for _ in range(2):
        if child.poll() is None:
            child.terminate()
            with contextlib.suppress(subprocess.TimeoutExpired):
                child.wait(1)
    if child.poll() is None:
        child.kill()
        child.wait()


@contextlib.contextmanager
def in_parallel(machines: Machines, plan: Plan) -> Iterator[subprocess.Popen[bytes]]:
    """GNU parallel, while it does the jobs. Whatever happens, it is at its end afterwards: a pipe ends with this
    process, and by it each job of this machine sees that the run is at its end."""
    is_alone = plan.count == 1 and not machines.are_far()
    if not is_alone and shutil.which("parallel") is None:
        raise Trouble("GNU parallel isn't installed")
    with open(os.path.join(plan.folder, "numbers"), "w+", encoding="ascii") as numbers:
        numbers.writelines("%d\n" % number for number in range(1, plan.count + 1))
        numbers.seek(0)
        alone = [*own_words(), "job", plan.folder, "1"]
        words = alone if is_alone else parallel_words(machines, plan.folder)
        ending = functools.partial(end_with, os.getpid())
        seen, held = os.pipe()
        where = dict(os.environ, TMPDIR=plan.temporary, PARALLEL_TMPDIR=plan.temporary, **lifeline_of(seen))
        child = subprocess.Popen(words, stdin=numbers, env=where, pass_fds=(seen,), preexec_fn=ending)
        os.close(seen)
    try:
        yield child
    finally:
        stop(child)
        os.close(held)


@contextlib.contextmanager
def seen_progress(plan: Plan) -> Iterator[Progress]:
    """Shows how far a run is, where somebody may look."""
    is_seen = sys.stderr.isatty() and not MESSAGES.is_quiet
    progress = Progress(sum(plan.job_bytes), is_seen)
    MESSAGES.progress = progress
    try:
        yield progress
    finally:
        MESSAGES.progress = None
        progress.close()


def take_in_done(catalogue: Catalogue, plan: Plan, progress: Progress) -> None:
    """Takes in the jobs that are done, and says so."""
    for name in taken_in(catalogue, plan.run, plan.folder):
        progress.add(plan.bytes_of(name))


def do_in_parallel(catalogue: Catalogue, machines: Machines, plan: Plan) -> None:
    """Has GNU parallel do the jobs, and takes in what is done meanwhile."""
    try:
        with in_parallel(machines, plan) as child, seen_progress(plan) as progress:
            while child.poll() is None:
                take_in_done(catalogue, plan, progress)
                with contextlib.suppress(subprocess.TimeoutExpired):
                    child.wait(1)
            take_in_done(catalogue, plan, progress)
    except KeyboardInterrupt:
        take_in(catalogue, plan.run, plan.folder)
        raise Trouble("stopped; run it again to go on") from None


def do_run(catalogue: Catalogue, asked: Asked, machines: Machines) -> Plan:
    """A run: its plan, its jobs, and its end."""
    plan = make_plan(catalogue, asked)
    if plan.count:
        do_in_parallel(catalogue, machines, plan)
    left = end_run(catalogue, plan.run, plan.folder)
    settle_texts(catalogue)
    look_up_revisits(catalogue, asked.warc, plan.temporary)
    shutil.rmtree(plan.folder, ignore_errors=True)
    drop_folders(catalogue, plan.run if left else None)
    if left:
        full = ["%s is nearly full" % shown(it) for it in full_folders([catalogue.folder, plan.temporary])]
        raise Trouble("; ".join([not_done(left, plan.run), *full, "run it again to go on"]))
    return plan


def planned(catalogue: Catalogue) -> Tuple[Optional[str], Optional[str]]:
    """The program and the folder for temporary files of a run that isn't at its end, if they are known."""
    last = catalogue.last_run()
    folders = [] if last is None or last.ended is not None else folders_of(catalogue, last.number)
    with contextlib.suppress(OSError, ValueError, TypeError, IndexError):
        settings = settings_in(folders[-1])
        return settings.warc, settings.temporary
    return None, None


def load(catalogue: Catalogue) -> int:
    """Takes in what jobs left, and ends the run where all are done. Returns its number."""
    warc, temporary = planned(catalogue)
    left, last = take_in_all(catalogue), catalogue.last_run()
    settle_texts(catalogue)
    look_up_revisits(catalogue, warc, temporary)
    if last is None:
        raise Trouble("no run in %s: plan one" % shown(catalogue.folder))
    if left:
        raise Trouble(not_done(left, last.number) + ": load again later, or plan again")
    return last.number
