"""Lists of jobs: written, and done by their numbers. A job is some files; what it found of them gets its place by one
renaming."""
from __future__ import annotations

import dataclasses
import json
import os
import shutil
import tempfile
from typing import IO, Any, Dict, List, Sequence

from .disk import made_folder, put_folder, temporary_folder
from .job import Item, Outcome
from .processes import ended, lifeline_in
from .program import Settings, check_program
from .texts import Trouble, shown
from .unpack import NO_ROOM, PIECE

# Where the files of a job begin, and how many they are. Each line is as long as any other.
LINE = b"%016d %08d\n"


def write_jobs(folder: str, settings: Settings, jobs: Sequence[Sequence[Item]]) -> None:
    """Writes a list of jobs, each of which is some files. It gets its name when all of it is on the disk. A line of
    `jobs` says where the files of a job are in `files`, and is as long as any other, so that a job reads no more than
    its own."""
    made = made_folder(os.path.basename(folder) + ".", os.path.dirname(folder))
    for name in ("work", "done"):
        os.mkdir(os.path.join(made, name))
    with open(os.path.join(made, "settings"), "w", encoding="ascii") as out:
        json.dump(dataclasses.asdict(settings), out)
    with open(os.path.join(made, "jobs"), "wb") as lines, open(os.path.join(made, "files"), "wb") as files:
        for items in jobs:
            lines.write(LINE % (files.tell(), len(items)))
            files.writelines(json.dumps(item).encode("ascii") + b"\n" for item in items)
    put_folder(made, folder)


def count_of_jobs(folder: str) -> int:
    """How many jobs a list has."""
    return os.path.getsize(os.path.join(folder, "jobs")) // len(LINE % (0, 0))


def files_of(folder: str, number: int) -> List[Item]:
    """The files of a job, by its number from 1."""
    length = len(LINE % (0, 0))
    with open(os.path.join(folder, "jobs"), "rb") as lines, open(os.path.join(folder, "files"), "rb") as files:
        lines.seek((number - 1) * length)
        at, count = map(int, lines.read(length).split())
        files.seek(at)
        return [Item(*json.loads(files.readline())) for _ in range(count)]


def all_files(folder: str) -> List[str]:
    """The files of all jobs."""
    with open(os.path.join(folder, "files"), "rb") as files:
        return [Item(*json.loads(line)).path for line in files]


def settings_in(folder: str) -> Settings:
    """How the files of a list are read."""
    with open(os.path.join(folder, "settings"), encoding="ascii") as file:
        return Settings(**json.load(file))


def do_jobs(folder: str, numbers: Sequence[int]) -> int:
    """Does jobs of a list."""
    try:
        count = count_of_jobs(folder)
        settings = settings_in(folder)
    except (OSError, ValueError, TypeError) as error:
        raise Trouble("no list of jobs in %s: %s" % (shown(folder), error)) from None
    wrong = [number for number in numbers if not 1 <= number <= count]
    if wrong:
        raise Trouble("no job %d: the list has 1 to %d" % (wrong[0], count))
    check_program(settings)
    check_room(settings)
    lifeline = lifeline_in(os.environ)
    for number in numbers:
        if not os.path.exists(os.path.join(folder, "done", str(number))):
            do_job(settings, folder, number, lifeline)
    return 0


def check_room(settings: Settings) -> None:
    """Does nothing on a machine without the folder for temporary files, rather than fail each file for it."""
    folder = temporary_folder(settings.temporary)
    try:
        tempfile.TemporaryFile(dir=folder).close()
    except OSError as error:
        if error.errno not in NO_ROOM:
            raise Trouble("--temporary: %s: %s" % (shown(folder), error.strerror)) from None


def do_job(settings: Settings, folder: str, number: int, lifeline: Sequence[int]) -> None:
    """Does a job: what it found of its files is one stream, and a line for each of them."""
    done = os.path.join(folder, "done", str(number))
    own = made_folder("%d." % number, os.path.join(folder, "work"))
    try:
        with open(os.path.join(own, "output"), "wb") as output, open(os.path.join(own, "outcomes"), "wb") as outcomes:
            for item in files_of(folder, number):
                values = do_file(settings, item, folder, output, lifeline)
                outcomes.write(json.dumps(values).encode("ascii") + b"\n")
        put_folder(own, done)
    except BaseException as error:
        shutil.rmtree(own, ignore_errors=True)
        if not (isinstance(error, OSError) and os.path.exists(done)):
            raise


def do_file(settings: Settings, item: Item, folder: str, output: IO[bytes], lifeline: Sequence[int]) -> Dict[str, Any]:
    """Does what a job does over one file in a process of its own, which is ended when the time of the file is over.
    Returns the outcome. What the process wrote is added to the stream once it is whole: a process that can't be ended
    may still write."""
    own = made_folder("file.", os.path.join(folder, "work"))
    try:
        why = ended(settings, item, own, folder, lifeline)
        if why is not None:
            return Outcome(item.path, detail=why).values()
        with open(os.path.join(own, "outcome"), "rb") as file:
            values: Dict[str, Any] = json.load(file)
        begin = output.tell()
        if values["places"]:
            with open(os.path.join(own, "part"), "rb") as part:
                shutil.copyfileobj(part, output, PIECE)
        values["places"] = {name: [begin + at for at in place] for name, place in values["places"].items()}
        return values
    finally:
        shutil.rmtree(own, ignore_errors=True)
