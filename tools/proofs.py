"""Where crates are proved and built: in trees outside the checkout, since the gate reads every file in it.

The trees of a checkout are in a folder of its own below ${XDG_CACHE_HOME:-~/.cache}/zogwedu; ZOGWEDU_BUILD names
another folder in the place of that one. In a tree `rt ci` proves crates as the gate does. Some kits keep what it proved
for its next run, and others don't: so what a run proved and built is kept in that folder too, and where one run proved
all that a command needs, it is taken from there. `rt ci` builds no static library, so `rt lib` does that, over the
libraries that `rt ci` left there.

Usage: proofs.py clean                   removes the trees of this checkout, and those of checkouts that are no more
       proofs.py build FOLDER NAME TO    proves and builds a program that is a folder of FOLDER, and puts it into TO

The files of such a program end with .txt, so that the gate leaves them alone. FOLDER/list.txt says which crates each
program there uses, as crates.txt does.
"""
from __future__ import annotations

import contextlib
import fcntl
import hashlib
import importlib
import os
import re
import shutil
import stat
import subprocess
import sys
import time
from collections.abc import Iterable, Iterator, Sequence
from typing import Any, NamedTuple, TextIO

from shared import TOP, below, crates, matched, put_copy, read, rows, rows_in

PARTS = ("src", "specs", "proofs")
# What `rt ci` runs a program with, and compares.
OF_A_RUN = ("stdin", "stdout", "args", "status", "data")
# In a checkout's folder: the path of the checkout, for `clean`.
CHECKOUT = "checkout"
ENDED = re.compile(r"^rt: (\w+) (?:(proved)|is (kept)|NOT PROVED)")
EDIT = re.compile(r"^rt: must-fail \S+\.edit: ")
# More than any proof has taken, and three times what most do. `rt` believes in up to 10 GB, by the lines of a crate,
# and so lets crates wait for one another while processors have nothing to do.
MEMORY_OF_A_PROOF = 4 << 30
HELP = "set ZOGWEDU_BUILD to a folder that you alone may write to: crates are proved there"


class Extra(NamedTuple):
    """A crate that crates.txt doesn't name: where its files are, the libraries that it uses, and what the names of its
    files have at their ends."""

    folder: str
    uses: list[str]
    ending: str


def base() -> str:
    """The folder in which each checkout of this user has its own."""
    named, cache, home = (os.environ.get(name, "") for name in ("ZOGWEDU_BUILD", "XDG_CACHE_HOME", "HOME"))
    if named:
        return os.path.abspath(named)
    if os.path.isabs(cache):
        return f"{cache}/zogwedu"
    if os.path.isabs(home):
        return f"{home}/.cache/zogwedu"
    sys.exit(f"neither HOME nor XDG_CACHE_HOME is set: {HELP}")


def own_folder(path: str) -> str:
    """A folder that nobody but this user may write to; it is made if it isn't there."""
    try:
        os.makedirs(path, mode=0o700, exist_ok=True)
        found = os.lstat(path)
    except OSError as error:
        sys.exit(f"{path}: {error.strerror}: {HELP}")
    if not stat.S_ISDIR(found.st_mode) or found.st_uid != os.getuid() or found.st_mode & (stat.S_IWGRP | stat.S_IWOTH):
        sys.exit(f"{path} isn't a folder that this user alone may write to: {HELP}")
    return path


def checkout_folder() -> str:
    """This checkout's folder, which no other checkout has: its name is a checksum of the checkout's path."""
    top = os.path.realpath(TOP)
    path = f"{own_folder(base())}/{hashlib.sha256(os.fsencode(top)).hexdigest()[:16]}"
    own_folder(path)
    with open(f"{path}/{CHECKOUT}", "wb") as out:
        out.write(os.fsencode(top))
    return path


def clean() -> None:
    """Removes this checkout's folder, and those of checkouts that are no more."""
    own, top = base(), os.path.realpath(TOP)
    if not os.path.isdir(own):
        return
    for name in os.listdir(own_folder(own)):
        with contextlib.suppress(OSError), open(f"{own}/{name}/{CHECKOUT}", "rb") as text:
            path = os.fsdecode(text.read())
            if path == top or not os.path.isdir(path):
                shutil.rmtree(f"{own}/{name}", ignore_errors=True)


def kit() -> str:
    """The toolchain's folder."""
    return os.path.dirname(subprocess.run(["rt", "doc"], capture_output=True, text=True, check=True).stdout.strip())


def copy_crate(folder: str, to: str, ending: str = "") -> None:
    """Copies what a crate's proof and its run read. What was built in its out/ stays."""
    for part in (*PARTS, *OF_A_RUN):
        if os.path.isdir(f"{to}/{part}"):
            shutil.rmtree(f"{to}/{part}")
        elif os.path.lexists(f"{to}/{part}"):
            os.remove(f"{to}/{part}")
    for at, _, files in os.walk(folder):
        inside = os.path.relpath(at, folder)
        if inside == "." or inside.split("/")[0] in (*PARTS, "data"):
            os.makedirs(f"{to}/{inside}", exist_ok=True)
            for file in files:
                name = file[: len(file) - len(ending)]
                if inside != "." or name in OF_A_RUN:
                    shutil.copyfile(f"{at}/{file}", f"{to}/{inside}/{name}")


class Tree:
    """A tree for one purpose, such as the program, in which one command at a time works."""

    def __init__(self, name: str, extra: dict[str, Extra] | None = None) -> None:
        self.top = own_folder(f"{checkout_folder()}/{name}")
        self.extra = extra or {}
        self.uses = {**crates(), **{it: crate.uses for it, crate in self.extra.items()}}
        # It is the top of a repository, whatever is above.
        os.makedirs(f"{self.top}/.git", exist_ok=True)

    @contextlib.contextmanager
    def in_turn(self) -> Iterator[None]:
        """Waits for another command that works in the tree."""
        with open(f"{self.top}/.git/lock", "w", encoding="ascii") as lock:
            fcntl.flock(lock, fcntl.LOCK_EX)
            yield

    def folder(self, name: str) -> str:
        """A crate's folder in the tree."""
        return f"{self.top}/crates/{name}"

    def put(self, names: Sequence[str], kinds: dict[str, str] | None = None) -> None:
        """Has the tree hold these crates as they are in the checkout, and no others. A kind is what the tree's
        crates.txt says of a crate after its name, if it isn't what the checkout's own says."""
        for other in set(os.listdir(f"{self.top}/crates") if os.path.isdir(f"{self.top}/crates") else []) - {*names}:
            shutil.rmtree(self.folder(other))
        fronts = {name: front for name, (front, _) in rows().items()}
        with open(f"{self.top}/crates.txt", "w", encoding="utf-8") as out:
            for name in names:
                crate = self.extra.get(name, Extra(f"{TOP}/crates/{name}", [], ""))
                copy_crate(crate.folder, self.folder(name), crate.ending)
                front = f"{name} {kinds[name]}" if kinds and name in kinds else fronts.get(name, name)
                out.write(f"{front}: {' '.join(self.uses[name])}\n")
        with open(f"{self.top}/HANDLES", "w", encoding="utf-8") as out:
            out.write(read("HANDLES"))

    def take(self, names: Sequence[str]) -> bool:
        """Puts into the tree what was proved and built of these crates, if one run did so with all of them as their
        files are now; returns whether it did."""
        self.put(names)
        found = stamps(self.top)
        kept = {name: kept_folder(name) for name in names}
        runs = {read_or_empty(f"{folder}/run") for folder in kept.values()}
        if len(runs) != 1 or any(read_or_empty(f"{folder}/stamp") != found[name] for name, folder in kept.items()):
            return False
        for name, folder in kept.items():
            shutil.rmtree(f"{self.folder(name)}/out", ignore_errors=True)
            shutil.copytree(f"{folder}/out", f"{self.folder(name)}/out")
            print(f"{name:15} kept", flush=True)
        return True

    def prove(self, names: Sequence[str], edits: Sequence[str] = ()) -> str:
        """Has `rt ci` prove these crates and those below them, build and run the programs among them, and try planted
        bugs, which are paths tests/plants/NAME/X.edit; returns its last line, or that all was kept. Ends this script
        where a crate isn't proved, a planted bug is, or a run isn't as it is wanted."""
        wanted = all_below(names, self.uses)
        if not edits and self.take(wanted):
            return "all was kept"
        self.put(wanted)
        for name in wanted:
            shutil.rmtree(f"{self.folder(name)}/out", ignore_errors=True)
            shutil.rmtree(f"{self.folder(name)}/must-fail", ignore_errors=True)
        for path in edits:
            folder = f"{self.folder(path.split('/')[-2])}/must-fail"
            os.makedirs(folder, exist_ok=True)
            shutil.copy(f"{TOP}/{path}", folder)
        with open(f"{self.top}/log", "w", encoding="utf-8") as log:
            with subprocess.Popen(
                ["rt", "ci"],
                cwd=self.top,
                env=side_by_side(),
                stdin=subprocess.DEVNULL,
                stdout=subprocess.PIPE,
                stderr=subprocess.STDOUT,
                text=True,
                errors="replace",
            ) as run:
                last = report(run.stdout or (), log)
        if run.returncode:
            sys.exit(f"not all is proved: see {self.top}/log")
        keep_proved(self.top)
        return last

    def build_static(self, name: str, kind: str) -> str:
        """Proves and builds a static library, over the crates below it; gives the folder that has it in out/. One that
        is built of the same files already stays: it is beside the crates, since `rt ci` removes what it doesn't know.
        """
        lows = below(name, self.uses)[:-1]
        self.prove(lows)
        self.put([*lows, name], {name: kind})
        found = stamps(self.top)
        for low in lows:
            with open(f"{self.folder(low)}/out/rlib/stamp", "w", encoding="ascii") as out:
                out.write(found[low])
        built, stamp = f"{self.top}/built/{name}", found[name]
        if read_or_empty(f"{built}/stamp") == stamp:
            print(f"{name:15} kept", flush=True)
            return built
        begin = time.monotonic()
        with open(f"{self.top}/log-{name}", "w", encoding="utf-8") as log:
            run = subprocess.run(["rt", "lib"], cwd=self.folder(name), stdout=log, stderr=log, check=False)
        if run.returncode:
            sys.exit(f"{name} isn't built: see {self.top}/log-{name}")
        print(f"{name:15} {time.monotonic() - begin:5.0f} s", flush=True)
        keep_built(f"{self.folder(name)}/out", built, stamp)
        return built


def kept_folder(name: str) -> str:
    """Where it is kept what was proved and built of a crate."""
    return f"{checkout_folder()}/kept/{name}"


def keep_built(out: str, to: str, stamp: str, run: str = "", library: str = "") -> None:
    """Copies the files that were built, and the folder of a library where one is named, and says of which files they
    are, and by which run. The stamp comes last."""
    shutil.rmtree(to, ignore_errors=True)
    os.makedirs(f"{to}/out")
    for name in os.listdir(out):
        if os.path.isfile(f"{out}/{name}"):
            shutil.copy2(f"{out}/{name}", f"{to}/out/{name}")
    if library and os.path.isdir(f"{out}/{library}"):
        shutil.copytree(f"{out}/{library}", f"{to}/out/{library}")
    for name, said in (("run", run), ("stamp", stamp)):
        with open(f"{to}/{name}", "w", encoding="ascii") as text:
            text.write(said)


def keep_proved(top: str) -> None:
    """Keeps what `rt ci` has just proved and built below a folder, for the commands that come after it. It leaves its
    libraries without a stamp; a stamp is on what `rt check` had left there and `rt ci` put back, which isn't kept."""
    found, run = {name: stamp for name, stamp in stamps(top).items() if name in crates()}, str(time.time_ns())
    if not any(os.path.exists(f"{top}/crates/{name}/out/rlib/stamp") for name in found):
        for name, stamp in found.items():
            keep_built(f"{top}/crates/{name}/out", kept_folder(name), stamp, run, "rlib")


def stamps(top: str) -> dict[str, str]:
    """The sum of each crate's files, and of those of the crates below it, by which the toolchain knows its library."""
    found = {}
    for crate in toolchain().crates_below(top):
        found[crate.name] = stamp = crate.stamp()
        # The toolchain computes the sums of the crates below anew for each crate, a low one's thousands of times.
        crate.stamp = lambda stamp=stamp: stamp
    return found


def side_by_side() -> dict[str, str]:
    """The environment in which `rt ci` has a proof on each processor, as far as there is memory for them."""
    with open("/proc/meminfo", encoding="ascii") as text:
        free = 1024 * int(matched(re.search(r"^MemAvailable:\s+(\d+)", text.read(), re.MULTILINE))[1])
    jobs = max(1, min(len(os.sched_getaffinity(0)), free // MEMORY_OF_A_PROOF))
    return {"RT_JOBS": str(jobs), **os.environ}


def all_below(names: Iterable[str], uses: dict[str, list[str]]) -> list[str]:
    """These crates and those below them, lowest first."""
    found: list[str] = []
    for name in names:
        found += [it for it in below(name, uses) if it not in found]
    return found


def read_or_empty(path: str) -> str:
    """The text of a file, or none if it isn't there."""
    with contextlib.suppress(OSError), open(path, encoding="ascii") as text:
        return text.read()
    return ""


def toolchain() -> Any:
    """The toolchain's own module, which says by which stamp a library is known to be of its sources. It remembers lists
    of crates, which change here, and is made to forget them."""
    sys.path.insert(0, f"{kit()}/bin")
    module = importlib.import_module("rtlib")
    for it in vars(module).values():
        if hasattr(it, "cache_clear"):
            it.cache_clear()
    return module


def report(said: Iterable[str], log: TextIO) -> str:
    """Copies what `rt ci` says to a log, and prints a line for each crate that is done, and for each planted bug;
    returns the last line."""
    begin, line = time.monotonic(), ""
    for line in said:
        log.write(line)
        found = ENDED.match(line)
        if found:
            how = "kept" if found[3] else f"{time.monotonic() - begin:5.0f} s" if found[2] else "isn't proved"
            print(f"{found[1]:15} {how}", flush=True)
        if EDIT.match(line):
            print(line, end="", flush=True)
    return line.strip()


def build_program(folder: str, name: str, to: str) -> None:
    """Proves and builds a program that crates.txt doesn't name, and puts it into a folder."""
    with open(f"{folder}/list.txt", encoding="utf-8") as text:
        extra = {it: Extra(f"{folder}/{it}", uses, ".txt") for it, (_, uses) in rows_in(text.read()).items()}
    tree = Tree(name, extra)
    with tree.in_turn():
        tree.prove([name])
        os.makedirs(to, exist_ok=True)
        put_copy(f"{tree.folder(name)}/out/{name}", f"{to}/{name}")


def main(words: list[str]) -> None:
    """Does what the words of the command line say."""
    if words == ["clean"]:
        clean()
    elif words[:1] == ["build"] and len(words) == 4:
        build_program(*words[1:])
    else:
        sys.exit(__doc__)


if __name__ == "__main__":
    main(sys.argv[1:])
