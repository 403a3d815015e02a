"""The command line."""
from __future__ import annotations

import argparse
import contextlib
import io
import os
import signal
import sqlite3
import sys
import traceback
from typing import Callable, NoReturn, Optional, Union

from . import __doc__ as about_all
from .ages import seconds_in
from .alarm import states_in
from .configuration import PATH, configured
from .jobs import do_jobs
from .limits import Limits, count_of
from .messages import ERROR, INFO, MESSAGES
from .search_options import add_search
from .space import full_folders
from .texts import Trouble, say, shown

Options = argparse.Namespace
KEPT_RUNS = 10
MOST_SECONDS = 10**9
LISTEN = "127.0.0.1:8080"
CATALOGUE = "WARC_CATALOGUE"


def do(options: Options) -> int:
    """Does the command. A job begins anew for each few files, so it doesn't wait for what only others need."""
    if options.command == "job":
        return do_jobs(os.path.abspath(options.jobs_folder), options.numbers)
    from .commands import COMMANDS

    return COMMANDS[options.command](options)


def seconds_of(text: str) -> float:
    """A time that the system's clock takes; 0 is none."""
    seconds = float(text)
    if not 0 <= seconds <= MOST_SECONDS:
        raise ValueError("not a number of seconds from 0 to %d" % MOST_SECONDS)
    return seconds


def add_run_options(parser: argparse.ArgumentParser) -> None:
    add = parser.add_argument
    add(
        "paths",
        nargs="*",
        metavar="PATH",
        help="a folder or a file that the collection is to have too; those of before stay",
    )
    names = "a file that names files, a name a line or ended by a zero byte"
    add("--files", action="append", default=[], metavar="LIST", help=names)
    manifest = "checksums that files have to have, as sha256sum and md5sum write them, or a manifest of BagIt"
    add("--manifest", action="append", default=[], metavar="FILE", help=manifest)
    add("--all", action="store_true", help="reads all files, and not only new and changed ones")
    add(
        "--timeout",
        type=seconds_of,
        metavar="SECONDS",
        help="the longest time that all that is done over a file may take",
    )
    digest = "keeps the SHA-256 of each whole file, and compares it with the one that an earlier run kept"
    add("--digest", action="store_true", help=digest)
    missing = "takes files for gone that aren't there, however many of a folder"
    add("--allow-missing", action="store_true", help=missing)
    add("--batch", type=count_of, metavar="N", help="files for each job; as many as take some seconds without it")
    within = "reads again the files that were read longest ago, so that each is read once in a time, as 30d"
    add("--within", type=seconds_in, metavar="TIME", help=within)
    text = parser.add_mutually_exclusive_group()
    parser.set_defaults(text=None)
    keeps = "keeps the texts of pages for search, in this run and all later ones"
    text.add_argument("--text", dest="text", action="store_const", const=True, help=keeps)
    removes = "keeps no texts any more, and removes the index"
    text.add_argument("--no-text", dest="text", action="store_const", const=False, help=removes)
    rate = "the most bytes that all jobs of a run read in a second; K, M, G and T are powers of 1024"
    add("--rate", type=count_of, metavar="BYTES", help=rate)
    unpacked = "bytes that the jobs of a machine unpack at once, 16G without it; K, M, G and T are powers of 1024"
    add("--unpacked", type=count_of, metavar="BYTES", default=Limits.unpacked, help=unpacked)
    add_program_options(parser, "a folder of the catalogue")


def add_program_options(parser: argparse.ArgumentParser, default: str = "TMPDIR or /tmp") -> None:
    program = "the program; without it the one beside this script or in PATH"
    parser.add_argument("--warc", metavar="PROGRAM", help=program)
    folder = "where compressed files are unpacked; %s without it" % default
    parser.add_argument("--temporary", metavar="FOLDER", help=folder)


def add_forms(parser: argparse.ArgumentParser, what: str) -> None:
    """The options that have something printed for scripts."""
    forms = parser.add_mutually_exclusive_group()
    parser.set_defaults(form="text")
    names = "%s ended by zero bytes, with names as they are" % what
    forms.add_argument("-0", dest="form", action="store_const", const="names", help=names)
    forms.add_argument("--json", dest="form", action="store_const", const="json", help="%s as JSON" % what)


def add_alarm(parser: argparse.ArgumentParser) -> None:
    """The options that say what rings."""
    states = parser.add_mutually_exclusive_group()
    strict = "ends with 1 for each file that isn't good"
    states.add_argument("--strict", action="store_true", help=strict)
    fail_on = "the states that end it with 1, with commas between them, in the place of those of severe faults"
    states.add_argument("--fail-on", type=states_in, metavar="STATE,..", help=fail_on)


def add_machines(parser: argparse.ArgumentParser) -> None:
    add = parser.add_argument
    add("--jobs", metavar="N", help="files at a time on each machine; as many as it has cores without it")
    hosts = "machines that see the same files, as GNU parallel takes them: 4/host1,host2; : is this one"
    add("--sshlogin", action="append", default=[], metavar="HOSTS", help=hosts)
    add("--sshloginfile", action="append", default=[], metavar="FILE", help="a file with a machine a line")


def add_output(parser: argparse.ArgumentParser, what: str) -> None:
    """The options that say what is printed and logged."""
    add = parser.add_argument
    parser.set_defaults(form="text")
    add("--quiet", action="store_true", help="prints nothing where all is well")
    log = "adds a line for each file and its state to a file, or to the system's log (syslog)"
    add("--log", metavar="FILE|syslog", help=log)
    add("--json", dest="form", action="store_const", const="json", help="prints %s as JSON" % what)


def add_metrics(parser: argparse.ArgumentParser) -> None:
    metrics = "writes numbers for the textfile collector of Prometheus's node exporter"
    parser.add_argument("--metrics", metavar="FILE", help=metrics)


def command_line() -> argparse.ArgumentParser:
    about = (about_all or "").split("\n\n")[0]
    parser = argparse.ArgumentParser(prog="warc-collection", description=about)
    folder = "the folder of the catalogue; without it $WARC_CATALOGUE, or the folder catalogue here"
    default = os.environ.get(CATALOGUE, "catalogue")
    parser.add_argument("-c", "--catalogue", metavar="FOLDER", default=default, help=folder)
    configuration = "says what options say, in a section for each command; %s without it, if it is there" % PATH
    parser.add_argument("--configuration", metavar="FILE", help=configuration)
    commands = parser.add_subparsers(dest="command", required=True, metavar="COMMAND")

    def command(name: str, what: str) -> argparse.ArgumentParser:
        return commands.add_parser(name, help=what, description=what[0].upper() + what[1:] + ".")

    made = command("run", "reads what is new or changed, over all cores or many machines, and reports")
    add_run_options(made)
    add_machines(made)
    add_alarm(made)
    add_output(made, "the states, and the files that need a look,")
    add_metrics(made)
    made = command("plan", "writes the list of jobs, and prints the folder that holds it")
    add_run_options(made)
    add_output(made, "what is to be done")
    made = command("job", "does jobs of a list, by their numbers from 1")
    made.add_argument("jobs_folder", metavar="JOBS")
    made.add_argument("numbers", nargs="*", type=int, metavar="NUMBER")
    made = command("load", "takes in what jobs found")
    add_alarm(made)
    add_output(made, "the states, and the files that need a look,")
    add_metrics(made)
    made = command("status", "prints how many files are in each state, and those that need a look")
    add_forms(made, "the files that need a look,")
    age = "ends with 1 too if the last run ended longer ago, as 36h or 2d"
    add_alarm(made)
    made.add_argument("--new", action="store_true", help="prints what is otherwise than after the run before, alone")
    made.add_argument("--max-age", type=seconds_in, metavar="TIME", help=age)
    add_metrics(made)
    add_questions(command)
    add_upkeep(command)
    return parser


Command = Callable[[str, str], argparse.ArgumentParser]


def add_questions(command: Command) -> None:
    """The commands over captures."""
    made = command("find", "prints the captures of a URI, or that as of a date")
    add_request(made)
    made.add_argument("date", metavar="DATE", nargs="?")
    add_forms(made, "a line for each capture,")
    add_access(made)
    made = command("replay", "writes the body that was captured of a URI, as of a date")
    add_request(made)
    made.add_argument("date", metavar="DATE")
    add_codings(made)
    add_whole(made)
    made = command("search", "prints the pages that have words, and when they had them")
    add_search(made)
    add_forms(made, "a line for each page,")
    add_access(made)
    add_program_options(made)
    add_server(command("serve", "serves the collection to browsers and to Memento clients, for reading alone"))
    made = command("access", "says which line of the access rules decides for a URI")
    made.add_argument("--access", metavar="FILE", required=True, help="the file with the rules")
    made.add_argument("uri", metavar="URI")


def add_server(parser: argparse.ArgumentParser) -> None:
    """The options of the server."""
    add = parser.add_argument
    where = "where it listens, %s without it; systemd: at the socket that systemd passes" % LISTEN
    add("--listen", metavar="ADDRESS:PORT", default=LISTEN, help=where)
    archives = "archives that are open at once, %d without it" % Limits.archives
    add("--archives", type=count_of, metavar="N", default=Limits.archives, help=archives)
    unpacked = "bytes that are unpacked or joined at once, 16G without it; K, M, G and T are powers of 1024"
    add("--unpacked", type=count_of, metavar="BYTES", default=Limits.unpacked, help=unpacked)
    requests = "requests at work at once, %d without it" % Limits.requests
    add("--requests", type=count_of, metavar="N", default=Limits.requests, help=requests)
    names = "by which names readers ask it; the address where it listens and localhost without it"
    add("--host", nargs="+", action="extend", default=[], metavar="NAME", help=names)
    add("--base-url", metavar="URL", help="what its links begin with; http:// and the name that was asked without it")
    proxy = "a proxy alone asks it, and says by X-Forwarded-For, -Host and -Proto who asks what"
    add("--behind-proxy", action="store_true", help=proxy)
    add("--paths", action="store_true", help="answers have the paths of files, and not their names alone")
    add_access(parser)
    on_site = "the networks of readers on site, as 192.0.2.0/24"
    add("--onsite", nargs="+", action="extend", default=[], metavar="NETWORK", help=on_site)
    add("--log", metavar="FILE", help="a line for each answer; no log without it")
    add_whole(parser)
    add_program_options(parser)


def add_access(parser: argparse.ArgumentParser) -> None:
    parser.add_argument("--access", metavar="FILE", help="the file that says who may see what")


def add_whole(parser: argparse.ArgumentParser) -> None:
    what = "reads all of each file, and not the records alone that a capture needs"
    parser.add_argument("--whole", action="store_true", help=what)


def add_codings(parser: argparse.ArgumentParser) -> None:
    """The options for bodies that a server sent chunked or compressed."""
    forms = parser.add_mutually_exclusive_group()
    parser.set_defaults(form="plain")
    stored = "writes a coded body (chunked, compressed) as it is stored, and names the codings"
    forms.add_argument("--stored", dest="form", action="store_const", const="stored", help=stored)
    decoded = "undoes the codings by the Python package zogwedu, which isn't proved, and says which"
    forms.add_argument("--decoded", dest="form", action="store_const", const="decoded", help=decoded)


def add_request(parser: argparse.ArgumentParser) -> None:
    parser.add_argument("--uri-hex", action="store_true", help="URI is given in hexadecimal digits")
    parser.add_argument("uri", metavar="URI")
    add_program_options(parser)


def add_index(parser: argparse.ArgumentParser) -> None:
    """The options of an index."""
    add = parser.add_argument
    add("--cdx11", action="store_true", help="as CDX with eleven fields, and not as CDXJ")
    add("--paths", metavar="FILE", help="writes the names and the paths of the files that it has to FILE")
    add("--relative", metavar="FOLDER", help="names files by their paths below FOLDER, and not by their last part")
    add_access(parser)
    add("--temporary", metavar="FOLDER", help="where lines are sorted; TMPDIR or /tmp without it")


def add_export(parser: argparse.ArgumentParser) -> None:
    """The options of an export."""
    add = parser.add_argument
    add("folder", metavar="FOLDER", nargs="?", help="for the tables; with --text a file, standard output without it")
    sums = "writes the SHA-256 of each file that is known, as sha256sum does"
    add("--manifest", metavar="FILE", help=sums)
    add("--text", action="store_true", help="writes the texts of pages, as a script for psql, and not the tables")
    parser.set_defaults(form="text")
    lines = "with --text: a line of JSON for each text of a URI"
    add("--json", dest="form", action="store_const", const="json", help=lines)
    add_access(parser)
    add("--temporary", metavar="FOLDER", help="where --text copies the databases; TMPDIR or /tmp without it")


def add_upkeep(command: Command) -> None:
    """The commands over the catalogue itself."""
    made = command("report", "writes the report, one HTML file")
    made.add_argument("path", metavar="FILE")
    add_forms(made, "in its place the files that need a look,")
    add_index(command("cdxj", "prints an index of the captures, by which other programs of web archives find them"))
    add_export(command("export", "writes the tables as text, or the texts of pages, for PostgreSQL's psql"))
    made = command("accept", "takes what is in altered files now for what has to be in them")
    made.add_argument("paths", nargs="+", metavar="FILE")
    made = command("acknowledge", "silences the states of files, until they change")
    made.add_argument("paths", nargs="+", metavar="FILE")
    made.add_argument("--note", default="", metavar="TEXT", help="why, for the report")
    made = command("forget", "ends the watch of folders, and forgets files that were removed on purpose")
    made.add_argument("paths", nargs="+", metavar="PATH", help="a file, or a folder with all below it")
    add_output(made, "the files that were forgotten and those that stay")
    made = command("prune", "drops what earlier runs found of single files")
    keep = "how many runs are kept, %d without it" % KEPT_RUNS
    made.add_argument("--keep", type=int, default=KEPT_RUNS, metavar="RUNS", help=keep)
    add_output(made, "the number of rows that were dropped")


def interrupt(_signal: int, _frame: object) -> NoReturn:
    raise KeyboardInterrupt


def done(options: Options) -> int:
    """Does a command. Whatever goes wrong is a sentence and status 3, since 1 and 2 mean something else."""
    try:
        MESSAGES.is_quiet = getattr(options, "quiet", False)
        open_log(getattr(options, "log", None))
        status = do(options)
        sys.stdout.flush()
        return status
    except Trouble as trouble:
        MESSAGES.say(str(trouble), ERROR)
        return trouble.status
    except KeyboardInterrupt:
        say("stopped")
    except BrokenPipeError:
        pass
    except (OSError, sqlite3.Error, MemoryError) as error:
        MESSAGES.say(sentence(error, options.catalogue), ERROR)
    except Exception as error:  # a fault of this program
        say("%s: %s" % (type(error).__name__, error))
        traceback.print_exc()
    return 3


def open_log(where: Optional[str]) -> None:
    """Opens the log, if one is asked for."""
    if where is not None:
        from .log import opened_log  # here, since the module for it takes time, and jobs do without

        MESSAGES.log = opened_log(where)


def sentence(error: Union[OSError, sqlite3.Error, MemoryError], folder: str) -> str:
    if isinstance(error, OSError):
        name = "" if error.filename is None else "%s: " % shown(os.fsdecode(error.filename))
        return name + (error.strerror or str(error))
    if not isinstance(error, sqlite3.Error):
        return "out of memory"
    full = full_folders([folder, os.path.join(folder, "temporary")]) if "full" in str(error) else []
    return "; ".join(["the catalogue: %s" % error, *("%s is nearly full" % shown(it) for it in full)])


def close_output() -> None:
    """What couldn't be written isn't tried again when Python ends, which would end with a status of its own."""
    try:
        sys.stdout.flush()
    except (OSError, ValueError):
        with contextlib.suppress(OSError, ValueError):
            os.dup2(os.open(os.devnull, os.O_WRONLY), sys.stdout.fileno())


def main() -> int:
    """Does what the command line says. Returns the exit status."""
    for stream in (sys.stdout, sys.stderr):
        if isinstance(stream, io.TextIOWrapper):
            stream.reconfigure(errors="backslashreplace")
    end_when_told()
    try:
        elsewhere = {"catalogue"} if CATALOGUE in os.environ else set()
        options = configured(command_line, elsewhere, None)
    except Trouble as trouble:
        say(str(trouble))
        return trouble.status
    status = done(options)
    MESSAGES.note("%s ended with status %d" % (options.command, status), ERROR if status else INFO)
    MESSAGES.end(status)
    close_output()
    return status


def end_when_told() -> None:
    """Ends in order at a signal that ends a program."""
    for ending in (signal.SIGTERM, signal.SIGHUP):
        if signal.getsignal(ending) != signal.SIG_IGN:  # nohup has a run go on
            signal.signal(ending, interrupt)
