"""What each command does."""
from __future__ import annotations

import argparse
import contextlib
import functools
import json
import os
import sys
from typing import Any, Dict, Iterator, List, Optional, Sequence

from .access import read_access
from .ages import is_late
from .alarm import Alarm, acknowledge, rings
from .captures import Request, chosen_captures, warn_of_unknown
from .catalogue import Catalogue
from .cdxj import NAMES, index, put_index
from .compared import accept
from .decode import Decoder
from .export import export
from .export_texts import export_texts
from .hosts import site_for
from .limits import Limits
from .listing import capture_line, is_partly_unread, put, status_pieces
from .manifest import told_unknown, write_manifest
from .metrics import check_metrics, write_metrics
from .moves import forget_files, prune
from .package import package_for
from .program import usable_program
from .replay import Answer, Replayer, settled, without_troubled, write_body
from .report import write_report
from .runs import SECONDS_A_FAR_JOB, SECONDS_A_JOB, Asked, Machines, do_run, load, make_plan
from .search_command import search_command
from .search_index import settle_texts
from .states import ALARMING, STATES
from .texts import Trouble, counted, escaped, inform, say, shown, stored_path
from .timemaps import Seen
from .watched import watched

Options = argparse.Namespace


def asked(options: Options) -> Asked:
    words = options.paths, options.files, options.all, options.warc, options.temporary, options.timeout, options.digest
    how = options.within, options.rate, options.allow_missing, options.unpacked
    is_far = getattr(options, "sshlogin", None) or getattr(options, "sshloginfile", None)
    seconds = SECONDS_A_FAR_JOB if is_far else SECONDS_A_JOB
    return Asked(*words, *how, getattr(options, "jobs", None), options.batch, seconds, options.manifest, options.text)


def alarm_of(options: Options) -> Alarm:
    states = options.fail_on or (tuple(state for state in STATES if state != "good") if options.strict else ALARMING)
    return Alarm(states, getattr(options, "new", False), getattr(options, "max_age", None))


def print_status(catalogue: Catalogue, options: Options, alarm: Alarm, is_partly: bool = False) -> int:
    """Prints how the collection is, and a line for each file that needs a look; with --quiet nothing where all is well.
    Returns the status."""
    is_bad = rings(catalogue, alarm) or is_late(catalogue, alarm.max_age)
    status = 3 if is_partly or is_partly_unread(catalogue) else int(is_bad)
    if status or not getattr(options, "quiet", False):
        for piece in status_pieces(catalogue, options.form, alarm):
            put(piece)
    return status


def print_values(options: Options, values: Dict[str, Any]) -> None:
    """Prints what a command did, where JSON is asked for."""
    if options.form == "json":
        put(json.dumps(values, indent=1) + "\n")


@contextlib.contextmanager
def measured(catalogue: Catalogue, path: Optional[str]) -> Iterator[None]:
    """Writes the metrics after a command, however it ends."""
    try:
        yield
    finally:
        write_metrics(catalogue, path)


def write_own_report(catalogue: Catalogue) -> None:
    write_report(catalogue, os.path.join(catalogue.folder, "report.html"))


def run_command(options: Options) -> int:
    check_metrics(options.metrics)
    catalogue = Catalogue(options.catalogue, is_made=True)
    machines = Machines(options.sshlogin, options.sshloginfile, options.jobs)
    with catalogue.locked(), measured(catalogue, options.metrics):
        plan = do_run(catalogue, asked(options), machines)
        write_own_report(catalogue)
    return print_status(catalogue, options, alarm_of(options), plan.is_partly_unread)


def plan_command(options: Options) -> int:
    catalogue = Catalogue(options.catalogue, is_made=True)
    with catalogue.locked():
        plan = make_plan(catalogue, asked(options))
    about = {"run": plan.run, "folder": plan.folder, "jobs": plan.count, "files": plan.files, "to_read": plan.to_read}
    troubles = {it.path: it.trouble for it in watched(catalogue) if it.trouble}
    print_values(options, dict(about, bytes=sum(plan.job_bytes), troubles=troubles))
    if options.form == "text":
        put(os.fsencode(plan.folder) + b"\n")
    return 3 if plan.is_partly_unread else 0


def load_command(options: Options) -> int:
    check_metrics(options.metrics)
    catalogue = Catalogue(options.catalogue)
    with catalogue.locked(), measured(catalogue, options.metrics):
        load(catalogue)
        write_own_report(catalogue)
    return print_status(catalogue, options, alarm_of(options))


def status_command(options: Options) -> int:
    check_metrics(options.metrics)
    catalogue = Catalogue(options.catalogue)
    write_metrics(catalogue, options.metrics)
    return print_status(catalogue, options, alarm_of(options))


def find_command(options: Options) -> int:
    catalogue, request = Catalogue(options.catalogue), Request(options.uri, options.uri_hex, options.date)
    warc = usable_program(options.warc) if options.date else None
    with catalogue.one_state():
        warn_of_unknown(catalogue, request.target())
        chosen, passed = without_troubled(catalogue, chosen_captures(catalogue, request, warc))
        seen, target = Seen(read_access(options.access)), request.target()
        withheld = [seen.withheld(target, it.instant) for it in chosen]
        listed = [seen.listed(catalogue, it) for it, why in zip(chosen, withheld) if why is None]
    for line in passed:
        say("passed over: " + line)
    for capture in listed:
        put(capture_line(capture, options.form))
    for line in dict.fromkeys(why.text for why in withheld if why is not None):
        say(line)
    return 1 if all(withheld) else 0


def replay_command(options: Options) -> int:
    catalogue, request = Catalogue(options.catalogue), Request(options.uri, options.uri_hex, options.date)
    warc, decoder = usable_program(options.warc), Decoder() if options.form == "decoded" else None
    replayer = Replayer(catalogue, warc, options.temporary, options.form != "plain", options.whole)
    with catalogue.one_state():
        warn_of_unknown(catalogue, request.target())
        chosen = chosen_captures(catalogue, request, warc)
        answers = replayer.all_answers(chosen)
        first = settled(answers)
        undone = "" if decoder is None else decoder.undo(replayer, first)
    write_body(first, sys.stdout.buffer)
    for line in dict.fromkeys(replayer.passed):
        say("passed over: " + line)
    print_answer(first, undone, answers[1:])
    return 0


def print_answer(first: Answer, undone: str, others: Sequence[Answer]) -> None:
    """Says what was written, which codings were undone, of which reading, from which files, and which others agree."""
    lines = [first.chosen() + " " + first.given(), undone, first.joined()]
    lines += first.marks()
    lines += ["agrees: " + answer.described() for answer in others]
    print("\n".join(filter(None, lines)), file=sys.stderr)


def report_command(options: Options) -> int:
    write_report(Catalogue(options.catalogue), options.path, options.form)
    return 0


def export_command(options: Options) -> int:
    if options.text and options.manifest is None:
        seen = Seen(read_access(options.access))
        return export_texts(options.catalogue, seen, options.folder, options.form == "json", options.temporary)
    if options.text or options.form == "json" or options.access or options.temporary:
        raise Trouble("export: --text goes without --manifest, and --json, --access and --temporary with --text", 2)
    if options.folder is None and options.manifest is None:
        raise Trouble("export: name a FOLDER, or --manifest FILE", 2)
    catalogue = Catalogue(options.catalogue)
    if options.folder is not None:
        export(catalogue, options.folder)
    unknown = 0 if options.manifest is None else write_manifest(catalogue, options.manifest)
    if unknown:
        say(told_unknown(options.manifest, unknown))
    return 1 if unknown else 0


def forget_command(options: Options) -> int:
    catalogue = Catalogue(options.catalogue)
    with catalogue.locked():
        forgotten, kept = forget_files(catalogue, [os.path.abspath(path) for path in options.paths])
        settle_texts(catalogue, is_tidied=bool(forgotten))
    for path in kept:
        say("%s is in the collection, and isn't gone: not forgotten" % shown(path))
    print_values(options, {"forgotten": forgotten, "kept": kept})
    return 1 if kept else 0


def accept_command(options: Options) -> int:
    catalogue = Catalogue(options.catalogue)
    with catalogue.locked():
        paths: List[str] = [os.path.abspath(path) for path in options.paths]
        left = [path for path in paths if not accept(catalogue, path)]
        settle_texts(catalogue)
        write_own_report(catalogue)
    for path in left:
        say("%s has no new reading to be accepted" % shown(path))
    return 1 if left else 0


def acknowledge_command(options: Options) -> int:
    catalogue = Catalogue(options.catalogue)
    with catalogue.locked():
        paths: List[str] = [os.path.abspath(path) for path in options.paths]
        left = [path for path in paths if not acknowledge(catalogue, path, options.note)]
        write_own_report(catalogue)
    for path in left:
        say("%s has no state to be acknowledged" % shown(path))
    return 1 if left else 0


def prune_command(options: Options) -> int:
    catalogue = Catalogue(options.catalogue)
    if options.keep < 1:
        raise Trouble("keep at least one run")
    with catalogue.locked():
        dropped = prune(catalogue, options.keep)
        settle_texts(catalogue, is_tidied=True)
    inform("dropped %s" % counted(dropped, "row"))
    if not options.quiet:
        print_values(options, {"dropped": dropped})
    return 0


def cdxj_command(options: Options) -> int:
    package, seen = package_for("cdxj", NAMES), Seen(read_access(options.access))
    words = options.cdx11, options.temporary, options.relative
    indexer = index(Catalogue(options.catalogue), package, seen, *words)
    return put_index(indexer, sys.stdout.buffer, options.paths)


def serve_command(options: Options) -> int:
    try:
        from .serve import Place, address_of, serve  # here, since others do without a server
    except ImportError as error:
        raise Trouble("serve needs waitress (python3-waitress): %s" % escaped(str(error))) from None
    limits = Limits(options.archives, options.unpacked, options.requests)
    address = None if options.listen == "systemd" else address_of(options.listen)[0]
    site = site_for(address, options.host, options.base_url, options.behind_proxy, options.paths)
    words = options.listen, options.catalogue, options.warc, options.temporary, limits, site
    rules = functools.partial(read_access, options.access, options.onsite)
    return serve(Place(*words, rules, options.log, is_whole=options.whole))


def access_command(options: Options) -> int:
    """Prints the line that decides for a URI. The status is 1 if it withholds anything from a reader elsewhere."""
    rule = read_access(options.access).decide(stored_path(options.uri)).rule
    put(
        "no line: allowed\n" if rule is None else "%s:%d\t%s\n" % (shown(options.access), rule.number, shown(rule.text))
    )
    return 1 if rule is not None and rule.word != "allow" else 0


# The commands by their names.
COMMANDS = {
    "run": run_command,
    "plan": plan_command,
    "load": load_command,
    "status": status_command,
    "find": find_command,
    "replay": replay_command,
    "search": search_command,
    "serve": serve_command,
    "access": access_command,
    "cdxj": cdxj_command,
    "report": report_command,
    "export": export_command,
    "accept": accept_command,
    "acknowledge": acknowledge_command,
    "forget": forget_command,
    "prune": prune_command,
}
