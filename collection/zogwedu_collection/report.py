"""The report: one HTML file that needs nothing else."""
from __future__ import annotations

import collections
import html
import pkgutil
import string
from typing import Counter, Dict, List, Tuple

from .alarm import looks
from .catalogue import Catalogue
from .disk import written
from .listing import no_bytes, status_json, status_names
from .markup import Columns, bar, chip, folded, grouped, legend, path_cell, plain_time, quoted, section, sized, table
from .states import READ, STATES
from .texts import escaped, now, stored_path

KIND_COLOURS = "#3b6fb6 #e0803a #3f9c76 #b8475a #8464b5 #c4a32e #5aa9c7 #8a6b52 #8d99a6".split()
MOST_YEARS = 40
MOST_KINDS = 8
MOST_HOSTS = 20
MOST_RUNS = 15
MOST_SHOWN = 500


def resource(name: str) -> str:
    """A file of this package."""
    data = pkgutil.get_data(__package__ or "", name)
    assert data is not None
    return data.decode("utf-8")


def tiles(catalogue: Catalogue, states: Dict[str, int]) -> str:
    """The figures of the whole collection."""
    there = "FROM files WHERE state <> 'gone'"
    size, records = catalogue.one("SELECT coalesce(sum(size), 0), coalesce(sum(records), 0) " + there)
    captures = "SELECT coalesce(sum(captures), 0) FROM hosts JOIN files USING (file) WHERE state <> 'gone'"
    found = (
        ("files", grouped(sum(states.values()) - states.get("gone", 0))),
        ("on disk", sized(size)),
        ("records", grouped(records)),
        ("captures", grouped(catalogue.one(captures)[0])),
        ("files that need a look", grouped(sum(count for state, count in states.items() if state != "good"))),
    )
    boxes = ("<div class=tile><b>%s</b><span>%s</span></div>" % (value, name) for name, value in found)
    return "<div class=tiles>%s</div>" % "".join(boxes)


def state_section(states: Dict[str, int]) -> str:
    there = [state for state in STATES if state in states]
    parts = [("var(--%s)" % state, states[state]) for state in there]
    entries = [
        ("var(--%s)" % state, "<b>%s</b> %s: %s" % (grouped(states[state]), state, STATES[state])) for state in there
    ]
    about = "Each file has the state that its last reading gave."
    return section("Files by state", about, bar(parts) + legend(entries))


def fixity_section(catalogue: Catalogue) -> str:
    """The digests of the whole collection after each run, as the run noted them at its end."""
    query = (
        "SELECT run, began, ended, files_read, good, unchecked, bad, no_bytes FROM runs ORDER BY run DESC LIMIT %d"
        % MOST_RUNS
    )
    rows = []
    for run, began, ended, read, *counts in catalogue.rows(query):
        at = plain_time(began) + ("" if ended else " (not at its end)")
        colours = "var(--good)", "var(--blank)", "var(--bad)", "var(--no-bytes)"
        parts = [(colour, count or 0) for colour, count in zip(colours, counts)]
        numbers = ["-" if count is None else grouped(count) for count in (read, *counts)]
        numbers[3] = '<b style="color:var(--bad)">%s</b>' % numbers[3] if counts[2] else numbers[3]
        rows.append((str(run), at, numbers[0], "<td class=wide>%s</td>" % bar(parts), *numbers[1:]))
    note = (
        "Block digests of all files after each run: good, not checkable, bad, and the digest of no bytes in a revisit,"
        " as wget writes it. A run reads only files that are new or changed, unless it was asked to read all."
    )
    heads = ("Run", "Began (UTC)", "#Files read", "Records", "#Good", "#Not checkable", "#Bad", "#No bytes")
    return section("Fixity from run to run", note, table(heads, rows, "No run yet."))


def payload_section(catalogue: Catalogue) -> str:
    """The digests of payloads of the whole collection after each run that knew of them."""
    query = (
        "SELECT run, began, payloads_good, payloads_unchecked, payloads_bad FROM runs"
        " WHERE payloads_good IS NOT NULL ORDER BY run DESC LIMIT %d" % MOST_RUNS
    )
    rows = []
    for run, began, *counts in catalogue.rows(query):
        parts = list(zip(("var(--good)", "var(--blank)", "var(--bad)"), counts))
        numbers = [grouped(count) for count in counts]
        numbers[2] = '<b style="color:var(--bad)">%s</b>' % numbers[2] if counts[2] else numbers[2]
        rows.append((str(run), plain_time(began), "<td class=wide>%s</td>" % bar(parts), *numbers))
    note = (
        "Payload digests of all files after each run, of the records that state one: good, not checkable, as each of a"
        " request is, and bad. Those of a file that was read by an earlier version are counted once it is read again."
    )
    heads = ("Run", "Began (UTC)", "Payloads", "#Good", "#Not checkable", "#Bad")
    return section("Payloads from run to run", note, table(heads, rows, "No run yet."))


def records_by_year(catalogue: Catalogue) -> Counter[Tuple[str, str]]:
    counts: Counter[Tuple[str, str]] = collections.Counter()
    query = (
        "SELECT year, kind, sum(years.records) FROM years JOIN files USING (file) WHERE state <> 'gone'"
        " GROUP BY year, kind"
    )
    for year, kind, records in catalogue.rows(query):
        counts[escaped(year), escaped(kind)] += records
    return counts


def by_year(catalogue: Catalogue) -> Tuple[List[str], List[str], Counter[Tuple[str, str]]]:
    """Records by year and type: the years, the types, and the counts. Rare types are one; so are early years."""
    counts = records_by_year(catalogue)
    all_kinds: Counter[str] = collections.Counter()
    for (_, kind), count in counts.items():
        all_kinds[kind] += count
    kinds = [kind for kind, _ in all_kinds.most_common(MOST_KINDS)]
    years = sorted({year for year, _ in counts})
    early = set(years[:-MOST_YEARS])
    merged: Counter[Tuple[str, str]] = collections.Counter()
    for (year, kind), count in counts.items():
        merged["earlier" if year in early else year, kind if kind in kinds else "other"] += count
    kinds += ["other"] if len(all_kinds) > len(kinds) else []
    return (["earlier"] if early else []) + years[-MOST_YEARS:], kinds, merged


def year_section(catalogue: Catalogue) -> str:
    """A picture of the records by year and type."""
    years, kinds, counts = by_year(catalogue)
    title, note = "Records by type and year", "By the year of the record's own date."
    if not years:
        return section(title, note, "<p class=empty>No records.</p>")
    picture = Columns(years, max(sum(counts[year, kind] for kind in kinds) for year in years))
    for place, year in enumerate(years):
        picture.add(place, [(colour, kind, counts[year, kind]) for colour, kind in zip(KIND_COLOURS, kinds)])
    entries = [
        (colour, "%s <b>%s</b>" % (html.escape(kind), grouped(sum(counts[year, kind] for year in years))))
        for colour, kind in zip(KIND_COLOURS, kinds)
    ]
    return section(title, note, picture.picture() + legend(entries))


def host_section(catalogue: Catalogue) -> str:
    """The hosts with most captures."""
    query = (
        "SELECT host, sum(captures), sum(bytes), count(*) FROM hosts JOIN files USING (file)"
        " WHERE state <> 'gone' GROUP BY host ORDER BY sum(captures) DESC, host LIMIT %d" % MOST_HOSTS
    )
    found = catalogue.rows(query)
    most = max((row[1] for row in found), default=1)
    wide = "<td class=wide><div class=bar style='width:%.2f%%'><i style='width:100%%;background:var(--findings)'></i>"
    rows = [
        (
            path_cell(host),
            (wide % max(0.5, 100 * count / most)) + "</div></td>",
            grouped(count),
            sized(size),
            grouped(of),
        )
        for host, count, size, of in found
    ]
    note = (
        "By captures; a target that is no page of the web counts by its scheme. Bytes are those of the bodies that a"
        " replay gives."
    )
    return section("Largest hosts", note, table(("Host", "", "#Captures", "#Bytes", "#Files"), rows, "No captures."))


def change_section(catalogue: Catalogue, run: int) -> str:
    """How files changed in a run."""
    counts = catalogue.rows(
        "SELECT change, count(*) FROM changes WHERE run = ? GROUP BY change ORDER BY change", (run,)
    )
    query = (
        "SELECT change, state_before, state_after, path, path_before FROM changes JOIN files USING (file)"
        " WHERE changes.run = ? ORDER BY change <> 'gone', change = 'new', change, path LIMIT %d" % MOST_SHOWN
    )
    rows = []
    for change, before, after, path, path_before in catalogue.rows(query, (run,)):
        name = html.escape(change if change != "same" else "same bytes")
        name += " from <span class=path>%s</span>" % quoted(path_before) if path_before is not None else ""
        rows.append((name, chip(before) if before else "", chip(after), path_cell(path)))
    same = "with the same size and time, and another state"
    about = ("%s %s" % (grouped(count), same if change == "same" else change) for change, count in counts)
    heads = ("Change", "State before", "State now", "File")
    inside = folded(heads, rows, sum(count for _, count in counts), "Nothing.")
    return section("What changed since the last run", ", ".join(about) or "No file changed.", inside)


def look_section(catalogue: Catalogue) -> str:
    order = "files.state = 'gone', files.state = 'findings', files.state, path LIMIT %d" % MOST_SHOWN
    rows = []
    for it in looks(catalogue, order=order):
        read = ", read on " + it.read_on if it.read_on and it.state not in READ else ""
        words = [quoted(it.detail) + read] if it.detail or read else []
        if it.acknowledged_on is not None:
            by = "acknowledged by %s on %s" % (it.acknowledged_by, it.acknowledged_on)
            words.append("<i>%s</i>" % quoted(by + (": " + it.note if it.note else "")))
        rows.append((chip(it.state), path_cell(it.path), "; ".join(words)))
    total = catalogue.one("SELECT count(*) FROM files WHERE state <> 'good'")[0]
    inside = folded(("State", "File", "Why"), rows, total, "None.")
    return section("Files that need a look", "What was found of each.", inside)


def about_run(catalogue: Catalogue) -> Tuple[int, str]:
    """The last run: its number, and a line about it."""
    row = catalogue.one("SELECT run, began, ended, hosts, seconds FROM runs ORDER BY run DESC LIMIT 1")
    run, began, ended, hosts, seconds = row or (0, "", "", 0, 0)
    line = "Run %d, %s to %s UTC, machines: %d, seconds over files: %.0f. Catalogue %s" % (
        run,
        plain_time(began),
        plain_time(ended or now()),
        hosts or 0,
        seconds or 0,
        quoted(stored_path(catalogue.folder)),
    )
    empty = no_bytes(catalogue)
    return run, line + (". Revisits with the digest of no bytes: %s" % grouped(empty) if empty else "")


def report_text(catalogue: Catalogue) -> str:
    """The report as HTML."""
    run, about = about_run(catalogue)
    states = catalogue.states()
    parts = (
        tiles(catalogue, states),
        state_section(states),
        look_section(catalogue),
        fixity_section(catalogue),
        payload_section(catalogue),
        change_section(catalogue, run),
        year_section(catalogue),
        host_section(catalogue),
    )
    page = string.Template(resource("report.html"))
    return page.substitute(run=run, style=resource("report.css"), about=about, sections="\n".join(parts))


def write_report(catalogue: Catalogue, path: str, form: str = "text") -> None:
    """Writes the report, or its list of the files that need a look for a script: names or json."""
    with written(path) as out:
        if form == "names":
            out.writelines(status_names(catalogue))
        else:
            text = status_json(catalogue) if form == "json" else report_text(catalogue)
            out.write(text.encode("utf-8", "backslashreplace"))
