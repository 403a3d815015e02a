#!/usr/bin/env python3
"""Times how long the reading room takes to open an archive of 500 MB, beside `warc list` and `warc check`.

Usage: page.py PAGE PROGRAM FOLDER

The archive is made in FOLDER once and kept: 50,000 pages of 10,000 bytes, each with the digest of its block. Prints a
table in Markdown: seconds until the page shows its first rows, all rows, the findings and the last verdict, and until
the archive is open for questions; seconds of one answer then; and seconds of the program. Each is the least of three
runs, or of RUNS from the environment.
"""
from __future__ import annotations

import os
import sys
import time

from shared import made_on, make, put_table, run

sys.path.insert(0, os.path.join(os.path.dirname(os.path.abspath(__file__)), "..", "tests", "page"))
from browser import Browser

RUNS = int(os.environ.get("RUNS", "3"))
RECORDS, LENGTH = 50_000, 10_000


def open_page(page: str, archive: str) -> list[float]:
    """Seconds until the first rows, all rows, the findings and all verdicts are there and the archive is open, and the
    seconds of an answer."""
    browser = Browser()
    try:
        browser.go(os.path.abspath(page))
        browser.run(
            """window.seen = {}; const old = hear; room.library.worker.onmessage = (() => {
          const before = room.library.worker.onmessage;
          return (event) => {
            const report = event.data.report;
            if (report && (report === 'verdicts' || !window.seen[report])) window.seen[report] = performance.now();
            before(event);
          };
        })(); 0"""
        )
        browser.run(
            """const given = openFiles;
          openFiles = (files) => { window.began = performance.now(); given(files); }; 0"""
        )
        browser.give_file("#file", archive)
        done = "(room.findings !== null && room.isOpen && room.counts.judged === room.rows.count)"
        browser.until(f"{done} || document.getElementById('status').textContent.includes('stopped')", 300)
        names = "['rows', 'listed', 'findings', 'verdicts', 'opened']"
        times = browser.run(f"{names}.map((name) => (window.seen[name] - window.began) / 1000)")
        begun = time.monotonic()
        browser.run("room.library.ask([{ position: 7 }]).then((answers) => answers[0].length)")
        return [*times, time.monotonic() - begun]
    finally:
        browser.close()


def main() -> None:
    """Makes the archive, and prints the times."""
    page, program, folder = sys.argv[1:]
    os.makedirs(folder, exist_ok=True)
    archive = os.path.join(folder, "pages.warc")
    make(archive, RECORDS, LENGTH)
    print(f"{made_on(program.split()[-1])}\n\n{os.path.getsize(archive) / 1e6:.0f} MB, {RECORDS:,} records.\n")
    least = [min(times) for times in zip(*(open_page(page, archive) for _ in range(RUNS)))]
    names = ("the first rows", "all rows", "the findings", "all verdicts", "open for questions", "an answer then")
    rows = [[f"page, {name}", f"{seconds:.2f}"] for name, seconds in zip(names, least)]
    for command in ("list", "check"):
        taken = min(run([*program.split(), command, archive]).seconds for _ in range(RUNS))
        rows.append([f"`warc {command}`", f"{taken:.2f}"])
    put_table(["What", "Seconds"], rows)


main()
