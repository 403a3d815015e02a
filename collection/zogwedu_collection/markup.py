"""Pieces of HTML for the report."""
from __future__ import annotations

import html
from typing import List, Sequence, Tuple, Union

from .texts import Stored, escaped

Rows = Sequence[Sequence[str]]
SHOWN_AT_ONCE = 12
UNITS = ("bytes", "KB", "MB", "GB", "TB", "PB")


def quoted(value: Union[None, Stored]) -> str:
    """A text as HTML, escaped as on a terminal: an invisible character can mislead a reader here too."""
    return html.escape(escaped(value)) if value is not None else "-"


def plain_time(value: str) -> str:
    return value.replace("T", " ").rstrip("Z")


def grouped(value: int) -> str:
    """A number with spaces between its thousands."""
    return "{:,}".format(value).replace(",", "\u202f")


def sized(count: float) -> str:
    """A number of bytes for people."""
    power = 0
    while count >= 1000 and power < len(UNITS) - 1:
        count, power = count / 1000, power + 1
    number = grouped(int(count)) if power == 0 else "%.3g" % count if count < 100 else "%.0f" % count
    return number + "\u202f" + UNITS[power]


def bar(parts: Sequence[Tuple[str, int]]) -> str:
    """A bar of parts, each a colour and a number."""
    total = sum(count for _, count in parts) or 1
    inside = "".join(
        '<i style="width:%.3f%%;background:%s"></i>' % (100 * count / total, colour) for colour, count in parts if count
    )
    return '<div class="bar">%s</div>' % inside


def legend(entries: Sequence[Tuple[str, str]]) -> str:
    """A legend: colours, and the HTML beside each."""
    items = ("<li><span class=dot style='background:%s'></span>%s</li>" % entry for entry in entries)
    return "<ul class=legend>%s</ul>" % "".join(items)


def section(title: str, note: str, inside: str) -> str:
    return "<section><h2>%s</h2><p class=note>%s</p>%s</section>" % (title, note, inside)


def table_row(heads: Sequence[str], row: Sequence[str]) -> str:
    cells = (
        cell if cell.startswith("<td") else "<td%s>%s</td>" % (" class=number" if head.startswith("#") else "", cell)
        for head, cell in zip(heads, row)
    )
    return "<tr>%s</tr>" % "".join(cells)


def table(heads: Sequence[str], rows: Rows, empty: str) -> str:
    """A table. A head that begins with # is one of numbers."""
    if not rows:
        return "<p class=empty>%s</p>" % empty
    cells = "".join(
        "<th%s>%s</th>" % (" class=number" if head.startswith("#") else "", head.lstrip("#")) for head in heads
    )
    body = "".join(table_row(heads, row) for row in rows)
    return "<table><thead><tr>%s</tr></thead><tbody>%s</tbody></table>" % (cells, body)


def folded(heads: Sequence[str], rows: Rows, total: int, empty: str) -> str:
    """A table of which the first rows are shown, and further ones when they are asked for."""
    first, rest = rows[:SHOWN_AT_ONCE], rows[SHOWN_AT_ONCE:]
    inside = table(heads, first, empty)
    if rest:
        left = "" if total == len(rows) else " (the first of %s)" % grouped(total - len(first))
        words = grouped(len(rest)), left, table(heads, rest, "")
        inside += "<details><summary>%s more%s</summary>%s</details>" % words
    return inside


def chip(state: str) -> str:
    return '<span class=chip style="background:var(--%s)">%s</span>' % (html.escape(state), html.escape(state))


def path_cell(path: Stored) -> str:
    return "<td class=path>%s</td>" % quoted(path)


def rounded_up(value: int) -> int:
    """A round number that isn't less."""
    power: int = 10 ** (len(str(max(value, 1))) - 1)
    return next(step * power for step in (1, 2, 4, 5, 8, 10) if step * power >= value)


class Columns:
    """A picture of stacked columns, one for each name."""

    WIDTH, HEIGHT, LEFT, FOOT, TOP = 1000, 260, 70, 24, 10

    def __init__(self, names: Sequence[str], most: int) -> None:
        self.names = names
        self.most = rounded_up(most)
        self.step = (self.WIDTH - self.LEFT) / len(names)
        self.tall = self.HEIGHT - self.FOOT - self.TOP
        self.pieces: List[str] = [self.line(quarter) for quarter in range(5)]

    def line(self, quarter: int) -> str:
        """A line across, with its number."""
        at = self.TOP + self.tall * (1 - quarter / 4)
        words = self.LEFT, self.WIDTH, at, at, self.LEFT - 8, at + 4, grouped(self.most * quarter // 4)
        text = '<text x="%d" y="%.1f" text-anchor="end">%s</text>'
        return ('<line x1="%d" x2="%d" y1="%.1f" y2="%.1f"/>' + text) % words

    def add(self, place: int, parts: Sequence[Tuple[str, str, int]]) -> None:
        """Adds a column of parts, each a colour, a name and a number."""
        middle, top, thick = (
            self.LEFT + self.step * (place + 0.5),
            float(self.HEIGHT - self.FOOT),
            min(54, self.step * 0.7),
        )
        for colour, name, count in parts:
            tall = self.tall * count / self.most
            top -= tall
            title = html.escape("%s %s: %s" % (self.names[place], name, grouped(count)))
            box = '<rect x="%.1f" y="%.2f" width="%.1f" height="%.2f" fill="%s"><title>%s</title></rect>'
            self.pieces.append(box % (middle - thick / 2, top, thick, tall, colour, title))
        if len(self.names) <= 20 or place % 2 == 0:
            words = middle, self.HEIGHT - 6, html.escape(self.names[place])
            self.pieces.append('<text x="%.1f" y="%d" text-anchor="middle">%s</text>' % words)

    def picture(self) -> str:
        words = self.WIDTH, self.HEIGHT, "".join(self.pieces)
        return '<svg viewBox="0 0 %d %d" width="100%%" role="img">%s</svg>' % words
