#!/usr/bin/env python3
"""Draws docs/picture.svg: a terminal in which the program is run over the examples.

Usage: make_picture.py PROGRAM PICTURE
"""
from __future__ import annotations

import html
import os
import subprocess
import sys
from collections.abc import Iterator

from shared import TOP

COMMANDS = [
    "warc list examples/crawl.warc | grep -v request | cut -f 1-5,7 | head -4",
    "warc replay examples/crawl.warc http://127.0.0.1:8765/ 2026-11-26T04:49Z",
    "warc replay examples/crawl.warc http://127.0.0.1:8765/ 9999",
    "warc list examples/damaged.warc",
]
SIZE, LINE, EDGE, WIDTH = 14, 20, 18, 98


def lines(program: str) -> Iterator[tuple[bool, str]]:
    """The lines of the terminal: whether each is a command, and its text."""
    path = f"{os.path.dirname(os.path.abspath(program))}:{os.environ['PATH']}"
    for words in COMMANDS:
        ran = subprocess.run(
            words,
            shell=True,
            cwd=TOP,
            env={**os.environ, "PATH": path},
            stdout=subprocess.PIPE,
            stderr=subprocess.STDOUT,
        )
        yield True, words
        for line in ran.stdout.decode().splitlines():
            yield False, line.expandtabs(8)


def main() -> None:
    program, picture = sys.argv[1:]
    shown = list(lines(program))
    width, height = WIDTH * SIZE * 0.6 + 2 * EDGE, len(shown) * LINE + 2 * EDGE
    out = [
        f'<svg xmlns="http://www.w3.org/2000/svg" width="{width:.0f}" height="{height}"'
        f' viewBox="0 0 {width:.0f} {height}">',
        f'<rect width="{width:.0f}" height="{height}" rx="8" fill="#1d2433"/>',
        f'<g font-family="DejaVu Sans Mono, Menlo, Consolas, monospace" font-size="{SIZE}" fill="#d7dce5"'
        ' xml:space="preserve">',
    ]
    for number, (is_command, text) in enumerate(shown):
        y = EDGE + number * LINE + SIZE
        text = html.escape(text)
        words = (
            f'<tspan fill="#7fc8a9">$ </tspan><tspan fill="#ffffff" font-weight="bold">{text}</tspan>'
            if is_command
            else text
        )
        out.append(f'<text x="{EDGE}" y="{y}">{words}</text>')
    with open(picture, "w", encoding="utf-8") as file:
        file.write("\n".join([*out, "</g>", "</svg>", ""]))


main()
