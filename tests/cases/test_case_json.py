"""Lines of JSON, read by Python and compared with the lines of columns, over all archives of the scripts."""
from __future__ import annotations

import json
import subprocess
from typing import Dict, List, Union

import pytest
from cases_commands import Place
from cases_script import ARCHIVES

LONGEST = 100_000
SHORT = [data for data in ARCHIVES if len(data) <= LONGEST]
NAMES = ["position", "offset", "length", "type", "date", "id", "target"]
NUMBERS = 3
ID = "<urn:uuid:00000000-0000-4000-8000-%012d>"

Text = Union[str, Dict[str, str]]


def run(place: Place, command: str, data: bytes, *flags: str) -> "subprocess.CompletedProcess[bytes]":
    """A run of a command over bytes."""
    return subprocess.run([place.program, command, *flags, "-"], input=data, capture_output=True, check=False)


def listed(place: Place, data: bytes, *flags: str) -> "subprocess.CompletedProcess[bytes]":
    """A run of `list` over bytes."""
    return run(place, "list", data, *flags)


def text_of(value: Text) -> bytes:
    """The bytes of a text: those of a string, or those whose hexadecimal digits an object has."""
    if isinstance(value, str):
        return value.encode()
    assert list(value) == ["hex"]
    with pytest.raises(UnicodeDecodeError):
        bytes.fromhex(value["hex"]).decode()
    return bytes.fromhex(value["hex"])


def columns_of(line: bytes) -> List[bytes]:
    """The columns of a line of JSON, as `list` writes them without the flag."""
    row = json.loads(line)
    assert list(row) == NAMES
    numbers, texts = list(row.values())[:NUMBERS], list(row.values())[NUMBERS:]
    assert all(isinstance(number, int) for number in numbers)
    return [b"%d" % number for number in numbers] + [b"-" if text is None else text_of(text) for text in texts]


def in_columns(lines: bytes) -> bytes:
    """What `list` writes without the flag, by lines of JSON."""
    return b"".join(b"\t".join(columns_of(line)) + b"\n" for line in lines.split(b"\n")[:-1])


@pytest.mark.parametrize("number", range(len(SHORT)))
def test_archive(number: int, place: Place) -> None:
    plain, lines = listed(place, SHORT[number]), listed(place, SHORT[number], "--json")
    assert (lines.returncode, lines.stderr) == (plain.returncode, plain.stderr)
    assert in_columns(lines.stdout) == plain.stdout


def summary_lines(line: bytes) -> bytes:
    """What `summary` writes without the flag, by its line of JSON."""
    lines = []
    for name, value in json.loads(line).items():
        assert isinstance(value, int) != name.endswith("_date")
        text = b"%d" % value if isinstance(value, int) else b"-" if value is None else text_of(value)
        lines.append(name.replace("_", " ").encode() + b"\t" + text + b"\n")
    return b"".join(lines)


@pytest.mark.parametrize("number", range(len(SHORT)))
def test_summary(number: int, place: Place) -> None:
    plain, line = run(place, "summary", SHORT[number]), run(place, "summary", SHORT[number], "--json")
    assert (line.returncode, line.stderr) == (plain.returncode, plain.stderr)
    assert line.stdout.count(b"\n") == (plain.returncode == 0)
    assert (summary_lines(line.stdout) if line.stdout else b"") == plain.stdout


def record(number: int, target: bytes) -> bytes:
    """A record of a target."""
    head = f"WARC/1.1\r\nWARC-Type: resource\r\nWARC-Record-ID: {ID % number}\r\nWARC-Date: 2020-01-01T00:00:00Z\r\n"
    return head.encode() + b"WARC-Target-URI: " + target + b"\r\nContent-Length: 0\r\n\r\n\r\n\r\n"


def test_every_byte(place: Place) -> None:
    # Some bytes are refused in a value.
    targets = [b"http://a.example/" + bytes([byte]) + b"/" for byte in range(256)]
    data = b"".join(
        record(number, target)
        for number, target in enumerate(targets)
        if listed(place, record(number, target)).returncode == 0
    )
    plain, lines = listed(place, data), listed(place, data, "--json")
    assert plain.stdout.count(b"\n") > 200
    assert in_columns(lines.stdout) == plain.stdout


TEXTS = ["ß", "€", "😀", "\\u0041", '"', "\\", "a\tb", "\u2028"]


@pytest.mark.parametrize("text", TEXTS)
def test_text(text: str, place: Place) -> None:
    target = f"http://a.example/{text}/"
    lines = listed(place, record(1, target.encode()), "--json")
    assert json.loads(lines.stdout)["target"] == target
