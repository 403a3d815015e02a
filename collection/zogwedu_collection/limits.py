"""What a server may use, and how that is stated."""
from __future__ import annotations

import dataclasses
import re
from typing import Mapping

from .texts import Trouble

POWERS = " KMGT"
NUMBER = re.compile(r"(\d{1,15})([KMGT]?)", re.ASCII)
VARIABLE = "WARC_SERVE_"


@dataclasses.dataclass(frozen=True)
class Limits:
    """Archives that are open at once, bytes that are unpacked or joined at once, and requests at work at once."""

    archives: int = 32
    unpacked: int = 16 << 30
    requests: int = 16


def count_of(text: str) -> int:
    """A number that is at least one, perhaps with K, M, G or T for powers of 1024."""
    found = NUMBER.fullmatch(text)
    count = int(found[1]) << (10 * POWERS.index(found[2] or " ")) if found else 0
    if count < 1:
        raise ValueError("not a number that is at least 1: %s" % text)
    return count


def limits_in(variables: Mapping[str, str]) -> Limits:
    """The limits that variables of the environment state, such as WARC_SERVE_ARCHIVES."""
    names = [field.name for field in dataclasses.fields(Limits)]
    try:
        stated = {
            name: count_of(variables[VARIABLE + name.upper()]) for name in names if VARIABLE + name.upper() in variables
        }
    except ValueError as error:
        raise Trouble(str(error)) from None
    return Limits(**stated)
