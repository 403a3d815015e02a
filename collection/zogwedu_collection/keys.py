"""Keys by which near URIs are found: those with the same key in the form SURT are near each other. A key is a help to
search with, and never an answer."""
from __future__ import annotations

import hashlib
import itertools
from typing import TYPE_CHECKING, List, Optional

from .texts import Stored, path_bytes

if TYPE_CHECKING:
    from zogwedu import _surt
else:
    from . import _surt

# A longer target has no near ones: no reader types it, and it would be in the catalogue once more.
MOST_KEYED = 4096
# Bytes of a key's number, which takes less room than the key. What has the same number is compared by its key.
OF_NUMBER = 4
# Adds the targets of some captures, each once, but for those in a usual spelling. `key_number` is the function below.
SPELL = (
    "INSERT OR IGNORE INTO spellings SELECT key_number(target), target"
    " FROM (SELECT DISTINCT target FROM captures WHERE %%s AND length(target) <= %d)" % MOST_KEYED
)
# Drops the targets of a file, and of the reading beside it, that no other file has: its values are both, twice.
UNSPELL = (
    "DELETE FROM spellings WHERE (key, target) IN (SELECT key_number(target), target"
    " FROM (SELECT DISTINCT target FROM captures WHERE file IN (?, ?) AND length(target) <= %d) AS own"
    " WHERE NOT EXISTS (SELECT 1 FROM captures WHERE target = own.target AND file NOT IN (?, ?)))" % MOST_KEYED
)
# Drops those that no file has any more, as after one was read again.
UNSPELL_ALL = "DELETE FROM spellings WHERE NOT EXISTS (SELECT 1 FROM captures WHERE captures.target = spellings.target)"


def key_of(target: Stored) -> str:
    """The key of a target in the form SURT."""
    return _surt.surt(path_bytes(target).decode("utf-8", "surrogateescape"))


def number_of(key: str) -> int:
    """A number made of a key, in as few bytes as SQLite keeps it. Nobody makes another URI with it at will."""
    digest = hashlib.sha256(key.encode("utf-8", "surrogateescape")).digest()
    return int.from_bytes(digest[:OF_NUMBER], "big", signed=True)


def usual_spellings(key: str) -> List[str]:
    """How a URI of the web with a key is mostly spelled: by http or https, with or without www. and a slash at its end.
    These are looked up as they are, so they need no room in the table."""
    if key.startswith(_surt.AS_THEY_ARE) or ")" not in key:
        return []
    authority, _, rest = key.partition(")")
    labels, colon, port = authority.partition(":")
    path, mark, query = rest.partition("?")
    host = ".".join(reversed(labels.split(","))) + colon + port
    fronts = itertools.product(("https://", "http://"), ("", "www."))
    paths = ("/", "") if path == "/" else (path, path + "/")
    return ["%s%s%s%s%s%s" % (*front, host, end, mark, query) for front in fronts for end in paths]


def key_number(target: Stored) -> Optional[int]:
    """The number of the key of a target; None, which no row has, for a usual spelling."""
    key = key_of(target)
    return None if target in usual_spellings(key) else number_of(key)
