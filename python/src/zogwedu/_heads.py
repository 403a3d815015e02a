"""The fields of heads, as the library reads them."""
from collections.abc import Mapping
from typing import Any, Dict, Iterator, List, NamedTuple, Optional, Tuple, TYPE_CHECKING

from ._library import Fields, HttpHead, text_of

if TYPE_CHECKING:
    from ._archive import Archive

    Texts = Mapping[str, str]
else:
    Texts = Mapping

LOWER = {upper: upper + 32 for upper in range(ord("A"), ord("Z") + 1)}
# Most heads of an archive have the names of one before: their places are kept for this many lists of names, of
# this many characters each.
MOST_LISTS, MOST_NAMES = 256, 1024


class Places(NamedTuple):
    """The places of names, in lower case and as they are written first."""

    lower: Dict[str, List[int]]
    written: Dict[str, List[int]]


_known: Dict[Tuple[str, ...], Places] = {}


class Headers(Texts):
    """The fields of a head: a mapping of names to values, in which ASCII case doesn't matter.

    `headers[name]` is the value of the first field of this name, and `headers.get_all(name)` lists those of all.
    `headers.fields` has each field, in the order of the head, with repeated names. As a mapping it has each name once,
    as it is written first. A folded value is one line.
    """

    __slots__ = ("_parts", "_places")

    def __init__(self, parts: Fields) -> None:
        self._parts = parts
        names = tuple(parts[::2])
        places = _known.get(names)
        self._places = _places_of(names) if places is None else places

    def _found(self, name: object) -> Optional[List[int]]:
        """The places of the fields of a name."""
        if not isinstance(name, str):
            return None
        return self._places.written.get(name) or self._places.lower.get(name.translate(LOWER))

    @property
    def fields(self) -> Tuple[Tuple[str, str], ...]:
        """Each name and its value, in the order of the head."""
        return tuple(zip(self._parts[::2], self._parts[1::2]))

    def get_all(self, name: str) -> List[str]:
        """The values of all fields of this name, in their order."""
        return [self._parts[2 * place + 1] for place in self._found(name) or ()]

    def get(self, name: str, default: Any = None) -> Any:
        """The value of the first field of this name, or another value if there is none."""
        places = self._found(name)
        return default if places is None else self._parts[2 * places[0] + 1]

    def __getitem__(self, name: str) -> str:
        places = self._found(name)
        if places is None:
            raise KeyError(name)
        return self._parts[2 * places[0] + 1]

    def __contains__(self, name: object) -> bool:
        return self._found(name) is not None

    def __iter__(self) -> Iterator[str]:
        return (self._parts[2 * places[0]] for places in self._places.lower.values())

    def __len__(self) -> int:
        return len(self._places.lower)

    def __eq__(self, other: object) -> bool:
        if not isinstance(other, Headers):
            return NotImplemented
        return self.fields == other.fields

    def __hash__(self) -> int:
        return hash(self.fields)

    def __repr__(self) -> str:
        return f"<zogwedu.Headers {list(self.fields)}>"


def _places_of(names: Tuple[str, ...]) -> Places:
    """The places of names, which are kept if they are few and short."""
    places = Places({}, {})
    for place, name in enumerate(names):
        places.lower.setdefault(name.translate(LOWER), []).append(place)
    for name in names:
        places.written[name] = places.lower[name.translate(LOWER)]
    if len(_known) < MOST_LISTS and sum(map(len, names)) <= MOST_NAMES:
        _known[names] = places
    return places


class Http:
    """The head of the HTTP response that a record's block begins with: `status`, `version` such as "HTTP/1.1",
    `reason`, `headers`, and where the body is: `offset` and `length`, in the archive's bytes.
    """

    __slots__ = ("_archive", "status", "version", "reason", "headers", "offset", "length")

    def __init__(self, archive: "Archive", head: HttpHead) -> None:
        self._archive = archive
        self.status: int = head.status
        self.version: str = f"HTTP/1.{head.minor}"
        self.reason: str = text_of(head.reason)
        self.headers = Headers(head.fields)
        self.offset, self.length = head.body

    @property
    def stored(self) -> memoryview:
        """The bytes after the head, as they are stored: chunked or compressed where a field says so."""
        return self._archive._slice(self.offset, self.length)

    def __repr__(self) -> str:
        return f"<zogwedu.Http {self.version} {self.status} {self.reason}>"
