"""A request to the server: what it names, and what its reader may see of that."""
from __future__ import annotations

import dataclasses
from typing import Any, Callable, Dict, Optional, Set, Tuple

from .access import Access, Decision
from .captures import end_instant
from .catalogue import Catalogue
from .memento import Around, Paths, head_links, target_in
from .responses import Refusal, Response
from .texts import Stored

Environ = Dict[str, Any]


@dataclasses.dataclass
class Asking:
    """A request: its environment, what links begin with, the path of the application, the address of the reader, the
    rules that hold for it, and the files that were looked up for it."""

    environ: Environ
    base: str
    top: str
    address: str
    access: Access
    noted: Set[Stored] = dataclasses.field(default_factory=set)

    def field(self, name: str) -> Optional[str]:
        """The value of a field of the request's head."""
        value = self.environ.get("HTTP_" + name)
        return None if value is None else str(value)

    def is_head(self) -> bool:
        return self.environ.get("REQUEST_METHOD") == "HEAD"

    def target(self, text: str, *headers: Tuple[str, str]) -> Target:
        """The target that a part of a path means, if the reader may see any of its captures."""
        target = target_in(text)
        decision = self.access.decide(target, self.address)
        refuse_withheld(decision.withheld(), *headers)
        return Target(Paths(self.base, target), decision)

    def judge(self, target: Stored, instant: str) -> None:
        """Refuses a capture that the reader may not see."""
        refuse_withheld(self.access.decide(target, self.address).withheld_of(instant))


@dataclasses.dataclass(frozen=True)
class Target:
    """A target that is asked for, and what is decided for it and the reader."""

    paths: Paths
    decision: Decision

    @property
    def uri(self) -> Stored:
        return self.paths.target

    def around(self, catalogue: Catalogue, chosen: Optional[str] = None) -> Optional[Around]:
        """The captures around one that the reader may see; None if there are none."""
        last = self.decision.last()

        def end(order: str, condition: str = "", *values: str) -> Optional[str]:
            return end_instant(catalogue, self.uri, order, "AND instant <= ?" + condition, last, *values)

        ends = end("ASC"), end("DESC")
        if ends[0] is None or ends[1] is None:
            return None
        if chosen is None:
            return Around(ends[0], ends[1])
        return Around(ends[0], ends[1], end("DESC", " AND instant < ?", chosen), end("ASC", " AND instant > ?", chosen))

    def links(self, catalogue: Catalogue, chosen: Optional[str], is_memento: bool) -> Tuple[str, str]:
        """The field Link of an answer."""
        return "Link", head_links(self.paths, self.around(catalogue, chosen), chosen, is_memento)


Route = Callable[[Asking, str], Response]


def refuse_withheld(withheld: Any, *headers: Tuple[str, str]) -> None:
    """Refuses what the reader may not see."""
    if withheld is not None:
        raise Refusal(withheld.status, withheld.text, *headers)
