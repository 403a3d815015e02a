"""Which captures answer a request, and what is said where none does."""
from __future__ import annotations

import functools
from typing import List, Tuple

from .asking import Asking, Target, refuse_withheld
from .captures import Capture, captures_as_of, captures_at, may_have, unknown_files
from .catalogue import Catalogue
from .lending import Lent
from .near import as_rows, near_captures
from .responses import Refusal, with_details
from .texts import Trouble

NOT_FOUND = ("P1", "P2", "P4", "P5")
UNREAD = "A file that may have it can't be read now."


def chosen(
    catalogue: Catalogue,
    asking: Asking,
    target: Target,
    instants: Tuple[str, str],
    is_memento: bool,
    *headers: Tuple[str, str],
) -> List[Capture]:
    """The captures of the first instant of a second, or else those as of its end, if the reader may see them. Where
    there are none, 404 with the reason, and with what may have one."""
    links = functools.partial(target.links, catalogue, None, is_memento)
    try:
        exact = captures_at(catalogue, target.uri, instants[0])
        found = exact or captures_as_of(catalogue, target.uri, instants[1])
    except Trouble as reason:
        is_none = str(reason).startswith("P1 ")
        near = near_captures(catalogue, target.uri, asking.access, asking.address) if is_none else []
        lines = [str(reason), *("near: %(path)s %(captures)d %(first)s %(last)s" % it for it in as_rows(near))]
        raise Refusal(404, with_details(lines, unknown_files(catalogue, target.uri)), *headers, links()) from None
    asking.noted.update(it.path for it in found)
    refuse_withheld(target.decision.withheld_of(found[0].instant), *headers, links())
    return found


def refuse_without_body(catalogue: Catalogue, target: Target, answer: Lent, *headers: Tuple[str, str]) -> None:
    """Refuses an answer that is a reason. A coded body is one that can be sent."""
    reason = answer.reason
    if reason is None or reason.startswith("P10 "):
        return
    status = 404 if reason.split(" ")[0] in NOT_FOUND else 502
    lines = [reason, *([UNREAD] if status == 404 and may_have(catalogue, target.uri) else [])]
    details = [answer.described(), *unknown_files(catalogue, target.uri)]
    raise Refusal(status, with_details(lines, details), *headers)
