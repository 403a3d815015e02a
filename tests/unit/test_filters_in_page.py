"""The filters of the page's list, in node."""
from __future__ import annotations

from .in_node import in_node

SECOND = 1000
FIRST = 1_577_836_800_000  # 2020-01-01T00:00:00Z
BEFORE, AFTER = "2019-12-31T23:59:59.999Z", "2020-01-01T00:00:01Z"
WITHIN = ["2020-01-01T00:00:00Z", "2020-01-01T00:00:00.999Z", "2020"]
SHOWN = "(filter, dates) => dates.filter((date) => TESTS.time(filter)({kind: 'response', date}))"


def test_a_bar_of_times_has_its_beginning_and_not_its_end() -> None:
    """What is at its end is in the next bar."""
    scripts, times = ["shared.js", "elements.js", "list.js"], {"value": FIRST, "end": FIRST + SECOND}
    shown = in_node(scripts, SHOWN, times, [BEFORE, *WITHIN, AFTER], before="const isCapture = () => true;\n")
    assert shown == WITHIN
