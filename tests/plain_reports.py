"""A plugin of pytest, by which the report of a failure can be sent: text that isn't UTF-8 is shown by escapes.

A process of xdist that can't send a report ends, and with it all tests that it still had to run.
"""
from __future__ import annotations

from typing import Any, Generator

import pytest


def plain(text: str) -> str:
    """A text without lone surrogates, as a name of a file in an archive may have them."""
    return text.encode("utf-8", "backslashreplace").decode("utf-8")


@pytest.hookimpl(hookwrapper=True)  # type: ignore[misc]
def pytest_runtest_makereport() -> Generator[None, Any, None]:
    """Makes the texts of a report plain, if they aren't."""
    report = (yield).get_result()
    if report.longrepr is not None and str(report.longrepr) != plain(str(report.longrepr)):
        report.longrepr = plain(str(report.longrepr))
    report.sections = [(plain(name), plain(text)) for name, text in report.sections]
