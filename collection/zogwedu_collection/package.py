"""The Python package zogwedu, which has the library. It is loaded where it is needed, and may not be there."""
from __future__ import annotations

import importlib
from typing import Any, Tuple

from .texts import Trouble, escaped


def package_for(what: str, names: Tuple[str, ...]) -> Any:
    """The Python package zogwedu, which has these names. A Trouble where it isn't there."""
    try:
        package = importlib.import_module("zogwedu")
    except ImportError as error:
        raise Trouble("%s needs the Python package zogwedu: %s" % (what, escaped(str(error)))) from None
    if not all(hasattr(package, name) for name in names):
        raise Trouble("%s needs the Python package zogwedu of this version" % what)
    return package
