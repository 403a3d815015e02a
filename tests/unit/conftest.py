"""The package of the collection is found where it is."""
from __future__ import annotations

import os
import sys

TOP = os.path.dirname(os.path.dirname(os.path.dirname(os.path.abspath(__file__))))
sys.path[:0] = [os.path.join(TOP, name) for name in ("collection", "tools", os.path.join("tests", "stress"))]
sys.dont_write_bytecode = True
