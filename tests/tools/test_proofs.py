#!/usr/bin/env python3
"""Tries the trees in which crates are proved: what is built there stays for the next run."""
from __future__ import annotations

import os
import pathlib
import sys
import tempfile
import unittest
from typing import Sequence
from unittest import mock

TOP = pathlib.Path(__file__).resolve().parents[2]
sys.path.insert(0, str(TOP / "tools"))
import proofs  # noqa: E402

LOW, STATIC = "warc_field", "warc_c"


class Trees(unittest.TestCase):
    """Trees in a folder of their own, in which nothing is proved."""

    def setUp(self) -> None:
        folder = tempfile.TemporaryDirectory(prefix="zogwedu-proofs-")
        self.addCleanup(folder.cleanup)
        held = mock.patch.dict(os.environ, {"ZOGWEDU_BUILD": folder.name})
        held.start()
        self.addCleanup(held.stop)
        self.tree = proofs.Tree("lib")

    def crates(self) -> Sequence[str]:
        """The crates that have sources in the tree."""
        return sorted(path.parent.name for path in pathlib.Path(self.tree.top, "crates").glob("*/src"))

    def test_what_is_built_is_kept_beside_the_crates(self) -> None:
        """Its files, with a stamp that says of which sources they are; not those that the prover keeps in folders."""
        self.tree.put([LOW, STATIC])
        out = pathlib.Path(self.tree.folder(STATIC), "out")
        (out / "rlib").mkdir(parents=True)
        (out / "libwarc_c.a").write_bytes(b"built")
        built = pathlib.Path(self.tree.top, "built", STATIC)
        proofs.keep_built(str(out), str(built), "stamp")
        self.tree.put([LOW])
        self.assertEqual(self.crates(), [LOW])
        self.assertEqual(sorted(path.name for path in (built / "out").iterdir()), ["libwarc_c.a"])
        self.assertEqual((built / "stamp").read_text(encoding="ascii"), "stamp")

    def test_a_crate_that_is_no_more_goes(self) -> None:
        """Its sources would be read by the gate."""
        self.tree.put([LOW, STATIC])
        self.tree.put([LOW])
        self.assertFalse(os.path.exists(self.tree.folder(STATIC)))


if __name__ == "__main__":
    unittest.main()
