"""Random arguments, in an interpreter of their own, so that one that dies is seen."""
from __future__ import annotations

import os
import unittest

from . import support

COUNT = 20000


class Fuzz(unittest.TestCase):
    def test_arguments(self) -> None:
        seed = os.environ.get("SEED", "1")
        ended = support.run("-X", "faulthandler", "-m", "tests.fuzz", seed, COUNT, cwd=support.ROOT / "python")
        self.assertEqual(ended.returncode, 0, ended.stderr.decode())
        for end in ("done", "refused", "TypeError", "ValueError", "Evil"):
            self.assertIn(f"'{end}'", ended.stdout.decode())
