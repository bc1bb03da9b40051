"""Every refusal, raised by a call of this package, and what it says."""
from __future__ import annotations

import pickle
import re
import unittest
from typing import Dict, Tuple

import slt
from slt import job
from slt.refusals import SENTENCES

from . import support

PAGE = (support.ROOT / "docs/PYTHON.md").read_text(encoding="utf-8")

BANK = slt.bank_store(slt.bank_empty(bytes(35)), 7, "1101101100")

# Each number with its place, and a call that is refused with it: the table of the package's page.
EVERY: Dict[int, Tuple[int, str]] = {int(number): (int(place), call) for number, place, call in re.findall(r"^\| (\d+) \| (\d+) \| `(.*)` \|$", PAGE, re.M)}


class Refusals(unittest.TestCase):
    def test_every(self) -> None:
        self.assertEqual(EVERY.keys(), SENTENCES.keys())
        for number, (place, call) in EVERY.items():
            with self.subTest(number), self.assertRaises(slt.Refused) as raised:
                eval(call, {"slt": slt})
            refusal = raised.exception
            self.assertEqual((refusal.number, refusal.place, refusal.sentence), (number, place, SENTENCES[number]))
            self.assertTrue(str(refusal).startswith(f"refused {number} {place}: {SENTENCES[number]}"), str(refusal))
            copy = pickle.loads(pickle.dumps(refusal))
            self.assertEqual((type(copy), str(copy), vars(copy)), (type(refusal), str(refusal), vars(refusal)))

    def test_a_length_is_told(self) -> None:
        with self.assertRaises(slt.Refused) as raised:
            slt.slot_map(9, 3, tpc=1, data="01" * 16, tfci="101")
        self.assertIn("tfci has 3 elements, and 2 are asked for", str(raised.exception))
        with self.assertRaises(slt.Refused) as raised:
            slt.sttd_digits("011")
        self.assertIn("input has 3 elements", str(raised.exception))

    def test_a_refused_frame_is_told_by_the_tally(self) -> None:
        good, bad = slt.pich_map(18, "01" * 9), "0" * 299 + "1"
        with self.assertRaises(slt.WakeRefused) as raised:
            slt.wake_run(slt.Tally(next_sfn=4095), 18, 5, (good * 2) + bad + good)
        self.assertEqual((raised.exception.number, raised.exception.place), (9, 288))
        self.assertEqual(raised.exception.tally[::2], (2, 1))
        with self.assertRaises(slt.WakeRefused) as raised:
            slt.wake_run((1, 1, 7), 18, 5, good[:-1])
        self.assertEqual((raised.exception.tally, raised.exception.detail), ((1, 1, 7), "frames has 299 elements"))

    def test_a_length_in_a_bank(self) -> None:
        with self.assertRaises(slt.Refused) as raised:
            slt.bank_store(BANK, 8, "01")
        self.assertEqual((raised.exception.number, raised.exception.place, raised.exception.detail), (3, 0, "slot has 2 elements"))

    def test_it_is_a_value_error(self) -> None:
        self.assertTrue(issubclass(slt.Refused, ValueError))
        self.assertTrue(issubclass(job.FileRefused, slt.Refused))
