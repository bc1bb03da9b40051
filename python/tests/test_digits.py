"""Digits: bytes that are given and shown as text."""
from __future__ import annotations

import copy
import pickle
import unittest

import slt
from slt import Digits


class TestDigits(unittest.TestCase):
    def test_text(self) -> None:
        digits = Digits("0110-")
        self.assertEqual((bytes(digits), str(digits), repr(digits), f"{digits}", len(digits)), (b"\0\1\1\0\2", "0110-", "Digits('0110-')", "0110-", 5))
        self.assertEqual(Digits(str(digits)), digits)
        self.assertEqual(eval(repr(digits)), digits)
        self.assertEqual((str(Digits()), Digits("")), ("", b""))

    def test_they_are_bytes(self) -> None:
        digits = Digits([0, 1, 2])
        self.assertEqual(digits, b"\0\1\2")
        self.assertEqual(hash(digits), hash(b"\0\1\2"))
        self.assertEqual((list(digits), digits[2], digits[-3]), ([0, 1, 2], 2, 0))
        self.assertNotEqual(digits, "01-")

    def test_parts(self) -> None:
        digits = Digits("0110-")
        for part, text in ((digits[1:3], "11"), (digits[::-1], "-0110"), (digits + Digits("1"), "0110-1"), (digits + "1", "0110-1"), (digits + b"\1", "0110-1"), (digits[:2] * 2, "0101"), (2 * digits[:2], "0101")):
            self.assertIs(type(part), Digits)
            self.assertEqual(str(part), text)

    def test_what_is_no_digit(self) -> None:
        digits = Digits([0, 3, 255])
        self.assertEqual((str(digits), repr(digits)), ("0??", "Digits(b'\\x00\\x03\\xff')"))
        self.assertEqual(eval(repr(digits)), digits)
        for wrong in ("2", "0 1", "x", "0\0"):
            with self.assertRaises(ValueError):
                Digits(wrong)
        for wrong in (5, None, 1.0, {0: 1}, object(), Digits):
            with self.assertRaises(TypeError):
                Digits(wrong)

    def test_copies(self) -> None:
        digits = Digits("0110-")
        for other in (copy.copy(digits), copy.deepcopy(digits), pickle.loads(pickle.dumps(digits))):
            self.assertIs(type(other), Digits)
            self.assertEqual(other, digits)

    def test_answers(self) -> None:
        """What calls answer are digits, and what they answer can be given again."""
        slot = slt.slot_map(9, 3, tpc=1, data="01-" * 10 + "01", tfci="10")
        fields = slt.slot_read(9, 3, slot)
        self.assertEqual((type(slot), str(fields.data), str(fields.tfci)), (Digits, "01-" * 10 + "01", "10"))
        self.assertEqual(slt.slot_map(9, 3, **fields._asdict()), slot)
        self.assertEqual(slt.slot_map(9, 3, **slt.slot_read(9, 3, str(slot))._asdict()), slot)
        frame = slt.frame_map(1, commands="01" * 7 + "0", data="10" * 15, tfci="01" * 15)
        self.assertEqual(slt.frame_map(1, **slt.frame_read(1, frame)._asdict()), frame)
        uplink = slt.dpcch_map(2, 1, tpc=1, tfci="01", fbi="1")
        self.assertEqual(slt.dpcch_map(2, 1, **slt.dpcch_read(2, 1, uplink)._asdict()), uplink)
        sent = slt.pccpch_map("01" * 135)
        self.assertEqual(slt.pccpch_read(**sent._asdict()), Digits("01" * 135))
