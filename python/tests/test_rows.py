"""Rows of kinds that a call may have, on functions that are made here: numbers and bytes that a call is given and changes."""
from __future__ import annotations

import ctypes
import types
import unittest
from typing import Any, Dict
from unittest import mock

import slt
from slt import _call, _library
from slt._rows import CALLS, given, room, row, size, state, store


def pointed(pointer: int, kind: Any, length: int) -> Any:
    return (kind * length).from_address(pointer)


def serve(last: int, n: int, values: int, length: int) -> int:
    """Two values; the number that is given goes up by n. A refusal changes nothing."""
    if length != 2:
        return 3
    if n == 0:
        return 11 | 7 << 16
    pointed(values, ctypes.c_int32, 2)[:] = [-n, n]
    pointed(last, ctypes.c_size_t, 1)[0] += n
    return n << 48


def keep(bank: int, length: int, slot: int, slot_length: int) -> int:
    """The slot is kept in the bank's first bytes; 3 counts the slot alone."""
    if slot_length > length:
        return 3
    pointed(bank, ctypes.c_uint8, length)[:slot_length] = list(pointed(slot, ctypes.c_uint8, slot_length))
    return 0


def step(tally: int, by: int) -> int:
    """A struct of three numbers, of which each goes up."""
    pointed(tally, ctypes.c_uint32, 3)[:] = [number + by for number in pointed(tally, ctypes.c_uint32, 3)]
    return 0


MADE: Dict[str, Any] = {
    "slt_test_step": (row(state("tally", "uint32_t", 3, "slt_tally"), size("by")), step),
    "slt_test_serve": (row(state("last", "size_t"), size("n"), room("values", 2, "int32_t")), serve),
    "slt_test_keep": (row(store("bank"), given("slot")), keep),
}


class Kinds(unittest.TestCase):
    def setUp(self) -> None:
        made = {}
        for name, (its_row, function) in MADE.items():
            kinds = [kind for argument in its_row.arguments for kind in _library.c_types(argument)]
            made[name] = ctypes.CFUNCTYPE(ctypes.c_uint64, *kinds)(function)
        rows = {name: its_row for name, (its_row, _) in MADE.items()}
        for patch in (mock.patch.dict(CALLS, rows), mock.patch.object(_library, "library", lambda: types.SimpleNamespace(_name="made here", **made))):
            patch.start()
            self.addCleanup(patch.stop)
        _library.function.cache_clear()
        self.addCleanup(_library.function.cache_clear)

    def test_a_number_that_is_changed(self) -> None:
        answer = _call.call("slt_test_serve", 15, 4)
        self.assertEqual((answer.value, answer.values), (4, [[19], [-4, 4]]))
        with self.assertRaises(slt.Refused) as raised:
            _call.call("slt_test_serve", 15, 0)
        self.assertEqual((raised.exception.number, raised.exception.place), (11, 7))
        for wrong, error in ((None, TypeError), (-1, ValueError), (1 << 64, ValueError), ([1], TypeError)):
            with self.assertRaises(error):
                _call.call("slt_test_serve", wrong, 4)

    def test_a_struct_that_is_changed(self) -> None:
        self.assertEqual(_call.call("slt_test_step", (1, 2, 4095), 5).values, [[6, 7, 4100]])
        for wrong, error in (((1, 2), ValueError), ([], ValueError), (7, TypeError), ((1, 2, -1), ValueError), ((1, 2, None), TypeError)):
            with self.assertRaises(error):
                _call.call("slt_test_step", wrong, 5)

    def test_bytes_that_are_changed(self) -> None:
        bank = bytearray(b"\7\7\7\7")
        answer = _call.call("slt_test_keep", bank, "01-")
        self.assertEqual((answer.digits, bank), ([b"\0\1\2\7"], b"\7\7\7\7"))
        self.assertEqual(_call.call("slt_test_keep", [9, 255], "1").digits, [b"\1\xff"])
        for wrong, error in (("01", TypeError), (None, TypeError), (7, TypeError), ([256], ValueError), ([None], TypeError)):
            with self.assertRaises(error):
                _call.call("slt_test_keep", wrong, "1")
        with self.assertRaises(slt.Refused) as raised:
            _call.call("slt_test_keep", b"", "01-")
        self.assertIn("slot has 3 elements", str(raised.exception))
