"""What is no argument is a TypeError or a ValueError, before the library is asked."""
from __future__ import annotations

import array
import collections
import ctypes
import decimal
import fractions
import inspect
import unittest
from typing import Any, Dict, List

import slt
from slt._rows import CALLS, Number

from . import support

GOOD = support.good()


class Index:
    """Stands for a number, as numpy's numbers do."""

    def __init__(self, number: int) -> None:
        self.number = number

    def __index__(self) -> int:
        return self.number


class Real:
    """Stands for a real number."""

    def __float__(self) -> float:
        return 0.5


def kind(function: str, name: str) -> str:
    """What a function takes by a name: the C type of the number, or of the run's elements with a star."""
    if function == "aich_combine" and name in ("h1", "h2"):
        return "gain"
    if name in ("tally", "bank"):
        return name
    argument = {argument.name: argument for argument in CALLS["slt_" + function].arguments}[name]
    return argument.kind if isinstance(argument, Number) or argument.fixed == 1 else argument.kind + "*"


NO_NUMBER: List[Any] = [None, 1.0, "1", b"1", [1], (), {}, object(), 1j, decimal.Decimal(1), fractions.Fraction(1), Real(), int, Ellipsis]
NO_RUN: List[Any] = [None, 5, 1.0, {0: 1}, {0, 1}, frozenset(), object(), (digit for digit in b""), iter([]), 1j, list, [None], [[0]], ["0"], [0.0], [b"\0"], [1j]]

# Values that are of no right type, by the kind of the argument.
WRONG_TYPE: Dict[str, List[Any]] = {
    "size_t": NO_NUMBER,
    "int64_t": NO_NUMBER,
    "uint16_t": [None, 1.0, "1", {1: 1}, object(), [None], {"1"}, {1.0}, int],
    "float": [None, "1", b"1", [1.0], {}, object(), 1j, float],
    "gain": [None, 1.0, "1", {}, object(), [1.0, 0], ["1", "2"]],
    "tally": NO_RUN + ["000", [0, 0, None], (0, 0.0, 0)],
    "bank": NO_RUN + ["SLTB", "01", ""],
    "uint8_t*": NO_RUN + [memoryview(b"01").cast("c")],
    "int32_t*": NO_RUN + ["0101", "", memoryview(b"01").cast("c")],
}

# Values of the right type that C cannot hold, or that are no digits.
WRONG_VALUE: Dict[str, List[Any]] = {
    "size_t": [-1, 1 << 64, -(1 << 64), 1 << 99999, Index(-1), Index(1 << 64)],
    "int64_t": [1 << 63, -(1 << 63) - 1, 1 << 64],
    "uint16_t": [-1, 1 << 16, [16], {0, 99}, {-1}, [1 << 70]],
    "float": [1 << 2000],
    "gain": [1 << 63, (0, 1 << 63), (1,), (1, 2, 3), 0.5 + 0j, complex(0, float("inf")), complex(float("nan"), 0), 1e30j],
    "tally": [(), (0, 0), [0] * 4, (0, 0, 1 << 32), (-1, 0, 0)],
    "bank": [[256], [-1], [1 << 70], array.array("h", [300])],
    "uint8_t*": [[256], [-1], [1 << 70], "012", "01 ", "0\n", "O", "0１", array.array("h", [300])],
    "int32_t*": [[1 << 31], [-(1 << 31) - 1], [1 << 64]],
}


class Arguments(unittest.TestCase):
    def test_wrong(self) -> None:
        """Every argument of every function, one wrong value at a time."""
        tried = 0
        for function, given in GOOD.items():
            for name in given:
                for error, wrong in ((TypeError, WRONG_TYPE), (ValueError, WRONG_VALUE)):
                    for value in wrong[kind(function, name)]:
                        tried += 1
                        with self.subTest(function=function, name=name, value=value), self.assertRaises(error) as raised:
                            getattr(slt, function)(**{**given, name: value})
                        self.assertIs(type(raised.exception), error)
                        self.assertIn(name, str(raised.exception))
        self.assertGreater(tried, 1000)

    def test_none_is_nothing(self) -> None:
        """No argument has a meaning by being None, and none is left out by it."""
        for function in GOOD:
            for name, parameter in inspect.signature(getattr(slt, function)).parameters.items():
                self.assertIsNot(parameter.default, None, (function, name))

    def test_how_many(self) -> None:
        for function, given in GOOD.items():
            for name, parameter in inspect.signature(getattr(slt, function)).parameters.items():
                if parameter.default is parameter.empty:
                    with self.subTest(function=function, name=name), self.assertRaises(TypeError):
                        getattr(slt, function)(**{key: value for key, value in given.items() if key != name})
            with self.assertRaises(TypeError):
                getattr(slt, function)(**given, another=1)

    def test_any_sequence(self) -> None:
        """Digits in whatever they come."""
        wanted = slt.slot_map(1, 1, tpc=1, data="10", tfci="01")
        plain = ["10", b"\1\0", bytearray(b"\1\0"), [1, 0], (1, 0), [True, False], range(1, -1, -1), slt.Digits("10"), [Index(1), Index(0)]]
        others = [memoryview(b"\1\0"), memoryview(b"\1x\0x")[::2], array.array("i", [1, 0]), array.array("b", [1, 0]), collections.deque([1, 0]), (ctypes.c_int * 2)(1, 0)]
        for data in plain + others:
            with self.subTest(data):
                self.assertEqual(slt.slot_map(1, Index(1), tpc=True, data=data, tfci="01"), wanted)
        values = slt.aich_map([1, -1] + [0] * 14)
        self.assertEqual(slt.aich_map(array.array("q", [1, -1] + [0] * 14)), values)
        self.assertEqual(slt.aich_map((1, Index(-1)) + (0,) * 14), values)

    def test_a_run_that_is_given_is_not_changed(self) -> None:
        data, indicators = bytearray(b"\1\0\1\0"), [1] + [0] * 15
        slt.slot_map(0, 0, tpc=0, data=data)
        slt.aich_map(indicators)
        self.assertEqual((data, indicators), (b"\1\0\1\0", [1] + [0] * 15))
        data.append(0)

    def test_sets_of_signatures(self) -> None:
        indicators = [1] + [0] * 14 + [-1]
        for available in (0x8001, {0, 15}, [15, 0], (0, 0, 15), frozenset([0, 15]), range(16), Index(0x8001)):
            self.assertEqual(slt.aich_map_available(available, indicators), slt.aich_map(indicators))
        self.assertEqual(slt.aich_map_available(set(), [0] * 16), [0] * 32)
        with self.assertRaises(slt.Refused):
            slt.aich_map_available(set(), indicators)

    def test_gains(self) -> None:
        received = support.good()["aich_combine"]["received"]
        wanted = slt.aich_combine((3, 4), (0, 0), received)
        for h1, h2 in ((3 + 4j, 0), ([3, 4], 0j), ((Index(3), 4), False), (3.0 + 4.0j, (0, 0))):
            self.assertEqual(slt.aich_combine(h1, h2, received), wanted)

    def test_levels(self) -> None:
        """A level is the nearest number of 32 bits, as C takes it; one that no such number is near is out of range."""
        self.assertEqual(slt.sample_shared(1, -16, 0.1, 0), (0.10000000149011612, -1.600000023841858))
        for level in (1, True, 1.0, Index(1), fractions.Fraction(1), decimal.Decimal(1)):
            self.assertEqual(slt.sample_shared(1, 2, level, 0), (1.0, 2.0))
        for level in (float("nan"), float("inf"), 1e300, -1.0, 0.0, 1 << 1000):
            with self.assertRaises(slt.Refused) as raised:
                slt.sample_shared(1, 2, level, 0)
            self.assertEqual((raised.exception.number, raised.exception.place), (11, 2))

    def test_large_numbers_are_not_cut(self) -> None:
        """2 to the 32 and more are numbers of their own, and not what is left of them."""
        for function, name, number in (("pich_q", "pi", 1 << 32), ("pich_q", "sfn", (1 << 64) - 1), ("slot_map", "tpc", 1 << 32)):
            with self.subTest(function), self.assertRaises(slt.Refused):
                getattr(slt, function)(**{**GOOD[function], name: number})
