"""Calls keep no state: many threads at once answer what one answers."""
from __future__ import annotations

import concurrent.futures
import ctypes
import threading
import unittest
from typing import Any, List, Tuple

import slt
from slt import _library

from . import support

THREADS, TURNS = 8, 4
CASES = [case for case in support.cases() if not case.room_refused]


def answer(case: support.Case) -> Any:
    try:
        return repr(getattr(slt, case.function)(**support.arguments(case)))
    except slt.Refused as refusal:
        return str(refusal)


class Threads(unittest.TestCase):
    def test_eight_agree_with_one(self) -> None:
        alone = [answer(case) for case in CASES]
        together = threading.Barrier(THREADS)

        def all_of_them(first: int) -> List[Tuple[int, Any]]:
            """All cases some times over, each thread from a case of its own on, so that unlike calls meet."""
            together.wait()
            order = [(first + turn) % len(CASES) for turn in range(TURNS * len(CASES))]
            return [(place, answer(CASES[place])) for place in order]

        with concurrent.futures.ThreadPoolExecutor(THREADS) as pool:
            for found in pool.map(all_of_them, [len(CASES) * thread // THREADS for thread in range(THREADS)]):
                self.assertTrue(all(alone[place] == got for place, got in found))

    def test_the_lock_is_released(self) -> None:
        """ctypes releases the interpreter's lock for a CDLL, and keeps it for a PyDLL."""
        self.assertIsInstance(_library.library(), ctypes.CDLL)
        self.assertNotIsInstance(_library.library(), ctypes.PyDLL)
