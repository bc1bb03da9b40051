"""Every function against the cases of docs/RULES.md, as the second program answers them (crates/cases)."""
from __future__ import annotations

import struct
import unittest
from typing import Any, Dict

import slt
from slt import _call
from slt._rows import CALLS, Run

from . import support

CASES = support.cases()


def plain(found: Any) -> Any:
    """What a function or a call answers, as lists of numbers; the bits of a float decide, so that the sign of a zero is not lost."""
    if isinstance(found, float):
        return struct.pack(">f", found)
    return [plain(part) for part in found] if isinstance(found, (bytes, list)) else found


def named(case: support.Case, found: Any) -> Any:
    """What a function answers, by the names of the case."""
    if case.function == "wake_step":
        return {"tally": list(found)}
    if hasattr(found, "_asdict"):
        return found._asdict()
    rooms = [run.name for run in case.row.rooms]
    return {rooms[0] if rooms else next(iter(case.answered)): found}


def by_name(found: Dict[str, Any]) -> Dict[str, Any]:
    return {key: plain(part) for key, part in found.items()}


class Cases(unittest.TestCase):
    def test_functions(self) -> None:
        for case in CASES:
            if case.room_refused:
                continue
            with self.subTest(case.line):
                try:
                    found = getattr(slt, case.function)(**support.arguments(case))
                except slt.WakeRefused as refusal:
                    self.assertEqual((refusal.number, refusal.place, refusal.tally._asdict()), (case.number, case.place, case.answered))
                except slt.Refused as refusal:
                    self.assertEqual((refusal.number, refusal.place), (case.number, case.place))
                else:
                    self.assertEqual(case.number, 0)
                    self.assertEqual(by_name(named(case, found)), by_name(case.answered))

    def test_calls(self) -> None:
        """Those too in which a run that is written has the wrong length, by the call under the functions. What a call is given and writes is there where it is refused, too."""
        for case in CASES:
            name = "slt_" + case.function
            given = [case.given[argument.name] for argument in case.row.arguments if argument.name in case.given]
            with self.subTest(case.line):
                answer = _call.made(name, _call.converted(name, given), case.rooms)
                self.assertEqual((answer.number, answer.place), (case.number, case.place))
                self.assertEqual(answer.value, next((case.answered[key] for key in ("tpc", "q", "chips", "length", "room") if key in case.answered), 0))
                written = zip([run for run in case.row.arguments if isinstance(run, Run) and run.written], [*answer.digits, *answer.values])
                found = {run.name: part[0] if run.fixed == 1 else plain(part) for run, part in written if run.given or not case.number}
                self.assertEqual(found, {key: case.answered[key] for key in found})

    def test_all_are_asked(self) -> None:
        """Each function has a case that is done and one that is refused, but for some that tell lengths, whose refusals test_lengths has; and every call has its function."""
        done = {case.function for case in CASES if case.number == 0}
        refused = {case.function for case in CASES if case.number and not case.room_refused}
        self.assertEqual({"slt_" + name for name in done}, CALLS.keys())
        self.assertEqual(refused.union(support.LENGTHS), done)

    def test_jobs(self) -> None:
        found = support.job_cases()
        self.assertGreater(len(found), 10)
        for file, printed in found:
            with self.subTest(file):
                self.assertEqual("".join(line + "\n" for line in slt.job.lines(file)), printed)
