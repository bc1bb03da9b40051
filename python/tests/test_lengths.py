"""Lengths: what the library tells is what docs/RULES.md prints and what the calls ask for; and every format of every channel, mapped and read back without a length."""
from __future__ import annotations

import itertools
import unittest
from typing import Any, Dict, Iterator, List, Tuple

import slt
from slt import _call
from slt._rows import ANY, CALLS, Run

from . import support

RULES = (support.ROOT / "docs/RULES.md").read_text(encoding="utf-8")
FORMATS: Dict[str, int] = {"dpdch": 7, "dpcch": 4, "hspdsch": 2}


def table(head: str) -> List[List[str]]:
    """The rows of the table of the rules with this head."""
    (part,) = [part for part in RULES.split("\n\n") if part.startswith(f"| {head} |\n")]
    return [[cell.strip() for cell in line.strip("|").split("|")] for line in part.splitlines()[2:]]


def told(name: str, *by: int) -> Tuple[int, ...]:
    """All lengths that a call tells: there are no more runs where it says 11."""
    found: List[int] = []
    try:
        while True:
            found.append(getattr(slt, name)(*by, len(found)))
    except slt.Refused as refusal:
        assert (refusal.number, refusal.place) == (11, 0), refusal
        return tuple(found)


def numbers(name: str) -> Iterator[Dict[str, int]]:
    """The numbers of a call, all 0 but those that its lengths go by: every format, Np or gap that there is."""
    names = [argument.name for argument in CALLS[name].arguments if not isinstance(argument, Run)]
    rest = dict.fromkeys(names, 0)
    if "np" in names:
        yield from ({**rest, "np": np} for np in (18, 36, 72, 144))
    elif "missing" in names:
        gaps = ((0, 1), (8, 7), (4, 3))
        for (first, missing), format, kind in itertools.product(gaps, range(17), (1, 2)):
            if (format, kind) not in ((1, 1), (16, 2)):
                yield {**rest, "format": format, "kind": kind, "first": first, "missing": missing}
    elif "format" in names:
        yield from ({**rest, "format": format} for format in range(FORMATS.get(name.split("_")[1], 17)))
    else:
        yield rest


class Lengths(unittest.TestCase):
    def test_downlink(self) -> None:
        for format, data1, data2, _, tfci, _, slot in (map(int, row) for row in table("Format | Data1 | Data2 | TPC | TFCI | Pilot | Slot")):
            self.assertEqual(told("slot_lengths", format), (data1 + data2, tfci, slot))
            self.assertEqual(told("frame_lengths", format), (15 * (data1 + data2), 15 * tfci, 15 * slot, 15))

    def test_compressed(self) -> None:
        rows = table("Format | Data1 | Data2 | TPC | TFCI | Pilot | Slot | Transmitted slots")
        for name, data1, data2, _, tfci, _, slot, sent in rows:
            fewest, most = map(int, sent.split(" to "))
            for count in range(fewest, most + 1):
                wanted = (count * (int(data1) + int(data2)), count * int(tfci), 15 * int(slot), count)
                self.assertEqual(told("compressed_lengths", int(name[:-1]), "AB".index(name[-1]) + 1, 0, 15 - count), wanted, name)
        self.assertEqual(len(rows), 32)

    def test_uplink_and_high_speed(self) -> None:
        for format, data, slot in (map(int, row) for row in table("Format | Data | Slot")):
            self.assertEqual((told("dpdch_lengths", format), told("dpdch_frame_lengths", format)), ((data, slot), (15 * data, 15 * slot)))
        for format, _, tfci, fbi, _, slot in (map(int, row) for row in table("Format | Pilot | TFCI | FBI | TPC | Slot")):
            self.assertEqual((told("dpcch_lengths", format), told("dpcch_frame_lengths", format)), ((tfci, fbi, slot), (15 * tfci, 15 * fbi, 15 * slot, 15)))
        for row in table("format | symbols | digits of a slot | digits of a subframe"):
            self.assertEqual(told("hspdsch_lengths", int(row[0])), (int(row[3]),) * 3)

    def test_no_other_formats(self) -> None:
        good = support.good()
        for name in support.LENGTHS:
            many = FORMATS.get(name.split("_")[0], 17)
            for format in (many, 255, 1 << 32, (1 << 64) - 1):
                with self.subTest(name), self.assertRaises(slt.Refused) as raised:
                    getattr(slt, name)(**{**good[name], "format": format})
                self.assertEqual((raised.exception.number, raised.exception.place), (1, 0))
        with self.assertRaises(slt.Refused) as raised:
            slt.compressed_lengths(0, 2, 13, 3, 9)
        self.assertEqual(raised.exception.number, 27)

    def test_every_call_asks_for_them(self) -> None:
        """With the lengths of its row no call says 3, and with a run that is longer or shorter by one it says 3 of that run."""
        tried = 0
        for name, row in CALLS.items():
            runs = [run for run in row.runs if run.length != ANY and "bank" not in name]
            for given in numbers(name) if runs else ():
                lengths = {run.name: _call.length(run, {**given, "input": b""}) for run in row.runs}
                for run, more in itertools.product(runs, (0, 1, -1)):
                    found = {**lengths, run.name: lengths[run.name] + more}
                    if found[run.name] >= 0:
                        tried += 1
                        answer = _call.made(name, lent(name, given, found), [found[room.name] for room in row.rooms])
                        wanted = (3, row.runs.index(run)) if more else (answer.number, answer.place)
                        self.assertEqual((answer.number, answer.place), wanted, (name, given, found))
                        self.assertTrue(more or answer.number != 3, (name, given, found))
        self.assertGreater(tried, 2000)


def lent(name: str, given: Dict[str, int], lengths: Dict[str, int]) -> Dict[str, Any]:
    """The arguments of a call: these numbers, and runs of zeros."""
    read = [argument for argument in CALLS[name].read if isinstance(argument, Run)]
    zeros = {run.name: 0 if run.fixed == 1 else bytes(run.fixed or max(0, lengths.get(run.name, 0))) for run in read}
    return {**given, **{run.name: _call.copied(run, zeros[run.name]) for run in read}}


class ThereAndBack(unittest.TestCase):
    def test_slots_and_frames(self) -> None:
        for format in range(17):
            data, tfci, slot = told("slot_lengths", format)
            fields = {"data": ("01-" * data)[:data], "tfci": "01" * (tfci // 2)}
            found = slt.slot_map(format, 14, tpc=1, **fields)
            self.assertEqual(len(found), slot)
            self.assertEqual(slt.slot_read(format, 14, found), (1, slt.Digits(fields["data"]), slt.Digits(fields["tfci"])))
            streams = [slt.slot_map_antenna(format, 14, antenna, tpc=1, **fields) for antenna in (0, 1)]
            self.assertEqual(slt.slot_read_antennas(format, 14, *streams), slt.slot_read(format, 14, found))
            frame = slt.frame_map(format, commands="1" * 15, data=fields["data"] * 15, tfci=fields["tfci"] * 15)
            self.assertEqual((len(frame), frame[14 * slot :]), (15 * slot, found))
            self.assertEqual(slt.frame_read(format, frame).data, slt.Digits(fields["data"] * 15))

    def test_compressed(self) -> None:
        for given in numbers("slt_compressed_map"):
            data, tfci, frame, commands = told("compressed_lengths", *given.values())
            fields = {"commands": "1" * commands, "data": ("01-" * data)[:data], "tfci": "0" * tfci}
            found = slt.compressed_map(**given, **fields)
            self.assertEqual(len(found), frame)
            self.assertEqual(slt.compressed_read(**given, frame=found), tuple(slt.Digits(part) for part in fields.values()))

    def test_uplink(self) -> None:
        for format in range(7):
            data, slot = told("dpdch_lengths", format)
            digits = ("011" * slot)[:data]
            self.assertEqual(str(slt.dpdch_read(format, slt.dpdch_map(format, digits))), digits)
            self.assertEqual(str(slt.dpdch_frame_read(format, slt.dpdch_frame_map(format, digits * 15))), digits * 15)
        for format in range(4):
            tfci, fbi, slot = told("dpcch_lengths", format)
            fields = {"tfci": "1" * tfci, "fbi": "1" * fbi}
            self.assertEqual(slt.dpcch_read(format, 3, slt.dpcch_map(format, 3, tpc=0, **fields)), (0, slt.Digits(fields["tfci"]), slt.Digits(fields["fbi"])))
            frame = slt.dpcch_frame_map(format, commands="0" * 15, tfci=fields["tfci"] * 15, fbi=fields["fbi"] * 15)
            self.assertEqual((len(frame), slt.dpcch_frame_read(format, frame).commands), (15 * slot, bytes(15)))

    def test_paging_and_high_speed(self) -> None:
        for np in (18, 36, 72, 144):
            indicators = ("011" * np)[:np]
            self.assertEqual(str(slt.pich_read(np, slt.pich_map(np, indicators))), indicators)
        for format in (0, 1):
            data = ("0110" * 480)[: slt.hspdsch_lengths(format, 0)]
            self.assertEqual(str(slt.hspdsch_read(format, *slt.hspdsch_map(format, data))), data)

    def test_an_np_that_no_room_is_made_for(self) -> None:
        for np in (73, 1 << 20, 1 << 40, (1 << 64) - 1):
            with self.assertRaises(slt.Refused) as raised:
                slt.pich_read(np, "0" * 300)
            self.assertEqual(raised.exception.number, 8)
