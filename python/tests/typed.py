"""A program that uses the package as its annotations say; it is given to the type checker and not run. What is wrong in it must be found: the checker tells an ignored
line that has nothing wrong."""
from __future__ import annotations

from typing import Dict, List, Tuple

import slt
from slt.job import Aich, Dpch, FileRefused, Job, Pich

slot: slt.Digits = slt.slot_map(9, 3, tpc=1, data="01" * 16, tfci=[1, 0])
text: str = str(slot)
raw: bytes = slot
digit: int = slot[0]
part: slt.Digits = slot[:4] + "01"
fields: slt.SlotFields = slt.slot_read(9, 3, slot)
command: int = fields.tpc
again: slt.Digits = slt.slot_map(9, 3, tpc=fields.tpc, data=fields.data, tfci=fields.tfci)
q: int = slt.pich_q(18, 5, 1)
indicators: slt.Digits = slt.pich_read(18, slt.pich_map(18, bytearray(18)))
values: List[int] = slt.aich_map_available({0, 5}, (1, 0, 0, 0, 0, -1) + (0,) * 10)
results: List[int] = slt.aich_combine(3 + 4j, (0, 0), values)
sample: Tuple[float, float] = slt.sample_each(1, -1, 0.5, 2, antenna=0)
frames: Dict[str, slt.Digits] = slt.pccpch_map(range(0, 1) and b"\0" * 270)._asdict()
compressed: slt.FrameFields = slt.compressed_read(0, 2, 4, 3, slt.compressed_map(0, 2, 4, 3, commands="0" * 12, data="0" * 96))
streams: slt.Antennas = slt.hspdsch_map(0, b"\0" * slt.hspdsch_lengths(0, 0))
tally: slt.Tally = slt.wake_run(slt.Tally(next_sfn=4095), 18, 5, slot)
tally = slt.wake_step((0, 0, 0), 18, 5, slot)
last: int = slt.desk_serve(slt.DESK_FRESH, {1, 2}, 0xFFFF, 4).last
bank: bytes = slt.bank_store(slt.bank_empty(bytes(100)), 7, slot)
back: slt.Digits = slt.bank_fetch(bytearray(bank), 7)
job: Job = Job([Aich(values[:16]), Pich(18, "0" * 18), Dpch(1, 1, tpc=1, data="10", tfci="01")])
lines: List[str] = slt.job.lines(bytes(job))
try:
    job = Job.read(bytes(job))
except FileRefused as refusal:
    where: Tuple[int, int, int, str] = (refusal.number, refusal.place, refusal.offset, refusal.sentence)

slt.slot_map(9, 3, tpc=1, data=None)  # type: ignore[arg-type]
slt.slot_map(9, 3, tpc="1", data="01")  # type: ignore[arg-type]
slt.slot_map("9", 3, tpc=1, data="01")  # type: ignore[arg-type]
slt.slot_map(9, 3, data="01")  # type: ignore[call-arg]
slt.aich_map("0" * 16)  # type: ignore[arg-type]
slt.wake_run(7, 18, 5, slot)  # type: ignore[arg-type]
slt.bank_room("SLTB")  # type: ignore[arg-type]
slt.desk_serve(slt.DESK_FRESH, "01", 0, 4)  # type: ignore[arg-type]
slt.pich_q(18, 5)  # type: ignore[call-arg]
number: int = slt.pich_map(18, "0" * 18)  # type: ignore[assignment]
Job([slot])  # type: ignore[list-item]
slt.no_such_call()  # type: ignore[attr-defined]
