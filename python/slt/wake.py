"""Wake simulation: when a handset would wake to recorded PICH frames (docs/RULES.md, 'Wake simulation')."""
from __future__ import annotations

from typing import NamedTuple, Sequence

from . import _numbers
from ._call import asked, call
from .digits import DigitsLike
from .refusals import Refused

__all__ = ["Tally", "WakeRefused", "wake_run", "wake_step"]


class Tally(NamedTuple):
    """Frames read, those of them that woke the handset, and the SFN of the next frame."""

    read: int = 0
    woke: int = 0
    next_sfn: int = 0


class WakeRefused(Refused):
    """A run over recorded frames was refused at one of them: `tally` is as the frames before it left it, and so tells which one it is."""

    def __init__(self, number: int, place: int, tally: Tally, detail: str = "") -> None:
        super().__init__(number, place, detail)
        self.args = (number, place, tally, detail)
        self.tally = tally


def wake_run(tally: Sequence[int], np: int, pi: int, frames: DigitsLike) -> Tally:
    """The tally moved on over recorded PICH frames, one after the other in one run. Where one of them is refused, WakeRefused has the tally before it."""
    numbers = _numbers.elements("tally", tally, "uint32_t")
    if len(numbers) != len(Tally._fields):
        raise ValueError(f"tally has {len(numbers)} numbers: {len(Tally._fields)} are asked for")
    answer, detail = asked("slt_wake_run", np, pi, frames, *numbers)
    after = Tally(*(number for (number,) in answer.values))
    if answer.number:
        raise WakeRefused(answer.number, answer.place, after, detail)
    return after


def wake_step(tally: Sequence[int], np: int, pi: int, frame: DigitsLike) -> Tally:
    """The tally moved on by one PICH frame."""
    return Tally(*call("slt_wake_step", tally, np, pi, frame).values[0])
