"""Samples for a simulator (docs/RULES.md, 'Samples')."""
from __future__ import annotations

from typing import NamedTuple

from ._call import call

__all__ = ["Sample", "sample_off", "sample_shared", "sample_each"]


class Sample(NamedTuple):
    inphase: float
    quadrature: float


def sample_off(i: int, q: int, antenna: int) -> Sample:
    """The sample of a transmitter that is off."""
    return Sample(*call("slt_sample_off", i, q, antenna).sample)


def sample_shared(i: int, q: int, level: float, antenna: int) -> Sample:
    """The sample of two whole values at one level for both antennas. The level is taken as the nearest number of 32 bits."""
    return Sample(*call("slt_sample_shared", i, q, level, antenna).sample)


def sample_each(i: int, q: int, first: float, second: float, antenna: int) -> Sample:
    """The sample of two whole values at a level for each antenna. Levels are taken as the nearest numbers of 32 bits."""
    return Sample(*call("slt_sample_each", i, q, first, second, antenna).sample)
