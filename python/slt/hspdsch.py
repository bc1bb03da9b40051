"""HS-PDSCH: the high-speed data subframe on two antennas (docs/RULES.md, 'HS-PDSCH')."""
from __future__ import annotations

from ._call import call
from .digits import Digits, DigitsLike
from .pccpch import Antennas

__all__ = ["hspdsch_map", "hspdsch_read"]


def hspdsch_map(format: int, data: DigitsLike) -> Antennas:
    """The digits of an HS-PDSCH subframe on both antennas: QPSK in format 0, 16QAM in format 1."""
    return Antennas(*call("slt_hspdsch_map", format, data).digits)


def hspdsch_read(format: int, antenna1: DigitsLike, antenna2: DigitsLike) -> Digits:
    """The data of an HS-PDSCH subframe that both antennas sent."""
    return call("slt_hspdsch_read", format, antenna1, antenna2).digits[0]
