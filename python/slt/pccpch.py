"""P-CCPCH: the broadcast frame on two antennas (docs/RULES.md, 'P-CCPCH')."""
from __future__ import annotations

from typing import NamedTuple

from ._call import call
from .digits import Digits, DigitsLike

__all__ = ["Antennas", "pccpch_map", "pccpch_read"]


class Antennas(NamedTuple):
    """What each of two antennas sends, under the names that the reader takes them by."""

    antenna1: Digits
    antenna2: Digits


def pccpch_map(data: DigitsLike) -> Antennas:
    """The digits of a P-CCPCH frame on both antennas."""
    return Antennas(*call("slt_pccpch_map", data).digits)


def pccpch_read(antenna1: DigitsLike, antenna2: DigitsLike) -> Digits:
    """The data of a P-CCPCH frame that both antennas sent."""
    return call("slt_pccpch_read", antenna1, antenna2).digits[0]
