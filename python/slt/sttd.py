"""STTD: what the second antenna sends (docs/RULES.md, 'STTD')."""
from __future__ import annotations

from typing import List, Sequence

from ._call import call
from .digits import Digits, DigitsLike

__all__ = ["sttd_digits", "sttd_values"]


def sttd_digits(input: DigitsLike) -> Digits:
    """Antenna 2's digits for antenna 1's, block by block."""
    return call("slt_sttd_digits", input).digits[0]


def sttd_values(input: Sequence[int]) -> List[int]:
    """Antenna 2's AICH values for antenna 1's."""
    return call("slt_sttd_values", input).values[0]
