"""PICH: paging indicators (docs/RULES.md, 'PICH')."""
from __future__ import annotations

from ._call import call
from .digits import Digits, DigitsLike

__all__ = ["pich_q", "pich_map", "pich_read"]


def pich_q(np: int, pi: int, sfn: int) -> int:
    """Which paging indicator of a frame is that of the higher layer's PI, in the frame with this SFN."""
    return call("slt_pich_q", np, pi, sfn).value


def pich_map(np: int, indicators: DigitsLike) -> Digits:
    """The digits of a PICH frame with these paging indicators, each 0 or 1."""
    return call("slt_pich_map", np, indicators).digits[0]


def pich_read(np: int, frame: DigitsLike) -> Digits:
    """The paging indicators of a PICH frame."""
    return call("slt_pich_read", np, frame).digits[0]
