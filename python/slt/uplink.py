"""Uplink DPDCH and DPCCH: slots and frames (docs/RULES.md, 'Uplink DPDCH' and 'Uplink DPCCH')."""
from __future__ import annotations

from typing import NamedTuple

from ._call import call
from .digits import Digits, DigitsLike

__all__ = [
    "DpcchFields",
    "DpcchFrameFields",
    "dpdch_map",
    "dpdch_read",
    "dpdch_frame_map",
    "dpdch_frame_read",
    "dpcch_map",
    "dpcch_read",
    "dpcch_frame_map",
    "dpcch_frame_read",
]


class DpcchFields(NamedTuple):
    """The fields of a DPCCH slot, under the names that dpcch_map takes them by."""

    tpc: int
    tfci: Digits
    fbi: Digits


class DpcchFrameFields(NamedTuple):
    """The fields of a DPCCH frame, those of its slots one after the other, under the names that dpcch_frame_map takes them by."""

    commands: Digits
    tfci: Digits
    fbi: Digits


def dpdch_map(format: int, data: DigitsLike) -> Digits:
    """The digits of an uplink DPDCH slot, whose only field is data."""
    return call("slt_dpdch_map", format, data).digits[0]


def dpdch_read(format: int, run: DigitsLike) -> Digits:
    """The data of an uplink DPDCH slot."""
    return call("slt_dpdch_read", format, run).digits[0]


def dpdch_frame_map(format: int, data: DigitsLike) -> Digits:
    """The digits of an uplink DPDCH frame, fifteen slots of one format."""
    return call("slt_dpdch_frame_map", format, data).digits[0]


def dpdch_frame_read(format: int, frame: DigitsLike) -> Digits:
    """The data of an uplink DPDCH frame."""
    return call("slt_dpdch_frame_read", format, frame).digits[0]


def dpcch_map(format: int, slot: int, *, tpc: int, tfci: DigitsLike = b"", fbi: DigitsLike = b"") -> Digits:
    """The digits of an uplink DPCCH slot: pilot, TFCI, FBI, TPC."""
    return call("slt_dpcch_map", format, slot, tpc, tfci, fbi).digits[0]


def dpcch_read(format: int, slot: int, run: DigitsLike) -> DpcchFields:
    """The fields of an uplink DPCCH slot."""
    answer = call("slt_dpcch_read", format, slot, run)
    return DpcchFields(answer.value, *answer.digits)


def dpcch_frame_map(format: int, *, commands: DigitsLike, tfci: DigitsLike = b"", fbi: DigitsLike = b"") -> Digits:
    """The digits of an uplink DPCCH frame: slots 0 to 14 of one format, with fifteen TPC commands."""
    return call("slt_dpcch_frame_map", format, tfci, fbi, commands).digits[0]


def dpcch_frame_read(format: int, frame: DigitsLike) -> DpcchFrameFields:
    """The fields of an uplink DPCCH frame."""
    tfci, fbi, commands = call("slt_dpcch_frame_read", format, frame).digits
    return DpcchFrameFields(commands, tfci, fbi)
