"""Downlink DPCH: slots on one or two antennas, frames, and compressed frames (docs/RULES.md, 'DPCH slot', 'DPCH on the second antenna' and 'Compressed frames')."""
from __future__ import annotations

from typing import NamedTuple

from ._call import call
from .digits import Digits, DigitsLike

__all__ = [
    "SlotFields",
    "FrameFields",
    "slot_map",
    "slot_read",
    "slot_map_antenna",
    "slot_read_antennas",
    "frame_map",
    "frame_read",
    "compressed_map",
    "compressed_read",
]


class SlotFields(NamedTuple):
    """The fields of a slot, under the names that slot_map takes them by."""

    tpc: int
    data: Digits
    tfci: Digits


class FrameFields(NamedTuple):
    """The fields of a frame, those of its slots one after the other, under the names that frame_map takes them by."""

    commands: Digits
    data: Digits
    tfci: Digits


def slot_map(format: int, slot: int, *, tpc: int, data: DigitsLike, tfci: DigitsLike = b"") -> Digits:
    """The digits of a downlink DPCH slot: Data1, TPC, TFCI, Data2, pilot. `data` is Data1 before Data2."""
    return call("slt_slot_map", format, slot, tpc, data, tfci).digits[0]


def slot_read(format: int, slot: int, run: DigitsLike) -> SlotFields:
    """The fields of a downlink DPCH slot."""
    answer = call("slt_slot_read", format, slot, run)
    return SlotFields(answer.value, *answer.digits)


def slot_map_antenna(format: int, slot: int, antenna: int, *, tpc: int, data: DigitsLike, tfci: DigitsLike = b"") -> Digits:
    """The digits of a downlink DPCH slot on one of two antennas. Antenna 0 is antenna 1, and 1 is antenna 2."""
    return call("slt_slot_map_antenna", format, slot, antenna, tpc, data, tfci).digits[0]


def slot_read_antennas(format: int, slot: int, first: DigitsLike, second: DigitsLike) -> SlotFields:
    """The fields of a downlink DPCH slot that both antennas sent, from the streams of both."""
    answer = call("slt_slot_read_antennas", format, slot, first, second)
    return SlotFields(answer.value, *answer.digits)


def frame_map(format: int, *, commands: DigitsLike, data: DigitsLike, tfci: DigitsLike = b"") -> Digits:
    """The digits of a downlink DPCH frame: slots 0 to 14 of one format, with fifteen TPC commands."""
    return call("slt_frame_map", format, data, tfci, commands).digits[0]


def frame_read(format: int, frame: DigitsLike) -> FrameFields:
    """The fields of a downlink DPCH frame."""
    data, tfci, commands = call("slt_frame_read", format, frame).digits
    return FrameFields(commands, data, tfci)


def compressed_map(format: int, kind: int, first: int, missing: int, *, commands: DigitsLike, data: DigitsLike, tfci: DigitsLike = b"") -> Digits:
    """The digits of a compressed downlink DPCH frame, of kind 1 (A) or 2 (B), in which `missing` slots from `first` on are not transmitted. The fields are those of
    the transmitted slots alone."""
    return call("slt_compressed_map", format, kind, first, missing, data, tfci, commands).digits[0]


def compressed_read(format: int, kind: int, first: int, missing: int, frame: DigitsLike) -> FrameFields:
    """The fields of the transmitted slots of a compressed downlink DPCH frame."""
    data, tfci, commands = call("slt_compressed_read", format, kind, first, missing, frame).digits
    return FrameFields(commands, data, tfci)
