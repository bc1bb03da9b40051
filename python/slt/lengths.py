"""Lengths: how long each run of a mapper is (docs/RULES.md, 'Lengths of runs'). Runs are counted from 0, in the order in which the mapper's refusal 3 counts them."""
from __future__ import annotations

from ._call import call

__all__ = [
    "slot_lengths",
    "frame_lengths",
    "compressed_lengths",
    "dpdch_lengths",
    "dpdch_frame_lengths",
    "dpcch_lengths",
    "dpcch_frame_lengths",
    "hspdsch_lengths",
]


def slot_lengths(format: int, run: int) -> int:
    """How long a run of a downlink DPCH slot is: 0 data, 1 TFCI, 2 the slot."""
    return call("slt_slot_lengths", format, run).value


def frame_lengths(format: int, run: int) -> int:
    """How long a run of a downlink DPCH frame is: 0 data, 1 TFCI, 2 the frame, 3 commands."""
    return call("slt_frame_lengths", format, run).value


def compressed_lengths(format: int, kind: int, first: int, missing: int, run: int) -> int:
    """How long a run of a compressed downlink DPCH frame is: 0 data, 1 TFCI, 2 the frame, 3 commands."""
    return call("slt_compressed_lengths", format, kind, first, missing, run).value


def dpdch_lengths(format: int, run: int) -> int:
    """How long a run of an uplink DPDCH slot is: 0 data, 1 the slot."""
    return call("slt_dpdch_lengths", format, run).value


def dpdch_frame_lengths(format: int, run: int) -> int:
    """How long a run of an uplink DPDCH frame is: 0 data, 1 the frame."""
    return call("slt_dpdch_frame_lengths", format, run).value


def dpcch_lengths(format: int, run: int) -> int:
    """How long a run of an uplink DPCCH slot is: 0 TFCI, 1 FBI, 2 the slot."""
    return call("slt_dpcch_lengths", format, run).value


def dpcch_frame_lengths(format: int, run: int) -> int:
    """How long a run of an uplink DPCCH frame is: 0 TFCI, 1 FBI, 2 the frame, 3 commands."""
    return call("slt_dpcch_frame_lengths", format, run).value


def hspdsch_lengths(format: int, run: int) -> int:
    """How long a run of an HS-PDSCH subframe is: 0 data, 1 antenna 1, 2 antenna 2."""
    return call("slt_hspdsch_lengths", format, run).value
