"""The random access desk: who is answered in an access slot, and how many chips later (docs/RULES.md, 'The random access desk')."""
from __future__ import annotations

from typing import List, NamedTuple

from ._call import call
from .aich import Signatures

__all__ = ["DESK_FRESH", "Served", "desk_serve", "desk_to_aich", "desk_to_message"]

# What a desk holds that has served nobody yet.
DESK_FRESH = 15


class Served(NamedTuple):
    """The desk after an access slot, which goes into the next, and the AICH values of that slot."""

    last: int
    values: List[int]


def desk_serve(last: int, heard: Signatures, available: Signatures, n: int) -> Served:
    """An access slot: of the signatures that are heard and available up to n get +1, in circular order from just after the one that was served last, and the others -1."""
    (after,), values = call("slt_desk_serve", last, heard, available, n).values
    return Served(after, values)


def desk_to_aich(timing: int) -> int:
    """Chips from a preamble to its indicator, for an AICH_Transmission_Timing of 0 or 1."""
    return call("slt_desk_to_aich", timing).value


def desk_to_message(timing: int) -> int:
    """Chips from a preamble to the message, for an AICH_Transmission_Timing of 0 or 1."""
    return call("slt_desk_to_message", timing).value
