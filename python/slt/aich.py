"""AICH: acquisition indicators, and the combiner for two antennas (docs/RULES.md, 'AICH' and 'Combiner')."""
from __future__ import annotations

from typing import AbstractSet, List, Sequence, Tuple, Union

from . import _numbers
from ._call import call

__all__ = ["aich_map", "aich_read", "aich_map_available", "aich_read_available", "aich_combine"]

# A set of signatures: the number of which bit s is signature s, or the signatures themselves.
Signatures = Union[int, AbstractSet[int], Sequence[int]]
# A whole complex number, or its real and its imaginary part.
Gain = Union[int, complex, Tuple[int, int]]


def aich_map(indicators: Sequence[int]) -> List[int]:
    """The AICH values for sixteen acquisition indicators, each -1, 0 or +1."""
    return call("slt_aich_map", indicators).values[0]


def aich_read(values: Sequence[int]) -> List[int]:
    """The acquisition indicators that give these AICH values."""
    return call("slt_aich_read", values).values[0]


def aich_map_available(available: Signatures, indicators: Sequence[int]) -> List[int]:
    """As aich_map, where a cell offers only some signatures. They are given as a set, or as a number of which bit s is signature s."""
    return call("slt_aich_map_available", available, indicators).values[0]


def aich_read_available(available: Signatures, values: Sequence[int]) -> List[int]:
    """As aich_read, where a cell offers only some signatures. They are given as a set, or as a number of which bit s is signature s."""
    return call("slt_aich_read_available", available, values).values[0]


def aich_combine(h1: Gain, h2: Gain, received: Sequence[int]) -> List[int]:
    """The correlation of two antennas' AICH for each signature. Gains are whole complex numbers, received parts real and imaginary in turn."""
    return call("slt_aich_combine", *_numbers.parts("h1", h1), *_numbers.parts("h2", h2), received).values[0]
