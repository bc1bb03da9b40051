"""The slot mapper for 3GPP TS 25.211 in Python: every C call of include/slt.h as a function.

    >>> import slt
    >>> print(slt.slot_map(1, 1, tpc=1, data="10", tfci="01"))
    1101101100

Digits are given as text ('0110-', DTX as -), as bytes, or as any sequence of small numbers, and are answered as Digits: bytes that are shown as such text.
Values are lists of numbers. A call that is refused raises Refused, with the number, the place and what the number means. docs/PYTHON.md has examples, docs/RULES.md
the rules.
"""
from . import aich, bank, desk, dpch, hspdsch, job, lengths, pccpch, pich, sample, sttd, uplink, wake
from ._library import VERSION as __version__
from .aich import *
from .bank import *
from .desk import *
from .digits import Digits
from .dpch import *
from .hspdsch import *
from .lengths import *
from .pccpch import *
from .pich import *
from .refusals import Refused
from .sample import *
from .sttd import *
from .uplink import *
from .wake import *

__all__ = ["Digits", "Refused", "job", "__version__"]
__all__ += pich.__all__
__all__ += wake.__all__
__all__ += dpch.__all__
__all__ += uplink.__all__
__all__ += sttd.__all__
__all__ += pccpch.__all__
__all__ += hspdsch.__all__
__all__ += lengths.__all__
__all__ += aich.__all__
__all__ += desk.__all__
__all__ += sample.__all__
__all__ += bank.__all__
