"""Digits: bytes that are 0, 1, or 2 for DTX, given and shown as text where that is easier to read: '0110-'."""
from __future__ import annotations

import re
from typing import Any, Sequence, SupportsIndex, Union, overload

from . import _numbers

# What a run of digits may be given as.
DigitsLike = Union[str, Sequence[int]]

# How the digits 0, 1 and 2 are written, and how any byte is shown.
WRITTEN = b"01-"
SHOWN = WRITTEN.ljust(256, b"?")
READ = bytes.maketrans(WRITTEN, bytes(range(len(WRITTEN))))
OTHER = re.compile("[^01-]")


class Digits(bytes):
    """Bytes that are shown as text: each digit as `0`, `1` or `-`, and a byte that is no digit as `?`. They are equal to the bytes that they are.

    They are made from such text, from bytes, or from any sequence of small numbers.
    """

    def __new__(cls, value: DigitsLike = b"") -> Digits:
        return super().__new__(cls, of("the run", value))

    def __str__(self) -> str:
        return self.translate(SHOWN).decode("ascii")

    def __repr__(self) -> str:
        shown = str(self)
        return f"Digits({super().__repr__() if '?' in shown else repr(shown)})"

    @overload
    def __getitem__(self, key: SupportsIndex) -> int: ...

    @overload
    def __getitem__(self, key: slice) -> Digits: ...

    def __getitem__(self, key: Any) -> Any:
        """A slice of digits is digits."""
        found = super().__getitem__(key)
        return Digits(found) if isinstance(found, bytes) else found

    def __add__(self, more: Any) -> Digits:
        """Digits and digits are digits; text may be added, too."""
        return Digits(super().__add__(of("what is added", more)))

    def __mul__(self, times: SupportsIndex) -> Digits:
        return Digits(super().__mul__(times))

    __rmul__ = __mul__


def of(name: str, value: object) -> bytes:
    """The bytes of a run of digits that is given under a name. Whether each is a digit that is allowed, the call that they are given to says."""
    if isinstance(value, (bytes, bytearray)):
        return bytes(value)
    if not isinstance(value, str):
        return bytes(_numbers.elements(name, value, "uint8_t", "text of 0, 1 and -, bytes, or a sequence of small numbers"))
    wrong = OTHER.search(value)
    if wrong:
        raise ValueError(f"{name}[{wrong.start()}] is {wrong[0]!r}: a digit is written as 0, 1, or - for DTX")
    return value.encode("ascii").translate(READ)
