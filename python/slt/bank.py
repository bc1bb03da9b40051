"""The bank: mapped slots kept under numbers in one run of bytes (docs/RULES.md, 'Bank'; docs/BANK.md has the layout).

A bank is bytes. A call that changes it answers the bytes that it is then, and leaves those that it was given as they are.
"""
from __future__ import annotations

from typing import Sequence

from ._call import call
from .digits import Digits, DigitsLike

__all__ = ["bank_empty", "bank_store", "bank_fetch", "bank_drop", "bank_length", "bank_room"]


def bank_empty(bank: Sequence[int]) -> bytes:
    """An empty bank in so many bytes: bank_empty(bytes(4096)). Only the first eight are written."""
    return bytes(call("slt_bank_empty", bank).digits[0])


def bank_store(bank: Sequence[int], number: int, slot: DigitsLike) -> bytes:
    """The bank with one slot more, under a number that it does not have yet."""
    return bytes(call("slt_bank_store", bank, number, slot).digits[0])


def bank_fetch(bank: Sequence[int], number: int) -> Digits:
    """The slot under a number."""
    return call("slt_bank_fetch", bank, number).digits[0]


def bank_drop(bank: Sequence[int], number: int) -> bytes:
    """The bank without the slot under a number."""
    return bytes(call("slt_bank_drop", bank, number).digits[0])


def bank_length(bank: Sequence[int], number: int) -> int:
    """How many digits the slot under a number has."""
    return call("slt_bank_length", bank, number).value


def bank_room(bank: Sequence[int]) -> int:
    """How many bytes are not taken. A slot takes four more than its digits."""
    return call("slt_bank_room", bank).value
