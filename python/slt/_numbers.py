"""Numbers on their way to C. ctypes cuts what does not fit, silently: so everything is looked at here first, and a bad number stays a bad number."""
from __future__ import annotations

import ctypes
import operator
from collections.abc import Mapping, Set
from typing import Any, Dict, List, Tuple, Type, Union

WHOLE: Dict[str, Type[ctypes._SimpleCData[int]]] = {
    "size_t": ctypes.c_size_t,
    "uint8_t": ctypes.c_uint8,
    "uint16_t": ctypes.c_uint16,
    "uint32_t": ctypes.c_uint32,
    "int32_t": ctypes.c_int32,
    "int64_t": ctypes.c_int64,
}


def bounds(kind: str) -> Tuple[int, int]:
    """The least and the greatest number of a C type."""
    bits = 8 * ctypes.sizeof(WHOLE[kind])
    return (-(1 << bits - 1), (1 << bits - 1) - 1) if kind.startswith("int") else (0, (1 << bits) - 1)


def whole(name: str, value: Any, kind: str) -> int:
    """A whole number that a C type can hold: an int, or what stands for one."""
    try:
        number = operator.index(value)
    except TypeError:
        raise TypeError(f"{name} is of type {type(value).__name__}: a whole number is asked for") from None
    least, greatest = bounds(kind)
    if not least <= number <= greatest:
        told = number if number.bit_length() < 100 else f"a number of {number.bit_length()} bits"
        raise ValueError(f"{name} is {told}: a number from {least} to {greatest} is asked for")
    return number


def elements(name: str, value: Any, kind: str, wanted: str = "a sequence of whole numbers") -> List[int]:
    """The numbers of a sequence. What has no order, no length, or letters for numbers is none."""
    if isinstance(value, (str, Mapping, Set)) or not hasattr(type(value), "__len__"):
        raise TypeError(f"{name} is of type {type(value).__name__}: {wanted} is asked for")
    try:
        found = [number for number in value]
    except (TypeError, NotImplementedError):
        raise TypeError(f"{name} is of type {type(value).__name__}: {wanted} is asked for") from None
    return [whole(f"{name}[{place}]", number, kind) for place, number in enumerate(found)]


def raw(name: str, value: Any) -> bytes:
    """Bytes that are no digits: given as such, or as a sequence of small numbers."""
    return bytes(value) if isinstance(value, (bytes, bytearray)) else bytes(elements(name, value, "uint8_t", "bytes, or a sequence of small numbers,"))


def signatures(name: str, value: Any) -> int:
    """A set of signatures as C has it, bit s for signature s: given as that number, or as the signatures in it."""
    if hasattr(type(value), "__index__"):
        return whole(name, value, "uint16_t")
    numbers = elements(name, list(value) if isinstance(value, Set) else value, "uint8_t", "a number of 16 bits or a set of signatures")
    last = 8 * ctypes.sizeof(ctypes.c_uint16) - 1
    if any(number > last for number in numbers):
        raise ValueError(f"{name} has {max(numbers)}: signatures are 0 to {last}")
    return sum(1 << number for number in set(numbers))


def real(name: str, value: Any) -> float:
    """A number of 32 bits with a point: the nearest one, as C makes it."""
    try:
        return ctypes.c_float(value).value
    except TypeError:
        raise TypeError(f"{name} is of type {type(value).__name__}: a real number is asked for") from None
    except OverflowError:
        raise ValueError(f"{name} is too large for a real number") from None


def parts(name: str, value: Any) -> Tuple[int, int]:
    """The real and the imaginary part of a whole complex number: given as an int, as a complex number, or as its two parts."""
    if isinstance(value, complex):
        pair = [whole_part(f"{name}.real", value.real), whole_part(f"{name}.imag", value.imag)]
    elif hasattr(type(value), "__index__"):
        pair = [value, 0]
    else:
        pair = elements(name, value, "int64_t", "a whole complex number, or its real and its imaginary part,")
    if len(pair) != 2:
        raise ValueError(f"{name} has {len(pair)} parts: a complex number has two")
    return whole(f"{name}_re", pair[0], "int64_t"), whole(f"{name}_im", pair[1], "int64_t")


def whole_part(name: str, value: float) -> int:
    if not value.is_integer():
        raise ValueError(f"{name} is {value}: a whole number is asked for")
    return int(value)


def converted(name: str, value: Any, kind: str) -> Union[int, float]:
    """A number as the call takes it."""
    if kind == "float":
        return real(name, value)
    return signatures(name, value) if kind == "uint16_t" else whole(name, value, kind)
