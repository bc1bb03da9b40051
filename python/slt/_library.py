"""Finds the shared library, the first time that a call is made, and tells ctypes the types of its functions."""
from __future__ import annotations

import ctypes
import functools
import os
import pathlib
from typing import Any, List, Tuple, Union

from . import _numbers
from ._rows import CALLS, Number, Run

# The C interface that this package is written for. The first number is in the library's name as the loader knows it.
VERSION = "2.0"
SONAME = "libslt.so." + VERSION.partition(".")[0]
# Names a file, and then no other is tried.
VARIABLE = "SLT_LIBRARY"


class SampleStruct(ctypes.Structure):
    """slt_sample of include/slt.h."""

    _fields_ = [("answer", ctypes.c_uint64), ("inphase", ctypes.c_float), ("quadrature", ctypes.c_float)]


def candidates() -> List[str]:
    """Where the library is looked for, in this order. A name without a folder is looked for as the loader does."""
    named = os.environ.get(VARIABLE, "")
    if named:
        return [named]
    folder = pathlib.Path(__file__).resolve().parent
    return [str(folder / SONAME), str(folder / "libslt.so"), SONAME]


def open_first(paths: List[str]) -> ctypes.CDLL:
    """The first that can be loaded; where there is none, what was tried and why it failed."""
    tried = []
    for path in paths:
        try:
            return ctypes.CDLL(path)
        except OSError as error:
            tried.append(f"  {error}")
    raise OSError("\n".join(["libslt, the library behind this package, was not found. Tried:", *tried, f"The variable {VARIABLE} can name its file."]))


@functools.lru_cache(maxsize=None)
def library() -> ctypes.CDLL:
    return open_first(candidates())


def c_types(argument: Union[Number, Run]) -> List[Any]:
    """An argument as ctypes passes it: a run is a pointer, and a length where it is counted."""
    if isinstance(argument, Run):
        return [ctypes.c_void_p, ctypes.c_size_t] if argument.counted else [ctypes.c_void_p]
    return [ctypes.c_float if argument.kind == "float" else _numbers.WHOLE[argument.kind]]


@functools.lru_cache(maxsize=None)
def function(name: str) -> Any:
    """A function of the library that knows its types."""
    row, found = CALLS[name], getattr(library(), name, None)
    if found is None:
        raise OSError(f"{library()._name} has no {name}: it is older than this package")
    found.argtypes = [kind for argument in row.arguments for kind in c_types(argument)]
    found.restype = SampleStruct if row.answer == "slt_sample" else ctypes.c_uint64
    return found


def apart(answer: int) -> Tuple[int, int, int]:
    """Number, place and value of a packed answer (docs/INTERFACE.md)."""
    return answer & 0xFFFF, answer >> 16 & 0xFFFFFFFF, answer >> 48
