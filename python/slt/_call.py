"""Makes a C call by its row: looks at every argument, makes room for what is written, and takes the answer apart.

What docs/INTERFACE.md asks of a C caller is done here. Runs that are given are copied first, so that nobody can change them during the call; runs that are written
are new ones; every length is that of its run.
"""
from __future__ import annotations

import ctypes
from typing import Any, Dict, List, Mapping, NamedTuple, Sequence, Tuple, Union

from . import _numbers, digits
from ._library import SampleStruct, apart, function
from ._rows import ANY, CALLS, Like, Number, Run
from .digits import Digits
from .refusals import Refused

WRONG_LENGTH = 3
# No run that goes by a number is longer. A number above it is refused, whatever room there is.
LONGEST = 1 << 16


class Answer(NamedTuple):
    """What a call answers, and the runs that it wrote: those of digits and those of whole numbers, each in the order of the call."""

    number: int
    place: int
    value: int
    digits: List[Digits]
    values: List[List[int]]
    sample: Tuple[float, float]


def call(name: str, *given: object) -> Answer:
    """Makes a call with what it reads, in its order; a refusal is raised. The runs that it writes are as long as it asks for."""
    answer, detail = asked(name, *given)
    if answer.number:
        raise Refused(answer.number, answer.place, detail)
    return answer


def asked(name: str, *given: object) -> Tuple[Answer, str]:
    """The same where a refusal is not raised yet: what is answered, and what can be said of a wrong length."""
    row, held = CALLS[name], converted(name, given)
    answer = made(name, held, [length(run, held) for run in row.rooms])
    return answer, of_length(row.runs[answer.place], held) if answer.number == WRONG_LENGTH else ""


def length(run: Run, held: Mapping[str, Any]) -> int:
    """How long a run has to be, by what its call is given. No table of formats is written down in this package: the library tells it. Where the numbers are such that there
    is no length it is 0, and the call itself says what is wrong with them."""
    by = run.length
    if isinstance(by, int):
        return by
    if isinstance(by, Like):
        like = held[by.name]
        count: int = len(like) if hasattr(like, "__len__") else min(like, LONGEST)
        return count
    return made(by.call, {**held, "run": by.run}, []).value


def of_length(run: Run, held: Mapping[str, Any]) -> str:
    if run.name not in held:
        return ""
    wanted = length(run, held)
    return f"{run.name} has {len(held[run.name])} elements" + (f", and {wanted} are asked for" if wanted != ANY else "")


def converted(name: str, given: Sequence[object]) -> Dict[str, Any]:
    """The arguments that are given, by their names: each number as C takes it, each run in memory of its own."""
    return {argument.name: copied(argument, value) for argument, value in zip(CALLS[name].read, given)}


def copied(argument: Union[Number, Run], value: object) -> Any:
    if isinstance(argument, Number):
        return _numbers.converted(argument.name, value, argument.kind)
    kind = _numbers.WHOLE[argument.kind]
    if argument.kind == "uint8_t":
        held = _numbers.raw(argument.name, value) if argument.raw else digits.of(argument.name, value)
        return (kind * len(held)).from_buffer_copy(held)
    numbers = _numbers.elements(argument.name, [value] if argument.fixed == 1 else value, argument.kind)
    if argument.fixed and len(numbers) != argument.fixed:
        raise ValueError(f"{argument.name} has {len(numbers)} numbers: {argument.fixed} are asked for")
    return (kind * len(numbers))(*numbers)


def made(name: str, held: Mapping[str, Any], rooms: Sequence[int]) -> Answer:
    """Makes a call on arguments that are converted, with rooms of these lengths."""
    ahead = iter(rooms)
    arguments: List[Any] = []
    written: List[Any] = []
    for argument in CALLS[name].arguments:
        if isinstance(argument, Number):
            arguments.append(held[argument.name])
            continue
        lent = held[argument.name] if argument.given else (_numbers.WHOLE[argument.kind] * next(ahead))()
        arguments += [lent, len(lent)] if argument.counted else [lent]
        written += [lent] * argument.written
    answer, sample = function(name)(*arguments), (0.0, 0.0)
    if isinstance(answer, SampleStruct):
        answer, sample = answer.answer, (answer.inphase, answer.quadrature)
    in_bytes = [Digits(bytes(run)) for run in written if run._type_ is ctypes.c_uint8]
    return Answer(*apart(answer), in_bytes, [list(run) for run in written if run._type_ is not ctypes.c_uint8], sample)
