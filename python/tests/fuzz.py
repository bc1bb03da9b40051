"""Random Python arguments for every function: each call is answered, refused, or a TypeError or ValueError, and the interpreter lives on.

    python -X faulthandler -m tests.fuzz SEED COUNT

Each call begins with good arguments, of which some are replaced. What comes out of an argument's own methods (Evil) comes through.
"""
from __future__ import annotations

import array
import decimal
import random
import sys
from typing import Any, Callable, Dict, List, Tuple

import slt

from . import support


class Evil(Exception):
    """What an argument raises by itself."""


class Number:
    """Stands for a number, and does not do so in the same way each time."""

    def __init__(self, numbers: List[Any]) -> None:
        self.numbers = numbers

    def __index__(self) -> Any:
        self.numbers.append(self.numbers.pop(0))
        if self.numbers[-1] == "evil":
            raise Evil
        return self.numbers[-1]

    __float__ = __index__


class Sequence:
    """A sequence that says another length than it has, and changes while it is gone through."""

    def __init__(self, length: int, parts: List[Any]) -> None:
        self.length, self.parts = length, parts

    def __len__(self) -> int:
        return self.length

    def __getitem__(self, place: int) -> Any:
        if place == 2:
            self.parts.extend([0, 1])
        return self.parts[place]


class Shrinking(list):
    """A list that gets shorter while it is gone through."""

    def __iter__(self) -> Any:
        while self:
            yield self.pop()


def released(data: bytes) -> memoryview:
    view = memoryview(data)
    view.release()
    return view


def whole(chance: random.Random) -> int:
    near = chance.choice([0, 1, 2, 15, 16, 18, 144, 255, 256, 4096, 65535, 1 << 31, 1 << 32, 1 << 63, 1 << 64, 1 << 200])
    return chance.choice([1, -1]) * near + chance.choice([-1, 0, 0, 1])


def part(chance: random.Random) -> Any:
    """An element of a run."""
    return chance.choice([0, 1, 2, 3, 255, True, None, "0", 0.0, -1, 16, whole(chance), Number([1, 2, "evil"]), Number([whole(chance)]), b"1", [0], 1j])


def digits(chance: random.Random) -> bytes:
    """Bytes of which most are digits, of a length that some call asks for, or of another."""
    length = chance.choice([0, 1, 2, 4, 10, 16, 18, 20, 30, 32, 40, 150, 270, 300, 600, chance.randrange(100), chance.randrange(2000)])
    return bytes(chance.choices(range(chance.choice([2, 3, 4, 256])), k=length))


def numbers(chance: random.Random) -> List[int]:
    return [digit - 1 for digit in digits(chance)]


def parts(chance: random.Random) -> List[Any]:
    return [part(chance) for _ in range(chance.randrange(20))]


# Runs of some kind: of digits mostly, of numbers, of anything, and things that are none.
RUNS: List[Callable[[random.Random], Any]] = [
    digits,
    numbers,
    parts,
    lambda chance: bytearray(digits(chance)),
    lambda chance: memoryview(digits(chance)),
    lambda chance: memoryview(digits(chance))[::-1],
    lambda chance: released(digits(chance)),
    lambda chance: list(digits(chance)),
    lambda chance: tuple(digits(chance)),
    lambda chance: slt.Digits(digits(chance)),
    lambda chance: str(slt.Digits(digits(chance))),
    lambda chance: "".join(chance.choices("01-2 ?é\0", k=chance.randrange(50))),
    lambda chance: array.array("i", numbers(chance)),
    lambda chance: array.array("d", numbers(chance)),
    lambda chance: tuple(parts(chance)),
    lambda chance: [parts(chance)],
    lambda chance: Shrinking(digits(chance)),
    lambda chance: Sequence(chance.choice([0, 5, 1 << 62]), parts(chance)),
    lambda chance: Sequence(chance.choice([0, 5, 1 << 62]), list(digits(chance))),
    lambda chance: range(chance.randrange(300)),
    lambda chance: set(digits(chance)),
    lambda chance: dict.fromkeys(digits(chance)),
    lambda chance: iter(digits(chance)),
    lambda chance: (digit for digit in digits(chance)),
    lambda chance: memoryview(bytes(8)).cast("d"),
    lambda chance: memoryview(bytes(8)).cast("B", (2, 4)),
]
OTHERS: List[Any] = [None, object(), 1.5, float("nan"), 1j, 3 + 4j, int, slt, Ellipsis, decimal.Decimal("NaN"), len, Number(["evil"]), Number([1.5]), Number([0, 1])]


def anything(chance: random.Random) -> Any:
    kind = chance.randrange(6)
    if kind < 2:
        return whole(chance)
    if kind < 4:
        return chance.choice(RUNS)(chance)
    return chance.choice(OTHERS) if kind == 4 else (whole(chance), whole(chance))


# What is done with job files, and good arguments for it.
JOBS: List[Tuple[Callable[..., object], Dict[str, Any]]] = [
    (slt.job.lines, {"data": b"SLT\0\1\1\3\1\1\1\0\1\1\0"}),
    (slt.job.Job.read, {"data": b"SLT\0\1\1\3\1\1\1\0\1\1\0"}),
    (lambda **given: bytes(slt.job.Job([slt.job.Dpch(**given)])), {"format": 1, "slot": 1, "tpc": 1, "data": "10", "tfci": "01"}),
    (lambda **given: bytes(slt.job.Job([slt.job.Pich(**given)])), {"np": 18, "indicators": "01" * 9}),
    (lambda **given: bytes(slt.job.Job([slt.job.Aich(**given)])), {"indicators": [1, -1] + [0] * 14}),
    (lambda **given: bytes(slt.job.Job(**given)), {"records": [slt.job.Pich(18, "01" * 9)], "version": 1}),
]


def call(chance: random.Random, functions: List[Tuple[Callable[..., object], Dict[str, Any]]]) -> str:
    """One call; how it ended."""
    function, good = chance.choice(functions)
    given = {key: anything(chance) if chance.random() < 0.4 else value for key, value in good.items()}
    try:
        function(**given)
        return "done"
    except slt.Refused:
        return "refused"
    except (TypeError, ValueError, Evil) as error:
        return type(error).__name__


def main() -> None:
    seed, count = int(sys.argv[1]), int(sys.argv[2])
    chance, good = random.Random(seed), support.good()
    functions = [(getattr(slt, name), given) for name, given in good.items()] + JOBS
    before = {name: repr(getattr(slt, name)(**given)) for name, given in good.items()}
    ends: Dict[str, int] = {}
    for number in range(count):
        try:
            end = call(chance, functions)
        except BaseException:
            print(f"seed {seed}, call {number}", file=sys.stderr)
            raise
        ends[end] = ends.get(end, 0) + 1
    if before != {name: repr(getattr(slt, name)(**given)) for name, given in good.items()}:
        sys.exit(f"seed {seed}: a call answers something else than before")
    print(f"seed {seed}: {count} calls, {ends}")


if __name__ == "__main__":
    main()
