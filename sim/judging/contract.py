"""Reads a circuit's contract: docs/SIMULATOR.md says what each word of it means."""
import dataclasses
import pathlib
import re
import shlex


class Wrong(Exception):
    """A contract that does not hold together, in words for the one who wrote it."""


@dataclasses.dataclass
class Field:
    """An argument of the library's call, and the pins that it comes in on."""
    name: str
    kind: str                # number, digits, numbers
    pin: str
    width: int = 1           # bits of an element of a run; of a number it is the pin's
    dtx: str = ""
    signed: bool = False
    low: int = 0
    high: int = 2**31 - 1
    length: int = -1


@dataclasses.dataclass
class Contract:
    """What driver, miter and report need to know of a circuit."""
    path: pathlib.Path
    circuit: str = ""
    source: str = ""
    call: str = ""
    out: str = ""
    clock: str = ""
    reset: str = ""
    reset_high: bool = True
    start: str = ""
    busy: str = ""           # a wire or pin that is 1 while no start may come
    idle: str = ""           # or one that is 1 while one may
    rest_pin: bool = False   # that wire is a pin, so others rely on it: it is compared with the original's
    first: int = 1
    fields: list = dataclasses.field(default_factory=list)
    fixed: dict = dataclasses.field(default_factory=dict)
    numbers: bool = False    # the circuit streams numbers, not digits
    valid: str = ""
    dtx: str = ""
    value: str = ""
    signed: bool = False
    refused: str = ""

    def verilog(self):
        """The circuit's source."""
        return self.path.parent / (self.source or self.circuit + ".v")

    def input_pins(self):
        """The pins of the input vector, lowest bits first."""
        return [pin for field in self.fields for pin in (field.pin, field.dtx) if pin]

    def rest_wire(self):
        """The wire that says when a start may come."""
        return self.busy or self.idle

    def output_pins(self):
        """The pins that the judge looks at."""
        rest = self.rest_wire() if self.rest_pin else ""
        return [pin for pin in (self.valid, self.dtx, self.value, self.refused, rest) if pin]


def pairs(words):
    """['valid', 'v', 'bit', 'b'] as a dictionary."""
    return dict(zip(words[::2], words[1::2]))


def run_field(kind, words):
    """digits NAME bit PIN [dtx PIN] [length N]; numbers NAME code PIN WIDTH [signed] [length N]"""
    name, what, pin, *rest = words
    field = Field(name, kind, pin)
    if kind == "numbers":
        field.width, rest = int(rest[0]), rest[1:]
        field.signed = "signed" in rest
        rest = [word for word in rest if word != "signed"]
    said = pairs(rest)
    field.dtx = said.get("dtx", "")
    field.length = int(said.get("length", -1))
    if what != ("bit" if kind == "digits" else "code") or set(said) - {"dtx", "length"}:
        raise Wrong(f"{kind} {' '.join(words)}")
    return field


def number_field(words):
    """number NAME PIN [LOW..HIGH]"""
    field = Field(words[0], "number", words[1])
    if len(words) > 2:
        low, high = re.fullmatch(r"(\d+)\.\.(\d+)", words[2]).groups()
        field.low, field.high = int(low), int(high)
    return field


def take_output(contract, words):
    """output digits valid PIN [dtx PIN] bit PIN [of RUN]; output numbers valid PIN value PIN [signed] [of RUN]"""
    contract.numbers = words[0] == "numbers"
    contract.signed = "signed" in words
    said = pairs([word for word in words[1:] if word != "signed"])
    contract.valid = said["valid"]
    contract.dtx = said.get("dtx", "")
    contract.value = said["value" if contract.numbers else "bit"]
    contract.out = said.get("of", "")


def take(contract, word, words):
    """One line of the file."""
    if word in ("circuit", "source", "call", "clock", "start", "busy", "idle", "refused"):
        setattr(contract, word, words[0])
    elif word == "reset":
        contract.reset, contract.reset_high = words[0], words[1] == "high"
    elif word == "first":
        contract.first = int(words[0])
    elif word == "number":
        contract.fields.append(number_field(words))
    elif word in ("digits", "numbers"):
        contract.fields.append(run_field(word, words))
    elif word == "fixed":
        contract.fixed[words[0]] = int(words[1])
    elif word == "output":
        take_output(contract, words)
    else:
        raise Wrong(f"no line of a contract begins with {word}")


def read(path):
    """The contract in a file."""
    contract = Contract(pathlib.Path(path))
    for number, text in enumerate(contract.path.read_text().splitlines(), 1):
        words = shlex.split(text, comments=True)
        try:
            if words:
                take(contract, words[0], words[1:])
        except (Wrong, ValueError, KeyError, IndexError, AttributeError) as fault:
            raise Wrong(f"{path}, line {number}: {text.strip()} ({fault})") from fault
    for word in ("circuit", "call", "clock", "reset", "start", "valid", "value"):
        if not getattr(contract, word):
            raise Wrong(f"{path} says no {word}")
    if bool(contract.busy) == bool(contract.idle):
        raise Wrong(f"{path} says either busy or idle")
    return contract
