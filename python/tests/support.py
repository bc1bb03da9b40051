"""What the tests share: where things are, and the cases of the second program as calls of this package."""
from __future__ import annotations

import os
import pathlib
import re
import struct
import subprocess
import sys
from typing import Any, Dict, List, NamedTuple, Optional, Tuple

from slt._rows import CALLS, Number, Row

ROOT = pathlib.Path(__file__).resolve().parent.parent.parent
PACKAGE = ROOT / "python" / "slt"
SLOTLINE = os.environ["SLOTLINE"]
HEADER = (ROOT / "include/slt.h").read_text(encoding="utf-8")

# The calls as the cases name them: the function, and the names of arguments that are not those of the function in small letters.
NAMED: Dict[str, Tuple[str, Dict[str, str]]] = {
    "slot map": ("slot_map", {}),
    "slot read": ("slot_read", {"digits": "run"}),
    "antenna map": ("slot_map_antenna", {}),
    "antennas read": ("slot_read_antennas", {}),
    "frame map": ("frame_map", {}),
    "frame read": ("frame_read", {"digits": "frame"}),
    "compressed map": ("compressed_map", {}),
    "compressed read": ("compressed_read", {"digits": "frame"}),
    "DPDCH map": ("dpdch_map", {}),
    "DPDCH read": ("dpdch_read", {"digits": "run"}),
    "DPDCH frame map": ("dpdch_frame_map", {}),
    "DPDCH frame read": ("dpdch_frame_read", {"digits": "frame"}),
    "DPCCH map": ("dpcch_map", {}),
    "DPCCH read": ("dpcch_read", {"digits": "run"}),
    "DPCCH frame map": ("dpcch_frame_map", {}),
    "DPCCH frame read": ("dpcch_frame_read", {"digits": "frame"}),
    "PICH q": ("pich_q", {}),
    "PICH map": ("pich_map", {}),
    "PICH read": ("pich_read", {}),
    "wake run": ("wake_run", {"SFN": "next_sfn"}),
    "wake step": ("wake_step", {"SFN": "next_sfn", "frames": "frame"}),
    "STTD digits": ("sttd_digits", {"digits": "input"}),
    "STTD values": ("sttd_values", {"values": "input"}),
    "P-CCPCH map": ("pccpch_map", {}),
    "P-CCPCH read": ("pccpch_read", {}),
    "HS-PDSCH map": ("hspdsch_map", {}),
    "HS-PDSCH read": ("hspdsch_read", {}),
    "AICH map": ("aich_map", {}),
    "AICH read": ("aich_read", {}),
    "AICH available map": ("aich_map_available", {"set": "available"}),
    "AICH available read": ("aich_read_available", {"set": "available"}),
    "desk serve": ("desk_serve", {}),
    "desk to AICH": ("desk_to_aich", {}),
    "desk to message": ("desk_to_message", {}),
    "bank empty": ("bank_empty", {}),
    "bank store": ("bank_store", {}),
    "bank fetch": ("bank_fetch", {}),
    "bank drop": ("bank_drop", {}),
    "bank length": ("bank_length", {}),
    "bank room": ("bank_room", {}),
    "AICH combine": ("aich_combine", {}),
    "sample": ("sample", {}),
    "slot lengths": ("slot_lengths", {}),
    "frame lengths": ("frame_lengths", {}),
    "compressed lengths": ("compressed_lengths", {}),
    "DPDCH lengths": ("dpdch_lengths", {}),
    "DPDCH frame lengths": ("dpdch_frame_lengths", {}),
    "DPCCH lengths": ("dpcch_lengths", {}),
    "DPCCH frame lengths": ("dpcch_frame_lengths", {}),
    "HS-PDSCH lengths": ("hspdsch_lengths", {}),
}

# The calls that tell lengths.
LENGTHS = sorted(name[len("slt_") :] for name in CALLS if name.endswith("_lengths"))


TALLY = ("read", "woke", "next_sfn")


class Case(NamedTuple):
    """A case: the function, what it is given by name, the lengths of its rooms, and what is answered: number, place, and by name what is answered and written."""

    line: str
    function: str
    given: Dict[str, Any]
    rooms: List[int]
    number: int
    place: int
    answered: Dict[str, Any]

    @property
    def row(self) -> Row:
        return CALLS["slt_" + self.function]

    @property
    def room_refused(self) -> bool:
        """A run that is written has the wrong length, which a caller of the functions cannot bring about."""
        return self.number == 3 and not self.row.runs[self.place].given


def pairs(text: str) -> Dict[str, str]:
    """The words key=value of a text."""
    return dict(word.split("=", 1) for word in text.split(" ") if word)


def bits(text: str) -> float:
    """A float that is written by its bits."""
    found: float = struct.unpack(">f", bytes.fromhex(text))[0]
    return found


def value(row: Row, name: str, text: str) -> Any:
    """What an argument of a call, or its answer, is by its text: a digit is one character."""
    argument = {argument.name: argument for argument in row.arguments}.get(name, Number(name, "size_t"))
    if isinstance(argument, Number) or argument.fixed == 1:
        return int(text)
    if argument.raw:
        return list(letters(text))
    return digits(text) if argument.kind == "uint8_t" else [int(part) for part in text.split(",") if part]


def unfolded(text: str) -> str:
    """A run as it is; a long one is told by what it repeats and up to what length, and by what stands beside that."""
    found = ""
    for part in text.split(","):
        repeated, star, length = part.partition("*")
        found += "".join(repeated[place % len(repeated)] for place in range(int(length))) if star else part
    return found


def letters(text: str) -> bytes:
    """Bytes of a file or of a bank: one from 0 to 9 is that digit, any other its letter."""
    return bytes(int(letter) if letter.isdigit() else ord(letter) for letter in text)


def digits(text: str) -> List[int]:
    return [int(letter) for letter in unfolded(text)]


def values(function: str, names: Dict[str, str], found: Dict[str, str]) -> Dict[str, Any]:
    """What a case has by its own names, by those of the function. The two gains of the combiner are four numbers to C."""
    if "gains" in found:
        found = {**found, **dict(zip(("h1_re", "h1_im", "h2_re", "h2_im"), found["gains"].split(",")))}
        del found["gains"]
    row = CALLS["slt_" + function]
    renamed = {names.get(key, key.lower()): text for key, text in found.items()}
    given = {key: value(row, key, text) for key, text in renamed.items()}
    return with_tally(given) if function == "wake_step" else given


def with_tally(given: Dict[str, Any]) -> Dict[str, Any]:
    """The three numbers of a wake simulation as the one tally that they are to Python, and to C where it takes one frame."""
    return {**{key: part for key, part in given.items() if key not in TALLY}, "tally": [given[key] for key in TALLY]}


def sample_case(line: str, asked: Dict[str, str], told: Dict[str, str], number: int, place: int) -> Case:
    """The settings of a sample are three functions."""
    i, q = asked["values"].split(",")
    setting, *levels = asked["setting"].split(",")
    names = {"off": (), "shared": ("level",), "each": ("first", "second")}[setting]
    given = {"i": int(i), "q": int(q), **dict(zip(names, map(bits, levels))), "antenna": int(asked["antenna"])}
    return Case(line, "sample_" + setting, given, [], number, place, dict(zip(("inphase", "quadrature"), map(bits, told["sample"].split(",")))))


def of_line(line: str) -> Case:
    """NAME: CALL key=value .. -> done key=value .., or with `refused NUMBER PLACE` for `done`. Runs that are written stand on both sides."""
    question, answer = line.split(" -> ")
    call, asked = re.fullmatch(r"[^:]*: ([^=]*?) (\S*=.*)", question).groups()
    number, place, told = re.fullmatch(r"(?:done|refused (\d+) (\d+))(.*)", answer).groups(default="0")
    function, names = NAMED[call]
    if function == "sample":
        return sample_case(line, pairs(asked), pairs(told), int(number), int(place))
    given = values(function, names, pairs(asked))
    rooms = [len(given.pop(run.name)) for run in CALLS["slt_" + function].rooms]
    return Case(line, function, given, rooms, int(number), int(place), values(function, names, pairs(told)))


def cases() -> List[Case]:
    text = (ROOT / "crates/cases/stdout").read_text(encoding="ascii")
    return [of_line(line) for line in text.splitlines() if " -> " in line]


def job_cases() -> List[Tuple[bytes, str]]:
    """The job files of the cases, and what is printed for each."""
    text = (ROOT / "crates/cases/stdout").read_text(encoding="ascii")
    found = re.findall(r"^[\w ]+: job file=(\S*)\n((?:(?:SLT|AICH|PICH|DPCH|refused) .*\n)+)", text, re.M)
    return [(letters(unfolded(file)), printed) for file, printed in found]


def arguments(case: Case) -> Dict[str, Any]:
    """The arguments of a case as the function takes them: gains are pairs, and a tally is one."""
    given = with_tally(case.given) if case.function == "wake_run" else dict(case.given)
    if case.function == "aich_combine":
        given["h1"], given["h2"] = [(given.pop(f"{gain}_re"), given.pop(f"{gain}_im")) for gain in ("h1", "h2")]
    return given


def good() -> Dict[str, Dict[str, Any]]:
    """Good arguments for each function: those of its first case that is done."""
    found: Dict[str, Dict[str, Any]] = {}
    for case in cases():
        if case.number == 0:
            found.setdefault(case.function, arguments(case))
    return found


def run(*words: object, input: Optional[bytes] = None, cwd: Optional[pathlib.Path] = None, **variables: str) -> "subprocess.CompletedProcess[bytes]":
    """Another Python, which finds this package and its library as this one does."""
    environment = {**os.environ, "PYTHONPATH": str(ROOT / "python"), "PYTHONDONTWRITEBYTECODE": "1", **variables}
    return subprocess.run([sys.executable, *map(str, words)], input=input, stdout=subprocess.PIPE, stderr=subprocess.PIPE, env=environment, cwd=cwd)
