"""The C calls of include/slt.h, a row for each: the names and the C types of their arguments, in their order, and how long their runs are.

ctypes knows nothing of a header, and a wrong type here would call the right function wrongly: the audit compares every row with the header.
"""
from __future__ import annotations

from typing import Dict, NamedTuple, Tuple, Union


class Number(NamedTuple):
    """A number."""

    name: str
    kind: str


class Told(NamedTuple):
    """A length that a call of the library tells: that call is given what it takes of the arguments here, and the run's number if it asks for one."""

    call: str
    run: int


class Like(NamedTuple):
    """The length of another run, or a number that is given."""

    name: str


# What a run's length is. Of one that has no length of its own, as an encoder's input, it is ANY.
Length = Union[int, Told, Like]
ANY = -1


class Run(NamedTuple):
    """A run of elements, with its length behind it; where their number is fixed no length is passed. The caller gives it, or the call writes it, or both. One that is not
    written is const in C. To C a fixed number of elements may be a struct. Refusal 3 counts the runs that are asked for their length. Bytes that are no digits are raw."""

    name: str
    kind: str
    given: bool
    written: bool
    length: Length = ANY
    fixed: int = 0
    struct: str = ""
    asked: bool = True
    raw: bool = False

    @property
    def counted(self) -> bool:
        return self.fixed == 0


class Row(NamedTuple):
    arguments: Tuple[Union[Number, Run], ...]
    answer: str = "uint64_t"

    @property
    def runs(self) -> Tuple[Run, ...]:
        """The runs that refusal 3 counts, in its order."""
        return tuple(argument for argument in self.arguments if isinstance(argument, Run) and argument.asked)

    @property
    def read(self) -> Tuple[Union[Number, Run], ...]:
        """What the caller gives."""
        return tuple(argument for argument in self.arguments if isinstance(argument, Number) or argument.given)

    @property
    def rooms(self) -> Tuple[Run, ...]:
        """What is written and not given: room has to be made for it."""
        return tuple(argument for argument in self.arguments if isinstance(argument, Run) and not argument.given)


def row(*arguments: Union[Number, Run]) -> Row:
    return Row(arguments)


def sampled(*arguments: Union[Number, Run]) -> Row:
    return Row(arguments, "slt_sample")


def size(name: str) -> Number:
    return Number(name, "size_t")


def whole(name: str) -> Number:
    return Number(name, "int64_t")


def level(name: str) -> Number:
    return Number(name, "float")


def given(name: str, length: Length = ANY, kind: str = "uint8_t") -> Run:
    return Run(name, kind, given=True, written=False, length=length)


def room(name: str, length: Length, kind: str = "uint8_t") -> Run:
    return Run(name, kind, given=False, written=True, length=length)


def state(name: str, kind: str, fixed: int = 1, struct: str = "") -> Run:
    """A number that the call is given and changes, or a struct of some."""
    return Run(name, kind, given=True, written=True, fixed=fixed, struct=struct, asked=False)


def store(name: str, written: bool = True) -> Run:
    """Bytes that hold something between calls. A call that changes them is given them, too."""
    return Run(name, "uint8_t", given=True, written=written, asked=False, raw=True)


FORMAT, KIND, FIRST, MISSING = size("format"), size("kind"), size("first"), size("missing")
NP, PI, SLOT, TPC, ANTENNA = size("np"), size("pi"), size("slot"), size("tpc"), size("antenna")
HEARD, AVAILABLE = Number("heard", "uint16_t"), Number("available", "uint16_t")
I, Q, RUN, NUMBER = whole("i"), whole("q"), size("run"), size("number")

# Channels without formats have these lengths (docs/RULES.md). Those of all others the library tells.
PICH_FRAME, PCCPCH_FRAME, PCCPCH_DATA = 300, 300, 270
SIGNATURES, VALUES = 16, 32


def told(call: str, count: int) -> Tuple[Told, ...]:
    return tuple(Told(call, run) for run in range(count))


S_DATA, S_TFCI, S_SLOT = told("slt_slot_lengths", 3)
F_DATA, F_TFCI, F_FRAME, F_COMMANDS = told("slt_frame_lengths", 4)
C_DATA, C_TFCI, C_FRAME, C_COMMANDS = told("slt_compressed_lengths", 4)
D_DATA, D_SLOT = told("slt_dpdch_lengths", 2)
DF_DATA, DF_FRAME = told("slt_dpdch_frame_lengths", 2)
U_TFCI, U_FBI, U_SLOT = told("slt_dpcch_lengths", 3)
UF_TFCI, UF_FBI, UF_FRAME, UF_COMMANDS = told("slt_dpcch_frame_lengths", 4)
H_DATA, H_FIRST, H_SECOND = told("slt_hspdsch_lengths", 3)

CALLS: Dict[str, Row] = {
    "slt_pich_q": row(NP, PI, size("sfn")),
    "slt_pich_map": row(NP, given("indicators", Like("np")), room("frame", PICH_FRAME)),
    "slt_pich_read": row(NP, given("frame", PICH_FRAME), room("indicators", Like("np"))),
    "slt_wake_run": row(NP, PI, given("frames"), state("read", "uint32_t"), state("woke", "uint32_t"), state("next_sfn", "uint32_t")),
    "slt_wake_step": row(state("tally", "uint32_t", 3, "slt_tally"), NP, PI, given("frame", PICH_FRAME)),
    "slt_slot_map": row(FORMAT, SLOT, TPC, given("data", S_DATA), given("tfci", S_TFCI), room("out", S_SLOT)),
    "slt_slot_read": row(FORMAT, SLOT, given("run", S_SLOT), room("data", S_DATA), room("tfci", S_TFCI)),
    "slt_slot_map_antenna": row(FORMAT, SLOT, ANTENNA, TPC, given("data", S_DATA), given("tfci", S_TFCI), room("out", S_SLOT)),
    "slt_slot_read_antennas": row(FORMAT, SLOT, given("first", S_SLOT), given("second", S_SLOT), room("data", S_DATA), room("tfci", S_TFCI)),
    "slt_frame_map": row(FORMAT, given("data", F_DATA), given("tfci", F_TFCI), room("out", F_FRAME), given("commands", F_COMMANDS)),
    "slt_frame_read": row(FORMAT, given("frame", F_FRAME), room("data", F_DATA), room("tfci", F_TFCI), room("commands", F_COMMANDS)),
    "slt_compressed_map": row(
        FORMAT, KIND, FIRST, MISSING, given("data", C_DATA), given("tfci", C_TFCI), room("out", C_FRAME), given("commands", C_COMMANDS)
    ),
    "slt_compressed_read": row(
        FORMAT, KIND, FIRST, MISSING, given("frame", C_FRAME), room("data", C_DATA), room("tfci", C_TFCI), room("commands", C_COMMANDS)
    ),
    "slt_dpdch_map": row(FORMAT, given("data", D_DATA), room("out", D_SLOT)),
    "slt_dpdch_read": row(FORMAT, given("run", D_SLOT), room("data", D_DATA)),
    "slt_dpdch_frame_map": row(FORMAT, given("data", DF_DATA), room("out", DF_FRAME)),
    "slt_dpdch_frame_read": row(FORMAT, given("frame", DF_FRAME), room("data", DF_DATA)),
    "slt_dpcch_map": row(FORMAT, SLOT, TPC, given("tfci", U_TFCI), given("fbi", U_FBI), room("out", U_SLOT)),
    "slt_dpcch_read": row(FORMAT, SLOT, given("run", U_SLOT), room("tfci", U_TFCI), room("fbi", U_FBI)),
    "slt_dpcch_frame_map": row(FORMAT, given("tfci", UF_TFCI), given("fbi", UF_FBI), room("out", UF_FRAME), given("commands", UF_COMMANDS)),
    "slt_dpcch_frame_read": row(FORMAT, given("frame", UF_FRAME), room("tfci", UF_TFCI), room("fbi", UF_FBI), room("commands", UF_COMMANDS)),
    "slt_sttd_digits": row(given("input"), room("out", Like("input"))),
    "slt_sttd_values": row(given("input", VALUES, "int32_t"), room("out", VALUES, "int32_t")),
    "slt_pccpch_map": row(given("data", PCCPCH_DATA), room("antenna1", PCCPCH_FRAME), room("antenna2", PCCPCH_FRAME)),
    "slt_pccpch_read": row(given("antenna1", PCCPCH_FRAME), given("antenna2", PCCPCH_FRAME), room("data", PCCPCH_DATA)),
    "slt_hspdsch_map": row(FORMAT, given("data", H_DATA), room("antenna1", H_FIRST), room("antenna2", H_SECOND)),
    "slt_hspdsch_read": row(FORMAT, given("antenna1", H_FIRST), given("antenna2", H_SECOND), room("data", H_DATA)),
    "slt_slot_lengths": row(FORMAT, RUN),
    "slt_frame_lengths": row(FORMAT, RUN),
    "slt_compressed_lengths": row(FORMAT, KIND, FIRST, MISSING, RUN),
    "slt_dpdch_lengths": row(FORMAT, RUN),
    "slt_dpdch_frame_lengths": row(FORMAT, RUN),
    "slt_dpcch_lengths": row(FORMAT, RUN),
    "slt_dpcch_frame_lengths": row(FORMAT, RUN),
    "slt_hspdsch_lengths": row(FORMAT, RUN),
    "slt_aich_map": row(given("indicators", SIGNATURES, "int32_t"), room("values", VALUES, "int32_t")),
    "slt_aich_read": row(given("values", VALUES, "int32_t"), room("indicators", SIGNATURES, "int32_t")),
    "slt_aich_map_available": row(AVAILABLE, given("indicators", SIGNATURES, "int32_t"), room("values", VALUES, "int32_t")),
    "slt_aich_read_available": row(AVAILABLE, given("values", VALUES, "int32_t"), room("indicators", SIGNATURES, "int32_t")),
    "slt_desk_serve": row(state("last", "size_t"), HEARD, AVAILABLE, size("n"), room("values", VALUES, "int32_t")),
    "slt_desk_to_aich": row(size("timing")),
    "slt_desk_to_message": row(size("timing")),
    "slt_aich_combine": row(
        whole("h1_re"), whole("h1_im"), whole("h2_re"), whole("h2_im"), given("received", VALUES, "int32_t"), room("results", SIGNATURES, "int64_t")
    ),
    "slt_sample_off": sampled(I, Q, ANTENNA),
    "slt_sample_shared": sampled(I, Q, level("level"), ANTENNA),
    "slt_sample_each": sampled(I, Q, level("first"), level("second"), ANTENNA),
    "slt_bank_empty": row(store("bank")),
    "slt_bank_store": row(store("bank"), NUMBER, given("slot")),
    "slt_bank_fetch": row(store("bank", written=False), NUMBER, room("out", Told("slt_bank_length", 0))),
    "slt_bank_drop": row(store("bank"), NUMBER),
    "slt_bank_length": row(store("bank", written=False), NUMBER),
    "slt_bank_room": row(store("bank", written=False)),
}
