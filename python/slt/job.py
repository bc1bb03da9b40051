"""Job files, as the program slotline reads them (docs/JOBFILE.md): read, written, checked and printed.

What a record gives and what is wrong with it, the library's calls say; here stands only what a file is.
"""
from __future__ import annotations

from dataclasses import dataclass
from typing import ClassVar, Dict, Iterable, Iterator, List, NamedTuple, Sequence, Tuple, Type, Union

from . import _numbers
from ._rows import SIGNATURES
from .aich import aich_map
from .digits import Digits, DigitsLike
from .dpch import slot_map
from .lengths import slot_lengths
from .pich import pich_map, pich_q
from .refusals import Refused

__all__ = ["Aich", "Pich", "Dpch", "Record", "Job", "FileRefused", "lines"]

MARK = b"SLT"
OVER_LONG, WRONG_MARK, UNKNOWN_VERSION, UNKNOWN_KIND, ENDS_EARLY, BYTES_AFTER = range(20, 26)


class Version(NamedTuple):
    """A version of the file: how many bytes its count of records has, how many the file may have, and whether these are counted before any line is printed; else
    the first that is too many is refused where reading comes to it."""

    number: int
    count_bytes: int
    longest: int
    counted_first: bool

    @property
    def head(self) -> bytes:
        return MARK + self.number.to_bytes(2, "big")

    @property
    def most_records(self) -> int:
        return (1 << 8 * self.count_bytes) - 1


# The versions that slotline reads, the lowest first.
VERSIONS: Sequence[Version] = (
    Version(1, count_bytes=1, longest=65535, counted_first=True),
    Version(2, count_bytes=2, longest=1048576, counted_first=False),
)


class FileRefused(Refused):
    """A job file is refused, with the number and the place that slotline prints. `offset` is where in the file: of a record that is refused it is the first byte."""

    def __init__(self, number: int, place: int, offset: int) -> None:
        super().__init__(number, place, f"at byte {offset} of the file")
        self.args = (number, place, offset)
        self.offset = offset


class Reader:
    """A file, and how much of it has been read."""

    def __init__(self, data: bytes) -> None:
        if not isinstance(data, (bytes, bytearray, memoryview)):
            raise TypeError(f"a job file is bytes, and not of type {type(data).__name__}")
        self.data = bytes(data)
        self.at = 0
        self.longest = len(self.data)

    def take(self, count: int) -> bytes:
        """The next bytes, looked for in turn: the first that is too many for the version, or that is missing, is told."""
        end = self.at + count
        if self.longest < min(end, len(self.data)):
            raise FileRefused(OVER_LONG, self.longest, self.longest)
        if len(self.data) < end:
            raise FileRefused(ENDS_EARLY, len(self.data), len(self.data))
        begin, self.at = self.at, end
        return self.data[begin:end]

    def byte(self) -> int:
        return self.take(1)[0]

    def header(self) -> Tuple[Version, int]:
        """The version and the count. A byte of the mark or of the version that no version has is told where it stands."""
        versions = list(VERSIONS)
        for offset in range(len(versions[0].head)):
            byte = self.byte()
            versions = [version for version in versions if version.head[offset] == byte]
            if not versions:
                raise FileRefused(WRONG_MARK if offset < len(MARK) else UNKNOWN_VERSION, offset, offset)
        (version,) = versions
        if version.counted_first and len(self.data) > version.longest:
            raise FileRefused(OVER_LONG, version.longest, version.longest)
        self.longest = version.longest
        return version, int.from_bytes(self.take(version.count_bytes), "big")

    def records(self, count: int) -> Iterator[Part]:
        """Each record, and then the file's end. The first refusal ends it."""
        for _ in range(count):
            yield self.record()
        if self.at < len(self.data):
            self.take(1)
            raise FileRefused(BYTES_AFTER, self.at - 1, self.at - 1)

    def record(self) -> Part:
        begin = self.at
        kind = self.byte()
        if kind not in KINDS:
            raise FileRefused(UNKNOWN_KIND, begin, begin)
        try:
            record = KINDS[kind].read(self)
            return Part(begin, record, record.line())
        except FileRefused:
            raise
        except Refused as refusal:
            raise FileRefused(refusal.number, refusal.place, begin) from None


def in_byte(name: str, value: object) -> bytes:
    return bytes([_numbers.whole(name, value, "uint8_t")])


@dataclass(frozen=True, init=False)
class Aich:
    """An AICH access slot: sixteen acquisition indicators, each -1, 0 or +1."""

    KIND: ClassVar[int] = 1
    indicators: Tuple[int, ...]

    def __init__(self, indicators: Sequence[int]) -> None:
        object.__setattr__(self, "indicators", tuple(_numbers.elements("indicators", indicators, "int32_t")))

    def __bytes__(self) -> bytes:
        """-1 is written as 2, and so there is no byte for a 2. Any other number is written as it is, for the reader to refuse."""
        if 2 in self.indicators:
            raise ValueError(f"indicators[{self.indicators.index(2)}] is 2: in a job file the byte 2 is -1")
        written = (in_byte(f"indicators[{s}]", 2 if value == -1 else value) for s, value in enumerate(self.indicators))
        return bytes([self.KIND]) + b"".join(written)

    @classmethod
    def read(cls, reader: Reader) -> Aich:
        return cls([-1 if byte == 2 else byte for byte in reader.take(SIGNATURES)])

    def line(self) -> str:
        return " ".join(["AICH", *map(str, aich_map(self.indicators))])


@dataclass(frozen=True, init=False)
class Pich:
    """A PICH frame: Np and the paging indicators, each 0 or 1."""

    KIND: ClassVar[int] = 2
    np: int
    indicators: Digits

    def __init__(self, np: int, indicators: DigitsLike) -> None:
        object.__setattr__(self, "np", np)
        object.__setattr__(self, "indicators", Digits(indicators))

    def __bytes__(self) -> bytes:
        return bytes([self.KIND]) + in_byte("np", self.np) + self.indicators

    @classmethod
    def read(cls, reader: Reader) -> Pich:
        np = reader.byte()
        pich_q(np, 0, 0)  # refused where there is no such Np
        return cls(np, reader.take(np))

    def line(self) -> str:
        return f"PICH {self.np} {pich_map(self.np, self.indicators)}"


@dataclass(frozen=True, init=False)
class Dpch:
    """A downlink DPCH slot: its format, its number and its fields, as slot_map takes them."""

    KIND: ClassVar[int] = 3
    format: int
    slot: int
    tpc: int
    data: Digits
    tfci: Digits

    def __init__(self, format: int, slot: int, *, tpc: int, data: DigitsLike, tfci: DigitsLike = b"") -> None:
        for name, value in (("format", format), ("slot", slot), ("tpc", tpc), ("data", Digits(data)), ("tfci", Digits(tfci))):
            object.__setattr__(self, name, value)

    def __bytes__(self) -> bytes:
        numbers = in_byte("format", self.format) + in_byte("slot", self.slot) + in_byte("tpc", self.tpc)
        return bytes([self.KIND]) + numbers + self.tfci + self.data

    @classmethod
    def read(cls, reader: Reader) -> Dpch:
        format = reader.byte()
        data, tfci = slot_lengths(format, 0), slot_lengths(format, 1)
        rest = reader.take(2 + tfci + data)
        return cls(format, rest[0], tpc=rest[1], data=rest[2 + tfci :], tfci=rest[2 : 2 + tfci])

    def line(self) -> str:
        return f"DPCH {self.format} {self.slot} {slot_map(self.format, self.slot, tpc=self.tpc, data=self.data, tfci=self.tfci)}"


Record = Union[Aich, Pich, Dpch]
KINDS: Dict[int, Union[Type[Aich], Type[Pich], Type[Dpch]]] = {Aich.KIND: Aich, Pich.KIND: Pich, Dpch.KIND: Dpch}


def written(name: str, record: Record) -> bytes:
    """The bytes of a record, and of nothing else: those of a number would be so many zeros."""
    if not isinstance(record, tuple(KINDS.values())):
        raise TypeError(f"{name} is of type {type(record).__name__}: a record is asked for")
    return bytes(record)


class Part(NamedTuple):
    """A record of a file: where it begins, what it is, and the line that slotline prints for it."""

    offset: int
    record: Record
    line: str


class Job:
    """A job: its records, in the order in which they are printed. `bytes(job)` is its file, of the lowest version that holds it where `version` is 0.

    A record is written as it is, good or not: so files that are to be refused can be written as well. `check` says whether slotline would take it.
    """

    def __init__(self, records: Iterable[Record] = (), version: int = 0) -> None:
        try:
            self.records = [record for record in records]
        except (TypeError, NotImplementedError):
            raise TypeError(f"records is of type {type(records).__name__}: a sequence of records is asked for") from None
        self.version = _numbers.whole("version", version, "uint16_t")

    @classmethod
    def read(cls, data: bytes) -> Job:
        """The job of a file; FileRefused, with the number and the place that slotline prints, where it is refused."""
        reader = Reader(data)
        version, count = reader.header()
        return cls([part.record for part in reader.records(count)], version.number)

    def check(self) -> None:
        """Raises FileRefused where slotline would refuse the job's file."""
        Job.read(bytes(self))

    def __bytes__(self) -> bytes:
        body = b"".join(written(f"records[{place}]", record) for place, record in enumerate(self.records))
        known = [version for version in VERSIONS if self.version in (0, version.number)]
        for version in known:
            head = len(version.head) + version.count_bytes
            if len(self.records) <= version.most_records and head + len(body) <= version.longest:
                return version.head + len(self.records).to_bytes(version.count_bytes, "big") + body
        if not known:
            raise ValueError(f"there is no version {self.version} of job files")
        most = known[-1]
        limits = f"a file of version {most.number} has at most {most.most_records} records and {most.longest} bytes"
        raise ValueError(f"a job of {len(self.records)} records, {len(body)} bytes, is too large: {limits}")

    def __eq__(self, other: object) -> bool:
        """Jobs are equal whose files are."""
        if not isinstance(other, Job):
            return NotImplemented
        return bytes(self) == bytes(other)

    def __repr__(self) -> str:
        return f"Job({self.records!r}, version={self.version})"


def lines(data: bytes) -> List[str]:
    """The lines that slotline prints for a file, without their newlines."""
    printed = []
    try:
        reader = Reader(data)
        version, count = reader.header()
        printed.append(f"{MARK.decode()} {version.number} {count}")
        for part in reader.records(count):
            printed.append(part.line)
    except FileRefused as refusal:
        printed.append(f"refused {refusal.number} {refusal.place}")
    return printed
