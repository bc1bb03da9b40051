"""Job files: written, read back, and printed as the program slotline prints them, byte for byte."""
from __future__ import annotations

import concurrent.futures
import random
import subprocess
import unittest
from typing import List
from unittest import mock

import slt
from slt import job
from slt.job import Aich, Dpch, FileRefused, Job, Pich

from . import support

EXAMPLES = support.ROOT / "examples"
SLOT = Dpch(1, 1, tpc=1, data="10", tfci="01")
LONG = Dpch(16, 0, tpc=0, data="0" * 1248, tfci="0" * 8)
# Records that are refused, and how.
BAD = {
    Dpch(17, 0, tpc=0, data="1"): "refused 1 0",
    Dpch(1, 15, tpc=0, data="10", tfci="01"): "refused 2 0",
    Dpch(0, 0, tpc=0, data=[0, 9, 9, 9]): "refused 4 1",
    Dpch(0, 0, tpc=2, data="1010"): "refused 5 0",
    Dpch(1, 0, tpc=0, data="10", tfci="-1"): "refused 6 1",
    Pich(19, "1"): "refused 8 0",
    Pich(18, "-" * 18): "refused 4 0",
    Aich([0] * 15 + [7]): "refused 11 15",
}


def printed(data: bytes) -> bytes:
    """What this package prints for a file."""
    return "".join(line + "\n" for line in job.lines(data)).encode("ascii")


def by_slotline(data: bytes) -> bytes:
    return subprocess.run([support.SLOTLINE], input=data, stdout=subprocess.PIPE, check=True).stdout


def record(chance: random.Random) -> job.Record:
    """A good record of any kind, of a format that is not too long."""
    kind = chance.randrange(3)
    if kind == 0:
        return Aich(chance.choices([-1, 0, 1], k=16))
    if kind == 1:
        np = chance.choice([18, 36, 72, 144])
        return Pich(np, chance.choices([0, 1], k=np))
    format = chance.choice(range(chance.choice([2, 12, 17])))
    data, tfci = slt.slot_lengths(format, 0), slt.slot_lengths(format, 1)
    field = [2] * tfci if chance.random() < 0.3 else chance.choices([0, 1], k=tfci)
    return Dpch(format, chance.randrange(15), tpc=chance.randrange(2), data=chance.choices([0, 1, 2], k=data), tfci=field)


def damaged(chance: random.Random, data: bytes) -> bytes:
    """A file with a byte changed, taken out or put in, or cut short."""
    at = chance.randrange(len(data) if chance.random() < 0.5 else min(len(data), 12))
    byte = bytes([chance.choice([0, 1, 2, 3, 4, 17, 18, 255])])
    return chance.choice([data[:at] + byte + data[at + 1 :], data[:at] + byte + data[at:], data[:at] + data[at + 1 :], data[:at], data + byte])


def files() -> List[bytes]:
    """The examples, the cases, good files, damaged ones, and files at their limits."""
    chance = random.Random(25211)
    found = [path.read_bytes() for path in sorted(EXAMPLES.glob("*.slt"))] + [file for file, _ in support.job_cases()]
    jobs = [bytes(Job(record(chance) for _ in range(chance.randrange(8)))) for _ in range(40)]
    found += [bytes(Job([SLOT, bad, SLOT])) for bad in BAD]
    found += jobs + [damaged(chance, chance.choice(jobs)) for _ in range(200)]
    fifty_two = b"SLT\0\1" + bytes([52]) + bytes(LONG) * 52
    found += [b"", b"S", b"SLT\0\1", b"SLT\0\2\0", b"SLT\0\2\0\0", bytes(Job([])), bytes(Job([SLOT] * 255)), bytes(Job([SLOT] * 3000)), fifty_two]
    found += [bytes(Job(records, version=2)) for records in ([], [SLOT], [SLOT] * 256, [*BAD])] + [b"SLT\0\3\0\0", b"SLT\2\0\0\0", b"SLT\0\2\0\1", b"SLT\0\2\1\0" + bytes(SLOT)]
    found += [damaged(chance, bytes(Job(Job.read(chance.choice(jobs)).records, version=2))) for _ in range(100)]
    return found + [(mark + fifty_two[3:]).ljust(length, b"\0")[:length] for mark in (b"SLT", b"slt") for length in (65534, 65535, 65536, 65537, 70000)]


def at_the_limit() -> List[bytes]:
    """Files of version 2 at their limit: records that end there, and bytes behind them; a record that crosses it, and one with only its kind before it, good and bad."""
    limit, long, aich = job.VERSIONS[1].longest, bytes(LONG), bytes(Aich([0] * 16))
    body = long * 832
    whole = body + aich + bytes(SLOT) * 29
    assert 7 + len(whole) == limit
    crossing = [body + long, body + long[:9] + b"\7" * len(long)]
    kind_alone = [body + bytes(SLOT) * 31 + kind + b"\0" * 20 for kind in b"\3 \2 \1 \t".split()]
    ends = [(862, whole + end) for end in (b"", b"\0", long)] + [(863, whole), (863, whole + long)]
    ends += [(833, data[: limit - 7 + more]) for data in crossing for more in (-1, 0, 1)] + [(833, crossing[0])]
    ends += [(864, data[: limit - 7 + more]) for data in kind_alone for more in (0, 1)]
    return [b"SLT\0\2" + count.to_bytes(2, "big") + data for count, data in ends]


class AgainstSlotline(unittest.TestCase):
    def test_lines(self) -> None:
        tried = files() + at_the_limit()
        with concurrent.futures.ThreadPoolExecutor(2) as pool:
            wanted = list(pool.map(by_slotline, tried))
        for data, text in zip(tried, wanted):
            with self.subTest(data[:60]):
                self.assertEqual(printed(data), text)
        ends = {int(text.split(b"refused ")[1].split()[0]) for text in wanted if b"refused " in text}
        self.assertGreaterEqual(ends, {1, 2, 4, 5, 6, 8, 11, 20, 21, 22, 23, 24, 25})

    def test_examples(self) -> None:
        for path in sorted(EXAMPLES.glob("*.slt")):
            self.assertEqual(printed(path.read_bytes()), path.with_suffix(".txt").read_bytes(), path.name)


class Reading(unittest.TestCase):
    def test_there_and_back(self) -> None:
        chance = random.Random(1)
        for count in (0, 1, 7, 60):
            made = Job(record(chance) for _ in range(count))
            back = Job.read(bytes(made))
            self.assertEqual((back, back.records, back.version), (made, made.records, 1))
            self.assertEqual(bytes(back), bytes(made))
            made.check()

    def test_refused(self) -> None:
        """What is raised is what slotline prints last, and the offset is that of the record."""
        for data in files() + at_the_limit()[:3]:
            last = job.lines(data)[-1]
            if last.startswith("refused "):
                with self.subTest(data[:60]), self.assertRaises(FileRefused) as raised:
                    Job.read(data)
                refusal = raised.exception
                self.assertEqual(f"refused {refusal.number} {refusal.place}", last)
                self.assertLessEqual(refusal.offset, len(data))
                if refusal.number >= 20:
                    self.assertEqual(refusal.offset, refusal.place)
            else:
                self.assertEqual(bytes(Job.read(data)), data)

    def test_offset_of_a_record(self) -> None:
        with self.assertRaises(FileRefused) as raised:
            Job([SLOT, Dpch(1, 15, tpc=1, data="10", tfci="01"), SLOT]).check()
        self.assertEqual((raised.exception.number, raised.exception.place, raised.exception.offset), (2, 0, 14))
        self.assertIn("at byte 14 of the file", str(raised.exception))

    def test_of_bytes_alone(self) -> None:
        for data in (bytearray(bytes(Job([SLOT]))), memoryview(bytes(Job([SLOT])))):
            self.assertEqual(Job.read(data), Job([SLOT]))
        for wrong in (None, "SLT", 5, [83, 76, 84], "examples/dpch.slt"):
            with self.assertRaises(TypeError):
                Job.read(wrong)
            with self.assertRaises(TypeError):
                job.lines(wrong)


class Writing(unittest.TestCase):
    def test_the_example(self) -> None:
        self.assertEqual(bytes(Job([SLOT])), (EXAMPLES / "dpch.slt").read_bytes())

    def test_bad_records_are_written(self) -> None:
        """For tests of a reader: what slotline is to refuse can be written."""
        for bad, last in BAD.items():
            self.assertEqual(job.lines(bytes(Job([SLOT, bad]))), ["SLT 1 2", "DPCH 1 1 1101101100", last])

    def test_what_no_byte_holds(self) -> None:
        slots = (Dpch(256, 0, tpc=0, data=""), Dpch(0, -1, tpc=0, data=""), Dpch(0, 0, tpc=999, data=""))
        for bad in (*slots, Pich(300, ""), Aich([2] + [0] * 15), Aich([-2] + [0] * 15), Aich([300])):
            with self.subTest(bad), self.assertRaises(ValueError):
                bytes(Job([bad]))
        for wrong in (lambda: bytes(Job([7])), lambda: bytes(Job([b"\3"])), lambda: Job(None), lambda: Job([SLOT], None), lambda: Pich(18, 5), lambda: Aich("101")):
            with self.assertRaises(TypeError):
                wrong()

    def test_too_large(self) -> None:
        most = job.VERSIONS[-1]
        for many in ([SLOT] * (most.most_records + 1), [LONG] * (most.longest // 1260 + 1)):
            with self.assertRaises(ValueError) as raised:
                bytes(Job(many))
            self.assertIn(f"{most.most_records} records and {most.longest} bytes", str(raised.exception))
        for records, version in (([SLOT], 7), ([SLOT] * 256, 1), ([LONG] * 53, 1)):
            with self.assertRaises(ValueError):
                bytes(Job(records, version=version))

    def test_equal(self) -> None:
        self.assertEqual(Job([SLOT]), Job([SLOT], version=1))
        self.assertNotEqual(Job([SLOT]), Job([SLOT, SLOT]))
        self.assertNotEqual(Job([SLOT]), [SLOT])
        three = Job([SLOT, Pich(18, "0" * 18), Aich([0] * 16)])
        self.assertEqual(eval(repr(three), {**vars(job), "Digits": slt.Digits}), three)


class Widths(unittest.TestCase):
    """A version is its number, the width of its count and its limit: one with a wide count and a limit that is found while reading, beside the first."""

    WIDE = job.Version(2, count_bytes=2, longest=60, counted_first=False)

    def setUp(self) -> None:
        patched = mock.patch.object(job, "VERSIONS", [job.VERSIONS[0], self.WIDE])
        patched.start()
        self.addCleanup(patched.stop)

    def wide(self, count: int, rest: bytes) -> List[str]:
        return job.lines(b"SLT\0\2" + count.to_bytes(2, "big") + rest)

    def test_count(self) -> None:
        self.assertEqual(self.wide(0, b""), ["SLT 2 0"])
        self.assertEqual(self.wide(1, bytes(SLOT)), ["SLT 2 1", "DPCH 1 1 1101101100"])
        self.assertEqual(self.wide(256, b""), ["SLT 2 256", "refused 24 7"])
        self.assertEqual(job.lines(b"SLT\0\2\1"), ["refused 24 6"])
        self.assertEqual(job.lines(b"SLT\0\3\1"), ["refused 22 4"])
        self.assertEqual(job.lines(b"SLT\2\0\1"), ["refused 22 3"])

    def test_limit(self) -> None:
        """The byte behind the last that is allowed is refused where reading comes to it, before any other check on it."""
        slots, line = bytes(SLOT) * 6, ["DPCH 1 1 1101101100"] * 6
        whole = self.wide(6, slots)
        self.assertEqual(whole, ["SLT 2 6", *line])
        at = 7 + len(slots)
        self.assertEqual(at, 55)
        self.assertEqual(self.wide(6, slots + bytes(5)), [*whole, "refused 25 55"])
        self.assertEqual(self.wide(6, slots + bytes(6)), [*whole, "refused 25 55"])
        early = [(b"", "24 55"), (b"\3\1\1\1\0", "24 60"), (b"\1\1\1\1\1", "24 60"), (b"\3\x11\1\1\0\1", "1 0"), (b"\4\1\1\1\0\1", "23 55")]
        over = [b"\3\1\1\1\0\1", b"\3\1\1\1\0\1\1\0", b"\3\1\17\1\0\1\1\0", b"\3\1\1\1\7\7", b"\1\1\1\1\1\1", b"\2\x12\1\1\1\1"]
        for rest, end in early + [(rest, "20 60") for rest in over]:
            self.assertEqual(self.wide(7, slots + rest), ["SLT 2 7", *line, f"refused {end}"], rest)

    def test_limit_at_a_kind_and_behind_it(self) -> None:
        """Where the limit falls on a kind, on an Np or a format, on a byte behind it, and behind the last record."""
        good, first = bytes(Dpch(0, 0, tpc=0, data="1010")), ["SLT 2 2", "DPCH 0 0 0010101111"]
        at = 7 + len(good)
        for longest in (at, at + 1, at + 2, at + 3):
            with mock.patch.object(job, "VERSIONS", [self.WIDE._replace(longest=longest)]):
                over = f"refused 20 {longest}"
                for kind, wrong in ((b"\1", over), (b"\2", "refused 8 0" if longest > at + 1 else over), (b"\3", over), (b"\t", f"refused 23 {at}")):
                    rest = (kind + good[1:])[: longest + 1 - at]
                    self.assertEqual(self.wide(2, good + rest), [*first, over if longest == at else wrong], (kind, longest))
                self.assertEqual(self.wide(1, good + b"\0"), ["SLT 2 1", first[1], over if longest == at else f"refused 25 {at}"])

    def test_the_first_version_counts_first(self) -> None:
        """Behind mark and version, where there is a version that does not count first."""
        over = bytes(65530)
        self.assertEqual(job.lines(b"SLT\0\1\0" + over), ["refused 20 65535"])
        self.assertEqual(job.lines(b"SLX\0\1\0" + over), ["refused 21 2"])
        self.assertEqual(job.lines(b"SLT\0\7\0" + over), ["refused 22 4"])

    def test_lowest_that_holds(self) -> None:
        with mock.patch.object(job, "VERSIONS", [job.VERSIONS[0], self.WIDE._replace(longest=1 << 20)]):
            self.assertEqual([bytes(Job([SLOT] * count))[4] for count in (0, 255, 256)], [1, 1, 2])
            self.assertEqual([bytes(Job([LONG] * count))[4] for count in (52, 53)], [1, 2])
            self.assertEqual(Job.read(bytes(Job([SLOT] * 256))).version, 2)
            self.assertEqual(bytes(Job([SLOT], version=2))[:7], b"SLT\0\2\0\1")
            self.assertEqual(len(job.lines(bytes(Job([SLOT] * 1000)))), 1001)
