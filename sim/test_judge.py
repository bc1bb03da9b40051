#!/usr/bin/env python3
"""Tries the parts of the judge that need no tool: contracts, texts of runs, counterexamples, owed lines."""
import pathlib
import sys
import tempfile
import types
import unittest

sys.dont_write_bytecode = True
HERE = pathlib.Path(__file__).resolve().parent
sys.path.insert(0, str(HERE / "judging"))

import contract
import generate
import mutants
import owed
import prover
import replay
import simplify
import words
from driver import Step, step_of


class Contracts(unittest.TestCase):
    """What a contract may say, and what is told of one that says something else."""

    def read(self, change=lambda text: text):
        """The contract of dpch_slot with a change in it."""
        with tempfile.TemporaryDirectory() as folder:
            path = pathlib.Path(folder) / "own.contract"
            path.write_text(change((HERE / "circuits" / "dpch_slot.contract").read_text()))
            return contract.read(path)

    def test_fields(self):
        read = self.read()
        self.assertEqual([field.name for field in read.fields], ["format", "slot", "tpc", "data", "tfci"])
        self.assertEqual((read.fields[0].low, read.fields[0].high), (0, 11))
        self.assertEqual(read.input_pins(), ["format", "slot", "tpc", "data_bit", "data_dtx", "tfci"])

    def test_faults_are_told_with_their_line(self):
        for old, new in (("clock   clk", "clok clk"), ("0..11", "0-11"), ("bit data_bit", "byte data_bit"), ("valid valid ", "")):
            with self.assertRaisesRegex(contract.Wrong, "line "):
                self.read(lambda text, old=old, new=new: text.replace(old, new))
        with self.assertRaisesRegex(contract.Wrong, "busy or idle"):
            self.read(lambda text: text.replace("busy    running", ""))


    def test_pins_that_there_are_not(self):
        module = {"ports": dict.fromkeys(["clk", "rst", "start", "format"]), "netnames": {}}
        with self.assertRaisesRegex(contract.Wrong, "has no slot, tpc, .*running"):
            generate.check_pins(self.read(), module)


class Texts(unittest.TestCase):
    """Runs in text, steps, places of the source."""

    def test_runs(self):
        self.assertEqual(words.run_items("0{3}1-", False), ["0", "0", "0", "1", "-"])
        self.assertEqual(words.run_items("16,-2{2},0", True), ["16", "-2", "-2", "0"])
        self.assertEqual(words.run_items(".", False), [])

    def test_steps(self):
        for step in (Step(0), Step(255, 0, 0, 7)):
            self.assertEqual(step_of(step.text()), step)

    def test_places(self):
        self.assertEqual(mutants.lines_of(["sim/circuits/x.v:3.1-9.4", "x.v:0.0-0.0"]), "x.v:3-9")
        self.assertEqual(mutants.lines_of(["x.v:3.1-3.4"]), "x.v:3")

    def test_fewer_bits(self):
        tried = list(simplify.fewer_bits(0b10110, 0b00110))
        self.assertEqual(tried[0], 0b10000)
        self.assertIn(0b10010, tried)
        self.assertTrue(all(value & 0b10000 for value in tried))


    def test_smaller_numbers_leave_nothing_behind(self):
        """A number in bits 0 and 1 that says how many of the bits from 2 on mean something."""
        driver = types.SimpleNamespace(show=lambda step: types.SimpleNamespace(used=(1 << 2 + (step.inputs & 3)) - 1))
        tried = list(simplify.smaller_numbers(driver, Step(0b11110), [(0, 2)], 0b01111))
        self.assertEqual([step.inputs for step in tried], [0b10000, 0b10101])


class Counterexamples(unittest.TestCase):
    """A counterexample becomes the streams that it has."""
    driver = types.SimpleNamespace(show=lambda step: types.SimpleNamespace(said="0101"))

    def steps(self, cycles):
        """The steps of cycles that are written R, S, B (both, so a reset) or a dot."""
        listed = [prover.Cycle(c in "RB", c in "SB", k) for k, c in enumerate(cycles)]
        return [(step.inputs, step.gap, step.reset_at) for step in replay.steps_of(self.driver, 1, listed)]

    def test_starts_within_a_stream_are_held_back(self):
        self.assertEqual(self.steps("RSSS..S"), [(1, 0, None), (6, 3, None)])

    def test_pause_and_reset(self):
        self.assertEqual(self.steps("RS......S"), [(1, 2, None), (8, 3, None)])
        self.assertEqual(self.steps("RS..R.S"), [(1, 1, 2), (6, 3, None)])
        self.assertEqual(self.steps("RS.BRS"), [(1, 0, 1), (5, 3, None)])

    def test_names_of_a_counterexample(self):
        read = contract.read(HERE / "circuits" / "pich_frame.contract")
        text = "clk@0=0\nnp[1]@0=1\nfree_reset@0=1\nfree_start@0=0\nindicators[0]@1=1\nfree_reset@1=0\nfree_start@1=1\n"
        found = list(prover.cycles_of(read, {"np": 8, "indicators": 144}, text))
        self.assertEqual([(c.reset, c.start, c.inputs) for c in found], [(True, False, 2), (False, True, 256)])


class Owed(unittest.TestCase):
    """The lines that are owed."""

    def test_names(self):
        verdict = types.SimpleNamespace(texts=["0 = 1", "1 = 1 gap=0"], power=3)
        self.assertEqual(owed.lines_of(4, verdict), ["owed4-1: 0 = 1 power=3", "owed4: 1 = 1 gap=0 after=owed4-1 power=3"])

    def test_few_lines_are_enough(self):
        shown_by = {"a": {1, 2}, "b": {2}, "c": {3}}
        missed = [types.SimpleNamespace(number=k, steps=[f"{k}/-/3/-"], power=0, manner=[], key=key) for k, key in ((1, "a"), (2, "b"), (3, "c"))]
        keys = {verdict.number: verdict.key for verdict in missed}

        def attempt(mutant, _, steps):
            return True if mutant in shown_by[keys[steps[0].inputs]] else None

        court = types.SimpleNamespace(driver=types.SimpleNamespace(attempt=attempt))
        self.assertEqual([(verdict.number, found) for verdict, found in owed.cover(missed, lambda number: court)], [(1, [1, 2]), (3, [3])])


if __name__ == "__main__":
    unittest.main()
