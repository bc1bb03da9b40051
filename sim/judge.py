#!/usr/bin/env python3
"""Judges the mutants of a circuit by the library: which of them the bench kills, which it misses, which make no difference.

    sim/judge.py CONTRACT BENCH [--mutants N] [--seed N] [--plant FILE...] [--out DIR] [--jobs N] [--part K/N]
    sim/judge.py CONTRACT BENCH [the same] --merge DIR/part-*.json

docs/SIMULATOR.md says what each class means and how an own circuit is put in.
"""
import sys

sys.dont_write_bytecode = True
sys.path.insert(0, str(__import__("pathlib").Path(__file__).resolve().parent / "judging"))

import command

if __name__ == "__main__":
    sys.exit(command.main(sys.argv[1:]))
