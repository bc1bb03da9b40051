#!/usr/bin/env python3
"""The four circuits, one after the other, as `make sim` runs them; with --gate as the merge gate does: fewer mutants, and everything that must
come out of them.

    sim/all.py [--mutants N] [--seed N] [--jobs N] [--out DIR]
    sim/all.py --gate [--store]      --store: what comes out becomes what is expected
"""
import argparse
import filecmp
import pathlib
import shutil
import subprocess
import sys
import time

sys.dont_write_bytecode = True
HERE = pathlib.Path(__file__).resolve().parent
CIRCUITS = ("dpch_slot", "pich_frame", "aich_map", "dpcch_slot")
REPORTS = ("report.txt", "report.html", "bench-with-owed-lines.txt", "classes.txt")
GATE_MUTANTS = 36


def judge(contract, bench, out, *more):
    """Runs the judge on a circuit; ends the program where it fails."""
    command = [sys.executable, HERE / "judge.py", contract, bench, "--out", out, *more]
    if subprocess.run([str(word) for word in command], check=False).returncode:
        sys.exit(f"sim: {contract} is not judged")


def judge_ours(name, out, *more):
    """One of the four."""
    planted = [path for path in sorted((HERE / "plants").glob("*.plant")) if f"circuit {name}\n" in path.read_text()]
    judge(HERE / "circuits" / f"{name}.contract", HERE / "benches" / f"{name}.txt", out / name, *(["--plant", *planted] if planted else []), *more)


def compare(made, expected, store):
    """The classes as they are expected, or stored so."""
    if store:
        shutil.copy(made, expected)
    if not filecmp.cmp(made, expected, shallow=False):
        subprocess.run(["diff", str(expected), str(made)], check=False)
        sys.exit(f"sim: the classes in {made} are not those of {expected}")


def try_parts(name, out, jobs):
    """Four parts, merged, are the report of one run byte for byte."""
    whole, merged = out / name, out / f"{name}-in-parts"
    size = ["--mutants", GATE_MUTANTS, "--jobs", jobs]
    contract, bench = HERE / "circuits" / f"{name}.contract", HERE / "benches" / f"{name}.txt"
    shutil.rmtree(merged, ignore_errors=True)
    for part in range(1, 5):
        judge(contract, bench, merged, *size, "--part", f"{part}/4")
    judge(contract, bench, merged, *size, "--merge", *sorted(merged.glob("part-*-of-4.json")))
    for file in REPORTS:
        if not filecmp.cmp(whole / file, merged / file, shallow=False):
            sys.exit(f"sim: {file} of four parts of {name} is not that of one run")


def gate(out, jobs, store):
    """Few mutants of each circuit and the planted ones, with the classes that are stored; a circuit of one's own; the parts."""
    for name in CIRCUITS:
        judge_ours(name, out, "--mutants", GATE_MUTANTS, "--jobs", jobs)
        compare(out / name / "classes.txt", HERE / "expected" / f"{name}.txt", store)
    own = HERE / "own" / "sttd_block"
    judge(f"{own}.contract", f"{own}.txt", out / "sttd_block", "--mutants", GATE_MUTANTS, "--jobs", jobs)
    compare(out / "sttd_block" / "classes.txt", HERE / "expected" / "sttd_block.txt", store)
    try_parts("dpcch_slot", out, jobs)


def main():
    """The command."""
    parser = argparse.ArgumentParser()
    parser.add_argument("--gate", action="store_true")
    parser.add_argument("--store", action="store_true")
    parser.add_argument("--mutants", default="200")
    parser.add_argument("--seed", default="1")
    parser.add_argument("--jobs", default="2")
    parser.add_argument("--out", type=pathlib.Path, default=HERE.parent / "target" / "sim")
    given = parser.parse_args()
    begin = time.monotonic()
    if given.gate:
        gate(given.out / "gate", given.jobs, given.store)
    else:
        for name in CIRCUITS:
            judge_ours(name, given.out, "--mutants", given.mutants, "--seed", given.seed, "--jobs", given.jobs)
    where = "the classes are the expected ones" if given.gate else f"reports: {given.out}/CIRCUIT/report.html"
    print(f"sim: done in {time.monotonic() - begin:.0f} s; {where}")


if __name__ == "__main__":
    main()
