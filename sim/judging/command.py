"""The command line of judge.py."""
import argparse
import collections
import dataclasses
import json
import pathlib
import sys

import contract as contracts
import owed
import report
import tools
import trial
import verdict as verdicts


def options_of(words):
    """The options, and the files of --merge."""
    parser = argparse.ArgumentParser(prog="judge.py")
    parser.add_argument("contract")
    parser.add_argument("bench", type=pathlib.Path)
    parser.add_argument("--out", type=pathlib.Path)
    parser.add_argument("--mutants", type=int, default=200)
    parser.add_argument("--seed", type=int, default=1)
    parser.add_argument("--jobs", type=int, default=1)
    parser.add_argument("--part", default="1/1")
    parser.add_argument("--plant", nargs="+", default=[])
    parser.add_argument("--merge", nargs="+", type=pathlib.Path, default=[])
    given = parser.parse_args(words)
    out = given.out or pathlib.Path("target/sim") / pathlib.Path(given.contract).stem
    part = tuple(int(number) for number in given.part.split("/"))
    return trial.Options(given.contract, given.bench, out, given.mutants, given.seed, part, given.jobs, tuple(given.plant)), given.merge


def write_part(court, found):
    """The verdicts of one part, for a later merge."""
    which, of = court.options.part
    path = court.work / f"part-{which}-of-{of}.json"
    path.write_text(json.dumps([dataclasses.asdict(verdict) for verdict in found], indent=1))
    return path


def read_parts(paths):
    """The verdicts of all parts, in the mutants' order."""
    found = [verdicts.Verdict(**one) for path in paths for one in json.loads(path.read_text())]
    return sorted(found, key=lambda verdict: verdict.number)


def conclude(court, found):
    """The owed lines, seen to be right, and the reports."""
    missed = [verdict for verdict in found if verdict.kind == "missed"]
    lines = owed.owed_lines(missed, court.court_of)
    owed.take_plainer(missed, lines, court.court_of)
    court.court_of(found[0].number)
    wrong = owed.paid(court.options.bench, lines, court.work / "bench-with-owed-lines.txt", court.courts.values(), missed, court.court_of)
    if wrong:
        raise verdicts.Contradiction("the bench with the owed lines: " + "; ".join(wrong))
    report.write(court, found, lines)
    (court.work / "classes.txt").write_text("".join(f"{v.number} {v.kind}: {v.lines} {v.what}\n" for v in found))


def main(words):
    """0 where every mutant has its class."""
    options, merged = options_of(words)
    try:
        court = trial.Trial(options)
        found = read_parts(merged) if merged else court.run()
        if not merged:
            write_part(court, found)
        if options.part[1] == 1:
            conclude(court, found)
        court.close()
        if court.wrong_plants(found):
            raise verdicts.Contradiction("; ".join(court.wrong_plants(found)))
    except (contracts.Wrong, tools.Failed, verdicts.Contradiction) as fault:
        print(fault, file=sys.stderr)
        return 1
    count = collections.Counter(verdict.kind for verdict in found)
    print(f"{court.contract.circuit}: " + ", ".join(f"{count[kind]} {kind}" for kind in ("killed", "missed", "no difference", "open")))
    return 0
