"""The lines that a bench owes: few enough that several mutants share one, and seen to kill every mutant that they are owed for."""
import dataclasses

import driver as drivers


@dataclasses.dataclass
class Owed:
    """A line, the one before it if it needs one, and the mutants that it is owed for."""
    number: int
    lines: list
    mutants: list
    verdict: object      # whose case it is

    @property
    def manner(self):
        """What the line needs beside its inputs."""
        return self.verdict.manner


def shows(court, verdict, other):
    """Does the case of one missed mutant show another one too?"""
    steps = [drivers.step_of(text) for text in verdict.steps]
    bad = court.driver.attempt(other.number, verdict.power, steps)
    return bad is not None


def cover(missed, court_of):
    """Which cases are enough, and which mutants each one shows: always the case that shows most of those that are left."""
    seen = {v.number: [o.number for o in missed if o is v or shows(court_of(o.number), v, o)] for v in missed}
    left, chosen = {v.number for v in missed}, []
    while left:
        best = max(missed, key=lambda v: (len(left & set(seen[v.number])), -len(v.steps), -len(v.manner), -v.number))
        chosen.append((best, sorted(left & set(seen[best.number]))))
        left -= set(seen[best.number])
    return chosen


def lines_of(number, verdict):
    """The lines of a case in the bench's own form, each with a name."""
    lines = []
    for k, text in enumerate(verdict.texts):
        name = f"owed{number}" if k + 1 == len(verdict.texts) else f"owed{number}-{k + 1}"
        after = f" after={lines[-1].split(':')[0]}" if lines else ""
        power = f" power={verdict.power}" if verdict.power else ""
        lines.append(f"{name}: {text}{after}{power}")
    return lines


def owed_lines(missed, court_of):
    """The lines that are owed, numbered from 1."""
    return [Owed(k, lines_of(k, verdict), mutants, verdict) for k, (verdict, mutants) in enumerate(cover(missed, court_of), 1)]


def take_plainer(missed, owed, court_of):
    """A mutant whose own case needs more than the line that is owed for it is told with that line."""
    for one in owed:
        for verdict in missed:
            if verdict.number in one.mutants and len(verdict.manner) > len(one.manner):
                steps = [drivers.step_of(text) for text in one.verdict.steps]
                court_of(verdict.number).tell(verdict, one.verdict.power, steps)


def paid(bench, owed, path, courts, missed, court_of):
    """Writes the bench with what it owes, and runs it: the original passes, and each missed mutant is killed. What is wrong, in words."""
    path.write_text(bench.read_text().rstrip("\n") + "\n" + "".join(line + "\n" for one in owed for line in one.lines))
    for court in courts:
        court.driver.bench(path)
    wrong = [f"the original fails line {' '.join(seen)}" for seen in (court.driver.killed_by(0) for court in courts) if seen]
    wrong += [f"mutant {v.number} survives" for v in missed if not court_of(v.number).driver.killed_by(v.number)]
    for court in courts:
        court.driver.bench(bench)
    return wrong
