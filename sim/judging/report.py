"""The report of a circuit in text, and what it has in common with the page. Nothing in it depends on the machine or on the time."""
import collections
import dataclasses

import page
import words


@dataclasses.dataclass
class Figures:
    """The numbers of a report."""
    count: dict
    reasons: dict
    pins: dict             # of the mutants without difference
    control: dict          # what the prover said of mutants that do differ

    def score(self, judged):
        """Killed of all mutants, or of those that make a difference."""
        of = self.count["killed"] + self.count["missed"] if judged else sum(self.count.values())
        return f"{100 * self.count['killed'] / of:.1f} %" if of else "none"

    def wrongly_missed(self):
        """Survivors that a comparison of all pins would call missed though nothing that is defined differs."""
        return sum(count for word, count in self.pins.items() if word not in ("", "same"))


@dataclasses.dataclass
class Report:
    """All that a report is made of."""
    contract: object
    mutants: int
    seed: int
    bench: str
    stimuli: int
    every: bool
    found: list
    owed: list

    def figures(self):
        """The numbers."""
        none = [v for v in self.found if v.kind == "no difference"]
        return Figures(collections.Counter(v.kind for v in self.found), collections.Counter(v.reason for v in none),
                       collections.Counter(v.pins for v in none),
                       collections.Counter(v.prover for v in self.found if v.kind in ("killed", "missed") and v.prover and not v.power))

    def owed_of(self):
        """The line that is owed for each missed mutant."""
        return {number: one for one in self.owed for number in one.mutants}

    def anchor(self):
        """What the comparison with the original is worth."""
        which = "every input of the circuit, twice" if self.every else "a sample with every number"
        return f"The original passes the bench, and agrees with {self.contract.call} on {self.stimuli} stimuli ({which})."


def table(report):
    """The counts as lines."""
    figures = report.figures()
    reasons = ", ".join(f"{count} {words.REASONS[reason].split(';')[0]}" for reason, count in sorted(figures.reasons.items()))
    lines = [f"{kind:<14}{figures.count[kind]:>6}" + (f"   {reasons}" if kind == "no difference" and reasons else "") for kind in words.KINDS]
    lines += ["", f"score of the bench over all mutants                 {figures.score(False):>8}",
              f"score of the bench over those that differ           {figures.score(True):>8}",
              f"survivors that a comparison of all pins calls missed, though nothing that is defined differs: {figures.wrongly_missed()} "
              f"(the bit under dtx {figures.pins['dtx']}, while nothing is valid {figures.pins['idle']}, other times {figures.pins['time']})",
              f"control: of {sum(figures.control.values())} mutants that do differ the prover called {figures.control['differs']} different, "
              f"{figures.control['equal']} equal, and left {figures.control['open'] + figures.control['stream']} to simulation"]
    return lines


def missed_lines(report, verdict):
    """A missed mutant at length."""
    lines = [f"{verdict.number:>5}  {verdict.lines}  {verdict.what}"]
    lines += [f"       before it:  {text}" for text in verdict.texts[:-1]]
    power = f" power={verdict.power}" if verdict.power else ""
    lines += [f"       stimulus    {verdict.texts[-1]}{power}", f"       wrong       {words.fault(verdict, report.contract.numbers)}",
              f"       circuit     {verdict.gave}", f"       standard    {verdict.said}", f"       said by     {verdict.answer}",
              f"       bench       {words.debt(verdict, report.owed_of())}"]
    return lines


def text(report):
    """report.txt"""
    c = report.contract
    lines = [f"{c.circuit}: {len(report.found)} mutants of seed {report.seed}, judged by {c.call}; bench {report.bench}", report.anchor(), ""]
    lines += table(report)
    missed = [v for v in report.found if v.kind == "missed"]
    lines += ["", "MISSED: the bench owes a line"] + [line for v in missed for line in missed_lines(report, v)]
    lines += ["", "OWED LINES, as the bench writes them"]
    for one in report.owed:
        lines += [f"  {line}" for line in one.lines] + [f"      for mutants {', '.join(map(str, one.mutants))}"]
    lines += ["", "EVERY MUTANT"]
    owed_of = report.owed_of()
    lines += [f"{v.number:>5}  {v.kind:<14}{v.lines}  {v.what}: {words.summary(v, owed_of, c.numbers)}" for v in report.found]
    return "\n".join(lines) + "\n"


def write(trial, found, owed):
    """Both reports."""
    made = Report(trial.contract, trial.options.count, trial.options.seed, trial.options.bench.name, trial.stimuli, trial.every, found, owed)
    (trial.work / "report.txt").write_text(text(made))
    (trial.work / "report.html").write_text(page.html(made))
