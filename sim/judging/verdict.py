"""Gives a mutant its class: killed, missed, no difference or open."""
import dataclasses

import prover
import replay
import simplify

# What the prover's words mean for a verdict.
REASONS = {"equal": "history", "inputs": "inputs", "stream": "stream"}


@dataclasses.dataclass
class Verdict:
    """A mutant's class and what it rests on. Only strings, numbers and lists: it is kept as JSON."""
    number: int
    lines: str
    what: str
    kind: str                     # killed, missed, no difference, open
    prover: str = ""              # equal, stream, differs, open; nothing where it was not asked
    bench_line: str = ""          # killed: by which line of the bench, and how
    fault: str = ""               # killed, missed: digit, length, refused, not-refused, reset
    reason: str = ""              # no difference: history, inputs, stream
    tried: int = 0                # stimuli that were simulated
    pins: str = ""                # same, idle, dtx, time: what a comparison of all pins sees on these stimuli
    power: int = 0                # missed: the case
    steps: list = dataclasses.field(default_factory=list)
    texts: list = dataclasses.field(default_factory=list)
    place: int = 0
    gave: str = ""
    said: str = ""
    answer: str = ""
    manner: list = dataclasses.field(default_factory=list)


class Contradiction(Exception):
    """Two ways of judging that do not agree: a fault of the judge, not of a mutant."""


class Court:
    """What it takes to judge the mutants of one netlist."""

    def __init__(self, driver, asked, first, fields, bits, longest, every):
        self.driver, self.prover, self.first, self.fields = driver, asked, first, fields
        self.bits, self.longest, self.every = bits, longest, every

    def first_look(self, mutant):
        """Killed by the bench, or a survivor."""
        seen = self.driver.killed_by(mutant.number)
        verdict = Verdict(mutant.number, mutant.lines, mutant.what, "killed" if seen else "survivor")
        if seen:
            verdict.bench_line, verdict.fault = seen
        return verdict

    def judge(self, verdict, mutant, answer):
        """A survivor, with what the prover said to it."""
        verdict.prover = answer.word
        if answer.word == "differs" and self.is_missed(verdict, 0, replay.steps_of(self.driver, self.first, answer.cycles)):
            return
        count, pins, power, steps = self.driver.search(mutant.number)
        verdict.tried, verdict.pins = count, pins or ""
        if steps:
            self.found(verdict, answer, power, steps)
        elif answer.word == "equal":
            verdict.kind, verdict.reason = "no difference", "history"
        elif answer.word == "differs":
            verdict.kind = "open"
        else:
            self.last_resort(verdict, mutant)

    def found(self, verdict, answer, power, steps):
        """A stimulus of the judge's list shows the mutant. The proof speaks of registers that power up with 0."""
        if answer.word == "equal" and power == 0:
            raise Contradiction(f"mutant {verdict.number} is proved equal, and a stimulus shows a difference")
        if self.is_missed(verdict, power, steps):
            return
        case = simplify.shortest_end(self.driver, verdict.number, power, self.driver.history(verdict.tried))
        if not case:
            raise Contradiction(f"mutant {verdict.number}: a stimulus shows a difference in the list and not again")
        case = self.simplest(verdict.number, case)
        self.tell(verdict, case.power, case.steps)

    def last_resort(self, verdict, mutant):
        """Neither the first proof nor simulation decides: a proof with more work, then all inputs where they were run through, else one
        stream. A counterexample that shows no wrong digit ends it: such a mutant is open."""
        answer = self.prover.prove(mutant, prover.DEEP)
        if answer.word == "open":
            answer = prover.Answer("inputs") if self.every else self.prover.prove_stream(mutant, self.longest)
        verdict.prover = answer.word
        if answer.word == "differs" and self.is_missed(verdict, 0, replay.steps_of(self.driver, self.first, answer.cycles)):
            return
        verdict.kind, verdict.reason = ("no difference", REASONS[answer.word]) if answer.word in REASONS else ("open", "")

    def is_missed(self, verdict, power, steps):
        """Do these steps show the mutant? Then the simplest case goes into the verdict."""
        case = simplify.first_shown(self.driver, verdict.number, power, steps, self.bits) if steps else None
        if not case:
            return False
        case = self.simplest(verdict.number, case)
        self.tell(verdict, case.power, case.steps)
        return True

    def tell(self, verdict, power, steps):
        """Puts a case into the verdict."""
        case = simplify.shown(self.driver, verdict.number, simplify.Case(power, steps))
        shown = [self.driver.show(step) for step in case.steps]
        verdict.kind, verdict.fault, verdict.place, verdict.gave = "missed", case.bad.fault, case.bad.place, case.bad.gave
        verdict.power, verdict.steps, verdict.texts = case.power, [step.text() for step in case.steps], [s.line for s in shown]
        verdict.said, verdict.answer = shown[-1].said, shown[-1].answer
        verdict.manner = simplify.manner(self.driver, case)

    def simplest(self, number, case):
        """The simplest case. Where it needs more than a plain line, a plain one of the judge's list is looked for."""
        case = simplify.simplest(self.driver, number, case, self.fields, self.bits)
        step = self.driver.search_plain(number) if simplify.manner(self.driver, case) else None
        if step is None:
            return case
        return simplify.simplest(self.driver, number, simplify.shown(self.driver, number, simplify.Case(0, [step])), self.fields, self.bits)
