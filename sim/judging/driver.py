"""The other end of the driver: a program that runs mutants and says what the library says. driver/main.cpp lists its commands."""
import dataclasses
import os
import subprocess

import tools


@dataclasses.dataclass(frozen=True)
class Step:
    """One start of a circuit: all inputs as one number, what they hold behind the start, idle cycles, the digit of a reset."""
    inputs: int
    then: int = None
    gap: int = 3
    reset_at: int = None

    def text(self):
        """As the driver reads it."""
        then = "-" if self.then is None else f"{self.then:x}"
        return f"{self.inputs:x}/{then}/{self.gap}/{'-' if self.reset_at is None else self.reset_at}"


def step_of(text):
    """A step as the driver writes it."""
    inputs, then, gap, reset_at = text.split("/")
    return Step(int(inputs, 16), None if then == "-" else int(then, 16), int(gap), None if reset_at == "-" else int(reset_at))


@dataclasses.dataclass
class Bad:
    """What a circuit did wrong."""
    index: int       # of the step
    fault: str       # digit, length, not-refused, refused, reset
    place: int
    gave: str


@dataclasses.dataclass
class Shown:
    """A step in words."""
    line: str
    used: int        # the bits of the inputs that mean something
    said: str
    answer: str


class Driver:
    """A running driver."""

    def __init__(self, program):
        self.process = subprocess.Popen([*os.environ.get("EMULATOR", "").split(), str(program)], stdin=subprocess.PIPE, stdout=subprocess.PIPE, text=True)

    def ask(self, request):
        """One command, and its answer."""
        self.process.stdin.write(request + "\n")
        self.process.stdin.flush()
        answer = self.process.stdout.readline()
        if not answer.endswith("\n"):
            raise tools.Failed(f"the driver ended at: {request[:100]}")
        return answer[:-1]

    def close(self):
        """Ends the program."""
        self.process.stdin.close()
        self.process.wait()

    def bench(self, path):
        """Reads a bench; how many lines it has."""
        return int(self.ask(f"bench {path}").split()[1])

    def stimuli(self):
        """How many stimuli the judge has, whether they are all inputs of the circuit, and the longest stream."""
        _, count, kind, longest = self.ask("stimuli").split()
        return int(count), kind == "every", int(longest)

    def killed_by(self, mutant, line=None):
        """The line of the bench that sees a mutant and how, or nothing. With a number, only that line is run."""
        answer = self.ask(f"kill {mutant}" if line is None else f"line {mutant} {line}").split()
        return answer[1:] if answer[0] == "killed" else None

    def search(self, mutant):
        """Runs the judge's stimuli: (how many, the pins' difference, no power-up and no steps) or (how many, nothing, power-up, steps)."""
        word, count, *rest = self.ask(f"search {mutant}").split()
        if word == "none":
            return int(count), rest[0], 0, []
        return int(count), None, int(rest[0]), [step_of(text) for text in rest[1:]]

    def history(self, count):
        """The judge's stimuli up to the one of this number, from the power-up before it on."""
        return [step_of(text) for text in self.ask(f"history {count}").split()]

    def search_plain(self, mutant):
        """The first of the judge's stimuli that shows a mutant by itself and as a bench drives it, or nothing."""
        word, _, *step = self.ask(f"plain {mutant}").split()
        return step_of(step[0]) if word == "fault" else None

    def attempt(self, mutant, power, steps):
        """What is wrong with these steps behind a power-up and a reset, or nothing."""
        answer = self.ask(f"try {mutant} {power} " + " ".join(step.text() for step in steps)).split()
        return None if answer[0] == "good" else Bad(int(answer[1]), answer[2], int(answer[3]), answer[4])

    def show(self, step):
        """A step in words."""
        line, used, said, answer = self.ask("show " + step.text()).split("\t")
        return Shown(line, int(used, 16), said, answer)
