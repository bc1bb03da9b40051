"""Is a mutant equal to the original in all that is defined? yosys makes a miter of the two, ABC decides."""
import dataclasses
import re

import generate
import miter
import tools

# Limits by work and not by time, so that a verdict does not depend on how busy the machine is: timeframes, and conflicts in one call of
# the SAT solver. The seconds are only there so that a run ends; what stops by them is told as open.
QUICK = "-F 12 -C 1000 -T 120"
DEEP = "-F 60 -C 20000 -T 300"


@dataclasses.dataclass
class Cycle:
    """A cycle of a counterexample."""
    reset: bool
    start: bool      # where the circuit is busy the miter holds it back
    inputs: int


@dataclasses.dataclass
class Answer:
    """equal: in every history; stream: in one stream behind a reset, bounded; differs: with the cycles that show it; open: neither."""
    word: str
    cycles: tuple = ()


class Prover:
    """Proves mutants of one circuit, one at a time, in a directory of its own."""

    def __init__(self, contract, module, work, circuit_work):
        self.contract, self.module, self.work, self.prepared = contract, module, work, circuit_work / "prepared.il"
        work.mkdir(parents=True, exist_ok=True)
        for name, one in (("history", False), ("stream", True)):
            (work / f"{name}.v").write_text(miter.miter(contract, module, one))
        self.prepare_original()

    def prepare_original(self):
        """The original as gates, once."""
        # pmux before any opt, as in the netlists; dffunmap last, since opt makes enables and resets anew.
        tools.yosys(f"""
read_rtlil {self.prepared}
rename {self.contract.circuit} original
techmap t:$pmux
async2sync
expose {self.exposed("original")}
techmap
opt
dffunmap
write_rtlil {self.work}/original.il
""", self.work, "original")

    def exposed(self, module):
        """The wires of a module that the miter looks at."""
        return " ".join(f"{module}/w:{wire}" for wire in miter.inner(self.contract, self.module))

    def aiger(self, mutant, name):
        """The miter of a mutant as and-gates and registers that begin with 0."""
        tools.yosys(f"""
read_rtlil {self.work}/original.il
read_rtlil {mutant.prepared or self.prepared}
{mutant.command}
rename {self.contract.circuit} mutant
techmap t:$pmux
async2sync
expose {self.exposed("mutant")}
read_verilog {self.work}/{name}.v
hierarchy -check -top miter
proc
techmap
flatten
dffunmap
setundef -init -zero
aigmap
opt_clean
write_aiger -symbols {self.work}/{name}.aig
""", self.work, name)

    def abc(self, name, output, commands):
        """What ABC says to an output of a miter: proved, differs, open; and the file of the counterexample."""
        cex = self.work / f"{name}.cex"
        cex.unlink(missing_ok=True)
        script = f"read_aiger {self.work}/{name}.aig; cone -s -O {output}; {commands}; write_cex -n {cex}"
        said = tools.run(["yosys-abc", "-c", script], self.work / f"{name}.abc.log")
        if "was asserted" in said:
            return "differs", cex
        return ("proved" if "Property proved" in said or "Networks are equivalent" in said else "open"), cex

    def prove(self, mutant, limits=QUICK):
        """For every input in every history: first with the registers, then without."""
        self.aiger(mutant, "history")
        if self.abc("history", 1, f"scorr; pdr {limits}")[0] == "proved":
            return Answer("equal")
        word, cex = self.abc("history", 0, f"scorr; pdr {limits}")
        if word == "differs":
            return self.counterexample(cex)
        return Answer("equal" if word == "proved" else "open")

    def prove_stream(self, mutant, longest):
        """For every input of one stream behind a reset, bounded by the longest stream that there is."""
        self.aiger(mutant, "stream")
        frames = longest + self.contract.first + 8
        word, cex = self.abc("stream", 0, f"scorr; bmc3 -F {frames} -C 20000 -T 300")
        if word == "differs":
            return self.counterexample(cex)
        said = (self.work / "stream.abc.log").read_text()
        return Answer("stream" if word == "proved" or f"No output asserted in {frames} frames" in said else "open")

    def counterexample(self, cex):
        """Its cycles."""
        return Answer("differs", tuple(cycles_of(self.contract, generate.widths(self.module), cex.read_text())))


def cycles_of(contract, width, text):
    """The cycles of a counterexample, in which 'name[bit]@cycle=value' stands for each input. In the miter of one stream reset and start
    are no inputs: the reset is cycle 0, the start cycle 1."""
    at, _ = generate.places(contract, width)
    values = {}
    for name, bit, cycle, value in re.findall(r"([^\s@\[\]]+)(?:\[(\d+)\])?@(\d+)=([01])", text):
        values.setdefault(int(cycle), {})[(name, int(bit or 0))] = int(value)
    for cycle in range(max(values, default=-1) + 1):
        pins = values.get(cycle, {})
        inputs = sum(value << (at[name] + bit) for (name, bit), value in pins.items() if name in at)
        yield Cycle(bool(pins.get(("free_reset", 0), cycle == 0)), bool(pins.get(("free_start", 0), cycle == 1)), inputs)
