"""A trial: a circuit's mutants, the netlists that hold them, and the courts that judge them."""
import concurrent.futures
import dataclasses
import pathlib

import contract as contracts
import driver as drivers
import generate
import mutants
import netlist
import plants
import prover
import tools
import verdict as verdicts

# Of the mutants that the bench kills, one in so many goes through the prover as well: it must not call one of them equal.
CONTROL = 40


@dataclasses.dataclass
class Options:
    """What the command was asked for."""
    contract: str
    bench: pathlib.Path
    out: pathlib.Path
    count: int = 200
    seed: int = 1
    part: tuple = (1, 1)
    jobs: int = 1
    plants: tuple = ()


class Trial:
    """Everything about one circuit that stays the same for all of its mutants."""

    def __init__(self, options):
        self.options = options
        self.contract = contracts.read(options.contract)
        self.work = options.out.resolve()
        self.work.mkdir(parents=True, exist_ok=True)
        self.module = mutants.prepare(self.contract, self.contract.verilog(), self.work, "prepared")
        generate.check_pins(self.contract, self.module)
        self.contract.rest_pin = self.contract.rest_wire() in self.module["ports"]
        self.mutants = mutants.listed(self.contract, self.module, self.work, options.count, options.seed)
        self.plants = [plants.read(path) for path in options.plants]
        self.mutants += [plants.planted(self.contract, plant, self.work, len(self.mutants) + k) for k, plant in enumerate(self.plants, 1)]
        self.batches = netlist.batches(self.mutants)
        self.courts = {}
        self.stimuli = self.every = self.longest = None

    def batch_of(self, number):
        """The netlist that holds a mutant."""
        return next(k for k, batch in enumerate(self.batches) if batch[0].number <= number <= batch[-1].number)

    def court_of(self, number):
        """The court of a mutant's netlist, which is made when it is first needed."""
        index = self.batch_of(number)
        if index not in self.courts:
            self.courts[index] = self.new_court(index)
        return self.courts[index]

    def new_court(self, index):
        """Makes the netlist and its driver, and sees that the original passes the bench and the library's answers."""
        work = self.work / f"netlist{index + 1}"
        work.mkdir(exist_ok=True)
        batch = self.batches[index]
        netlist.write_netlist(self.contract, batch, work, self.work)
        objects = netlist.driver_objects(self.work.parent / "driver")
        running = drivers.Driver(netlist.compile_driver(self.contract, self.module, batch, work, objects))
        running.bench(self.options.bench)
        self.stimuli, self.every, self.longest = running.stimuli()
        seen = running.killed_by(0)
        if seen:
            raise tools.Failed(f"the bench fails on the original: line {seen[0]} ({seen[1]})")
        self.anchor(running)
        width = generate.widths(self.module)
        at, bits = generate.places(self.contract, width)
        fields = [(at[f.pin], width[f.pin]) for f in self.contract.fields if f.kind == "number"]
        return verdicts.Court(running, self.prover("prove"), self.contract.first, fields, bits, self.longest, self.every)

    def anchor(self, running):
        """The original itself against the library: a proof of equality with it is worth what this is worth."""
        _, _, power, steps = running.search(0)
        if steps:
            bad = running.attempt(0, power, steps)
            raise tools.Failed(f"the original differs from the standard: {running.show(steps[-1]).line}, it gave {bad.gave if bad else '?'}")

    def prover(self, name):
        """A prover with a directory of its own."""
        return prover.Prover(self.contract, self.module, self.work / name, self.work)

    def part(self):
        """The mutants of this part: every N-th."""
        which, of = self.options.part
        return [mutant for k, mutant in enumerate(self.mutants) if k % of == which - 1]

    def run(self):
        """The verdicts of this part's mutants."""
        found = {mutant.number: self.court_of(mutant.number).first_look(mutant) for mutant in self.part()}
        survivors = [mutant for mutant in self.part() if found[mutant.number].kind == "survivor"]
        control = [mutant for mutant in self.part() if found[mutant.number].kind == "killed" and mutant.number % CONTROL == 1]
        tools.note(f"{self.contract.circuit}: {len(found)} mutants, {len(survivors)} survive the bench")
        answers = self.proofs(survivors + control)
        for mutant in control:
            found[mutant.number].prover = answers[mutant.number].word
            if answers[mutant.number].word == "equal":
                raise verdicts.Contradiction(f"mutant {mutant.number} is killed by the bench and proved equal")
        for mutant in survivors:
            self.court_of(mutant.number).judge(found[mutant.number], mutant, answers[mutant.number])
        return [found[number] for number in sorted(found)]

    def proofs(self, asked):
        """What the prover says to each mutant, several at a time."""
        jobs = self.options.jobs
        provers = [self.prover(f"prove{k}") for k in range(jobs)]

        def every_nth(k):
            return [(mutant.number, provers[k].prove(mutant)) for mutant in asked[k::jobs]]

        with concurrent.futures.ThreadPoolExecutor(jobs) as pool:
            return {number: answer for answers in pool.map(every_nth, range(jobs)) for number, answer in answers}

    def wrong_plants(self, found):
        """Planted mutants that did not get the class that they must get, in words."""
        first = self.mutants[-1].number - len(self.plants) + 1
        got = {verdict.number: verdict.kind for verdict in found}
        return [f"the planted mutant {plant.name} is {got[number]}, not {' or '.join(plant.classes)}"
                for number, plant in enumerate(self.plants, first) if number in got and got[number] not in plant.classes]

    def close(self):
        """Ends the drivers."""
        for court in self.courts.values():
            court.driver.close()
