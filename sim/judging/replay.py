"""A counterexample of the prover as the steps of a driver, which is how it can be judged by the library and become a line of a bench."""
import dataclasses

import words
from driver import Step


def busy_until(driver, first, at, step):
    """The cycle of the last digit of a stream that began at a cycle, or of its refusal."""
    said = driver.show(step).said
    length = 1 if said == "refused" else len(words.run_items(said, "," in said))
    return at + first - 1 + length


def steps_of(driver, first, cycles):
    """The streams of a counterexample. A start that comes while a stream runs is one that the miter held back."""
    steps, begun, ends = [], None, -1
    for now, cycle in enumerate(cycles):
        if cycle.reset:
            if steps and now <= ends:
                steps[-1] = dataclasses.replace(steps[-1], reset_at=max(0, now - begun - first))
                ends = now
            ends = max(ends, now)
        elif cycle.start and now > ends:
            if steps:
                steps[-1] = dataclasses.replace(steps[-1], gap=now - ends - 1)
            after = cycles[now + 1].inputs if now + 1 < len(cycles) else None
            steps.append(Step(cycle.inputs, after))
            begun, ends = now, busy_until(driver, first, now, steps[-1])
    return steps
