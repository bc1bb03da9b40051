"""The simplest stimulus that shows a mutant: first in the bench's own manner of driving, then with as little else as will do."""
import dataclasses

from driver import Step

# What a stimulus needs beside its inputs, and what the bench owes then.
MANNERS = {
    "unused": "ones on pins that mean nothing",
    "then": "inputs that change after the start",
    "gap": "another pause between two streams",
    "reset": "a reset in midst of a stream",
    "after": "one stream after another",
    "power": "a power-up that is not zeros",
}


@dataclasses.dataclass
class Case:
    """A stimulus that shows a mutant: the last step is wrong, those before it come first."""
    power: int
    steps: list
    bad: object = None


def plain(driver, step):
    """The step as a bench drives it: zeros on pins that mean nothing, inputs held, no reset."""
    return Step(step.inputs & driver.show(step).used)


def ways(driver, power, steps, bits):
    """Cases from a candidate, the simplest manner first."""
    last = steps[-1]
    bare = plain(driver, last)
    ones = Step(last.inputs | (2**bits - 1) & ~driver.show(last).used)
    thens = [2**bits - 1, 0, (2**bits - 1) & ~bare.inputs] + ([last.then] if last.then is not None else [])
    yield Case(0, [bare])
    yield Case(0, [ones])
    yield Case(0, [Step(last.inputs)])
    yield from (Case(0, [Step(bare.inputs, then)]) for then in thens)
    yield from (Case(0, [Step(last.inputs, then)]) for then in thens)
    yield Case(0, [Step(bare.inputs, None, 3, last.reset_at)])
    for seed in [power] + list(range(1, 9)):
        yield Case(seed, [bare])
        yield Case(seed, [last])
    for count in range(2, len(steps) + 1):
        tail = steps[-count:]
        yield Case(0, [plain(driver, step) for step in tail])
        yield Case(0, tail)
        yield Case(power, tail)


def shown(driver, mutant, case):
    """The case cut behind the step that is wrong, or nothing where none is."""
    bad = driver.attempt(mutant, case.power, case.steps)
    return Case(case.power, case.steps[:bad.index + 1], bad) if bad else None


def first_shown(driver, mutant, power, steps, bits):
    """A case in the simplest manner, from a candidate whose last step, or one of them, may be wrong."""
    for case in ways(driver, power, steps, bits):
        found = shown(driver, mutant, case)
        if found:
            return found
    return None


def shortest_end(driver, mutant, power, steps):
    """The end of a long history that still shows a mutant: of doubling length, then without the steps that it does not need."""
    count = 1
    while count < len(steps) and not shown(driver, mutant, Case(power, steps[-count:])):
        count *= 2
    case = shown(driver, mutant, Case(power, steps[-count:]))
    return fewer_steps(driver, mutant, case) if case else None


def fewer_steps(driver, mutant, case):
    """The case without the earlier steps that it does not need."""
    for index in reversed(range(len(case.steps) - 1)):
        case = shown(driver, mutant, Case(case.power, case.steps[:index] + case.steps[index + 1:])) or case
    return case


def fewer_bits(value, mask):
    """Numbers with some of the masked bits cleared: all of them, then parts of half the size each time, then one by one."""
    places = [k for k in range(value.bit_length()) if value >> k & 1 and mask >> k & 1]
    size = len(places)
    while size:
        for at in range(0, len(places), size):
            yield value & ~sum(1 << k for k in places[at:at + size])
        size //= 2


def smaller_numbers(driver, step, fields, used):
    """Steps with a smaller number on a pin: fields are (first bit, width). Bits that mean nothing by the smaller number become 0, else a
    plain stimulus would turn into one with ones on pins that mean nothing."""
    for at, width in fields:
        value = step.inputs >> at & (2**width - 1)
        for less in range(min(value, 40)):
            smaller = dataclasses.replace(step, inputs=step.inputs & ~((2**width - 1) << at) | less << at)
            yield dataclasses.replace(smaller, inputs=smaller.inputs & (driver.show(smaller).used | ~used))


def simpler(driver, step, fields, bits):
    """Steps that are simpler than one in one respect."""
    everything = 2**bits - 1
    used = driver.show(step).used
    if step.then is not None:
        yield dataclasses.replace(step, then=None)
        yield from (dataclasses.replace(step, then=then) for then in (everything, 0) if step.then not in (everything, 0))
    if step.gap != 3:
        yield dataclasses.replace(step, gap=3)
    if step.reset_at is not None:
        yield dataclasses.replace(step, reset_at=None)
        yield from (dataclasses.replace(step, reset_at=k) for k in range(1, step.reset_at))
    yield from smaller_numbers(driver, step, fields, used)
    runs = used & ~sum((2**width - 1) << at for at, width in fields)
    for mask in (everything & ~used, runs):
        yield from (dataclasses.replace(step, inputs=inputs) for inputs in fewer_bits(step.inputs, mask))


def simplest(driver, mutant, case, fields, bits):
    """The case made simpler for as long as it still shows the mutant. The step that is wrong stays the last."""
    case = fewer_steps(driver, mutant, case)
    again = True
    while again:
        again = False
        for index in reversed(range(len(case.steps))):
            for step in simpler(driver, case.steps[index], fields, bits):
                found = shown(driver, mutant, Case(case.power, case.steps[:index] + [step] + case.steps[index + 1:]))
                if found:
                    case, again = found, True
                    break
            if again:
                break
    return case


def manner(driver, case):
    """What the case needs that a bench of plain lines does not do, as words of MANNERS."""
    found = []
    for step in case.steps:
        if step.inputs & ~driver.show(step).used:
            found.append("unused")
        found += ["then"] * (step.then is not None) + ["reset"] * (step.reset_at is not None)
    found += ["gap"] * any(step.gap != 3 for step in case.steps[:-1])
    found += ["after"] * (len(case.steps) > 1) + ["power"] * (case.power != 0)
    return [word for word in MANNERS if word in found]
