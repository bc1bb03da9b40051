"""Words for a verdict, the same in the text and on the page."""
import re

import simplify

KINDS = ("killed", "missed", "no difference", "open")

REASONS = {
    "history": "proved for every input in every history",
    "inputs": "every input of the circuit was run through",
    "stream": "proved for every input of one stream behind a reset, bounded; one stream after another is only sampled",
}

PINS = {
    "same": "no pin differs on {} stimuli",
    "idle": "pins differ only while nothing is valid ({} stimuli)",
    "dtx": "the bit differs only where dtx is 1 ({} stimuli)",
    "time": "the same digits at other times ({} stimuli)",
    "": "{} stimuli",
}


def run_items(text, numbers):
    """'0{3}1-' as ['0', '0', '0', '1', '-']; with numbers the items stand between commas."""
    if text in (".", "refused"):
        return []
    pattern = r"([^,{]+)(?:\{(\d+)\})?,?" if numbers else r"(.)(?:\{(\d+)\})?"
    return [item for item, count in re.findall(pattern, text) for _ in range(int(count or 1))]


def at(items, place):
    """An item, or the word nothing behind the end."""
    return items[place] if place < len(items) else "nothing"


def fault(verdict, numbers):
    """What is wrong, in words."""
    said, gave = run_items(verdict.said, numbers), run_items(verdict.gave, numbers)
    what = "value" if numbers else "digit"
    if verdict.fault == "reset":
        return "something comes behind a reset"
    if verdict.fault == "start":
        return f"the pin that says when a start may come differs from the original's {verdict.place} cycles behind the start"
    if verdict.fault == "not-refused":
        return f"the circuit does not refuse it, and streams {what}s" if gave else "the circuit does not refuse it"
    if verdict.fault == "refused":
        return "the circuit refuses it" + (f", and gives {len(gave)} {what}s all the same" if gave else "")
    if verdict.fault == "length":
        return f"the circuit gives {len(gave)} {what}s, the standard has {len(said)}"
    return f"{what} {verdict.place} is {at(gave, verdict.place)}, the standard says {at(said, verdict.place)}"


def debt(verdict, owed_of):
    """Which line is owed, and what the bench's manner of driving hides."""
    one = owed_of[verdict.number]
    text = f"owed line {one.number}"
    if one.manner:
        text += ": " + ", ".join(simplify.MANNERS[word] for word in one.manner)
    return text


def no_difference(verdict):
    """What a verdict of no difference rests on."""
    return REASONS[verdict.reason] + "; " + PINS[verdict.pins].format(verdict.tried)


def summary(verdict, owed_of, numbers):
    """The rest of a mutant's one line."""
    if verdict.kind == "killed":
        return f"line {verdict.bench_line} ({verdict.fault})"
    if verdict.kind == "missed":
        return f"{fault(verdict, numbers)} [{debt(verdict, owed_of)}]"
    if verdict.kind == "no difference":
        return no_difference(verdict)
    why = "the prover sees a difference that no digit shows" if verdict.prover == "differs" else "neither proved nor seen"
    return f"{why}; {PINS[verdict.pins].format(verdict.tried)}"
