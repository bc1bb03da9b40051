"""The pictures of indicators: docs/pich.svg (PICH and wake simulation), docs/aich.svg, docs/desk.svg, and docs/combiner.svg with the samples."""
import forms
import slot_specs
import svg


def pich_frame(length, tail, numbers):
    def draw(y):
        yield from forms.heading(y, "PICH: a frame", f"{length} digits, to scale. An indicator fills its own stretch; the last {length - tail} digits are DTX: nothing is sent.")
        unit = forms.WIDE / length
        for at, (np, width) in enumerate(numbers):
            top = y + 30 + forms.ROW * at
            yield forms.label(top + 12, f"Np = {np}")
            for q in range(np):
                yield svg.box(forms.LEFT + unit * width * q, top, unit * width, forms.BAR, forms.BLUE if q % 2 else forms.PALE, svg.GREY, stroke_width=0.4)
            yield forms.silent(forms.LEFT + unit * tail, top, unit * (length - tail), forms.BAR)
            yield forms.remark(top + 12, f"{np} × {width} + {length - tail}")
        for digit, words, anchor in ((0, "digit 0", "start"), (tail, str(tail), "middle"), (length, str(length), "middle")):
            yield svg.text(forms.LEFT + unit * digit, y + 46 + forms.ROW * len(numbers), words, 10, anchor, svg.GREY)
    return 82 + forms.ROW * len(numbers), draw


def wake_run(np, pi, first, count, q_of, sfn_of):
    """Frames in order, each a row of its indicators; the handset's own is marked."""
    def draw(y):
        yield from forms.heading(y, f"Wake simulation: {count} frames in order, Np = {np}, a handset with PI {pi}",
                                 "Each row is a frame, each cell an indicator. The handset looks at one alone (yellow, its number q): it wakes where that is 1. Which one it is moves",
                                 "from frame to frame with the SFN, so an indicator that is set wakes other handsets in other frames.")
        unit = forms.WIDE / np
        for k in range(count):
            top, sfn = y + 48 + 18 * k, sfn_of(first, k)
            q = q_of(np, pi, sfn)
            yield forms.label(top + 11, f"SFN {sfn}")
            for at in range(np):
                yield svg.box(forms.LEFT + unit * at, top, unit, 14, forms.YELLOW if at == q else "white", svg.GREY, stroke_width=0.8 if at == q else 0.3)
            yield svg.text(forms.LEFT + unit * (q + 0.5), top + 11, str(q), 10)
            yield forms.remark(top + 11, f"q = {q}")
    return 70 + 18 * count, draw


def pich(tree):
    q_of, sfn_of, last = slot_specs.wake(tree)
    length, tail, numbers = slot_specs.pich(tree)
    return forms.page("PICH: the frame, and which indicator a handset looks at", pich_frame(length, tail, numbers), wake_run(36, 7, last - 7, 16, q_of, sfn_of))


def aich(tree):
    signatures, values, plus = slot_specs.signatures(tree)
    indicators = [1 if s == 0 else -1 if s == 1 else 0 for s in range(signatures)]
    unit = forms.WIDE / values

    def draw(y):
        yield from forms.heading(y, f"AICH: {signatures} signatures of {values} values",
                                 "A row is a signature; blue is +1, white is -1. Values come in equal pairs, the real and the imaginary part of a symbol. An access slot sends the sum of the",
                                 "rows, each times its indicator: +1 yes, -1 no, 0 nothing. Any two rows agree in half of their places, so the indicators can be read from the sum.")
        for s in range(signatures):
            top = y + 52 + 18 * s
            yield forms.label(top + 12, f"signature {s}")
            for j in range(values):
                yield svg.box(forms.LEFT + unit * j, top, unit, 16, forms.BLUE if plus(s, j) else "white", svg.GREY, stroke_width=0.5)
        top = y + 60 + 18 * signatures
        yield forms.label(top + 14, "a sum")
        for j in range(values):
            value = sum(one * (1 if plus(s, j) else -1) for s, one in enumerate(indicators))
            yield from forms.cell(forms.LEFT + unit * j, top, unit, str(value), forms.YELLOW if value else "white")
        yield forms.remark(top + 14, "+1 for signature 0, -1 for 1")
        for j in range(0, values, 8):
            yield svg.text(forms.LEFT + unit * (j + 0.5), top + 34, f"value {j}", 10, fill=svg.GREY)
    return forms.page("AICH: the signatures, and an access slot", (60 + 18 * signatures + 48, draw))


def desk_slot(y, row, circle):
    """The signatures in circular order from just after the last one served."""
    unit = forms.WIDE / len(circle)
    yield forms.label(y + 16, f"slot {row['slot']}")
    for place, s in enumerate(circle):
        answered = row["answers"][s]
        colour = forms.GREEN if answered > 0 else forms.RED if answered < 0 else "white"
        yield from forms.cell(forms.LEFT + unit * place, y, unit, str(s), colour, size=11, high=24)
        said = f"{answered:+d}" if answered else "not offered" if row["heard"] >> s & 1 else ""
        yield svg.text(forms.LEFT + unit * (place + 0.5), y + 37, said, 9, fill=svg.GREY)
    yield forms.remark(y + 10, f"desk {row['before']}, then {row['after']}")
    yield forms.remark(y + 24, f"n = {row['n']}", 10)


def timing(distances):
    """From the preamble to its answer and to the message, to scale."""
    unit = forms.WIDE / max(message for aich, message in distances)

    def draw(y):
        yield from forms.heading(y, "How many chips later", "Distances from the start of a preamble to the AICH and to the message, for AICH_Transmission_Timing 0 and 1, to scale.")
        for at, (aich, message) in enumerate(distances):
            top = y + 44 + 44 * at
            yield forms.label(top + 4, f"timing {at}")
            yield svg.line(forms.LEFT, top, forms.LEFT + unit * message, top, svg.GREY, stroke_width=2)
            for chips, words, colour in ((0, "preamble", forms.PALE), (aich, f"AICH {aich}", forms.GREEN), (message, f"message {message}", forms.YELLOW)):
                x = forms.LEFT + unit * chips
                yield svg.box(x, top - 8, 8, 16, colour, svg.GREY)
                yield svg.text(x, top + 21, words, 10, "start" if chips == 0 else "middle")
    return 154, draw


def desk(tree):
    rows, around, distances = slot_specs.desk(tree)

    def draw(y):
        yield from forms.heading(y, "The random access desk: three access slots (docs/DESK.md)",
                                 "Signatures stand in circular order from just after the one served last. Those heard and available are gone through in this order: the first n get +1 (green), the",
                                 "others -1 (red), everybody else 0. The desk then holds the last one that got +1, and the next slot begins behind it.")
        for at, row in enumerate(rows):
            yield from desk_slot(y + 50 + 54 * at, row, around(row["before"]))
    return forms.page("The random access desk: three slots, and the distances", (50 + 54 * len(rows) + 26, draw), timing(distances))


def flow(x, y, width, title, *lines):
    """A box of a flow, with a title and some lines."""
    yield svg.box(x, y, width, 28 + 16 * len(lines), forms.PALE, svg.GREY)
    yield svg.text(x + width / 2, y + 16, title, 12, font_weight="bold")
    for at, line in enumerate(lines):
        yield svg.text(x + width / 2, y + 34 + 16 * at, line, 11)


def arrow(x, y, to):
    yield svg.line(x, y, to - 7, y, svg.GREY, stroke_width=1.5)
    yield svg.element("path", d=f"M{to - 8} {y - 4} L{to} {y} L{to - 8} {y + 4} Z", fill=svg.GREY)


def combiner(tree):
    (gain, part, received, results), pair = slot_specs.combiner(tree), slot_specs.block_of_pair(tree)
    first, second = slot_specs.combined(tree)
    value, low, high = slot_specs.sample(tree)

    def combine(y):
        yield from forms.heading(y, "The combiner: two antennas' AICH, and a number for each signature",
                                 "A pair of symbols at a time; * is the conjugate. All numbers are whole, and all results are exact.")
        yield from flow(10, y + 40, 170, "antenna 1", "S1, S2", "gain h1")
        yield from flow(10, y + 122, 170, "antenna 2", pair, "gain h2")
        yield from arrow(186, y + 68, 236)
        yield from arrow(186, y + 150, 236)
        yield from flow(242, y + 76, 210, "received", "r1, r2", f"{received} parts, -{part} to {part}", f"gain parts -{gain} to {gain}")
        yield from arrow(458, y + 112, 498)
        yield from flow(504, y + 84, 270, "combined", f"T1 = {first}", f"T2 = {second}")
        yield from arrow(780, y + 112, 816)
        yield from flow(822, y + 84, 208, "for each signature", f"sum of T times its row: {results}", "numbers (docs/aich.svg)")

    def sample(y):
        yield from forms.heading(y, "Samples: two whole values at a transmit setting", "In-phase and quadrature part, each value times level, rounded once to f32.")
        yield from flow(10, y + 40, 170, "values", f"i, q: -{value} to {value}")
        yield from arrow(186, y + 60, 236)
        yield from flow(242, y + 40, 330, "setting", "off, or a level for both, or one for each antenna", f"levels 1/{low} to {high}")
        yield from arrow(578, y + 68, 628)
        yield from flow(634, y + 40, 230, "sample", "i × level, q × level", "+0, +0 where it is off")
    return forms.page("The combiner, and samples", (220, combine), (130, sample))
