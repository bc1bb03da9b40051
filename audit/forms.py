"""The forms that the pictures of channels share: headings, bars of fields, cells of digits, and sections one under the other."""
import svg

LEFT, WIDE, ROW, BAR, HEAD = 96, 720, 22, 16, 70
PAGE = LEFT + WIDE + 224
# A colour for each field: the same in every picture.
FIELDS = {"data1": ("Data1", 0.58), "tpc": ("TPC", 0.0), "tfci": ("TFCI", 0.12), "data2": ("Data2", 0.53), "pilot": ("pilot", 0.33), "fbi": ("FBI", 0.78), "data": ("data", 0.58)}
# Two shades by turns, so that neighbours can be told apart; one for what is to be seen first; and what is not sent.
PALE, BLUE, YELLOW, GREEN, RED = svg.colour(0.58, 0.93), svg.colour(0.58, 0.84), svg.colour(0.12, 0.78), svg.colour(0.33, 0.84), svg.colour(0.0, 0.87)


def fill(field):
    return svg.colour(FIELDS[field][1], 0.84)


def page(title, *sections):
    """A picture of sections, each a pair of its height and of what draws it from a height of the page on."""
    parts, y = [], 28
    for high, draw in sections:
        parts += draw(y)
        y += high
    return svg.picture(PAGE, y - 8, title, parts)


def heading(y, title, *notes):
    yield svg.text(10, y, title, 15, "start", font_weight="bold")
    for at, note in enumerate(notes):
        yield svg.text(10, y + 19 + 15 * at, note, 11, "start", svg.GREY)


def label(y, words):
    """What a row is called, at its left."""
    return svg.text(LEFT - 8, y, words, 12, "end")


def remark(y, words, size=11):
    """What is said of a row, at its right."""
    return svg.text(LEFT + WIDE + 10, y, words, size, "start")


def silent(x, y, width, high, **more):
    """A stretch that is DTX."""
    return svg.box(x, y, width, high, "white", svg.GREY, stroke_dasharray="2 2", **more)


def cell(x, y, width, words, colour, barred=False, size=10, high=20):
    """A digit, with a line over it where it has a bar."""
    yield svg.box(x, y, width, high, colour, svg.GREY, stroke_width=0.8)
    yield svg.text(x + width / 2, y + high / 2 + 5, words, size)
    if barred:
        half = min(width / 2 - 3, 4 * len(words))
        yield svg.line(x + width / 2 - half, y + 4.5, x + width / 2 + half, y + 4.5, svg.INK, stroke_width=1.2)


def legend(y, fields):
    x = LEFT
    for field in fields:
        yield svg.box(x, y - 10, 14, 12, fill(field), svg.GREY)
        yield svg.text(x + 20, y, FIELDS[field][0], 12, "start")
        x += 90


def bar(y, name, fields, length):
    """A slot over the full width, each field by its share; its number stands in it where there is room, and in any case at the right."""
    x = LEFT
    yield label(y + 12, name)
    for field, count in fields:
        share = WIDE * count / length
        if count:
            yield svg.box(x, y, share, BAR, fill(field), svg.GREY, stroke_width=0.8)
        if count and share > 7 * len(str(count)) + 2:
            yield svg.text(x + share / 2, y + 12, str(count), 11)
        x += share
    parts = " = " + " + ".join(str(count) for field, count in fields) if len(fields) > 1 else ""
    yield remark(y + 12, f"{length}{parts}")


def formats(title, slots, labels, *notes):
    """A table of formats as a section: a bar for each."""
    def draw(y):
        yield from heading(y, title, *notes)
        yield from legend(y + 58, [field for field, count in slots[0][0]])
        for number, (fields, length) in enumerate(slots):
            yield from bar(y + HEAD + ROW * number, f"format {labels[number]}", fields, length)
    return HEAD + ROW * len(slots) + 36, draw


def frame(y, name, slots, colour, inside=str):
    """A frame over the full width: a box for each slot, with what stands in it. One that is None is DTX, and one without words is left out."""
    unit = WIDE / slots
    yield label(y + 15, name)
    for k in range(slots):
        words = inside(k)
        if words is None:
            yield silent(LEFT + unit * k, y, unit, 22)
            yield svg.text(LEFT + unit * (k + 0.5), y + 15, "DTX", 10, fill=svg.GREY)
        elif words:
            yield from cell(LEFT + unit * k, y, unit, words, colour, size=11, high=22)


def blocks(y, unit, name, digits, colours):
    """Digits of an antenna in a row: pairs of words and whether a bar stands over them."""
    yield label(y + 14, name)
    for k, ((words, barred), colour) in enumerate(zip(digits, colours, strict=True)):
        yield from cell(LEFT + unit * k, y, unit, words, colour, barred)
