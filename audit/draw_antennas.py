"""docs/antennas.svg: what the second antenna sends: a block of STTD, slots of the downlink DPCH, and a pair of P-CCPCH slots; and docs/hspdsch.svg."""
import forms
import slot_specs
import svg


def shade(k, size=4):
    return forms.BLUE if k // size % 2 else forms.PALE


def sttd(block):
    def draw(y):
        yield from forms.heading(y, "STTD: a block of four digits", "Antenna 2 sends the same digits in another order. A line over a digit is the bar: 0 and 1 change places, DTX stays.")
        yield from forms.blocks(y + 34, 44, "antenna 1", [(f"b{k}", False) for k in range(4)], [forms.PALE] * 4)
        yield from forms.blocks(y + 62, 44, "antenna 2", [(f"b{k}", barred) for k, barred in block], [forms.PALE] * 4)
    return 118, draw


def dpch_slot(y, name, length, start, end, block):
    """One slot on both antennas: the digits from start to end go by the block, a pilot behind them is of antenna 2's own table, and the others are the same."""
    colours = [shade(k - start) if start <= k < end else forms.GREEN if k >= end else "white" for k in range(length)]
    second = [(k, False) for k in range(length)]
    for k in range(start, end):
        place, barred = block[(k - start) % 4]
        second[k] = (start + (k - start) // 4 * 4 + place, barred)
    unit = forms.WIDE / 20
    words = [("p" if k >= end else str(digit), barred and k < end) for k, (digit, barred) in enumerate(second)]
    yield svg.text(forms.LEFT, y, name, 11, "start", svg.GREY)
    yield from forms.blocks(y + 6, unit, "antenna 1", [(str(k), False) for k in range(length)], colours)
    yield from forms.blocks(y + 32, unit, "antenna 2", words, colours)


def dpch(tree):
    block, rows, (few, start, whole) = slot_specs.block(tree), slot_specs.slots(tree, slot_specs.DPCH), slot_specs.second_antenna(tree)

    def draw(y):
        yield from forms.heading(y, "Downlink DPCH: a slot on two antennas",
                                 "In each cell the number of antenna 1's digit that stands there. Blocks of four have two shades, and go on whatever fields they span. p is a pilot bit of",
                                 "antenna 2's own table (TS 25.211, table 14). Three kinds of formats differ:")
        short = " and ".join(str(number) for number, (fields, length) in enumerate(rows) if dict(fields)["pilot"] == whole)
        for at, number in enumerate((1, 3, 5)):
            fields, length = rows[number]
            pilot = dict(fields)["pilot"]
            begin, end = (start if number <= few else 0), (length if pilot == whole else length - pilot)
            said = (f"formats {' and '.join(map(str, range(few + 1)))} (here {number}): the first {start} digits are the same on both, the next {end - begin} are a block" if number <= few else
                    f"a pilot of {whole} bits (formats {short}, here {number}): the whole slot goes by blocks, the pilot with it" if pilot == whole else
                    f"all other formats (here {number}): what stands before the pilot goes by blocks")
            yield from dpch_slot(y + 62 + 80 * at, said, length, begin, end, block)
    return 318, draw


def antenna(y, name, slot, data, silent, sent):
    """Two slots of an antenna: in each cell the data digit that stands there, with a bar where it is changed. Blocks of four in two shades."""
    unit = forms.WIDE / (2 * slot)
    yield forms.label(y + 14, name)
    for k in range(2 * slot):
        yield forms.silent(forms.LEFT + unit * k, y, unit, 20, stroke_width=0.5)
    for d in range(2 * data):
        crosses = d // 4 * 4 // data != (d // 4 * 4 + 3) // data
        digit, barred = sent(d)
        yield from forms.cell(forms.LEFT + unit * (slot * (d // data) + silent + d % data), y, unit, str(digit), forms.YELLOW if crosses else shade(d), barred)


def pccpch(tree):
    block, (slot, data, silent) = slot_specs.block(tree), slot_specs.pccpch(tree)

    def draw(y):
        yield from forms.heading(y, "P-CCPCH: an even slot and the odd slot behind it",
                                 f"In each cell the number of the data digit (slots 0 and 1 of the frame); the first {silent} digits of a slot are DTX.",
                                 f"STTD goes through the data in fours, which have two shades here. {data} is no multiple of 4, so one block (yellow) crosses from the even",
                                 "slot into the odd one.")
        yield from antenna(y + 77, "antenna 1", slot, data, silent, lambda d: (d, False))
        yield from antenna(y + 105, "antenna 2", slot, data, silent, lambda d: (d // 4 * 4 + block[d % 4][0], block[d % 4][1]))
        for k in range(2):
            yield svg.text(forms.LEFT + forms.WIDE * (2 * k + 1) / 4, y + 71, f"slot {k}", 11, fill=svg.GREY)
        yield svg.line(forms.LEFT + forms.WIDE / 2, y + 61, forms.LEFT + forms.WIDE / 2, y + 131, svg.INK, stroke_width=1.5)
    return 152, draw


def antennas(tree):
    return forms.page("Two antennas: STTD, a DPCH slot, and two P-CCPCH slots", sttd(slot_specs.block(tree)), dpch(tree), pccpch(tree))


def eight(y, name, size, sent):
    """Eight digits on both antennas, in blocks of so many."""
    yield from forms.blocks(y, 30, "antenna 1", [(f"b{k}", False) for k in range(8)], [shade(k, size) for k in range(8)])
    yield from forms.blocks(y + 26, 30, "antenna 2", [(f"b{k}", barred) for k, barred in sent], [shade(k, size) for k in range(8)])
    yield svg.text(forms.LEFT + 254, y + 28, name, 11, "start")


def hspdsch(tree):
    count, rows, block, figure = slot_specs.subframe(tree), slot_specs.hspdsch(tree), slot_specs.block(tree), slot_specs.figure(tree)

    def subframe(y):
        yield from forms.heading(y, "HS-PDSCH: a subframe", f"{count} slots of data, 0 or 1; no digit is DTX. Antenna 1 sends the data as it is.")
        for at, (name, (fields, length)) in enumerate(zip(("format 0", "format 1"), rows, strict=True)):
            yield from forms.frame(y + 32 + 30 * at, name, count, forms.BLUE, lambda k: f"slot {k}: {length} digits")
            yield forms.remark(y + 47 + 30 * at, f"{count} × {length} = {count * length}, " + ("QPSK" if at == 0 else "16QAM"))

    def coded(y):
        yield from forms.heading(y, "The first eight digits of a slot on both antennas",
                                 "In each cell the digit of antenna 1 that stands there. A line over it is the bar: 0 and 1 change places. So it goes on, block by block.")
        yield from eight(y + 36, "format 0, QPSK: two blocks of four; a symbol is two digits, i q", 4, [(k // 4 * 4 + block[k % 4][0], block[k % 4][1]) for k in range(8)])
        yield from eight(y + 104, "format 1, 16QAM: a block of eight; a symbol is four digits, i1 q1 i2 q2, and the bar stands on signs (i1, q1) alone", 8, figure)
    return forms.page("HS-PDSCH: the subframe, and blocks on two antennas", (128, subframe), (172, coded))
