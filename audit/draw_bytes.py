"""The pictures of bytes: docs/bank.svg and docs/jobfile.svg."""
import forms
import slot_specs
import svg


def stretch(y, parts):
    """Bytes in a row: of each part its width on the page, what stands in it, what is said under it, and its colour; one without a colour is free."""
    x = forms.LEFT
    for width, words, under, colour in parts:
        yield forms.silent(x, y, width, 24) if colour is None else svg.box(x, y, width, 24, colour, svg.GREY, stroke_width=0.8)
        yield svg.text(x + width / 2, y + 16, words, 11)
        yield svg.text(x + width / 2, y + 38, under, 10, fill=svg.GREY)
        x += width


def bank(tree):
    """An example: slots of three formats under numbers, the middle one dropped."""
    mark, head, beside, (least, most), (shortest, longest) = slot_specs.bank(tree)
    room, held = 256, [(7, 40), (0, 80), (12, 20)]

    def held_in(slots):
        yield 110, f"{mark} {head + sum(beside + digits for number, digits in slots)}", f"{head} bytes", forms.YELLOW
        for number, digits in slots:
            yield 90 + digits * 1.2, f"slot {number}: {digits} digits", f"{digits} + {beside} bytes", forms.BLUE
        left = room - head - sum(beside + digits for number, digits in slots)
        yield forms.WIDE - 110 - sum(90 + digits * 1.2 for number, digits in slots), "free", f"{left} bytes", None

    def whole(y):
        yield from forms.heading(y, f"The bank: one buffer of yours, here of {room} bytes ({least} to {most})",
                                 f"The header has the mark and the total taken. A slot takes {beside} bytes more than its digits. A store puts the new slot behind the others; a drop closes",
                                 "the gap at once, so what is free is always one stretch at the end.")
        yield forms.label(y + 66, "three slots")
        yield from stretch(y + 50, held_in(held))
        yield forms.label(y + 126, "0 dropped")
        yield from stretch(y + 110, held_in([slot for slot in held if slot[0] != 0]))

    def slot(y):
        yield from forms.heading(y, "A slot in it", "Numbers of several bytes have their high byte first.")
        yield from stretch(y + 32, [(120, "number", "byte 0: 0 to 255", forms.GREEN), (90, "0", "byte 1", "white"), (180, "how many digits", f"bytes 2 and 3: {shortest} to {longest}", forms.GREEN),
                                    (330, "the digits", f"from byte {beside} on, one byte each: 0, 1, or 2 for DTX", forms.BLUE)])
    return forms.page("The bank of slots: its bytes", (186, whole), (100, slot))


def jobfile(tree):
    (mark, versions, kinds), (length, tail, numbers) = slot_specs.jobfile(tree), slot_specs.pich(tree)
    formats, slots = len(slot_specs.slots(tree, slot_specs.DPCH)), slot_specs.frame_slots(tree)

    def file(y):
        yield from forms.heading(y, "A job file", "All numbers are bytes. The two versions differ in how many bytes count the records, and in how long a file may be.")
        for at, (version, width, limit) in enumerate(versions):
            yield forms.label(y + 50 + 62 * at, f"version {version}")
            begin = len(mark) + 2
            yield from stretch(y + 34 + 62 * at, [(90, mark, f"bytes 0 to {len(mark) - 1}", forms.YELLOW), (90, f"0 {version}", f"{len(mark)} and {len(mark) + 1}", forms.YELLOW),
                                                  (60 * width, "count", " and ".join(str(begin + k) for k in range(width)), forms.GREEN),
                                                  (540 - 60 * width, f"records, up to {256 ** width - 1}", f"from byte {begin + width} on", forms.BLUE)])
            yield forms.remark(y + 50 + 62 * at, f"at most {limit} bytes")

    def records(y):
        yield from forms.heading(y, "A record", "Its kind, and what the mapper of that kind takes. How long a PICH or DPCH record is, the byte behind its kind says.")
        rows = (("AICH", [(500, f"{kinds['aich'][1] - 1} indicators", "0, 1, 2 for 0, +1, -1", forms.BLUE)]),
                ("PICH", [(110, "Np", ", ".join(str(np) for np, width in numbers), forms.GREEN), (390, "Np indicators", "0 or 1", forms.BLUE)]),
                ("DPCH", [(90, "format", f"0 to {formats - 1}", forms.GREEN), (80, "slot", f"0 to {slots - 1}", forms.GREEN), (80, "TPC", "0 or 1", forms.GREEN),
                          (90, "TFCI", "by format", forms.BLUE), (160, "data", "by format", forms.BLUE)]))
        for at, (name, parts) in enumerate(rows):
            yield forms.label(y + 50 + 58 * at, name)
            yield from stretch(y + 34 + 58 * at, [(60, str(kinds[name.lower()][0]), "kind", forms.YELLOW), *parts])
    return forms.page("A job file: its bytes", (170, file), (216, records))
