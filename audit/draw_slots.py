"""The pictures of slots that have formats: docs/slots.svg (downlink DPCH), docs/compressed.svg and docs/uplink.svg, by the numbers of the specs.

A new table of formats is one more section: its title, its rows, what they are called, and what is said of it.
"""
import forms
import slot_specs

SCALE = ("Each bar is one slot, drawn over the full width whatever its length: a digit is wide in a short slot and narrow in a long one.",
         "At the right stand the digits of the slot and those of its fields, in their order.")


def slots(tree):
    rows, count = slot_specs.slots(tree, slot_specs.DPCH), slot_specs.frame_slots(tree)

    def frame(y):
        yield from forms.heading(y, "A frame", f"{count} slots of one format, one after the other. Each has its own command and its own pilot; data and TFCI are cut into {count} parts.")
        yield from forms.frame(y + 32, "slot", count, forms.PALE)
    return forms.page("Downlink DPCH: the fields of a slot, and a frame",
                      forms.formats("Downlink DPCH: the fields of a slot", rows, range(len(rows)), *SCALE), (80, frame))


def compressed(tree):
    """A gap of some slots as an example, and the table."""
    rows, table = slot_specs.compressed(tree), slot_specs.compressed_slots(tree)
    first, missing = 5, 4
    count, fewest, most, is_missing, turn = slot_specs.gap(tree)
    sent = [k for k in range(count) if not is_missing(first, missing, k)]

    def frame(y):
        yield from forms.heading(y, f"A compressed frame: slots {first} to {first + missing - 1} are missing",
                                 f"A gap is told by its first slot ({first}) and by how many are missing ({missing}). "
                                 f"{fewest} to {most} of the {count} slots are sent, and a missing slot is nothing but DTX.",
                                 "Data, TFCI and commands hold the sent slots alone, so behind the gap a slot takes an earlier part than its own number.")
        yield from forms.frame(y + 50, "slot", count, forms.PALE, lambda k: None if k not in sent else str(k))
        yield from forms.frame(y + 80, "part", count, forms.YELLOW, lambda k: "" if k not in sent else str(turn(first, missing, k)))
        yield forms.remark(y + 95, f"{len(sent)} parts")
    lacking = [name for number in range(len(slot_specs.slots(tree, slot_specs.DPCH))) for name in (f"{number}A", f"{number}B") if name not in rows]
    notes = ("As in docs/slots.svg. A has twice the TFCI digits of the normal format, and Data2 gives up as many; in B every field is doubled, and",
             f"TPC and pilot repeat pair by pair. There is no {' and no '.join(lacking)}.")
    return forms.page("Compressed frames: the gap, and the fields of a slot", (138, frame), forms.formats("Formats A and B: the fields of a slot", table, list(rows), *notes))


def uplink(tree):
    control, data, count = slot_specs.slots(tree, slot_specs.DPCCH), slot_specs.dpdch(tree), slot_specs.frame_slots(tree)

    def frame(y):
        yield from forms.heading(y, "A frame of both", f"{count} slots each, side by side in time. Every control slot has its own pilot, so that a receiver finds where the "
                                 "frame begins; a data slot is the same in every place.")
        yield from forms.frame(y + 32, "DPCCH", count, forms.GREEN)
        yield from forms.frame(y + 60, "DPDCH", count, forms.fill("data"))
    return forms.page("Uplink: control and data",
                      forms.formats("Uplink DPCCH: the fields of a control slot", control, range(len(control)),
                                    f"Every slot has {control[0][1]} digits; the pilot stands first, the TPC command last. Nothing is DTX.", SCALE[1]),
                      forms.formats("Uplink DPDCH: the only field of a data slot", data, range(len(data)), SCALE[0],
                                    "A slot is its data, whichever slot of the frame it is."),
                      (108, frame))
