#!/usr/bin/env python3
"""The pictures of docs/. Run by itself it draws them anew; the audit asks that each is what would be drawn.

    audit/pictures.py [ROOT]
"""
import pathlib
import sys

sys.dont_write_bytecode = True

import draw_access
import draw_antennas
import draw_bytes
import draw_crates
import draw_slots
import names
import slot_specs

# Each picture, and what draws it.
PICTURES = {
    "docs/crates.svg": draw_crates.draw,
    "docs/slots.svg": draw_slots.slots,
    "docs/compressed.svg": draw_slots.compressed,
    "docs/uplink.svg": draw_slots.uplink,
    "docs/antennas.svg": draw_antennas.antennas,
    "docs/hspdsch.svg": draw_antennas.hspdsch,
    "docs/pich.svg": draw_access.pich,
    "docs/aich.svg": draw_access.aich,
    "docs/desk.svg": draw_access.desk,
    "docs/combiner.svg": draw_access.combiner,
    "docs/bank.svg": draw_bytes.bank,
    "docs/jobfile.svg": draw_bytes.jobfile,
}
RULES = "docs/RULES.md"


def drawn_anew(tree, target, draw):
    if not tree.has(target) or tree.text(target) != draw(tree):
        yield f"{target} is not what is drawn from the source: make pictures"


def tables(tree):
    """The tables that the page of rules has as well: what each is called, and the cells of its rows. The downlink's have the columns of the spec, those of the uplink
    have the fields in their order and then the slot."""
    yield "formats", [(number, *row.values()) for number, row in enumerate(slot_specs.listed(tree, *slot_specs.DPCH))]
    compressed = slot_specs.compressed(tree).items()
    yield "compressed formats", [(name, *list(row.values())[:-2], f"{row['fewest']} to {row['most']}") for name, row in compressed]
    for slots in (slot_specs.dpdch(tree), slot_specs.slots(tree, slot_specs.DPCCH)):
        yield "the uplink's formats", [(number, *(count for field, count in fields), length) for number, (fields, length) in enumerate(slots)]
    yield "the uplink's pilot bits", [(number, *cells) for number, cells in enumerate(slot_specs.pilots(tree))]


def rules_tables(tree):
    lines = tree.text(RULES).splitlines() if tree.has(RULES) else None
    for name, rows in tables(tree):
        for cells in rows:
            line = "| " + " | ".join(map(str, cells)) + " |"
            if lines is not None and line not in lines:
                yield f"{RULES}: the table of {name} has no row {line}"


def faults(tree):
    try:
        return [fault for target, draw in PICTURES.items() for fault in drawn_anew(tree, target, draw)] + list(rules_tables(tree))
    except slot_specs.Unread as problem:
        return [str(problem)]


def main():
    tree = names.Tree(sys.argv[1] if len(sys.argv) > 1 else pathlib.Path(__file__).resolve().parent.parent)
    for target, draw in PICTURES.items():
        (tree.root / target).write_text(draw(tree), encoding="utf-8")
        print(f"drawn: {target}")


if __name__ == "__main__":
    main()
