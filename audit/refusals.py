"""The numbers of refusals. crates/run/specs/Refusals.antt is the list that the promises use; the code's list, the header and the tables of all pages must be it."""
import re

import pages

SPECS, CODE, HEADER = "crates/run/specs/Refusals.antt", "crates/run/src/refusal.rt", "include/slt.h"
RULES, INTERFACE, JOBFILE = "docs/RULES.md", "docs/INTERFACE.md", "docs/JOBFILE.md"


def constant(name):
    """format_refused of the specs is FORMAT, as SLT_REFUSED_FORMAT of the header is; the code has it as a variant."""
    return name.removesuffix("_refused").upper()


def variant(name):
    """EndsEarly of the code is ENDS_EARLY in the header."""
    return re.sub(r"(?<=[a-z])(?=[A-Z])", "_", name).upper()


def listed(tree):
    """The lists that give names: of the specs, of the code and of the header, as pairs of a name and a number."""
    specs = re.findall(r"^(\w+_refused) = (\d+)$", tree.text(SPECS), re.M)
    return {
        SPECS: [(constant(name), int(number)) for name, number in specs],
        CODE: [(variant(name), int(number)) for name, number in re.findall(r"^    ([A-Z]\w*) = (\d+),$", tree.text(CODE), re.M)],
        HEADER: [(name, int(number)) for name, number in re.findall(r"^#define SLT_REFUSED_(\w+) (\d+)u", tree.text(HEADER), re.M)],
    }


def remarks(tree):
    """In the list of the specs a remark `N: ..` stands over each name: its number is the name's. In the code each number stands in its variant's line."""
    found = re.findall(r"^-- (\d+): .*\n(?:--.*\n)*abbrev pub (\w+) .*\n\2 = (\d+)$", tree.text(SPECS), re.M)
    yield from (f"{SPECS}: the remark over {name} says {said}" for said, name, number in found if said != number)
    if len(found) != len(listed(tree)[SPECS]):
        yield f"{SPECS}: a name without the remark that says its number"


def column(tree, page, head):
    """The numbers of the column of that head, in all tables of a page."""
    found, place = [], None
    for line in tree.text(page).splitlines():
        cells = [cell.strip() for cell in line.strip().strip("|").split("|")]
        if not line.startswith("|"):
            place = None
        elif head in cells:
            place = cells.index(head)
        elif place is not None and place < len(cells) and cells[place].isdigit():
            found.append(int(cells[place]))
    return found


def man(tree):
    """The numbers under REFUSALS of the man page, each a paragraph with the number in bold."""
    part = tree.text(pages.MAN).partition(".SH REFUSALS")[2].partition(".SH ")[0]
    return [int(number) for number in re.findall(r"^\.TP\n\.B (\d+)$", part, re.M)]


def differ(page, found, beside, wanted):
    """What a table has too much, too little or twice beside another."""
    yield from (f"{page}: refusal {number} is none of {beside}" for number in sorted(set(found) - set(wanted)))
    yield from (f"{page}: refusal {number} of {beside} is missing" for number in sorted(set(wanted) - set(found)))
    yield from (f"{page}: refusal {number} stands there twice" for number in sorted(set(found)) if found.count(number) > 1)


def faults(tree):
    lists = listed(tree)
    numbers = [number for name, number in lists[SPECS]]
    found = [f"{SPECS}: two names for one number"] if len(set(numbers)) < len(numbers) else []
    found += remarks(tree)
    for path in (CODE, HEADER):
        found += [f"{path}: {name} = {number}, but not so in {SPECS}" for name, number in lists[path] if (name, number) not in lists[SPECS]]
        found += [f"{path}: no {name} = {number}, which {SPECS} has" for name, number in lists[SPECS] if (name, number) not in lists[path]]
    for page in (RULES, INTERFACE):
        if tree.has(page):
            found += differ(page, [number for number in column(tree, page, "No.") if number], SPECS, numbers)
    program = sorted(set(column(tree, JOBFILE, "refused")))
    found += [f"{JOBFILE}: refusal {number} is none of {SPECS}" for number in program if number not in numbers]
    return found + list(differ(pages.MAN, man(tree), JOBFILE, program))
