"""Which calls give which numbers. crates/numbers/specs/Rule.antt has the lists of the theorem `numbers`; both tables of docs/INTERFACE.md and that of the second program
must have them, for every function of the header, and every refusal must be given by some call or by the program."""
import re

import header
import refusals

LISTS, PAGE, SECOND, CASES, SHOWN = "crates/numbers/specs/Rule.antt", "docs/INTERFACE.md", "second/src/numbers.rs", "crates/cases/stdout", "docs/PYTHON.md"
JOBS = "second/src/bin/jobs/main.rs"


def numbers(text):
    return [int(number) for number in re.findall(r"\d+", text)]


def in_specs(tree):
    """Pairs of a call and its refusals; slot_map of the specs is slt_slot_map."""
    return [("slt_" + name, numbers(row)) for name, row in re.findall(r"^refusals (\w+) = (.*)$", tree.text(LISTS), re.M)]


def on_page(tree):
    """The same of the table under the heads `calls` and `refusals`, whose rows may have several calls."""
    table = re.search(r"^\| calls \| refusals \|\n\|[-|]+\n((?:\|.*\n)+)", tree.text(PAGE), re.M)
    rows = re.findall(r"^\| (.*) \| (.*) \|$", table[1], re.M) if table else []
    return [(name, numbers(row)) for names, row in rows for name in re.findall(r"`(\w+)`", names)]


def in_checks(tree):
    """The same of the column `order of checks`: its numbers, but for those that are told in brackets, behind a semicolon, or as bounds."""
    table = re.search(r"^\| call \| runs \| order of checks \|\n\|[-|]+\n((?:\|.*\n)+)", tree.text(PAGE), re.M)
    for line in table[1].splitlines() if table else ():
        names, _, checks = line.strip("|").rsplit("|", 2)
        row = numbers(re.sub(r"\([^)]*\)|above \d+|;.*", "", checks))
        yield from ((name, sorted(set(row))) for name in re.findall(r"`(\w+)\(", names))


def in_second(tree):
    """The same of the table in the second program."""
    return [(name, numbers(row)) for name, row in re.findall(r"^    \(\"(slt_\w+)\", &\[([\d, ]*)\]\),$", tree.text(SECOND), re.M)]


def differ(path, found, wanted):
    """What is wrong with one table beside the lists of the specs."""
    yield from (f"{path}: no numbers of {name}" for name in wanted if name not in dict(found))
    for name, row in found:
        if [other for other, _ in found].count(name) > 1:
            yield f"{path}: {name} stands there twice"
        elif name not in wanted:
            yield f"{path}: {name} is none of the calls of {LISTS}"
        elif row != wanted[name]:
            yield f"{path}: {name} gives {row}, but in {LISTS} {wanted[name]}"


def jobs(tree):
    """The numbers that the comparison of job files must see are those of the page of job files, and 0."""
    said = re.search(r"^const NUMBERS: \[u16; \d+\] = \[(.*)\];$", tree.text(JOBS), re.M)
    wanted = [0] + sorted(set(refusals.column(tree, refusals.JOBFILE, "refused")))
    if not said or numbers(said[1]) != wanted:
        yield f"{JOBS}: NUMBERS is not 0 and each refusal of {refusals.JOBFILE}, {wanted}"


def every(tree, lists):
    """Every number of a list is a refusal, and every refusal is one that a call or the program gives, that some case is refused with, and that a call on the page of Python shows."""
    known = [number for _, number in refusals.listed(tree)[refusals.SPECS]]
    yield from (f"{LISTS}: {name} gives {number}, which is no refusal" for name, row in lists for number in row if number not in known)
    given = {number for _, row in lists for number in row} | set(refusals.column(tree, refusals.JOBFILE, "refused"))
    yield from (f"{LISTS}: no call and no job file gives {number}" for number in known if number not in given)
    tried = set(map(int, re.findall(r"\brefused (\d+) \d+", tree.text(CASES))))
    yield from (f"{CASES}: no case is refused with {number}" for number in known if number not in tried)
    yield from refusals.differ(SHOWN, refusals.column(tree, SHOWN, "No."), refusals.SPECS, known)


def faults(tree):
    lists = in_specs(tree)
    found = [f"{LISTS}: no list of {name}" for name in sorted(header.declared(tree)) if name not in dict(lists)]
    found += [f"{LISTS}: {name} is no function of {header.HEADER}" for name, _ in lists if name not in header.declared(tree)]
    found += [f"{LISTS}: the list of {name} is not in order" for name, row in lists if row != sorted(set(row))]
    for path, table in ((PAGE, on_page(tree)), (f"{PAGE}, order of checks", list(in_checks(tree))), (SECOND, in_second(tree))):
        found += differ(path, table, dict(lists))
    return found + list(jobs(tree)) + list(every(tree, lists))
