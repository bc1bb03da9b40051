"""Compares docs/PROMISES.md with the source.

Each public function of a crate has a row; each promise, theorem and edit that a row names exists in its crate; each row
has at least two edits, and names the theorem that its promise allows one outcome, unless the promise is an equation; each edit
of a crate is named on the page, and the text that it replaces stands once in its file.
"""
import pathlib
import re

PAGE = "docs/PROMISES.md"


def names(cell):
    return re.findall(r"`([^`]+)`", cell)


def functions_of(cell):
    """The functions of a row. A name with no path stands in the module of the first."""
    listed = names(cell)
    module = listed[0].rpartition("::")[0]
    return [name if "::" in name or not module else f"{module}::{name}" for name in listed]


def rows(tree):
    """Each table row as a dictionary from the heading of a column to its cell."""
    heads = []
    for line in tree.text(PAGE).splitlines():
        cells = [cell.strip() for cell in line.strip().strip("|").split("|")]
        if not line.startswith("|"):
            heads = []
        elif not heads:
            heads = cells
        elif not set(line) <= set("|-"):
            yield dict(zip(heads, cells))


def crate_of(tree, function):
    """The crate of a function; that of a C function is the one that exports it."""
    if "::" in function:
        return function.split("::")[0]
    found = [crate for crate in tree.crates if crate.startswith("slt_") and f"{crate}::{function}" in tree.items[crate]]
    return found[0] if found else "no crate"


def anywhere(index, name):
    return any(name in found for found in index.values())


def check_edit(tree, path):
    """Each text that an edit replaces stands once in its file."""
    crate, edit, source, pairs = path.split("/")[1], pathlib.PurePosixPath(path).stem, None, 0
    for line in tree.text(path).splitlines():
        if line.startswith("file: "):
            source = f"crates/{crate}/" + line.removeprefix("file: ")
        elif line.startswith("old: "):
            pairs += 1
            times = tree.text(source).count(line.removeprefix("old: ")) if source and tree.has(source) else 0
            if times != 1:
                yield f"edit {edit} of {crate}: its text stands {times} times in its file"
    if not pairs:
        yield f"edit {edit} of {crate} replaces nothing"


def once_of(row):
    """The theorems of a row that its promise allows one outcome. A part's stands beside its promise, where that is a record: an equation allows one as it stands."""
    return names(row["once"]) if "once" in row else [name for name in names(row.get("promise", "")) if name.endswith("_once")]


def is_equation(tree, row):
    return "part" in row and not any(anywhere(tree.records, name) for name in names(row["promise"]))


def check_row(tree, row, function):
    crate = crate_of(tree, function)
    for name in once_of(row):
        # the theorems of a crate NAME_PART stand with the rule, in NAME
        if not any(name in tree.theorems.get(place, ()) for place in (crate, crate.split("_")[0])):
            yield f"{function}: no theorem {name} in its crate"
    for name in names(row.get("theorems", "")):
        if re.fullmatch(r"[a-z0-9_]+", name) and name not in tree.crates and not anywhere(tree.theorems, name):
            yield f"{function}: no theorem {name}"
    promised = names(row.get("promise", ""))
    if not any(anywhere(tree.definitions, name) for name in promised) and promised[:1] not in (["min"], ["replicate"]):
        yield f"{function}: none of its promises {promised} is defined"
    edits = names(row.get("must-fail edits", row.get("edits", "")))
    for name in edits:
        if name not in tree.edits.get(crate, ()):
            yield f"{function}: no edit {name}"
    if len(edits) < 2:
        yield f"{function}: fewer than two edits"


def check_models(tree, row):
    for name in names(row["theorem"]):
        if re.fullmatch(r"[a-z][a-z0-9_]+", name) and not anywhere(tree.theorems, name):
            yield f"useless models: no theorem {name}"
    for name in names(row["edit"]):
        if not anywhere(tree.edits, name):
            yield f"useless models: no edit {name}"


def check_edits(tree):
    page = set(names(tree.text(PAGE)))
    for path in tree.under("crates/*/must-fail/*.edit"):
        yield from check_edit(tree, path)
        crate, edit = path.split("/")[1], pathlib.PurePosixPath(path).stem
        if edit not in page and crate not in tree.programs:
            yield f"edit {edit} of {crate} is not named"


def faults(tree):
    found, listed = [], set()
    for row in rows(tree):
        if "model" in row:
            found += check_models(tree, row)
        for head in ("call", "part", "C function"):
            for function in functions_of(row[head]) if head in row else []:
                listed.add(function)
                found += check_row(tree, row, function)
                if not once_of(row) and not is_equation(tree, row):
                    found.append(f"{function}: no theorem that it allows one outcome")
    public = tree.public_functions
    found += [f"{function}: no row" for function in sorted(public - listed)]
    found += [f"{function}: a row, but no such function" for function in sorted(listed - public)]
    return [f"{PAGE}: {fault}" for fault in found + list(check_edits(tree))]
