"""include/slt.h against the functions that the static library slt exports: the same names, and the same arguments of the same types.

The header is written by hand. A function that it lacks cannot be called, one that it has too many cannot be linked, and a wrong type calls the right
function wrongly. Each has its row on the page for callers. What is exported is handed on to a library slt_NAME, where the promises and theorems stand: the functions there
are the same ones, with the same arguments and the same clauses.
"""
import functools
import re

HEADER, PAGE, DESK = "include/slt.h", "docs/INTERFACE.md", "crates/desk/specs/Rule.antt"
EXPORTS, LIBRARIES = "crates/slt/src/*.rt", "crates/slt_*/src/*.rt"
NUMBERS = {"usize": "size_t", "u8": "uint8_t", "u16": "uint16_t", "u32": "uint32_t", "u64": "uint64_t", "i8": "int8_t", "i16": "int16_t",
           "i32": "int32_t", "i64": "int64_t", "f32": "float", "f64": "double", "bool": "bool"}


def code(tree):
    """The header without its comments."""
    return re.sub(r"/\*.*?\*/", " ", tree.text(HEADER), flags=re.S)


@functools.cache
def declared(tree):
    """Each function of the header with the types of its arguments and of its answer."""
    found = {}
    for answer, name, arguments in re.findall(r"^(\w+) (slt_\w+)\(([^)]*)\);", code(tree), re.M):
        kinds = [re.sub(r"\w+$", "", " ".join(part.split())).strip() for part in arguments.split(",") if part.strip() != "void"]
        found[name] = kinds + [answer]
    return found


def in_c(kind):
    """A Rattle type as C sees it: a lent run is a pointer and a length, another lent thing a pointer; a struct Name or SltName is slt_name."""
    lent = re.fullmatch(r"&(mut )?(\[?)(\w+)\]?", kind)
    if lent:
        return [("" if lent[1] else "const ") + in_c(lent[3])[0] + " *"] + (["size_t"] if lent[2] else [])
    return [NUMBERS.get(kind) or struct_name(kind)]


def struct_name(name):
    return "slt_" + re.sub(r"(?<!^)([A-Z])", r"_\1", name).lower().removeprefix("slt_")


def functions(tree, pattern):
    """Each function for C in the files of a pattern: its arguments, its answer and its clauses, as they stand there."""
    found = {}
    for path in tree.under(pattern):
        for name, arguments, answer, clauses in re.findall(r"pub extern \"C\" fn (\w+)\(([^)]*)\) -> (\w+)\n((?:    (?:requires|ensures)\b.*\n)*)\{$", tree.text(path), re.M):
            found[name] = [" ".join(part.split()) for part in arguments.split(",") if part.strip()], answer, clauses
    return found


def exported(tree):
    """Each function that the static library exports, as C sees it."""
    found = {}
    for name, (arguments, answer, _) in functions(tree, EXPORTS).items():
        kinds = [part.partition(":")[2].strip() for part in arguments]
        found[name] = [word for kind in kinds + [answer] for word in in_c(kind)]
    return found


def handed_on(tree):
    """Each export is the function of that name in one of the libraries, and hands on just its arguments."""
    exports, libraries = functions(tree, EXPORTS), functions(tree, LIBRARIES)
    yield from (f"crates/slt: no export {name}, which a crate slt_NAME has" for name in sorted(libraries.keys() - exports.keys()))
    for name in sorted(exports):
        if exports[name] != libraries.get(name):
            yield f"crates/slt: {name} has other arguments or clauses than in a crate slt_NAME"
    for path in tree.under(EXPORTS):
        for name, body in re.findall(r"^pub extern \"C\" fn (\w+)\(.*?^\{\n(.*?)^\}$", tree.text(path), re.M | re.S):
            words = ",".join(argument.partition(":")[0] for argument in exports[name][0])
            if not re.fullmatch(rf"slt_\w+::{name}\({words},?\)", re.sub(r"\s", "", body)):
                yield f"{path}: {name} does more than to hand its arguments on"


@functools.cache
def others(tree):
    """The macros, types and fields of the header."""
    text = code(tree)
    return set(re.findall(r"#define (\w+)", text)) | set(re.findall(r"^\} (\w+);", text, re.M)) | set(re.findall(r"^    \w+ (\w+);", text, re.M))


def fresh(tree):
    """What a fresh desk holds: the header's number is the rule's."""
    said = re.search(r"#define SLT_DESK_FRESH (\d+)u", tree.text(HEADER))
    rule = re.search(r"^fresh_last = (\d+)$", tree.text(DESK), re.M)
    if not said or not rule or said[1] != rule[1]:
        yield f"{HEADER}: SLT_DESK_FRESH is not the fresh_last of {DESK}"


def layouts(tree):
    """The structs that cross to C: each has the types of its fields in one order on both sides."""
    header = {name: re.findall(r"(\w+) \w+;", body) for body, name in re.findall(r"typedef struct \{([^}]*)\} (\w+);", code(tree))}
    crates = {}
    for path in tree.under("crates/*/src/*.rt"):
        for name, body in re.findall(r"#\[repr\(C\)\]\s*(?:#\[derive\([\w, ]*\)\]\s*)?pub struct (\w+) \{([^}]*)\}", tree.text(path)):
            crates[struct_name(name)] = [NUMBERS.get(kind, kind) for kind in re.findall(r"pub \w+: (\w+)", body)]
    for name in sorted(header.keys() | crates.keys()):
        if header.get(name) != crates.get(name):
            yield f"{HEADER}: {name} has the fields {header.get(name)}, and in its crate {crates.get(name)}"


def faults(tree):
    header, crates = declared(tree), exported(tree)
    found = [f"{HEADER}: {name} is not exported by the crate slt" for name in sorted(header.keys() - crates.keys())]
    found += [f"{HEADER}: {name}, which the crate slt exports, is not declared" for name in sorted(crates.keys() - header.keys())]
    for name in sorted(header.keys() & crates.keys()):
        if header[name] != crates[name]:
            found.append(f"{HEADER}: {name} is declared as {header[name]} and exported as {crates[name]}")
    found += [f"{PAGE}: no row for {name}" for name in sorted(header) if f"`{name}(" not in tree.text(PAGE)]
    lacking = [name for name in tree.crates if name.startswith("slt_") and name not in tree.stands_on.get("slt", ())]
    found += [f"crates.txt: the static library slt does not stand on {name}" for name in lacking]
    found += handed_on(tree)
    found += fresh(tree)
    found += layouts(tree)
    known = header.keys() | others(tree)
    named = set(re.findall(r"\b(?:slt|SLT)_\w+", tree.text(HEADER)))
    return found + [f"{HEADER}: {name} is nothing that it declares" for name in sorted(named - known)]
