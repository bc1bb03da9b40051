"""The first page: its table of channels has every call of the header, every short program and every picture. Each program is short, and what it prints stands beside it."""
import header
import pictures

PAGE, LONGEST = "README.md", 60


def faults(tree):
    text = tree.text(PAGE)
    found = [f"{PAGE}: the table of channels has no {name}" for name in sorted(header.declared(tree)) if f"`{name}`" not in text]
    programs = [path for path in tree.under("examples/*.c") if path.count("/") == 1]
    found += [f"{PAGE}: nothing leads to {path}" for path in (*programs, *pictures.PICTURES) if f"]({path})" not in text]
    found += [f"{path}: what it prints does not stand beside it" for path in programs if not tree.has(path.removesuffix(".c") + ".stdout")]
    return found + [f"{path}: it has {LONGEST} lines or more" for path in programs if path != "examples/host.c" and tree.text(path).count("\n") >= LONGEST]
