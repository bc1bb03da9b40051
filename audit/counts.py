#!/usr/bin/env python3
"""Counts a tree and prints a row of a Markdown table under its heads: so the notes of all changes are measured in the same way.

    audit/counts.py [NAME [ROOT]]     NAME stands in the row's first cell

crates            the crates of crates.txt
public functions  `pub fn` of the libraries, the exported C functions among them; programs have none
theorems          statements of specs/ (a type with a name and no parameters) that a crate proves: a `pub` name of proofs/ has the statement as its whole type, and is
                  the statement's name in small letters, with _lem behind it where a definition has that name. Laws, lemmas and the proofs of functions are not counted
edits             the files of must-fail/
lines             of specs/, of src/ and of proofs/, without empty lines and without lines that are only a comment
"""
import pathlib
import re
import sys

sys.dont_write_bytecode = True

import names

HEADS = ("at", "crates", "public functions", "theorems", "edits", "lines of specs", "lines of code", "lines of proofs")


def small(statement):
    """ReadExact is proved as read_exact."""
    return re.sub(r"(?<!^)([A-Z])", r"_\1", statement).lower()


def theorems(tree):
    """Pairs of a crate and a theorem. A statement may be proved in another crate than the one that has it."""
    form = re.compile(r"^(?:unfoldable |abbrev )*pub (?:record )?([A-Z]\w*) : Type \d", re.M)
    stated = {name for path in tree.under("crates/*/specs/*.antt") for name in form.findall(tree.text(path))}
    found = set()
    for path in tree.under("crates/*/proofs/*.antt"):
        for name, statement in re.findall(r"^pub (\w+) : ([A-Z]\w*)$", tree.text(path), re.M):
            if statement in stated and name.removesuffix("_lem") == small(statement):
                found.add((path.split("/")[1], name))
    return found


def lines(tree, pattern, comment):
    rows = (line.strip() for path in tree.under(pattern) for line in tree.text(path).splitlines())
    return sum(row != "" and not row.startswith(comment) for row in rows)


def counts(tree):
    return (len(tree.crates), len(tree.public_functions), len(theorems(tree)), sum(map(len, tree.edits.values())),
            lines(tree, "crates/*/specs/*.antt", "--"), lines(tree, "crates/*/src/*.rt", "//"), lines(tree, "crates/*/proofs/*.antt", "--"))


def row(cells):
    return "| " + " | ".join(map(str, cells)) + " |"


def main():
    name = sys.argv[1] if len(sys.argv) > 1 else "today"
    tree = names.Tree(sys.argv[2] if len(sys.argv) > 2 else pathlib.Path(__file__).resolve().parent.parent)
    print(row(HEADS) + "\n|" + "---|" * len(HEADS) + "\n" + row((name, *counts(tree))))


main()
