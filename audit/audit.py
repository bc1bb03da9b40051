#!/usr/bin/env python3
"""Compares the pages, the header and the comments with the sources, and the pictures with what is drawn from them. Prints each fault, and fails if there is one.

    audit/audit.py [ROOT]
"""
import pathlib
import sys

sys.dont_write_bytecode = True

import answers
import cites
import front
import header
import kit
import names
import package
import pages
import pictures
import promises
import refusals

CHECKS = (pages, front, header, package, cites, kit, refusals, answers, promises, pictures)


def faults(root, checks=CHECKS):
    """All that is wrong with a copy of the project, or what some of the checks find."""
    tree = names.Tree(root)
    return [fault for check in checks for fault in check.faults(tree)]


def main():
    root = sys.argv[1] if len(sys.argv) > 1 else pathlib.Path(__file__).resolve().parent.parent
    found = faults(root)
    if found:
        sys.exit("\n".join(found) + f"\naudit: {len(found)} faults")
    tree = names.Tree(root)
    print(f"audit: {len(pages.pages(tree))} pages, {len(tree.crates)} crates, {len(tree.public_functions)} public functions, each with its row")


if __name__ == "__main__":
    main()
