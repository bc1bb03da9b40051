#!/usr/bin/env python3
"""Tries the mistakes of docs/JOBFILE.md: writes its generator with each of them, runs it, and compares the last line that
is printed for its job with the line that the page gives.

    examples/try_mistakes.py SLOTLINE [ARGUMENT ...]     the program that prints, with its arguments
"""
import pathlib
import re
import subprocess
import sys

PAGE = pathlib.Path(__file__).resolve().parent.parent / "docs" / "JOBFILE.md"
HEADS = ["last line", "the mistake", "for", "there stands"]
# What can be wrong with a file itself: the page has a mistake for each.
NUMBERS = {20, 21, 22, 23, 24, 25}


def generator(page):
    return re.search(r"^```python\n(.*?)^```$", page, re.M | re.S).group(1)


def cells(line):
    return [cell.strip() for cell in line.strip("|").split("|")]


def code(cell):
    """What stands between the marks of a code cell, blanks and all. An empty cell is no code."""
    return cell[1:-1] if cell else ""


def mistakes(page):
    """The rows of the table with these heads: the last line, the mistake in words, the old text and the new."""
    lines = page.splitlines()
    first = next(k for k, line in enumerate(lines) if cells(line) == HEADS)
    for line in lines[first + 2 :]:
        if not line.startswith("|"):
            return
        last, words, old, new = cells(line)
        yield code(last), words, code(old), code(new)


def last_line(program, source):
    job = subprocess.run([sys.executable, "-c", source], stdout=subprocess.PIPE, check=True).stdout
    text = subprocess.run(program, input=job, stdout=subprocess.PIPE, check=True).stdout.decode()
    return text.splitlines()[-1]


def main():
    program = sys.argv[1:]
    page = PAGE.read_text()
    source = generator(page)
    tried = set()
    faults = 0
    for expected, words, old, new in mistakes(page):
        assert source.count(old) == 1, f"the generator has {old!r} {source.count(old)} times"
        found = last_line(program, source.replace(old, new))
        if found != expected:
            print(f"DIFFERENCE: {words}: the page says {expected!r}, printed is {found!r}")
            faults += 1
        tried.add(int(expected.split()[1]))
    if not NUMBERS <= tried:
        print(f"INCOMPLETE: the page has no mistake for {sorted(NUMBERS - tried)}")
        faults += 1
    if faults:
        sys.exit(1)
    print("docs/JOBFILE.md: each mistake in its generator is told as the page says")


main()
