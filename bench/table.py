#!/usr/bin/env python3
"""Runs the benchmark several times and prints the table of docs/SPEED.md: the median of each ratio, and the least and the greatest seen.

usage: table.py RUNS PROGRAM [ARGUMENT ..]
"""
import re
import statistics
import subprocess
import sys

ROW = re.compile(r"^(.+?) +([\d.]+) times plain C +([\d.]+) times tight C +(?:([\d.]+) times memcpy)? +\(([\d.]+) ns")


def add_run(rows, text):
    """Adds the numbers of one run to what is known of each row, in the order of the rows."""
    for line in text.splitlines():
        row = ROW.match(line)
        if row is None:
            sys.exit(f"table: not a row: {line}")
        name, *numbers = row.groups()
        for known, number in zip(rows.setdefault(name, [[], [], [], []]), numbers):
            if number is not None:
                known.append(float(number))


def ratio(numbers):
    return f"{statistics.median(numbers):.2f}", f"{min(numbers):.2f} to {max(numbers):.2f}"


def main():
    runs, command = int(sys.argv[1]), sys.argv[2:]
    rows = {}
    for _ in range(runs):
        add_run(rows, subprocess.run(command, check=True, capture_output=True, text=True).stdout)
    print("| call | plain C | seen | tight C | seen | memcpy | ns |")
    print("|---|---|---|---|---|---|---|")
    for name, (plain, tight, copy, ns) in rows.items():
        memcpy = f"{statistics.median(copy):.1f}" if copy else ""
        print("|", " | ".join([name, *ratio(plain), *ratio(tight), memcpy, f"{statistics.median(ns):.0f}"]), "|")


main()
