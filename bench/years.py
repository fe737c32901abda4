#!/usr/bin/env python3
"""Asks ours and QuantLib the same random periods of the book, days and float bits, and ends with status 1 at the first difference; then
counts the instructions of one call. bench/years builds the programs.

    bench/years.py [SEED PERIODS]
"""
import os
import random
import subprocess
import sys
import tempfile
from datetime import date

import instructions

HERE = os.path.dirname(os.path.abspath(__file__))
PROGRAMS = {name: os.path.join(HERE, "..", "target", "bench", name) for name in ("ours", "quantlib")}
FIRST, LAST = date(1901, 1, 1).toordinal(), date(2199, 12, 31).toordinal()
BASES = "Actual/360", "Actual/365 Fixed", "30E/360"


def day(*fields):
    return date(*fields).toordinal()


def near_month_end(r, n):
    """Every other day is moved to the end of its month, or beside it."""
    if r.random() < .5:
        return n
    d = date.fromordinal(n)
    end = date(d.year + d.month // 12, d.month % 12 + 1, 1).toordinal() - 1
    return min(end + r.choice((-1, 0, 0, 1)), LAST)


def periods(seed, count):
    r = random.Random(seed)
    for _ in range(count):
        start = r.randrange(FIRST, LAST + 1)
        end = r.choice((start + r.randrange(800), r.randrange(FIRST, LAST + 1)))
        yield sorted(near_month_end(r, min(n, LAST)) for n in (start, end))


def said(program, lines):
    done = subprocess.run([PROGRAMS[program], "--once"], input="\n".join(lines) + "\n", capture_output=True, text=True, check=True)
    return done.stdout.splitlines()


def compare(seed, count):
    lines = [f"{kind} {i % 3} {a} {b}" for i, (a, b) in enumerate(periods(seed, count)) for kind in ("yearparts", "yearfraction")]
    for line, ours, theirs in zip(lines, *(said(program, lines) for program in PROGRAMS), strict=True):
        if ours != theirs:
            sys.exit(f"years: {line}\n    ours {ours}\n    QuantLib {theirs}")
    print(f"{count} periods of the book: ours and QuantLib have the same days and the same floats, bit by bit")


def counts(program, lines):
    with tempfile.TemporaryFile("w+") as questions:
        questions.write("\n".join(lines) + "\n")
        questions.flush()
        questions.seek(0)
        return instructions.of_calls(PROGRAMS[program], ["--once"], questions)[1::2]  # the second of two calls


def count_calls():
    ends = [(day(2025, 1, 15), day(2025, 4, 15)), (day(2000, 1, 31), day(2000, 12, 31)), (FIRST, LAST)]
    print(instructions.machine())
    print("| basis | parts | fraction | QuantLib's dayCount | QuantLib's yearFraction |\n|---|---|---|---|---|")
    for k, name in enumerate(BASES):
        columns = [counts(program, [f"{kind} {k} {a} {b}" for a, b in ends])
                   for program in PROGRAMS for kind in ("yearparts", "yearfraction")]
        print(f"| {name} | " + " | ".join(f"{min(c)} to {max(c)}" if min(c) < max(c) else str(c[0]) for c in columns) + " |")
    sizes = 5, 121, 4096
    dates = [[day(2001, 1, 31) + 7 * i for i in range(n)] for n in sizes]
    took = counts("ours", [" ".join(map(str, ["yearreport", len(ds), *ds])) for ds in dates])
    print("\n| dates of a report | instructions | 12 a date and 400 |\n|---|---|---|")
    for n, c in zip(sizes, took):
        print(f"| {n:,} | {c:,} | {12 * n + 400:,} |")


def main():
    if len(sys.argv) not in (1, 3):
        sys.exit(__doc__.strip())
    seed, count = sys.argv[1:] or ("12", "200000")
    compare(seed, int(count))
    count_calls()


main()
