#!/usr/bin/env python3
"""The figures of a landing, by crate, for docs/LANDINGS.md.

    tools/landings.py BEFORE

BEFORE is the commit that the landing starts from. Only crates whose lines changed are given, each figure as before and after where
the two differ, and the sums over all crates. Lines are those that are neither empty nor a comment nor an import. Definitions are
functions, records and types of specs/ and proofs/; laws are the other declarations there; proofs are the files Invariants.antt,
Answers.antt and Proof.antt of proofs/.
"""
import glob
import os
import re
import subprocess
import sys
import tempfile

ROOT = os.path.dirname(os.path.dirname(os.path.abspath(__file__)))
DEFINES = ("unfoldable", "abbrev", "pub record", "record", "pub data", "data")
PROOFS = ("Invariants.antt", "Answers.antt", "Proof.antt")
PASSES = ("--", "//", "use ", "ghost use ", "pub mod ", "mod ")


def lines(path):
    with open(path) as f:
        for line in f:
            if line.strip() and not line.strip().startswith(PASSES):
                yield line.rstrip("\n")


def split(path):
    """Lines of definitions and of laws of a file: a definition ends where the next declaration begins."""
    counts, kind = [0, 0], 1
    for line in lines(path):
        text = line.strip()
        if re.match(r"\S.* : ", text) and not line.startswith("    ") and not text.startswith("→"):
            kind = 0 if text.startswith(DEFINES) else 1
        elif text.startswith(DEFINES):
            kind = 0
        counts[kind] += 1
    return counts


def functions(path):
    with open(path) as f:
        text = f.read()
    return len(re.findall(r"^ *(?:pub(?:\(crate\))? )?(?:extern \"C\" )?fn ", text, re.M)), len(re.findall(r"^ *pub (?:extern \"C\" )?fn ", text, re.M))


def figures(root):
    """Of each crate: lines of definitions, laws, code and proofs; functions, public ones, and wrong programs of the gate."""
    found = {}
    with open(os.path.join(root, "crates.txt")) as f:
        names = [re.match(r"\w+", line)[0] for line in f if line.strip() and not line.startswith("#")]
    for name in names:
        crate = os.path.join(root, "crates", name)
        spoken = [path for part in ("specs", "proofs") for path in glob.glob(f"{crate}/{part}/**/*.antt", recursive=True)]
        parts = [split(path) for path in spoken if os.path.basename(path) not in PROOFS]
        proofs = sum(len(list(lines(path))) for path in spoken if os.path.basename(path) in PROOFS)
        sources = glob.glob(f"{crate}/src/*.rt")
        counts = [functions(path) for path in sources]
        found[name] = [sum(a for a, _ in parts), sum(b for _, b in parts), sum(len(list(lines(path))) for path in sources), proofs,
                       sum(a for a, _ in counts), sum(b for _, b in counts), len(glob.glob(f"{crate}/must-fail/*.edit"))]
    return found


def at(commit):
    with tempfile.TemporaryDirectory() as folder:
        packed = subprocess.run(["git", "archive", commit, "crates", "crates.txt"], cwd=ROOT, stdout=subprocess.PIPE, check=True)
        subprocess.run(["tar", "-x", "-C", folder], input=packed.stdout, check=True)
        return figures(folder)


def row(name, old, new):
    cells = [str(b) if a == b else f"{a} → {b}" for a, b in zip(old, new)]
    return f"| {name} | " + " | ".join(cells) + " |"


def main():
    if len(sys.argv) < 2:
        sys.exit(__doc__)
    old, new = at(sys.argv[1]), figures(ROOT)
    none = [0] * 7
    print("| crate | definitions | laws | code | proofs | functions | public | edits |")
    print("|---|---|---|---|---|---|---|---|")
    for name in [*new, *(name for name in old if name not in new)]:
        if old.get(name, none) != new.get(name, none):
            print(row(name, old.get(name, none), new.get(name, none)))
    sums = [[sum(column) for column in zip(*rows.values())] for rows in (old, new)]
    print(row("all", *sums))


main()
