#!/usr/bin/env python3
"""Holds docs/LAW.md to the sources: every definition and law that it names as `crate/File.name` or `crate/Laws/File.name` stands in that file
of crates/crate/specs or, a law, of crates/crate/proofs; every function that it names as `crate::name` is one of docs/STATEMENTS.md; and every
file of definitions is named, and of laws in proofs/.

    tools/law.py --check     says nothing, and ends with status 1 and a line for each name that is gone or file that is not named
"""
import glob
import os
import re
import sys

ROOT = os.path.dirname(os.path.dirname(os.path.abspath(__file__)))


# Crates whose specs are terms of promises between our own functions alone.
INNER = {"working", "opening", "forwards", "finish"}

# Crates with laws in proofs/, beside files that serve the proofs of functions alone.
IN_PROOFS = ("advancing", "outcomes", "plain", "coming")
SERVING = {"Ways", "Counting"}


def declared(crate, file, name):
    for part in ("specs", "proofs") if crate in IN_PROOFS else ("specs",):
        path = os.path.join(ROOT, "crates", crate, part, f"{file}.antt")
        if os.path.exists(path):
            with open(path) as f:
                if re.search(rf"^ *(?:(?:unfoldable|abbrev) )?(?:pub )?(?:record |data )?{re.escape(name)} ", f.read(), re.M):
                    return True
    return False


def definition_files():
    """The files that stand directly in a crate's specs, or with laws in its proofs: not its root, nor the roots of the folders there."""
    for part in ("specs", "proofs"):
        for path in sorted(glob.glob(os.path.join(ROOT, "crates", "*", part, "*.antt"))):
            crate, file = path.split(os.sep)[-3], os.path.basename(path)[:-len(".antt")]
            if crate in INNER or file == "Lib" or os.path.isdir(path[:-len(".antt")]):
                continue
            if part == "specs" or crate in IN_PROOFS and file not in SERVING:
                yield f"{crate}/{file}"


def main():
    with open(os.path.join(ROOT, "docs", "LAW.md")) as f:
        text = f.read()
    with open(os.path.join(ROOT, "docs", "STATEMENTS.md")) as f:
        public = set(re.findall(r"^- \*\*([\w:]+)\*\*", f.read(), re.M))
    gone = [f"{crate}/{file}.{name}" for crate, file, name in re.findall(r"`(\w+)/((?:\w+/)?\w+)\.([^`\s]+)`", text) if not declared(crate, file, name)]
    gone += [name for name in re.findall(r"`(\w+(?:::\w+)+)`", text) if name not in public]
    unnamed = [file for file in definition_files() if f"`{file}." not in text]
    for name in gone:
        print(f"docs/LAW.md names {name}, which is not there", file=sys.stderr)
    for file in unnamed:
        print(f"docs/LAW.md names nothing of {file}, which stands among the definitions", file=sys.stderr)
    sys.exit(1 if gone or unnamed else 0)


main()
