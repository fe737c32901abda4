#!/usr/bin/env python3
"""Turns the names of definitions and lemmas in pages to their spelling of today, and prints the table old → new.

    tools/respell_docs.py [--dry]      in the repository
    tools/respell_docs.py --table      writes the table of docs/PORT.md, crate by crate, behind the line that says that it is made so

The table is read off the two commits: what each file of specs/ and proofs/ declared when it was last landed, and what the same file
declares, in the same order, once tools/respell.py had run. In a page a name is turned where it stands in backticks, and nowhere else.
A name whose file does not declare it any more, as the tree stands, is said to stand in another file of the crate, or to be gone.
"""
import collections
import glob
import os
import re
import subprocess
import sys

# the commits of docs/PORT.md's first two lines: as it last landed, and once port.py and tools/respell.py had run
LANDED, TURNED = (os.environ.get("RESPELL_COMMITS") or " ".join(open("docs/PORT.md", encoding="utf-8").read().split("\n")[:2])).split()
PAGES = ["README.md", "CONTRIBUTING.md", "bindings/README.md", "bench/README.md", "oracle/README.md", *sorted(glob.glob("docs/*.md"))]
MADE = {"docs/STATEMENTS.md", "docs/PORT.md"}
WORDS = r"(?:(?:pub|abbrev|unfoldable|opaque|private|record|data|ruleset|mod|syntax) )*"
DECLARED = re.compile(r"^ *(" + WORDS + r")([^\s:(){}.\"=,;]+)((?: [({][^=]*?[)}])*) (:|where|=)(?: |$)")
NAME = re.compile(r"[^\W\d_][\w'′″₀-₉]*(?:-[\w'′″₀-₉]+)*")


def git(*words):
    return subprocess.run(["git", *words], capture_output=True, text=True, check=True).stdout


def files(commit):
    found = git("ls-tree", "-r", "--name-only", commit).split("\n")
    return [it for it in found if re.match(r"crates/\w+/(specs|proofs)/.*\.antt$", it) and not it.endswith("/Proof.antt")]


def declared(text):
    """The names that a file declares, in order."""
    found = []
    for line in text.split("\n"):
        m = None if line.lstrip().startswith("--") else DECLARED.match(line)
        if m and (m[4] != "=" or "ruleset" in m[1].split()) and m[2] not in ("module", "use") and re.match(r"[\w◌]", m[2]):
            found.append(m[2])
    return found


def turned():
    """Crate, file, old name and new name of each name that has another spelling."""
    for path in files(LANDED):
        old, new = (declared(git("show", f"{commit}:{path}")) for commit in (LANDED, TURNED))
        if len(old) != len(new):
            sys.exit(f"{path} declares another number of names")
        crate, _, file = path.removeprefix("crates/").removesuffix(".antt").partition("/")
        for was, now in dict.fromkeys(zip(old, new)):
            # (the six constants whose names are in capitals were put right afterwards)
            now = now.removesuffix("_lem") if was.isupper() else now
            if was != now:
                yield crate, file, was, now


def standing():
    """Of each crate: the files that declare a name today."""
    found = collections.defaultdict(lambda: collections.defaultdict(list))
    for path in sorted(glob.glob("crates/*/specs/**/*.antt", recursive=True) + glob.glob("crates/*/proofs/**/*.antt", recursive=True)):
        crate, _, file = path.removeprefix("crates/").removesuffix(".antt").partition("/")
        if os.path.basename(path) != "Proof.antt":
            with open(path, encoding="utf-8") as f:
                for name in declared(f.read()):
                    found[crate][name].append(file)
    return found


def table():
    out, former, now_in, gone = [], None, standing(), 0
    for crate, file, was, now in turned():
        if crate != former:
            out.append(f"\n### {crate}\n\n| file | old name | new name |\n|---|---|---|\n")
            former, last = crate, None
        if not now_in[crate][now] and file in now_in[crate][now.removesuffix("_lem")]:
            now = now.removesuffix("_lem")  # put right by hand afterwards
        places = now_in[crate][now]
        # a law that went from specs/ to proofs/ keeps its file's name there
        places = sorted(places, key=lambda it: it != file.replace("specs/", "proofs/", 1))
        here = f"`{now}`" if file in places else f"`{now}`, in `{places[0]}`" if places else "gone"
        gone += not places
        if not places:
            print(f"{crate}/{file}: {was} ({now}) is gone", file=sys.stderr)
        out.append(f"| {'`' + file + '`' if file != last else ''} | `{was}` | {here} |\n")
        last = file
    return "".join(out)


def names():
    found = {}
    for _, _, was, now in turned():
        assert found.setdefault(was, now) == now, was
    return found


def page_turned(text, new):
    return re.sub(r"(?<!`)`[^`\n]+`(?!`)", lambda m: NAME.sub(lambda w: new.get(w[0], w[0]), m[0]), text)


def main():
    if "--table" in sys.argv:
        with open("docs/PORT.md", encoding="utf-8") as f:
            head = re.match(r"(?s).*?^The tables below are made by tools/respell_docs\.py\b[^\n]*\n", f.read(), re.M)[0]
        made = table()
        with open("docs/PORT.md", "w", encoding="utf-8") as f:
            f.write(head + made)
        return
    new, told = names(), collections.Counter()
    for path in (it for it in PAGES if it not in MADE):
        with open(path, encoding="utf-8") as f:
            text = f.read()
        got = page_turned(text, new)
        if got == text:
            continue
        for was, now in zip(NAME.findall(text), NAME.findall(got)):
            told[path, was, now] += was != now
        if "--dry" not in sys.argv:
            with open(path, "w", encoding="utf-8") as f:
                f.write(got)
    for (path, was, now), count in told.items():
        if count:
            print(f"{path}: {was} -> {now} ({count})")


main()
