#!/usr/bin/env python3
"""Lists every public function with its statement, from the sources.

    tools/statements.py            writes the list, as docs/STATEMENTS.md has it
    tools/statements.py --check    says nothing, and ends with status 1 where the list in docs is another one

Ends with status 1 and a line for each public function that has a `requires`, no `ensures`, or fewer than two wrong programs
that its statement rules out, and for each wrong program of no public function; and, unless docs/EXCEPTIONS.md names it, for each
that promises under a premise, and for each list that is lent to be written whose exit its statement does not speak of; and for each
function of `capi` that `capi_c` does not export to C under its name, with its parameters and its statement. A function is public if it
is `pub fn` in the root of a library or in modules that are `pub mod` all the way, or there the `from` or `try_from` of an `impl` that says what it
gives, or a function of an `impl` of a `pub trait` of the same file; programs have none, and neither has `capi_c`.
"""
import glob
import os
import re
import sys

ROOT = os.path.dirname(os.path.dirname(os.path.abspath(__file__)))
LISTED = os.path.join(ROOT, "docs", "STATEMENTS.md")
EXCEPTIONS = os.path.join(ROOT, "docs", "EXCEPTIONS.md")
HEAD = """# Statements

Every public function, its statement, and the file that it stands in; made by tools/statements.py from the sources. `result` is
the answer, `x.now` what is lent to be read, `x.old` and `x.new` what is lent to be written, before the call and after it. A name
with a capital is a fact or a record of facts, any other a function; both are defined in the crate's specs/, in those of a crate
below it, or in Rattle's library. What is ruled out is named by the edits of the crate's must-fail/ and wrong/ that make the answer wrong; each must be
refused (tools/wrong).
"""


def crates():
    with open(os.path.join(ROOT, "crates.txt")) as f:
        for line in f:
            line = line.split("#")[0].strip()
            if line:
                yield re.match(r"\w+", line)[0]


def read(crate, module):
    path = os.path.join("crates", crate, "src", module + ".rt")
    with open(os.path.join(ROOT, path)) as f:
        return path, f.read()


def modules(crate):
    """The public modules of a library: path and text."""
    if not os.path.exists(os.path.join(ROOT, "crates", crate, "src", "lib.rt")):
        return
    path, text = read(crate, "lib")
    yield crate, path, text
    for name in re.findall(r"^pub mod (\w+);", text, re.M):
        path, inner = read(crate, name)
        yield f"{crate}::{name}", path, inner


FUNCTION = re.compile(r"^(?P<in> *)pub (?:extern \"C\" )?fn (?P<name>\w+)(?P<rest>.*?)^(?P=in)\{", re.M | re.S)
IMPL = re.compile(r"^impl(?:<[^>]*>)? (\w+)(?:<[^>]*>)? \{", re.M)
# A conversion: what it gives is a member of its impl.
CONVERSION = re.compile(r"^impl (?:Try)?From<[^>]+> for (\w+) \{\n.*?^    ghost ((?:try_)?from)_gives = \{(.*?)\};$", re.M | re.S)
# A trait, its body; and an impl of one, its body.
TRAIT = re.compile(r"^pub trait (\w+)[^{\n]* \{\n(.*?)^\}", re.M | re.S)
IMPL_OF = re.compile(r"^impl (\w+) for ([\w()]+) \{\n(.*?)^\}", re.M | re.S)
MEMBER = re.compile(r"^    ghost (\w+) = \{(.*?)\};$", re.M | re.S)
METHOD = re.compile(r"^    fn (\w+)(.*?);$", re.M | re.S)
# What stands in a clause's braces; where there are several, each has a name.
CLAUSE = re.compile(r"^ *(requires|ensures)(?: \w+)? \{(.*?)\}$", re.M | re.S)


def functions():
    for crate in crates():
        for place, path, text in modules(crate):
            for found in FUNCTION.finditer(text):
                owner = place
                if found["in"]:
                    owner = f"{place}::{[m[1] for m in IMPL.finditer(text, 0, found.start())][-1]}"
                clauses = [(kind, " ".join(text.split())) for kind, text in CLAUSE.findall(found["rest"])]
                lent = re.findall(r"(\w+): &(?:'\w+ )?mut |&(?:'\w+ )?mut (self)\b", found["rest"])
                lent = [name or itself for name, itself in lent]
                yield crate, f"{owner}::{found['name']}", path, clauses, lent
            for owner, name, gives in CONVERSION.findall(text):
                yield crate, f"{place}::{owner}::{name}", path, [("ensures", f"{name}_gives = {' '.join(gives.split())}")], []
            traits = dict(TRAIT.findall(text))
            for trait, owner, body in IMPL_OF.findall(text):
                members = [("ensures", f"{name} = {' '.join(value.split())}") for name, value in MEMBER.findall(body)]
                for name, rest in METHOD.findall(traits.get(trait, "")):
                    clauses = [(kind, " ".join(text.split())) for kind, text in re.findall(r"(requires|ensures)(?: \w+)? \{(.*?)\}$", rest, re.M | re.S)]
                    yield crate, f"{place}::{owner} as {trait}::{name}", path, members + clauses, []


def declared(crate):
    """Each function of the files of a crate: its parameters, answer and clauses, however they are laid out."""
    found = {}
    for path in glob.glob(os.path.join(ROOT, "crates", crate, "src", "*.rt")):
        with open(path) as f:
            found.update({it["name"]: re.sub(r"\s+|,\s*(?=\))", "", it["rest"]) for it in FUNCTION.finditer(f.read())})
    return found


def ruled_out():
    """The wrong programs of each function: the names of the edits that say they are `# of` it."""
    named = {}
    for path in sorted(path for part in ("must-fail", "wrong") for path in glob.glob(os.path.join(ROOT, "crates", "*", part, "*.edit"))):
        with open(path) as f:
            for name in sorted(set(re.findall(r"^# of (.*)$", f.read(), re.M))):
                named.setdefault(name, []).append(os.path.basename(path)[: -len(".edit")])
    return named


def stepped():
    """The names of promises that are a step's, which holds under its premise."""
    texts = [open(path).read() for path in glob.glob(os.path.join(ROOT, "crates", "*", "specs", "**", "*.antt"), recursive=True)]
    return {"Step"} | {name for text in texts for name in re.findall(r"^abbrev pub (\w+) :.*\n\1 .*=\s+Step ", text, re.M)}


def excepted():
    """What docs/EXCEPTIONS.md names: functions that promise under a premise, and lists, each as `function: list`."""
    with open(EXCEPTIONS) as f:
        text = f.read()
    premised = set(re.findall(r"^\| `([\w:]+)` \|", text, re.M))
    unsaid = set()
    for name, lists in re.findall(r"^- `([\w:]+)`: ((?:`\w+`(?:, )?)+)", text, re.M):
        unsaid |= {f"{name}: {part}" for part in re.findall(r"`(\w+)`", lists)}
    return premised, unsaid


def main():
    faults, out, former = [], [HEAD], None
    count, wrong = 0, ruled_out()
    premised, unsaid = excepted()
    steps = stepped()
    under, silent = set(), set()
    for crate, name, path, clauses, lent in functions():
        count += 1
        kinds = [kind for kind, _ in clauses]
        promise = " ".join(text for kind, text in clauses if kind == "ensures")
        if " → " in promise or any(text.split(" ")[0] in steps for _, text in clauses):
            under.add(name)
        silent |= {f"{name}: {part}" for part in lent if not re.search(rf"\b{part}\.new\b", promise)}
        if "requires" in kinds:
            faults.append(f"{path}: {name} has a `requires`")
        if "ensures" not in kinds:
            faults.append(f"{path}: {name} has no `ensures`")
        if crate != former:
            out.append(f"\n## {crate}\n\n")
            former = crate
        said = "; ".join(f"`{text}`" for kind, text in clauses if kind == "ensures")
        edits = wrong.pop(name, [])
        if len(edits) < 2:
            faults.append(f"{path}: {name} has fewer than two wrong programs")
        out.append(f"- **{name}** ({path}): {said}; ruled out: {', '.join(edits)}\n")
    out.append(f"\n{count} public functions, {len(under)} of which promise under a premise (docs/EXCEPTIONS.md).\n")
    faults += [f"docs/EXCEPTIONS.md does not name {name}, which promises under a premise" for name in sorted(under - premised)]
    faults += [f"docs/EXCEPTIONS.md names {name}, which promises without a premise" for name in sorted(premised - under)]
    faults += [f"{part} is lent, and its exit is not spoken of" for part in sorted(silent - unsaid)]
    faults += [f"docs/EXCEPTIONS.md names {part}, whose exit is spoken of" for part in sorted(unsaid - silent)]
    faults += [f"{name} has wrong programs ({', '.join(edits)}) and is no public function" for name, edits in wrong.items()]
    inside, outside = declared("capi"), declared("capi_c")
    faults += [f"crates/capi_c does not export {name} as crates/capi has it" for name in sorted(inside) if outside.get(name) != inside[name]]
    faults += [f"crates/capi_c exports {name}, which crates/capi has not" for name in sorted(outside) if name not in inside]
    text = "".join(out)
    if "--check" in sys.argv:
        with open(LISTED) as f:
            if f.read() != text:
                faults.append("docs/STATEMENTS.md is not what tools/statements.py writes")
    else:
        sys.stdout.write(text)
    for fault in faults:
        print(fault, file=sys.stderr)
    sys.exit(1 if faults else 0)


main()
