#!/usr/bin/env python3
"""Makes every table of the refusals from the one list, crates/refusal/specs/Refusals.antt.

    tools/refusals.py            writes the marked parts of the files below
    tools/refusals.py --check    says nothing, and ends with status 1 where a part is not what the list gives

A part stands between a line that ends with 'made by tools/refusals.py: PART' and the next that ends with 'made so far'.
"""
import os
import re
import sys

ROOT = os.path.dirname(os.path.dirname(os.path.abspath(__file__)))
LIST = os.path.join("crates", "refusal", "specs", "Refusals.antt")
# Cases of the code whose names show words that document 01's names write together.
IN_CODE = {"MONTHEND": "MonthEnd", "NOTPLAIN": "NotPlain", "ICALKIND": "IcalKind", "SHORTEND": "ShortEnd"}
# Names that the header has for something else: HERONSPAN_SAME is an order of two dates.
IN_C = {"SAME": "SAME_DATE"}


def refusals():
    """The rows of the list: number, name, meaning."""
    with open(os.path.join(ROOT, LIST)) as f:
        found = re.findall(r'^ +(?:∷ )?row (\d+) "(\w+)"\s+"([^"]*)"$', f.read(), re.M)
    return [(int(number), name, meaning) for number, name, meaning in found]


def in_c(name):
    return "HERONSPAN_" + IN_C.get(name, name)


def camel(name):
    return "".join(word.capitalize() for word in name.split("_"))


def definitions(rows):
    return "".join(f"abbrev pub {name} : ℕ\n{name} = {number}\n\n" for number, name, _ in rows)


def case(name):
    return IN_CODE.get(name, camel(name))


def sentence(meaning):
    return f"{meaning[0].upper()}{meaning[1:]}."


def cases(rows):
    return "".join(f"    /// {sentence(meaning)}\n    {case(name)} = {number},\n" for number, name, meaning in rows)


def name_arms(rows):
    return "".join(f'            Refusal::{case(name)} => "{name}",\n' for _, name, _ in rows)


def number_arms(rows):
    return "".join(f"            {number} => Ok(Refusal::{case(name)}),\n" for number, name, _ in rows)


def imported(rows):
    return "use Rattle.refusal.specs.declared.Refusal.TheVariants.{" + ", ".join(case(name) for _, name, _ in rows) + "}\n"


def by_case(rows):
    numbers = "".join(f"number_of {case(name)} = {number}\n" for number, name, _ in rows)
    letters = "".join(f'letters_of {case(name)} = codes "{name}"\n' for _, name, _ in rows)
    return f"abbrev pub number_of : Refusal → ℕ\n{numbers}\nabbrev pub letters_of : Refusal → List ℕ\n{letters}\n"


def listed(rows):
    first = case(rows[0][1])
    return f"cases = {first} ∷ " + " ∷ ".join(case(name) for _, name, _ in rows) + " ∷ []\n"


def each(law):
    return lambda rows: "".join(f"{law} {case(name)} = refl\n" for _, name, _ in rows)


def header(rows):
    ends = [","] * (len(rows) - 1) + [""]
    said = [f"    {in_c(name)} = {number}{end}" for (number, name, _), end in zip(rows, ends)]
    width = max(map(len, said))
    return "enum {\n" + "".join(f"{line:{width}} /* {row[2]} */\n" for line, row in zip(said, rows)) + "};\n"


def names(rows):
    return "".join(f'    case -{in_c(name)}:\n        return "{name}";\n' for _, name, _ in rows)


def python(rows):
    return "".join(f"    {name} = {number}  # {meaning}\n" for number, name, meaning in rows)


def variants(rows):
    return "".join(f"    /// {sentence(meaning)}\n    {camel(name)} = {number},\n" for number, name, meaning in rows)


def table(rows):
    lines = "".join(f'    (Refusal::{camel(name)}, "{name}"),\n' for _, name, _ in rows)
    return f"const REFUSALS: [(Refusal, &str); {len(rows)}] = [\n{lines}];\n"


PARTS = [
    ("crates/refusal/specs/Answer.antt", "numbers", definitions),
    ("crates/refusal/specs/Refusals.antt", "imported", imported),
    ("crates/refusal/specs/Refusals.antt", "cases", by_case),
    ("crates/refusal/specs/Laws/Answers.antt", "imported", imported),
    ("crates/refusal/specs/Laws/Answers.antt", "listed", listed),
    ("crates/refusal/specs/Laws/Answers.antt", "placed", each("at_number")),
    ("crates/refusal/specs/Laws/Searched.antt", "imported", imported),
    ("crates/refusal/specs/Laws/Searched.antt", "is_listed", each("is_listed")),
    ("crates/refusal/specs/Laws/Searched.antt", "is_named", each("is_named")),
    ("crates/refusal/src/lib.rt", "cases", cases),
    ("crates/refusal/src/lib.rt", "names", name_arms),
    ("crates/refusal/src/lib.rt", "numbers", number_arms),
    ("include/heronspan.h", "numbers", header),
    ("include/heronspan.h", "names", names),
    ("bindings/python/heronspan/__init__.py", "numbers", python),
    ("bindings/rust/src/lib.rs", "numbers", variants),
    ("bindings/rust/src/lib.rs", "names", table),
]


def main():
    rows, texts, faults = refusals(), {}, []
    with open(os.path.join(ROOT, LIST)) as f:
        if not rows or len(rows) != len(re.findall(r"^ +(?:∷ )?row ", f.read(), re.M)):
            sys.exit(f"{LIST}: a row is not a number, a name and a meaning")
    for path, part, make in PARTS:
        if path not in texts:
            with open(os.path.join(ROOT, path)) as f:
                texts[path] = f.read()
        marked = re.compile(rf"([^\n]*made by tools/refusals\.py: {part}\b[^\n]*\n)(.*?)([^\n]*made so far\b)", re.S)
        if len(marked.findall(texts[path])) != 1:
            sys.exit(f"{path}: no part '{part}', or more than one")
        # Empty lines before the part's end are `rt fmt`'s.
        texts[path] = marked.sub(lambda found: found[1] + make(rows).rstrip("\n") + re.search(r"\n*$", found[2])[0] + found[3], texts[path])
    for path, text in texts.items():
        with open(os.path.join(ROOT, path)) as f:
            if f.read() == text:
                continue
        if "--check" in sys.argv:
            faults.append(f"{path} is not what tools/refusals.py writes")
        else:
            with open(os.path.join(ROOT, path), "w") as f:
                f.write(text)
    for fault in faults:
        print(fault, file=sys.stderr)
    sys.exit(1 if faults else 0)


main()
