#!/usr/bin/env python3
"""Stores answers of the Rust's for replay, in oracle/answers.

    oracle/store.py SEED

builds.txt and small.txt hold a question and the Rust's answer by turns; tries.txt holds, for each build in turn, the
answer to the same question as a trace; named.txt holds the smallest inputs of the differences that have a name, four
lines each: name, question, the Rust's answer, the law's answer. Builds and small questions are kept only where the law
gives the Rust's answer, or refuses what the Rust stops at, or where demand 2's exception leaves them out: twentieths.txt holds
each of the last, and the law's answer, by turns.
"""
import os
import sys

import compare
import reference
import asking

HERE = os.path.dirname(os.path.abspath(__file__))
BUILDS, SMALL, LONGEST = 3000, 2000, 600

NAMED = [
    ("no date sorts before every date", "compare 0 693961"),
    ("no date is taken as a date", "fields 0"),
    ("no date is taken as a date", "difference 739252 0"),
    ("no date is an effective date", "build 0 739252 Y 100 2 0 0 0 0 0 0 0"),
    ("a date outside the book", "fields 693960"),
    ("a date outside the book", "build 739252 803169 Y 1 0 0 0 0 0 0 0 0"),
    ("a result outside 1800 to 2399", "dateadvance 803168 D 73049"),
    ("a result outside 1800 to 2399", "make 2400 1 1"),
    ("a result outside 1800 to 2399", "nth 1 1 12 1799"),
    ("a sum that leaves 32 bits", "times D 2 1073741824"),
    ("a sixth Monday", "nth 6 1 3 2025"),
    ("a date that does not exist", "make 2025 2 29"),
    ("reversed dates give one date", "build 739403 739311 M 1 1 0 0 0 0 0 0 0"),
    ("reversed dates give two dates", "build 739252 739251 M 1 3 0 0 0 0 0 0 0"),
    ("reversed dates give two dates under Backward", "build 739253 739252 M 1 1 0 2 0 0 0 0 2 739252 739253"),
    ("crossed anchors give a list out of order", "build 739252 739255 M 1 2 0 0 0 739254 739253 0 0"),
    ("month end with a tenor of weeks gives a list out of order", "build 739282 739297 W 1 2 0 0 1 0 0 0 0"),
    ("month end with a tenor of weeks repeats a date", "build 739098 739129 W 1 1 0 0 1 0 0 0 0"),
    ("a third Wednesday lies after the last date", "build 739420 739442 W 1 5 0 0 0 0 0 0 0"),
    ("third Wednesdays repeat a date", "build 739252 739267 W 1 6 0 0 0 0 0 0 0"),
    ("reversed dates panic under the twentieth rules", "build 739427 739311 M 3 3 0 0 0 0 0 0 0"),
    ("reversed dates panic under ThirdWednesday with a first date", "build 739252 739251 Y 1 5 0 0 0 739266 0 0 0"),
    ("dates in order panic under ThirdWednesdayInclusive", "build 739252 739267 W 2 6 0 0 0 0 0 0 0"),
    ("equal dates panic under OldCDS", "build 739330 739330 M 1 7 0 0 0 0 0 0 0"),
    ("the CDS back-step to the wrong month", "prev20 739366 8"),
    ("the CDS back-step to the wrong month", "build 739366 739605 M 3 8 0 0 0 0 0 0 0"),
    ("the CDS back-step to the wrong month", "build 739366 739311 M 3 8 0 0 0 0 0 0 0"),
    ("the CDS back-step to the wrong month", "build 739396 739311 M 3 8 3 3 0 0 0 0 1 739330"),
    ("the CDS back-step to the wrong month", "build 739366 739605 M 3 8 1 1 0 0 0 0 31 " + " ".join(
        map(str, range(739330, 739361)))),
    ("an accented letter stops the code check", "immcode c3a9 0"),
    ("date takes longer codes", "date 483578 739252"),
    ("date takes longer codes", "nextdatecode 483578 0 739252"),
    ("date takes longer codes", "nextcodecode 483578 0 739252"),
    ("a bad code panics", "date 4135 739252"),
    ("the code of a date that is no IMM date panics", "code 739252"),
    ("the search without end", "adjust 739252 1 126 5 739257 739264 739271 739278 739285"),
    ("the search without end", "build 739252 739252 D 0 0 1 0 0 0 0 126 5 739257 739264 739271 739278 739285"),
    ("a calendar with all seven days closed", "adjust 739252 1 127 0"),
    ("a calendar with all seven days closed", "adjust 739252 0 127 0"),
    ("calendar advance by 0 days leaves a closed day", "advance 739402 D 0 1 0 96 0"),
    ("calendar advance by 0 months gives the month end", "advance 739402 M 0 1 1 96 0"),
    ("a tenor beyond the limits", "build 739252 739252 D 367 1 0 0 0 0 0 0 0"),
    ("a tenor beyond the limits", "advance 739252 D 367 0 0 0 0"),
    ("a list of more than 4,096 dates", None),
]


def long_list():
    """Asked for its length alone: the build of 4,097 dates has a trace."""
    return "trace 739252 743348 D 1 1 0 0 0 0 0 0 0"


def kept(questions, count, group, share):
    """Judged questions, each group and outcome up to its share, until there are enough."""
    run, seen, found = compare.Run(), {}, []
    while len(found) < count:
        batch = [q for q in (next(questions) for _ in range(2000)) if len(q) < 350]
        said = compare.rust(batch)
        for (line, outcome, _), answer in zip(run.judged(batch), said):
            outcome = {"left out": "same"}.get(outcome, outcome.removeprefix("left out: "))
            outcome = "ok" if outcome.startswith("ok") else outcome
            place = group(line), outcome
            same = outcome in ("ok", "same") or " = " in outcome and outcome != "no = panic"
            short = len(line) + len(answer) < LONGEST
            if same and short and seen.get(place, 0) < share(outcome) and len(found) < count:
                seen[place] = seen.get(place, 0) + 1
                found.append((line, answer))
    return found


def law(line):
    """The law's answer in the words of the Rust, which has no unadjusted dates and no moves."""
    answer = reference.answer(line)
    if line.split()[0] in compare.MOVED:
        return reference.dated(answer)
    return reference.paid(answer) if line.startswith("build ") else answer


def write(name, lines):
    with open(os.path.join(HERE, "answers", name), "w", encoding="ascii") as out:
        out.writelines(line + "\n" for line in lines)


def main():
    if len(sys.argv) != 2:
        sys.exit(__doc__.strip())
    seed = sys.argv[1]
    os.makedirs(os.path.join(HERE, "answers"), exist_ok=True)
    q = asking.Questions(f"{seed} stored builds")
    builds = kept(iter(lambda: q.build(longest=40), None), BUILDS, lambda line: line.split()[5],
                  lambda outcome: 225 if outcome == "ok" else 20)
    write("builds.txt", [text for pair in builds for text in pair])
    write("tries.txt", compare.rust(["trace" + line[5:] for line, _ in builds]))
    small = kept(asking.random_questions(f"{seed} stored small", 10**9, asking.SMALL), SMALL,
                 lambda line: line.split()[0], lambda outcome: 85 if outcome == "same" else 12)
    write("small.txt", [text for pair in small for text in pair])
    write("twentieths.txt", [text for line, _ in builds + small if compare.excepted(line.split())
                             for text in (line, law(line))])
    named = [(name, line or long_list()) for name, line in NAMED]
    said = compare.rust([line for _, line in named])
    write("named.txt", [text for (name, line), answer in zip(named, said)
                        for text in (name, line, answer, law(line))])
    print(f"{len(builds)} builds, {len(small)} small questions and {len(named)} named differences stored")


if __name__ == "__main__":
    main()
