#!/usr/bin/env python3
"""Writes the stored answers of the Rust's as the numbers that crates/replay reads.

    oracle/replay.py FOLDER

FOLDER gets data/answers and stdout. The text is words, none of them a number, and then numbers: how many records there
are, and for each record how many numbers follow in it, the kind of the question, and the question's numbers. A signed
number is two, 1 or 0 for below zero or not, and the size.

A build (kind 0) is effective, termination, tenor (signed), unit, rule, convention, termination convention, end of month,
first, next-to-last, mask, how many closed dates and these; then what is to come out: the number of the refusal, the
count, the tries, rule and tenor in force (size, unit), the dates and the flags. The Rust's error has the number that its
text amounts to; its panic is 15, the collapse, and a search stopped after 31 closed days is 13. Of a build that 27 refuses, 27 is
to come out, whatever the Rust says.

Another question is its kind, seven numbers, how many numbers its list has and these; then the number of the refusal, 99
for any where the Rust stops, and the value. Where a count is to come out, it stands with the question's numbers, signed, and
the value is 1.

The differences that have a name come last, each by its smallest input, with the law's answer (oracle/reference.py); and where the
Rust's previous twentieth is another than the law's, what is to come out is the law's answer too (twentieths.txt).
"""
import os
import sys

import reference

HERE = os.path.dirname(os.path.abspath(__file__))
UNITS = {"D": 0, "W": 1, "M": 2, "Y": 3}
ANY = 99


def lines(name):
    with open(os.path.join(HERE, "answers", name)) as f:
        return f.read().split("\n")[:-1]


def pairs(name):
    read = lines(name)
    return zip(read[0::2], read[1::2])


def signed(text):
    n = int(text)
    return [1 if n < 0 else 0, abs(n)]


def built(answer, trace):
    """What is to come out of a build."""
    words, trace = answer.split(), trace.split()
    if words[0] == "ok":
        rule, unit, length, count = int(words[1]), UNITS[words[2]], int(words[3]), int(words[4])
        return [0, count, int(trace[1]), rule, abs(length), unit] + [int(w) for w in words[5:]]
    number = {"panic": 15, "closed": 13}.get(words[0]) or int(words[1] if words[0] == "refused" else trace[1])
    return [number, 0, 0, 0, 0, 0]


def left_out(question):
    """Whether the build is of the class that is not held to the Rust, since 27 refuses it."""
    return reference.answer(question) == f"refused {reference.SHORTEND}"


def build(question, answer, trace):
    if left_out(question):
        answer = f"refused {reference.SHORTEND}"
    w = question.split()
    head = [int(w[1]), int(w[2])] + signed(w[4]) + [UNITS[w[3]]] + [int(x) for x in w[5:12]]
    closed = [int(x) for x in w[13:]]
    assert int(w[12]) == len(closed)
    return [0] + head + [len(closed)] + closed + built(answer, trace)


def code(text):
    return list(bytes.fromhex("" if text == "-" else text))


def expected(answer):
    """The count in an answer, signed."""
    return signed(answer.split()[-1]) if answer[0] in "-0123456789DWMY" else [0, 0]


# The kind of a question, its numbers, and its list.
def asked(words, answer):
    name, rest = words[0], words[1:]
    n = [int(x) if x.lstrip("-").isdigit() else x for x in rest]
    if name in ("make", "dmonthend", "nextweekday", "nth", "compare"):
        return {"make": 1, "dmonthend": 4, "nextweekday": 6, "nth": 7, "compare": 9}[name], n, []
    if name == "difference":
        return 8, n + expected(answer), []
    if name == "dateadvance":
        return 5, [n[0]] + signed(rest[2]) + [UNITS[rest[1]]], []
    if name == "times":
        return 10, signed(rest[1]) + signed(rest[2]) + [UNITS[rest[0]]] + expected(answer), []
    if name in ("adjust", "monthend", "ismonthend"):
        kind, args = {"adjust": (11, 3), "monthend": (12, 2), "ismonthend": (13, 2)}[name]
        return kind, n[:args], n[args + 1:]
    if name == "advance":
        return 14, [n[0]] + signed(rest[2]) + [UNITS[rest[1]]] + n[3:6], n[7:]
    if name in ("immdate", "code", "nextdate", "nextcode", "next20", "prev20"):
        return {"immdate": 15, "code": 16, "nextdate": 17, "nextcode": 18, "next20": 19, "prev20": 20}[name], n, []
    if name == "immcode":
        return 21, [0, n[1]], code(rest[0])
    if name == "date":
        return 22, [n[1], 0], code(rest[0])
    return {"nextdatecode": 23, "nextcodecode": 24}[name], [int(rest[2]), int(rest[1])], code(rest[0])


def value(name, answer):
    """The number of the refusal, and the value."""
    if answer in ("panic", "error", "unasked"):
        return [ANY, 0]
    if answer.startswith("refused"):
        return [int(answer.split()[1]), 0]
    if answer == "closed":
        return [13, 0]
    if name in ("code", "nextcode", "nextcodecode"):
        return [0, ord(answer[0]) * 256 + ord(answer[1])]
    if name in ("difference", "times"):
        return [0, 1]
    if name == "compare":
        return [0, int(answer) + 1]
    return [0, int(answer)]


def record(kind, args, listed, told):
    return [kind] + args + [0] * (7 - len(args)) + [len(listed)] + listed + told


def small(question, answer):
    """The records of a question: one, or two where the answer has a date's fields and its weekday."""
    words = question.split()
    if words[0] == "fields":
        day = [int(words[1])]
        if not answer[0].isdigit():
            return [record(kind, day, [], value("fields", answer)) for kind in (2, 3)]
        year, month, of_month, weekday = (int(x) for x in answer.split())
        return [record(2, day, [], [0, year * 10000 + month * 100 + of_month]), record(3, day, [], [0, weekday])]
    kind, args, listed = asked(words, answer)
    if any(a < 0 for a in args) or len(listed) > 4 and kind >= 21:
        return []
    return [record(kind, args, listed, value(words[0], answer))]


def named(question, law):
    """The records of a difference from the Rust, with the law's answer."""
    if question.startswith("trace "):
        return []
    if not question.startswith("build "):
        return small(question, law)
    return [build(question, law, reference.answer(question.replace("build", "trace", 1)))]


def main():
    folder = sys.argv[1]
    law = dict(pairs("twentieths.txt"))
    records = []
    for (question, answer), trace in zip(pairs("builds.txt"), lines("tries.txt")):
        records += named(question, law[question]) if question in law else [build(question, answer, trace)]
    for question, answer in pairs("small.txt"):
        records += small(question, law.get(question, answer))
    stored = lines("named.txt")
    for question, answer in zip(stored[1::4], stored[3::4]):
        records += named(question, answer)
    os.makedirs(os.path.join(folder, "data"), exist_ok=True)
    with open(os.path.join(folder, "data", "answers"), "w") as f:
        f.write("Answers of the Rust's, made by oracle/replay.py from oracle/answers, which oracle/store.py made.\n")
        f.write(f"{len(records)}\n")
        for r in records:
            f.write(" ".join(str(x) for x in [len(r)] + r) + "\n")
    with open(os.path.join(folder, "stdout"), "w") as f:
        f.write(f"{len(records)} of {len(records)} answers agree\n")


main()
