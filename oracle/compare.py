#!/usr/bin/env python3
"""Asks the Rust, the law and ours the same questions, and says where they differ.

    oracle/compare.py [WORDS] random SEED BUILDS SMALL [KIND ..]     that many random builds and small questions
    oracle/compare.py [WORDS] systematic [KIND ..]                   every day, month and code; a grid of builds

    --room            each build is asked of ours and the law a second time, into lists of other lengths, often too short
    --without-ours    the library is not built here: the Rust and the law alone
    --ours=PROGRAM    another program of target/oracle in the place of `ours`
    --no-exception    demand 2 without its exception, below: the run ends at the first CDS build that differs

The law is oracle/reference.py; ours is the library, asked by oracle/ours through the functions that customers call. A
build is asked twice: for its list, and for its tries and the least room that suffices. Ours and the law must agree
wholly. A difference between them and the Rust must be one of those that have a name here. The first that is neither is
printed and ends the run with status 1. The closing tables count outcomes, and give each name its smallest input. Names
marked (shared) are of what the law takes over from the Rust.

The Rust has no unadjusted dates. Ours and the law must agree on them too, and there is a check by the Rust's own lists: without
conventions and end of month an accepted build's unadjusted dates are its dates; another build's are the dates of the same
request so asked (`unmoved`), where no candidate was skipped or changed, nothing merged in either, and both have as many dates.
Outcomes say which builds were held to that, "third list too".

Nor has it moves. Ours and the law must agree on the days that a date moved, and where the Rust answers the same date, they are that date less
the day that it moved from (`base`).

Demand 2's exception is a test of a question: it asks for the previous twentieth, or a build with CDS or CDS2015 in force, and
the Rust's previous twentieth of the day is another than the law's. Its outcomes begin "left out"; ours is held to the law there
as everywhere, and the Rust to the law with the Rust's step back.
"""
import itertools
import os
import subprocess
import sys
import time
from collections import Counter
from concurrent.futures import ThreadPoolExecutor

import reference
import asking
from reference import Refused

BUILT = os.path.join(os.path.dirname(os.path.abspath(__file__)), "..", "target", "oracle")
# Questions whose answer has the days that a date moved.
MOVED = ("adjust", "monthend", "advance", "deskadjust")
BATCH = 2000
EVERY = 10  # seconds between lines of progress
RULES = "Zero Backward Forward Twentieth TwentiethIMM ThirdWednesday ThirdWednesdayInclusive OldCDS CDS CDS2015".split()
TODAY = 739252  # 2025-01-01, which smallest inputs are drawn to

# Positions of dates among a question's words.
DATES = {"build": (1, 2, 9, 10), "trace": (1, 2, 9, 10), "coming": (1, 2, 3), "date": (2,), "nextdatecode": (3,), "nextcodecode": (3,),
         "difference": (1, 2), "compare": (1, 2), "nth": (), "make": (), "times": (), "immcode": (), "check": (), "ixcount": (1, 2), "ixmake": (),
         "deskrun": (), "deskcombine": ()}
# Where the calendar starts.
CALENDAR = {"build": 11, "trace": 11, "coming": 12, "lent": 15, "check": 1, "open": 2, "adjust": 3, "monthend": 2, "ismonthend": 2, "advance": 6,
            "ixmake": 2, "ixcount": 4, "ixnth": 4, "ixadd": 3, "ixremove": 3}


def answers(program, lines, timeout=None):
    if not lines:
        return []
    done = subprocess.run([os.path.join(BUILT, program)], input="\n".join(lines) + "\n", capture_output=True, text=True,
                          timeout=timeout)
    said = done.stdout.split("\n")[:-1]
    if done.returncode or len(said) != len(lines):
        raise Differs(f"{lines[min(len(said), len(lines) - 1)]}\n    {program} stopped here: {done.stderr.strip()}")
    return said


def rust(lines, timeout=None):
    return answers("oracle", lines, timeout)


def of_rust(line):
    """Whether the Rust can be asked: it has no lent lists, no request bytes, no calendar check, no byte outside a list. Of a coming
    date it is asked the build, where the question is answered. It has no year fractions."""
    words = line.split(None, 10)
    if words[0] == "coming":
        return not reference.answer(line).startswith("refused")
    if words[0] == "ixcount":
        return not reference.answer(line).startswith("refused")
    ours_alone = ("lent", "bytes", "check", "ixmake", "ixnth", "ixadd", "ixremove", *asking.DESK, *asking.YEARS)
    return words[0] not in ours_alone and not reference.outside(words)


def rust_line(line):
    return "build " + line.split(None, 2)[2] if line.startswith("coming ") else line


def trace(line):
    return "trace" + line[5:]


def traces(lines):
    return [trace(line) for line in lines if line.startswith("build ")]


def unmoved(line):
    """The same build with both conventions Unadjusted and end of month off."""
    words = line.split(None, 9)
    return " ".join([*words[:6], "0", "0", "0", *words[9:]])


class Differs(Exception):
    """The answers differ in a way that has no name."""


def stopped(number, words):
    """The name of what 01 refuses on sight and the Rust takes."""
    kind = words[0]
    if number == 2:
        days = [int(words[i]) for i in DATES.get(kind, (1,))]
        if kind == "compare" and 0 in days:
            return "no date sorts before every date"
        if kind in ("build", "trace"):
            days = days[:2] + [d for d in days[2:] if d]
        if 0 in days:
            return "no date is taken as a date"
        if not all(map(reference.in_book, days)):
            return "a date outside the book"
        if kind in ("dateadvance", "nth", "make"):
            return "a result outside 1800 to 2399"
    if number == 3:
        at = CALENDAR[kind]
        if int(words[at]) & 127 == 127:
            return "a calendar with all seven days closed"
        if int(words[at + 1]) > 4096:
            return "more than 4,096 closed dates"
        return "closed dates out of order"
    if number == 5 and kind != "times":
        return "a tenor beyond the limits"
    return None


def agree(law, own):
    """Ours is what the law says, where ours was asked."""
    if own is not None and own != law:
        raise Differs(f"ours: {own}\n    the law: {law}")


def excepted(words):
    """Demand 2's exception."""
    if words[0] == "prev20":
        return reference.twentieths_differ(int(words[1]), int(words[2]))
    return (words[0] == "build" and int(words[5]) in (reference.CDS, reference.CDS2015) and words[4] != "0"
            and reference.twentieths_differ(int(words[1]), int(words[5])))


def judge_build(line, theirs, mine, exception):
    """Outcome, and the names that the question falls under; theirs and mine are the answers to all that was asked."""
    own, own_traced = mine.get(line), mine.get(trace(line))
    if not exception or not excepted(line.split(None, 6)):
        return hold_build(line, theirs, own, own_traced, reference.previous_twentieth)
    law = reference.answer(line)
    agree(law, own)
    agree(reference.answer(trace(line)), own_traced)
    outcome, _ = hold_build(line, theirs, None, None, reference.rust_previous_twentieth)
    same = reference.paid(law) == reference.paid(reference.answer(line, previous=reference.rust_previous_twentieth))
    return f"left out: {outcome.split(',')[0]}", [f"the CDS back-step to the wrong month: a build, {'the same' if same else 'another'} answer"]


def shown(line, build, theirs):
    """Whether the Rust's own list of the request without conventions and end of month shows the unadjusted dates, which are held to it."""
    other = unmoved(line)
    said = theirs[other].split()
    if other != line:
        if build.swayed or said[0] != "ok" or not len(build.dates) == build.peak == int(said[4]) == int(theirs[trace(other)].split()[2]):
            return False
    given = list(map(int, said[5:5 + int(said[4])]))
    if build.unadjusted != given:
        raise Differs(f"unadjusted dates: {build.unadjusted}\n    the Rust's dates of {other}: {given}")
    return True


def hold_build(line, theirs, own, own_traced, previous):
    """The Rust and ours are held to the law with that step back to the previous twentieth."""
    words = line.split()
    names = []
    said, traced = theirs[line], theirs[trace(line)]
    ends = traced.split()
    build = reference.read_build(reference.Words(line[6:]), previous)
    try:
        build.run(reference.PLACES)
    except Refused as refused:
        number = refused.number
        agree(f"refused {number}", own)
        agree(f"refused {number}", own_traced)
        if number in (2, 3, 5):
            name = stopped(number, words)
            return f"refused {number}", [f"{name}: the Rust's {said.split()[0]}"]
        if number == reference.SHORTEND:
            return "refused 27, not held to the Rust", [f"end of month with a tenor in days or weeks: the Rust's {said.split()[0]}"]
        if number in (4, 6, 7, 8, 9, 10, 11, 12):
            if said != "error" or traced != f"error {number}":
                raise Differs(f"{traced}, refused {number}")
            return f"refused {number} = error", []
        if number == 13:
            if said != "closed" or ends[0] != "closed":
                raise Differs(f"{said}, refused 13")
            return "refused 13 = closed", ["a search that finds none of its 31 days open"]
        if number == 14:
            if ends[0] == "error" or int(ends[2]) <= reference.PLACES:
                raise Differs(f"{traced}, refused 14")
            wide = reference.paid(reference.answer(line, 10**9, previous))
            if said != wide and (wide, said) not in (("refused 13", "closed"), ("refused 15", "panic")):
                raise Differs(f"{said}, without limit {wide}")
            return "refused 14", ["a list of more than 4,096 dates"]
        if said != "panic" or ends[0] != "panic":
            raise Differs(f"{said}, refused {number}")
        if build.termination < build.effective:
            group = "Twentieth" if build.rule in (3, 4, 7, 8, 9) else RULES[build.rule]
            return "refused 15 = panic", [f"reversed dates panic: {group}"]
        return "refused 15 = panic", [f"a merge panics: {RULES[build.rule]}"]
    whole = reference.said(build)
    given, ended = reference.paid(whole), f"ok {build.tries} {build.peak}"
    agree(whole, own)
    agree(ended, own_traced)
    if said != given or traced != ended:
        raise Differs(f"the Rust: {said} / {traced}\n    the law: {given} / {ended}")
    steps = [b - a for a, b in zip(build.dates, build.dates[1:])]
    if len(build.dates) == 1 and build.termination < build.effective:
        names.append("(shared) reversed dates give one date")
    if len(build.dates) > 1 and build.termination < build.effective:
        names.append(f"(shared) reversed dates give two dates or more: {RULES[build.rule]}")
    if any(s < 0 for s in steps):
        names.append(f"(shared) a list out of order: {RULES[build.rule]}")
    if any(s == 0 for s in steps):
        names.append(f"(shared) a list that repeats a date: {RULES[build.rule]}")
    return "ok, third list too" if shown(line, build, theirs) else "ok", names


def judge_coming(line, said, own):
    """What the Rust's own list shows."""
    words, expected = line.split(), reference.answer(line)
    agree(expected, own)
    if said is None:
        return "ours = the law, " + expected, []
    given = said.split()
    count = int(given[4]) if given[0] == "ok" else 0
    numbers = list(map(int, given[5:]))
    shown = reference.first_after(numbers[:count], numbers[count:], int(words[1]))
    if not count or shown != expected:
        raise Differs(f"the Rust's list: {shown}\n    the law: {expected}")
    return "what the Rust's list shows", []


def base(words):
    """The day that a date moved from: the day given, its month's last, or the sum, with its month's last where the month end is given."""
    day, kind = int(words[1]), words[0]
    if kind == "monthend":
        return reference.last_of_month(day)
    if kind != "advance":
        return day
    total = reference.add(day, words[2], int(words[3]))
    calendar = reference.Words(" ".join(words[6:])).calendar()
    at_end = words[2] in "MY" and words[5] == "1" and calendar.at_month_end(day)
    return reference.last_of_month(total) if at_end else total


def judge_small(line, said, own, exception):
    """The Rust's answer is None where it cannot be asked."""
    words, names = line.split(), []
    kind = words[0]
    expected = answered = reference.answer(line)
    agree(expected, own)
    if kind in MOVED:
        expected = reference.dated(answered)
    if said is None:
        return "ours = the law, " + (expected if expected.startswith("refused") else "given"), []
    if kind == "ixcount" and said != expected:
        if said == "closed":
            return "a closed run stops the Rust's count here", []
        if expected == "0" and int(words[2]) < int(words[1]) and int(said) < 0:
            return "0, the Rust counts back", ["open days between reversed dates"]
    if said == "unasked":
        if expected != "0" and not expected.startswith("refused"):
            raise Differs(f"{said}, {expected}")
        return "unasked", []
    if kind == "advance" and words[3] == "0" and not expected.startswith("refused"):
        calendar = reference.Words(" ".join(words[6:])).calendar()
        try:
            if str(calendar.adjust(int(words[1]), int(words[4]))) != said:
                names.append(f"calendar advance by 0 against 01's words: {words[2]}")
        except Refused:
            names.append(f"calendar advance by 0 against 01's words: {words[2]}, 13")
    if exception and excepted(words):
        step = str(reference.rust_previous_twentieth(int(words[1]), int(words[2])))
        if said != step:
            raise Differs(f"the Rust: {said}\n    the law with the Rust's step: {step}")
        return "left out", ["the CDS back-step to the wrong month: prev20"]
    if said == expected:
        if kind in MOVED and int(said) - base(words) != int(answered.split()[1]):
            raise Differs(f"the Rust: {said}, from {base(words)}\n    the law: {answered}")
        return "same", names
    if expected.startswith("refused"):
        number = int(expected.split()[1])
        if number == 13 and said == "closed":
            return "refused 13 = closed", ["a search that finds none of its 31 days open"]
        name = stopped(number, words)
        if name and not (number == 2 and said in ("panic", "error")):
            return f"refused {number}", [f"{name}: {kind}"]
        if said in ("panic", "error") and number in (2, 5, 16):
            return f"refused {number} = {said}", []
        if number == 16 and kind in ("date", "nextdatecode", "nextcodecode") and len(words[1]) > 4:
            return "refused 16", [f"a code of three bytes or more is taken: {kind}"]
    if kind == "immcode" and said == "panic" and expected == "0" and int(words[1][:2], 16) > 127 and len(words[1]) == 4:
        return "no = panic", ["a two-byte letter stops the code check"]
    raise Differs(f"the Rust: {said}\n    the law: {expected}")


def size(line):
    """Smaller for fewer words, smaller fields, and dates near to today and each other."""
    words = line.split()
    kind = words[0]
    at = CALENDAR.get(kind)
    closed = int(words[at + 1]) if at else 0
    mask = int(words[at]).bit_count() if at else 0
    if kind in ("build", "trace"):
        start, end = int(words[1]), int(words[2])
        fields = sum(w != "0" for w in words[6:11])
        return closed, mask, fields, abs(int(words[4])), abs(end - start), abs(start - TODAY), line
    numbers = [abs(int(w)) if i not in DATES.get(kind, (1,)) else abs(int(w) - TODAY) if int(w) else 0
               for i, w in enumerate(words[:at]) if w.lstrip("-").isdigit()]
    return closed, mask, len(line) if at is None else 0, sum(numbers), line


def smaller(line):
    """Questions one step smaller."""
    words = line.split()
    kind = words[0]
    tries = []

    def with_word(i, value):
        if words[i] != str(value):
            tries.append([*words[:i], str(value), *words[i + 1:]])

    at = CALENDAR.get(kind)
    if at:
        closed = words[at + 2:]
        for piece in {len(closed), len(closed) // 2, 1} - {0}:
            for start in range(0, len(closed), piece) if piece > 1 or len(closed) < 80 else ():
                left = closed[:start] + closed[start + piece:]
                tries.append([*words[:at + 1], str(len(left)), *left])
        with_word(at, 0)
        with_word(at, 96)
    if kind in ("build", "trace") and all(reference.in_book(int(words[i])) for i in (1, 2)):
        for i in range(6, 11):
            with_word(i, 0)
        length, start, end = int(words[4]), int(words[1]), int(words[2])
        for value in {1, length // 2, length - 1}:
            if abs(value) < abs(length):
                with_word(4, value)
        for value in {start + (end - start) // 2, end - (end > start) + (end < start), start + (end - start) * 9 // 10}:
            with_word(2, value)
        if TODAY - start:
            shift = TODAY - start
            for move in {shift, shift // 2, shift // 146097 * 146097}:
                moved = list(words)
                for i in (*DATES[kind], *range(13, len(words))):
                    if int(moved[i]):
                        moved[i] = str(int(moved[i]) + move)
                tries.append(moved)
    elif kind not in ("build", "trace"):
        for i in DATES.get(kind, (1,)):
            for value in (TODAY, TODAY + 30, (int(words[i]) + TODAY) // 2):
                if int(words[i]):
                    with_word(i, value)
        if at and int(words[1]) and TODAY - int(words[1]):
            for move in {TODAY - int(words[1]), (TODAY - int(words[1])) // 2}:
                tries.append([words[0], str(int(words[1]) + move), *words[2:at + 2],
                              *(str(int(c) + move) for c in words[at + 2:])])
    mine = size(line)
    return sorted({t for t in map(" ".join, tries) if size(t) < mine}, key=size)


def cut(text):
    return text if len(text) <= 200 else text[:200] + " .."


class Run:
    def __init__(self, ours=None, exception=True):
        self.outcomes, self.names, self.small = Counter(), Counter(), {}
        self.asked, self.start, self.told = Counter(), time.time(), time.time()
        self.ours, self.exception = ours, exception

    def asking(self, pool, lines, timeout=None):
        """The lines, and what the Rust and ours are asked and will have answered: the lines, the traces of their builds, and the Rust
        the builds without conventions and end of month too."""
        asked = [line for line in lines if of_rust(line)]
        others = [unmoved(line) for line in asked if line.startswith("build ") and unmoved(line) != line]
        more = traces(asked) + others + traces(others)
        of_us = lines + traces(lines) if self.ours else []
        return (lines, asked + more, pool.submit(rust, [rust_line(line) for line in asked] + more, timeout),
                of_us, pool.submit(answers, self.ours, of_us, timeout))

    def judging(self, lines, asked, said, of_us, own):
        """Outcome and names of each line; raises on a difference without a name."""
        theirs, mine = dict(zip(asked, said.result())), dict(zip(of_us, own.result()))
        for line in lines:
            try:
                if line.startswith("build ") and line in theirs:
                    yield line, *judge_build(line, theirs, mine, self.exception)
                elif line.startswith("coming "):
                    yield line, *judge_coming(line, theirs.get(line), mine.get(line))
                else:
                    if line.startswith("build "):
                        agree(reference.answer(line), mine.get(trace(line)))
                    yield line, *judge_small(line, theirs.get(line), mine.get(line), self.exception)
            except Differs as differs:
                raise Differs(f"{line}\n    {differs}") from None

    def judged(self, lines, timeout=None):
        with ThreadPoolExecutor(2) as pool:
            yield from self.judging(*self.asking(pool, list(lines), timeout))

    def compare(self, questions):
        """While one batch is judged the next is being answered."""
        questions = iter(questions)
        with ThreadPoolExecutor(2) as pool:
            ahead = None
            while (batch := list(itertools.islice(questions, BATCH))) or ahead:
                ready, ahead = ahead, self.asking(pool, batch) if batch else None
                if ready:
                    self.count(ready)

    def count(self, ready):
        for line, outcome, names in self.judging(*ready):
            words = line.split(None, 6)
            kind = words[0]
            self.asked[kind] += 1
            inside = kind == "build" and int(words[5]) < len(RULES)
            row = f"build {RULES[int(words[5])]}" if inside else kind
            self.outcomes[row, outcome] += 1
            for name in names:
                self.names[name] += 1
                if name not in self.small or size(line) < size(self.small[name]):
                    self.small[name] = line
        if time.time() > self.told + EVERY:
            self.told = time.time()
            print(f"{sum(self.asked.values())} questions, {self.asked['build']} of them builds, "
                  f"{self.told - self.start:.0f} s", file=sys.stderr, flush=True)

    def shrink(self, name):
        line, end = self.small[name], time.time() + 2
        while time.time() < end:
            tries = smaller(line)[:60]
            if not tries:
                break
            try:
                line = next(t for t, _, names in self.judged(tries, 1) if name in names)
            except (Differs, StopIteration, subprocess.TimeoutExpired):
                break
        return line

    def report(self):
        took = time.time() - self.start
        print(f"kind, outcome ({'ours and ' if self.ours else ''}the law = the Rust), questions")
        for (row, outcome), count in sorted(self.outcomes.items()):
            print(f"  {row:34} {outcome:32} {count:9}")
        print("differences by name, times met, smallest input")
        for name in sorted(self.names):
            line = self.shrink(name)
            print(f"  {name}: {self.names[name]}")
            print(f"      {cut(line)} -> {cut(rust([line])[0])} | {cut(reference.answer(line))}")
        builds, total = self.asked["build"], sum(self.asked.values())
        left = {kind: sum(n for (row, outcome), n in self.outcomes.items() if outcome.startswith("left out") and row.split()[0] == kind)
                for kind in ("build", "prev20")}
        print(f"left out by demand 2's exception: {left['build']} builds and {left['prev20']} previous twentieths")
        told, held = (sum(n for (_, outcome), n in self.outcomes.items() if outcome.startswith(what)) for what in ("ok, third list too", "ok"))
        print(f"unadjusted dates held to the Rust's own lists: those of {told} of the {held} builds given and not left out")
        print(f"{builds} builds and {total - builds} small questions in {took:.0f} s: no difference without a name"
              + (", none between ours and the law" if self.ours else "; ours was left out"))


def small_lent(build, at):
    """The build into lists of another length: 0 to 14 by turns, seldom of two or three lengths or with a short record."""
    dates = at % 15
    flags = dates + (at % 89 == 0)
    unadjusted = dates + (at % 83 == 0)
    record = 5 if at % 97 == 0 else 6
    return f"lent {dates} {flags} {unadjusted} {record}{build[5:]}"


def with_rooms(questions):
    for at, line in enumerate(questions):
        yield line
        if line.startswith("build "):
            yield small_lent(line, at)


def questions_of(args, kinds):
    if len(args) >= 4 and args[0] == "random" and set(args[4:]) <= {*kinds, *asking.INDEX}:
        builds = asking.random_questions(f"{args[1]} builds", int(args[2]), ["build"])
        small = asking.random_questions(f"{args[1]} small", int(args[3]), args[4:] or kinds)
        return itertools.chain(builds, small)
    if args[:1] == ["systematic"] and set(args[1:]) <= set(asking.SYSTEMATIC):
        return asking.systematic_questions(args[1:])
    sys.exit(__doc__.strip())


def main():
    words = {word for word in sys.argv[1:] if word.startswith("--")}
    args = [word for word in sys.argv[1:] if word not in words]
    program = next((word[7:] for word in words if word.startswith("--ours=")), "ours")
    if not words <= {"--room", "--without-ours", "--no-exception", f"--ours={program}"}:
        sys.exit(__doc__.strip())
    kinds = [*asking.SMALL, *asking.MORE]
    if "--without-ours" in words:
        program, kinds = None, [*asking.SMALL, "open"]
    elif not os.path.exists(os.path.join(BUILT, program)):
        sys.exit(f"compare: missing target/oracle/{program} (oracle/build makes it; --without-ours leaves it out)")
    questions = questions_of(args, kinds)
    run = Run(program, "--no-exception" not in words)
    try:
        run.compare(with_rooms(questions) if program and "--room" in words else questions)
    except Differs as differs:
        print(f"differs: {differs}")
        sys.exit(1)
    run.report()


if __name__ == "__main__":
    main()
