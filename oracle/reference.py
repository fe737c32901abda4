#!/usr/bin/env python3
"""Document 01's steps, with the landed requests of 02 and the decisions of docs/DECISIONS.md, as a third opinion beside the Rust
and Heronspan.

    oracle/reference.py [--room N] < questions > answers

Reads the questions that target/oracle/ours reads and prints one answer a line: what the function gives, in the same
words, or `refused` and the number. Dates are day numbers, 1 is 0001-01-01; Python's own calendar splits them.
"""
import struct
import sys
from datetime import date as Civil
from functools import lru_cache

FIRST_OF_BOOK, LAST_OF_BOOK = 693961, 803168
FIRST_OF_SPAN, LAST_OF_SPAN = 657072, 876216
PLACES = 4096
SEARCH = 31

UNEVEN, BOOK, CALENDAR, NEGATIVE, TENOR = 1, 2, 3, 4, 5
FIRST_RANGE, FIRST_IMM, FIRST_RULE = 6, 7, 8
LAST_RANGE, LAST_IMM, LAST_RULE = 9, 10, 11
MONTHEND, CLOSED, ROOM, COLLAPSED, CODE, REQUEST = 12, 13, 14, 15, 16, 17
NOTPLAIN = 19
INDEX, SAME, FULL = 21, 22, 23
REVERSED = 26
SHORTEND = 27

ZERO, BACKWARD, FORWARD, TWENTIETH, TWENTIETH_IMM, WEDNESDAY, WEDNESDAY_ALL, OLD_CDS, CDS, CDS2015 = range(10)
UNADJUSTED, FOLLOWING, MODIFIED_FOLLOWING, PRECEDING, MODIFIED_PRECEDING = range(5)

LIMITS = {"D": 366, "W": 520, "M": 1200, "Y": 100}
LETTERS = "FGHJKMNQUVXZ"


class Refused(Exception):
    def __init__(self, number):
        self.number = number


def need(holds, number):
    if not holds:
        raise Refused(number)


# Days

civil = lru_cache(maxsize=1 << 17)(Civil.fromordinal)


def in_book(day):
    return FIRST_OF_BOOK <= day <= LAST_OF_BOOK


def within_span(day):
    need(FIRST_OF_SPAN <= day <= LAST_OF_SPAN, BOOK)
    return day


def weekday(day):
    """Monday 1 to Sunday 7."""
    return (day - 1) % 7 + 1


def leap(year):
    return year % 4 == 0 and (year % 100 != 0 or year % 400 == 0)


def month_length(year, month):
    if month == 2:
        return 29 if leap(year) else 28
    return 30 if month in (4, 6, 9, 11) else 31


def make(year, month, day):
    need(1800 <= year <= 2399 and 1 <= month <= 12 and 1 <= day <= month_length(year, month), BOOK)
    return Civil(year, month, day).toordinal()


def last_of_month(day):
    d = civil(day)
    return day - d.day + month_length(d.year, d.month)


def add_months(day, count):
    d = civil(day)
    months = 12 * d.year + d.month - 1 + count
    year, month = months // 12, months % 12 + 1
    need(1800 <= year <= 2399, BOOK)
    return Civil(year, month, min(d.day, month_length(year, month))).toordinal()


def add(day, unit, count):
    if unit == "D":
        return within_span(day + count)
    if unit == "W":
        return within_span(day + 7 * count)
    return within_span(add_months(day, count if unit == "M" else 12 * count))


def nth_weekday(n, wanted, month, year):
    need(1 <= wanted <= 7 and n >= 1, BOOK)
    first = make(year, month, 1)
    day = first + (wanted - weekday(first)) % 7 + 7 * (n - 1)
    need(day <= last_of_month(first), BOOK)
    return day


def next_weekday(day, wanted):
    need(in_book(day) and 1 <= wanted <= 7, BOOK)
    return day + (wanted - weekday(day)) % 7


# Calendars

class Calendar:
    """Weekly closed days as a mask, and closed dates as they were given."""

    def __init__(self, mask, closed):
        self.mask, self.closed = mask & 127, closed
        self.shut = frozenset(closed)

    def check(self):
        closed = self.closed
        need(self.mask != 127, CALENDAR)
        need(len(closed) <= PLACES and all(a < b for a, b in zip(closed, closed[1:])), CALENDAR)
        need(not closed or FIRST_OF_SPAN <= closed[0] and closed[-1] <= LAST_OF_SPAN, CALENDAR)

    def open(self, day):
        return not self.mask >> (day - 1) % 7 & 1 and day not in self.shut

    def search(self, day, step):
        """The first open day of the thirty-one that start at the day, and how many days it lies after it."""
        for moved in range(0, step * SEARCH, step):
            if self.open(day + moved):
                return within_span(day + moved), moved
        raise Refused(CLOSED)

    def moved(self, day, convention):
        """The adjusted date, and the days that it moved."""
        if convention == UNADJUSTED:
            return day, 0
        step = 1 if convention in (FOLLOWING, MODIFIED_FOLLOWING) else -1
        found, moved = self.search(day, step)
        if convention in (MODIFIED_FOLLOWING, MODIFIED_PRECEDING) and civil(found).month != civil(day).month:
            return self.search(day, -step)
        return found, moved

    def adjust(self, day, convention):
        return self.moved(day, convention)[0]

    def month_end_moved(self, day):
        return self.moved(last_of_month(day), PRECEDING)

    def month_end(self, day):
        return self.month_end_moved(day)[0]

    def at_month_end(self, day):
        return civil(self.adjust(day + 1, FOLLOWING)).month != civil(day).month

    def advance_moved(self, day, unit, length, convention, month_end):
        """The date, and the days that the adjustments on the way to it moved it."""
        if unit == "D":
            if not self.mask and not self.shut:
                return within_span(day + length), 0
            step, over = 1 if length > 0 else -1, 0
            for _ in range(abs(length)):
                day, moved = self.search(day + step, step)
                over += moved
            return day, over
        total = add(day, unit, length)
        if month_end and unit != "W" and self.at_month_end(day):
            return self.month_end_moved(total)
        return self.moved(total, convention)

    def advance(self, day, unit, length, convention, month_end):
        return self.advance_moved(day, unit, length, convention, month_end)[0]


class DeskCalendar(Calendar):
    """For each year the desk's closed dates if it has any there, otherwise the house's."""

    def __init__(self, mask, desk, house):
        super().__init__(mask, ())
        self.lists = desk, house

    def check(self):
        for closed in self.lists:
            Calendar(self.mask, closed).check()

    def run(self, year):
        """The list, 1 for the desk's and 2 for the house's, and the places of the year's entries in it."""
        for which, closed in enumerate(self.lists, 1):
            places = [at for at, day in enumerate(closed) if civil(day).year == year]
            if places:
                return which, places
        return 0, []

    def combined(self):
        """Every date that some run holds, in order."""
        years = sorted({civil(day).year for closed in self.lists for day in closed})
        runs = (self.run(year) for year in years)
        return [self.lists[which - 1][at] for which, places in runs for at in places]

    def open(self, day):
        which, places = self.run(civil(day).year)
        return not self.mask >> (day - 1) % 7 & 1 and day not in [self.lists[which - 1][at] for at in places]


NULL = Calendar(0, ())


# IMM

def is_imm(day, main):
    d = civil(day)
    return weekday(day) == 3 and 15 <= d.day <= 21 and (not main or d.month % 3 == 0)


def third_wednesday(year, month):
    return nth_weekday(3, 3, month, year)


def next_imm(day, main):
    """The earliest IMM date strictly later."""
    d = civil(day)
    year, month = d.year, d.month
    while True:
        if not main or month % 3 == 0:
            found = third_wednesday(year, month)
            if found > day:
                return found
        year, month = (year + 1, 1) if month == 12 else (year, month + 1)


def imm_code(day):
    need(is_imm(day, False), CODE)
    d = civil(day)
    return LETTERS[d.month - 1] + str(d.year % 10)


def split_code(code):
    """The month and the last digit of the year that two bytes name."""
    need(len(code) == 2, CODE)
    letter, digit = chr(code[0]).upper() if code[0] < 128 else "", code[1] - 48
    need(letter and letter in LETTERS and 0 <= digit <= 9, CODE)
    return LETTERS.index(letter) + 1, digit


def imm_date(code, reference):
    """The earliest on or after the reference with that month and last digit of the year."""
    need(in_book(reference), BOOK)
    month, digit = split_code(code)
    year = civil(reference).year
    while year % 10 != digit or third_wednesday(year, month) < reference:
        year += 1
    return third_wednesday(year, month)


def is_imm_code(code, main):
    try:
        month, _ = split_code(code)
    except Refused:
        return False
    return not main or month % 3 == 0


# Twentieths

IMM_MONTHS = TWENTIETH_IMM, OLD_CDS, CDS, CDS2015


def next_twentieth(day, rule):
    d = civil(day)
    found = add_months(make(d.year, d.month, 20), 0 if d.day <= 20 else 1)
    if rule in IMM_MONTHS:
        found = add_months(found, -civil(found).month % 3)
    return found


def twentieth_before(day):
    d = civil(day)
    return add_months(make(d.year, d.month, 20), 0 if d.day >= 20 else -1)


def previous_twentieth(day, rule):
    found = twentieth_before(day)
    if rule in IMM_MONTHS:
        found = add_months(found, -(civil(found).month % 3))
    return found


def rust_previous_twentieth(day, rule):
    """The Rust's step: as many months back as the next IMM month lies ahead."""
    found = twentieth_before(day)
    if rule in IMM_MONTHS:
        found = add_months(found, -(-civil(found).month % 3))
    return found


def twentieths_differ(day, rule):
    """Demand 2's exception: the Rust's previous twentieth is another one."""
    return in_book(day) and previous_twentieth(day, rule) != rust_previous_twentieth(day, rule)


# Schedules

class Build:
    def __init__(self, effective, termination, unit, length, rule, convention, terminal, month_end, first, penultimate,
                 calendar, previous=previous_twentieth):
        self.effective, self.termination = effective, termination
        self.unit, self.length = unit, length
        self.rule, self.convention, self.terminal = rule, convention, terminal
        self.month_end, self.first, self.penultimate = month_end, first, penultimate
        self.calendar, self.previous = calendar, previous
        self.dates, self.flags, self.tries, self.room, self.peak = [], [], 0, PLACES, 0
        self.unadjusted = []  # beside the dates, once these are generated
        self.swayed = False  # whether a convention or end of month changed a candidate, or which of them are kept

    def check(self):
        """Refusals 2 to 12 and 27, in order; the rule in force."""
        need(in_book(self.effective) and in_book(self.termination), BOOK)
        need(self.first == 0 or in_book(self.first), BOOK)
        need(self.penultimate == 0 or in_book(self.penultimate), BOOK)
        self.calendar.check()
        need(self.length >= 0, NEGATIVE)
        need(self.length <= LIMITS[self.unit], TENOR)
        if self.length == 0:
            self.rule = ZERO
        rule, start, end = self.rule, self.effective, self.termination
        plain = rule in (BACKWARD, FORWARD)
        if self.first:
            need(not plain or start < self.first <= end, FIRST_RANGE)
            need(rule != WEDNESDAY or is_imm(self.first, False), FIRST_IMM)
            need(plain or rule == WEDNESDAY, FIRST_RULE)
        if self.penultimate:
            need(not plain or start < self.penultimate < end, LAST_RANGE)
            need(rule != WEDNESDAY or is_imm(self.penultimate, False), LAST_IMM)
            need(plain or rule == WEDNESDAY, LAST_RULE)
        need(not self.month_end or rule in (ZERO, BACKWARD, FORWARD), MONTHEND)
        need(not self.month_end or rule == ZERO or self.unit in "MY", SHORTEND)

    def run(self, room):
        self.check()
        self.room = room
        if self.rule == ZERO:
            self.unit, self.length = "Y", 0
            self.put(self.effective)
            self.put(self.termination, True)
            seed = None
        elif self.rule == BACKWARD:
            seed = self.backward()
        else:
            seed = self.forward()
        self.move(seed)
        self.merge()

    # The list grows at its end in this order; a backward build turns it round when it is done.

    def put(self, day, flag=None):
        need(len(self.dates) < self.room, ROOM)
        self.dates.append(day)
        self.peak = len(self.dates)
        if flag is not None:
            self.flags.append(flag)

    def put_unless_same(self, day, flag, convention):
        adjust = self.calendar.adjust
        differs = adjust(self.dates[-1], convention) != adjust(day, convention)
        if differs:
            self.put(day, flag)
        return differs

    def candidate(self, seed, count):
        return NULL.advance(seed, self.unit, self.length * count, UNADJUSTED, self.month_end)

    def candidates(self, seed, sign, exit_date):
        """Puts the seed plus or minus 1, 2, 3 .. tenors, up to the first beyond the exit date."""
        while True:
            self.tries += 1
            day = self.candidate(seed, sign * self.tries)
            if self.month_end and day != NULL.advance(seed, self.unit, self.length * sign * self.tries, UNADJUSTED, False):
                self.swayed = True
            if sign * (day - exit_date) > 0:
                return
            if not self.put_unless_same(day, True, self.convention):
                self.swayed = True

    def backward(self):
        seed = self.termination
        self.put(seed)
        if self.penultimate:
            self.put(self.penultimate)
            self.flags.append(self.candidate(seed, -1) == self.penultimate)
            seed = self.penultimate
        self.candidates(seed, -1, self.first or self.effective)
        if self.first:
            self.put_unless_same(self.first, False, self.convention)
        self.put_unless_same(self.effective, False, self.convention)
        self.dates.reverse()
        self.flags.reverse()
        return seed

    def forward(self):
        rule, start = self.rule, self.effective
        twentieths = rule in (TWENTIETH, TWENTIETH_IMM, OLD_CDS, CDS, CDS2015)
        if rule in (CDS, CDS2015):
            back = self.previous(start, rule)
            if self.calendar.adjust(back, self.convention) > start:
                self.swayed = True
                self.put(add_months(back, -3))
                self.put(back, True)
            else:
                self.put(back)
        else:
            self.put(start)
        seed = self.dates[-1]
        if self.first:
            self.put(self.first)
            reached = self.calendar.advance(seed, self.unit, self.length, self.convention, self.month_end)
            self.flags.append(reached == self.first)
            seed = self.first
        elif twentieths:
            day = next_twentieth(start, rule)
            if rule == OLD_CDS and day - start < 30:
                day = next_twentieth(day + 1, rule)
            if day != start:
                self.put(day, rule in (CDS, CDS2015))
                seed = day
        self.candidates(seed, 1, self.penultimate or self.termination)
        if self.penultimate:
            self.put_unless_same(self.penultimate, False, self.convention)
        adjust = self.calendar.adjust
        if adjust(self.dates[-1], self.terminal) != adjust(self.termination, self.terminal):
            if twentieths:
                self.put(next_twentieth(self.termination, rule), True)
            else:
                self.put(self.termination, False)
        return seed

    def move(self, seed):
        """Third Wednesdays, first date, last date, middle dates."""
        dates, calendar = self.dates, self.calendar
        middle = range(1, len(dates) - 1)
        for i in {WEDNESDAY: middle, WEDNESDAY_ALL: range(len(dates))}.get(self.rule, ()):
            d = civil(dates[i])
            dates[i] = third_wednesday(d.year, d.month)
        self.unadjusted = list(dates)
        if self.rule != OLD_CDS:
            dates[0] = calendar.adjust(dates[0], self.convention)
        if self.rule not in (CDS, CDS2015):
            dates[-1] = calendar.adjust(dates[-1], self.terminal)
        ends = self.month_end and seed is not None and calendar.at_month_end(seed)
        for i in middle:
            if not ends:
                dates[i] = calendar.adjust(dates[i], self.convention)
            elif self.convention == UNADJUSTED:
                dates[i] = last_of_month(dates[i])
            else:
                dates[i] = calendar.month_end(dates[i])

    def merge(self):
        """The paid dates decide; an entry goes with both its dates."""
        dates, flags, unadjusted = self.dates, self.flags, self.unadjusted
        if len(dates) >= 2 and dates[-2] >= dates[-1]:
            if len(flags) >= 2:
                flags[-2] = dates[-2] == dates[-1]
            del dates[-2], unadjusted[-2]
            del flags[-1]
            need(len(dates) != 2 or dates[1] > dates[0], COLLAPSED)
        if len(dates) >= 2 and dates[1] <= dates[0]:
            flags[1] = dates[1] == dates[0]
            del dates[1], unadjusted[1]
            del flags[0]


# Year fractions: 30E/360 of the 2006 ISDA Definitions, 4.16 (g)

DENOMINATORS = 360, 365, 360


def thirties(start, end):
    (y1, m1, d1), (y2, m2, d2) = ((d.year, d.month, 30 if d.day == 31 else d.day) for d in map(civil, (start, end)))
    return 360 * (y2 - y1) + 30 * (m2 - m1) + d2 - d1


def numerator(basis, start, end):
    return thirties(start, end) if basis == 2 else end - start


def year_parts(basis, start, end):
    within_span(start), within_span(end)
    need(start <= end, REVERSED)
    return numerator(basis, start, end), DENOMINATORS[basis]


def year_report(dates):
    for day in dates:
        within_span(day)
    periods = list(zip(dates, dates[1:]))
    need(all(a <= b for a, b in periods), REVERSED)
    return tuple(sum(numerator(basis, a, b) for a, b in periods) for basis in range(3))


# Questions

# Where bytes that stand for something lie among a question's words, and how many such bytes there are; units are letters.
UNIT = 0
BUILD = ((3, UNIT), (5, 10), (6, 5), (7, 5), (8, 2))
BYTES = {"build": BUILD, "trace": BUILD, "lent": tuple((at + 4, size) for at, size in BUILD),
         "coming": tuple((at + 1, size) for at, size in BUILD),
         "adjust": ((2, 5),), "deskadjust": ((2, 5),), "advance": ((2, UNIT), (4, 5), (5, 2)), "next20": ((2, 10),), "prev20": ((2, 10),),
         "dateadvance": ((2, UNIT),), "times": ((1, UNIT),), "yearparts": ((2, 3),), "yearfraction": ((1, 3),),
         **{kind: ((2, 2),) for kind in "immdate immcode nextdate nextdatecode nextcode nextcodecode".split()}}
RECORD = 7


def outside(words):
    """Whether some byte lies outside its list."""
    return any(words[at] not in LIMITS if size == UNIT else int(words[at]) >= size
               for at, size in BYTES.get(words[0], ()))


class Words:
    def __init__(self, line):
        self.words = line.split()
        self.at = 0

    def word(self):
        self.at += 1
        return self.words[self.at - 1]

    def number(self):
        return int(self.word())

    def book(self):
        day = self.number()
        need(in_book(day), BOOK)
        return day

    def bytes(self):
        word = self.word()
        return b"" if word == "-" else bytes.fromhex(word)

    def dates(self):
        count = self.number()
        self.at += count
        return tuple(map(int, self.words[self.at - count:self.at]))

    def calendar(self):
        return Calendar(self.number(), self.dates())


def read_build(w, previous=previous_twentieth):
    return Build(w.number(), w.number(), w.word(), w.number(), w.number(), w.number(), w.number(), w.number(),
                 w.number(), w.number(), w.calendar(), previous)


def said(b):
    """What a build has come to."""
    moved = max(abs(paid - before) for paid, before in zip(b.dates, b.unadjusted))
    return " ".join(map(str, ["ok", b.rule, b.unit, b.length, len(b.dates), *b.dates, *map(int, b.flags), *b.unadjusted, moved]))


def said_build(b, room):
    b.run(room)
    return said(b)


def paid(answered):
    """A build's answer without its unadjusted dates and how far they moved: the words of the Rust."""
    words = answered.split()
    return " ".join(words[:4 + 2 * int(words[4])]) if words[0] == "ok" else answered


def ask_build(w, room, previous=previous_twentieth):
    return said_build(read_build(w, previous), room)


def ask_trace(w, room):
    b = read_build(w)
    b.run(room)
    return f"ok {b.tries} {b.peak}"


def ask_lent(w):
    """A build into lists of these lengths; the record's own comes before all else."""
    dates, flags, unadjusted, record = w.number(), w.number(), w.number(), w.number()
    need(record >= RECORD, ROOM)
    need(not outside(w.words), REQUEST)
    need(dates == flags == unadjusted, UNEVEN)
    return ask_build(w, min(dates, PLACES))


def first_after(dates, flags, asked):
    """The first date after the asked day, and the flag of the period that it ends; - where it ends none."""
    later = next((i for i, day in enumerate(dates) if day > asked), None)
    if later is None:
        return "none"
    return f"{dates[later]} {int(flags[later - 1]) if later else '-'}"


def ask_coming(w):
    """Of the list with no limit of room; refusals 6 to 12 of its build are 19 here."""
    asked, b = w.number(), read_build(w)
    need(in_book(asked), BOOK)
    rule = b.rule
    try:
        b.check()
    except Refused as refused:
        if refused.number <= TENOR:
            raise
    need(rule in (BACKWARD, FORWARD) and b.length > 0 and b.first == b.penultimate == 0, NOTPLAIN)
    need(b.convention == b.terminal == UNADJUSTED and not b.month_end and b.effective < b.termination, NOTPLAIN)
    b.run(10**9)
    return first_after(b.dates, b.flags, asked)


# The length of a field's body by its tag, or what holds of it.
FOUR, BYTE = (lambda body: len(body) == 4), (lambda size: lambda body: len(body) == 1 and body[0] < size)
FIELDS = {1: FOUR, 2: FOUR, 3: lambda body: len(body) == 3 and chr(body[0]) in LIMITS, 4: BYTE(10), 5: BYTE(5), 6: BYTE(5),
          7: BYTE(2), 8: FOUR, 9: FOUR, 10: BYTE(128), 11: lambda body: len(body) <= 4 * PLACES and len(body) % 4 == 0}
LONGEST, END = 20000, 255


def read_request(data):
    """The build that request bytes ask for."""
    need(len(data) <= LONGEST, REQUEST)
    fields, at, last = {}, 0, 0
    while True:
        need(at + 3 <= len(data), REQUEST)
        tag, size = data[at], data[at + 1] << 8 | data[at + 2]
        body = data[at + 3:at + 3 + size]
        at += 3 + size
        need(tag > last and at <= len(data), REQUEST)
        if tag == END:
            break
        need(tag in FIELDS and FIELDS[tag](body), REQUEST)
        fields[tag], last = body, tag
    need(size == 0 and at == len(data) and 1 in fields and 2 in fields, REQUEST)

    def number(tag, default=0):
        return int.from_bytes(fields[tag], "big") if tag in fields else default

    tenor, closed = fields.get(3, b"D\0\0"), fields.get(11, b"")
    shut = tuple(int.from_bytes(closed[i:i + 4], "big") for i in range(0, len(closed), 4))
    return Build(number(1), number(2), chr(tenor[0]), int.from_bytes(tenor[1:], "big", signed=True), number(4, BACKWARD),
                 number(5), number(6), number(7), number(8), number(9), Calendar(number(10), shut))


def ask_bytes(w):
    dates, flags, unadjusted, record = w.number(), w.number(), w.number(), w.number()
    need(record >= RECORD, ROOM)
    build = read_request(w.bytes())
    need(dates == flags == unadjusted, UNEVEN)
    return said_build(build, min(dates, PLACES))


def ask_check(w):
    w.calendar().check()
    return 0


def ask_open(w):
    day, calendar = w.book(), w.calendar()
    calendar.check()
    return int(calendar.open(day))


def with_move(answer):
    return "%d %d" % answer


def dated(answered):
    """An answer of a date and a move without the move: the words of the Rust."""
    return answered if answered.startswith("refused") else answered.split()[0]


def ask_adjust(w):
    day, convention, calendar = w.book(), w.number(), w.calendar()
    calendar.check()
    return with_move(calendar.moved(day, convention))


def ask_deskrun(w):
    year, calendar = w.number(), DeskCalendar(0, w.dates(), w.dates())
    calendar.check()
    need(1800 <= year <= 2399, BOOK)
    which, places = calendar.run(year)
    return f"{len(places)} {which} {places[0] if places else 0}"


def ask_deskcombine(w):
    room, calendar = w.number(), DeskCalendar(0, w.dates(), w.dates())
    calendar.check()
    dates = calendar.combined()
    need(len(dates) <= 4096, FULL)
    need(len(dates) <= room, ROOM)
    return " ".join(map(str, [len(dates), *dates]))


def ask_deskadjust(w):
    day, convention, calendar = w.book(), w.number(), DeskCalendar(w.number(), w.dates(), w.dates())
    calendar.check()
    return with_move(calendar.moved(day, convention))


def ask_monthend(w):
    day, calendar = w.book(), w.calendar()
    calendar.check()
    return with_move(calendar.month_end_moved(day))


def ask_ismonthend(w):
    day, calendar = w.number(), w.calendar()
    need(day == 0 or in_book(day), BOOK)
    calendar.check()
    return int(day != 0 and calendar.at_month_end(day))


def ask_advance(w):
    day, unit, length, convention, month_end = w.book(), w.word(), w.number(), w.number(), w.number()
    calendar = w.calendar()
    calendar.check()
    need(abs(length) <= LIMITS[unit], TENOR)
    return with_move(calendar.advance_moved(day, unit, length, convention, month_end))


def ask_nextdatecode(w):
    code, main, day = w.bytes(), w.number(), w.number()
    return next_imm(imm_date(code, day), main)


def ask_nextcodecode(w):
    return imm_code(ask_nextdatecode(w))


def ask_nth(w):
    n, wanted, month, year = w.number(), w.number(), w.number(), w.number()
    need(1800 <= year <= 2399 and 1 <= month <= 12, BOOK)
    return nth_weekday(n, wanted, month, year)


def ask_fields(w):
    day = w.book()
    d = civil(day)
    return f"{d.year} {d.month} {d.day} {weekday(day)}"


def ask_compare(w):
    a, b = w.book(), w.book()
    return (a > b) - (a < b)


def ask_yearfraction(w):
    """The bits of Python's own quotient of two whole numbers, which is the nearest float."""
    above, below = year_parts(w.number(), w.number(), w.number())
    return struct.pack(">d", above / below).hex()


def ask_yearparts(w):
    """Into a list of that many places, which is looked at before all else."""
    places = w.number()
    need(places >= 2, ROOM)
    need(not outside(w.words), REQUEST)
    return "{} {}".format(*year_parts(w.number(), w.number(), w.number()))


def ask_yearreport(w):
    need(w.number() >= 3, ROOM)
    return "{} {} {}".format(*year_report([w.number() for _ in range(w.number())]))


def ask_times(w):
    unit, length, count = w.word(), w.number(), w.number()
    need(-2**31 <= length * count < 2**31, TENOR)
    return f"{unit} {length * count}"


# Open days by an index (request L9), day by day. A question says how many places the lent index has; ours is asked with the index that
# it made of the calendar.

COUNTS = 601


def year_start(place):
    return Civil(1800 + place, 1, 1).toordinal()


def counts_of(calendar):
    """The 601 running counts, as one number: place by place, times 31, of 32 bits."""
    digest = count = 0
    for place in range(COUNTS):
        digest = (digest * 31 + count) % 2**32
        if place < COUNTS - 1:
            count += sum(map(calendar.open, range(year_start(place), year_start(place + 1))))
    return digest


def index_calendar(w):
    """The calendar, and the number of places, checked in the table's order."""
    places, calendar = w.number(), w.calendar()
    calendar.check()
    need(places == COUNTS, INDEX)
    return calendar


def ask_ixmake(w):
    return counts_of(index_calendar(w))


def ask_ixcount(w):
    first, last = w.number(), w.number()
    calendar = index_calendar(w)
    need(in_book(first) and in_book(last), BOOK)
    return sum(map(calendar.open, range(first, last)))


def ask_ixnth(w):
    day, n = w.number(), w.number()
    calendar = index_calendar(w)
    need(in_book(day), BOOK)
    need(1 <= n <= 366, TENOR)
    while n:
        day += 1
        n -= calendar.open(day)
    return within_span(day)


def ask_ixadd(w):
    day = w.number()
    calendar = index_calendar(w)
    need(FIRST_OF_SPAN <= day <= LAST_OF_SPAN, BOOK)
    need(calendar.open(day), SAME)
    need(len(calendar.closed) < PLACES, FULL)
    return counts_of(Calendar(calendar.mask, tuple(sorted((*calendar.closed, day)))))


def ask_ixremove(w):
    day = w.number()
    calendar = index_calendar(w)
    need(FIRST_OF_SPAN <= day <= LAST_OF_SPAN, BOOK)
    need(day in calendar.shut, SAME)
    return counts_of(Calendar(calendar.mask, tuple(closed for closed in calendar.closed if closed != day)))


ASK = {
    "ixmake": ask_ixmake,
    "ixcount": ask_ixcount,
    "ixnth": ask_ixnth,
    "ixadd": ask_ixadd,
    "ixremove": ask_ixremove,
    "bytes": ask_bytes,
    "coming": ask_coming,
    "check": ask_check,
    "open": ask_open,
    "adjust": ask_adjust,
    "deskrun": ask_deskrun,
    "deskadjust": ask_deskadjust,
    "deskcombine": ask_deskcombine,
    "monthend": ask_monthend,
    "ismonthend": ask_ismonthend,
    "advance": ask_advance,
    "next20": lambda w: next_twentieth(w.book(), w.number()),
    "prev20": lambda w: previous_twentieth(w.book(), w.number()),
    "immdate": lambda w: int(is_imm(w.book(), w.number())),
    "immcode": lambda w: int(is_imm_code(w.bytes(), w.number())),
    "code": lambda w: imm_code(w.book()),
    "date": lambda w: imm_date(w.bytes(), w.number()),
    "nextdate": lambda w: next_imm(w.book(), w.number()),
    "nextdatecode": ask_nextdatecode,
    "nextcode": lambda w: imm_code(next_imm(w.book(), w.number())),
    "nextcodecode": ask_nextcodecode,
    "dateadvance": lambda w: add(w.book(), w.word(), w.number()),
    "nth": ask_nth,
    "nextweekday": lambda w: next_weekday(w.number(), w.number()),
    "dmonthend": lambda w: last_of_month(w.book()),
    "make": lambda w: make(w.number(), w.number(), w.number()),
    "fields": ask_fields,
    "difference": lambda w: w.book() - w.book(),
    "compare": ask_compare,
    "times": ask_times,
    "yearfraction": ask_yearfraction,
    "yearreport": ask_yearreport,
}


def answer(line, room=PLACES, previous=previous_twentieth):
    w = Words(line)
    kind = w.word()
    try:
        if kind in ("lent", "yearparts"):
            return ask_lent(w) if kind == "lent" else ask_yearparts(w)
        need(not outside(w.words), REQUEST)
        if kind == "build":
            return ask_build(w, room, previous)
        if kind == "trace":
            return ask_trace(w, room)
        return str(ASK[kind](w))
    except Refused as refused:
        return f"refused {refused.number}"


def main():
    room = PLACES
    if sys.argv[1:2] == ["--room"] and len(sys.argv) == 3:
        room = min(int(sys.argv[2]), PLACES)
    elif sys.argv[1:]:
        sys.exit("usage: reference.py [--room N] < questions > answers")
    for line in sys.stdin:
        print(answer(line, room))


if __name__ == "__main__":
    main()
