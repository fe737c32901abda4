#!/usr/bin/env python3
"""Writes questions for target/oracle/oracle and target/oracle/ours, one a line.

    oracle/asking.py random SEED COUNT [KIND ..]       COUNT questions of the kinds named, or of every kind of the Rust's
    oracle/asking.py systematic [KIND ..]              every day, month and code; a grid of builds

The same seed gives the same questions.
"""
import itertools
import random
import sys
from datetime import date

from reference import BYTES

FIRST, LAST = 693961, 803168
FIRST_OF_SPAN, LAST_OF_SPAN = 657072, 876216
LIMITS = {"D": 366, "W": 520, "M": 1200, "Y": 100}
DAYS = {"D": 1, "W": 7, "M": 30, "Y": 365}
LETTERS = b"FGHJKMNQUVXZ"
BACKWARD, FORWARD, WEDNESDAY = 1, 2, 5
WEEKEND = 96


def number(year, month, day):
    return date(year, month, day).toordinal()


def month_end(year, month):
    return number(year + month // 12, month % 12 + 1, 1) - 1


def third_wednesday(year, month):
    first = number(year, month, 1)
    return first + (3 - first) % 7 + 14


def add(day, unit, count):
    """The day that many units on, clipped to 1800 and 2399."""
    if unit in "DW":
        return min(max(day + count * DAYS[unit], FIRST_OF_SPAN), LAST_OF_SPAN)
    d = date.fromordinal(day)
    months = 12 * d.year + d.month - 1 + count * (1 if unit == "M" else 12)
    months = min(max(months, 12 * 1800), 12 * 2399 + 11)
    year, month = divmod(months, 12)
    first = number(year, month + 1, 1)
    return min(first + d.day - 1, month_end(year, month + 1))


def in_book(day):
    return min(max(day, FIRST), LAST)


def request_bytes(words, whole):
    """The request bytes of a build's words; fields that say what is so without them are left out unless it is whole."""
    effective, termination, unit, length, rule, convention, terminal, month_end, first, last, mask, _, *closed = words
    tenor = unit.encode() + (int(length) & 65535).to_bytes(2, "big")
    fields = [(1, effective, 4), (2, termination, 4), (3, tenor, 3), (4, rule, 1), (5, convention, 1), (6, terminal, 1),
              (7, month_end, 1), (8, first, 4), (9, last, 4), (10, mask, 1),
              (11, b"".join(int(day).to_bytes(4, "big") for day in closed), None)]
    default = {3: b"D\0\0", 4: "1", 11: b"", **dict.fromkeys((5, 6, 7, 8, 9, 10), "0")}
    data = bytearray()
    for tag, value, size in fields:
        if whole or value != default.get(tag):
            body = value if isinstance(value, bytes) else int(value).to_bytes(size, "big")
            data += bytes([tag]) + len(body).to_bytes(2, "big") + body
    return data + b"\xff\0\0"


def year_day(r):
    """A day at the turn of some year."""
    return number(r.randrange(1800, 2400), 1, 1) + r.randrange(-2, 3)


class Questions:
    def __init__(self, seed):
        self.r = random.Random(seed)

    # Days

    def snapped(self, day):
        """The day, or one near it that matters to some rule."""
        r = self.r.random
        d = date.fromordinal(day)
        x = r()
        if x < .35:
            return day
        if x < .55:
            return month_end(d.year, d.month) + int(r() * 5) - 3
        if x < .75:
            return number(d.year, d.month, 20) + int(r() * 5) - 2
        if x < .90:
            return third_wednesday(d.year, d.month) + int(r() * 5) - 2
        return number(d.year, (d.month + 2) // 3 * 3, 20) + int(r() * 3) - 1

    def day(self):
        """A day of the book, often near a month's end, a leap day, a twentieth or a third Wednesday."""
        r = self.r
        x = r.random()
        if x < .60:
            day = self.snapped(int(FIRST + r.random() * (LAST - FIRST)))
        elif x < .85:
            day = self.snapped(number(2024, 1, 1) + int(r.random() * 1500))
        elif x < .93:
            year = r.choice((1904, 1999, 2000, 2004, 2023, 2024, 2025, 2028, 2096, 2099, 2100, 2101, 2104, 2196))
            day = number(year, 2, 26) + int(r.random() * 6)
        else:
            day = r.choice((FIRST, LAST)) + r.choice((-1, 1)) * int(r.random() * 70)
        return in_book(day)

    def any_day(self):
        """Seldom a day outside the book, or the empty one."""
        x = self.r.random()
        if x > .01:
            return self.day()
        return self.r.choice((0, FIRST - 1, LAST + 1, FIRST_OF_SPAN, LAST_OF_SPAN, 739252 - 365 * 200))

    # Calendars

    def calendar(self, days):
        """Mask, count and closed dates, where they can touch the days."""
        r = self.r
        x = r.random()
        if x < .25:
            return "0 0"
        if x < .50:
            return f"{WEEKEND} 0"
        if x < .55:
            return f"{r.randrange(1, 127)} 0"
        mask = r.choice((0, WEEKEND, WEEKEND, WEEKEND, 64, 48, 63, 126, r.randrange(1, 127)))
        closed = set()
        if x < .75:
            for _ in range(r.randrange(1, 13)):
                closed.add(self.snapped(in_book(r.choice(days) + r.randrange(-40, 41))))
        elif x < .97:
            for _ in range(r.randrange(1, 4)):
                start = r.choice(days) + r.randrange(-12, 4)
                length = r.choice((1, 2, 3, 5, 8, 13, 21, 27, 28, 29, 30, 30, 31, 31, 32, 40))
                if r.random() < .3:
                    start -= length
                closed.update(range(start, start + length))
        elif x < .995:
            low = min(days)
            closed.update(low + int(r.random() * (max(days) - low + 90)) - 30 for _ in range(r.randrange(20, 300)))
        elif x < .9965:
            low = r.choice(days) - r.randrange(200, 5000)
            closed.update(low + int(r.random() * 12000) for _ in range(9000))
            closed = set(sorted(closed)[:r.choice((4096, 4096, 4095, 4097))])
        elif x < .998:
            return "127 0"
        else:
            given = [r.choice(days) + r.randrange(-3, 4) for _ in range(3)]
            return f"{mask} 3 " + " ".join(map(str, given))
        listed = sorted(min(max(d, FIRST_OF_SPAN), LAST_OF_SPAN) for d in closed)
        listed = [d for i, d in enumerate(listed) if i == 0 or d != listed[i - 1]]
        return " ".join(map(str, [mask, len(listed), *listed]))

    # Builds

    def tenor(self):
        r = self.r
        unit = r.choice("DWMMMMYY")
        x = r.random()
        if x < .03:
            return unit, 0
        if x < .70:
            return unit, r.choice({"D": (1, 7, 10, 15, 28, 30, 31, 90, 180), "W": (1, 2, 4, 13, 26),
                                   "M": (1, 1, 2, 3, 3, 4, 6, 12, 18), "Y": (1, 1, 2, 5)}[unit])
        if x < .97:
            return unit, r.randrange(1, LIMITS[unit] + 1)
        if x < .99:
            return unit, LIMITS[unit]
        return unit, r.choice((LIMITS[unit] + 1, -1, -LIMITS[unit], -1000, 32767))

    def build(self, longest=400, kind="build"):
        r = self.r
        unit, length = self.tenor()
        rule = r.randrange(10)
        effective = self.day()
        size = max(1, abs(length))
        x = r.random()
        if x < .03:
            termination = effective
        elif x < .10:
            termination = effective - int(r.random() ** 3 * 3000) - 1
        elif x < .20:
            termination = effective + int(r.random() * 95)
        else:
            y = r.random()
            periods = r.randrange(1, 13) if y < .7 else r.randrange(1, 41) if y < .97 else r.randrange(1, longest + 1)
            if y > .9997 and longest >= 400:
                periods = r.randrange(4000, 4300)
                if unit == "D":
                    length = size = 1
            elif unit == "D":  # the Rust walks to every candidate day by day, which here is at most a million days
                periods = min(periods, int((2000000 / size) ** .5))
            periods = max(1, min(periods, 105000 // (size * DAYS[unit])))
            if effective + periods * size * DAYS[unit] > LAST:
                effective = in_book(add(self.day() if r.random() < .5 else LAST, unit, -periods * size))
            termination = add(effective, unit, periods * size)
            if r.random() < .6:
                termination = self.snapped(termination)
            elif r.random() < .3:
                termination += r.randrange(-3, 4)
        if not FIRST <= termination <= LAST and r.random() > .02:
            termination = in_book(termination)
        if r.random() < .002:
            effective, termination = self.any_day(), self.any_day()
        month_end = int(r.random() < (.4 if rule <= 2 else .02))
        if month_end and r.random() < .5:
            termination = in_book(self.month_end_of(termination))
            effective = in_book(self.month_end_of(effective))
        first = last = 0
        if r.random() < (.45 if rule in (BACKWARD, FORWARD, WEDNESDAY) else .03):
            which = r.randrange(1, 4)
            if which & 1:
                first = self.anchor(effective, termination, unit, size, rule, 1)
            if which & 2:
                last = self.anchor(termination, effective, unit, size, rule, -1)
        convention, terminal = r.choice((0, 0, 1, 2, 3, 4)), r.choice((0, 0, 1, 2, 3, 4))
        days = [d for d in (effective, termination, first, last) if d]
        if days:
            days.append(add(effective or FIRST, unit, size) if r.random() < .5 else add(days[-1], unit, -size))
        if not effective or not termination:
            unit, length = "Y", 100
        elif abs(termination - effective) > 4300 * size * DAYS[unit]:
            unit = "Y"
        elif unit == "D" and (termination - effective) ** 2 > 20000000 * size:
            unit = "Y"
        return (f"{kind} {effective} {termination} {unit} {length} {rule} {convention} {terminal} {month_end} "
                f"{first} {last} {self.calendar(days or [FIRST])}")

    def month_end_of(self, day):
        d = date.fromordinal(day or FIRST)
        return month_end(d.year, d.month)

    def anchor(self, start, other, unit, size, rule, sign):
        """A date some tenors away from the start, or anywhere between the two, seldom outside."""
        r = self.r
        start, other = start or FIRST, other or FIRST
        x = r.random()
        if x < .55:
            day = add(start, unit, sign * size * r.randrange(0, 3))
            if r.random() < .5:
                day += r.randrange(-3, 4)
        elif x < .9:
            day = start + int(r.random() * (other - start))
        else:
            far = self.any_day()
            if unit == "D" and abs(far - start) > 3000:
                far = start - sign * 3000
            day = r.choice((start, other, start - sign, other + sign, start + sign, other - sign, far))
        if day == 0:
            return 0
        if rule == WEDNESDAY and r.random() < .9:
            d = date.fromordinal(day)
            day = third_wednesday(d.year, d.month)
        return in_book(day) if r.random() < .99 else day

    def trace(self):
        return self.build(kind="trace")

    # Small functions

    def code(self):
        r = self.r
        x = r.random()
        if x < .75:
            code = bytes((r.choice(LETTERS), r.choice(b"0123456789")))
            code = code.lower() if r.random() < .4 else code
        elif x < .85:
            code = bytes(r.randrange(128) for _ in range(2))
        elif x < .90:
            code = bytes((r.choice(LETTERS), r.choice(b"0123456789"))) + bytes(r.choice((b"5", b"x", b"05", b" ")))
        elif x < .94:
            code = r.choice(("é", "ü", "H", "5", "Hé", "éH", "h５", "ﬁ", "ǰ5", "ß", "K5", "")).encode()
        elif x < .97:
            code = bytes(r.randrange(128) for _ in range(r.randrange(0, 5)))
        else:
            code = bytes(r.randrange(256) for _ in range(r.randrange(1, 4)))
        return code.hex() or "-"

    def flag(self):
        return self.r.randrange(2)

    def adjust(self):
        day = self.any_day()
        return f"adjust {day} {self.r.randrange(5)} {self.calendar([day or FIRST])}"

    def monthend(self):
        day = self.any_day()
        return f"monthend {day} {self.calendar([self.month_end_of(day or FIRST)])}"

    def ismonthend(self):
        day = self.any_day()
        return f"ismonthend {day} {self.calendar([day or FIRST])}"

    def advance(self):
        r = self.r
        day = self.any_day()
        unit, length = self.tenor()
        length *= r.choice((1, -1))
        days = [day or FIRST, add(day or FIRST, unit, length)]
        return f"advance {day} {unit} {length} {r.randrange(5)} {self.flag()} {self.calendar(days)}"

    def next20(self):
        return f"next20 {self.any_day()} {self.r.randrange(10)}"

    def prev20(self):
        return f"prev20 {self.any_day()} {self.r.randrange(10)}"

    def immdate(self):
        return f"immdate {self.any_day()} {self.flag()}"

    def immcode(self):
        return f"immcode {self.code()} {self.flag()}"

    def imm_day(self):
        """A day that is often a third Wednesday."""
        day = self.any_day()
        if day and self.r.random() < .7:
            d = date.fromordinal(day)
            day = third_wednesday(d.year, d.month)
        return day

    def code_of(self):
        return f"code {self.imm_day()}"

    def date_of(self):
        return f"date {self.code()} {self.imm_day()}"

    def nextdate(self):
        return f"nextdate {self.any_day()} {self.flag()}"

    def nextdatecode(self):
        return f"nextdatecode {self.code()} {self.flag()} {self.any_day()}"

    def nextcode(self):
        return f"nextcode {self.any_day()} {self.flag()}"

    def nextcodecode(self):
        return f"nextcodecode {self.code()} {self.flag()} {self.any_day()}"

    def dateadvance(self):
        r = self.r
        unit = r.choice("DWMY")
        x = r.random()
        if x < .6:
            count = r.randrange(-40, 41)
        elif x < .9:
            count = int(r.uniform(-110000, 110000) / DAYS[unit])
        else:
            count = r.choice((0, 1, -1)) * r.choice((1, 1000, 73049, 200000, 10**9, 2**31 - 1))
        return f"dateadvance {self.any_day()} {unit} {count}"

    def nth(self):
        r = self.r
        n, k = r.randrange(1, 6), r.randrange(1, 8)
        m, y = r.randrange(1, 13), r.randrange(1800, 2400)
        x = r.random()
        if x < .02:
            n = r.choice((0, -1, 6, 7, 2**31 - 1, -2**31))
        elif x < .03:
            k = r.choice((0, 8, -1))
        elif x < .04:
            m = r.choice((0, 13, -1))
        elif x < .05:
            y = r.choice((0, 1, 1799, 2400, -5, 9999, 300000))
        return f"nth {n} {k} {m} {y}"

    def nextweekday(self):
        return f"nextweekday {self.any_day()} {self.r.randrange(1, 8)}"

    def dmonthend(self):
        return f"dmonthend {self.any_day()}"

    def make(self):
        r = self.r
        y, m, d = r.randrange(1800, 2400), r.randrange(1, 13), r.randrange(1, 32)
        if r.random() < .03:
            y, m, d = r.choice((y, 0, 1799, 2400)), r.choice((m, 0, 13)), r.choice((d, 0, 32, -1))
        return f"make {y} {m} {d}"

    def fields(self):
        return f"fields {self.any_day()}"

    def difference(self):
        return f"difference {self.any_day()} {self.any_day()}"

    def compare(self):
        a = self.any_day()
        return f"compare {a} {a if self.r.random() < .1 else self.any_day()}"

    def times(self):
        r = self.r
        length = r.choice((r.randrange(-400, 401), r.randrange(-2**31, 2**31)))
        return f"times {r.choice('DWMY')} {length} {r.choice((r.randrange(-5, 6), r.randrange(-10**7, 10**7)))}"

    # Asked of the law and of ours, but for `open`

    def open(self):
        day = self.any_day()
        return f"open {day} {self.calendar([day or FIRST])}"

    def check(self):
        return f"check {self.calendar([self.day()])}"

    def lent(self):
        """A build into lists that are often too short, seldom of two lengths, and a record that seldom is."""
        r = self.r
        build = self.build(longest=40)
        dates = r.choice((0, 1, 2, 2, 3, 3, 4, 4, 5, r.randrange(14), r.randrange(45), 4096))
        flags, unadjusted = (dates if r.random() < .97 else r.randrange(14) for _ in range(2))
        record = 6 if r.random() < .9 else r.randrange(10)
        return f"lent {dates} {flags} {unadjusted} {record}{build[5:]}"

    def coming(self):
        """A build that is mostly one that the question answers, and a day, mostly near or between its dates."""
        r = self.r
        words = self.build(longest=60).split()
        if r.random() < .85:
            words[5:11] = [r.choice("12"), *"00000"]
            words[4] = str(abs(int(words[4])) or 1)
            words[1:3] = sorted(words[1:3], key=int)
        start, end = int(words[1]), int(words[2])
        near = r.choice((start, end, start + int(r.random() * (end - start)), add(end, words[3], -r.randrange(9) * int(words[4]))))
        asked = near + r.randrange(-2, 3) if r.random() < .98 else self.any_day()
        return " ".join(["coming", str(asked), *words[1:]])

    def period(self):
        """Two days of the span, mostly in order, often ends of months, near each other or equal; seldom one outside."""
        r = self.r
        days = [r.randrange(FIRST_OF_SPAN, LAST_OF_SPAN + 1) for _ in range(2)]
        if r.random() < .7:
            days[1] = min(max(days[0] + r.randrange(-3, 800), FIRST_OF_SPAN), LAST_OF_SPAN)
        for i in range(2):
            if r.random() < .4:
                d = date.fromordinal(days[i])
                days[i] = min(month_end(d.year, d.month) + r.choice((-2, -1, 0, 0, 1)), LAST_OF_SPAN)
            if r.random() < .02:
                days[i] = r.choice((0, FIRST_OF_SPAN - 1, FIRST_OF_SPAN, LAST_OF_SPAN, LAST_OF_SPAN + 1, 2**32 - 1))
        return days if r.random() < .1 else sorted(days)

    def yearfraction(self):
        return "yearfraction {} {} {}".format(self.r.randrange(3), *self.period())

    def yearparts(self):
        places = 2 if self.r.random() < .9 else self.r.randrange(5)
        return "yearparts {} {} {} {}".format(places, self.r.randrange(3), *self.period())

    def yearreport(self):
        """Mostly in order; now and then two neighbours are exchanged or a day lies outside."""
        r = self.r
        start = r.randrange(FIRST_OF_SPAN, LAST_OF_SPAN - 40 * 400)
        dates = list(itertools.accumulate((r.choice((0, 1, 28, 30, 31, 91, r.randrange(400))) for _ in range(r.randrange(40))), initial=start))
        dates = dates[:r.choice((len(dates), len(dates), r.randrange(3)))]
        if len(dates) > 1 and r.random() < .1:
            at = r.randrange(len(dates) - 1)
            dates[at], dates[at + 1] = dates[at + 1], dates[at]
        if dates and r.random() < .05:
            dates[r.randrange(len(dates))] = r.choice((0, FIRST_OF_SPAN - 1, LAST_OF_SPAN + 1))
        places = 3 if r.random() < .9 else r.randrange(6)
        return " ".join(map(str, ["yearreport", places, len(dates), *dates]))

    def two_lists(self, days):
        """A mask, and a desk's and a house's list, where they can touch the days."""
        mask, *desk = self.calendar(days).split()
        house = self.calendar([*days, *(day + self.r.choice((-365, 365)) for day in days)]).split()[1:]
        return mask, " ".join(desk), " ".join(house)

    def deskrun(self):
        """A year, mostly one that a list has dates in, and the two lists."""
        r = self.r
        day = self.day()
        mask, desk, house = self.two_lists([day])
        year = r.choice((0, 1799, 1800, 2399, 2400, 4294967295)) if r.random() < .03 else date.fromordinal(day).year + r.choice((0, 0, 0, 0, 1, -1))
        return f"deskrun {year} {desk} {house}"

    def deskcombine(self):
        """Room, and lists that share years, meet at a year's end, or have no year in common; now and then long ones."""
        r = self.r
        if r.random() < .02:
            year, more = r.randrange(1801, 2300), r.choice((0, 0, 1, 2))
            start = number(year, 1, 1)
            cut = number(year + r.randrange(12), 1, 1) - start + r.choice((-1, 0, 0, 0, 1))
            early, late = [start + at for at in range(cut)], [start + cut + at for at in range(4096 - cut + more)]
            lists = [early, late]
            r.shuffle(lists)
        else:
            year = r.randrange(1800, 2390)
            ends = [number(year + at, *end) for at in range(r.randrange(1, 9)) for end in ((1, 1), (12, 31))]
            pool = sorted({*ends, *(r.randrange(ends[0], ends[-1] + 1) for _ in range(r.randrange(12)))})
            lists = [[day for day in pool if r.random() < often] for often in (r.choice((0, .1, .3, .7)), r.choice((0, .3, .7, 1)))]
            for list_ in lists:
                if len(list_) > 1 and r.random() < .03:
                    list_[-1] = r.choice((list_[0], list_[-2], 876217, 4294967295))
        size = sum(map(len, lists))
        room = r.choice((4096, 4096, size, max(0, size - 1), r.randrange(4097)))
        return " ".join(map(str, ["deskcombine", min(room, 4096), *(word for list_ in lists for word in (len(list_), *list_))]))

    def deskadjust(self):
        """A day, often near the end of a year, and the two lists."""
        r = self.r
        day = self.any_day()
        if r.random() < .6 and FIRST <= day <= LAST:
            day = in_book(number(date.fromordinal(day).year, 12, 31) + r.randrange(-33, 34))
        mask, desk, house = self.two_lists([day])
        return f"deskadjust {day} {r.randrange(5)} {mask} {desk} {house}"

    def bytes(self):
        """A build as request bytes, often with something wrong in them."""
        r = self.r
        words = self.lent().split()
        data = request_bytes(words[5:], r.random() < .5)
        x = r.random()
        if x < .15:
            data[r.randrange(len(data))] = r.randrange(256)
        elif x < .20:
            data[r.randrange(len(data))] ^= 1 << r.randrange(8)
        elif x < .23:
            del data[r.randrange(len(data)):]
        elif x < .26:
            del data[r.randrange(len(data))]
        elif x < .29:
            data.insert(r.randrange(len(data) + 1), r.randrange(256))
        elif x < .31:
            data += bytes(r.choice((1, 3, 20000)))
        return " ".join(["bytes", *words[1:5], data.hex() or "-"])

    # Open days by an index: the number of places is seldom another than 601.

    def places(self):
        return 601 if self.r.random() < .98 else self.r.choice((0, 1, 600, 602, 1202))

    def ixmake(self):
        return f"ixmake {self.places()} {self.calendar([self.day()])}"

    def ixcount(self):
        first = self.any_day()
        last = self.any_day() if self.r.random() < .3 else (first or FIRST) + self.r.randrange(-40, 900)
        return f"ixcount {first} {last} {self.places()} {self.calendar([first or FIRST, last or FIRST])}"

    def ixnth(self):
        day, r = self.any_day(), self.r
        n = r.choice((0, 1, 1, 2, 5, 20, 250, 365, 366, 367, r.randrange(1, 367), r.randrange(1, 367)))
        return f"ixnth {day} {n} {self.places()} {self.calendar([day or FIRST, (day or FIRST) + n])}"

    def changed(self):
        """A day, mostly one that the calendar may have or lack, and the calendar."""
        r, day = self.r, self.any_day()
        if r.random() < .3:
            day = r.choice((FIRST_OF_SPAN, LAST_OF_SPAN, FIRST_OF_SPAN - 1, LAST_OF_SPAN + 1, year_day(r)))
        calendar = self.calendar([min(max(day, FIRST_OF_SPAN + 400), LAST_OF_SPAN - 400)]).split()
        if len(calendar) > 2 and r.random() < .5:
            day = r.choice(calendar[2:])
        return f"{day} {self.places()} {' '.join(calendar)}"

    def ixadd(self):
        return f"ixadd {self.changed()}"

    def ixremove(self):
        return f"ixremove {self.changed()}"

    def strange(self):
        """A question in which one byte lies outside its list."""
        r = self.r
        words = self.ask(r.choice(list(BYTES))).split()
        at, size = r.choice(BYTES[words[0]])
        words[at] = str(r.choice((size or 4, (size or 4) + 1, r.randrange(size or 4, 256), 255)))
        return " ".join(words)

    def ask(self, kind):
        return getattr(self, {"code": "code_of", "date": "date_of"}.get(kind, kind))()


SMALL = ("next20 prev20 adjust monthend ismonthend advance immdate immcode code date nextdate nextdatecode nextcode "
         "nextcodecode dateadvance nth nextweekday dmonthend make fields difference compare times").split()
YEARS = ["yearfraction", "yearparts", "yearreport"]
DESK = ["deskrun", "deskadjust", "deskcombine"]
MORE = ["open", "check", "lent", "coming", *DESK, "bytes", "strange", *YEARS]
# Asked only by name, since the law counts every day from 1800 on.
INDEX = ["ixmake", "ixcount", "ixnth", "ixadd", "ixremove"]
KINDS = ["build", "trace", *SMALL]


def random_questions(seed, count, kinds=KINDS):
    """That many questions, the kinds taken in turn."""
    q = Questions(seed)
    return (q.ask(kinds[i % len(kinds)]) for i in range(count))


# Systematic questions

def all_days(kind, *tails):
    for day in range(FIRST, LAST + 1):
        for tail in tails:
            yield f"{kind} {day} {tail}".rstrip()


def all_codes():
    for a, b in itertools.product(range(128), repeat=2):
        for main in (0, 1):
            yield f"immcode {a:02x}{b:02x} {main}"


def codes_from(kind, middle):
    """Every code from days about each third Wednesday of twelve years in each of three stretches of the book."""
    for start in (1901, 2020, 2188):
        for year, month in itertools.product(range(start, start + 12), (1, 3, 6, 8, 12)):
            for day, letter, digit in itertools.product((-1, 0, 1), LETTERS, b"0123456789"):
                yield f"{kind} {letter:02x}{digit:02x} {middle}{third_wednesday(year, month) + day}"


def all_nth():
    for year, month, n, k in itertools.product(range(1800, 2400), range(1, 13), range(1, 7), range(1, 8)):
        yield f"nth {n} {k} {month} {year}"


def all_months(kind, tails):
    """Days about the end of every month of the book, with some calendars."""
    for year, month in itertools.product(range(1901, 2200), range(1, 13)):
        end = month_end(year, month)
        for shift, tail in itertools.product((-3, -2, -1, 0, 1), tails):
            if FIRST <= end + shift <= LAST:
                closed = tail.replace("END", str(end)).replace("NEXT", str(end + 1))
                yield f"{kind} {end + shift} {closed}"


CALENDARS = ("0 0", "96 0", "96 2 END NEXT", "0 1 END", "64 1 NEXT")


def all_adjusts():
    tails = [f"{c} {calendar}" for c in range(5) for calendar in CALENDARS]
    return all_months("adjust", tails)


def all_advances():
    tenors = ("D 0", "D 1", "D -2", "W 0", "W -1", "M 0", "M 1", "M -1", "Y 1")
    tails = [f"{tenor} {c} {e} 96 2 END NEXT" for tenor in tenors for c in (0, 2) for e in (0, 1)]
    return all_months("advance", tails)


def all_builds():
    pairs = [(a, b) for start in (number(2024, 2, 29), number(2025, 1, 31), number(2025, 3, 20), number(2025, 4, 25),
                                  number(2025, 6, 18), number(2099, 12, 31))
             for a, b in ((start, start), (start, start + 1), (start, start + 27), (start, start + 31),
                          (start, start + 92), (start, start + 184), (start, start + 366), (start, start - 1),
                          (start, start - 120),
                          (start, third_wednesday(*divmod(12 * date.fromordinal(start).year + 14, 12))))]
    tenors = ("M 1", "M 3", "M 6", "Y 1", "W 1", "W 13", "D 30", "D 0")
    terms = ((c, t) for c in range(5) for t in (0, c, (c + 2) % 5))
    for (c, t), tenor, rule in itertools.product(sorted(set(terms)), tenors, range(10)):
        for (a, b), e in itertools.product(pairs, (0, 1) if rule < 3 else (0,)):
            for calendar in ("0 0", "96 0", f"96 3 {a} {min(b, b + 1)} {b + 3}"):
                words = calendar.split()
                closed = sorted(set(map(int, words[2:])))
                yield " ".join(map(str, ["build", a, b, tenor, rule, c, t, e, 0, 0, words[0], len(closed), *closed]))


SYSTEMATIC = {
    "build": all_builds,
    "next20": lambda: all_days("next20", 3, 4),
    "prev20": lambda: all_days("prev20", 3, 8),
    "adjust": all_adjusts,
    "monthend": lambda: all_months("monthend", CALENDARS),
    "ismonthend": lambda: all_months("ismonthend", CALENDARS),
    "advance": all_advances,
    "immdate": lambda: all_days("immdate", 0, 1),
    "immcode": all_codes,
    "code": lambda: all_days("code", ""),
    "date": lambda: codes_from("date", ""),
    "nextdate": lambda: all_days("nextdate", 0, 1),
    "nextdatecode": lambda: itertools.chain(codes_from("nextdatecode", "0 "), codes_from("nextdatecode", "1 ")),
    "nextcode": lambda: all_days("nextcode", 0, 1),
    "nextcodecode": lambda: itertools.chain(codes_from("nextcodecode", "0 "), codes_from("nextcodecode", "1 ")),
    "nth": all_nth,
    "nextweekday": lambda: all_days("nextweekday", 1, 3, 7),
    "dmonthend": lambda: all_days("dmonthend", ""),
    "dateadvance": lambda: all_months("dateadvance", [f"{u} {n}" for u in "DWMY" for n in (-13, -1, 0, 1, 12, 25)]),
    "fields": lambda: all_days("fields", ""),
}


def systematic_questions(kinds=None):
    return itertools.chain.from_iterable(SYSTEMATIC[kind]() for kind in kinds or SYSTEMATIC)


def main():
    args = sys.argv[1:]
    if len(args) >= 3 and args[0] == "random" and set(args[3:]) <= {*KINDS, *MORE, *INDEX}:
        questions = random_questions(args[1], int(args[2]), args[3:] or KINDS)
    elif args[:1] == ["systematic"] and set(args[1:]) <= set(SYSTEMATIC):
        questions = systematic_questions(args[1:])
    else:
        sys.exit(__doc__.strip())
    for line in questions:
        print(line)


if __name__ == "__main__":
    main()
