#!/usr/bin/env python3
"""Writes crates/almanac/stdout from Python's calendar: what the program `almanac` must print.

    python3 tools/almanac.py > crates/almanac/stdout
"""
import calendar
from datetime import date, timedelta

SPAN = (date(1800, 1, 1), date(2399, 12, 31))
BOOK = (date(1901, 1, 1), date(2199, 12, 31))
REFUSED = 2


def after_days(day, count):
    return within(day.toordinal() + count)


def in_month(index, day):
    year, month = index // 12, index % 12 + 1
    if not 1800 <= year <= 2399 or day < 1:
        return REFUSED
    return date(year, month, min(day, calendar.monthrange(year, month)[1])).toordinal()


def after_months(day, count):
    return in_month(12 * day.year + day.month - 1 + count, day.day)


def within(n):
    return n if SPAN[0].toordinal() <= n <= SPAN[1].toordinal() else REFUSED


def next_weekday(day, weekday):
    while day.isoweekday() != weekday:
        day += timedelta(days=1)
    return day.toordinal()


def nth_weekday(nth, weekday, month, year):
    days = calendar.monthrange(year, month)[1]
    found = [d for d in range(1, days + 1) if date(year, month, d).isoweekday() == weekday]
    return date(year, month, found[nth - 1]).toordinal() if 1 <= nth <= len(found) else REFUSED


def values(day):
    n = day.toordinal()
    month_end = day.replace(day=calendar.monthrange(day.year, day.month)[1])
    yield from (day.isoweekday(), month_end.toordinal(), n, month_end.day)
    yield after_days(day, n % 400)
    yield after_days(day, -7 * (n % 60))
    yield after_months(day, n % 30)
    yield after_months(day, -(n % 30))
    yield after_months(day, -12 * (n % 5))
    yield in_month(n % 30000, n % 32)
    yield in_month(n % 30000 + (-(n % 400) if n % 2 == 0 else n % 400), n % 32)
    yield within(n % 300000 + 600000)
    if BOOK[0] <= day <= BOOK[1]:
        yield from (day.year, day.month, day.day, day.isoweekday(), month_end.toordinal())
        yield next_weekday(day, n % 9) if 1 <= n % 9 <= 7 else REFUSED
        yield 11 if day < BOOK[1] else 12
        yield n
        yield from (after_months(day, 1), after_months(day, -36), after_days(day, -40000))
    else:
        yield from (REFUSED, REFUSED + 100) + (REFUSED,) * 7
    yield nth_weekday(n % 7, n % 9, day.month, day.year)


def main():
    for year in range(1800, 2400):
        digest = 0
        day = date(year, 1, 1)
        while day.year == year:
            for value in values(day):
                digest = (digest * 31 + value) % 4294967291
            day += timedelta(days=1)
        print(year, digest)


main()
