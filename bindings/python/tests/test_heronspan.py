"""Sums by hand of document 01, and what is refused."""

import ctypes
import unittest
from datetime import date, timedelta
from fractions import Fraction

import heronspan as h
from heronspan import Basis, Convention, Order, Rule, Unit


def days(*texts: str) -> list[date]:
    return [date.fromisoformat(text) for text in texts]


class Refusals(unittest.TestCase):
    def refused(self, name: str, call, *arguments, **named) -> None:
        with self.assertRaises(h.Refused) as caught:
            call(*arguments, **named)
        self.assertEqual(caught.exception.name, name)
        self.assertEqual(caught.exception.number, h.Refusal[name])


class Names(unittest.TestCase):
    def test_the_library_has_the_same_names(self) -> None:
        own = {int(refusal): refusal.name for refusal in h.Refusal}
        for number in range(256):
            self.assertEqual(h.refusal_name(number), own.get(number, ""), number)

    def test_a_name_that_does_not_fit_is_refused(self) -> None:
        text = (ctypes.c_uint8 * 3)(7, 8, 9)
        self.assertEqual(h._library.heronspan_refusal_text(-2, text, 3), -14)
        self.assertEqual(bytes(text), b"\x07\x08\x09")

    def test_later_places_stay_and_a_value_has_no_name(self) -> None:
        text = (ctypes.c_uint8 * 6)(1, 2, 3, 4, 5, 6)
        self.assertEqual(h._library.heronspan_refusal_text(2, text, 6), 0)
        self.assertEqual(bytes(text), b"\x01\x02\x03\x04\x05\x06")
        self.assertEqual(h._library.heronspan_refusal_text(-2, text, 6), 4)
        self.assertEqual(bytes(text), b"BOOK\x05\x06")


class Dates(Refusals):
    def test_make(self) -> None:
        self.assertEqual(h.make(2024, 2, 29), date(2024, 2, 29))
        self.refused("BOOK", h.make, 2025, 2, 29)
        self.refused("BOOK", h.make, 2**32 + 2024, 1, 1)

    def test_weekday_is_that_of_iso_8601(self) -> None:
        self.assertEqual(h.weekday(date(2025, 3, 19)), 3)
        self.assertEqual(h.weekday(date(2025, 3, 23)), 7)

    def test_months_keep_the_day_or_take_the_last(self) -> None:
        self.assertEqual(h.advance(date(2025, 1, 31), 1, Unit.MONTHS), date(2025, 2, 28))
        self.assertEqual(h.advance(date(2025, 3, 31), -1, Unit.YEARS), date(2024, 3, 31))
        self.assertEqual(h.month_end(date(2024, 2, 3)), date(2024, 2, 29))

    def test_weekdays(self) -> None:
        self.assertEqual(h.next_weekday(date(2025, 3, 20), 3), date(2025, 3, 26))
        self.assertEqual(h.nth_weekday(3, 3, 3, 2025), date(2025, 3, 19))
        self.refused("BOOK", h.nth_weekday, 5, 3, 2, 2025)

    def test_two_dates(self) -> None:
        self.assertEqual(h.difference(date(2025, 1, 1), date(2025, 3, 1)), -59)
        self.assertEqual(h.compare(date(2025, 1, 1), date(2025, 3, 1)), Order.BEFORE)
        self.assertEqual(h.compare(date(2025, 3, 1), date(2025, 3, 1)), Order.SAME)
        self.assertEqual(h.compare(date(2025, 3, 2), date(2025, 3, 1)), Order.AFTER)

    def test_a_missing_date_is_refused(self) -> None:
        given = date(2025, 3, 1)
        for call in (
            lambda: h.compare(None, given),
            lambda: h.compare(given, None),
            lambda: h.difference(None, given),
            lambda: h.weekday(None),
            lambda: h.month_end(None),
            lambda: h.advance(None, 1, Unit.DAYS),
            lambda: h.next_imm_date(None),
            lambda: h.build(None, given),
            lambda: h.build(given, None),
        ):
            self.refused("BOOK", call)

    def test_a_date_outside_the_book_is_refused(self) -> None:
        self.refused("BOOK", h.weekday, date(1900, 12, 31))
        self.refused("BOOK", h.weekday, date(2200, 1, 1))

    def test_times(self) -> None:
        self.assertEqual(h.times(-3, Unit.MONTHS, 4), -12)
        self.refused("TENOR", h.times, 2**31 - 1, Unit.DAYS, 2)

    def test_a_number_outside_its_list_is_refused(self) -> None:
        self.refused("REQUEST", h.advance, date(2025, 1, 1), 1, 4)
        self.refused("REQUEST", h.next_twentieth, date(2025, 1, 1), 10)
        self.refused("REQUEST", h.next_twentieth, date(2025, 1, 1), 256)


class Calendars(Refusals):
    def test_conventions(self) -> None:
        calendar = h.Calendar(h.WEEKENDS)
        self.assertEqual(calendar.adjust(date(2025, 5, 31), Convention.UNADJUSTED), (date(2025, 5, 31), 0))
        self.assertEqual(calendar.adjust(date(2025, 5, 31), Convention.FOLLOWING), (date(2025, 6, 2), 2))
        self.assertEqual(calendar.adjust(date(2025, 5, 31), Convention.MODIFIED_FOLLOWING), (date(2025, 5, 30), -1))
        self.assertEqual(calendar.month_end(date(2025, 5, 15)), h.Moved(date(2025, 5, 30), -1))
        self.refused("BOOK", calendar.adjust, None, Convention.FOLLOWING)
        self.assertTrue(calendar.is_month_end(date(2025, 5, 30)))
        self.assertFalse(calendar.is_month_end(None))

    def test_closed_dates(self) -> None:
        calendar = h.Calendar(h.WEEKENDS, days("2025-04-18", "2025-04-21"))
        self.assertFalse(calendar.is_open(date(2025, 4, 18)))
        self.assertEqual(calendar.advance(date(2025, 4, 17), 1, Unit.DAYS), (date(2025, 4, 22), 4))
        self.assertEqual(calendar.advance(date(2025, 4, 22), -1, Unit.DAYS), (date(2025, 4, 17), -4))
        self.assertEqual(calendar.advance(date(2025, 2, 28), 1, Unit.MONTHS, monthend=True), (date(2025, 3, 31), 0))
        self.refused("TENOR", calendar.advance, date(2025, 4, 17), 367, Unit.DAYS)

    def test_a_desk_over_the_house(self) -> None:
        house = days("2025-12-25", "2025-12-26", "2026-01-01", "2026-01-02")
        calendar = h.DeskCalendar(h.WEEKENDS, days("2025-12-25"), house)
        self.assertEqual((calendar.run(2025).name, list(calendar.run(2025))), ("desk", list(days("2025-12-25"))))
        self.assertEqual((calendar.run(2026).name, list(calendar.run(2026))), ("house", list(days("2026-01-01", "2026-01-02"))))
        self.assertEqual((calendar.run(2024).name, len(calendar.run(2024))), (None, 0))
        self.refused("BOOK", calendar.run, 1799)
        self.refused("BOOK", calendar.check, 2400)
        self.assertIsNone(calendar.check(1800))
        self.assertEqual(calendar.adjust(date(2025, 12, 25), Convention.FOLLOWING), (date(2025, 12, 26), 1))
        self.assertEqual(h.DeskCalendar(h.WEEKENDS, (), house).adjust(date(2025, 12, 25), Convention.FOLLOWING), (date(2025, 12, 29), 4))
        at_end = h.DeskCalendar(h.WEEKENDS, days("2025-12-31"), house)
        self.assertEqual(at_end.adjust(date(2025, 12, 31), Convention.FOLLOWING), (date(2026, 1, 5), 5))
        self.refused("CALENDAR", h.DeskCalendar, 0, days("2025-12-25"), days("2025-12-26", "2025-12-25"))

    def test_a_desk_and_the_house_as_one_calendar(self) -> None:
        house = days("2025-12-25", "2025-12-26", "2026-01-01", "2026-01-02")
        calendar = h.DeskCalendar(h.WEEKENDS, days("2025-12-25"), house)
        one = calendar.combined()
        self.assertEqual((one.mask, one.closed), (h.WEEKENDS, tuple(days("2025-12-25", "2026-01-01", "2026-01-02"))))
        for back in range(40):
            day = date(2026, 1, 10) - timedelta(back)
            self.assertEqual(one.adjust(day, Convention.FOLLOWING), calendar.adjust(day, Convention.FOLLOWING))
        self.assertEqual(one.advance(date(2025, 12, 24), 2, Unit.DAYS), (date(2025, 12, 29), 3))
        self.assertEqual(h.DeskCalendar(0, (), house).combined().closed, tuple(house))
        self.assertEqual(h.DeskCalendar(0, house).combined(4).closed, tuple(house))
        at_end = h.DeskCalendar(0, days("2025-12-31"), days("2024-12-31", "2025-01-01", "2025-12-30", "2026-01-01"))
        self.assertEqual(at_end.combined().closed, tuple(days("2024-12-31", "2025-12-31", "2026-01-01")))
        self.refused("ROOM", calendar.combined, 2)
        self.refused("ROOM", calendar.combined, -1)
        many = [date(1901, 1, 1) + timedelta(at) for at in range(4096)]
        self.assertEqual(len(h.DeskCalendar(0, many[365:], many[:365]).combined().closed), 4096)
        self.assertEqual(len(h.DeskCalendar(0, many[366:], many[:366]).combined().closed), 4095)
        self.assertEqual(len(h.DeskCalendar(0, many, many).combined().closed), 4096)
        over = h.DeskCalendar(0, many, days("2025-12-25"))
        self.refused("FULL", over.combined)
        self.refused("FULL", over.combined, 0)

    def test_a_calendar_that_breaks_its_rule_is_refused(self) -> None:
        self.refused("CALENDAR", h.Calendar, 127)
        self.refused("CALENDAR", h.Calendar, 0, days("2025-04-21", "2025-04-18"))


class Indexes(Refusals):
    def test_counts_from_1800(self) -> None:
        counts = h.Index(h.Calendar()).counts
        self.assertEqual(len(counts), 601)
        self.assertEqual(counts[:6], [0, 365, 730, 1095, 1460, 1826])
        self.assertEqual(counts[600], 219145)

    def test_first_included_last_not(self) -> None:
        index = h.Index(h.Calendar(h.WEEKENDS))
        self.assertEqual(index.count(date(2025, 3, 3), date(2025, 3, 4)), 1)
        self.assertEqual(index.count(date(2025, 3, 1), date(2025, 3, 3)), 0)
        self.assertEqual(index.count(date(2025, 3, 4), date(2025, 3, 3)), 0)
        self.assertEqual(index.count(date(1901, 1, 1), date(2199, 12, 31)), 78005)
        self.refused("BOOK", index.count, date(1900, 12, 31), date(2025, 3, 3))

    def test_the_nth_is_after_the_date(self) -> None:
        index = h.Index(h.Calendar(h.WEEKENDS))
        self.assertEqual(index.nth(date(2025, 2, 28), 1), date(2025, 3, 3))
        self.assertEqual(index.nth(date(2025, 3, 1), 1), date(2025, 3, 3))
        self.assertEqual(index.nth(date(2025, 3, 3), 1), date(2025, 3, 4))
        self.refused("TENOR", index.nth, date(2025, 3, 3), 0)
        self.refused("TENOR", index.nth, date(2025, 3, 3), 367)
        self.refused("BOOK", index.nth, None, 0)

    def test_a_closed_month_is_passed(self) -> None:
        march = h.Calendar(0, [date(2025, 3, day) for day in range(1, 32)])
        self.assertEqual(h.Index(march).nth(date(2025, 2, 28), 1), date(2025, 4, 1))
        self.refused("CLOSED", march.advance, date(2025, 2, 28), 1, Unit.DAYS)

    def test_changes_are_those_of_a_fresh_index(self) -> None:
        index = h.Index(h.Calendar(h.WEEKENDS, days("2025-03-01", "2025-04-18")))
        before = index.counts
        index.add(date(2025, 4, 21))
        self.assertEqual(index.counts, h.Index(h.Calendar(h.WEEKENDS, days("2025-03-01", "2025-04-18", "2025-04-21"))).counts)
        self.assertEqual(index.counts[:226], before[:226])
        self.assertEqual(index.counts[226], before[226] - 1)
        self.assertEqual(index.count(date(2025, 4, 17), date(2025, 4, 23)), 2)
        index.remove(date(2025, 4, 21))
        index.remove(date(2025, 3, 1))
        self.assertEqual(index.counts, before)
        self.assertEqual(index.calendar.closed, (date(2025, 4, 18),))
        self.refused("SAME", index.add, date(2025, 4, 18))
        self.refused("SAME", index.add, date(2025, 3, 1))
        self.refused("SAME", index.remove, date(2025, 3, 1))
        self.refused("BOOK", index.add, date(1799, 12, 31))

    def test_a_full_list(self) -> None:
        start = date(2000, 1, 3).toordinal()
        index = h.Index(h.Calendar(0, [date.fromordinal(start + 2 * i) for i in range(4096)]))
        self.refused("FULL", index.add, date.fromordinal(start + 1))
        self.refused("SAME", index.add, date.fromordinal(start + 2))
        index.remove(date.fromordinal(start))
        index.add(date.fromordinal(start + 1))
        self.assertEqual(index.counts, h.Index(index.calendar).counts)

    def test_a_refusal_leaves_the_index(self) -> None:
        short = (ctypes.c_uint32 * 600)(*range(600))
        self.assertEqual(h._library.heronspan_index_make(0, None, 0, short, 600), -21)
        self.assertEqual(h._library.heronspan_index_add(0, 127, None, 0, short, 600), -3)
        self.assertEqual(list(short), list(range(600)))

    def test_any_counts_are_safe(self) -> None:
        for value in (0, 219145, 2**32 - 1):
            other = (ctypes.c_uint32 * 601)(*([value] * 601))
            self.assertEqual(h._library.heronspan_index_add(657072, 0, None, 0, other, 601), 0)
            first, last = date(1901, 1, 1).toordinal(), date(2199, 12, 31).toordinal()
            self.assertIn(h._library.heronspan_index_count(first, last, 96, None, 0, other, 601), range(365))
            self.assertNotIn(h._library.heronspan_index_nth(last, 366, 96, None, 0, other, 601), range(-1, 657072))


class Imm(Refusals):
    def test_dates(self) -> None:
        self.assertTrue(h.is_imm_date(date(2025, 3, 19)))
        self.assertFalse(h.is_imm_date(date(2025, 4, 16)))
        self.assertTrue(h.is_imm_date(date(2025, 4, 16), main=False))
        self.assertEqual(h.next_imm_date(date(2025, 3, 18), main=False), date(2025, 3, 19))
        self.assertEqual(h.next_imm_date(date(2025, 3, 19), main=False), date(2025, 4, 16))
        self.assertEqual(h.next_imm_date(date(2025, 3, 19)), date(2025, 6, 18))

    def test_codes(self) -> None:
        self.assertEqual(h.imm_code(date(2025, 12, 17)), "Z5")
        self.assertEqual(h.imm_date("H5", date(2025, 3, 19)), date(2025, 3, 19))
        self.assertEqual(h.imm_date("h5", date(2025, 3, 20)), date(2035, 3, 21))
        self.assertEqual(h.next_imm_date(date(2025, 1, 1), code="F5"), date(2025, 3, 19))
        self.assertEqual(h.next_imm_code(date(2025, 3, 19)), "M5")
        self.assertEqual(h.next_imm_code(date(2025, 1, 1), code="F5"), "H5")
        self.assertFalse(h.is_imm_code("H55"))
        self.refused("CODE", h.imm_code, date(2025, 3, 20))
        self.refused("CODE", h.imm_date, "A5", date(2025, 3, 19))


class Schedules(Refusals):
    def test_backward(self) -> None:
        built = h.build(date(2025, 1, 15), date(2025, 12, 20), 3, Unit.MONTHS)
        self.assertEqual(built.dates, days("2025-01-15", "2025-03-20", "2025-06-20", "2025-09-20", "2025-12-20"))
        self.assertEqual(built.unadjusted, built.dates)
        self.assertEqual(built.regular, [False, True, True, True])
        self.assertEqual((built.tries, built.rule, built.tenor, built.unit, built.moved), (4, Rule.BACKWARD, 3, Unit.MONTHS, 0))

    def test_room(self) -> None:
        asked = (date(2025, 1, 15), date(2025, 12, 20), 3, Unit.MONTHS)
        self.assertEqual(len(h.build(*asked, room=5).dates), 5)
        self.refused("ROOM", h.build, *asked, room=4)
        self.refused("ROOM", h.build, *asked, room=0)

    def test_cds(self) -> None:
        built = h.build(date(2025, 4, 25), date(2025, 12, 20), 3, Unit.MONTHS, Rule.CDS)
        self.assertEqual(built.dates, days("2025-03-20", "2025-06-20", "2025-09-20", "2025-12-20"))

    def test_conventions_of_the_dates_and_of_the_last(self) -> None:
        asked = (date(2025, 1, 15), date(2025, 12, 20), 3, Unit.MONTHS)
        weekends = h.Calendar(h.WEEKENDS)
        built = h.build(*asked, convention=Convention.FOLLOWING, terminal=Convention.UNADJUSTED, calendar=weekends)
        self.assertEqual(built.dates[-2:], days("2025-09-22", "2025-12-20"))
        self.assertEqual(built.moved, 2)
        built = h.build(*asked, convention=Convention.UNADJUSTED, terminal=Convention.FOLLOWING, calendar=weekends)
        self.assertEqual(built.dates[-2:], days("2025-09-20", "2025-12-22"))

    def test_how_far_dates_moved(self) -> None:
        """Of the entries that are left: here the merge drops the one that moved. A size, whatever the direction."""
        saturday, weekends = date(2025, 3, 1), h.Calendar(h.WEEKENDS)
        built = h.build(saturday, saturday, 0, Unit.DAYS, Rule.ZERO, Convention.FOLLOWING, Convention.UNADJUSTED, calendar=weekends)
        self.assertEqual((built.dates, built.moved), ([saturday], 0))
        built = h.build(saturday, saturday, 1, Unit.MONTHS, convention=Convention.PRECEDING, terminal=Convention.PRECEDING, calendar=weekends)
        self.assertEqual((built.dates, built.moved), (days("2025-02-28"), 1))
        built = h.build(date(2025, 1, 30), date(2025, 5, 30), 1, Unit.MONTHS, monthend=True)
        self.assertEqual(built.moved, max(abs((paid - before).days) for paid, before in zip(built.dates, built.unadjusted)))

    def entries(self, effective: str, termination: str, tenor: int, unit: Unit, closed: str = "", **named) -> list[tuple[str, str]]:
        """Paid and unadjusted dates of a build, weekends closed."""
        calendar = h.Calendar(h.WEEKENDS, days(*closed.split()))
        built = h.build(*days(effective, termination), tenor, unit, calendar=calendar, **named)
        return [(paid.isoformat(), before.isoformat()) for paid, before in zip(built.dates, built.unadjusted, strict=True)]

    def test_unadjusted_dates(self) -> None:
        following = {"convention": Convention.FOLLOWING, "terminal": Convention.FOLLOWING}
        self.assertEqual(self.entries("2025-01-10", "2025-03-10", 1, Unit.MONTHS, "2025-02-19", rule=Rule.THIRD_WEDNESDAY_INCLUSIVE, **following),
                         [("2025-01-15", "2025-01-15"), ("2025-02-20", "2025-02-19"), ("2025-03-19", "2025-03-19")])
        self.assertEqual(self.entries("2025-01-30", "2025-05-30", 1, Unit.MONTHS, monthend=True)[2], ("2025-03-31", "2025-03-30"))
        self.assertEqual(self.entries("2025-04-30", "2025-06-30", 1, Unit.MONTHS, monthend=True, **following)[1], ("2025-05-30", "2025-05-31"))
        self.assertEqual(self.entries("2025-01-11", "2025-12-20", 3, Unit.MONTHS, rule=Rule.OLD_CDS, **following)[0], ("2025-01-11", "2025-01-11"))

    def test_what_is_not_added_or_dropped_leaves_no_unadjusted_date(self) -> None:
        following = {"convention": Convention.FOLLOWING, "terminal": Convention.FOLLOWING}
        self.assertEqual(self.entries("2025-03-01", "2025-05-02", 1, Unit.MONTHS, **following)[0], ("2025-03-03", "2025-03-02"))
        self.assertEqual(self.entries("2025-03-01", "2025-03-02", 1, Unit.DAYS, rule=Rule.FORWARD, **following), [("2025-03-03", "2025-03-01")])
        self.assertEqual(self.entries("2025-02-28", "2025-03-02", 1, Unit.DAYS, rule=Rule.FORWARD, convention=Convention.FOLLOWING,
                                      terminal=Convention.PRECEDING), [("2025-02-28", "2025-03-01")])
        entries = self.entries("2025-01-20", "2025-03-10", 1, Unit.WEEKS, "2025-01-20", rule=Rule.THIRD_WEDNESDAY, **following)
        self.assertEqual(entries[0], ("2025-01-21", "2025-01-20"))
        self.assertNotIn("2025-01-15", [before for _, before in entries])

    def test_three_lists_of_one_length(self) -> None:
        """1 comes before all else but a short record; a refusal leaves the three lists, and later places stay."""
        def lent(dates: int, flags: int, unadjusted: int, record: int = 7, effective: int = 739252) -> int:
            tenor = (1, Unit.MONTHS, Rule.BACKWARD, Convention.FOLLOWING, Convention.FOLLOWING, 0, 0, 0, h.WEEKENDS, None, 0)
            return h._library.heronspan_build(effective, 739311, *tenor, days_lent, dates, flags_lent, flags, unadjusted_lent, unadjusted, answer, record)

        days_lent, flags_lent = (ctypes.c_uint32 * 6)(*[7] * 6), (ctypes.c_uint8 * 6)(*[8] * 6)
        unadjusted_lent, answer = (ctypes.c_uint32 * 6)(*[9] * 6), (ctypes.c_uint32 * 7)()
        for lengths in ((2, 2, 1), (2, 1, 2), (1, 2, 2), (2, 1, 0), (5, 5, 6)):
            self.assertEqual(lent(*lengths), -h.Refusal.UNEVEN, lengths)
            self.assertEqual(lent(*lengths, effective=0), -h.Refusal.UNEVEN, lengths)
            self.assertEqual(lent(*lengths, record=6), -h.Refusal.ROOM, lengths)
        self.assertEqual(lent(2, 2, 2), -h.Refusal.ROOM)
        self.assertEqual(lent(5, 5, 5, effective=0), -h.Refusal.BOOK)
        self.assertEqual((list(days_lent), list(flags_lent), list(unadjusted_lent)), ([7] * 6, [8] * 6, [9] * 6))
        self.assertEqual(lent(5, 5, 5), 3)
        numbers = [day.toordinal() for day in days("2025-01-01", "2025-02-03", "2025-03-03")]
        self.assertEqual(list(days_lent), [*numbers, 7, 7, 7])
        self.assertEqual(list(flags_lent), [1, 1, 8, 8, 8, 8])
        numbers = [day.toordinal() for day in days("2025-01-01", "2025-02-01", "2025-03-01")]
        self.assertEqual(list(unadjusted_lent), [*numbers, 9, 9, 9])

    def test_anchors(self) -> None:
        built = h.build(date(2025, 1, 15), date(2025, 7, 15), 3, Unit.MONTHS, first=date(2025, 2, 15))
        self.assertEqual(built.dates[:2], days("2025-01-15", "2025-02-15"))
        self.refused("FIRST_DATE", h.build, date(2025, 1, 15), date(2025, 7, 15), 3, Unit.MONTHS, first=date(2025, 1, 15))

    def test_request_bytes(self) -> None:
        request = bytes.fromhex("01 0004 000B436C 02 0004 000B4403 03 0003 4D0001 FF 0000")
        built = h.build_bytes(request)
        self.assertEqual(built.dates, [date(2022, month, 1) for month in range(1, 7)])
        self.assertEqual(built.unadjusted, built.dates)
        self.assertEqual((built.regular, built.tries), ([True] * 5, 6))
        adjusted = h.build_bytes(request[:-3] + bytes.fromhex("05 0001 01 06 0001 01 0A 0001 60") + request[-3:])
        self.assertEqual((adjusted.dates[0], adjusted.dates[4]), (date(2022, 1, 3), date(2022, 5, 2)))
        self.assertEqual(adjusted.unadjusted, built.dates)
        self.refused("REQUEST", h.build_bytes, request[:-1])
        self.refused("REQUEST", h.build_bytes, b"")
        self.refused("ROOM", h.build_bytes, request, room=5)

    def test_a_book(self) -> None:
        one = bytes.fromhex("01 0004 000B47EF 02 0004 000B47EF 03 0003 4D0001 FF 0000")
        two = bytes.fromhex("01 0004 000B4863 02 0004 000B4869 03 0003 4D0003 04 0001 03 FF 0000")
        single = h.Booked(days("2025-03-01"), days("2025-03-01"), [], 1)
        pair = h.Booked(days("2025-06-25", "2025-07-20"), days("2025-06-25", "2025-07-20"), [True], 1)
        self.assertEqual(h.book([]), [])
        self.assertEqual(h.book([b"", one, one[:-1], two, one]), [h.Refusal.REQUEST, single, h.Refusal.REQUEST, pair, single])
        self.assertEqual(h.book([two, one], 3), [pair, single])
        self.assertEqual(h.book([two, one], 2), [h.Refusal.ROOM, single])
        self.assertEqual(h.book([one], 0), [h.Refusal.ROOM])
        self.assertEqual(h.book([b""] * 64), [h.Refusal.REQUEST] * 64)
        self.refused("BATCH", h.book, [b""] * 65)
        self.refused("BATCH", h.book, [bytes(65536)])
        self.assertEqual(h.book([bytes(65535), one]), [h.Refusal.REQUEST, single])

    def test_lists_lent_to_a_book(self) -> None:
        one = bytes.fromhex("0017 01 0004 000B47EF 02 0004 000B47EF 03 0003 4D0001 FF 0000")

        def lent(whole: bytes, dates: int, flags: int, unadjusted: int, places: int) -> int:
            return h._library.heronspan_book(whole, len(whole), days_lent, dates, flags_lent, flags, unadjusted_lent, unadjusted, answers, places)

        days_lent, flags_lent = (ctypes.c_uint32 * 4)(*[7] * 4), (ctypes.c_uint8 * 4)(*[8] * 4)
        unadjusted_lent, answers = (ctypes.c_uint32 * 4)(*[9] * 4), (ctypes.c_uint32 * 9)(*[6] * 9)
        for lengths in ((2, 2, 1), (2, 1, 2), (1, 2, 2)):
            self.assertEqual(lent(b"\0", *lengths, 0), -h.Refusal.UNEVEN, lengths)
        for whole, places in ((b"\0", 8), (bytes.fromhex("0005 FF0000"), 8), (one + one + b"\0", 9), (one + one, 7), (one + one[:-1], 8)):
            self.assertEqual(lent(whole, 2, 2, 2, places), -h.Refusal.BATCH, whole)
        self.assertEqual(lent(b"", 2, 2, 2, 0), 0)
        self.assertEqual((list(days_lent), list(flags_lent), list(unadjusted_lent), list(answers)), ([7] * 4, [8] * 4, [9] * 4, [6] * 9))
        self.assertEqual(lent(one + one, 2, 2, 2, 8), 2)
        self.assertEqual((list(days_lent), list(flags_lent), list(unadjusted_lent)), ([739311, 739311, 7, 7], [8] * 4, [739311, 739311, 9, 9]))
        self.assertEqual(list(answers), [1, 0, 1, 0, 1, 1, 1, 0, 6])

    def test_the_coming_date(self) -> None:
        trade = (date(2025, 1, 15), date(2025, 12, 20), 3, Unit.MONTHS)
        self.assertEqual(h.coming(date(2025, 1, 14), *trade), h.Coming(date(2025, 1, 15), None))
        self.assertEqual(h.coming(date(2025, 1, 15), *trade), h.Coming(date(2025, 3, 20), False))
        self.assertEqual(h.coming(date(2025, 3, 20), *trade), h.Coming(date(2025, 6, 20), True))
        self.assertIsNone(h.coming(date(2025, 12, 20), *trade))
        self.assertEqual(h.coming(date(2025, 10, 15), *trade, Rule.FORWARD), h.Coming(date(2025, 12, 20), False))
        daily = (date(1901, 1, 1), date(2199, 12, 31), 1, Unit.DAYS)
        self.assertEqual(h.coming(date(1950, 1, 1), *daily), h.Coming(date(1950, 1, 2), True))
        self.refused("ROOM", h.build, *daily)
        self.refused("BOOK", h.coming, None, *trade)
        self.refused("NOTPLAIN", h.coming, date(2025, 2, 1), *trade, convention=Convention.FOLLOWING)
        self.refused("NOTPLAIN", h.coming, date(2025, 2, 1), *trade, first=date(2025, 3, 20))
        self.refused("TENOR", h.coming, date(2025, 2, 1), *trade[:2], 367, Unit.DAYS, Rule.ZERO)
        self.refused("REQUEST", h.coming, date(2025, 2, 1), *trade, rule=10)

    def test_the_coming_date_is_what_the_list_shows(self) -> None:
        for rule in (Rule.BACKWARD, Rule.FORWARD):
            for tenor, unit in ((1, Unit.MONTHS), (5, Unit.MONTHS), (9, Unit.DAYS), (2, Unit.WEEKS), (1, Unit.YEARS)):
                trade = (date(2024, 1, 31), date(2026, 2, 28), tenor, unit, rule)
                built = h.build(*trade)
                for back in range(-3, 760):
                    asked = date.fromordinal(date(2024, 1, 31).toordinal() + back)
                    later = [i for i, day in enumerate(built.dates) if day > asked]
                    shown = h.Coming(built.dates[later[0]], built.regular[later[0] - 1] if later[0] else None) if later else None
                    self.assertEqual(h.coming(asked, *trade), shown, (asked, trade))

    def test_refusals(self) -> None:
        asked = (date(2025, 6, 25), date(2025, 3, 1), 3, Unit.MONTHS)
        self.refused("COLLAPSED", h.build, *asked, rule=Rule.TWENTIETH)
        self.refused("NEGATIVE", h.build, date(2025, 1, 1), date(2025, 3, 1), -1, Unit.MONTHS)
        self.refused("REQUEST", h.build, date(2025, 1, 1), date(2025, 3, 1), 1, Unit.MONTHS, rule=10)

    def test_month_end_with_short_tenors(self) -> None:
        asked = (date(2025, 1, 31), date(2025, 3, 31), 1, Unit.WEEKS)
        self.refused("SHORTEND", h.build, *asked, monthend=True)
        self.refused("SHORTEND", h.build, *asked, monthend=True, room=0)
        self.refused("MONTHEND", h.build, *asked, rule=Rule.TWENTIETH, monthend=True)
        self.assertEqual(len(h.build(*asked, rule=Rule.ZERO, monthend=True).dates), 2)

    def test_twentieths(self) -> None:
        self.assertEqual(h.next_twentieth(date(2025, 4, 25), Rule.CDS), date(2025, 6, 20))
        self.assertEqual(h.next_twentieth(date(2025, 4, 25), Rule.TWENTIETH), date(2025, 5, 20))
        self.assertEqual(h.previous_twentieth(date(2025, 4, 25), Rule.TWENTIETH), date(2025, 4, 20))
        self.assertEqual(h.previous_twentieth(date(2025, 4, 25), Rule.CDS), date(2025, 3, 20))
        self.assertEqual(h.previous_twentieth(date(2025, 3, 20), Rule.CDS), date(2025, 3, 20))
        self.assertEqual(h.previous_twentieth(date(2025, 3, 19), Rule.CDS), date(2024, 12, 20))
        self.assertEqual(h.previous_twentieth(date(1901, 1, 1), Rule.TWENTIETH_IMM), date(1900, 12, 20))


class YearFractions(Refusals):
    def test_parts(self) -> None:
        def parts(basis: Basis, start: str, end: str) -> tuple[int, int]:
            given = h.year_parts(basis, *days(start, end))
            return given.numerator, given.denominator

        thirty = Basis.THIRTY_E_360
        self.assertEqual(parts(thirty, "2025-02-28", "2025-03-31"), (32, 360))
        self.assertEqual(parts(thirty, "2025-02-28", "2025-03-01"), (3, 360))
        self.assertEqual(parts(thirty, "2025-01-31", "2025-02-28"), (28, 360))
        self.assertEqual(parts(thirty, "2025-01-29", "2025-03-31"), (61, 360))
        self.assertEqual(parts(thirty, "2025-01-30", "2025-01-31"), (0, 360))
        self.assertEqual(parts(Basis.ACTUAL_360, "2025-01-15", "2025-04-15"), (90, 360))
        self.assertEqual(parts(Basis.ACTUAL_365_FIXED, "2025-01-15", "2025-01-15"), (0, 365))
        self.assertEqual(parts(Basis.ACTUAL_360, "1800-01-01", "1901-01-01"), (36889, 360))
        self.assertEqual(h.year_parts(Basis.ACTUAL_360, *days("2025-01-15", "2025-04-15")).fraction, Fraction(1, 4))

    def test_floats_are_one_division(self) -> None:
        self.assertEqual(h.year_fraction(Basis.ACTUAL_360, *days("2025-01-15", "2025-04-15")), 0.25)
        self.assertEqual(h.year_fraction(Basis.ACTUAL_360, *days("2025-01-01", "2025-01-06")).hex(), (5 / 360).hex())
        self.assertEqual(h.year_fraction(Basis.ACTUAL_365_FIXED, *days("2025-01-01", "2025-01-04")).hex(), (3 / 365).hex())
        self.assertEqual(h.year_fraction(Basis.ACTUAL_360, *days("2025-01-15", "2025-01-15")).hex(), (0.0).hex())

    def test_refused(self) -> None:
        for call in (h.year_fraction, h.year_parts):
            self.refused("REVERSED", call, Basis.THIRTY_E_360, *days("2025-01-31", "2025-01-30"))
            self.refused("BOOK", call, Basis.ACTUAL_360, date(2025, 1, 1), None)
            self.refused("BOOK", call, Basis.ACTUAL_360, *days("1799-12-31", "2025-01-01"))
            self.refused("REQUEST", call, 3, None, None)
        self.refused("BOOK", h.year_report, [date(2025, 1, 10), date(2025, 1, 9), None])
        self.refused("REVERSED", h.year_report, days("2025-01-01", "2025-03-01", "2025-02-01", "2025-06-01"))

    def test_a_short_list_comes_first_and_stays(self) -> None:
        lent = (ctypes.c_uint32 * 3)(7, 8, 9)
        library = h._library
        self.assertEqual(library.heronspan_year_parts(9, 0, 0, lent, 1), -h.Refusal.ROOM)
        self.assertEqual(library.heronspan_year_report(lent, 1, lent, 2), -h.Refusal.ROOM)
        self.assertEqual(library.heronspan_year_parts(9, 0, 0, lent, 2), -h.Refusal.REQUEST)
        self.assertEqual(library.heronspan_year_parts(0, 739282, 739281, lent, 2), -h.Refusal.REVERSED)
        self.assertEqual(list(lent), [7, 8, 9])
        self.assertEqual(library.heronspan_year_parts(0, 739281, 739282, lent, 3), 0)
        self.assertEqual(list(lent), [1, 360, 9])

    def test_over_a_schedule(self) -> None:
        built = h.build(date(2025, 1, 15), date(2025, 12, 20), 3, Unit.MONTHS)
        self.assertEqual(built.year_report(), h.Sums(339, 339, 335))
        self.assertEqual(built.year_fractions(Basis.ACTUAL_360), [n / 360 for n in (64, 92, 92, 91)])
        self.assertEqual(sum(parts.fraction for parts in built.year_parts(Basis.THIRTY_E_360)), Fraction(335, 360))
        self.assertEqual(h.year_report([]), h.Sums(0, 0, 0))
        self.assertEqual(h.year_report(days("2025-01-31", "2025-02-28", "2025-02-28", "2025-03-31")), h.Sums(59, 59, 60))


if __name__ == "__main__":
    unittest.main()
