"""Calendar files: the page's examples, what is refused and where, and the way back. Answers are by hand."""
import ctypes
import subprocess
import sys
import tempfile
import unittest
from datetime import date, timedelta
from pathlib import Path

import heronspan as h

MAY = date(2025, 5, 1)


def file(*lines: str) -> bytes:
    return "".join(line + "\r\n" for line in lines).encode()


def events(*lines: str) -> bytes:
    return file("BEGIN:VCALENDAR", "BEGIN:VEVENT", *lines, "END:VEVENT", "END:VCALENDAR")


class Holidays(unittest.TestCase):
    def refused(self, name: str, line: int, *given: object) -> None:
        with self.assertRaises(h.Refused) as caught:
            h.holidays(*given)
        self.assertEqual((caught.exception.name, caught.exception.line), (name, line))

    def test_days(self) -> None:
        self.assertEqual(h.holidays(events("DTSTART;VALUE=DATE:20250501")), [MAY])
        self.assertEqual(h.holidays(events("DTSTART;VALUE=DATE:2025", "\t0501")), [MAY])
        self.assertEqual(h.holidays(events("DTEND;VALUE=DATE:20250503", "DTSTART;VALUE=DATE:20250501")), [MAY, date(2025, 5, 2)])
        self.assertEqual(h.holidays(b"begin:vcalendar\nend:vcalendar"), [])

    def test_refusals_have_their_line(self) -> None:
        self.refused("ICAL", 0, b"")
        self.refused("ICAL", 0, b" " * 65537)
        self.refused("ICAL", 1, b"<html>")
        self.refused("ICAL", 3, events("DTSTART:20250501"))
        self.refused("ICALKIND", 3, events("DTSTART;TZID=Europe/Berlin:20250501T090000"))
        self.refused("ICALKIND", 4, events("DTSTART;VALUE=DATE:20250501", "RRULE:FREQ=YEARLY"))
        self.refused("BOOK", 4, events("DTSTART;VALUE=DATE:17991231"))
        self.refused("ROOM", 5, events("DTSTART;VALUE=DATE:20250501", "DTEND;VALUE=DATE:20260501"), 364)
        self.refused("FULL", 5, events("DTSTART;VALUE=DATE:20250501", "DTEND;VALUE=DATE:20450501"), 5000)

    def test_lists_stay_on_a_refusal(self) -> None:
        days, line = (ctypes.c_uint32 * 3)(7, 8, 9), (ctypes.c_uint32 * 2)(5, 6)
        call = h._library.heronspan_holidays_import
        good, bad = events("DTSTART;VALUE=DATE:20250501"), events("DTSTART;VALUE=DATE:20250229")
        self.assertEqual(call(good, len(good), days, 3, line, 0), -h.Refusal.ROOM)
        self.assertEqual((list(days), list(line)), ([7, 8, 9], [5, 6]))
        self.assertEqual(call(bad, len(bad), days, 3, line, 2), -h.Refusal.ICAL)
        self.assertEqual((list(days), list(line)), ([7, 8, 9], [3, 6]))
        self.assertEqual(call(good, len(good), days, 3, line, 2), 1)
        self.assertEqual((list(days), list(line)), ([MAY.toordinal(), 8, 9], [0, 6]))

    def test_requests_take_them(self) -> None:
        tool = Path(__file__).resolve().parents[3] / "tools" / "request"
        with tempfile.TemporaryDirectory() as folder:
            closed = Path(folder, "may.ics")
            closed.write_bytes(events("DTSTART;VALUE=DATE:20250501"))
            made = subprocess.run([sys.executable, tool, "2025-04-01", "2025-06-01", "--closed", closed, "--hex"], capture_output=True, check=False)
            self.assertEqual((made.returncode, made.stderr), (0, b""))
            self.assertIn(b"0b0004000b482c", made.stdout)
            closed.write_bytes(events("DTSTART:20250501"))
            made = subprocess.run([sys.executable, tool, "2025-04-01", "2025-06-01", "--closed", closed], capture_output=True, check=False)
            self.assertEqual((made.returncode, made.stdout), (2, b""))
            self.assertIn(b"refused at line 3: 24 ICAL", made.stderr)

    def test_a_calendar_of_them(self) -> None:
        calendar = h.Calendar(h.WEEKENDS, h.holidays(events("DTSTART;VALUE=DATE:20250501")))
        self.assertEqual(calendar.adjust(MAY, h.Convention.FOLLOWING).date, date(2025, 5, 2))


class HolidaysFile(unittest.TestCase):
    def test_bytes(self) -> None:
        head = ["BEGIN:VCALENDAR", "VERSION:2.0", "PRODID:-//Heronspan//EN"]
        event = ["BEGIN:VEVENT", "UID:20250501@heronspan", "DTSTAMP:19700101T000000Z", "DTSTART;VALUE=DATE:20250501",
                 "DTEND;VALUE=DATE:20250503", "END:VEVENT"]
        self.assertEqual(h.holidays_file([MAY, date(2025, 5, 2)]), file(*head, *event, "END:VCALENDAR"))
        self.assertEqual(h.holidays_file([]), file(*head, "END:VCALENDAR"))

    def test_reads_back(self) -> None:
        for dates in ([], [MAY], [date(1800, 1, 1), date(2399, 12, 31)], [MAY + timedelta(n) for n in range(4096)],
                      [MAY + timedelta(2 * n) for n in range(495)]):
            self.assertEqual(h.holidays(h.holidays_file(dates)), dates)

    def test_refused(self) -> None:
        for name, dates in (("CALENDAR", [MAY, MAY]), ("CALENDAR", [date(1799, 12, 31)]),
                            ("ICAL", [MAY + timedelta(2 * n) for n in range(496)])):
            with self.assertRaises(h.Refused) as caught:
                h.holidays_file(dates)
            self.assertEqual(caught.exception.name, name)

    def test_a_short_list_stays(self) -> None:
        days, lent = (ctypes.c_uint32 * 1)(MAY.toordinal()), (ctypes.c_uint8 * 203)(*[7] * 203)
        call = h._library.heronspan_holidays_export
        self.assertEqual(call(days, 1, lent, 201), -h.Refusal.ROOM)
        self.assertEqual(list(lent), [7] * 203)
        self.assertEqual(call(days, 1, lent, 203), 202)
        self.assertEqual((bytes(lent[:202]), lent[202]), (h.holidays_file([MAY]), 7))


if __name__ == "__main__":
    unittest.main()
