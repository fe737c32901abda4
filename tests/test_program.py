#!/usr/bin/env python3
"""Runs the built program on requests and on bytes that are none, and compares what it prints.

What must be printed stands here, by hand from document 01. The program is built first: ./heronspan does it.
"""
import datetime
import os
import subprocess
import sys
import unittest

sys.dont_write_bytecode = True
ROOT = os.path.dirname(os.path.dirname(os.path.abspath(__file__)))
PROGRAM = os.path.join(ROOT, "heronspan")
TOOL = os.path.join(ROOT, "tools", "request")

EXAMPLE = bytes.fromhex("01 0004 000B436C 02 0004 000B4403 03 0003 4D0001 FF 0000")
EXAMPLE_TEXT = """6 dates, 6 tries
2022-01-01
2022-02-01 R
2022-03-01 R
2022-04-01 R
2022-05-01 R
2022-06-01 R
"""
# every field, with two closed dates
FULL = bytes.fromhex("01 0004 000B436C 02 0004 000B4403 03 0003 4D0001 04 0001 01 05 0001 01 06 0001 01 07 0001 00"
                     "08 0004 00000000 09 0004 00000000 0A 0001 60 0B 0008 000B436C 000B4403 FF 0000")
FULL_TEXT = """6 dates, 6 tries
2022-01-03 (2022-01-01)
2022-02-01 R
2022-03-01 R
2022-04-01 R
2022-05-02 R (2022-05-01)
2022-06-02 R (2022-06-01)
"""


def answer(data):
    return subprocess.run([PROGRAM], input=data, capture_output=True, check=True).stdout.decode()


def book(*requests, end=b""):
    whole = b"".join(len(data).to_bytes(2, "big") + data for data in requests) + end
    return subprocess.run([PROGRAM, "--book"], input=whole, capture_output=True, check=True).stdout.decode()


def request(*words):
    return subprocess.run([sys.executable, TOOL, *words], capture_output=True, check=True).stdout


def field(tag, body):
    return bytes([tag]) + len(body).to_bytes(2, "big") + body


def closed(count):
    """The example with that many closed dates, all long before it."""
    days = b"".join((657072 + k).to_bytes(4, "big") for k in range(count))
    return EXAMPLE[:-3] + field(0x0B, days) + EXAMPLE[-3:]


class Schedules(unittest.TestCase):
    def printed(self, text, *words):
        self.assertEqual(answer(request(*words)), text)

    def test_example(self):
        self.assertEqual(answer(EXAMPLE), EXAMPLE_TEXT)
        self.printed(EXAMPLE_TEXT, "2022-01-01", "2022-06-01", "1M")

    def test_every_field(self):
        self.assertEqual(answer(FULL), FULL_TEXT)

    def test_stub(self):
        self.printed("5 dates, 4 tries\n2025-01-15\n2025-03-20 S\n2025-06-20 R\n2025-09-20 R\n2025-12-20 R\n",
                     "2025-01-15", "2025-12-20", "3M")

    def test_month_ends(self):
        self.printed("5 dates, 5 tries\n2025-01-31\n2025-02-28 R\n2025-03-31 R\n2025-04-30 R\n2025-05-31 R\n",
                     "2025-01-31", "2025-05-31", "1M")

    def test_one_date(self):
        self.printed("1 dates, 1 tries\n2025-03-01\n", "2025-03-01", "2025-03-01", "1M")

    def test_old_cds(self):
        self.printed("5 dates, 4 tries\n2025-02-18\n2025-03-20 S\n2025-06-20 R\n2025-09-20 R\n2025-12-20 R\n",
                     "2025-02-18", "2025-12-20", "3M", "--rule", "OldCDS")

    def test_most_dates(self):
        first = datetime.date(2025, 1, 1)
        days = [(first + datetime.timedelta(days=k)).isoformat() for k in range(4096)]
        text = f"4096 dates, 4096 tries\n{days[0]}\n" + "".join(f"{day} R\n" for day in days[1:])
        self.printed(text, days[0], days[-1], "1D")


FOLLOWING = ("--convention", "Following", "--termination-convention", "Following", "--weekend")


class Unadjusted(unittest.TestCase):
    """Request L7: where an entry's two dates differ, the one before adjustment stands in brackets at the end of its line."""

    def lines(self, *words, shut=()):
        """The lines below the header; weekends and these days are closed."""
        asked = request(*words)
        if shut:
            days = b"".join(datetime.date.fromisoformat(day).toordinal().to_bytes(4, "big") for day in shut)
            asked = asked[:-3] + field(0x0B, days) + asked[-3:]
        header, *lines = answer(asked).splitlines()
        self.assertRegex(header, rf"^{len(lines)} dates, [0-9]+ tries$")
        return lines

    def test_brackets_where_the_two_dates_differ(self):
        self.assertEqual(self.lines("2025-01-15", "2025-12-20", "3M", *FOLLOWING),
                         ["2025-01-15", "2025-03-20 S", "2025-06-20 R", "2025-09-22 R (2025-09-20)", "2025-12-22 R (2025-12-20)"])
        self.assertEqual(self.lines("2025-03-01", "2025-06-01", "3M", *FOLLOWING), ["2025-03-03 (2025-03-01)", "2025-06-02 R (2025-06-01)"])
        self.assertEqual(self.lines("2025-03-02", "2025-06-01", "1M", "--rule", "Forward", *FOLLOWING),
                         ["2025-03-03 (2025-03-02)", "2025-04-02 R", "2025-05-02 R", "2025-06-02 S (2025-06-01)"])

    def test_after_the_third_wednesdays(self):
        asked = ("2025-01-10", "2025-03-10", "1M", "--rule", "ThirdWednesdayInclusive", *FOLLOWING)
        self.assertEqual(self.lines(*asked, shut=["2025-02-19"]), ["2025-01-15", "2025-02-20 R (2025-02-19)", "2025-03-19 R"])

    def test_a_date_that_was_not_added_leaves_nothing(self):
        self.assertEqual(self.lines("2025-03-01", "2025-05-02", "1M", *FOLLOWING)[0], "2025-03-03 (2025-03-02)")
        self.assertEqual(self.lines("2025-03-01", "2025-03-02", "1D", "--rule", "Forward", *FOLLOWING), ["2025-03-03 (2025-03-01)"])

    def test_an_end_that_a_rule_leaves_alone(self):
        self.assertEqual(self.lines("2025-01-11", "2025-12-20", "3M", "--rule", "OldCDS", *FOLLOWING)[0], "2025-01-11")

    def test_end_of_month_moves_the_paid_date_alone(self):
        self.assertEqual(self.lines("2025-01-30", "2025-05-30", "1M", "--weekend", "--eom")[2], "2025-03-31 R (2025-03-30)")
        self.assertEqual(self.lines("2025-04-30", "2025-06-30", "1M", "--eom", *FOLLOWING)[1], "2025-05-30 R (2025-05-31)")

    def test_merges_drop_whole_entries(self):
        asked = ("2025-02-28", "2025-03-02", "1D", "--rule", "Forward", "--convention", "Following", "--termination-convention", "Preceding")
        self.assertEqual(self.lines(*asked, "--weekend"), ["2025-02-28 (2025-03-01)"])
        lines = self.lines("2025-01-20", "2025-03-10", "1W", "--rule", "ThirdWednesday", *FOLLOWING, shut=["2025-01-20"])
        self.assertEqual(lines[0], "2025-01-21 (2025-01-20)")
        self.assertFalse(any("2025-01-15" in line for line in lines))

    def test_the_longest_text(self):
        days = [datetime.date(2025, 3, 1) + datetime.timedelta(weeks=k) for k in range(4096)]
        moved = [(day + datetime.timedelta(days=2)).isoformat() for day in days]
        text = f"4096 dates, 4096 tries\n{moved[0]} ({days[0]})\n" + "".join(f"{to} R ({day})\n" for to, day in zip(moved[1:], days[1:]))
        self.assertEqual(len(text), 106517)
        self.assertEqual(answer(request(days[0].isoformat(), days[-1].isoformat(), "1W", "--rule", "Forward", *FOLLOWING)), text)


class Refusals(unittest.TestCase):
    def refused(self, number, *words):
        self.assertEqual(answer(request(*words)), f"refused {number}\n", words)

    def test_input_rows(self):
        year = ("2025-01-01", "2026-01-01", "3M")
        self.refused(2, "1900-12-31", "2026-01-01", "3M")
        self.refused(2, "2025-01-01", "2200-01-01", "3M")
        self.refused(2, "0", "2026-01-01", "3M")
        self.refused(3, *year, "--closed-days", "mon,tue,wed,thu,fri,sat,sun")
        self.refused(4, "2025-01-01", "2026-01-01", "-3M")
        self.refused(5, "2025-01-01", "2026-01-01", "101Y")
        self.refused(5, "2025-01-01", "2026-01-01", "367D")
        self.refused(6, *year, "--first", "2025-01-01")
        self.refused(7, *year, "--rule", "ThirdWednesday", "--first", "2025-03-18")
        self.refused(8, *year, "--rule", "CDS", "--first", "2025-06-20")
        self.refused(9, *year, "--penultimate", "2026-01-01")
        self.refused(10, *year, "--rule", "ThirdWednesday", "--penultimate", "2025-03-18")
        self.refused(11, *year, "--rule", "Twentieth", "--penultimate", "2025-06-20")
        self.refused(12, *year, "--rule", "CDS", "--eom")
        self.refused(27, "2025-01-31", "2025-03-31", "1W", "--eom")
        self.refused(27, "2025-01-31", "2025-03-31", "366D", "--rule", "Forward", "--eom")

    def test_order_of_rows(self):
        self.refused(2, "1900-12-31", "2026-01-01", "-3M", "--closed-days", "mon,tue,wed,thu,fri,sat,sun")
        self.refused(4, "2025-01-01", "2026-01-01", "-101Y")
        self.refused(6, "2025-01-01", "2026-01-01", "3M", "--first", "2025-01-01", "--penultimate", "2026-01-01")

    def test_steps(self):
        # only Sundays are open, and the next five are closed
        sundays = b"".join((datetime.date(2025, 3, 9).toordinal() + 7 * k).to_bytes(4, "big") for k in range(5))
        asked = request("2025-03-03", "2025-06-01", "0D", "--convention", "Modified Following", "--closed-days",
                        "mon,tue,wed,thu,fri,sat")
        self.assertEqual(answer(asked[:-3] + field(0x0B, sundays) + asked[-3:]), "refused 13\n")
        self.refused(14, "2025-01-01", (datetime.date(2025, 1, 1) + datetime.timedelta(days=4096)).isoformat(), "1D")
        self.refused(15, "2025-06-25", "2025-03-01", "3M", "--rule", "Twentieth")

    def test_closed_dates_out_of_order(self):
        turned = EXAMPLE[:-3] + field(0x0B, bytes.fromhex("000B4403 000B436C")) + EXAMPLE[-3:]
        self.assertEqual(answer(turned), "refused 3\n")
        beyond = EXAMPLE[:-3] + field(0x0B, bytes.fromhex("000A06AF")) + EXAMPLE[-3:]
        self.assertEqual(answer(beyond), "refused 3\n")


class NoRequests(unittest.TestCase):
    def refused(self, data, what=""):
        self.assertEqual(answer(data), "refused 17\n", what or data[:40].hex())

    def test_cut_at_every_byte(self):
        for size in range(len(FULL)):
            self.refused(FULL[:size])

    def test_tags(self):
        dates, end = EXAMPLE[:14], EXAMPLE[-3:]
        tenor = EXAMPLE[14:20]
        self.refused(dates[7:] + dates[:7] + end, "out of order")
        self.refused(tenor + dates + end, "out of order")
        self.refused(dates[:7] + dates + end, "repeated")
        self.refused(dates + tenor + tenor + end, "repeated")
        for tag in (0x00, 0x0C, 0x7F, 0xFE):
            self.refused(dates + field(tag, b"\0") + end, "unknown")
        self.refused(dates[:7] + end, "no termination")
        self.refused(dates[7:] + end, "no effective date")
        self.refused(end, "no date")

    def test_lengths(self):
        for tag, size in ((1, 4), (2, 4), (3, 3), (4, 1), (5, 1), (6, 1), (7, 1), (8, 4), (9, 4), (10, 1), (11, 8)):
            at = FULL.index(bytes([tag, 0, size]))
            body = FULL[at + 3:at + 3 + size]
            for wrong in (body + b"\0", body[:-1], b"" if tag != 11 else body[:-3]):
                self.refused(FULL[:at] + field(tag, wrong) + FULL[at + 3 + size:], f"tag {tag}, {len(wrong)} bytes")
            self.refused(FULL[:at + 1] + b"\xff\xff" + FULL[at + 3:], "length beyond the end")

    def test_bytes_outside_their_lists(self):
        for tag, size, wrong in ((3, 3, b"X\0\1"), (3, 3, b"m\0\1"), (4, 1, b"\x0a"), (5, 1, b"\x05"), (6, 1, b"\x05"),
                                 (7, 1, b"\x02"), (10, 1, b"\x80")):
            at = FULL.index(bytes([tag, 0, size]))
            self.refused(FULL[:at] + field(tag, wrong) + FULL[at + 3 + size:], f"tag {tag}")

    def test_the_end(self):
        self.refused(EXAMPLE + EXAMPLE[-3:], "a second FF")
        self.refused(EXAMPLE + b"\0", "a byte after FF")
        self.refused(EXAMPLE[:-3] + field(0xFF, b"\0"), "FF with a body")

    def test_sizes(self):
        for size in (0, 1, 19999, 20000, 20001, 65536, 70000):
            self.refused(bytes(size), f"{size} zeros")
        for size in (19999, 20000, 20001, 65536, 70000):
            self.refused(EXAMPLE + bytes(size - len(EXAMPLE)), f"a request and zeros, {size} bytes")

    def test_closed_dates(self):
        self.assertEqual(answer(closed(0)), EXAMPLE_TEXT)
        self.assertEqual(answer(closed(4096)), EXAMPLE_TEXT)
        self.refused(closed(4097), "4,097 closed dates")


class Ends(unittest.TestCase):
    def test_output_closed_early(self):
        done = subprocess.run(["bash", "-c", '"$0" | true', PROGRAM], input=EXAMPLE, capture_output=True, check=False)
        self.assertEqual((done.returncode, done.stderr), (0, b""))
        done = subprocess.run(["bash", "-c", '"$0" >&-', PROGRAM], input=EXAMPLE, capture_output=True, check=False)
        self.assertEqual((done.stdout, done.stderr), (b"", b""))

    def test_a_file(self):
        stored = os.path.join(ROOT, "crates", "heronspan", "stdin")
        done = subprocess.run([PROGRAM, stored], capture_output=True, check=True)
        self.assertEqual(done.stdout.decode(), EXAMPLE_TEXT)
        done = subprocess.run([PROGRAM, "/nowhere/at/all"], capture_output=True, check=False)
        self.assertEqual((done.returncode, done.stdout), (2, b""))


class Books(unittest.TestCase):
    def test_each_request(self):
        one = request("2025-03-01", "2025-03-01", "1M")
        self.assertEqual(book(EXAMPLE, b"", one, FULL), EXAMPLE_TEXT + "refused 17\n1 dates, 1 tries\n2025-03-01\n" + FULL_TEXT)

    def test_no_request(self):
        self.assertEqual(book(), "")

    def test_refused(self):
        self.assertEqual(book(end=b"\0"), "refused 20\n")
        self.assertEqual(book(EXAMPLE, EXAMPLE, end=b"\0\1"), "refused 20\n")
        self.assertEqual(book(*[b""] * 65), "refused 20\n")
        self.assertEqual(book(*[b""] * 64), "refused 17\n" * 64)

    def test_longest(self):
        self.assertEqual(book(*[bytes(65535)] * 63, EXAMPLE), "refused 17\n" * 63 + EXAMPLE_TEXT)
        self.assertEqual(book(*[bytes(65535)] * 64, end=b"\0"), "refused 20\n")

    def test_each_with_its_own_4096(self):
        daily = request("2022-01-01", "2033-03-19", "1D")
        text = answer(daily)
        self.assertTrue(text.startswith("4096 dates, "))
        self.assertEqual(book(*[daily] * 64), text * 64)


if __name__ == "__main__":
    unittest.main()
