#!/usr/bin/env python3
"""Tests of tools/request: what it writes stands here as hexadecimal digits, by hand from document 01."""
import importlib.machinery
import importlib.util
import os
import subprocess
import sys
import tempfile
import unittest

sys.dont_write_bytecode = True
TOOL = os.path.join(os.path.dirname(os.path.dirname(os.path.abspath(__file__))), "tools", "request")
LOADER = importlib.machinery.SourceFileLoader("request", TOOL)
request = importlib.util.module_from_spec(importlib.util.spec_from_loader("request", LOADER))
LOADER.exec_module(request)

DATES = "01 0004 000B436C 02 0004 000B4403"
END = "FF 0000"


def run(*words, data=b"", **environment):
    return subprocess.run([sys.executable, TOOL, *words], input=data, capture_output=True, check=False, env={**os.environ, **environment})


class Writes(unittest.TestCase):
    def written(self, *options):
        words = request.parser().parse_args(["2022-01-01", "2022-06-01", *options])
        words.closed = words.closed and request.closed_days(words.closed.split(";"))
        return request.encode(words)

    def check(self, hexadecimal, *options):
        self.assertEqual(self.written(*options).hex(), bytes.fromhex(DATES + hexadecimal + END).hex())

    def test_example(self):
        self.check("03 0003 4D0001", "1M")

    def test_left_out(self):
        self.check("")

    def test_tenors(self):
        self.check("03 0003 440000", "0d")
        self.assertEqual(request.tenor_bytes("-2w"), b"W\xff\xfe")
        self.assertEqual(request.tenor_bytes("32767Y"), b"Y\x7f\xff")
        self.assertEqual(request.tenor_bytes("-32768D"), b"D\x80\x00")

    def test_rules(self):
        self.check("04 0001 00", "--rule", "zero")
        self.check("04 0001 05", "--rule", "third-wednesday")
        self.check("04 0001 09", "--rule", "CDS2015")

    def test_conventions(self):
        self.check("05 0001 02 06 0001 04", "--convention", "modified following", "--termination-convention",
                   "ModifiedPreceding")

    def test_month_end_and_anchors(self):
        self.check("07 0001 01 08 0004 000B438B 09 0004 000B43E5", "--eom", "--first", "2022-02-01", "--penultimate",
                   "2022-05-02")

    def test_closed(self):
        self.check("0A 0001 60", "--weekend")
        self.check("0A 0001 7F", "--closed-days", "mon,Tue,wednesday,thu,fri,sat,SUN")
        self.check("0B 0008 000B436C 00000000", "--closed", "2022-01-01 # new year;;0")

    def test_reversed_dates_are_written(self):
        words = request.parser().parse_args(["2022-06-01", "2022-01-01"])
        self.assertEqual(request.encode(words), bytes.fromhex("01 0004 000B4403 02 0004 000B436C" + END))


class Refuses(unittest.TestCase):
    def test_words(self):
        for call, word in [(request.day_number, "2022-02-30"), (request.day_number, "2022-2-3"),
                           (request.day_number, "4294967296"), (request.day_number, ""),
                           (request.tenor_bytes, "M"), (request.tenor_bytes, "3X"), (request.tenor_bytes, "32768D"),
                           (request.weekly_mask, "mon,day")]:
            with self.subTest(word=word), self.assertRaises(request.Unsayable):
                call(word)

    def test_too_many_closed(self):
        self.assertEqual(len(request.closed_days(["738156"] * 4096)), 4096)
        with self.assertRaises(request.Unsayable):
            request.closed_days(["738156"] * 4097)

    def test_one_line_and_status_2(self):
        for words in [("2022-01-01",), ("2022-01-01", "2022-06-01", "3X"), ("2022-01-01", "2022-06-01", "--rule", "CDO"),
                      ("2022-01-01", "2022-06-01", "--closed", "/nowhere/at/all"), ("read", "/nowhere/at/all"), ()]:
            with self.subTest(words=words):
                done = run(*words)
                self.assertEqual((done.returncode, done.stdout), (2, b""))
                self.assertEqual(done.stderr.count(b"\n"), 1)
                self.assertTrue(done.stderr.startswith(b"request: "))


class Reads(unittest.TestCase):
    def lines(self, hexadecimal):
        return request.decode(bytes.fromhex(hexadecimal))

    def test_words(self):
        self.assertEqual(
            self.lines(DATES + "03 0003 4DFFFF 04 0001 08 05 0001 02 06 0001 03 07 0001 01 08 0004 00000000"
                       "09 0004 000B43E5 0A 0001 60 0B 0004 000B436C" + END),
            ["effective 2022-01-01", "termination 2022-06-01", "tenor -1M", "rule CDS", "convention Modified Following",
             "termination-convention Preceding", "end-of-month on", "first 0", "penultimate 2022-05-02",
             "closed-days Sat,Sun", "closed 2022-01-01"])

    def test_no_request(self):
        for hexadecimal in ["", DATES, DATES + "FF 0001 00", DATES + END + "00", DATES + "02 0004 000B4403" + END,
                            DATES + "0C 0000" + END, DATES + "03 0003 580001" + END, DATES + "04 0001 0A" + END,
                            DATES + "0A 0001 80" + END, DATES + "0B 0003 000000" + END, "01 0004 000B436C" + END]:
            with self.subTest(bytes=hexadecimal), self.assertRaises(request.Unsayable):
                self.lines(hexadecimal)


class Command(unittest.TestCase):
    def test_negative_tenor_and_files(self):
        with tempfile.TemporaryDirectory() as folder:
            closed, written = os.path.join(folder, "closed"), os.path.join(folder, "written")
            with open(closed, "w", encoding="utf-8") as file:
                file.write("2022-01-03\n\n2022-04-15  # Good Friday\n")
            made = run("2022-01-01", "2022-06-01", "-3M", "--closed", closed, "-o", written)
            self.assertEqual((made.returncode, made.stdout, made.stderr), (0, b"", b""))
            self.assertEqual(run("read", written).stdout.decode().splitlines(),
                             ["effective 2022-01-01", "termination 2022-06-01", "tenor -3M",
                              "closed 2022-01-03 2022-04-15"])

    def test_calendar_file_without_the_library(self):
        lines = ["BEGIN:VCALENDAR", "BEGIN:VEVENT", "DTSTART;VALUE=DATE:20220415", "DTEND;VALUE=DATE:20220417", "END:VEVENT", "END:VCALENDAR", ""]
        with tempfile.TemporaryDirectory() as folder:
            closed = os.path.join(folder, "Easter.ICS")
            with open(closed, "w", encoding="utf-8") as file:
                file.write("\n".join(lines))
            made = run("2022-01-01", "2022-06-01", "--closed", closed, HERONSPAN_LIBRARY="/nowhere/at/all")
            self.assertEqual(made.stdout.hex(), bytes.fromhex(DATES + "0B 0008 000B43D4 000B43D5" + END).hex())
            self.assertIn(b"oracle/holidays.py", made.stderr)
            with open(closed, "w", encoding="utf-8") as file:
                file.write("\n".join(lines[:4]))
            made = run("2022-01-01", "2022-06-01", "--closed", closed, HERONSPAN_LIBRARY="/nowhere/at/all")
            self.assertEqual((made.returncode, made.stdout), (2, b""))
            self.assertIn(b"refused at line 4: 24", made.stderr)

    def test_pipe(self):
        made = run("2022-01-01", "2022-06-01", "1M")
        self.assertEqual(made.stdout.hex(), "010004000b436c020004000b44030300034d0001ff0000")
        self.assertEqual(run("read", data=made.stdout).stdout, b"effective 2022-01-01\ntermination 2022-06-01\ntenor 1M\n")


if __name__ == "__main__":
    unittest.main()
