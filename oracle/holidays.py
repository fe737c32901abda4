#!/usr/bin/env python3
"""Calendar files against a second reading of request L10, and against the days that iCalendar libraries read.

    oracle/holidays.py SEED COUNT        after bindings/test; on machines other than x86-64 with target/python-x86-64/python3

It asks heronspan_holidays_import, as C calls it, for the request's examples, for COUNT random files and for COUNT mutated ones, each into
a list of its own room, and holds answer, line and list to `reading` below; lists of dates through the export and back. Files as
python-icalendar, vobject, Google, Outlook, Apple, gov.uk and our export write them are held to `reading`, and to the days that libical,
python-icalendar and vobject find in them, where these are installed. It prints how many files of each kind there were, and stops at
the first difference.
"""
import collections
import ctypes
import ctypes.util
import datetime
import os
import random
import re
import sys

ROOT = os.path.dirname(os.path.dirname(os.path.abspath(__file__)))
FIRST, LAST, MOST = 657072, 876216, 4096
FOREIGN = {b"RRULE", b"RDATE", b"EXDATE", b"DURATION"}


# ---- the second reading: rulings 1 to 29 of the request's page
class No(Exception):
    """A refusal: its number and its line."""


def upper(word):
    return word.upper() if word.isascii() else re.sub(rb"[a-z]", lambda m: m[0].upper(), word)


def unfolded(data):
    """Lines with the number of the physical line where each starts (1 to 5)."""
    physical = data.split(b"\n")
    ended, rest = physical[:-1], physical[-1]
    physical = [line[:-1] if line.endswith(b"\r") else line for line in ended] + ([rest] if rest else [])
    if physical and physical[0].startswith(b"\xef\xbb\xbf"):
        physical[0] = physical[0][3:]
    lines = []
    for at, line in enumerate(physical):
        if at and line[:1] in (b" ", b"\t"):
            lines[-1][1].append(line[1:])
        else:
            lines.append((at + 1, [line]))
    return [(number, b"".join(parts)) for number, parts in lines]


def content(line):
    """Name, parameters, and the value or None (6, 8)."""
    pieces, start, quoted = [], 0, False
    for mark in re.finditer(rb'[";:]', line):
        if mark[0] == b'"':
            quoted = not quoted
        elif not quoted:
            pieces.append(line[start:mark.start()])
            start = mark.end()
            if mark[0] == b":":
                return upper(pieces[0]), pieces[1:], line[start:]
    pieces.append(line[start:])
    return upper(pieces[0]), pieces[1:], None


def day_of(digits):
    """Day number of eight digits, from year 0000 on, 366 days before day 1; None where there is no such day (17)."""
    if not re.fullmatch(rb"[0-9]{8}", digits):
        return None
    year, month, day = int(digits[:4]), int(digits[4:6]), int(digits[6:])
    try:
        return datetime.date(year or 2000, month, day).toordinal() - (0 if year else 730485)
    except ValueError:
        return None


def is_timed(value):
    parts = re.fullmatch(rb"([0-9]{8})[Tt]([0-9]{2})([0-9]{2})([0-9]{2})[Zz]?", value)
    return parts is not None and day_of(parts[1]) is not None and int(parts[2]) < 24 and int(parts[3]) < 60 and int(parts[4]) <= 60


def said(parameters, value, number):
    """The day of a DTSTART or DTEND (17 to 20)."""
    kinds = [upper(p.partition(b"=")[2]) for p in parameters if upper(p.partition(b"=")[0]) == b"VALUE"]
    if value is None or len(kinds) > 1 or kinds not in ([], [b"DATE"], [b"DATE-TIME"]):
        raise No(24, number)
    if kinds == [b"DATE"]:
        day = day_of(value)
        if day is None:
            raise No(24, number)
        return day
    raise No(25 if is_timed(value) else 24, number)


def close(event, number, days, room):
    """END:VEVENT (23 to 25)."""
    if "DTSTART" not in event:
        raise No(24, number)
    first = event["DTSTART"]
    past = event.get("DTEND", first + 1)
    if past <= first:
        raise No(24, number)
    if first < FIRST or past > LAST + 1:
        raise No(2, number)
    for day in range(first, past):
        if day not in days:
            if len(days) >= min(room, MOST):
                raise No(14 if room < MOST else 23, number)
            days.add(day)


def read(data, room):
    if not 1 <= len(data) <= 65536:
        raise No(24, 0)
    lines, days, parts, event = unfolded(data), set(), [], None
    for number, line in lines:
        if not line:
            continue
        name, parameters, value = content(line)
        if name == b"BEGIN":
            part = None if value is None else upper(value)
            outermost, second = not parts, parts == [b"VCALENDAR"]
            if part is None or (part == b"VCALENDAR") != outermost or (part == b"VEVENT" and not second):
                raise No(24, number)
            parts.append(part)
            if part == b"VEVENT":
                event = {}
        elif name == b"END":
            if value is None or not parts or parts[-1] != upper(value):
                raise No(24, number)
            if parts.pop() == b"VEVENT":
                close(event, number, days, room)
        elif not parts:
            raise No(24, number)
        elif parts[-1] == b"VEVENT":
            if name in (b"DTSTART", b"DTEND"):
                if name.decode() in event:
                    raise No(24, number)
                event[name.decode()] = said(parameters, value, number)
            elif name in FOREIGN:
                raise No(25, number)
    if parts or not any(line for _, line in lines):
        raise No(24, lines[-1][0])
    return sorted(days)


def reading(data, room=MOST):
    """The days, or the number of the refusal and its line."""
    try:
        return read(data, room)
    except No as refusal:
        return refusal.args


# ---- ours, through C; places behind those lent must stay
def library():
    found = ctypes.CDLL(os.environ.get("HERONSPAN_LIBRARY", os.path.join(ROOT, "target", "libheronspan.so")))
    for name in ("import", "export"):
        getattr(found, "heronspan_holidays_" + name).restype = ctypes.c_int64
    return found


def ours(asked, data, room):
    lent, line = (ctypes.c_uint32 * (room + 8))(*[9] * (room + 8)), (ctypes.c_uint32 * 2)(7, 7)
    size = ctypes.c_size_t
    answer = asked.heronspan_holidays_import(data, size(len(data)), lent, size(room), line, size(1))
    count = max(answer, 0)
    if list(lent[count:]) != [9] * (room + 8 - count) or line[1] != 7 or (answer >= 0 and line[0] != 0):
        return "wrote elsewhere"
    return list(lent[:count]) if answer >= 0 else (-answer, line[0])


def written(asked, days, room=65536):
    """The file of a list, or minus the refusal."""
    lent, size = (ctypes.c_uint8 * 65544)(*[9] * 65544), ctypes.c_size_t
    answer = asked.heronspan_holidays_export((ctypes.c_uint32 * len(days))(*days), size(len(days)), lent, size(room))
    count = max(answer, 0)
    if bytes(lent[count:]) != bytes([9] * (65544 - count)):
        return "wrote elsewhere"
    return bytes(lent[:count]) if answer >= 0 else answer


# ---- the request's examples: ruling, lines, places, answer
WORDS = {"C+": "BEGIN:VCALENDAR", "C-": "END:VCALENDAR", "E+": "BEGIN:VEVENT", "E-": "END:VEVENT", "S": "DTSTART;VALUE=DATE:20250501"}
EXAMPLES = """
C+ / E+ / S / E- / C- | 739372
C+ / E+ / DTSTART;VALUE=DATE:2025 / _0501 / E- / C- | 739372
C+ / E+ / DTSTART;VALUE=DATE:2025 / __0501 / E- / C- | 24 at 3
_BEGIN:VCALENDAR / C- | 24 at 1
C+ /  / E+ /  / _DTSTART:x / E- / C- | 24 at 4
C+ / E+ / DTSTART;X-A="b:c;d";VALUE=DATE:20250501 / E- / C- | 739372
begin:vcalendar / E+ / dtstart;value=date:20250501 / End:vEvent / C- | 739372
C+ / BEGIN:VEVENT~ / S / E- / C- | 24 at 4
C+ / E+ / S / no colon / E- / C- | 739372
C+ / E+ / S / DTEND;VALUE=DATE / E- / C- | 24 at 4
C+ / E+ / S / RRULE / E- / C- | 25 at 4
C+ / END / C- | 24 at 2
C+ / E+ / S / STATUS:CANCELLED / EXRULE:x / E- / C- | 739372
C+ / E+ / S / END:VALARM / C- | 24 at 4
X:1 / C+ / C- | 24 at 1
C+ / C- / x | 24 at 3
E+ / S / E- | 24 at 1
C+ / E+ / E+ / S / E- / E- / C- | 24 at 3
C+ / BEGIN:X-A / E+ / S / E- / END:X-A / C- | 24 at 3
C+ / C+ / C- / C- | 24 at 2
C+ / E+ / S / E- | 24 at 4
C+ / X:1 / _2 / _3 | 24 at 2
C+ /  /  | 24 at 3
 /  | 24 at 2
C+ / E+ / S / E- / C- / C+ / E+ / DTSTART;VALUE=DATE:20250503 / E- / C- | 739372 739374
C+ / C- | no days
C+ / E+ / S / BEGIN:VALARM / DURATION:PT5M / DTSTART:x / END:VALARM / E- / C- | 739372
C+ / E+ / S / BEGIN:VALARM / END:VALARM / DURATION:P1D / E- / C- | 25 at 6
C+ / E+ / DTSTART;VALUE=DATE:20250229 / E- / C- | 24 at 3
C+ / E+ / DTSTART;VALUE=DATE:20250501T000000 / E- / C- | 24 at 3
C+ / E+ / DTSTART;TZID=Europe/Berlin:20250501T090000 / E- / C- | 25 at 3
C+ / E+ / DTSTART:20250501T250000 / E- / C- | 24 at 3
C+ / E+ / S / DTEND:20250502T000000Z / E- / C- | 25 at 4
C+ / E+ / DTSTART:20250501 / E- / C- | 24 at 3
C+ / E+ / DTSTART;VALUE="DATE":20250501 / E- / C- | 24 at 3
C+ / E+ / DTSTART;TZID=Europe/Berlin;VALUE=DATE:20250501 / E- / C- | 739372
C+ / E+ / S / S / E- / C- | 24 at 4
C+ / E+ / S / DTSTART:20250501T000000 / E- / C- | 24 at 4
C+ / E+ / DTEND;VALUE=DATE:20250503 / S / E- / C- | 739372 739373
C+ / E+ / DTEND;VALUE=DATE:20250503 / E- / C- | 24 at 4
C+ / E+ / S / DTEND;VALUE=DATE:20250501 / E- / C- | 24 at 5
C+ / E+ / DTSTART;VALUE=DATE:17000101 / DTEND;VALUE=DATE:17000101 / E- / C- | 24 at 5
C+ / E+ / DTSTART;VALUE=DATE:23991231 / DTEND;VALUE=DATE:24000101 / E- / C- | 876216
C+ / E+ / DTSTART;VALUE=DATE:23991231 / DTEND;VALUE=DATE:24000102 / E- / C- | 2 at 5
C+ / E+ / DTSTART;VALUE=DATE:17991231 / E- / C- | 2 at 4
C+ / E+ / S / E- / E+ / S / E- / C- | 739372 | 1
C+ / E+ / S / DTEND;VALUE=DATE:20260501 / E- / C- | 14 at 5 | 364
C+ / E+ / S / DTEND;VALUE=DATE:20450501 / E- / C- | 14 at 5 | 9
C+ / E+ / S / DTEND;VALUE=DATE:20450501 / E- / C- | 23 at 5 | 5000
C+ / E+ / RRULE:x / S / S / E- / C- | 25 at 3
"""


def examples():
    for row in EXAMPLES.strip("\n").split("\n"):
        lines, answer, room = (row.split(" | ") + ["4096"])[:3]
        words = [WORDS.get(word, word) for word in lines.split(" / ")]
        data = b"".join((" " + w[1:] if w.startswith("_") else w).replace("_", " ", 1 if w.startswith("__") else 0).replace("~", " ").encode() + b"\r\n" for w in words)
        at = answer.split(" at ")
        yield data, int(room), (int(at[0]), int(at[1])) if len(at) == 2 else [] if answer == "no days" else [int(n) for n in answer.split()]


# ---- random files
def date_text(day):
    return datetime.date.fromordinal(day).strftime("%Y%m%d") if day <= 3652059 else "99991231"


def random_day(r):
    return r.choice([r.randint(738000, 740000)] * 6 + [FIRST, LAST, LAST + 1, r.randint(600000, 900000)])


def random_event(r):
    day = random_day(r)
    lines = [f"DTSTART;VALUE=DATE:{date_text(day)}"]
    if r.random() < 0.6:
        lines.append(f"DTEND;VALUE=DATE:{date_text(day + r.choice([1, 1, 1, 2, 7, 40, 0, 3000]))}")
    if r.random() < 0.3:
        lines.append(r.choice(["SUMMARY:Tag der Arbeit, überall", "TRANSP:TRANSPARENT", "STATUS:CANCELLED", "UID:x@y", "X-A;B=\"c:d\":e", "no colon"]))
    if r.random() < 0.04:
        lines.append(r.choice(["RRULE:FREQ=YEARLY", "EXDATE:20250501", "DURATION:P1D", "DTSTART:20250501T090000Z", "dtend;value=date-time:20250501t090000"]))
    r.shuffle(lines)
    if r.random() < 0.15:
        at = r.randint(0, len(lines))
        lines[at:at] = ["BEGIN:VALARM", "TRIGGER:-PT1H", r.choice(["DURATION:PT5M", "DTSTART:x"]), "END:VALARM"]
    return ["BEGIN:VEVENT", *lines, "END:VEVENT"]


def folded(r, line):
    at = r.randint(1, max(1, len(line)))
    return line[:at] + r.choice([b"\r\n ", b"\n\t", b"\n "]) + line[at:]


def random_file(r):
    lines = ["BEGIN:VCALENDAR", "VERSION:2.0"]
    if r.random() < 0.3:
        lines += ["BEGIN:VTIMEZONE", "BEGIN:STANDARD", "DTSTART:19701025T030000", "RRULE:FREQ=YEARLY", "END:STANDARD", "END:VTIMEZONE"]
    for _ in range(r.randint(0, 6)):
        lines += random_event(r)
    lines.append("END:VCALENDAR")
    raw = [line.swapcase().encode() if r.random() < 0.05 else line.encode() for line in lines]
    raw = [folded(r, line) if r.random() < 0.1 else line for line in raw]
    end = r.choice([b"\r\n", b"\n"])
    return (b"\xef\xbb\xbf" if r.random() < 0.1 else b"") + end.join(raw) + r.choice([end, b""])


def mutated(r, data):
    data = bytearray(data)
    for _ in range(r.choice([1, 1, 1, 2, 4])):
        at = r.randint(0, len(data)) if data else 0
        way = r.random()
        if way < 0.3 and data:
            data[at % len(data)] = r.choice(b"\r\n \t:;=\"\x00\xff0189TZabEND")
        elif way < 0.55:
            data[at:at] = r.choice([b"\r", b"\n", b"\r\n ", b"\n\n", b":", b";", b'"', b"END:VEVENT\n", b"BEGIN:X\n", b";VALUE=DATE"])
        elif way < 0.8:
            del data[at:at + r.randint(1, 12)]
        else:
            other = r.randint(0, len(data))
            data[at:at] = data[other:other + r.randint(1, 60)]
    return bytes(data)


# ---- files as producers write them
def produced(years=14):
    """Name, file: shapes of each producer, four days a year from 2019 on."""
    days = [datetime.date(2019 + year, month, day) for year in range(years) for month, day in ((1, 1), (5, 1), (12, 25), (12, 26))]
    one = datetime.timedelta(1)

    def put(head, event, end="\r\n", tail="END:VCALENDAR"):
        text = head + [line for at, day in enumerate(days) for line in event(at, day.strftime("%Y%m%d"), (day + one).strftime("%Y%m%d"))] + [tail]
        return (end.join(text) + end).encode()

    yield "Google", put(
        ["BEGIN:VCALENDAR", "PRODID:-//Google Inc//Google Calendar 70.9054//EN", "VERSION:2.0", "CALSCALE:GREGORIAN", "METHOD:PUBLISH",
         "X-WR-CALNAME:Feiertage in Deutschland", "X-WR-TIMEZONE:UTC", "X-WR-CALDESC:Feiertage und Gedenktage in Deutschland"],
        lambda at, a, b: ["BEGIN:VEVENT", f"DTSTART;VALUE=DATE:{a}", f"DTEND;VALUE=DATE:{b}", "DTSTAMP:20250102T030405Z", f"UID:{a}_abc{at}@google.com",
                          "CLASS:PUBLIC", "CREATED:20240517T093446Z", "DESCRIPTION:Gesetzlicher Feiertag\\nZum Ausblenden von Gedenktagen die Einst", " ellungen öffnen",
                          "LAST-MODIFIED:20240517T093446Z", "SEQUENCE:0", "STATUS:CONFIRMED", "SUMMARY:Tag der Arbeit", "TRANSP:TRANSPARENT", "END:VEVENT"])
    yield "gov.uk", put(
        ["BEGIN:VCALENDAR", "VERSION:2.0", "METHOD:PUBLISH", "PRODID:-//uk.gov/GOVUK calendars//EN", "CALSCALE:GREGORIAN"],
        lambda at, a, b: ["BEGIN:VEVENT", f"DTEND;VALUE=DATE:{b}", f"DTSTART;VALUE=DATE:{a}", "SUMMARY:New Year’s Day", f"UID:ca6af7456b0088abad9a69f9f620f5ac-{at}@gov.uk",
                          "SEQUENCE:0", "DTSTAMP:20250917T112233Z", "END:VEVENT"])
    yield "Outlook", put(
        ["BEGIN:VCALENDAR", "PRODID:-//Microsoft Corporation//Outlook 16.0 MIMEDIR//EN", "VERSION:2.0", "METHOD:PUBLISH", "X-MS-OLK-FORCEINSPECTOROPEN:TRUE",
         "BEGIN:VTIMEZONE", "TZID:W. Europe Standard Time", "BEGIN:STANDARD", "DTSTART:16011028T030000", "RRULE:FREQ=YEARLY;BYDAY=-1SU;BYMONTH=10",
         "TZOFFSETFROM:+0200", "TZOFFSETTO:+0100", "END:STANDARD", "END:VTIMEZONE"],
        lambda at, a, b: ["BEGIN:VEVENT", "CATEGORIES:Holiday", "CLASS:PUBLIC", "CREATED:20250102T030405Z", f"DTEND;VALUE=DATE:{b}", "DTSTAMP:20250102T030405Z",
                          f"DTSTART;VALUE=DATE:{a}", "LAST-MODIFIED:20250102T030405Z", "LOCATION:Germany", "PRIORITY:5", "SEQUENCE:0", "SUMMARY;LANGUAGE=de:Neujahr",
                          "TRANSP:TRANSPARENT", f"UID:040000008200E00074C5B7101A82E00800000000D0{at:04}", "X-ALT-DESC;FMTTYPE=text/html:<!DOCTYPE HTML PUBLIC \"-//W3C//DTD HTML 3.2//E",
                          "\tN\">\\n<html></html>", "X-MICROSOFT-CDO-BUSYSTATUS:FREE", "X-MICROSOFT-CDO-IMPORTANCE:1", "X-MS-OLK-AUTOFILLLOCATION:FALSE",
                          "BEGIN:VALARM", "TRIGGER:-PT1080M", "ACTION:DISPLAY", "DESCRIPTION:Reminder", "END:VALARM", "END:VEVENT"])
    yield "Apple", put(
        ["BEGIN:VCALENDAR", "METHOD:PUBLISH", "VERSION:2.0", "X-WR-CALNAME:Holidays", "PRODID:-//Apple Inc.//macOS 14.0//EN", "X-APPLE-CALENDAR-COLOR:#34AADC", "CALSCALE:GREGORIAN"],
        lambda at, a, b: ["BEGIN:VEVENT", "TRANSP:TRANSPARENT", f"DTEND;VALUE=DATE:{b}", f"UID:7D0A1B2C-0000-4000-8000-{at:012}", "DTSTAMP:20250102T030405Z", "SEQUENCE:0",
                          "X-APPLE-UNIVERSAL-ID:cf0b2ae0", "SUMMARY;LANGUAGE=en:Christmas", f"DTSTART;VALUE=DATE:{a}", "X-APPLE-TRAVEL-ADVISORY-BEHAVIOR:AUTOMATIC", "END:VEVENT"])
    yield "plain, LF, no DTEND", put(["BEGIN:VCALENDAR", "VERSION:2.0", "PRODID:x"], lambda at, a, b: ["BEGIN:VEVENT", f"UID:{at}", "DTSTAMP:20250102T030405Z", f"DTSTART;VALUE=DATE:{a}", "END:VEVENT"], "\n")
    yield from from_libraries(days, one)


def from_libraries(days, one):
    try:
        import icalendar
        calendar = icalendar.Calendar()
        calendar.add("prodid", "-//oracle//EN")
        calendar.add("version", "2.0")
        for at, day in enumerate(days):
            event = icalendar.Event()
            event.add("summary", "Feiertag – ein langer Name, der über eine Zeile hinaus reicht und darum gefaltet wird")
            event.add("dtstart", day)
            if at % 3:
                event.add("dtend", day + at % 3 * one)
            event.add("uid", str(at))
            calendar.add_component(event)
        yield "python-icalendar", calendar.to_ical()
    except ImportError:
        pass
    try:
        import vobject
        calendar = vobject.iCalendar()
        for day in days:
            event = calendar.add("vevent")
            event.add("summary").value = "Feiertag"
            event.add("dtstart").value = day
            event.add("dtend").value = day + one
        yield "vobject", calendar.serialize().encode()
    except ImportError:
        pass


# ---- the days that libraries find
def spanned(first, past):
    return range(first.toordinal(), (past or first + datetime.timedelta(1)).toordinal())


def by_icalendar(data):
    import icalendar
    found = set()
    for event in icalendar.Calendar.from_ical(data).walk("VEVENT"):
        found.update(spanned(event["DTSTART"].dt, event["DTEND"].dt if "DTEND" in event else None))
    return sorted(found)


def by_vobject(data):
    import vobject
    found = set()
    for calendar in vobject.readComponents(data.decode()):
        for event in calendar.contents.get("vevent", []):
            found.update(spanned(event.dtstart.value, event.dtend.value if hasattr(event, "dtend") else None))
    return sorted(found)


class Time(ctypes.Structure):
    _fields_ = [(name, ctypes.c_int) for name in ("year", "month", "day", "hour", "minute", "second", "is_date", "is_daylight")] + [("zone", ctypes.c_void_p)]

    def ordinal(self):
        return datetime.date(self.year, self.month, self.day).toordinal()


def by_libical(data):
    name = ctypes.util.find_library("ical")
    if name is None:
        raise ImportError("libical")
    ical = ctypes.CDLL(name)
    for function, result in (("icalparser_parse_string", ctypes.c_void_p), ("icalcomponent_get_first_component", ctypes.c_void_p),
                             ("icalcomponent_get_next_component", ctypes.c_void_p), ("icalcomponent_get_dtstart", Time), ("icalcomponent_get_dtend", Time)):
        getattr(ical, function).restype = result
    event_kind, found = 4, set()
    root = ctypes.c_void_p(ical.icalparser_parse_string(data))
    event = ical.icalcomponent_get_first_component(root, event_kind)
    while event:
        first, past = ical.icalcomponent_get_dtstart(ctypes.c_void_p(event)), ical.icalcomponent_get_dtend(ctypes.c_void_p(event))
        assert first.is_date == 1
        found.update(range(first.ordinal(), past.ordinal() if past.year else first.ordinal() + 1))
        event = ical.icalcomponent_get_next_component(root, event_kind)
    ical.icalcomponent_free(root)
    return sorted(found)


# ---- the comparison
def hold(what, data, expected, got):
    if expected != got:
        sys.exit(f"{what}: expected {expected}, got {got}\n{data!r}")


def kind(answer):
    return "days" if isinstance(answer, list) else str(answer[0])


def main(seed, count):
    asked, r, seen = library(), random.Random(seed), collections.Counter()
    for data, room, answer in examples():
        hold("the page, second reading", data, answer, reading(data, room))
        hold("the page", data, answer, ours(asked, data, room))
        seen["the page's examples"] += 1
    exported = ("our own export", written(asked, [day + k for day in range(FIRST, LAST, 700) for k in range(day % 3 + 1)]))
    for name, data in [*produced(), exported]:
        expected = reading(data)
        assert isinstance(expected, list) and expected, name
        hold(name, data, expected, ours(asked, data, MOST))
        for reader in (by_icalendar, by_vobject, by_libical):
            try:
                hold(f"{name} {reader.__name__}", data, expected, reader(data))
                seen[f"{name} {reader.__name__}"] += 1
            except ImportError:
                pass
    for _ in range(count):
        data = random_file(r)
        for what, file in (("random", data), ("mutated", mutated(r, data))):
            room = r.choice([MOST, MOST, 5000, r.randint(0, 12)])
            answer = reading(file, room)
            hold(what, file, answer, ours(asked, file, room))
            seen[f"{what} {kind(answer)}"] += 1
    for _ in range(count // 10):
        days = sorted(set(random_day(r) + k for _ in range(r.choice([0, 1, 5, 40, 600])) for k in range(r.choice([1, 1, 1, 3]))))
        file = written(asked, days)
        sound = len(days) <= MOST and all(FIRST <= day <= LAST for day in days)
        runs = sum(day - 1 not in set(days) for day in days) if sound else 0
        if not sound or runs > 495:
            hold("export refused", days, -3 if not sound else -24, file)
        else:
            hold("export, second reading", days, days, reading(file))
            hold("export, import", days, days, ours(asked, file, MOST))
            hold("export, a byte too few", days, -14, written(asked, days, len(file) - 1))
        seen["exports" if sound and runs <= 495 else "exports refused"] += 1
    for what in sorted(seen):
        print(f"{seen[what]:8} {what}")


if __name__ == "__main__":
    main(int(sys.argv[1]), int(sys.argv[2]))
