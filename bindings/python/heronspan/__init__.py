"""Dates, calendars, IMM codes and payment schedules, over the proved library.

Dates are `datetime.date`. A refusal is the exception `Refused`, with the number and the name of document 01's table. None
stands for no date: as an anchor it is no anchor, and where a date is due it is refused with BOOK.

The shared library is the file that the environment variable HERONSPAN_LIBRARY names, else target/libheronspan.so of the
repository.
"""

from __future__ import annotations

import ctypes
import os
import struct
from dataclasses import dataclass
from datetime import date
from enum import IntEnum
from fractions import Fraction
from pathlib import Path
from typing import Iterable, NamedTuple, Optional, Sequence, Union

__all__ = [
    "Basis", "Booked", "Calendar", "Coming", "Convention", "Index", "Moved", "Order", "Parts", "Reader", "Refusal", "Refused", "Request", "Rule",
    "Schedule", "Sums", "Unit", "WEEKENDS", "advance", "book", "build",
    "build_bytes", "coming", "compare", "difference", "holidays", "holidays_file", "imm_code", "imm_date", "is_imm_code", "is_imm_date", "make", "month_end", "next_imm_code",
    "next_imm_date", "next_twentieth", "next_weekday", "nth_weekday", "previous_twentieth", "refusal_name", "times",
    "weekday", "year_fraction", "year_parts", "year_report",
]


class Refusal(IntEnum):
    # made by tools/refusals.py: numbers
    UNEVEN = 1  # the lent lists of a schedule differ in length
    BOOK = 2  # a date outside the book, a result outside 1800 to 2399, or no such day
    CALENDAR = 3  # all seven days closed, or the closed dates break their rule
    NEGATIVE = 4  # a tenor below 0 (builds)
    TENOR = 5  # a tenor over 366 days, 520 weeks, 1200 months or 100 years
    FIRST_DATE = 6  # first date not after effective, or after termination
    FIRST_NOT_IMM = 7  # first date no IMM date
    FIRST_WRONG_RULE = 8  # first date given under a rule that takes none
    LAST_DATE = 9  # next-to-last date not after effective, or not before termination
    LAST_NOT_IMM = 10  # next-to-last date no IMM date
    LAST_WRONG_RULE = 11  # next-to-last date given under a rule that takes none
    MONTHEND = 12  # end of month on, and the rule is neither Zero, Backward nor Forward
    CLOSED = 13  # none of the 31 days of a search is open
    ROOM = 14  # a lent list is too short
    COLLAPSED = 15  # the end merge leaves two dates, the second not after the first
    CODE = 16  # no IMM code, or no IMM date
    REQUEST = 17  # a number outside its list
    BUFFER = 18  # the lent buffer is shorter than 20,000 bytes
    NOTPLAIN = 19  # the coming date alone: a request that it does not answer
    BATCH = 20  # a book of over 64 requests, one cut short, or too few answer places
    INDEX = 21  # an index that has not 601 places
    SAME = 22  # adding a date that is closed already, or removing one that is not listed
    FULL = 23  # a closed date more than 4,096
    ICAL = 24  # a calendar file that breaks its rule
    ICALKIND = 25  # a calendar file with a timed or recurring event
    REVERSED = 26  # an end before its start
    SHORTEND = 27  # end of month on, a positive tenor in days or weeks, and a rule other than Zero
    # made so far


class Unit(IntEnum):
    DAYS = 0
    WEEKS = 1
    MONTHS = 2
    YEARS = 3


class Rule(IntEnum):
    ZERO = 0
    BACKWARD = 1
    FORWARD = 2
    TWENTIETH = 3
    TWENTIETH_IMM = 4
    THIRD_WEDNESDAY = 5
    THIRD_WEDNESDAY_INCLUSIVE = 6
    OLD_CDS = 7
    CDS = 8
    CDS2015 = 9


class Convention(IntEnum):
    UNADJUSTED = 0
    FOLLOWING = 1
    MODIFIED_FOLLOWING = 2
    PRECEDING = 3
    MODIFIED_PRECEDING = 4


class Order(IntEnum):
    BEFORE = 0
    SAME = 1
    AFTER = 2


class Basis(IntEnum):
    ACTUAL_360 = 0
    ACTUAL_365_FIXED = 1
    THIRTY_E_360 = 2


class Refused(Exception):
    """A refusal: `number` of document 01's table, and its `name`; of a calendar file also the `line`, 0 for the whole file."""

    def __init__(self, number: int) -> None:
        self.number = number
        self.line: Optional[int] = None
        self.name = Refusal(number).name
        super().__init__(f"refused {number} {self.name}")


# Saturday and Sunday; Monday is the lowest bit.
WEEKENDS = 0x60

# The most dates that a build makes, and the most closed dates.
MOST = 4096

# The most bytes of a calendar file.
FILE = 65536

_u8, _u32, _i32, _i64, _size = ctypes.c_uint8, ctypes.c_uint32, ctypes.c_int32, ctypes.c_int64, ctypes.c_size_t
_bytes = [ctypes.c_char_p, _size]
_days = [ctypes.POINTER(_u32), _size]
_counts = [ctypes.POINTER(_i32), _size]
_flags = [ctypes.POINTER(_u8), _size]
_request = [_u32, _u32, _i32, _u8, _u8, _u8, _u8, _u8, _u32, _u32, _u8, *_days]

_PARAMETERS = {
    "make": [_u32, _u32, _u32],
    "weekday": [_u32],
    "month_end": [_u32],
    "advance": [_u32, _i32, _u8],
    "next_weekday": [_u32, _u32],
    "nth_weekday": [_u32, _u32, _u32, _u32],
    "compare": [_u32, _u32],
    "difference": [_u32, _u32, *_counts],
    "times": [_i32, _u8, _i32, *_counts],
    "calendar_check": [_u8, *_days],
    "is_open": [_u32, _u8, *_days],
    "adjust": [_u32, _u8, _u8, *_days, *_counts],
    "calendar_month_end": [_u32, _u8, *_days, *_counts],
    "is_month_end": [_u32, _u8, *_days],
    "calendar_advance": [_u32, _i32, _u8, _u8, _u8, _u8, *_days, *_counts],
    "index_make": [_u8, *_days, *_days],
    "index_count": [_u32, _u32, _u8, *_days, *_days],
    "index_nth": [_u32, _u32, _u8, *_days, *_days],
    "index_add": [_u32, _u8, *_days, *_days],
    "index_remove": [_u32, _u8, *_days, *_days],
    "desk_check": [*_days, *_days, _u32],
    "desk_run": [*_days, *_days, _u32, *_days],
    "desk_adjust": [_u32, _u8, _u8, *_days, *_days, *_counts],
    "desk_combine": [*_days, *_days, *_days],
    "is_imm_date": [_u32, _u8],
    "is_imm_code": [*_bytes, _u8],
    "imm_code": [_u32],
    "imm_date": [*_bytes, _u32],
    "next_imm_date": [_u32, _u8],
    "next_imm_date_with_code": [*_bytes, _u8, _u32],
    "next_imm_code": [_u32, _u8],
    "next_imm_code_with_code": [*_bytes, _u8, _u32],
    "next_twentieth": [_u32, _u8],
    "previous_twentieth": [_u32, _u8],
    "build": [*_request, *_days, *_flags, *_days, *_days],
    "coming": [*_request, _u32],
    "build_bytes": [*_bytes, *_days, *_flags, *_days, *_days],
    "book": [*_bytes, *_days, *_flags, *_days, *_days],
    "year_fraction": [_u8, _u32, _u32],
    "year_parts": [_u8, _u32, _u32, *_days],
    "year_report": [*_days, *_days],
    "reset": [ctypes.c_void_p],
    "feed": [ctypes.c_void_p, *_bytes, *_flags, *_days],
    "finish": [ctypes.c_void_p, *_flags, *_days],
    "holidays_import": [*_bytes, *_days, *_days],
    "holidays_export": [*_days, *_flags],
    "refusal_text": [_i64, *_flags],
}


def _load() -> ctypes.CDLL:
    beside = Path(__file__).resolve().parents[3] / "target" / "libheronspan.so"
    library = ctypes.CDLL(os.environ.get("HERONSPAN_LIBRARY", str(beside)))
    for name, parameters in _PARAMETERS.items():
        function = getattr(library, "heronspan_" + name)
        function.argtypes = parameters
        function.restype = _i64
    return library


_library = _load()


def _ask(name: str, *arguments: object) -> int:
    answer = getattr(_library, "heronspan_" + name)(*arguments)
    if answer < 0:
        raise Refused(-answer)
    return answer


def _in(number: int, low: int, high: int, refusal: Refusal) -> int:
    """The number, refused where the library's type cannot hold it: ctypes would cut it short."""
    if not low <= number <= high:
        raise Refused(refusal)
    return number


def _unsigned(number: int) -> int:
    return _in(number, 0, 2**32 - 1, Refusal.BOOK)


def _signed(number: int) -> int:
    return _in(number, -(2**31), 2**31 - 1, Refusal.TENOR)


def _byte(number: int) -> int:
    return _in(number, 0, 255, Refusal.REQUEST)


def _number(day: Optional[date]) -> int:
    """The day number, 0 for none. Python's ordinals count from the same day."""
    return 0 if day is None else day.toordinal()


def _date(number: int) -> date:
    return date.fromordinal(number)


def _code(answer: int) -> str:
    return chr(answer // 256) + chr(answer % 256)


def _coded(code: str) -> tuple[bytes, int]:
    letters = code.encode("utf-8")
    return letters, len(letters)


def _list(numbers: Sequence[int]) -> tuple[ctypes.Array, int]:
    return (_u32 * len(numbers))(*numbers), len(numbers)


# ---- names


def refusal_name(number: int) -> str:
    """The library's name of the refusal with a number; empty where there is none. The longest has 16 letters."""
    text = (_u8 * 16)()
    return bytes(text[: _ask("refusal_text", -_byte(number), text, 16)]).decode("ascii")


# ---- dates


def make(year: int, month: int, day: int) -> date:
    """The date of a year, a month and a day."""
    return _date(_ask("make", _unsigned(year), _unsigned(month), _unsigned(day)))


def weekday(day: Optional[date]) -> int:
    """1 is Monday and 7 Sunday."""
    return _ask("weekday", _number(day))


def month_end(day: Optional[date]) -> date:
    """The last day of the date's month."""
    return _date(_ask("month_end", _number(day)))


def advance(day: Optional[date], count: int, unit: Unit) -> date:
    """The date moved by a count of units, on no calendar."""
    return _date(_ask("advance", _number(day), _in(count, -(2**31), 2**31 - 1, Refusal.BOOK), _byte(unit)))


def next_weekday(day: Optional[date], weekday: int) -> date:
    """The first date with that weekday on or after the date."""
    return _date(_ask("next_weekday", _number(day), _unsigned(weekday)))


def nth_weekday(nth: int, weekday: int, month: int, year: int) -> date:
    """The nth date with that weekday in a month."""
    return _date(_ask("nth_weekday", _unsigned(nth), _unsigned(weekday), _unsigned(month), _unsigned(year)))


def compare(a: Optional[date], b: Optional[date]) -> Order:
    """Where the first date lies beside the second. No date has no place in the order."""
    return Order(_ask("compare", _number(a), _number(b)))


def difference(a: Optional[date], b: Optional[date]) -> int:
    """How many days the first date lies after the second."""
    days = (_i32 * 1)()
    _ask("difference", _number(a), _number(b), days, 1)
    return days[0]


def times(tenor: int, unit: Unit, count: int) -> int:
    """The length of a tenor that is taken a number of times."""
    length = (_i32 * 1)()
    _ask("times", _signed(tenor), _byte(unit), _signed(count), length, 1)
    return length[0]


# ---- calendars


class Moved(NamedTuple):
    """A date, and how many days it moved, later being positive."""

    date: date
    days: int


def _moved(name: str, *lent: object) -> Moved:
    days = (_i32 * 1)()
    answer = _date(_ask(name, *lent, days, 1))
    return Moved(answer, days[0])


class Calendar:
    """Weekly closed days, Monday the lowest bit of the mask, and closed dates in ascending order."""

    def __init__(self, mask: int = 0, closed: Iterable[date] = ()) -> None:
        self.mask = _in(mask, 0, 127, Refusal.REQUEST)
        self.closed = tuple(closed)
        self._lent = (self.mask, *_list([day.toordinal() for day in self.closed]))
        _ask("calendar_check", *self._lent)

    def is_open(self, day: Optional[date]) -> bool:
        return _ask("is_open", _number(day), *self._lent) == 1

    def adjust(self, day: Optional[date], convention: Convention) -> Moved:
        return _moved("adjust", _number(day), _byte(convention), *self._lent)

    def month_end(self, day: Optional[date]) -> Moved:
        """The last open day of the date's month, moved from the month's last day."""
        return _moved("calendar_month_end", _number(day), *self._lent)

    def is_month_end(self, day: Optional[date]) -> bool:
        """Whether the date is the last open day of its month, or after it. No date is not."""
        return _ask("is_month_end", _number(day), *self._lent) == 1

    def advance(
        self,
        day: Optional[date],
        tenor: int,
        unit: Unit,
        convention: Convention = Convention.FOLLOWING,
        monthend: bool = False,
    ) -> Moved:
        """The date moved by the tenor: days are open days, the other units are added and adjusted. The days are those from the sum, of natural
        days for open ones, or from its month's last day where the month end is given."""
        lent = (_signed(tenor), _byte(unit), _byte(convention), int(monthend), *self._lent)
        return _moved("calendar_advance", _number(day), *lent)


class Index:
    """Running counts of a calendar's open days, which answer without a walk over the days. It has the calendar that it belongs to."""

    # One for the start of each year from 1800 to 2400.
    PLACES = 601

    def __init__(self, calendar: Calendar) -> None:
        self.calendar = calendar
        self._counts = (_u32 * Index.PLACES)()
        _ask("index_make", *calendar._lent, self._counts, Index.PLACES)

    @property
    def counts(self) -> list[int]:
        """At place i the open days from 1800-01-01 up to, and without, 1 January of 1800 + i."""
        return list(self._counts)

    def count(self, first: Optional[date], last: Optional[date]) -> int:
        """The open days from the first date up to, and without, the last: none if that is not later."""
        return _ask("index_count", _number(first), _number(last), *self.calendar._lent, self._counts, Index.PLACES)

    def nth(self, day: Optional[date], n: int) -> date:
        """The n-th open day after the date, n from 1 to 366."""
        asked = _in(n, 0, 2**32 - 1, Refusal.TENOR)
        return _date(_ask("index_nth", _number(day), asked, *self.calendar._lent, self._counts, Index.PLACES))

    def add(self, day: Optional[date]) -> None:
        """One closed date more: the index and its calendar are then those with the date."""
        _ask("index_add", _number(day), *self.calendar._lent, self._counts, Index.PLACES)
        self.calendar = Calendar(self.calendar.mask, sorted([*self.calendar.closed, day]))

    def remove(self, day: Optional[date]) -> None:
        """One closed date less: the index and its calendar are then those without the date."""
        _ask("index_remove", _number(day), *self.calendar._lent, self._counts, Index.PLACES)
        self.calendar = Calendar(self.calendar.mask, [closed for closed in self.calendar.closed if closed != day])


# ---- a desk's closed dates over the house's


class Run(Sequence[date]):
    """The entries of a year: a part of the list that has them, and no copy. `name` says which list it is, if any."""

    def __init__(self, name: Optional[str], dates: tuple[date, ...], start: int, count: int) -> None:
        self.name, self.start = name, start
        self._dates, self._count = dates, count

    def __len__(self) -> int:
        return self._count

    def __getitem__(self, at):  # type: ignore[no-untyped-def]
        places = range(self.start, self.start + self._count)[at]
        return self._dates[places] if isinstance(places, int) else [self._dates[place] for place in places]


class DeskCalendar:
    """Weekly closed days, and for each year the desk's closed dates if it has any there, otherwise the house's."""

    def __init__(self, mask: int = 0, desk: Iterable[date] = (), house: Iterable[date] = ()) -> None:
        self.mask = _in(mask, 0, 127, Refusal.REQUEST)
        self.desk, self.house = tuple(desk), tuple(house)
        self._lists = tuple(part for dates in (self.desk, self.house) for part in _list([day.toordinal() for day in dates]))
        _ask("calendar_check", self.mask, *self._lists[:2])
        _ask("calendar_check", self.mask, *self._lists[2:])

    def check(self, year: int) -> None:
        """Refuses a year whose run is not answered."""
        _ask("desk_check", *self._lists, _unsigned(year))

    def run(self, year: int) -> Run:
        """The run of a year, empty where neither list has a date there."""
        place = (_u32 * 2)()
        count = _ask("desk_run", *self._lists, _unsigned(year), place, 2)
        name, dates = ((None, ()), ("desk", self.desk), ("house", self.house))[place[0]]
        return Run(name, dates, place[1], count)

    def adjust(self, day: Optional[date], convention: Convention) -> Moved:
        """The date adjusted, each day that is tried open or closed by the run of its own year."""
        return _moved("desk_adjust", _number(day), _byte(convention), self.mask, *self._lists)

    def combined(self, room: int = MOST) -> Calendar:
        """One calendar in place of the two lists, in which the same days are open: the desk's dates, and the house's whose year has none of
        the desk's. FULL where these are more than 4,096, ROOM where they are more than the room."""
        places = _in(room, 0, 2**32 - 1, Refusal.ROOM)
        closed = (_u32 * min(places, MOST))()
        count = _ask("desk_combine", *self._lists, closed, len(closed))
        return Calendar(self.mask, map(date.fromordinal, closed[:count]))


# ---- IMM dates and codes


def is_imm_date(day: Optional[date], main: bool = True) -> bool:
    return _ask("is_imm_date", _number(day), int(main)) == 1


def is_imm_code(code: str, main: bool = True) -> bool:
    return _ask("is_imm_code", *_coded(code), int(main)) == 1


def imm_code(day: Optional[date]) -> str:
    """The code of an IMM date."""
    return _code(_ask("imm_code", _number(day)))


def imm_date(code: str, reference: Optional[date]) -> date:
    """The earliest IMM date on or after the reference that the code names."""
    return _date(_ask("imm_date", *_coded(code), _number(reference)))


def next_imm_date(reference: Optional[date], main: bool = True, code: Optional[str] = None) -> date:
    """The earliest IMM date after the reference, or after the date that the code names."""
    if code is None:
        return _date(_ask("next_imm_date", _number(reference), int(main)))
    return _date(_ask("next_imm_date_with_code", *_coded(code), int(main), _number(reference)))


def next_imm_code(reference: Optional[date], main: bool = True, code: Optional[str] = None) -> str:
    """The code of that date."""
    if code is None:
        return _code(_ask("next_imm_code", _number(reference), int(main)))
    return _code(_ask("next_imm_code_with_code", *_coded(code), int(main), _number(reference)))


# ---- twentieths


def next_twentieth(day: Optional[date], rule: Rule) -> date:
    return _date(_ask("next_twentieth", _number(day), _byte(rule)))


def previous_twentieth(day: Optional[date], rule: Rule) -> date:
    return _date(_ask("previous_twentieth", _number(day), _byte(rule)))


# ---- year fractions


@dataclass(frozen=True)
class Parts:
    """Numerator and denominator of a year fraction, not reduced."""

    numerator: int
    denominator: int

    @property
    def fraction(self) -> Fraction:
        """The same number, reduced, as Python has it."""
        return Fraction(self.numerator, self.denominator)


@dataclass(frozen=True)
class Sums:
    """Sums of numerators over the periods of a list of dates, one for each basis."""

    actual_360: int
    actual_365_fixed: int
    thirty_e_360: int


def year_fraction(basis: Basis, start: Optional[date], end: Optional[date]) -> float:
    """The fraction of a year from start to end, paid dates from 1800 to 2399: the numerator over the denominator, rounded once."""
    bits = _ask("year_fraction", _byte(basis), _number(start), _number(end))
    return struct.unpack("<d", struct.pack("<q", bits))[0]


def year_parts(basis: Basis, start: Optional[date], end: Optional[date]) -> Parts:
    """The same by its numerator and its denominator."""
    parts = (_u32 * 2)()
    _ask("year_parts", _byte(basis), _number(start), _number(end), parts, 2)
    return Parts(*parts)


def year_report(dates: Iterable[Optional[date]]) -> Sums:
    """The sums of the numerators over the periods between neighbours of a list of dates."""
    sums = (_u32 * 3)()
    _ask("year_report", *_list([_number(day) for day in dates]), sums, 3)
    return Sums(*sums)


# ---- schedules


@dataclass(frozen=True)
class Schedule:
    """Paid dates, for each the date that it was before adjustment, and for each period between them whether it is regular; what
    was tried, the rule and tenor in force, and the greatest number of days that a date moved."""

    dates: list[date]
    unadjusted: list[date]
    regular: list[bool]
    tries: int
    rule: Rule
    tenor: int
    unit: Unit
    moved: int

    def year_fractions(self, basis: Basis) -> list[float]:
        """The year fraction of each period, on the paid dates."""
        return [year_fraction(basis, a, b) for a, b in zip(self.dates, self.dates[1:])]

    def year_parts(self, basis: Basis) -> list[Parts]:
        """The same by numerator and denominator."""
        return [year_parts(basis, a, b) for a, b in zip(self.dates, self.dates[1:])]

    def year_report(self) -> Sums:
        """The sums of the numerators over the periods, for each basis."""
        return year_report(self.dates)


def build(
    effective: Optional[date],
    termination: Optional[date],
    tenor: int = 0,
    unit: Unit = Unit.DAYS,
    rule: Rule = Rule.BACKWARD,
    convention: Convention = Convention.UNADJUSTED,
    terminal: Convention = Convention.UNADJUSTED,
    monthend: bool = False,
    first: Optional[date] = None,
    penultimate: Optional[date] = None,
    calendar: Optional[Calendar] = None,
    room: int = MOST,
) -> Schedule:
    """Builds a schedule; `terminal` is the convention of the last date."""
    asked = _asked(effective, termination, tenor, unit, rule, convention, terminal, monthend, first, penultimate, calendar)
    return _built("build", room, *asked)


@dataclass(frozen=True)
class Coming:
    """A date of a schedule, and whether the period that ends there is regular; None for the effective date, which ends none."""

    date: date
    regular: Optional[bool]


def coming(
    asked: Optional[date],
    effective: Optional[date],
    termination: Optional[date],
    tenor: int = 0,
    unit: Unit = Unit.DAYS,
    rule: Rule = Rule.BACKWARD,
    convention: Convention = Convention.UNADJUSTED,
    terminal: Convention = Convention.UNADJUSTED,
    monthend: bool = False,
    first: Optional[date] = None,
    penultimate: Optional[date] = None,
    calendar: Optional[Calendar] = None,
) -> Optional[Coming]:
    """The first date of the schedule after the asked day, without the schedule; None where there is no later date.

    It answers requests that are Backward or Forward, unadjusted, without anchors and end of month; others are refused with NOTPLAIN.
    """
    request = _asked(effective, termination, tenor, unit, rule, convention, terminal, monthend, first, penultimate, calendar)
    answer = _ask("coming", *request, _number(asked))
    return Coming(_date(answer // 4), (False, True, None)[answer % 4]) if answer else None


def build_bytes(request: bytes, room: int = MOST) -> Schedule:
    """Builds the schedule that the bytes of a request ask for."""
    return _built("build_bytes", room, request, len(request))


# ---- a night's book

REQUESTS = 64  # in a book, at the most


@dataclass(frozen=True)
class Booked:
    """A schedule of a book: paid dates, for each the date before adjustment, for each period whether it is regular, and the tries."""

    dates: list[date]
    unadjusted: list[date]
    regular: list[bool]
    tries: int


def book(requests: Sequence[bytes], room: int = REQUESTS * MOST) -> list[Union[Booked, Refusal]]:
    """Builds up to 64 requests in one call, each in the room that those before it left: for each its schedule, or its refusal.

    A longer list, or a request whose length two bytes cannot say, is refused with BATCH.
    """
    if any(len(request) > 65535 for request in requests):
        raise Refused(Refusal.BATCH)
    whole = b"".join(len(request).to_bytes(2, "big") + request for request in requests)
    dates, flags, unadjusted, answers = (_u32 * room)(), (_u8 * room)(), (_u32 * room)(), (_u32 * (4 * len(requests)))()
    _ask("book", whole, len(whole), dates, room, flags, room, unadjusted, room, answers, len(answers))
    outcomes: list[Union[Booked, Refusal]] = []
    for at in range(0, len(answers), 4):
        count, start, tries, number = answers[at : at + 4]
        end = start + count
        if number:
            outcomes.append(Refusal(number))
        else:
            outcomes.append(Booked([_date(n) for n in dates[start:end]], [_date(n) for n in unadjusted[start:end]],
                                   [flag == 1 for flag in flags[start : end - 1]], tries))
    return outcomes


# ---- requests off the wire


@dataclass(frozen=True)
class Request:
    """What the bytes of a request ask for: day numbers as they came, and the closed dates. `build` makes its schedule."""

    effective: int
    termination: int
    tenor: int
    unit: Unit
    rule: Rule
    convention: Convention
    terminal: Convention
    monthend: bool
    first: int
    penultimate: int
    mask: int
    closed: tuple[int, ...]

    def build(self, room: int = MOST) -> Schedule:
        choices = (self.tenor, self.unit, self.rule, self.convention, self.terminal, int(self.monthend))
        anchors = (self.first, self.penultimate)
        return _built("build", room, self.effective, self.termination, *choices, *anchors, self.mask, *_list(self.closed))


class _Reader(ctypes.Structure):
    _fields_ = [("state", ctypes.c_uint16 * 20), ("request", _u32 * 13)]


class Reader:
    """Reads a request that comes in parts, in any cuts: `feed` each, then `finish`, which answers as the whole would.

    Once finished, each call repeats the answer until `reset`. `buffer` holds the bodies of the fields, back to back.
    """

    def __init__(self, buffer: int = 20_000, closed: int = MOST) -> None:
        self._reader = _Reader()
        self.buffer = (_u8 * buffer)()
        self._closed = (_u32 * closed)()
        self.reset()

    def reset(self) -> None:
        _ask("reset", ctypes.byref(self._reader))

    def feed(self, part: bytes) -> Optional[Request]:
        """None is "go on"; after the finish, the request that it found."""
        lent = (self.buffer, len(self.buffer), self._closed, len(self._closed))
        return self._said(_ask("feed", ctypes.byref(self._reader), bytes(part), len(part), *lent))

    def finish(self) -> Request:
        lent = (self.buffer, len(self.buffer), self._closed, len(self._closed))
        return self._said(_ask("finish", ctypes.byref(self._reader), *lent))

    def read(self, source, most: int = 4096) -> Request:
        """Feeds all that a socket or a binary file has, and finishes."""
        take = source.recv if hasattr(source, "recv") else source.read
        while part := take(most):
            self.feed(part)
        return self.finish()

    def _said(self, answer: int) -> Optional[Request]:
        if answer == 0:
            return None
        effective, termination, size, back, unit, rule, convention, terminal, monthend, first, penultimate, mask, count = self._reader.request
        return Request(
            effective=effective,
            termination=termination,
            tenor=-size if back else size,
            unit=Unit(unit),
            rule=Rule(rule),
            convention=Convention(convention),
            terminal=Convention(terminal),
            monthend=monthend == 1,
            first=first,
            penultimate=penultimate,
            mask=mask,
            closed=tuple(self._closed[:count]),
        )


# ---- calendar files


def holidays(file: bytes, room: int = MOST) -> list[date]:
    """The days of a calendar file's all-day events (RFC 5545), ascending, as `Calendar` takes them."""
    days, line = (_u32 * room)(), (_u32 * 1)()
    try:
        count = _ask("holidays_import", bytes(file), len(file), days, room, line, 1)
    except Refused as refused:
        refused.line = line[0]
        raise
    return [_date(day) for day in days[:count]]


def holidays_file(dates: Iterable[date]) -> bytes:
    """Closed dates in ascending order as a calendar file, which `holidays` reads back."""
    file = (_u8 * FILE)()
    size = _ask("holidays_export", *_list([day.toordinal() for day in dates]), file, FILE)
    return bytes(memoryview(file)[:size])


def _asked(effective, termination, tenor, unit, rule, convention, terminal, monthend, first, penultimate, calendar) -> tuple:
    """A request in numbers, as the library takes it."""
    choices = (_signed(tenor), _byte(unit), _byte(rule), _byte(convention), _byte(terminal), int(monthend))
    anchors = (_number(first), _number(penultimate))
    return (_number(effective), _number(termination), *choices, *anchors, *(calendar or Calendar())._lent)


def _built(name: str, room: int, *asked: object) -> Schedule:
    dates, flags, unadjusted, record = (_u32 * room)(), (_u8 * room)(), (_u32 * room)(), (_u32 * 7)()
    count = _ask(name, *asked, dates, room, flags, room, unadjusted, room, record, 7)
    return Schedule(
        dates=[_date(day) for day in dates[:count]],
        unadjusted=[_date(day) for day in unadjusted[:count]],
        regular=[flag == 1 for flag in flags[: max(count - 1, 0)]],
        tries=record[2],
        rule=Rule(record[3]),
        tenor=record[4],
        unit=Unit(record[5]),
        moved=record[6],
    )
