//! Dates, calendars, IMM codes and payment schedules, over the proved library.
//!
//! No call panics on bad input: each answers a value or a [`Refusal`]. [`Date::NONE`] is no date; as an anchor it is no
//! anchor, and where a date is due it is refused with [`Refusal::Book`].

mod ffi;

use std::cmp::Ordering;
use std::fmt;
use std::io;

/// Why a call was refused, by the numbers of document 01's table.
#[derive(Clone, Copy, Debug, PartialEq, Eq, Hash)]
#[repr(u8)]
pub enum Refusal {
    // made by tools/refusals.py: numbers
    /// The lent lists of a schedule differ in length.
    Uneven = 1,
    /// A date outside the book, a result outside 1800 to 2399, or no such day.
    Book = 2,
    /// All seven days closed, or the closed dates break their rule.
    Calendar = 3,
    /// A tenor below 0 (builds).
    Negative = 4,
    /// A tenor over 366 days, 520 weeks, 1200 months or 100 years.
    Tenor = 5,
    /// First date not after effective, or after termination.
    FirstDate = 6,
    /// First date no IMM date.
    FirstNotImm = 7,
    /// First date given under a rule that takes none.
    FirstWrongRule = 8,
    /// Next-to-last date not after effective, or not before termination.
    LastDate = 9,
    /// Next-to-last date no IMM date.
    LastNotImm = 10,
    /// Next-to-last date given under a rule that takes none.
    LastWrongRule = 11,
    /// End of month on, and the rule is neither Zero, Backward nor Forward.
    Monthend = 12,
    /// None of the 31 days of a search is open.
    Closed = 13,
    /// A lent list is too short.
    Room = 14,
    /// The end merge leaves two dates, the second not after the first.
    Collapsed = 15,
    /// No IMM code, or no IMM date.
    Code = 16,
    /// A number outside its list.
    Request = 17,
    /// The lent buffer is shorter than 20,000 bytes.
    Buffer = 18,
    /// The coming date alone: a request that it does not answer.
    Notplain = 19,
    /// A book of over 64 requests, one cut short, or too few answer places.
    Batch = 20,
    /// An index that has not 601 places.
    Index = 21,
    /// Adding a date that is closed already, or removing one that is not listed.
    Same = 22,
    /// A closed date more than 4,096.
    Full = 23,
    /// A calendar file that breaks its rule.
    Ical = 24,
    /// A calendar file with a timed or recurring event.
    Icalkind = 25,
    /// An end before its start.
    Reversed = 26,
    /// End of month on, a positive tenor in days or weeks, and a rule other than Zero.
    Shortend = 27,
    // made so far
}

// made by tools/refusals.py: names
const REFUSALS: [(Refusal, &str); 27] = [
    (Refusal::Uneven, "UNEVEN"),
    (Refusal::Book, "BOOK"),
    (Refusal::Calendar, "CALENDAR"),
    (Refusal::Negative, "NEGATIVE"),
    (Refusal::Tenor, "TENOR"),
    (Refusal::FirstDate, "FIRST_DATE"),
    (Refusal::FirstNotImm, "FIRST_NOT_IMM"),
    (Refusal::FirstWrongRule, "FIRST_WRONG_RULE"),
    (Refusal::LastDate, "LAST_DATE"),
    (Refusal::LastNotImm, "LAST_NOT_IMM"),
    (Refusal::LastWrongRule, "LAST_WRONG_RULE"),
    (Refusal::Monthend, "MONTHEND"),
    (Refusal::Closed, "CLOSED"),
    (Refusal::Room, "ROOM"),
    (Refusal::Collapsed, "COLLAPSED"),
    (Refusal::Code, "CODE"),
    (Refusal::Request, "REQUEST"),
    (Refusal::Buffer, "BUFFER"),
    (Refusal::Notplain, "NOTPLAIN"),
    (Refusal::Batch, "BATCH"),
    (Refusal::Index, "INDEX"),
    (Refusal::Same, "SAME"),
    (Refusal::Full, "FULL"),
    (Refusal::Ical, "ICAL"),
    (Refusal::Icalkind, "ICALKIND"),
    (Refusal::Reversed, "REVERSED"),
    (Refusal::Shortend, "SHORTEND"),
];
// made so far

impl Refusal {
    pub fn number(self) -> u8 {
        self as u8
    }

    pub fn name(self) -> &'static str {
        REFUSALS.iter().find(|row| row.0 == self).map_or("", |row| row.1)
    }
}

impl fmt::Display for Refusal {
    fn fmt(&self, f: &mut fmt::Formatter) -> fmt::Result {
        write!(f, "refused {} {}", self.number(), self.name())
    }
}

impl std::error::Error for Refusal {}

/// The library's name of the refusal with a number; empty where there is none.
pub fn refusal_name(number: u8) -> String {
    let mut text = [0; 16];
    let length = unsafe { ffi::heronspan_refusal_text(-i64::from(number), text.as_mut_ptr(), text.len()) };
    String::from_utf8_lossy(&text[..length as usize]).into_owned()
}

pub type Answer<T> = Result<T, Refusal>;

/// What an answer in one number says.
fn told(answer: i64) -> Answer<i64> {
    if answer < 0 {
        let row = REFUSALS.iter().find(|row| i64::from(row.0.number()) == -answer);
        return Err(row.expect("an answer below zero is minus a number of the list").0);
    }
    Ok(answer)
}

fn day(answer: i64) -> Answer<Date> {
    told(answer).map(|n| Date(n as u32))
}

fn truth(answer: i64) -> Answer<bool> {
    told(answer).map(|n| n == 1)
}

fn code(answer: i64) -> Answer<[u8; 2]> {
    told(answer).map(|n| [(n / 256) as u8, (n % 256) as u8])
}

#[derive(Clone, Copy, Debug, PartialEq, Eq, Hash)]
#[repr(u8)]
pub enum Unit {
    Days,
    Weeks,
    Months,
    Years,
}

const UNITS: [Unit; 4] = [Unit::Days, Unit::Weeks, Unit::Months, Unit::Years];

#[derive(Clone, Copy, Debug, PartialEq, Eq, Hash)]
#[repr(u8)]
pub enum Rule {
    Zero,
    Backward,
    Forward,
    Twentieth,
    TwentiethImm,
    ThirdWednesday,
    ThirdWednesdayInclusive,
    OldCds,
    Cds,
    Cds2015,
}

const RULES: [Rule; 10] = [
    Rule::Zero,
    Rule::Backward,
    Rule::Forward,
    Rule::Twentieth,
    Rule::TwentiethImm,
    Rule::ThirdWednesday,
    Rule::ThirdWednesdayInclusive,
    Rule::OldCds,
    Rule::Cds,
    Rule::Cds2015,
];

#[derive(Clone, Copy, Debug, PartialEq, Eq, Hash)]
#[repr(u8)]
pub enum Convention {
    Unadjusted,
    Following,
    ModifiedFollowing,
    Preceding,
    ModifiedPreceding,
}

/// A day number: 1 is 1 January of year 1. It is not ordered by itself, since [`Date::NONE`] has no place in the order:
/// [`Date::compare`] is.
#[derive(Clone, Copy, Debug, PartialEq, Eq, Hash)]
#[repr(transparent)]
pub struct Date(pub u32);

impl Date {
    /// No date.
    pub const NONE: Date = Date(0);

    pub fn make(year: u32, month: u32, day_of_month: u32) -> Answer<Date> {
        day(unsafe { ffi::heronspan_make(year, month, day_of_month) })
    }

    /// Year, month and day.
    pub fn fields(self) -> Answer<(u32, u32, u32)> {
        let n = told(unsafe { ffi::heronspan_fields(self.0) })? as u32;
        Ok((n / 10000, n / 100 % 100, n % 100))
    }

    /// 1 is Monday and 7 Sunday.
    pub fn weekday(self) -> Answer<u32> {
        told(unsafe { ffi::heronspan_weekday(self.0) }).map(|n| n as u32)
    }

    pub fn month_end(self) -> Answer<Date> {
        day(unsafe { ffi::heronspan_month_end(self.0) })
    }

    /// The date moved by a count of units, on no calendar.
    pub fn advance(self, count: i32, unit: Unit) -> Answer<Date> {
        day(unsafe { ffi::heronspan_advance(self.0, count, unit as u8) })
    }

    /// The first date with that weekday on or after the date.
    pub fn next_weekday(self, weekday: u32) -> Answer<Date> {
        day(unsafe { ffi::heronspan_next_weekday(self.0, weekday) })
    }

    /// The nth date with that weekday in a month.
    pub fn nth_weekday(nth: u32, weekday: u32, month: u32, year: u32) -> Answer<Date> {
        day(unsafe { ffi::heronspan_nth_weekday(nth, weekday, month, year) })
    }

    /// Where the date lies beside the other one.
    pub fn compare(self, other: Date) -> Answer<Ordering> {
        told(unsafe { ffi::heronspan_compare(self.0, other.0) }).map(|n| n.cmp(&1))
    }

    /// How many days the date lies after the other one.
    pub fn difference(self, other: Date) -> Answer<i32> {
        let mut days = [0];
        told(unsafe { ffi::heronspan_difference(self.0, other.0, days.as_mut_ptr(), 1) })?;
        Ok(days[0])
    }

    /// The first twentieth on or after the date.
    pub fn next_twentieth(self, rule: Rule) -> Answer<Date> {
        day(unsafe { ffi::heronspan_next_twentieth(self.0, rule as u8) })
    }

    /// The last twentieth on or before the date.
    pub fn previous_twentieth(self, rule: Rule) -> Answer<Date> {
        day(unsafe { ffi::heronspan_previous_twentieth(self.0, rule as u8) })
    }
}

/// The length of a tenor that is taken a number of times; its unit stays.
pub fn times(tenor: i32, unit: Unit, count: i32) -> Answer<i32> {
    let mut out = [0];
    told(unsafe { ffi::heronspan_times(tenor, unit as u8, count, out.as_mut_ptr(), 1) })?;
    Ok(out[0])
}

/// A date, and how many days it moved, later being positive.
#[derive(Clone, Copy, Debug, PartialEq, Eq)]
pub struct Moved {
    pub date: Date,
    pub days: i32,
}

/// What a function answers that is lent a list of one place for the days.
fn moved(ask: impl FnOnce(*mut i32, usize) -> i64) -> Answer<Moved> {
    let mut days = [0];
    let date = day(ask(days.as_mut_ptr(), days.len()))?;
    Ok(Moved { date, days: days[0] })
}

/// Weekly closed days, Monday the lowest bit of the mask, and closed dates in ascending order.
#[derive(Clone, Debug, Default, PartialEq, Eq)]
pub struct Calendar {
    mask: u8,
    closed: Vec<u32>,
}

impl Calendar {
    /// Saturday and Sunday.
    pub const WEEKENDS: u8 = 0x60;

    /// A calendar, where it keeps its rule.
    pub fn new(mask: u8, closed: &[Date]) -> Answer<Calendar> {
        let calendar = Calendar { mask, closed: closed.iter().map(|date| date.0).collect() };
        let (list, len) = calendar.lent();
        told(unsafe { ffi::heronspan_calendar_check(mask, list, len) })?;
        Ok(calendar)
    }

    fn lent(&self) -> (*const u32, usize) {
        (self.closed.as_ptr(), self.closed.len())
    }

    pub fn is_open(&self, date: Date) -> Answer<bool> {
        let (list, len) = self.lent();
        truth(unsafe { ffi::heronspan_is_open(date.0, self.mask, list, len) })
    }

    pub fn adjust(&self, date: Date, convention: Convention) -> Answer<Moved> {
        let (list, len) = self.lent();
        moved(|days, places| unsafe {
            ffi::heronspan_adjust(date.0, convention as u8, self.mask, list, len, days, places)
        })
    }

    /// The last open day of the date's month, moved from the month's last day.
    pub fn month_end(&self, date: Date) -> Answer<Moved> {
        let (list, len) = self.lent();
        moved(|days, places| unsafe {
            ffi::heronspan_calendar_month_end(date.0, self.mask, list, len, days, places)
        })
    }

    /// Whether the date is the last open day of its month, or after it. No date is not.
    pub fn is_month_end(&self, date: Date) -> Answer<bool> {
        let (list, len) = self.lent();
        truth(unsafe { ffi::heronspan_is_month_end(date.0, self.mask, list, len) })
    }

    /// The date moved by the tenor: days are open days, the other units are added and adjusted. The days are those from the sum, of natural
    /// days for open ones, or from its month's last day where the month end is given.
    pub fn advance(&self, date: Date, tenor: i32, unit: Unit, convention: Convention, monthend: bool) -> Answer<Moved> {
        let (list, len) = self.lent();
        moved(|days, places| unsafe {
            ffi::heronspan_calendar_advance(
                date.0,
                tenor,
                unit as u8,
                convention as u8,
                monthend as u8,
                self.mask,
                list,
                len,
                days,
                places,
            )
        })
    }
}

/// Running counts of a calendar's open days, one for the start of each year from 1800 to 2400, which answer without a walk over the
/// days. It has the calendar that it belongs to.
#[derive(Clone, Debug, PartialEq, Eq)]
pub struct Index {
    calendar: Calendar,
    counts: Vec<u32>,
}

impl Index {
    pub const PLACES: usize = 601;

    pub fn new(calendar: Calendar) -> Answer<Index> {
        let mut counts = vec![0; Index::PLACES];
        let (list, len) = calendar.lent();
        told(unsafe { ffi::heronspan_index_make(calendar.mask, list, len, counts.as_mut_ptr(), counts.len()) })?;
        Ok(Index { calendar, counts })
    }

    /// The calendar as it is after the changes so far.
    pub fn calendar(&self) -> &Calendar {
        &self.calendar
    }

    /// At place i the open days from 1800-01-01 up to, and without, 1 January of 1800 + i.
    pub fn counts(&self) -> &[u32] {
        &self.counts
    }

    /// The open days from the first date up to, and without, the last: none if that is not later.
    pub fn count(&self, first: Date, last: Date) -> Answer<u32> {
        let (list, len) = self.calendar.lent();
        let (counts, places) = (self.counts.as_ptr(), self.counts.len());
        told(unsafe { ffi::heronspan_index_count(first.0, last.0, self.calendar.mask, list, len, counts, places) })
            .map(|n| n as u32)
    }

    /// The n-th open day after the date, n from 1 to 366.
    pub fn nth(&self, date: Date, n: u32) -> Answer<Date> {
        let (list, len) = self.calendar.lent();
        let (counts, places) = (self.counts.as_ptr(), self.counts.len());
        day(unsafe { ffi::heronspan_index_nth(date.0, n, self.calendar.mask, list, len, counts, places) })
    }

    /// One closed date more: the index and its calendar are then those with the date.
    pub fn add(&mut self, date: Date) -> Answer<()> {
        let (list, len) = self.calendar.lent();
        let (counts, places) = (self.counts.as_mut_ptr(), self.counts.len());
        told(unsafe { ffi::heronspan_index_add(date.0, self.calendar.mask, list, len, counts, places) })?;
        let place = self.calendar.closed.partition_point(|&closed| closed < date.0);
        self.calendar.closed.insert(place, date.0);
        Ok(())
    }

    /// One closed date less: the index and its calendar are then those without the date.
    pub fn remove(&mut self, date: Date) -> Answer<()> {
        let (list, len) = self.calendar.lent();
        let (counts, places) = (self.counts.as_mut_ptr(), self.counts.len());
        told(unsafe { ffi::heronspan_index_remove(date.0, self.calendar.mask, list, len, counts, places) })?;
        self.calendar.closed.retain(|&closed| closed != date.0);
        Ok(())
    }
}

/// Weekly closed days, and for each year the desk's closed dates if it has any there, otherwise the house's.
#[derive(Clone, Copy, Debug, PartialEq, Eq)]
pub struct DeskCalendar<'a> {
    mask: u8,
    desk: &'a [Date],
    house: &'a [Date],
}

impl<'a> DeskCalendar<'a> {
    /// A calendar over two lists, where each of them keeps its rule.
    pub fn new(mask: u8, desk: &'a [Date], house: &'a [Date]) -> Answer<DeskCalendar<'a>> {
        for list in [desk, house] {
            told(unsafe { ffi::heronspan_calendar_check(mask, list.as_ptr().cast(), list.len()) })?;
        }
        Ok(DeskCalendar { mask, desk, house })
    }

    /// Whether the run of a year is answered.
    pub fn check(&self, year: u32) -> Answer<()> {
        let (desk, house) = (self.desk, self.house);
        let answer = unsafe {
            ffi::heronspan_desk_check(desk.as_ptr().cast(), desk.len(), house.as_ptr().cast(), house.len(), year)
        };
        told(answer).map(|_| ())
    }

    /// The run of a year, a part of one of the two lists, empty where neither has a date there.
    pub fn run(&self, year: u32) -> Answer<&'a [Date]> {
        let (desk, house) = (self.desk, self.house);
        let mut place = [0u32; 2];
        let count = told(unsafe {
            ffi::heronspan_desk_run(
                desk.as_ptr().cast(),
                desk.len(),
                house.as_ptr().cast(),
                house.len(),
                year,
                place.as_mut_ptr(),
                place.len(),
            )
        })?;
        let start = place[1] as usize;
        let list = [&[], desk, house][place[0] as usize];
        Ok(&list[start..start + count as usize])
    }

    /// The date adjusted, each day that is tried open or closed by the run of its own year.
    pub fn adjust(&self, date: Date, convention: Convention) -> Answer<Moved> {
        let (desk, house) = (self.desk, self.house);
        moved(|days, places| unsafe {
            ffi::heronspan_desk_adjust(
                date.0,
                convention as u8,
                self.mask,
                desk.as_ptr().cast(),
                desk.len(),
                house.as_ptr().cast(),
                house.len(),
                days,
                places,
            )
        })
    }

    /// The two lists as one over the start of `closed`, and that part of it: the desk's dates, and the house's whose year has none of the
    /// desk's. `Full` where these are more than 4,096, `Room` where `closed` is shorter; a refusal leaves it as it was.
    pub fn combine_into<'b>(&self, closed: &'b mut [Date]) -> Answer<&'b [Date]> {
        let (desk, house) = (self.desk, self.house);
        let count = told(unsafe {
            ffi::heronspan_desk_combine(
                desk.as_ptr().cast(),
                desk.len(),
                house.as_ptr().cast(),
                house.len(),
                closed.as_mut_ptr().cast(),
                closed.len(),
            )
        })?;
        Ok(&closed[..count as usize])
    }

    /// One calendar in place of the two lists, in which the same days are open.
    pub fn combined(&self) -> Answer<Calendar> {
        let mut closed = [Date::NONE; Request::MOST];
        let dates = self.combine_into(&mut closed)?;
        Calendar::new(self.mask, dates)
    }
}

/// IMM dates and codes. `main` limits them to the main cycle: March, June, September and December.
pub mod imm {
    use super::{code, day, ffi, truth, Answer, Date};

    pub fn is_date(date: Date, main: bool) -> Answer<bool> {
        truth(unsafe { ffi::heronspan_is_imm_date(date.0, main as u8) })
    }

    pub fn is_code(bytes: &[u8], main: bool) -> bool {
        truth(unsafe { ffi::heronspan_is_imm_code(bytes.as_ptr(), bytes.len(), main as u8) }) == Ok(true)
    }

    /// The code of an IMM date: a letter and a digit.
    pub fn code_of(date: Date) -> Answer<[u8; 2]> {
        code(unsafe { ffi::heronspan_imm_code(date.0) })
    }

    /// The earliest IMM date on or after the reference that the code names.
    pub fn date_of(bytes: &[u8], reference: Date) -> Answer<Date> {
        day(unsafe { ffi::heronspan_imm_date(bytes.as_ptr(), bytes.len(), reference.0) })
    }

    /// The earliest IMM date after the reference.
    pub fn next_date(reference: Date, main: bool) -> Answer<Date> {
        day(unsafe { ffi::heronspan_next_imm_date(reference.0, main as u8) })
    }

    /// The earliest IMM date after the one that the code names.
    pub fn next_date_with_code(bytes: &[u8], main: bool, reference: Date) -> Answer<Date> {
        day(unsafe { ffi::heronspan_next_imm_date_with_code(bytes.as_ptr(), bytes.len(), main as u8, reference.0) })
    }

    /// The code of the earliest IMM date after the reference.
    pub fn next_code(reference: Date, main: bool) -> Answer<[u8; 2]> {
        code(unsafe { ffi::heronspan_next_imm_code(reference.0, main as u8) })
    }

    /// The code of the earliest IMM date after the one that the code names.
    pub fn next_code_with_code(bytes: &[u8], main: bool, reference: Date) -> Answer<[u8; 2]> {
        code(unsafe { ffi::heronspan_next_imm_code_with_code(bytes.as_ptr(), bytes.len(), main as u8, reference.0) })
    }
}

/// Paid dates, for each the date that it was before adjustment, and for each period between them whether it is regular; the tries,
/// the rule and the tenor in force, and the greatest number of days that a date moved.
#[derive(Clone, Debug, PartialEq, Eq)]
pub struct Schedule {
    pub dates: Vec<Date>,
    pub unadjusted: Vec<Date>,
    pub regular: Vec<bool>,
    pub tries: u32,
    pub rule: Rule,
    pub tenor: u32,
    pub unit: Unit,
    pub moved: u32,
}

/// The first date of a schedule after an asked day.
#[derive(Clone, Copy, Debug, PartialEq, Eq)]
pub enum Coming {
    /// The effective date, which ends no period.
    Effective(Date),
    /// A date, and whether the period that ends there is regular.
    Ending { date: Date, regular: bool },
    /// No later date.
    Nothing,
}

/// What a schedule is asked for: Backward, unadjusted and always open unless said.
#[derive(Clone, Debug)]
pub struct Request {
    effective: Date,
    termination: Date,
    tenor: i32,
    unit: Unit,
    rule: Rule,
    convention: Convention,
    terminal: Convention,
    monthend: bool,
    first: Date,
    penultimate: Date,
    calendar: Calendar,
    room: usize,
}

impl Request {
    /// The most dates that a build makes.
    pub const MOST: usize = 4096;

    pub fn new(effective: Date, termination: Date, tenor: i32, unit: Unit) -> Request {
        Request {
            effective,
            termination,
            tenor,
            unit,
            rule: Rule::Backward,
            convention: Convention::Unadjusted,
            terminal: Convention::Unadjusted,
            monthend: false,
            first: Date::NONE,
            penultimate: Date::NONE,
            calendar: Calendar::default(),
            room: Request::MOST,
        }
    }

    pub fn rule(mut self, rule: Rule) -> Request {
        self.rule = rule;
        self
    }

    pub fn convention(mut self, convention: Convention) -> Request {
        self.convention = convention;
        self
    }

    /// The convention of the last date.
    pub fn terminal(mut self, terminal: Convention) -> Request {
        self.terminal = terminal;
        self
    }

    pub fn monthend(mut self, monthend: bool) -> Request {
        self.monthend = monthend;
        self
    }

    pub fn first(mut self, first: Date) -> Request {
        self.first = first;
        self
    }

    pub fn penultimate(mut self, penultimate: Date) -> Request {
        self.penultimate = penultimate;
        self
    }

    pub fn calendar(mut self, calendar: Calendar) -> Request {
        self.calendar = calendar;
        self
    }

    /// How many dates there is room for.
    pub fn room(mut self, room: usize) -> Request {
        self.room = room;
        self
    }

    /// The first date of the schedule after the asked day, without the schedule. Answers requests that are Backward or Forward,
    /// unadjusted, without anchors and end of month; others are [`Refusal::Notplain`].
    pub fn coming(&self, asked: Date) -> Answer<Coming> {
        let (closed, closed_len) = self.calendar.lent();
        let answer = told(unsafe {
            ffi::heronspan_coming(
                self.effective.0,
                self.termination.0,
                self.tenor,
                self.unit as u8,
                self.rule as u8,
                self.convention as u8,
                self.terminal as u8,
                self.monthend as u8,
                self.first.0,
                self.penultimate.0,
                self.calendar.mask,
                closed,
                closed_len,
                asked.0,
            )
        })?;
        let date = Date((answer / 4) as u32);
        Ok(match (answer, answer % 4) {
            (0, _) => Coming::Nothing,
            (_, 2) => Coming::Effective(date),
            (_, mark) => Coming::Ending { date, regular: mark == 1 },
        })
    }

    pub fn build(&self) -> Answer<Schedule> {
        let (closed, closed_len) = self.calendar.lent();
        Schedule::lent(self.room, |dates, flags, unadjusted, record| unsafe {
            ffi::heronspan_build(
                self.effective.0,
                self.termination.0,
                self.tenor,
                self.unit as u8,
                self.rule as u8,
                self.convention as u8,
                self.terminal as u8,
                self.monthend as u8,
                self.first.0,
                self.penultimate.0,
                self.calendar.mask,
                closed,
                closed_len,
                dates.as_mut_ptr(),
                dates.len(),
                flags.as_mut_ptr(),
                flags.len(),
                unadjusted.as_mut_ptr(),
                unadjusted.len(),
                record.as_mut_ptr(),
                record.len(),
            )
        })
    }
}

/// How the days of a period and of a year are counted.
#[derive(Clone, Copy, Debug, PartialEq, Eq, Hash)]
#[repr(u8)]
pub enum Basis {
    Actual360,
    Actual365Fixed,
    ThirtyE360,
}

/// Numerator and denominator of a year fraction, not reduced.
#[derive(Clone, Copy, Debug, PartialEq, Eq, Hash)]
pub struct Parts {
    pub numerator: u32,
    pub denominator: u32,
}

/// Sums of numerators over the periods of a list of dates, one for each basis.
#[derive(Clone, Copy, Debug, PartialEq, Eq, Hash)]
pub struct Sums {
    pub actual360: u32,
    pub actual365_fixed: u32,
    pub thirty_e360: u32,
}

/// The fraction of a year from start to end, paid dates from 1800 to 2399: the numerator over the denominator, rounded once.
pub fn year_fraction(basis: Basis, start: Date, end: Date) -> Answer<f64> {
    told(unsafe { ffi::heronspan_year_fraction(basis as u8, start.0, end.0) }).map(|bits| f64::from_bits(bits as u64))
}

/// The same by its numerator and its denominator.
pub fn year_parts(basis: Basis, start: Date, end: Date) -> Answer<Parts> {
    let mut parts = [0; 2];
    told(unsafe { ffi::heronspan_year_parts(basis as u8, start.0, end.0, parts.as_mut_ptr(), parts.len()) })?;
    Ok(Parts { numerator: parts[0], denominator: parts[1] })
}

/// The sums of the numerators over the periods between neighbours of a list of dates.
pub fn year_report(dates: &[Date]) -> Answer<Sums> {
    let days: Vec<u32> = dates.iter().map(|date| date.0).collect();
    let mut sums = [0; 3];
    told(unsafe { ffi::heronspan_year_report(days.as_ptr(), days.len(), sums.as_mut_ptr(), sums.len()) })?;
    Ok(Sums { actual360: sums[0], actual365_fixed: sums[1], thirty_e360: sums[2] })
}

impl Schedule {
    /// The year fraction of each period, on the paid dates.
    pub fn year_fractions(&self, basis: Basis) -> Answer<Vec<f64>> {
        self.dates.windows(2).map(|period| year_fraction(basis, period[0], period[1])).collect()
    }

    /// The schedule that the bytes of a request ask for, with room for `room` dates.
    pub fn from_bytes(bytes: &[u8], room: usize) -> Answer<Schedule> {
        Schedule::lent(room, |dates, flags, unadjusted, record| unsafe {
            ffi::heronspan_build_bytes(
                bytes.as_ptr(),
                bytes.len(),
                dates.as_mut_ptr(),
                dates.len(),
                flags.as_mut_ptr(),
                flags.len(),
                unadjusted.as_mut_ptr(),
                unadjusted.len(),
                record.as_mut_ptr(),
                record.len(),
            )
        })
    }

    /// What a build leaves in the lists that are lent to it.
    fn lent(room: usize, build: impl FnOnce(&mut [u32], &mut [u8], &mut [u32], &mut [u32; 7]) -> i64) -> Answer<Schedule> {
        let mut lists = Lists::new(room);
        let mut record = [0u32; 7];
        let count = told(build(&mut lists.dates, &mut lists.flags, &mut lists.unadjusted, &mut record))? as usize;
        Ok(Schedule {
            dates: dates_of(&lists.dates[..count]),
            unadjusted: dates_of(&lists.unadjusted[..count]),
            regular: lists.regular(0, count),
            tries: record[2],
            rule: RULES[record[3] as usize],
            tenor: record[4],
            unit: UNITS[record[5] as usize],
            moved: record[6],
        })
    }
}

/// The lists that a call writes schedules into.
struct Lists {
    dates: Vec<u32>,
    flags: Vec<u8>,
    unadjusted: Vec<u32>,
}

impl Lists {
    fn new(room: usize) -> Lists {
        Lists { dates: vec![0; room], flags: vec![0; room], unadjusted: vec![0; room] }
    }

    /// Whether each of the periods between `count` dates is regular, the first date being at `start`.
    fn regular(&self, start: usize, count: usize) -> Vec<bool> {
        self.flags[start..start + count.saturating_sub(1)].iter().map(|&flag| flag == 1).collect()
    }
}

fn dates_of(numbers: &[u32]) -> Vec<Date> {
    numbers.iter().map(|&n| Date(n)).collect()
}

/// A schedule of a book: paid dates, for each the date before adjustment, for each period whether it is regular, and the tries.
#[derive(Clone, Debug, PartialEq, Eq)]
pub struct Booked {
    pub dates: Vec<Date>,
    pub unadjusted: Vec<Date>,
    pub regular: Vec<bool>,
    pub tries: u32,
}

/// Builds up to 64 requests in one call, each in the room that those before it left: for each its schedule, or its refusal. A longer list,
/// or a request whose length two bytes cannot say, is refused with `Refusal::Batch`.
pub fn book(requests: &[&[u8]], room: usize) -> Answer<Vec<Answer<Booked>>> {
    let mut whole = Vec::new();
    for request in requests {
        let size = u16::try_from(request.len()).map_err(|_| Refusal::Batch)?;
        whole.extend_from_slice(&size.to_be_bytes());
        whole.extend_from_slice(request);
    }
    let mut lists = Lists::new(room);
    let mut answers = vec![0u32; 4 * requests.len()];
    told(unsafe {
        ffi::heronspan_book(
            whole.as_ptr(),
            whole.len(),
            lists.dates.as_mut_ptr(),
            lists.dates.len(),
            lists.flags.as_mut_ptr(),
            lists.flags.len(),
            lists.unadjusted.as_mut_ptr(),
            lists.unadjusted.len(),
            answers.as_mut_ptr(),
            answers.len(),
        )
    })?;
    let schedule = |answer: &[u32]| {
        let (count, start) = (answer[0] as usize, answer[1] as usize);
        told(-i64::from(answer[3])).map(|_| Booked {
            dates: dates_of(&lists.dates[start..start + count]),
            unadjusted: dates_of(&lists.unadjusted[start..start + count]),
            regular: lists.regular(start, count),
            tries: answer[2],
        })
    };
    Ok(answers.chunks(4).map(schedule).collect())
}

const CONVENTIONS: [Convention; 5] = [
    Convention::Unadjusted,
    Convention::Following,
    Convention::ModifiedFollowing,
    Convention::Preceding,
    Convention::ModifiedPreceding,
];

/// Reads a request that comes in parts, in any cuts: [`Reader::feed`] each, then [`Reader::finish`], which answers as the whole would.
/// Once finished, each call repeats the answer until [`Reader::reset`].
pub struct Reader {
    raw: ffi::Reader,
    buffer: Vec<u8>,
    closed: Vec<u32>,
}

impl Default for Reader {
    fn default() -> Reader {
        Reader::new()
    }
}

impl Reader {
    pub fn new() -> Reader {
        let raw = ffi::Reader { state: [0; 20], request: [0; 13] };
        let mut reader = Reader { raw, buffer: vec![0; 20_000], closed: vec![0; Request::MOST] };
        reader.reset();
        reader
    }

    pub fn reset(&mut self) {
        unsafe { ffi::heronspan_reset(&mut self.raw) };
    }

    /// The bodies of the fields, back to back at the start.
    pub fn buffer(&self) -> &[u8] {
        &self.buffer
    }

    /// None is "go on"; after the finish, the request that it found.
    pub fn feed(&mut self, part: &[u8]) -> Answer<Option<Request>> {
        let answer = told(unsafe {
            ffi::heronspan_feed(
                &mut self.raw,
                part.as_ptr(),
                part.len(),
                self.buffer.as_mut_ptr(),
                self.buffer.len(),
                self.closed.as_mut_ptr(),
                self.closed.len(),
            )
        })?;
        Ok((answer != 0).then(|| self.found()))
    }

    pub fn finish(&mut self) -> Answer<Request> {
        told(unsafe {
            ffi::heronspan_finish(
                &mut self.raw,
                self.buffer.as_ptr(),
                self.buffer.len(),
                self.closed.as_mut_ptr(),
                self.closed.len(),
            )
        })?;
        Ok(self.found())
    }

    /// Feeds all that the source has, and finishes.
    pub fn read(&mut self, source: &mut impl io::Read) -> io::Result<Answer<Request>> {
        let mut part = [0; 4096];
        loop {
            match source.read(&mut part)? {
                0 => return Ok(self.finish()),
                n => {
                    if let Err(refusal) = self.feed(&part[..n]) {
                        return Ok(Err(refusal));
                    }
                }
            }
        }
    }

    fn found(&self) -> Request {
        let [effective, termination, size, back, unit, rule, convention, terminal, monthend, first, penultimate, mask, count] = self.raw.request;
        Request {
            effective: Date(effective),
            termination: Date(termination),
            tenor: if back == 1 { -(size as i32) } else { size as i32 },
            unit: UNITS[unit as usize],
            rule: RULES[rule as usize],
            convention: CONVENTIONS[convention as usize],
            terminal: CONVENTIONS[terminal as usize],
            monthend: monthend == 1,
            first: Date(first),
            penultimate: Date(penultimate),
            calendar: Calendar { mask: mask as u8, closed: self.closed[..count as usize].to_vec() },
            room: Request::MOST,
        }
    }
}

#[cfg(test)]
mod tests {
    use super::*;

    #[test]
    fn the_library_has_the_same_names() {
        for number in 0..=255 {
            let own = REFUSALS.iter().find(|row| row.0.number() == number).map_or("", |row| row.1);
            assert_eq!(refusal_name(number), own, "{number}");
        }
    }

    #[test]
    fn a_name_that_does_not_fit_is_refused() {
        let mut text = [7, 8, 9];
        assert_eq!(unsafe { ffi::heronspan_refusal_text(-2, text.as_mut_ptr(), text.len()) }, -14);
        assert_eq!(text, [7, 8, 9]);
    }
}

/// A calendar file that is refused, and the line that it is refused for: 0 is the whole file.
#[derive(Clone, Copy, Debug, PartialEq, Eq)]
pub struct RefusedFile {
    pub refusal: Refusal,
    pub line: u32,
}

impl fmt::Display for RefusedFile {
    fn fmt(&self, f: &mut fmt::Formatter<'_>) -> fmt::Result {
        write!(f, "{} at line {}", self.refusal, self.line)
    }
}

impl std::error::Error for RefusedFile {}

/// The days of a calendar file's all-day events (RFC 5545), ascending, as a calendar takes them.
pub fn holidays(file: &[u8]) -> Result<Vec<Date>, RefusedFile> {
    let (mut days, mut line) = (vec![0; 4096], [0]);
    let answer = unsafe {
        ffi::heronspan_holidays_import(file.as_ptr(), file.len(), days.as_mut_ptr(), days.len(), line.as_mut_ptr(), line.len())
    };
    let count = told(answer).map_err(|refusal| RefusedFile { refusal, line: line[0] })?;
    Ok(days[..count as usize].iter().map(|&day| Date(day)).collect())
}

/// Closed dates in ascending order as a calendar file, which `holidays` reads back.
pub fn holidays_file(closed: &[Date]) -> Answer<Vec<u8>> {
    let days: Vec<u32> = closed.iter().map(|date| date.0).collect();
    let mut file = vec![0; 65_536];
    let size = told(unsafe { ffi::heronspan_holidays_export(days.as_ptr(), days.len(), file.as_mut_ptr(), file.len()) })?;
    file.truncate(size as usize);
    Ok(file)
}
