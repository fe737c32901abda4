//! Reads questions from standard input, one a line, and prints the Rust's answer to each, one a line. README.md beside
//! this crate lists the questions and the answers. `--search N` lets a search meet N closed days before it is stopped
//! (31 if not said). `--time ROUNDS` and `--once` answer as timing.rs says.
#![allow(dead_code)]

mod utils {
    pub mod errors;
}

mod time {
    pub mod calendar;
    pub mod calendars {
        pub mod nullcalendar;
        pub mod traits;
        pub mod weekendsonly {
            pub use crate::table::WeekendsOnly;
        }
        pub use crate::cities::*;
    }
    pub mod date;
    pub mod enums;
    pub mod imm;
    pub mod period;
    pub mod schedule;
}

mod cities;
mod counted;
mod table;
mod timing;

use chrono::{Datelike, NaiveDate};
use counted::tally;
use std::io::{BufRead, BufWriter, Write};
use std::panic::{catch_unwind, AssertUnwindSafe};
use std::str::SplitAsciiWhitespace;
use time::calendar::Calendar;
use time::calendars::nullcalendar::NullCalendar;
use time::calendars::traits::IsCalendar;
use time::date::Date;
use time::enums::{BusinessDayConvention, DateGenerationRule, TimeUnit, Weekday};
use time::imm::IMM;
use time::period::Period;
use time::schedule::Schedule;
use utils::errors::{QSError, Result};

/// Why a line gets no answer of the Rust's.
enum Unanswered {
    /// The line is no question.
    Malformed,
    /// The Rust's types have no such value.
    Unasked,
}

type Read<T> = std::result::Result<T, Unanswered>;

/// The words of a question, taken from the left.
struct Words<'a>(SplitAsciiWhitespace<'a>);

impl Words<'_> {
    fn word(&mut self) -> Read<&str> {
        self.0.next().ok_or(Unanswered::Malformed)
    }

    fn number(&mut self) -> Read<i32> {
        self.word()?.parse().map_err(|_| Unanswered::Malformed)
    }

    /// A number that the Rust takes without a sign.
    fn count(&mut self) -> Read<u32> {
        u32::try_from(self.number()?).map_err(|_| Unanswered::Unasked)
    }

    fn flag(&mut self) -> Read<bool> {
        match self.number()? {
            0 => Ok(false),
            1 => Ok(true),
            _ => Err(Unanswered::Malformed),
        }
    }

    fn date(&mut self) -> Read<Date> {
        match self.number()? {
            0 => Ok(Date::empty()),
            n => NaiveDate::from_num_days_from_ce_opt(n).map(Date::from).ok_or(Unanswered::Unasked),
        }
    }

    fn unit(&mut self) -> Read<TimeUnit> {
        match self.word()? {
            "D" => Ok(TimeUnit::Days),
            "W" => Ok(TimeUnit::Weeks),
            "M" => Ok(TimeUnit::Months),
            "Y" => Ok(TimeUnit::Years),
            _ => Err(Unanswered::Malformed),
        }
    }

    fn period(&mut self) -> Read<Period> {
        let unit = self.unit()?;
        Ok(Period::new(self.number()?, unit))
    }

    fn rule(&mut self) -> Read<DateGenerationRule> {
        let n = usize::try_from(self.number()?).map_err(|_| Unanswered::Malformed)?;
        RULES.get(n).copied().ok_or(Unanswered::Malformed)
    }

    fn convention(&mut self) -> Read<BusinessDayConvention> {
        let n = usize::try_from(self.number()?).map_err(|_| Unanswered::Malformed)?;
        CONVENTIONS.get(n).copied().ok_or(Unanswered::Malformed)
    }

    fn weekday(&mut self) -> Read<Weekday> {
        match self.number()? {
            n @ 1..=7 => Ok(WEEKDAYS[n as usize - 1]),
            _ => Err(Unanswered::Unasked),
        }
    }

    /// Bytes in hex, or - for none. The Rust takes text, so bytes that are no UTF-8 cannot be asked.
    fn text(&mut self) -> Read<String> {
        let word = self.word()?;
        let digits = if word == "-" { "" } else { word };
        if !digits.is_ascii() || digits.len() % 2 == 1 {
            return Err(Unanswered::Malformed);
        }
        let bytes: std::result::Result<Vec<u8>, _> =
            (0..digits.len()).step_by(2).map(|i| u8::from_str_radix(&digits[i..i + 2], 16)).collect();
        String::from_utf8(bytes.map_err(|_| Unanswered::Malformed)?).map_err(|_| Unanswered::Unasked)
    }

    /// A mask and a counted list. The calendar that closes nothing is the Rust's own null calendar.
    fn calendar(&mut self) -> Read<Calendar> {
        let mask = self.number()?;
        let count = self.number()?;
        let mut closed: Vec<i32> = (0..count).map(|_| self.number()).collect::<Read<_>>()?;
        if mask & 0x7f == 0 && closed.is_empty() {
            return Ok(Calendar::NullCalendar(NullCalendar::new()));
        }
        closed.sort_unstable();
        Ok(Calendar::WeekendsOnly(table::WeekendsOnly::of((mask & 0x7f) as u8, closed)))
    }

    fn end(&mut self) -> Read<()> {
        match self.0.next() {
            None => Ok(()),
            Some(_) => Err(Unanswered::Malformed),
        }
    }
}

const RULES: [DateGenerationRule; 10] = [
    DateGenerationRule::Zero,
    DateGenerationRule::Backward,
    DateGenerationRule::Forward,
    DateGenerationRule::Twentieth,
    DateGenerationRule::TwentiethIMM,
    DateGenerationRule::ThirdWednesday,
    DateGenerationRule::ThirdWednesdayInclusive,
    DateGenerationRule::OldCDS,
    DateGenerationRule::CDS,
    DateGenerationRule::CDS2015,
];

const CONVENTIONS: [BusinessDayConvention; 5] = [
    BusinessDayConvention::Unadjusted,
    BusinessDayConvention::Following,
    BusinessDayConvention::ModifiedFollowing,
    BusinessDayConvention::Preceding,
    BusinessDayConvention::ModifiedPreceding,
];

const WEEKDAYS: [Weekday; 7] = [
    Weekday::Monday,
    Weekday::Tuesday,
    Weekday::Wednesday,
    Weekday::Thursday,
    Weekday::Friday,
    Weekday::Saturday,
    Weekday::Sunday,
];

/// A day number; the empty date is 0, and the last day before year 1, which would be 0 too, is -0.
fn day(date: Date) -> String {
    match date.base_date().num_days_from_ce() {
        _ if date == Date::empty() => "0".to_string(),
        0 => "-0".to_string(),
        n => n.to_string(),
    }
}

fn flag(value: bool) -> String {
    u8::from(value).to_string()
}

fn unit(value: TimeUnit) -> char {
    match value {
        TimeUnit::Days => 'D',
        TimeUnit::Weeks => 'W',
        TimeUnit::Months => 'M',
        TimeUnit::Years => 'Y',
    }
}

/// The refusal that a build's error amounts to, told by its text.
fn number(error: &QSError) -> u32 {
    let QSError::MakeScheduleErr(text) = error else {
        return 2;
    };
    match text.as_str() {
        "first date out of effective-termination date range" => 6,
        "first date is not an IMM date" => 7,
        "first date incompatible with date generation rule" => 8,
        "next to last date out of effective-termination date range" => 9,
        "next to last date is not an IMM date" => 10,
        "next to last date incompatible with date generation rule" => 11,
        "endOfMonth convention incompatible with date generation rule" => 12,
        _ if text.starts_with("non positive tenor") => 4,
        _ => 0,
    }
}

/// Runs what the question asks for; an answer, or what stopped it.
fn run(ask: impl FnOnce() -> Result<String>) -> std::result::Result<String, Stop> {
    table::start();
    tally::start();
    match catch_unwind(AssertUnwindSafe(ask)) {
        Ok(Ok(answer)) => Ok(answer),
        Ok(Err(error)) => Err(Stop::Error(number(&error))),
        Err(payload) if payload.is::<table::Closed>() => Err(Stop::Closed),
        Err(_) => Err(Stop::Panic),
    }
}

enum Stop {
    Error(u32),
    Closed,
    Panic,
}

/// The answer to a question that can stop in one of three ways.
fn said(ask: impl FnOnce() -> Result<String>) -> String {
    match run(ask) {
        Ok(answer) => answer,
        Err(Stop::Error(_)) => "error".to_string(),
        Err(Stop::Closed) => "closed".to_string(),
        Err(Stop::Panic) => "panic".to_string(),
    }
}

/// The fields of a build, as read.
struct Build {
    effective: Date,
    termination: Date,
    tenor: Period,
    rule: DateGenerationRule,
    convention: BusinessDayConvention,
    terminal: BusinessDayConvention,
    month_end: bool,
    first: Date,
    penultimate: Date,
    calendar: Calendar,
}

impl Build {
    fn read(w: &mut Words) -> Read<Self> {
        let build = Self {
            effective: w.date()?,
            termination: w.date()?,
            tenor: w.period()?,
            rule: w.rule()?,
            convention: w.convention()?,
            terminal: w.convention()?,
            month_end: w.flag()?,
            first: w.date()?,
            penultimate: w.date()?,
            calendar: w.calendar()?,
        };
        w.end()?;
        Ok(build)
    }
}

/// Hands a build's fields to the builder of the named module.
macro_rules! built {
    ($module:path, $request:expr, $calendar:expr) => {{
        use $module as schedule;
        schedule::MakeSchedule::new($request.effective, $request.termination)
            .with_tenor($request.tenor)
            .with_rule($request.rule)
            .with_convention($request.convention)
            .with_termination_date_convention($request.terminal)
            .end_of_month($request.month_end)
            .with_first_date($request.first)
            .with_next_to_last_date($request.penultimate)
            .with_calendar($calendar)
            .build()
    }};
}

impl Build {
    fn built(&self) -> Result<Schedule> {
        let calendar = self.calendar.clone();
        built!(crate::time::schedule, self, calendar)
    }
}

fn listed(schedule: &Schedule) -> String {
    let rule = RULES.iter().position(|r| *r == schedule.rule()).expect("ten rules");
    let tenor = schedule.tenor();
    let mut line = format!("ok {rule} {} {} {}", unit(tenor.units()), tenor.length(), schedule.dates().len());
    for date in schedule.dates() {
        line.push(' ');
        line.push_str(&day(*date));
    }
    for regular in schedule.is_regular() {
        line.push_str(if *regular { " 1" } else { " 0" });
    }
    line
}

fn build(w: &mut Words) -> Read<String> {
    let request = Build::read(w)?;
    Ok(said(|| Ok(listed(&request.built()?))))
}

/// How the same build ends, how many candidates it tries, and how long its list gets before the merges.
fn trace(w: &mut Words) -> Read<String> {
    let request = Build::read(w)?;
    let backward = request.rule == DateGenerationRule::Backward && request.tenor.length() > 0;
    let flagged = backward && request.penultimate != Date::empty();
    let outcome = run(|| {
        let calendar = counted::calendar::Calendar::Given(request.calendar);
        built!(crate::counted::schedule, request, calendar)?;
        Ok(String::new())
    });
    let (steps, peak) = tally::counts();
    let tries = steps.saturating_sub(u32::from(flagged));
    Ok(match outcome {
        Ok(_) => format!("ok {tries} {peak}"),
        Err(Stop::Error(n)) => format!("error {n}"),
        Err(Stop::Closed) => format!("closed {tries} {peak}"),
        Err(Stop::Panic) => format!("panic {tries} {peak}"),
    })
}

fn answer(line: &str) -> Read<String> {
    let mut w = Words(line.split_ascii_whitespace());
    let kind = w.word()?.to_string();
    let w = &mut w;
    macro_rules! ask {
        ($($name:ident: $reader:ident),*; $say:expr) => {{
            $(let $name = w.$reader()?;)*
            w.end()?;
            said(move || $say)
        }};
    }
    Ok(match kind.as_str() {
        "build" => build(w)?,
        "trace" => trace(w)?,
        "next20" => ask!(d: date, r: rule; Ok(day(counted::schedule::next20(d, r)))),
        "prev20" => ask!(d: date, r: rule; Ok(day(counted::schedule::prev20(d, r)))),
        "open" => ask!(d: date, cal: calendar; Ok(flag(cal.is_business_day(&d)))),
        "adjust" => ask!(d: date, c: convention, cal: calendar; Ok(day(cal.adjust(d, Some(c))))),
        "monthend" => ask!(d: date, cal: calendar; Ok(day(cal.end_of_month(d)))),
        "ismonthend" => ask!(d: date, cal: calendar; Ok(flag(cal.is_end_of_month(&d)))),
        "advance" => ask!(d: date, p: period, c: convention, e: flag, cal: calendar;
            Ok(day(cal.advance(d, p, Some(c), e)?))),
        "ixcount" => ask!(a: date, b: date, _places: number, cal: calendar;
            Ok(cal.business_days_between(a, b, true, false).to_string())),
        "immdate" => ask!(d: date, m: flag; Ok(flag(IMM::is_imm_date(d, m)))),
        "immcode" => ask!(t: text, m: flag; Ok(flag(IMM::is_imm_code(&t, m)))),
        "code" => ask!(d: date; Ok(IMM::code(d))),
        "date" => ask!(t: text, d: date; Ok(day(IMM::date(&t, d)))),
        "nextdate" => ask!(d: date, m: flag; Ok(day(IMM::next_date(d, m)))),
        "nextdatecode" => ask!(t: text, m: flag, d: date; Ok(day(IMM::next_date_with_code(&t, m, d)))),
        "nextcode" => ask!(d: date, m: flag; Ok(IMM::next_code(d, m))),
        "nextcodecode" => ask!(t: text, m: flag, d: date; Ok(IMM::next_code_with_code(&t, m, d))),
        "dateadvance" => ask!(d: date, u: unit, n: number; Ok(day(d.advance(n, u)?))),
        "nth" => ask!(n: number, k: weekday, m: count, y: number; Ok(day(Date::nth_weekday(n, k, m, y)))),
        "nextweekday" => ask!(d: date, k: weekday; Ok(day(Date::next_weekday(d, k)))),
        "dmonthend" => ask!(d: date; Ok(day(Date::end_of_month(d)))),
        "make" => ask!(y: number, m: count, d: count; Ok(day(Date::new(y, m, d)))),
        "fields" => ask!(d: date; {
            let n = WEEKDAYS.iter().position(|k| *k == d.weekday()).expect("seven days") + 1;
            Ok(format!("{} {} {} {n}", d.year(), d.month(), d.day()))
        }),
        "difference" => ask!(a: date, b: date; Ok((a - b).to_string())),
        "compare" => ask!(a: date, b: date; Ok((a.cmp(&b) as i8).to_string())),
        "times" => ask!(p: period, n: number; {
            let q = p * n;
            Ok(format!("{} {}", unit(q.units()), q.length()))
        }),
        _ => return Err(Unanswered::Malformed),
    })
}

fn main() {
    let args: Vec<String> = std::env::args().skip(1).collect();
    let mut rounds = None;
    match args.iter().map(String::as_str).collect::<Vec<_>>()[..] {
        [] => {}
        ["--search", n] if n.parse::<u32>().is_ok_and(|n| n > 0) => table::set_limit(n.parse().expect("read before")),
        ["--time", n] if n.parse::<usize>().is_ok_and(|n| n > 0) => rounds = n.parse().ok(),
        ["--once"] => rounds = Some(0),
        _ => {
            eprintln!("usage: oracle [--search DAYS | --time ROUNDS | --once] < questions > answers");
            std::process::exit(2);
        }
    }
    let answer = |line: &str| rounds.map_or_else(|| answer(line), |n| timing::answer(line, n));
    std::panic::set_hook(Box::new(|_| {}));
    let mut out = BufWriter::new(std::io::stdout().lock());
    for (index, line) in std::io::stdin().lock().lines().enumerate() {
        let said = match line.map_err(|_| Unanswered::Malformed).and_then(|l| answer(&l)) {
            Ok(said) => said,
            Err(Unanswered::Unasked) => "unasked".to_string(),
            Err(Unanswered::Malformed) => {
                let _ = out.flush();
                eprintln!("oracle: line {} is no question", index + 1);
                std::process::exit(1);
            }
        };
        if writeln!(out, "{said}").is_err() {
            std::process::exit(1);
        }
    }
    if out.flush().is_err() {
        std::process::exit(1);
    }
}
