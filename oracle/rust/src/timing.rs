//! Times the Rust's calls. For each question it prints the median and the least time of a call in nanoseconds, and the
//! answer; with no rounds it makes each call twice and prints the answer alone, for callgrind to count the instructions
//! inside `measured`.

use crate::time::calendars::traits::IsCalendar;
use crate::time::imm::IMM;
use crate::{day, flag, listed, Build, Read, Unanswered, Words};
use std::hint::black_box;

const ROUND_NS: f64 = 100_000.0;

#[repr(C)]
struct Time {
    seconds: i64,
    nanoseconds: i64,
}

extern "C" {
    fn clock_gettime(clock: i32, time: *mut Time) -> i32;
}

const THREAD_CPU: i32 = 3;

fn nanoseconds() -> f64 {
    let mut t = Time { seconds: 0, nanoseconds: 0 };
    // The clock exists on every Linux, and the time is lent.
    unsafe { clock_gettime(THREAD_CPU, &mut t) };
    t.seconds as f64 * 1e9 + t.nanoseconds as f64
}

#[no_mangle]
#[inline(never)]
fn measured(call: &mut dyn FnMut()) {
    call();
}

fn round(call: &mut dyn FnMut(), calls: u32) -> f64 {
    let start = nanoseconds();
    for _ in 0..calls {
        measured(call);
    }
    (nanoseconds() - start) / f64::from(calls)
}

/// The times of a call and what it answered.
fn timed<T>(rounds: usize, mut call: impl FnMut() -> T, say: impl FnOnce(T) -> String) -> String {
    let mut last = None;
    let mut made = || last = Some(black_box(call()));
    let mut times = String::new();
    if rounds == 0 {
        measured(&mut made);
        measured(&mut made);
    } else {
        round(&mut made, 1); // An emulator translates the code in it.
        let once = round(&mut made, 1);
        let calls = if once >= ROUND_NS { 1 } else { (ROUND_NS / (once + 1.0)) as u32 + 1 };
        let mut took: Vec<f64> = (0..rounds).map(|_| round(&mut made, calls)).collect();
        took.sort_by(f64::total_cmp);
        times = format!("{:.1} {:.1} ", took[rounds / 2], took[0]);
    }
    times + &say(last.expect("called"))
}

pub fn answer(line: &str, rounds: usize) -> Read<String> {
    let mut words = Words(line.split_ascii_whitespace());
    let kind = words.word()?.to_string();
    let w = &mut words;
    Ok(match kind.as_str() {
        "build" => {
            let b = Build::read(w)?;
            timed(rounds, || black_box(&b).built(), |s| s.map_or("error".to_string(), |s| listed(&s)))
        }
        "adjust" => {
            let (d, c, calendar) = (w.date()?, w.convention()?, w.calendar()?);
            timed(rounds, || calendar.adjust(black_box(d), Some(c)), day)
        }
        "advance" => {
            let (d, p, c, e, calendar) = (w.date()?, w.period()?, w.convention()?, w.flag()?, w.calendar()?);
            timed(rounds, || calendar.advance(black_box(d), p, Some(c), e).expect("a date"), day)
        }
        "ixcount" => {
            let (a, b, _, calendar) = (w.date()?, w.date()?, w.number()?, w.calendar()?);
            timed(rounds, || calendar.business_days_between(black_box(a), b, true, false), |n| n.to_string())
        }
        "immdate" => {
            let (d, main) = (w.date()?, w.flag()?);
            timed(rounds, || IMM::is_imm_date(black_box(d), main), flag)
        }
        "nextdate" => {
            let (d, main) = (w.date()?, w.flag()?);
            timed(rounds, || IMM::next_date(black_box(d), main), day)
        }
        "date" => {
            let (code, d) = (w.text()?, w.date()?);
            timed(rounds, || IMM::date(black_box(&code), d), day)
        }
        "code" => {
            let d = w.date()?;
            timed(rounds, || IMM::code(black_box(d)), |code| code)
        }
        _ => return Err(Unanswered::Malformed),
    })
}
