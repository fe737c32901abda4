//! Sums by hand of document 01, and what is refused.
use heronspan::{book, imm, times, year_fraction, year_parts, year_report, Basis, Booked, Calendar, Coming, Convention, Date, DeskCalendar, Index, Moved, Parts, Refusal, Request, Rule, Schedule, Sums, Unit};
use std::cmp::Ordering;

fn day(year: u32, month: u32, day: u32) -> Date {
    Date::make(year, month, day).unwrap()
}

fn moved(year: u32, month: u32, date: u32, days: i32) -> Result<Moved, Refusal> {
    Ok(Moved { date: day(year, month, date), days })
}

fn quarterly() -> Request {
    Request::new(day(2025, 1, 15), day(2025, 12, 20), 3, Unit::Months)
}

#[test]
fn dates() {
    assert_eq!(Date::make(2025, 2, 29), Err(Refusal::Book));
    assert_eq!(day(2024, 2, 29).fields(), Ok((2024, 2, 29)));
    assert_eq!(day(2025, 3, 19).weekday(), Ok(3));
    assert_eq!(day(2025, 1, 31).advance(1, Unit::Months), Ok(day(2025, 2, 28)));
    assert_eq!(day(2025, 2, 1).month_end(), Ok(day(2025, 2, 28)));
    assert_eq!(day(2025, 3, 20).next_weekday(3), Ok(day(2025, 3, 26)));
    assert_eq!(Date::nth_weekday(3, 3, 3, 2025), Ok(day(2025, 3, 19)));
    assert_eq!(day(2025, 1, 1).difference(day(2025, 3, 1)), Ok(-59));
    assert_eq!(day(2025, 1, 1).compare(day(2025, 3, 1)), Ok(Ordering::Less));
    assert_eq!(day(2025, 3, 1).compare(day(2025, 3, 1)), Ok(Ordering::Equal));
    assert_eq!(day(2025, 3, 2).compare(day(2025, 3, 1)), Ok(Ordering::Greater));
    assert_eq!(times(-3, Unit::Months, 4), Ok(-12));
    assert_eq!(times(i32::MAX, Unit::Days, 2), Err(Refusal::Tenor));
}

#[test]
fn a_missing_date_is_refused() {
    let given = day(2025, 3, 1);
    assert_eq!(Date::NONE.compare(given), Err(Refusal::Book));
    assert_eq!(given.compare(Date::NONE), Err(Refusal::Book));
    assert_eq!(given.difference(Date::NONE), Err(Refusal::Book));
    assert_eq!(Date::NONE.weekday(), Err(Refusal::Book));
    assert_eq!(imm::next_date(Date::NONE, true), Err(Refusal::Book));
    assert_eq!(Request::new(Date::NONE, given, 1, Unit::Months).build(), Err(Refusal::Book));
    assert_eq!(Request::new(given, Date::NONE, 1, Unit::Months).build(), Err(Refusal::Book));
}

#[test]
fn calendars() {
    let weekends = Calendar::new(Calendar::WEEKENDS, &[]).unwrap();
    assert_eq!(weekends.adjust(day(2025, 5, 31), Convention::Unadjusted), moved(2025, 5, 31, 0));
    assert_eq!(weekends.adjust(day(2025, 5, 31), Convention::Following), moved(2025, 6, 2, 2));
    assert_eq!(weekends.adjust(day(2025, 5, 31), Convention::ModifiedFollowing), moved(2025, 5, 30, -1));
    assert_eq!(weekends.adjust(Date::NONE, Convention::Following), Err(Refusal::Book));
    assert_eq!(weekends.month_end(day(2025, 5, 15)), moved(2025, 5, 30, -1));
    assert_eq!(weekends.is_month_end(day(2025, 5, 30)), Ok(true));
    assert_eq!(weekends.is_month_end(Date::NONE), Ok(false));
    let easter = Calendar::new(Calendar::WEEKENDS, &[day(2025, 4, 18), day(2025, 4, 21)]).unwrap();
    assert_eq!(easter.is_open(day(2025, 4, 18)), Ok(false));
    let next = easter.advance(day(2025, 4, 17), 1, Unit::Days, Convention::Following, false);
    assert_eq!(next, moved(2025, 4, 22, 4));
    assert_eq!(Calendar::new(127, &[]), Err(Refusal::Calendar));
}

#[test]
fn open_days_by_index() {
    let always = Index::new(Calendar::default()).unwrap();
    assert_eq!(always.counts()[..6], [0, 365, 730, 1095, 1460, 1826]);
    assert_eq!(always.counts()[600], 219145);
    let mut index = Index::new(Calendar::new(Calendar::WEEKENDS, &[day(2025, 3, 1)]).unwrap()).unwrap();
    assert_eq!(index.count(day(2025, 3, 3), day(2025, 3, 4)), Ok(1));
    assert_eq!(index.count(day(2025, 3, 1), day(2025, 3, 3)), Ok(0));
    assert_eq!(index.count(day(2025, 3, 4), day(2025, 3, 3)), Ok(0));
    assert_eq!(index.count(Date::NONE, day(2025, 3, 3)), Err(Refusal::Book));
    assert_eq!(index.nth(day(2025, 2, 28), 1), Ok(day(2025, 3, 3)));
    assert_eq!(index.nth(day(2025, 2, 28), 367), Err(Refusal::Tenor));
    let before = index.clone();
    assert_eq!(index.add(day(2025, 3, 3)), Ok(()));
    assert_eq!(index.nth(day(2025, 2, 28), 1), Ok(day(2025, 3, 4)));
    assert_eq!(index.counts()[..226], before.counts()[..226]);
    assert_eq!(index, Index::new(index.calendar().clone()).unwrap());
    assert_eq!(index.add(day(2025, 3, 3)), Err(Refusal::Same));
    assert_eq!(index.remove(day(2025, 3, 3)), Ok(()));
    assert_eq!(index, before);
    assert_eq!(index.remove(day(2025, 3, 1)), Ok(()));
    assert_eq!(index.counts(), before.counts());
    assert_eq!(index.remove(day(2025, 3, 1)), Err(Refusal::Same));
}

#[test]
fn a_desk_over_the_house() {
    let house = [day(2025, 12, 25), day(2025, 12, 26), day(2026, 1, 1), day(2026, 1, 2)];
    let desk = [day(2025, 12, 25)];
    let calendar = DeskCalendar::new(Calendar::WEEKENDS, &desk, &house).unwrap();
    let own = calendar.run(2025).unwrap();
    assert!(std::ptr::eq(own, &desk[..]));
    assert!(std::ptr::eq(calendar.run(2026).unwrap(), &house[2..]));
    assert_eq!(calendar.run(2024), Ok(&[][..]));
    assert_eq!(calendar.run(1799), Err(Refusal::Book));
    assert_eq!((calendar.check(1800), calendar.check(2400)), (Ok(()), Err(Refusal::Book)));
    assert_eq!(calendar.adjust(day(2025, 12, 25), Convention::Following), moved(2025, 12, 26, 1));
    let none = DeskCalendar::new(Calendar::WEEKENDS, &[], &house).unwrap();
    assert_eq!(none.adjust(day(2025, 12, 25), Convention::Following), moved(2025, 12, 29, 4));
    assert_eq!(DeskCalendar::new(0, &[], &[day(2026, 1, 2), day(2026, 1, 1)]), Err(Refusal::Calendar));
}

#[test]
fn a_desk_and_the_house_as_one_calendar() {
    let house = [day(2025, 12, 25), day(2025, 12, 26), day(2026, 1, 1), day(2026, 1, 2)];
    let desk = [day(2025, 12, 25)];
    let calendar = DeskCalendar::new(Calendar::WEEKENDS, &desk, &house).unwrap();
    let mut closed = [Date(7); 5];
    assert_eq!(calendar.combine_into(&mut closed), Ok(&[house[0], house[2], house[3]][..]));
    assert_eq!(closed, [house[0], house[2], house[3], Date(7), Date(7)]);
    let mut short = [Date(7); 2];
    assert_eq!(calendar.combine_into(&mut short), Err(Refusal::Room));
    assert_eq!(short, [Date(7); 2]);
    let one = calendar.combined().unwrap();
    assert_eq!(one, Calendar::new(Calendar::WEEKENDS, &[house[0], house[2], house[3]]).unwrap());
    for back in 0..40 {
        let date = Date(day(2026, 1, 10).0 - back);
        assert_eq!(one.adjust(date, Convention::Following), calendar.adjust(date, Convention::Following));
    }
    let many: Vec<Date> = (0..4096).map(|at| Date(day(1901, 1, 1).0 + at)).collect();
    let over = DeskCalendar::new(0, &many, &desk).unwrap();
    assert_eq!((over.combined(), over.combine_into(&mut short)), (Err(Refusal::Full), Err(Refusal::Full)));
    assert_eq!(short, [Date(7); 2]);
}

#[test]
fn imm_dates_and_codes() {
    assert_eq!(imm::is_date(day(2025, 4, 16), true), Ok(false));
    assert_eq!(imm::is_date(day(2025, 4, 16), false), Ok(true));
    assert!(imm::is_code(b"h5", true));
    assert!(!imm::is_code(b"H55", true));
    assert_eq!(imm::code_of(day(2025, 12, 17)), Ok(*b"Z5"));
    assert_eq!(imm::code_of(day(2025, 12, 18)), Err(Refusal::Code));
    assert_eq!(imm::date_of(b"H5", day(2025, 3, 20)), Ok(day(2035, 3, 21)));
    assert_eq!(imm::next_date(day(2025, 3, 19), true), Ok(day(2025, 6, 18)));
    assert_eq!(imm::next_date_with_code(b"F5", true, day(2025, 1, 1)), Ok(day(2025, 3, 19)));
    assert_eq!(imm::next_code(day(2025, 3, 19), true), Ok(*b"M5"));
    assert_eq!(imm::next_code_with_code(b"F5", true, day(2025, 1, 1)), Ok(*b"H5"));
}

#[test]
fn schedules() {
    let built = quarterly().build().unwrap();
    let dates = [day(2025, 1, 15), day(2025, 3, 20), day(2025, 6, 20), day(2025, 9, 20), day(2025, 12, 20)];
    assert_eq!(built.dates, dates);
    assert_eq!(built.unadjusted, dates);
    assert_eq!(built.regular, [false, true, true, true]);
    assert_eq!((built.tries, built.rule, built.tenor, built.unit), (4, Rule::Backward, 3, Unit::Months));
    assert_eq!(built.moved, 0);
    assert_eq!(quarterly().room(5).build(), Ok(built));
    assert_eq!(quarterly().room(4).build(), Err(Refusal::Room));
    assert_eq!(quarterly().first(day(2025, 1, 15)).build(), Err(Refusal::FirstDate));
    let credit = Request::new(day(2025, 4, 25), day(2025, 12, 20), 3, Unit::Months).rule(Rule::Cds).build().unwrap();
    assert_eq!(credit.dates, [day(2025, 3, 20), day(2025, 6, 20), day(2025, 9, 20), day(2025, 12, 20)]);
}

#[test]
fn the_last_date_has_its_own_convention() {
    let weekends = Calendar::new(Calendar::WEEKENDS, &[]).unwrap();
    let built = quarterly().calendar(weekends.clone()).convention(Convention::Following).build().unwrap();
    assert_eq!(built.dates[3..], [day(2025, 9, 22), day(2025, 12, 20)]);
    let built = quarterly().calendar(weekends).terminal(Convention::Following).build().unwrap();
    assert_eq!(built.dates[3..], [day(2025, 9, 20), day(2025, 12, 22)]);
}

/// Paid and unadjusted dates, both conventions the same and weekends closed.
fn entries(request: Request, convention: Convention) -> Vec<(Date, Date)> {
    let weekends = Calendar::new(Calendar::WEEKENDS, &[]).unwrap();
    let built = request.convention(convention).terminal(convention).calendar(weekends).build().unwrap();
    assert_eq!(built.dates.len(), built.unadjusted.len());
    built.dates.into_iter().zip(built.unadjusted).collect()
}

#[test]
fn unadjusted_dates() {
    let monthly = |effective, termination| Request::new(effective, termination, 1, Unit::Months);
    let last = entries(quarterly(), Convention::Following)[4];
    assert_eq!(last, (day(2025, 12, 22), day(2025, 12, 20)));
    let month_ends = entries(monthly(day(2025, 4, 30), day(2025, 6, 30)).monthend(true), Convention::Following);
    assert_eq!(month_ends[1], (day(2025, 5, 30), day(2025, 5, 31)));
    let month_ends = entries(monthly(day(2025, 1, 30), day(2025, 5, 30)).monthend(true), Convention::Unadjusted);
    assert_eq!(month_ends[2], (day(2025, 3, 31), day(2025, 3, 30)));
    let not_added = entries(monthly(day(2025, 3, 1), day(2025, 5, 2)), Convention::Following);
    assert_eq!(not_added[0], (day(2025, 3, 3), day(2025, 3, 2)));
    let daily = Request::new(day(2025, 3, 1), day(2025, 3, 2), 1, Unit::Days).rule(Rule::Forward);
    assert_eq!(entries(daily, Convention::Following), [(day(2025, 3, 3), day(2025, 3, 1))]);
}

#[test]
fn the_coming_date() {
    let ending = |month, day_of_month, regular| Ok(Coming::Ending { date: day(2025, month, day_of_month), regular });
    assert_eq!(quarterly().coming(day(2025, 1, 14)), Ok(Coming::Effective(day(2025, 1, 15))));
    assert_eq!(quarterly().coming(day(2025, 1, 15)), ending(3, 20, false));
    assert_eq!(quarterly().coming(day(2025, 3, 20)), ending(6, 20, true));
    assert_eq!(quarterly().coming(day(2025, 12, 20)), Ok(Coming::Nothing));
    assert_eq!(quarterly().rule(Rule::Forward).coming(day(2025, 10, 15)), ending(12, 20, false));
    assert_eq!(quarterly().coming(Date::NONE), Err(Refusal::Book));
    assert_eq!(quarterly().first(day(2025, 3, 20)).coming(day(2025, 2, 1)), Err(Refusal::Notplain));
    assert_eq!(Refusal::Notplain.to_string(), "refused 19 NOTPLAIN");
}

#[test]
fn twentieths() {
    assert_eq!(day(2025, 4, 25).next_twentieth(Rule::Cds), Ok(day(2025, 6, 20)));
    assert_eq!(day(2025, 4, 25).previous_twentieth(Rule::Twentieth), Ok(day(2025, 4, 20)));
    assert_eq!(day(2025, 4, 25).previous_twentieth(Rule::Cds), Ok(day(2025, 3, 20)));
}

#[test]
fn year_fractions() {
    let parts = |basis, start, end| year_parts(basis, start, end).map(|p| (p.numerator, p.denominator));
    assert_eq!(parts(Basis::ThirtyE360, day(2025, 2, 28), day(2025, 3, 31)), Ok((32, 360)));
    assert_eq!(parts(Basis::ThirtyE360, day(2025, 1, 29), day(2025, 3, 31)), Ok((61, 360)));
    assert_eq!(year_parts(Basis::Actual360, day(2025, 1, 15), day(2025, 4, 15)), Ok(Parts { numerator: 90, denominator: 360 }));
    assert_eq!(year_fraction(Basis::Actual360, day(2025, 1, 15), day(2025, 4, 15)), Ok(0.25));
    assert_eq!(year_fraction(Basis::Actual360, day(2025, 1, 1), day(2025, 1, 6)).map(f64::to_bits), Ok(0x3f8c71c71c71c71c));
    assert_eq!(year_fraction(Basis::Actual365Fixed, day(2024, 1, 1), day(2025, 1, 1)).map(f64::to_bits), Ok(0x3ff00b38cf9b00b4));
    assert_eq!(year_fraction(Basis::ThirtyE360, day(2025, 1, 31), day(2025, 1, 30)), Err(Refusal::Reversed));
    assert_eq!(year_fraction(Basis::Actual360, Date::NONE, day(2025, 1, 1)), Err(Refusal::Book));
    assert_eq!(parts(Basis::Actual360, Date(657_072), Date(693_961)), Ok((36_889, 360)));
    let built = quarterly().build().unwrap();
    assert_eq!(year_report(&built.dates), Ok(Sums { actual360: 339, actual365_fixed: 339, thirty_e360: 335 }));
    assert_eq!(built.year_fractions(Basis::Actual360), Ok([64, 92, 92, 91].map(|days| f64::from(days) / 360.0).to_vec()));
    assert_eq!(year_report(&[]), Ok(Sums { actual360: 0, actual365_fixed: 0, thirty_e360: 0 }));
    assert_eq!(year_report(&[day(2025, 1, 10), day(2025, 1, 9)]), Err(Refusal::Reversed));
    assert_eq!(year_report(&[day(2025, 1, 10), day(2025, 1, 9), Date::NONE]), Err(Refusal::Book));
}

#[test]
fn refusals_have_their_names() {
    assert_eq!(Refusal::Book.to_string(), "refused 2 BOOK");
    assert_eq!((Refusal::Request.number(), Refusal::Request.name()), (17, "REQUEST"));
    assert_eq!((Refusal::Shortend.number(), Refusal::Shortend.name()), (27, "SHORTEND"));
}

#[test]
fn request_bytes() {
    let request = [
        0x01, 0, 4, 0x00, 0x0B, 0x43, 0x6C, 0x02, 0, 4, 0x00, 0x0B, 0x44, 0x03, 0x03, 0, 3, b'M', 0, 1, 0xFF, 0, 0,
    ];
    let built = Schedule::from_bytes(&request, 6).unwrap();
    assert_eq!(built.dates, (1..=6).map(|month| day(2022, month, 1)).collect::<Vec<_>>());
    assert_eq!(built.unadjusted, built.dates);
    assert_eq!(built.tries, 6);
    assert_eq!(Schedule::from_bytes(&request, 5), Err(Refusal::Room));
    assert_eq!(Schedule::from_bytes(&request[..22], 6), Err(Refusal::Request));
}

#[test]
fn a_book() {
    let one = [0x01, 0, 4, 0x00, 0x0B, 0x47, 0xEF, 0x02, 0, 4, 0x00, 0x0B, 0x47, 0xEF, 0x03, 0, 3, b'M', 0, 1, 0xFF, 0, 0];
    let two = [
        0x01, 0, 4, 0x00, 0x0B, 0x48, 0x63, 0x02, 0, 4, 0x00, 0x0B, 0x48, 0x69, 0x03, 0, 3, b'M', 0, 3, 0x04, 0, 1, 3, 0xFF, 0, 0,
    ];
    let dates = vec![day(2025, 3, 1)];
    let single = Booked { dates: dates.clone(), unadjusted: dates, regular: vec![], tries: 1 };
    let dates = vec![day(2025, 6, 25), day(2025, 7, 20)];
    let pair = Booked { dates: dates.clone(), unadjusted: dates, regular: vec![true], tries: 1 };
    assert_eq!(book(&[], 0), Ok(vec![]));
    assert_eq!(book(&[&two[..], &[], &one], 3), Ok(vec![Ok(pair), Err(Refusal::Request), Ok(single.clone())]));
    assert_eq!(book(&[&two[..], &one], 2), Ok(vec![Err(Refusal::Room), Ok(single)]));
    assert_eq!(book(&[&[][..]; 65], 0), Err(Refusal::Batch));
    assert_eq!(book(&[&[0; 65536][..]], 0), Err(Refusal::Batch));
}
