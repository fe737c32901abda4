//! Calendar files: read, written, and refused with their line.
use heronspan::{holidays, holidays_file, Calendar, Convention, Date, Refusal, RefusedFile};

fn day(year: u32, month: u32, day: u32) -> Date {
    Date::make(year, month, day).unwrap()
}

fn event(lines: &str) -> Vec<u8> {
    format!("BEGIN:VCALENDAR\nBEGIN:VEVENT\n{lines}\nEND:VEVENT\nEND:VCALENDAR\n").into_bytes()
}

#[test]
fn read() {
    let dates = holidays(&event("DTSTART;VALUE=DATE:20250501\nDTEND;VALUE=DATE:20250503")).unwrap();
    assert_eq!(dates, [day(2025, 5, 1), day(2025, 5, 2)]);
    let calendar = Calendar::new(0x60, &dates).unwrap();
    assert_eq!(calendar.adjust(day(2025, 5, 1), Convention::Following).unwrap().date, day(2025, 5, 5));
}

#[test]
fn refused() {
    let at = |refusal, line| Err(RefusedFile { refusal, line });
    assert_eq!(holidays(b""), at(Refusal::Ical, 0));
    assert_eq!(holidays(&event("DTSTART;VALUE=DATE:20250229")), at(Refusal::Ical, 3));
    assert_eq!(holidays(&event("DTSTART:20250501T090000")), at(Refusal::Icalkind, 3));
    assert_eq!(holidays_file(&[day(2025, 5, 2), day(2025, 5, 1)]), Err(Refusal::Calendar));
}

#[test]
fn back() {
    let dates: Vec<Date> = (0..495).map(|n| Date(739_372 + 2 * n)).collect();
    assert_eq!(holidays(&holidays_file(&dates).unwrap()), Ok(dates));
    assert_eq!(holidays(&holidays_file(&[]).unwrap()), Ok(vec![]));
    let file = holidays_file(&[Date(876_216)]).unwrap();
    assert!(String::from_utf8(file).unwrap().contains("DTSTART;VALUE=DATE:23991231\r\nDTEND;VALUE=DATE:24000101\r\n"));
}
