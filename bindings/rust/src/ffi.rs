//! The functions of include/heronspan.h.
#[repr(C)]
pub struct Reader {
    pub state: [u16; 20],
    pub request: [u32; 13],
}

extern "C" {
    pub fn heronspan_make(year: u32, month: u32, day: u32) -> i64;
    pub fn heronspan_fields(day: u32) -> i64;
    pub fn heronspan_weekday(day: u32) -> i64;
    pub fn heronspan_month_end(day: u32) -> i64;
    pub fn heronspan_advance(day: u32, count: i32, unit: u8) -> i64;
    pub fn heronspan_next_weekday(day: u32, weekday: u32) -> i64;
    pub fn heronspan_nth_weekday(nth: u32, weekday: u32, month: u32, year: u32) -> i64;
    pub fn heronspan_compare(a: u32, b: u32) -> i64;
    pub fn heronspan_difference(a: u32, b: u32, days: *mut i32, days_len: usize) -> i64;
    pub fn heronspan_times(tenor: i32, unit: u8, count: i32, out: *mut i32, out_len: usize) -> i64;
    pub fn heronspan_calendar_check(mask: u8, closed: *const u32, closed_len: usize) -> i64;
    pub fn heronspan_is_open(day: u32, mask: u8, closed: *const u32, closed_len: usize) -> i64;
    pub fn heronspan_adjust(
        day: u32,
        convention: u8,
        mask: u8,
        closed: *const u32,
        closed_len: usize,
        moved: *mut i32,
        moved_len: usize,
    ) -> i64;
    pub fn heronspan_calendar_month_end(
        day: u32,
        mask: u8,
        closed: *const u32,
        closed_len: usize,
        moved: *mut i32,
        moved_len: usize,
    ) -> i64;
    pub fn heronspan_is_month_end(day: u32, mask: u8, closed: *const u32, closed_len: usize) -> i64;
    pub fn heronspan_calendar_advance(
        day: u32,
        tenor: i32,
        unit: u8,
        convention: u8,
        monthend: u8,
        mask: u8,
        closed: *const u32,
        closed_len: usize,
        moved: *mut i32,
        moved_len: usize,
    ) -> i64;
    pub fn heronspan_index_make(
        mask: u8,
        closed: *const u32,
        closed_len: usize,
        index: *mut u32,
        index_len: usize,
    ) -> i64;
    pub fn heronspan_index_count(
        first: u32,
        last: u32,
        mask: u8,
        closed: *const u32,
        closed_len: usize,
        index: *const u32,
        index_len: usize,
    ) -> i64;
    pub fn heronspan_index_nth(
        day: u32,
        n: u32,
        mask: u8,
        closed: *const u32,
        closed_len: usize,
        index: *const u32,
        index_len: usize,
    ) -> i64;
    pub fn heronspan_index_add(
        day: u32,
        mask: u8,
        closed: *const u32,
        closed_len: usize,
        index: *mut u32,
        index_len: usize,
    ) -> i64;
    pub fn heronspan_index_remove(
        day: u32,
        mask: u8,
        closed: *const u32,
        closed_len: usize,
        index: *mut u32,
        index_len: usize,
    ) -> i64;
    pub fn heronspan_desk_check(desk: *const u32, desk_len: usize, house: *const u32, house_len: usize, year: u32) -> i64;
    pub fn heronspan_desk_run(
        desk: *const u32,
        desk_len: usize,
        house: *const u32,
        house_len: usize,
        year: u32,
        place: *mut u32,
        place_len: usize,
    ) -> i64;
    pub fn heronspan_desk_adjust(
        day: u32,
        convention: u8,
        mask: u8,
        desk: *const u32,
        desk_len: usize,
        house: *const u32,
        house_len: usize,
        moved: *mut i32,
        moved_len: usize,
    ) -> i64;
    pub fn heronspan_desk_combine(
        desk: *const u32,
        desk_len: usize,
        house: *const u32,
        house_len: usize,
        closed: *mut u32,
        closed_len: usize,
    ) -> i64;
    pub fn heronspan_is_imm_date(day: u32, main: u8) -> i64;
    pub fn heronspan_is_imm_code(code: *const u8, code_len: usize, main: u8) -> i64;
    pub fn heronspan_imm_code(day: u32) -> i64;
    pub fn heronspan_imm_date(code: *const u8, code_len: usize, day: u32) -> i64;
    pub fn heronspan_next_imm_date(day: u32, main: u8) -> i64;
    pub fn heronspan_next_imm_date_with_code(code: *const u8, code_len: usize, main: u8, day: u32) -> i64;
    pub fn heronspan_next_imm_code(day: u32, main: u8) -> i64;
    pub fn heronspan_next_imm_code_with_code(code: *const u8, code_len: usize, main: u8, day: u32) -> i64;
    pub fn heronspan_next_twentieth(day: u32, rule: u8) -> i64;
    pub fn heronspan_previous_twentieth(day: u32, rule: u8) -> i64;
    pub fn heronspan_build(
        effective: u32,
        termination: u32,
        tenor: i32,
        unit: u8,
        rule: u8,
        convention: u8,
        terminal: u8,
        monthend: u8,
        first: u32,
        penultimate: u32,
        mask: u8,
        closed: *const u32,
        closed_len: usize,
        dates: *mut u32,
        dates_len: usize,
        flags: *mut u8,
        flags_len: usize,
        unadjusted: *mut u32,
        unadjusted_len: usize,
        answer: *mut u32,
        answer_len: usize,
    ) -> i64;
    pub fn heronspan_coming(
        effective: u32,
        termination: u32,
        tenor: i32,
        unit: u8,
        rule: u8,
        convention: u8,
        terminal: u8,
        monthend: u8,
        first: u32,
        penultimate: u32,
        mask: u8,
        closed: *const u32,
        closed_len: usize,
        asked: u32,
    ) -> i64;
    pub fn heronspan_build_bytes(
        bytes: *const u8,
        bytes_len: usize,
        dates: *mut u32,
        dates_len: usize,
        flags: *mut u8,
        flags_len: usize,
        unadjusted: *mut u32,
        unadjusted_len: usize,
        answer: *mut u32,
        answer_len: usize,
    ) -> i64;
    pub fn heronspan_book(
        bytes: *const u8,
        bytes_len: usize,
        dates: *mut u32,
        dates_len: usize,
        flags: *mut u8,
        flags_len: usize,
        unadjusted: *mut u32,
        unadjusted_len: usize,
        answers: *mut u32,
        answers_len: usize,
    ) -> i64;
    pub fn heronspan_year_fraction(basis: u8, start: u32, end: u32) -> i64;
    pub fn heronspan_year_parts(basis: u8, start: u32, end: u32, parts: *mut u32, parts_len: usize) -> i64;
    pub fn heronspan_year_report(dates: *const u32, dates_len: usize, sums: *mut u32, sums_len: usize) -> i64;
    pub fn heronspan_reset(reader: *mut Reader) -> i64;
    pub fn heronspan_feed(
        reader: *mut Reader,
        part: *const u8,
        part_len: usize,
        buffer: *mut u8,
        buffer_len: usize,
        closed: *mut u32,
        closed_len: usize,
    ) -> i64;
    pub fn heronspan_finish(
        reader: *mut Reader,
        buffer: *const u8,
        buffer_len: usize,
        closed: *mut u32,
        closed_len: usize,
    ) -> i64;
    pub fn heronspan_holidays_import(
        file: *const u8,
        file_len: usize,
        days: *mut u32,
        days_len: usize,
        line: *mut u32,
        line_len: usize,
    ) -> i64;
    pub fn heronspan_holidays_export(closed: *const u32, closed_len: usize, file: *mut u8, file_len: usize) -> i64;
    pub fn heronspan_refusal_text(answer: i64, text: *mut u8, text_len: usize) -> i64;
}
