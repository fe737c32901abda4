//! The one stand-in that answers. Under the name of the calendar of weekends it reads a weekly mask and a list of
//! closed dates, so that any calendar goes through the unchanged code.
//!
//! Every search of the Rust asks day after day until one is open, without end. So answers of "closed" in unbroken
//! succession belong to one search, and at the limit the search is stopped.

use crate::time::calendars::traits::{ImplCalendar, IsCalendar};
use crate::time::date::Date;
use chrono::Datelike;
use std::cell::Cell;
use std::collections::HashSet;

thread_local! {
    static RUN: Cell<u32> = const { Cell::new(0) };
    static LIMIT: Cell<u32> = const { Cell::new(31) };
}

/// What a stopped search panics with.
pub struct Closed;

/// How many closed days a search may meet before it is stopped.
pub fn set_limit(days: u32) {
    LIMIT.set(days);
}

/// Forgets the days that an earlier question met.
pub fn start() {
    RUN.set(0);
}

#[derive(Clone, Debug, PartialEq, Eq)]
pub struct WeekendsOnly {
    mask: u8,
    closed: Vec<i32>,
}

impl WeekendsOnly {
    pub fn new() -> Self {
        Self::of(0x60, Vec::new())
    }

    /// Weekly closed days with Monday as the lowest bit, and closed dates as ascending day numbers.
    pub fn of(mask: u8, closed: Vec<i32>) -> Self {
        Self { mask, closed }
    }
}

impl ImplCalendar for WeekendsOnly {
    fn impl_name(&self) -> String {
        String::new()
    }

    fn impl_is_business_day(&self, date: &Date) -> bool {
        let base = date.base_date();
        let weekly = self.mask >> base.weekday().num_days_from_monday() & 1 == 1;
        if !weekly && self.closed.binary_search(&base.num_days_from_ce()).is_err() {
            RUN.set(0);
            return true;
        }
        RUN.set(RUN.get() + 1);
        if RUN.get() >= LIMIT.get() {
            std::panic::panic_any(Closed);
        }
        false
    }

    fn added_holidays(&self) -> HashSet<Date> {
        HashSet::new()
    }

    fn removed_holidays(&self) -> HashSet<Date> {
        HashSet::new()
    }

    fn add_holiday(&mut self, _: Date) {
        unreachable!()
    }

    fn remove_holiday(&mut self, _: Date) {
        unreachable!()
    }
}

impl IsCalendar for WeekendsOnly {}
