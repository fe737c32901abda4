//! schedule.rs once more, its text unchanged, with other neighbours: a calendar that counts the candidates made on the
//! null calendar, and a vector that keeps its greatest length. Its private functions are in reach here as well.

/// The counts of the question at hand.
pub mod tally {
    use std::cell::Cell;
    use std::ops::{Deref, DerefMut};

    thread_local! {
        static STEPS: Cell<u32> = const { Cell::new(0) };
        static PEAK: Cell<usize> = const { Cell::new(0) };
    }

    pub fn start() {
        STEPS.set(0);
        PEAK.set(0);
    }

    pub fn step() {
        STEPS.set(STEPS.get() + 1);
    }

    /// Advances on the null calendar, and the greatest length of a list.
    pub fn counts() -> (u32, usize) {
        (STEPS.get(), PEAK.get())
    }

    #[derive(Clone, Debug, PartialEq, Eq)]
    pub struct Vec<T>(std::vec::Vec<T>);

    impl<T> Vec<T> {
        pub fn new() -> Self {
            Self(std::vec::Vec::new())
        }

        pub fn push(&mut self, value: T) {
            self.0.push(value);
            PEAK.set(PEAK.get().max(self.0.len()));
        }

        pub fn insert(&mut self, index: usize, value: T) {
            self.0.insert(index, value);
            PEAK.set(PEAK.get().max(self.0.len()));
        }
    }

    impl<T> Deref for Vec<T> {
        type Target = std::vec::Vec<T>;

        fn deref(&self) -> &Self::Target {
            &self.0
        }
    }

    impl<T> DerefMut for Vec<T> {
        fn deref_mut(&mut self) -> &mut Self::Target {
            &mut self.0
        }
    }

    impl<'a, T> IntoIterator for &'a mut Vec<T> {
        type Item = &'a mut T;
        type IntoIter = std::slice::IterMut<'a, T>;

        fn into_iter(self) -> Self::IntoIter {
            self.0.iter_mut()
        }
    }
}

pub mod calendar {
    use super::tally;
    use crate::time::calendars::nullcalendar::NullCalendar;
    use crate::time::calendars::traits::{ImplCalendar, IsCalendar};
    use crate::time::date::Date;
    use crate::time::enums::BusinessDayConvention;
    use crate::time::period::Period;
    use crate::utils::errors::Result;
    use std::collections::HashSet;

    #[derive(Clone, Debug, PartialEq, Eq)]
    pub enum Calendar {
        NullCalendar(NullCalendar),
        Given(crate::time::calendar::Calendar),
    }

    impl ImplCalendar for Calendar {
        fn impl_name(&self) -> String {
            String::new()
        }

        fn impl_is_business_day(&self, date: &Date) -> bool {
            match self {
                Self::NullCalendar(c) => c.impl_is_business_day(date),
                Self::Given(c) => c.impl_is_business_day(date),
            }
        }

        fn added_holidays(&self) -> HashSet<Date> {
            HashSet::new()
        }

        fn removed_holidays(&self) -> HashSet<Date> {
            HashSet::new()
        }

        fn add_holiday(&mut self, _: Date) {
            unreachable!()
        }

        fn remove_holiday(&mut self, _: Date) {
            unreachable!()
        }
    }

    impl IsCalendar for Calendar {
        fn advance(
            &self,
            date: Date,
            period: Period,
            convention: Option<BusinessDayConvention>,
            end_of_month: bool,
        ) -> Result<Date> {
            match self {
                Self::NullCalendar(c) => {
                    tally::step();
                    c.advance(date, period, convention, end_of_month)
                }
                Self::Given(c) => c.advance(date, period, convention, end_of_month),
            }
        }
    }
}

pub mod calendars {
    pub use crate::time::calendars::nullcalendar;
}

pub use crate::time::{date, enums, imm, period};

pub mod schedule {
    use super::tally::Vec;

    include!("time/schedule.rs");

    pub fn next20(date: Date, rule: DateGenerationRule) -> Date {
        next_twentieth(date, rule)
    }

    pub fn prev20(date: Date, rule: DateGenerationRule) -> Date {
        previous_twentieth(date, rule)
    }
}
