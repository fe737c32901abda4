//! The installed chrono under its own name, and `Duration::try_days`, which 0.4.23 lacks and date.rs calls.

pub use installed::*;

/// Stands where date.rs looks for the maker of a count of days. What it makes is the installed chrono's own duration.
pub struct Duration;

impl Duration {
    /// The duration of that many days, if its milliseconds fit in 64 bits: what later versions of chrono give.
    pub fn try_days(days: i64) -> Option<installed::Duration> {
        let limit = i64::MAX / 86_400_000;
        (-limit..=limit).contains(&days).then(|| installed::Duration::days(days))
    }
}
