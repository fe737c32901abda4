//! Stand-ins for the calendars of named cities, which are not among the files. calendar.rs wants their names; none of
//! them is ever asked a question.

/// Says for a type that it is a calendar which nobody asks.
macro_rules! unasked {
    ($name:ident) => {
        impl crate::time::calendars::traits::ImplCalendar for $name {
            fn impl_name(&self) -> String {
                unreachable!()
            }
            fn added_holidays(&self) -> std::collections::HashSet<crate::time::date::Date> {
                unreachable!()
            }
            fn impl_is_business_day(&self, _: &crate::time::date::Date) -> bool {
                unreachable!()
            }
            fn removed_holidays(&self) -> std::collections::HashSet<crate::time::date::Date> {
                unreachable!()
            }
            fn add_holiday(&mut self, _: crate::time::date::Date) {
                unreachable!()
            }
            fn remove_holiday(&mut self, _: crate::time::date::Date) {
                unreachable!()
            }
        }
        impl crate::time::calendars::traits::IsCalendar for $name {}
    };
}

/// A module with one stand-in, made from a market or from nothing.
macro_rules! city {
    ($module:ident, $name:ident) => {
        pub mod $module {
            #[derive(Clone, Debug, Default, PartialEq, Eq)]
            pub struct $name;
            impl $name {
                pub fn new() -> Self {
                    Self
                }
            }
            unasked!($name);
        }
    };
    ($module:ident, $name:ident, $($market:ident),+) => {
        pub mod $module {
            pub enum Market {
                $($market),+
            }
            #[derive(Clone, Debug, Default, PartialEq, Eq)]
            pub struct $name;
            impl $name {
                pub fn new(_: Market) -> Self {
                    Self
                }
            }
            unasked!($name);
        }
    };
}

city!(australia, Australia, Settlement, ASX);
city!(brazil, Brazil, Exchange);
city!(canada, Canada, Settlement, TSX);
city!(chile, Chile);
city!(china, China, SSE, IB);
city!(denmark, Denmark);
city!(japan, Japan);
city!(newzealand, NewZealand, Wellington, Auckland);
city!(norway, Norway);
city!(southafrica, SouthAfrica);
city!(southkorea, SouthKorea, Settlement, KRX);
city!(sweden, Sweden);
city!(switzerland, Switzerland);
city!(target, TARGET);
city!(unitedkingdom, UnitedKingdom);
city!(unitedstates, UnitedStates, Settlement, LiborImpact, Nyse, GovernmentBond, Nerc, FederalReserve);

pub mod jointcalendar {
    use crate::time::calendar::Calendar;
    use crate::utils::errors::Result;

    pub enum JointCalendarRule {
        JoinHolidays,
        JoinBusinessDays,
    }
    #[derive(Clone, Debug, PartialEq, Eq)]
    pub struct JointCalendar;
    impl JointCalendar {
        pub fn new(_: Vec<Calendar>, _: JointCalendarRule) -> Result<Self> {
            Ok(Self)
        }
    }
    unasked!(JointCalendar);
}
