//! Numbers of days and weeks in a month or a year.

/// The day of the month, from 1.
///
/// # Examples
///
/// ```
/// use icu_calendar::Date;
///
/// # fn main() -> Result<(), Box<dyn std::error::Error>> {
/// assert_eq!(Date::try_new_iso(2024, 3, 1)?.day_of_month().0, 1);
/// # Ok(())
/// # }
/// ```
#[derive(Clone, Copy, Debug, PartialEq, Eq, Hash, PartialOrd, Ord)]
pub struct DayOfMonth(pub u8);

/// The day of the year, from 1.
///
/// # Examples
///
/// ```
/// use icu_calendar::Date;
///
/// # fn main() -> Result<(), Box<dyn std::error::Error>> {
/// assert_eq!(Date::try_new_iso(2024, 3, 1)?.day_of_year().0, 61);
/// # Ok(())
/// # }
/// ```
#[derive(Clone, Copy, Debug, PartialEq, Eq, Hash, PartialOrd, Ord)]
pub struct DayOfYear(pub u16);

/// The number of a day among the days of the same weekday in the month, from 1: the second Monday is 2.
///
/// # Examples
///
/// ```
/// use icu_calendar::types::{DayOfMonth, DayOfWeekInMonth};
///
/// assert_eq!(DayOfWeekInMonth::from(DayOfMonth(8)), DayOfWeekInMonth(2));
/// ```
#[derive(Clone, Copy, Debug, PartialEq, Eq, Hash, PartialOrd, Ord)]
pub struct DayOfWeekInMonth(pub u8);

/// Returns 1 for the first seven days of the month, 2 for the next seven, and so on. Returns 1 for day 0, which no
/// month has.
impl From<DayOfMonth> for DayOfWeekInMonth {
    fn from(day_of_month: DayOfMonth) -> Self {
        DayOfWeekInMonth(1 + day_of_month.0.saturating_sub(1) / 7)
    }
}

/// A week of ISO 8601: its number, and the ISO year that contains its Thursday.
///
/// # Examples
///
/// ```
/// use icu_calendar::Date;
///
/// # fn main() -> Result<(), Box<dyn std::error::Error>> {
/// let week = Date::try_new_iso(2024, 12, 30)?.week_of_year();
/// assert_eq!((week.iso_year, week.week_number), (2025, 1));
/// # Ok(())
/// # }
/// ```
#[derive(Clone, Copy, Debug, PartialEq, Eq, Hash, PartialOrd, Ord)]
pub struct IsoWeekOfYear {
    /// The number of the week in its year, from 1. Week 1 contains the first Thursday of the year.
    pub week_number: u8,
    /// The ISO year that contains the Thursday of the week.
    pub iso_year: i32,
}
