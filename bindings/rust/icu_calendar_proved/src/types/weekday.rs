//! Days of the week.

use crate::types::RataDie;

/// A day of the week, numbered as in ISO 8601: Monday is 1, Sunday is 7.
///
/// # Examples
///
/// ```
/// use icu_calendar::types::Weekday;
/// use icu_calendar::Date;
///
/// # fn main() -> Result<(), Box<dyn std::error::Error>> {
/// assert_eq!(Date::try_new_iso(2024, 3, 1)?.weekday(), Weekday::Friday);
/// # Ok(())
/// # }
/// ```
#[derive(Clone, Copy, Debug, PartialEq, Eq, Hash)]
pub enum Weekday {
    /// The first day of an ISO week.
    Monday = 1,
    /// The day after Monday.
    Tuesday,
    /// The day after Tuesday.
    Wednesday,
    /// The day after Wednesday.
    Thursday,
    /// The day after Thursday.
    Friday,
    /// The day after Friday.
    Saturday,
    /// The last day of an ISO week.
    Sunday,
}

impl Weekday {
    /// Returns the weekday of the day `input` days after a Sunday, or before it if `input` is negative.
    ///
    /// # Examples
    ///
    /// ```
    /// use icu_calendar::types::Weekday;
    ///
    /// assert!(Weekday::from_days_since_sunday(-1) == Weekday::Saturday);
    /// ```
    pub fn from_days_since_sunday(input: isize) -> Weekday {
        match input.rem_euclid(7) {
            0 => Weekday::Sunday,
            1 => Weekday::Monday,
            2 => Weekday::Tuesday,
            3 => Weekday::Wednesday,
            4 => Weekday::Thursday,
            5 => Weekday::Friday,
            _ => Weekday::Saturday,
        }
    }

    /// Returns the number in ISO 8601, from 1 for Monday to 7 for Sunday.
    ///
    /// # Examples
    ///
    /// ```
    /// use icu_calendar::types::Weekday;
    ///
    /// assert!(Weekday::Sunday.number() == 7);
    /// ```
    pub const fn number(self) -> u8 {
        self as u8
    }

    /// Returns the number of days after Sunday, from 0 to 6.
    pub(crate) const fn days_since_sunday(self) -> usize {
        match self {
            Weekday::Sunday => 0,
            Weekday::Monday => 1,
            Weekday::Tuesday => 2,
            Weekday::Wednesday => 3,
            Weekday::Thursday => 4,
            Weekday::Friday => 5,
            Weekday::Saturday => 6,
        }
    }

    /// Returns the next weekday.
    pub(crate) const fn next(self) -> Weekday {
        match self {
            Weekday::Monday => Weekday::Tuesday,
            Weekday::Tuesday => Weekday::Wednesday,
            Weekday::Wednesday => Weekday::Thursday,
            Weekday::Thursday => Weekday::Friday,
            Weekday::Friday => Weekday::Saturday,
            Weekday::Saturday => Weekday::Sunday,
            Weekday::Sunday => Weekday::Monday,
        }
    }
}

/// Returns the weekday of a day number. Day 0 is a Sunday. (Reingold and Dershowitz, Calendrical Calculations)
impl From<RataDie> for Weekday {
    fn from(rd: RataDie) -> Weekday {
        Weekday::from_days_since_sunday(rd.to_i64_date().rem_euclid(7) as isize)
    }
}
