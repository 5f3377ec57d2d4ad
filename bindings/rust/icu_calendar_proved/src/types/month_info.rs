//! The month of a date.

use super::{Month, MonthCode};
use crate::engine::Chosen;

/// The leap status of a month in its year.
///
/// # Examples
///
/// ```
/// use icu_calendar::cal::ChineseTraditional;
/// use icu_calendar::types::{LeapStatus, Month};
/// use icu_calendar::Date;
///
/// # fn main() -> Result<(), Box<dyn std::error::Error>> {
/// // In 2023 a leap month followed the second one.
/// let date = Date::try_new(2023.into(), Month::new(2), 1, ChineseTraditional::new())?;
/// assert_eq!(date.month().leap_status(), LeapStatus::Base);
/// # Ok(())
/// # }
/// ```
#[derive(Clone, Copy, Debug, PartialEq, Eq, Hash)]
pub enum LeapStatus {
    /// A plain month without a leap month beside it.
    Normal,
    /// A leap month.
    Leap,
    /// A plain month with a leap month beside it in that year.
    Base,
}

/// What the leap status of a month is found by.
#[derive(Clone, Copy, Debug)]
pub(crate) enum Beside {
    /// The month says it itself.
    Known(LeapStatus),
    /// The next month of a year does.
    Next(Chosen, i32),
}

/// The month of a date: its ordinal number, its codes and its leap status.
///
/// # Examples
///
/// ```
/// use icu_calendar::cal::Hebrew;
/// use icu_calendar::types::Month;
/// use icu_calendar::Date;
///
/// # fn main() -> Result<(), Box<dyn std::error::Error>> {
/// let adar = Date::try_new(5784.into(), Month::new(6), 1, Hebrew)?.month();
/// assert_eq!(adar.ordinal, 7);
/// assert_eq!(adar.standard_code.0, "M06");
/// assert_eq!(adar.formatting_code.0, "M06L"); // Adar II
/// # Ok(())
/// # }
/// ```
#[derive(Clone, Copy, Debug)]
pub struct MonthInfo {
    /// The ordinal month: its number in the year, from 1.
    pub ordinal: u8,
    /// The month code, which names the same month in every year.
    pub standard_code: MonthCode,
    /// The code to look up the month's name with: `M06L` for Adar in a Hebrew leap year, otherwise the standard code.
    pub formatting_code: MonthCode,
    month: Month,
    beside: Beside,
}

impl MonthInfo {
    pub(crate) fn new(
        ordinal: u8,
        month: Month,
        formatting_month: Month,
        beside: Beside,
    ) -> MonthInfo {
        MonthInfo {
            ordinal,
            standard_code: month.code(),
            formatting_code: formatting_month.code(),
            month,
            beside,
        }
    }

    /// Returns the month's number, as in its code. After a leap month it differs from the ordinal month.
    ///
    /// # Examples
    ///
    /// ```
    /// use icu_calendar::cal::Hebrew;
    /// use icu_calendar::types::RataDie;
    /// use icu_calendar::Date;
    ///
    /// let month = Date::from_rata_die(RataDie::new(738946), Hebrew).month();
    /// assert_eq!((month.number(), month.ordinal), (5, 6));
    /// ```
    pub const fn number(self) -> u8 {
        self.month.number()
    }

    /// Returns the month's number, as [`MonthInfo::number`] does.
    ///
    /// # Examples
    ///
    /// ```
    /// use icu_calendar::types::RataDie;
    /// use icu_calendar::{Date, Iso};
    ///
    /// assert_eq!(Date::from_rata_die(RataDie::new(738946), Iso).month().month_number(), 3);
    /// ```
    pub const fn month_number(self) -> u8 {
        self.month.number()
    }

    /// Returns the leap status of the month.
    ///
    /// # Examples
    ///
    /// ```
    /// use icu_calendar::cal::Hebrew;
    /// use icu_calendar::types::{LeapStatus, RataDie};
    /// use icu_calendar::Date;
    ///
    /// let month = Date::from_rata_die(RataDie::new(738946), Hebrew).month();
    /// assert_eq!(month.leap_status(), LeapStatus::Leap);
    /// ```
    pub fn leap_status(self) -> LeapStatus {
        match self.beside {
            Beside::Known(status) => status,
            Beside::Next(chosen, year) if chosen.leap_month_follows(year, self.ordinal) => {
                LeapStatus::Base
            }
            Beside::Next(..) => LeapStatus::Normal,
        }
    }

    /// Returns the month in the form that date constructors take.
    ///
    /// # Examples
    ///
    /// ```
    /// use icu_calendar::cal::Hebrew;
    /// use icu_calendar::types::{Month, RataDie};
    /// use icu_calendar::Date;
    ///
    /// let month = Date::from_rata_die(RataDie::new(738946), Hebrew).month();
    /// assert_eq!(month.to_input(), Month::leap(5)); // Adar I
    /// ```
    pub const fn to_input(&self) -> Month {
        self.month
    }

    /// Returns `true` if this is a leap month.
    ///
    /// # Examples
    ///
    /// ```
    /// use icu_calendar::cal::Hebrew;
    /// use icu_calendar::types::RataDie;
    /// use icu_calendar::Date;
    ///
    /// let month = Date::from_rata_die(RataDie::new(738946), Hebrew).month();
    /// assert!(month.is_leap()); // Adar I
    /// ```
    pub const fn is_leap(self) -> bool {
        self.month.is_leap()
    }
}

impl PartialEq for MonthInfo {
    fn eq(&self, other: &Self) -> bool {
        self.ordinal == other.ordinal
            && self.standard_code == other.standard_code
            && self.formatting_code == other.formatting_code
            && self.leap_status() == other.leap_status()
    }
}
