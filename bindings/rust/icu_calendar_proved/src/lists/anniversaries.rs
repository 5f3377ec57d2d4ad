//! A month and a day, year after year.

use super::Window;
use crate::calendar::{AsCalendar, Sealed};
use crate::engine::Chosen;
use crate::error::{errors, DateNewError};
use crate::naming::new_date;
use crate::options::{DateFromFieldsOptions, Overflow};
use crate::types::{DateFields, Month, RataDie, YearInput};
use core::fmt;

/// How to handle a month or day that doesn't exist in a year.
///
/// # Examples
///
/// ```
/// use icu_calendar::lists::{anniversaries, Leaping, Window};
/// use icu_calendar::types::{Month, RataDie};
/// use icu_calendar::Iso;
///
/// # fn main() -> Result<(), Box<dyn std::error::Error>> {
/// // 2023 and 2024.
/// let window = Window::try_new(RataDie::new(738521), RataDie::new(739251)).unwrap();
/// let leap_days = |leaping| anniversaries(Iso, Month::new(2), 29, leaping, window);
/// assert_eq!(leap_days(Leaping::Exact)?.count(), 1);
/// assert_eq!(leap_days(Leaping::Constrain)?.count(), 2);
/// # Ok(())
/// # }
/// ```
#[derive(Clone, Copy, Debug, PartialEq, Eq, Hash)]
pub enum Leaping {
    /// Skip the year.
    Exact,
    /// Use the month that stands in for it, or the month's last day.
    Constrain,
}

/// The reason why a month and a day have no anniversaries.
///
/// # Examples
///
/// ```
/// use icu_calendar::lists::{anniversaries, AnniversaryError, Leaping, Window};
/// use icu_calendar::types::{Month, RataDie};
/// use icu_calendar::Iso;
///
/// let window = Window::try_new(RataDie::new(738521), RataDie::new(739251)).unwrap();
/// let days = anniversaries(Iso, Month::new(13), 1, Leaping::Exact, window);
/// assert_eq!(days.unwrap_err(), AnniversaryError::MonthNotInCalendar);
/// ```
#[derive(Clone, Copy, Debug, PartialEq, Eq, Hash)]
pub enum AnniversaryError {
    /// No year of the calendar has the month.
    MonthNotInCalendar,
    /// The day isn't from 1 to 31.
    InvalidDay,
}

impl fmt::Display for AnniversaryError {
    fn fmt(&self, f: &mut fmt::Formatter<'_>) -> fmt::Result {
        f.write_str(match self {
            AnniversaryError::MonthNotInCalendar => {
                "The specified month does not exist in this calendar"
            }
            AnniversaryError::InvalidDay => "The day isn't from 1 to 31",
        })
    }
}

errors!(AnniversaryError);

/// An iterator over the days of a window that have a month and a day of a calendar.
///
/// # Examples
///
/// ```
/// use icu_calendar::cal::Hebrew;
/// use icu_calendar::lists::{anniversaries, Leaping, Window};
/// use icu_calendar::types::{Month, RataDie};
///
/// # fn main() -> Result<(), Box<dyn std::error::Error>> {
/// let window = Window::try_new(RataDie::new(738521), RataDie::new(739616)).unwrap();
/// let mut birthdays = anniversaries(Hebrew, Month::leap(5), 10, Leaping::Constrain, window)?;
/// assert_eq!(birthdays.next(), Some(RataDie::new(738582))); // 2023-03-03
/// assert_eq!(birthdays.next(), Some(RataDie::new(738935))); // 2024-02-19
/// # Ok(())
/// # }
/// ```
#[derive(Clone, Copy, Debug)]
pub struct Anniversaries {
    chosen: Chosen,
    fields: DateFields<'static>,
    options: DateFromFieldsOptions,
    rest: Option<Window>,
    /// The next year to look at, and the last one.
    year: i32,
    last_year: i32,
}

/// Returns whether a month is one of a calendar's months.
pub(crate) fn knows_month(chosen: Chosen, month: Month) -> bool {
    new_date(chosen, YearInput::Extended(1), month, 1).err()
        != Some(DateNewError::MonthNotInCalendar)
}

/// Lists the days of a window that have a month and a day of a calendar, year after year.
///
/// # Errors
///
/// The first of these that applies:
///
/// - [`AnniversaryError::MonthNotInCalendar`] if no year of the calendar has the month.
/// - [`AnniversaryError::InvalidDay`] if the day isn't from 1 to 31.
///
/// # Examples
///
/// ```
/// use icu_calendar::lists::{anniversaries, Leaping, Window};
/// use icu_calendar::types::{Month, RataDie};
/// use icu_calendar::Iso;
///
/// # fn main() -> Result<(), Box<dyn std::error::Error>> {
/// let window = Window::try_new(RataDie::new(738886), RataDie::new(739251)).unwrap();
/// let days = anniversaries(Iso, Month::new(3), 1, Leaping::Exact, window)?;
/// assert!(days.eq([RataDie::new(738946)])); // 2024-03-01
/// # Ok(())
/// # }
/// ```
pub fn anniversaries<A: AsCalendar>(
    calendar: A,
    month: Month,
    day: u8,
    leaping: Leaping,
    window: Window,
) -> Result<Anniversaries, AnniversaryError> {
    let chosen = calendar.as_calendar().chosen();
    if !knows_month(chosen, month) {
        return Err(AnniversaryError::MonthNotInCalendar);
    }
    if !(1..=31).contains(&day) {
        return Err(AnniversaryError::InvalidDay);
    }
    Ok(Anniversaries::new(chosen, month, day, leaping, window))
}

impl Anniversaries {
    pub(crate) fn new(
        chosen: Chosen,
        month: Month,
        day: u8,
        leaping: Leaping,
        window: Window,
    ) -> Anniversaries {
        Anniversaries {
            chosen,
            fields: DateFields {
                month: Some(month),
                day: Some(day),
                ..DateFields::default()
            },
            options: DateFromFieldsOptions {
                overflow: Some(match leaping {
                    Leaping::Exact => Overflow::Reject,
                    Leaping::Constrain => Overflow::Constrain,
                }),
                missing_fields_strategy: None,
            },
            rest: Some(window),
            year: chosen.date_of_day(window.first()).extended_year,
            last_year: chosen.date_of_day(window.last()).extended_year,
        }
    }

    /// Returns what is left of the window, or `None` after the end.
    ///
    /// # Examples
    ///
    /// ```
    /// use icu_calendar::lists::{anniversaries, Leaping, Window};
    /// use icu_calendar::types::{Month, RataDie};
    /// use icu_calendar::Iso;
    ///
    /// # fn main() -> Result<(), Box<dyn std::error::Error>> {
    /// let window = Window::try_new(RataDie::new(738886), RataDie::new(739251)).unwrap();
    /// let mut days = anniversaries(Iso, Month::new(3), 1, Leaping::Exact, window)?;
    /// days.next();
    /// assert_eq!(days.rest(), window.after(RataDie::new(738946)));
    /// # Ok(())
    /// # }
    /// ```
    pub fn rest(&self) -> Option<Window> {
        self.rest
    }

    /// Returns the day in a year, if there is one in the valid range.
    fn day_in(&self, year: i32) -> Option<RataDie> {
        let fields = DateFields {
            extended_year: Some(year),
            ..self.fields
        };
        let found = self.chosen.date_of_fields(&fields, self.options).ok()?;
        Some(RataDie::new(found.day_number()))
    }
}

impl Iterator for Anniversaries {
    type Item = RataDie;

    fn next(&mut self) -> Option<RataDie> {
        let window = self.rest?;
        while self.year <= self.last_year {
            let found = self.day_in(self.year).filter(|day| window.contains(*day));
            self.year += 1;
            if let Some(day) = found {
                self.rest = window.after(day);
                return Some(day);
            }
        }
        self.rest = None;
        None
    }
}
