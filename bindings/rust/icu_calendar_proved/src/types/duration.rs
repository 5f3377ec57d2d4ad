//! Durations in years, months, weeks and days, like the date part of ECMAScript Temporal's `Duration`.

use super::duration_text;
use crate::error::DateDurationParseError;
use core::fmt;
use core::str::FromStr;

/// The unit of a part of a [`DateDuration`].
///
/// # Examples
///
/// ```
/// use icu_calendar::options::DateDifferenceOptions;
/// use icu_calendar::types::DateDurationUnit;
///
/// let mut options = DateDifferenceOptions::default();
/// options.largest_unit = Some(DateDurationUnit::Months);
/// ```
#[derive(Clone, Copy, Debug, PartialEq, Eq, Hash)]
pub enum DateDurationUnit {
    /// Years of the calendar.
    Years,
    /// Months of the calendar.
    Months,
    /// Weeks of seven days.
    Weeks,
    /// Days.
    Days,
}

/// A signed duration. Its parts have no sign; if `is_negative` is true, the whole duration leads back in time.
///
/// # Examples
///
/// ```
/// use icu_calendar::types::DateDuration;
///
/// let duration = DateDuration { years: 1, days: 3, ..DateDuration::default() };
/// assert_eq!(duration.to_string(), "P1Y3D");
/// ```
#[derive(Clone, Copy, Debug, PartialEq, Eq, Hash, Default)]
pub struct DateDuration {
    /// Whether the duration leads back in time. An empty duration may have either sign.
    pub is_negative: bool,
    /// The number of years.
    pub years: u32,
    /// The number of months.
    pub months: u32,
    /// The number of weeks of seven days.
    pub weeks: u32,
    /// The number of days.
    pub days: u32,
}

impl DateDuration {
    /// Creates a duration of years. A negative number leads back in time.
    ///
    /// # Examples
    ///
    /// ```
    /// use icu_calendar::types::DateDuration;
    ///
    /// assert!(DateDuration::for_years(-2).is_negative);
    /// ```
    pub fn for_years(years: i32) -> Self {
        DateDuration {
            is_negative: years < 0,
            years: years.unsigned_abs(),
            ..DateDuration::default()
        }
    }

    /// Creates a duration of months. A negative number leads back in time.
    ///
    /// # Examples
    ///
    /// ```
    /// use icu_calendar::types::DateDuration;
    ///
    /// assert!(DateDuration::for_months(18).months == 18);
    /// ```
    pub fn for_months(months: i32) -> Self {
        DateDuration {
            is_negative: months < 0,
            months: months.unsigned_abs(),
            ..DateDuration::default()
        }
    }

    /// Creates a duration of weeks of seven days. A negative number leads back in time.
    ///
    /// # Examples
    ///
    /// ```
    /// use icu_calendar::types::DateDuration;
    ///
    /// assert!(DateDuration::for_weeks(2).weeks == 2);
    /// ```
    pub fn for_weeks(weeks: i32) -> Self {
        DateDuration {
            is_negative: weeks < 0,
            weeks: weeks.unsigned_abs(),
            ..DateDuration::default()
        }
    }

    /// Creates a duration of days. A negative number leads back in time.
    ///
    /// # Examples
    ///
    /// ```
    /// use icu_calendar::types::DateDuration;
    ///
    /// assert!(DateDuration::for_days(-7).days == 7);
    /// ```
    pub fn for_days(days: i32) -> Self {
        DateDuration {
            is_negative: days < 0,
            days: days.unsigned_abs(),
            ..DateDuration::default()
        }
    }

    /// Reads a duration from a text, like [`DateDuration::try_from_utf8`].
    ///
    /// # Errors
    ///
    /// - The errors of [`DateDuration::try_from_utf8`], in the same order.
    ///
    /// # Examples
    ///
    /// ```
    /// use icu_calendar::types::DateDuration;
    ///
    /// # fn main() -> Result<(), Box<dyn std::error::Error>> {
    /// assert!(DateDuration::try_from_str("P1Y2M")?.months == 2);
    /// # Ok(())
    /// # }
    /// ```
    pub fn try_from_str(s: &str) -> Result<Self, DateDurationParseError> {
        DateDuration::try_from_utf8(s.as_bytes())
    }

    /// Reads a duration from a text: an optional `-`, `P`, and one part or more. A part is a number and the letter `Y`,
    /// `M`, `W` or `D` of its unit. Each unit may come once, in any order. `-P0D` is a negative zero. (ISO 8601-2,
    /// durations of dates)
    ///
    /// # Errors
    ///
    /// The first error from left to right:
    ///
    /// - [`DateDurationParseError::PlusNotAllowed`] if the text begins with `+`.
    /// - [`DateDurationParseError::InvalidStructure`] if `P` and something after it don't follow, or a number isn't
    ///   followed by the letter of a unit.
    /// - [`DateDurationParseError::TimeNotSupported`] if a part begins with `T`.
    /// - [`DateDurationParseError::MissingValue`] if a part doesn't begin with a digit.
    /// - [`DateDurationParseError::NumberOverflow`] if a number is above `u64::MAX` (checked before its unit), or
    ///   above `u32::MAX` (checked after its unit).
    /// - [`DateDurationParseError::DuplicateUnit`] if a unit occurs a second time.
    ///
    /// # Examples
    ///
    /// ```
    /// use icu_calendar::types::DateDuration;
    ///
    /// # fn main() -> Result<(), Box<dyn std::error::Error>> {
    /// let back = DateDuration::try_from_utf8(b"-P3W")?;
    /// assert!(back.is_negative && back.weeks == 3);
    /// # Ok(())
    /// # }
    /// ```
    pub fn try_from_utf8(code_units: &[u8]) -> Result<Self, DateDurationParseError> {
        let Some((first, rest)) = code_units.split_first() else {
            return Err(DateDurationParseError::InvalidStructure);
        };
        match *first {
            b'+' => Err(DateDurationParseError::PlusNotAllowed),
            b'-' => duration_text::read(true, rest),
            _ => duration_text::read(false, code_units),
        }
    }
}

/// Reads a duration as [`DateDuration::try_from_str`] does.
impl FromStr for DateDuration {
    type Err = DateDurationParseError;

    fn from_str(s: &str) -> Result<Self, DateDurationParseError> {
        DateDuration::try_from_str(s)
    }
}

/// Writes the form that [`DateDuration::try_from_str`] reads, without parts that are 0. An empty duration is `P0D`.
impl fmt::Display for DateDuration {
    fn fmt(&self, f: &mut fmt::Formatter<'_>) -> fmt::Result {
        let parts = [
            (self.years, 'Y'),
            (self.months, 'M'),
            (self.weeks, 'W'),
            (self.days, 'D'),
        ];
        f.write_str(if self.is_negative { "-P" } else { "P" })?;
        if parts.iter().all(|(number, _)| *number == 0) {
            return f.write_str("0D");
        }
        for (number, letter) in parts {
            if number != 0 {
                write!(f, "{number}{letter}")?;
            }
        }
        Ok(())
    }
}
