//! Months: a number and a leap status, as in the month codes of ECMAScript Temporal.

use super::month_code::MonthCode;
use super::tiny::TinyAsciiStr;
use crate::error::MonthCodeParseError;

/// A month of a calendar: its number, from 0 to 99, and whether it is a leap month.
///
/// The number isn't the ordinal month: after a leap month the two differ. Months are ordered by number, and a plain
/// month comes before the leap month with the same number.
///
/// # Examples
///
/// ```
/// use icu_calendar::types::Month;
///
/// assert!(Month::new(5) < Month::leap(5) && Month::leap(5) < Month::new(6));
/// ```
#[derive(Clone, Copy, Debug, PartialEq, Eq, Hash, PartialOrd, Ord)]
pub struct Month {
    number: u8,
    is_leap: bool,
}

impl Month {
    /// Returns the plain month with a number. Numbers above 99 count as 99.
    ///
    /// # Examples
    ///
    /// ```
    /// use icu_calendar::types::Month;
    ///
    /// assert!(Month::new(3).number() == 3);
    /// ```
    pub const fn new(number: u8) -> Month {
        Month {
            number: at_most_99(number),
            is_leap: false,
        }
    }

    /// Returns the leap month with a number. Numbers above 99 count as 99.
    ///
    /// # Examples
    ///
    /// ```
    /// use icu_calendar::types::Month;
    ///
    /// assert!(Month::leap(5).is_leap());
    /// ```
    pub const fn leap(number: u8) -> Month {
        Month {
            number: at_most_99(number),
            is_leap: true,
        }
    }

    /// Reads a month code, like [`Month::try_from_utf8`].
    ///
    /// # Errors
    ///
    /// - [`MonthCodeParseError::InvalidSyntax`] if the text isn't a month code.
    ///
    /// # Examples
    ///
    /// ```
    /// use icu_calendar::types::Month;
    ///
    /// # fn main() -> Result<(), Box<dyn std::error::Error>> {
    /// assert!(Month::try_from_str("M05L")? == Month::leap(5));
    /// # Ok(())
    /// # }
    /// ```
    pub fn try_from_str(s: &str) -> Result<Month, MonthCodeParseError> {
        Month::try_from_utf8(s.as_bytes())
    }

    /// Reads a month code: `M`, two digits, and `L` for a leap month. (ECMAScript Temporal, `ParseMonthCode`)
    ///
    /// # Errors
    ///
    /// - [`MonthCodeParseError::InvalidSyntax`] if the text isn't a month code.
    ///
    /// # Examples
    ///
    /// ```
    /// use icu_calendar::types::Month;
    ///
    /// # fn main() -> Result<(), Box<dyn std::error::Error>> {
    /// assert!(Month::try_from_utf8(b"M12")? == Month::new(12));
    /// # Ok(())
    /// # }
    /// ```
    pub fn try_from_utf8(bytes: &[u8]) -> Result<Month, MonthCodeParseError> {
        match bytes {
            [b'M', tens, units] => Month::of_digits(*tens, *units, false),
            [b'M', tens, units, b'L'] => Month::of_digits(*tens, *units, true),
            _ => Err(MonthCodeParseError::InvalidSyntax),
        }
    }

    /// Reads the two digits of a month code.
    fn of_digits(tens: u8, units: u8, is_leap: bool) -> Result<Month, MonthCodeParseError> {
        if !tens.is_ascii_digit() || !units.is_ascii_digit() {
            return Err(MonthCodeParseError::InvalidSyntax);
        }
        Ok(Month {
            number: 10 * (tens - b'0') + (units - b'0'),
            is_leap,
        })
    }

    /// Returns the month's number, from 0 to 99.
    ///
    /// # Examples
    ///
    /// ```
    /// use icu_calendar::types::Month;
    ///
    /// assert!(Month::new(3).number() == 3);
    /// ```
    pub const fn number(self) -> u8 {
        self.number
    }

    /// Returns `true` if this is a leap month.
    ///
    /// # Examples
    ///
    /// ```
    /// use icu_calendar::types::Month;
    ///
    /// assert!(Month::leap(5).is_leap());
    /// ```
    pub const fn is_leap(self) -> bool {
        self.is_leap
    }

    /// Returns the month code: `M`, two digits, and `L` for a leap month, such as `M05L`.
    ///
    /// # Examples
    ///
    /// ```
    /// use icu_calendar::types::Month;
    ///
    /// assert!(Month::leap(5).code().0.as_str() == "M05L");
    /// ```
    #[inline]
    pub const fn code(self) -> MonthCode {
        let tens = b'0' + self.number / 10;
        let units = b'0' + self.number % 10;
        let mark = if self.is_leap { b'L' } else { 0 };
        MonthCode(TinyAsciiStr::of_filled([b'M', tens, units, mark]))
    }
}

/// Returns the plain month with this number, like [`Month::new`].
impl From<u8> for Month {
    fn from(number: u8) -> Month {
        Month::new(number)
    }
}

/// Returns the number, or 99 if it is larger.
const fn at_most_99(number: u8) -> u8 {
    if number > 99 {
        99
    } else {
        number
    }
}
