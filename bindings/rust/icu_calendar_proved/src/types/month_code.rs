//! Month codes, by which ECMAScript Temporal names months.

use super::month::Month;
use super::tiny::TinyAsciiStr;
use core::fmt;

/// A month code: `M`, two digits, and `L` for a leap month, such as `M05L`.
///
/// It may hold any text of at most four bytes. [`MonthCode::parsed`] returns `None` if the text isn't a month code.
///
/// # Examples
///
/// ```
/// use icu_calendar::types::{Month, MonthCode};
/// use icu_calendar::tinystr;
///
/// assert_eq!(MonthCode(tinystr!(4, "M05L")), Month::leap(5).code());
/// ```
#[derive(Clone, Copy, Debug, PartialEq, Eq, Hash, PartialOrd, Ord)]
pub struct MonthCode(pub TinyAsciiStr<4>);

impl MonthCode {
    /// Returns the code of the plain month with a leap month's number: the first three bytes, if the fourth is `L`.
    /// Returns `None` for any other text.
    ///
    /// # Examples
    ///
    /// ```
    /// use icu_calendar::types::Month;
    ///
    /// assert!(Month::leap(5).code().get_normal_if_leap() == Some(Month::new(5).code()));
    /// ```
    pub fn get_normal_if_leap(self) -> Option<MonthCode> {
        match self.0.as_bytes() {
            [m, tens, units, b'L'] => Some(MonthCode(TinyAsciiStr::of_text(&[*m, *tens, *units]))),
            _ => None,
        }
    }

    /// Returns the month's number and whether it is a leap month, or `None` exactly if the text isn't a month code.
    ///
    /// # Examples
    ///
    /// ```
    /// use icu_calendar::types::Month;
    ///
    /// assert!(Month::leap(5).code().parsed() == Some((5, true)));
    /// ```
    pub fn parsed(self) -> Option<(u8, bool)> {
        match Month::try_from_utf8(self.0.as_bytes()) {
            Ok(month) => Some((month.number(), month.is_leap())),
            Err(_) => None,
        }
    }
}

/// Writes the code's text.
impl fmt::Display for MonthCode {
    fn fmt(&self, f: &mut fmt::Formatter<'_>) -> fmt::Result {
        f.write_str(self.0.as_str())
    }
}
