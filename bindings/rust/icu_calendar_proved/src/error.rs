//! The errors: one type for each kind of call, and the conversions between them.
//!
//! Every error prints a message, and is an error of the standard library.
//!
//! # Examples
//!
//! ```
//! use icu_calendar::Date;
//!
//! let error = Date::try_new_iso(2023, 2, 29).unwrap_err();
//! assert_eq!(error.to_string(), "The day = 29 argument is out of range 1..=28");
//! ```

use crate::preferences::CalendarAlgorithm;
use core::fmt;

/// An argument out of its range, `min` to `max`.
///
/// # Examples
///
/// ```
/// use icu_calendar::Date;
///
/// let error = Date::try_new_iso(2023, 13, 1).unwrap_err();
/// assert_eq!((error.field, error.value, error.min, error.max), ("month", 13, 1, 12));
/// ```
#[derive(Clone, Copy, Debug, PartialEq, Eq, Hash)]
pub struct RangeError {
    /// The name of the argument, such as `day`.
    pub field: &'static str,
    /// The given value.
    pub value: i32,
    /// The least allowed value.
    pub min: i32,
    /// The greatest allowed value.
    pub max: i32,
}

/// The reason why an era code, and a year, a month and a day as numbers, don't form a date.
///
/// # Examples
///
/// ```
/// use icu_calendar::cal::Japanese;
/// use icu_calendar::error::DateError;
/// use icu_calendar::Date;
///
/// let date = Date::try_new_japanese_with_calendar("keio", 3, 1, 1, Japanese::new());
/// assert_eq!(date.unwrap_err(), DateError::UnknownEra);
/// ```
#[derive(Clone, Copy, Debug, PartialEq, Eq, Hash)]
pub enum DateError {
    /// A number is out of its range, as with [`RangeError`].
    Range {
        /// The name of the argument.
        field: &'static str,
        /// The given value.
        value: i32,
        /// The least allowed value.
        min: i32,
        /// The greatest allowed value.
        max: i32,
    },
    /// The calendar has no era with this code.
    UnknownEra,
}

/// The reason why a bag of fields doesn't name a date.
///
/// # Examples
///
/// ```
/// use icu_calendar::error::DateFromFieldsError;
/// use icu_calendar::types::DateFields;
/// use icu_calendar::{Date, Iso};
///
/// let date = Date::try_from_fields(DateFields::default(), Default::default(), Iso);
/// assert_eq!(date.unwrap_err(), DateFromFieldsError::NotEnoughFields);
/// ```
#[derive(Clone, Copy, Debug, PartialEq, Eq, Hash)]
pub enum DateFromFieldsError {
    /// Fields are missing: the others name no whole date.
    NotEnoughFields,
    /// Two fields name the same thing in ways that exclude each other.
    TooManyFields,
    /// The year or the date is out of the range of the calendars.
    Overflow,
    /// The calendar has no era with this code.
    InvalidEra,
    /// The era year and the extended year name different years.
    InconsistentYear,
    /// The month code isn't `M`, two digits and an optional `L`.
    MonthCodeInvalidSyntax,
    /// The month isn't one of the calendar's months.
    MonthNotInCalendar,
    /// The month doesn't occur in this year.
    MonthNotInYear,
    /// The month and the ordinal month name different months.
    InconsistentMonth,
    /// The ordinal month isn't from 1 to `max`.
    InvalidOrdinalMonth {
        /// The number of months of the year.
        max: u8,
    },
    /// The day isn't from 1 to `max`.
    InvalidDay {
        /// The length of the month in days.
        max: u8,
    },
}

/// The reason why a duration can't be added to a date.
///
/// # Examples
///
/// ```
/// use icu_calendar::error::DateAddError;
/// use icu_calendar::types::DateDuration;
/// use icu_calendar::Date;
///
/// # fn main() -> Result<(), Box<dyn std::error::Error>> {
/// let date = Date::try_new_iso(2024, 3, 1)?;
/// let sum = date.try_added_with_options(DateDuration::for_years(1_000_000), Default::default());
/// assert_eq!(sum.unwrap_err(), DateAddError::Overflow);
/// # Ok(())
/// # }
/// ```
#[derive(Clone, Copy, Debug, PartialEq, Eq, Hash)]
pub enum DateAddError {
    /// The duration or the sum is out of the range of the calendars.
    Overflow,
    /// The month doesn't occur in the year of the sum.
    MonthNotInYear,
    /// The day isn't from 1 to `max`, in the month of the sum.
    InvalidDay {
        /// The length of the month in days.
        max: u8,
    },
}

/// The reason why a year, a month and a day don't form a date.
///
/// # Examples
///
/// ```
/// use icu_calendar::cal::Hebrew;
/// use icu_calendar::error::DateNewError;
/// use icu_calendar::types::Month;
/// use icu_calendar::Date;
///
/// let date = Date::try_new(5783.into(), Month::leap(5), 1, Hebrew);
/// assert_eq!(date.unwrap_err(), DateNewError::MonthNotInYear);
/// ```
#[derive(Clone, Copy, Debug, PartialEq, Eq, Hash)]
pub enum DateNewError {
    /// The given year isn't from -9999 to 9999.
    InvalidYear,
    /// The calendar has no era with this code.
    InvalidEra,
    /// The month isn't one of the calendar's months.
    MonthNotInCalendar,
    /// The month doesn't occur in this year.
    MonthNotInYear,
    /// The day isn't from 1 to `max`.
    InvalidDay {
        /// The length of the month in days.
        max: u8,
    },
}

/// The reason why an extended year, a month and a day don't form a date of a lunisolar calendar.
///
/// # Examples
///
/// ```
/// use icu_calendar::error::LunisolarDateError;
/// use icu_calendar::types::Month;
/// use icu_calendar::Date;
///
/// let date = Date::try_new_hebrew_v2(5784, Month::leap(5), 31);
/// assert_eq!(date.unwrap_err(), LunisolarDateError::InvalidDay { max: 30 });
/// ```
#[derive(Clone, Copy, Debug, PartialEq, Eq, Hash)]
pub enum LunisolarDateError {
    /// The extended year isn't from -9999 to 9999.
    InvalidYear,
    /// The month isn't one of the calendar's months.
    MonthNotInCalendar,
    /// The month doesn't occur in this year.
    MonthNotInYear,
    /// The day isn't from 1 to `max`.
    InvalidDay {
        /// The length of the month in days.
        max: u8,
    },
}

/// The error of an operation on two dates whose calendars aren't compatible.
///
/// # Examples
///
/// ```
/// use icu_calendar::cal::Hebrew;
/// use icu_calendar::error::MismatchedCalendarError;
/// use icu_calendar::Date;
///
/// # fn main() -> Result<(), Box<dyn std::error::Error>> {
/// let date = Date::try_new_iso(2024, 3, 1)?;
/// let other = date.to_calendar(Hebrew).to_any();
/// let difference = date.to_any().try_until_with_options(&other, Default::default());
/// assert_eq!(difference, Err(MismatchedCalendarError));
/// # Ok(())
/// # }
/// ```
#[derive(Clone, Copy, Debug, PartialEq, Eq, Hash)]
pub struct MismatchedCalendarError;

/// The reason why a text isn't a duration.
///
/// # Examples
///
/// ```
/// use icu_calendar::error::DateDurationParseError;
/// use icu_calendar::types::DateDuration;
///
/// assert_eq!(DateDuration::try_from_str("P1DT2H"), Err(DateDurationParseError::TimeNotSupported));
/// ```
#[derive(Clone, Copy, Debug, PartialEq, Eq, Hash)]
pub enum DateDurationParseError {
    /// The text isn't an optional minus, `P`, and numbers, each followed by `Y`, `M`, `W` or `D`.
    InvalidStructure,
    /// A part of a time begins with `T`.
    TimeNotSupported,
    /// A unit has no number.
    MissingValue,
    /// A unit occurs twice.
    DuplicateUnit,
    /// A number is above `u32::MAX`.
    NumberOverflow,
    /// The text begins with `+`.
    PlusNotAllowed,
}

/// The error for an era code that the calendar doesn't have.
///
/// # Examples
///
/// ```
/// use icu_calendar::error::{DateError, UnknownEraError};
///
/// assert_eq!(DateError::from(UnknownEraError), DateError::UnknownEra);
/// ```
#[derive(Clone, Copy, Debug, PartialEq, Eq, Hash)]
pub struct UnknownEraError;

/// The reason why a text isn't a month code.
///
/// # Examples
///
/// ```
/// use icu_calendar::error::MonthCodeParseError;
/// use icu_calendar::types::Month;
///
/// assert_eq!(Month::try_from_str("M5"), Err(MonthCodeParseError::InvalidSyntax));
/// ```
#[derive(Clone, Copy, Debug, PartialEq, Eq, Hash)]
pub enum MonthCodeParseError {
    /// The text isn't `M`, two digits and an optional `L`.
    InvalidSyntax,
}

/// The reason why bytes aren't a small ASCII text.
///
/// # Examples
///
/// ```
/// use icu_calendar::error::TinyStrError;
/// use icu_calendar::types::TinyAsciiStr;
///
/// assert_eq!(TinyAsciiStr::<4>::try_from_str("reiwa"), Err(TinyStrError::TooLong));
/// ```
#[derive(Clone, Copy, Debug, PartialEq, Eq, Hash)]
pub enum TinyStrError {
    /// There are more bytes than the text can hold.
    TooLong,
    /// A byte is 0 or above 127.
    NonAscii,
}

/// The reason why no date can be read from a text in the format of RFC 9557.
///
/// # Examples
///
/// ```
/// use icu_calendar::error::ParseError;
/// use icu_calendar::{Date, Iso};
///
/// assert_eq!(Date::try_from_str("2023-02-29", Iso).unwrap_err(), ParseError::Syntax);
/// ```
#[derive(Clone, Copy, Debug, PartialEq, Eq, Hash)]
pub enum ParseError {
    /// The text doesn't have the format, or its month or its day doesn't exist.
    Syntax,
    /// The date is missing.
    MissingFields,
    /// No calendar algorithm has the name in the text.
    UnknownCalendar,
    /// The text names a different calendar: first the expected calendar, then the calendar in the text.
    MismatchedCalendar(CalendarAlgorithm, CalendarAlgorithm),
    /// A year, a month or a day is out of its range.
    Range(RangeError),
}

/// Converts to [`DateError::Range`] with the same fields.
impl From<RangeError> for DateError {
    fn from(e: RangeError) -> DateError {
        let RangeError {
            field,
            value,
            min,
            max,
        } = e;
        DateError::Range {
            field,
            value,
            min,
            max,
        }
    }
}

/// Converts to [`ParseError::Range`].
impl From<RangeError> for ParseError {
    fn from(e: RangeError) -> ParseError {
        ParseError::Range(e)
    }
}

/// Converts to [`DateError::UnknownEra`].
impl From<UnknownEraError> for DateError {
    fn from(_: UnknownEraError) -> DateError {
        DateError::UnknownEra
    }
}

/// Converts to [`DateNewError::InvalidEra`].
impl From<UnknownEraError> for DateNewError {
    fn from(_: UnknownEraError) -> DateNewError {
        DateNewError::InvalidEra
    }
}

/// Converts to [`DateFromFieldsError::InvalidEra`].
impl From<UnknownEraError> for DateFromFieldsError {
    fn from(_: UnknownEraError) -> DateFromFieldsError {
        DateFromFieldsError::InvalidEra
    }
}

/// Converts to [`DateFromFieldsError::MonthCodeInvalidSyntax`].
impl From<MonthCodeParseError> for DateFromFieldsError {
    fn from(_: MonthCodeParseError) -> DateFromFieldsError {
        DateFromFieldsError::MonthCodeInvalidSyntax
    }
}

const OUT_OF_RANGE: &str = "Result out of range";
const UNKNOWN_ERA: &str = "Unknown era or invalid syntax";
const NOT_IN_CALENDAR: &str = "The specified month does not exist in this calendar";
const NOT_IN_YEAR: &str = "The specified month exists in this calendar, but not for this year";

fn write_day(f: &mut fmt::Formatter<'_>, max: u8) -> fmt::Result {
    write!(f, "Invalid day for month, max is {max}")
}

impl fmt::Display for RangeError {
    fn fmt(&self, f: &mut fmt::Formatter<'_>) -> fmt::Result {
        let RangeError {
            field,
            value,
            min,
            max,
        } = self;
        write!(
            f,
            "The {field} = {value} argument is out of range {min}..={max}"
        )
    }
}

impl fmt::Display for DateError {
    fn fmt(&self, f: &mut fmt::Formatter<'_>) -> fmt::Result {
        match *self {
            DateError::Range {
                field,
                value,
                min,
                max,
            } => RangeError {
                field,
                value,
                min,
                max,
            }
            .fmt(f),
            DateError::UnknownEra => f.write_str("Unknown era"),
        }
    }
}

impl fmt::Display for DateFromFieldsError {
    fn fmt(&self, f: &mut fmt::Formatter<'_>) -> fmt::Result {
        f.write_str(match *self {
            DateFromFieldsError::NotEnoughFields => "Not enough fields",
            DateFromFieldsError::TooManyFields => "Too many fields",
            DateFromFieldsError::Overflow => OUT_OF_RANGE,
            DateFromFieldsError::InvalidEra => UNKNOWN_ERA,
            DateFromFieldsError::InconsistentYear => "Inconsistent year",
            DateFromFieldsError::MonthCodeInvalidSyntax => "Invalid month code syntax",
            DateFromFieldsError::MonthNotInCalendar => NOT_IN_CALENDAR,
            DateFromFieldsError::MonthNotInYear => NOT_IN_YEAR,
            DateFromFieldsError::InconsistentMonth => "Inconsistent month",
            DateFromFieldsError::InvalidOrdinalMonth { max } => {
                return write!(f, "Invalid ordinal month for year, max is {max}");
            }
            DateFromFieldsError::InvalidDay { max } => return write_day(f, max),
        })
    }
}

impl fmt::Display for DateAddError {
    fn fmt(&self, f: &mut fmt::Formatter<'_>) -> fmt::Result {
        f.write_str(match *self {
            DateAddError::Overflow => OUT_OF_RANGE,
            DateAddError::MonthNotInYear => NOT_IN_YEAR,
            DateAddError::InvalidDay { max } => return write_day(f, max),
        })
    }
}

impl fmt::Display for DateNewError {
    fn fmt(&self, f: &mut fmt::Formatter<'_>) -> fmt::Result {
        f.write_str(match *self {
            DateNewError::InvalidYear => "Invalid year, must be within -9999..=9999",
            DateNewError::InvalidEra => UNKNOWN_ERA,
            DateNewError::MonthNotInCalendar => NOT_IN_CALENDAR,
            DateNewError::MonthNotInYear => NOT_IN_YEAR,
            DateNewError::InvalidDay { max } => return write_day(f, max),
        })
    }
}

impl fmt::Display for LunisolarDateError {
    fn fmt(&self, f: &mut fmt::Formatter<'_>) -> fmt::Result {
        f.write_str(match *self {
            LunisolarDateError::InvalidYear => "Invalid year",
            LunisolarDateError::MonthNotInCalendar => NOT_IN_CALENDAR,
            LunisolarDateError::MonthNotInYear => NOT_IN_YEAR,
            LunisolarDateError::InvalidDay { max } => return write_day(f, max),
        })
    }
}

impl fmt::Display for MismatchedCalendarError {
    fn fmt(&self, f: &mut fmt::Formatter<'_>) -> fmt::Result {
        f.write_str("Attempted to interact two `Date`s with different calendars")
    }
}

impl fmt::Display for DateDurationParseError {
    fn fmt(&self, f: &mut fmt::Formatter<'_>) -> fmt::Result {
        f.write_str(match self {
            DateDurationParseError::InvalidStructure => "Invalid structure of the duration",
            DateDurationParseError::TimeNotSupported => "Times are not supported",
            DateDurationParseError::MissingValue => "A unit has no number",
            DateDurationParseError::DuplicateUnit => "A unit occurs twice",
            DateDurationParseError::NumberOverflow => "A number is too large",
            DateDurationParseError::PlusNotAllowed => "A plus sign is not allowed",
        })
    }
}

impl fmt::Display for UnknownEraError {
    fn fmt(&self, f: &mut fmt::Formatter<'_>) -> fmt::Result {
        f.write_str("Unknown era")
    }
}

impl fmt::Display for MonthCodeParseError {
    fn fmt(&self, f: &mut fmt::Formatter<'_>) -> fmt::Result {
        f.write_str("Invalid month code syntax")
    }
}

impl fmt::Display for TinyStrError {
    fn fmt(&self, f: &mut fmt::Formatter<'_>) -> fmt::Result {
        f.write_str(match self {
            TinyStrError::TooLong => "The text is too long",
            TinyStrError::NonAscii => "The text isn't ASCII",
        })
    }
}

impl fmt::Display for ParseError {
    fn fmt(&self, f: &mut fmt::Formatter<'_>) -> fmt::Result {
        match self {
            ParseError::Syntax => f.write_str("Syntax error in the RFC 9557 string"),
            ParseError::MissingFields => f.write_str("Missing fields"),
            ParseError::UnknownCalendar => f.write_str("Unknown calendar"),
            ParseError::MismatchedCalendar(expected, found) => {
                let (expected, found) = (expected.as_str(), found.as_str());
                write!(f, "Expected calendar {expected} but found calendar {found}")
            }
            ParseError::Range(error) => write!(f, "Value out of range: {error}"),
        }
    }
}

/// Implements the trait of errors: the one of `core` if this Rust has it, otherwise the one of `std`.
macro_rules! errors {
    ($($error:ty),* $(,)?) => {
        $(
            #[cfg(core_error)]
            impl core::error::Error for $error {}
            #[cfg(all(not(core_error), feature = "std"))]
            impl std::error::Error for $error {}
        )*
    };
}

pub(crate) use errors;

errors!(
    RangeError,
    DateError,
    DateFromFieldsError,
    DateAddError,
    DateNewError,
    LunisolarDateError,
    MismatchedCalendarError,
    DateDurationParseError,
    UnknownEraError,
    MonthCodeParseError,
    TinyStrError,
    ParseError,
);
