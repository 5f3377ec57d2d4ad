//! Dates in the format of RFC 9557: an ISO date, and a calendar's name.

use super::Date;
use crate::cal::Iso;
use crate::calendar::{AsCalendar, Calendar, Sealed};
use crate::error::{DateFromFieldsError, ParseError, RangeError};
use crate::options::DateFromFieldsOptions;
use crate::preferences::CalendarAlgorithm;
use crate::types::{DateFields, RataDie};
use core::str::FromStr;

/// The greatest year that a text can have.
const MOST_YEAR: i32 = 999_999;

/// The date in a text of RFC 9557.
///
/// # Examples
///
/// ```
/// use icu_calendar::DateRecord;
///
/// let date = DateRecord { year: 2024, month: 3, day: 1 };
/// assert_eq!(date.month, 3);
/// ```
#[derive(Clone, Copy, Debug, PartialEq, Eq)]
pub struct DateRecord {
    /// The ISO year.
    pub year: i32,
    /// The month.
    pub month: u8,
    /// The day of the month.
    pub day: u8,
}

/// The parts of a text of RFC 9557 that a date is made of.
///
/// # Examples
///
/// ```
/// use icu_calendar::cal::Hebrew;
/// use icu_calendar::{Date, DateRecord, IxdtfRecord};
///
/// # fn main() -> Result<(), Box<dyn std::error::Error>> {
/// let date = Some(DateRecord { year: 2024, month: 3, day: 1 });
/// let record = IxdtfRecord { date, calendar: Some(b"hebrew") };
/// assert_eq!(Date::try_from_ixdtf_record(&record, Hebrew)?.day_of_month().0, 21);
/// # Ok(())
/// # }
/// ```
#[derive(Clone, Copy, Debug, PartialEq, Eq)]
pub struct IxdtfRecord<'a> {
    /// The date.
    pub date: Option<DateRecord>,
    /// The calendar's name.
    pub calendar: Option<&'a [u8]>,
}

/// Reads a number of two digits at the start of a text.
fn two_digits(text: &[u8]) -> Option<(u8, &[u8])> {
    match text {
        [tens @ b'0'..=b'9', units @ b'0'..=b'9', rest @ ..] => {
            Some((10 * (tens - b'0') + (units - b'0'), rest))
        }
        _ => None,
    }
}

fn four_digits(text: &[u8]) -> Option<(i32, &[u8])> {
    let (high, rest) = two_digits(text)?;
    let (low, rest) = two_digits(rest)?;
    Some((100 * i32::from(high) + i32::from(low), rest))
}

fn six_digits(text: &[u8]) -> Option<(i32, &[u8])> {
    let (high, rest) = two_digits(text)?;
    let (low, rest) = four_digits(rest)?;
    Some((10_000 * i32::from(high) + low, rest))
}

/// Reads a year: four digits, or a sign and six digits that aren't `-000000`.
fn year(text: &[u8]) -> Option<(i32, &[u8])> {
    match text {
        [b'+', rest @ ..] => six_digits(rest),
        [b'-', rest @ ..] => match six_digits(rest)? {
            (0, _) => None,
            (number, rest) => Some((-number, rest)),
        },
        _ => four_digits(text),
    }
}

/// Reads a hyphen and two digits.
fn part(text: &[u8]) -> Option<(u8, &[u8])> {
    two_digits(text.strip_prefix(b"-")?)
}

fn is_calendar_name(name: &[u8]) -> bool {
    name.split(|byte| *byte == b'-').all(|part| {
        (1..=8).contains(&part.len())
            && part
                .iter()
                .all(|it| it.is_ascii_lowercase() || it.is_ascii_digit())
    })
}

/// Reads the annotation of a calendar, which ends the text.
fn calendar_name(text: &[u8]) -> Option<&[u8]> {
    let behind = text
        .strip_prefix(b"[u-ca=")
        .or_else(|| text.strip_prefix(b"[!u-ca="))?;
    behind
        .strip_suffix(b"]")
        .filter(|name| is_calendar_name(name))
}

/// Reads a date, and a calendar's name if anything follows the date.
fn read(text: &[u8]) -> Option<IxdtfRecord<'_>> {
    let (year, rest) = year(text)?;
    let (month, rest) = part(rest)?;
    let (day, rest) = part(rest)?;
    let calendar = if rest.is_empty() {
        None
    } else {
        Some(calendar_name(rest)?)
    };
    let date = DateRecord { year, month, day };
    day_of(date).ok()?;
    Some(IxdtfRecord {
        date: Some(date),
        calendar,
    })
}

fn range(field: &'static str, value: i32, min: i32, max: i32) -> RangeError {
    RangeError {
        field,
        value,
        min,
        max,
    }
}

/// Returns the day number of the date in a record, or its first part out of range.
fn day_of(date: DateRecord) -> Result<RataDie, RangeError> {
    let DateRecord { year, month, day } = date;
    if !(-MOST_YEAR..=MOST_YEAR).contains(&year) {
        return Err(range("year", year, -MOST_YEAR, MOST_YEAR));
    }
    let fields = DateFields {
        extended_year: Some(year),
        ordinal_month: Some(month),
        day: Some(day),
        ..DateFields::default()
    };
    match Iso
        .chosen()
        .date_of_fields(&fields, DateFromFieldsOptions::default())
    {
        Ok(parts) => Ok(RataDie::new(parts.day_number())),
        Err(DateFromFieldsError::InvalidDay { max }) => {
            Err(range("day", i32::from(day), 1, i32::from(max)))
        }
        Err(_) => Err(range("month", i32::from(month), 1, 12)),
    }
}

/// Tests that a calendar with an algorithm accepts a name.
fn check_name(algorithm: Option<CalendarAlgorithm>, name: Option<&[u8]>) -> Result<(), ParseError> {
    let (Some(expected), Some(name)) = (algorithm, name) else {
        return Ok(());
    };
    if name == expected.as_str().as_bytes() {
        return Ok(());
    }
    match CalendarAlgorithm::from_name(name) {
        Some(found) => Err(ParseError::MismatchedCalendar(expected, found)),
        None => Err(ParseError::UnknownCalendar),
    }
}

impl<A: AsCalendar> Date<A> {
    /// Creates a date of a calendar from an RFC 9557 text, which names an ISO date. [`Date::try_from_utf8`] describes
    /// the form of the text.
    ///
    /// # Errors
    ///
    /// - The errors of [`Date::try_from_utf8`], in the same order.
    ///
    /// # Examples
    ///
    /// ```
    /// use icu_calendar::cal::Hebrew;
    /// use icu_calendar::Date;
    ///
    /// # fn main() -> Result<(), Box<dyn std::error::Error>> {
    /// let date = Date::try_from_str("2024-03-01[u-ca=hebrew]", Hebrew)?;
    /// assert_eq!(date.era_year().year, 5784);
    /// # Ok(())
    /// # }
    /// ```
    pub fn try_from_str(rfc_9557_str: &str, calendar: A) -> Result<Self, ParseError> {
        Date::try_from_utf8(rfc_9557_str.as_bytes(), calendar)
    }

    /// Creates a date of a calendar from an RFC 9557 text, which names an ISO date.
    ///
    /// The text is a date such as `2024-03-01`. Its year has four digits, or a sign and six digits (`-000044-03-15`).
    /// The calendar's name may follow, as `[u-ca=hebrew]` or, marked critical, `[!u-ca=hebrew]`. This is a part of RFC
    /// 9557: times, offsets and other annotations are rejected.
    ///
    /// # Errors
    ///
    /// The first of these that applies:
    ///
    /// - [`ParseError::Syntax`] if the text has another form, the year is `-000000`, the month isn't from 1 to 12, or
    ///   the day isn't from 1 to the month's length.
    /// - [`ParseError::MismatchedCalendar`] if the name belongs to another calendar than the requested one.
    /// - [`ParseError::UnknownCalendar`] if no calendar has the name. A calendar without a name of its own
    ///   ([`Calendar::calendar_algorithm`]) accepts any name.
    ///
    /// # Examples
    ///
    /// ```
    /// use icu_calendar::{Date, Iso};
    ///
    /// # fn main() -> Result<(), Box<dyn std::error::Error>> {
    /// assert_eq!(Date::try_from_utf8(b"2024-03-01", Iso)?, Date::try_new_iso(2024, 3, 1)?);
    /// # Ok(())
    /// # }
    /// ```
    pub fn try_from_utf8(rfc_9557_str: &[u8], calendar: A) -> Result<Self, ParseError> {
        match read(rfc_9557_str) {
            Some(record) => Date::try_from_ixdtf_record(&record, calendar),
            None => Err(ParseError::Syntax),
        }
    }

    /// Creates a date of a calendar from a record, which names an ISO date.
    ///
    /// # Errors
    ///
    /// The first of these that applies:
    ///
    /// - [`ParseError::MissingFields`] if the record has no date.
    /// - [`ParseError::MismatchedCalendar`] or [`ParseError::UnknownCalendar`] if the record names another calendar, as
    ///   in [`Date::try_from_utf8`].
    /// - [`ParseError::Range`] if the year isn't from -999999 to 999999, the month isn't from 1 to 12, or the day isn't
    ///   from 1 to the month's length.
    ///
    /// # Examples
    ///
    /// ```
    /// use icu_calendar::{Date, DateRecord, Iso, IxdtfRecord};
    ///
    /// let date = Some(DateRecord { year: 2023, month: 2, day: 29 });
    /// let record = IxdtfRecord { date, calendar: None };
    /// assert!(Date::try_from_ixdtf_record(&record, Iso).is_err());
    /// ```
    pub fn try_from_ixdtf_record(
        ixdtf_record: &IxdtfRecord<'_>,
        calendar: A,
    ) -> Result<Self, ParseError> {
        let date = ixdtf_record.date.ok_or(ParseError::MissingFields)?;
        check_name(
            calendar.as_calendar().calendar_algorithm(),
            ixdtf_record.calendar,
        )?;
        Ok(Date::from_rata_die(day_of(date)?, calendar))
    }
}

/// Reads a date as [`Date::try_from_str`] does.
impl FromStr for Date<Iso> {
    type Err = ParseError;

    fn from_str(s: &str) -> Result<Self, ParseError> {
        Date::try_from_str(s, Iso)
    }
}
