//! Reads durations from texts: an optional minus, `P`, and numbers, each followed by the letter of its unit.

use super::duration::{DateDuration, DateDurationUnit};
use crate::error::DateDurationParseError;
use core::str;

/// The number read for each unit.
#[derive(Clone, Copy, Default)]
pub(crate) struct Amounts {
    years: Option<u32>,
    months: Option<u32>,
    weeks: Option<u32>,
    days: Option<u32>,
}

impl Amounts {
    /// Returns the numbers of the parts of a text, or the error of the first invalid part.
    fn read(text: &[u8]) -> Result<Amounts, DateDurationParseError> {
        let mut amounts = Amounts::default();
        let mut rest = text;
        while !rest.is_empty() {
            let (digits, end, behind) = first_part(rest);
            amounts = amounts.with_part(digits, end)?;
            rest = behind;
        }
        Ok(amounts)
    }

    /// Adds a part: its digits, and the byte after them unless the text ends.
    fn with_part(self, digits: &[u8], end: Option<u8>) -> Result<Amounts, DateDurationParseError> {
        if digits.is_empty() {
            return Err(missing_digits(end));
        }
        match number(digits) {
            None => Err(DateDurationParseError::NumberOverflow),
            Some(number) => self.with_amount(number, unit_at(end)),
        }
    }

    /// Adds the number of a unit.
    fn with_amount(
        self,
        number: u64,
        unit: Option<DateDurationUnit>,
    ) -> Result<Amounts, DateDurationParseError> {
        let Some(unit) = unit else {
            return Err(DateDurationParseError::InvalidStructure);
        };
        if self.amount(unit).is_some() {
            return Err(DateDurationParseError::DuplicateUnit);
        }
        match u32::try_from(number) {
            Err(_) => Err(DateDurationParseError::NumberOverflow),
            Ok(number) => Ok(self.put(unit, number)),
        }
    }

    /// Returns the number of a unit.
    fn amount(self, unit: DateDurationUnit) -> Option<u32> {
        match unit {
            DateDurationUnit::Years => self.years,
            DateDurationUnit::Months => self.months,
            DateDurationUnit::Weeks => self.weeks,
            DateDurationUnit::Days => self.days,
        }
    }

    /// Sets the number of a unit.
    fn put(self, unit: DateDurationUnit, number: u32) -> Amounts {
        let number = Some(number);
        match unit {
            DateDurationUnit::Years => Amounts {
                years: number,
                ..self
            },
            DateDurationUnit::Months => Amounts {
                months: number,
                ..self
            },
            DateDurationUnit::Weeks => Amounts {
                weeks: number,
                ..self
            },
            DateDurationUnit::Days => Amounts {
                days: number,
                ..self
            },
        }
    }

    /// Returns the duration of these numbers, with a sign.
    fn duration(self, is_negative: bool) -> DateDuration {
        DateDuration {
            is_negative,
            years: self.years.unwrap_or(0),
            months: self.months.unwrap_or(0),
            weeks: self.weeks.unwrap_or(0),
            days: self.days.unwrap_or(0),
        }
    }
}

/// Reads a duration from a text after its sign.
pub(crate) fn read(is_negative: bool, text: &[u8]) -> Result<DateDuration, DateDurationParseError> {
    let Some((designator, parts)) = text.split_first() else {
        return Err(DateDurationParseError::InvalidStructure);
    };
    if *designator != b'P' || parts.is_empty() {
        return Err(DateDurationParseError::InvalidStructure);
    }
    read_parts(is_negative, parts)
}

/// Reads a duration from the parts of a text.
fn read_parts(is_negative: bool, text: &[u8]) -> Result<DateDuration, DateDurationParseError> {
    let amounts = Amounts::read(text)?;
    Ok(amounts.duration(is_negative))
}

/// Splits off the first part of a text that isn't empty: returns its digits, the byte after them unless the text ends,
/// and the rest.
fn first_part(text: &[u8]) -> (&[u8], Option<u8>, &[u8]) {
    match first_end(text) {
        Some(i) => (&text[..i], Some(text[i]), &text[i + 1..]),
        None => (text, None, &text[text.len()..]),
    }
}

/// Returns the error of a part without digits, by the byte that ends it.
fn missing_digits(end: Option<u8>) -> DateDurationParseError {
    match end {
        Some(b'T') => DateDurationParseError::TimeNotSupported,
        _ => DateDurationParseError::MissingValue,
    }
}

/// Returns the index of the first byte that isn't a digit.
fn first_end(text: &[u8]) -> Option<usize> {
    text.iter().position(|byte| !byte.is_ascii_digit())
}

/// Returns the unit of the letter that ends a part.
fn unit_at(end: Option<u8>) -> Option<DateDurationUnit> {
    match end {
        Some(b'Y') => Some(DateDurationUnit::Years),
        Some(b'M') => Some(DateDurationUnit::Months),
        Some(b'W') => Some(DateDurationUnit::Weeks),
        Some(b'D') => Some(DateDurationUnit::Days),
        _ => None,
    }
}

/// Returns the number that the digits stand for, or `None` if it is above `u64::MAX`.
fn number(digits: &[u8]) -> Option<u64> {
    str::from_utf8(digits).ok()?.parse().ok()
}
