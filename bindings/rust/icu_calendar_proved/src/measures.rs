//! Lengths of months and years. Each is what a call on fields says of a year.

use crate::engine::{Chosen, Parts};
use crate::error::DateFromFieldsError;
use crate::options::{DateFromFieldsOptions, MissingFieldsStrategy, Overflow};
use crate::types::DateFields;

/// A place that no year or month has: the error for it says what the last one is.
const NOWHERE: u8 = 255;

const REJECT: DateFromFieldsOptions = DateFromFieldsOptions {
    overflow: Some(Overflow::Reject),
    missing_fields_strategy: Some(MissingFieldsStrategy::Reject),
};

fn place(year: i32, ordinal_month: u8, day: u8) -> DateFields<'static> {
    DateFields {
        extended_year: Some(year),
        ordinal_month: Some(ordinal_month),
        day: Some(day),
        ..DateFields::default()
    }
}

/// Returns the greatest number that an error names, which for a valid year it does.
fn greatest(answer: Result<Parts, DateFromFieldsError>) -> u8 {
    match answer {
        Err(
            DateFromFieldsError::InvalidOrdinalMonth { max }
            | DateFromFieldsError::InvalidDay { max },
        ) => max,
        Ok(_) | Err(_) => unreachable!("no year has 255 months, and no month 255 days"),
    }
}

impl Chosen {
    /// Returns the number of months in the year of a date.
    pub(crate) fn months_in_year(self, year: i32) -> u8 {
        greatest(self.date_of_fields(&place(year, NOWHERE, 1), REJECT))
    }

    /// Returns the number of days in a month of the year of a date.
    pub(crate) fn days_in_month(self, year: i32, ordinal_month: u8) -> u8 {
        greatest(self.date_of_fields(&place(year, ordinal_month, NOWHERE), REJECT))
    }

    /// Returns the day number of a year's first day, unless it is out of the valid range.
    fn year_start(self, year: i32) -> Option<i64> {
        let first = self.date_of_fields(&place(year, 1, 1), REJECT).ok()?;
        Some(first.day_number())
    }

    /// Returns the number of days in the first so many months of the year of a date.
    fn days_before(self, year: i32, months: u8) -> u16 {
        (1..=months)
            .map(|month| u16::from(self.days_in_month(year, month)))
            .sum()
    }

    /// Returns the number of days in the year of a date.
    pub(crate) fn days_in_year(self, year: i32) -> u16 {
        match (self.year_start(year), self.year_start(year + 1)) {
            (Some(first), Some(next)) => (next - first) as u16,
            _ => self.days_before(year, self.months_in_year(year)),
        }
    }

    /// Returns the place of a date in its year, from 1.
    pub(crate) fn day_of_year(self, date: &Parts) -> u16 {
        match self.year_start(date.extended_year) {
            Some(first) => (date.day_number() - first) as u16 + 1,
            None => {
                self.days_before(date.extended_year, date.ordinal_month - 1) + u16::from(date.day)
            }
        }
    }

    /// Returns whether the month after a place in a year is a leap month.
    pub(crate) fn leap_month_follows(self, year: i32, ordinal_month: u8) -> bool {
        match self.date_of_fields(&place(year, ordinal_month + 1, 1), REJECT) {
            Ok(next) => next.month().is_leap(),
            Err(_) => false,
        }
    }
}
