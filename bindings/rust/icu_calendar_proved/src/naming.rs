//! Dates from a year, a month and a day that a caller passes as numbers.

use crate::calendar::{AsCalendar, Calendar, Sealed};
use crate::date::Date;
use crate::date_inner::HasParts;
use crate::engine::{Chosen, Parts};
use crate::error::{DateError, DateFromFieldsError, DateNewError, LunisolarDateError, RangeError};
use crate::options::{DateFromFieldsOptions, MissingFieldsStrategy, Overflow};
use crate::types::{DateFields, Month, YearInput};

/// The greatest year that constructors take, and its opposite is the least.
const MOST_YEAR: i32 = 9999;

const REJECT: DateFromFieldsOptions = DateFromFieldsOptions {
    overflow: Some(Overflow::Reject),
    missing_fields_strategy: Some(MissingFieldsStrategy::Reject),
};

fn is_small(year: i32) -> bool {
    (-MOST_YEAR..=MOST_YEAR).contains(&year)
}

/// Creates the parts of a date, or finds the first invalid argument.
pub(crate) fn new_date(
    chosen: Chosen,
    year: YearInput<'_>,
    month: Month,
    day: u8,
) -> Result<Parts, DateNewError> {
    let mut fields = DateFields {
        month: Some(month),
        day: Some(day),
        ..DateFields::default()
    };
    match year {
        YearInput::Extended(number) if is_small(number) => fields.extended_year = Some(number),
        YearInput::EraYear(era, number) if is_small(number) => {
            fields.era = Some(era.as_bytes());
            fields.era_year = Some(number);
        }
        _ => return Err(DateNewError::InvalidYear),
    }
    chosen
        .date_of_fields(&fields, REJECT)
        .map_err(|error| match error {
            DateFromFieldsError::InvalidEra => DateNewError::InvalidEra,
            DateFromFieldsError::MonthNotInCalendar => DateNewError::MonthNotInCalendar,
            DateFromFieldsError::MonthNotInYear => DateNewError::MonthNotInYear,
            DateFromFieldsError::InvalidDay { max } => DateNewError::InvalidDay { max },
            // A small year with a month and a day has no other error.
            _ => DateNewError::InvalidYear,
        })
}

fn year_error(year: i32) -> RangeError {
    RangeError {
        field: "year",
        value: year,
        min: -MOST_YEAR,
        max: MOST_YEAR,
    }
}

fn up_to(field: &'static str, value: u8, max: u8) -> RangeError {
    RangeError {
        field,
        value: i32::from(value),
        min: 1,
        max: i32::from(max),
    }
}

/// Returns the error of a small year with the number of a month and a day.
fn number_error(error: DateFromFieldsError, month: u8, day: u8) -> DateError {
    match error {
        DateFromFieldsError::InvalidOrdinalMonth { max } => up_to("month", month, max).into(),
        DateFromFieldsError::InvalidDay { max } => up_to("day", day, max).into(),
        _ => DateError::UnknownEra,
    }
}

fn date_of<A: AsCalendar>(
    fields: &DateFields<'_>,
    calendar: A,
) -> Result<Date<A>, DateFromFieldsError> {
    let parts = calendar
        .as_calendar()
        .chosen()
        .date_of_fields(fields, REJECT)?;
    Ok(Date::of_inner(
        <A::Calendar as Calendar>::DateInner::of_parts(parts),
        calendar,
    ))
}

/// Creates a date of an extended year, the number of a month, and a day.
pub(crate) fn placed<A: AsCalendar>(
    year: i32,
    month: u8,
    day: u8,
    calendar: A,
) -> Result<Date<A>, RangeError> {
    if !is_small(year) {
        return Err(year_error(year));
    }
    let fields = DateFields {
        extended_year: Some(year),
        ordinal_month: Some(month),
        day: Some(day),
        ..DateFields::default()
    };
    date_of(&fields, calendar).map_err(|error| match number_error(error, month, day) {
        DateError::Range {
            field,
            value,
            min,
            max,
        } => RangeError {
            field,
            value,
            min,
            max,
        },
        // There is no era in these fields.
        DateError::UnknownEra => year_error(year),
    })
}

/// Creates a date of an era and its year, the number of a month, and a day.
pub(crate) fn placed_in_era<A: AsCalendar>(
    era: &str,
    year: i32,
    month: u8,
    day: u8,
    calendar: A,
) -> Result<Date<A>, DateError> {
    if !is_small(year) {
        return Err(year_error(year).into());
    }
    let fields = DateFields {
        era: Some(era.as_bytes()),
        era_year: Some(year),
        ordinal_month: Some(month),
        day: Some(day),
        ..DateFields::default()
    };
    date_of(&fields, calendar).map_err(|error| number_error(error, month, day))
}

/// Creates a date of a calendar with leap months.
pub(crate) fn lunisolar<A: AsCalendar>(
    year: i32,
    month: Month,
    day: u8,
    calendar: A,
) -> Result<Date<A>, LunisolarDateError> {
    Date::try_new(YearInput::Extended(year), month, day, calendar).map_err(|error| match error {
        DateNewError::InvalidYear | DateNewError::InvalidEra => LunisolarDateError::InvalidYear,
        DateNewError::MonthNotInCalendar => LunisolarDateError::MonthNotInCalendar,
        DateNewError::MonthNotInYear => LunisolarDateError::MonthNotInYear,
        DateNewError::InvalidDay { max } => LunisolarDateError::InvalidDay { max },
    })
}
