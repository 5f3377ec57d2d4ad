//! Errors as the program writes them.

use crate::error::{errors, DateFromFieldsError};
use core::fmt;

/// Why a line isn't a row of the tables.
///
/// # Examples
///
/// ```
/// use icu_calendar::rows::{LineFault, Rows, RowsError};
///
/// let rows = Rows::try_read(b"\nrow era 2030 1 1 next 9\n");
/// assert_eq!(rows.unwrap_err(), RowsError::Line { number: 2, fault: LineFault::Range });
/// ```
#[derive(Clone, Copy, Debug, PartialEq, Eq, Hash)]
pub enum LineFault {
    /// The line has another form, or adds a second era.
    Syntax,
    /// The numbers name no year, or no era after Reiwa.
    Range,
}

/// The table of a row.
///
/// # Examples
///
/// ```
/// use icu_calendar::rows::{Rows, RowsError, TableName};
///
/// let rows = Rows::try_read(b"row persian 1503\n");
/// assert!(matches!(rows, Err(RowsError::Table { table: TableName::Persian, row: 1, .. })));
/// ```
#[derive(Clone, Copy, Debug, PartialEq, Eq, Hash)]
pub enum TableName {
    /// Chinese years.
    China,
    /// Korean years.
    Korea,
    /// Years of Umm al-Qura.
    Hijri,
    /// Corrections of Persian leap years.
    Persian,
}

/// A rule for the rows of a table. Each row is checked against the rules in the order of the variants.
///
/// # Examples
///
/// ```
/// use icu_calendar::rows::{Rows, RowsError, TablePart};
///
/// let rows = Rows::try_read(b"row persian 1503\n");
/// assert!(matches!(rows, Err(RowsError::Table { part: TablePart::Rule, .. })));
/// ```
#[derive(Clone, Copy, Debug, PartialEq, Eq, Hash)]
pub enum TablePart {
    /// The row's year is within the range of the table, and comes after the year of the row before it.
    Year,
    /// The row starts on the day after the year before it.
    Join,
    /// The computed year after the last row starts on the day after it.
    End,
    /// One of any three consecutive years has a leap month.
    Leap,
    /// The row's year is a leap year by the rule without the table.
    Rule,
}

/// The reason why lines aren't rows that form tables.
///
/// # Examples
///
/// ```
/// use icu_calendar::rows::{LineFault, Rows, RowsError};
///
/// let error = Rows::try_read(b"row\n").unwrap_err();
/// assert_eq!(error, RowsError::Line { number: 1, fault: LineFault::Syntax });
/// assert_eq!(error.to_string(), "Line 1 isn't a row");
/// ```
#[derive(Clone, Copy, Debug, PartialEq, Eq, Hash)]
pub enum RowsError {
    /// A line isn't a row.
    Line {
        /// The number of the line, from 1.
        number: usize,
        /// Why it isn't one.
        fault: LineFault,
    },
    /// The rows of a table don't fit together.
    Table {
        /// The table.
        table: TableName,
        /// The first row of the table that breaks a rule, from 1.
        row: usize,
        /// The first rule that it breaks.
        part: TablePart,
    },
    /// There are more than 16777216 bytes.
    TooLong,
}

impl fmt::Display for RowsError {
    fn fmt(&self, f: &mut fmt::Formatter<'_>) -> fmt::Result {
        match self {
            RowsError::Line {
                number,
                fault: LineFault::Syntax,
            } => write!(f, "Line {number} isn't a row"),
            RowsError::Line {
                number,
                fault: LineFault::Range,
            } => write!(f, "Line {number} is out of range"),
            RowsError::Table { table, row, part } => {
                write!(
                    f,
                    "Row {row} of the table {table:?} breaks its rule {part:?}"
                )
            }
            RowsError::TooLong => f.write_str("The rows are too long"),
        }
    }
}

/// One of the two dates of a request.
///
/// # Examples
///
/// ```
/// use icu_calendar::rows::{Request, Rows, Side};
/// use icu_calendar::types::DateFields;
/// use icu_calendar::AnyCalendarKind;
///
/// let none = DateFields::default();
/// let request = Request::new(AnyCalendarKind::Iso, AnyCalendarKind::Iso, none, none);
/// assert_eq!(Rows::default().span(&request).unwrap_err().side, Side::From);
/// ```
#[derive(Clone, Copy, Debug, PartialEq, Eq, Hash)]
pub enum Side {
    /// The first date.
    From,
    /// The second date.
    To,
}

/// The reason why a request has no answer: the first of its dates that is none, and its first invalid field.
///
/// # Examples
///
/// ```
/// use icu_calendar::error::DateFromFieldsError;
/// use icu_calendar::rows::{Request, Rows};
/// use icu_calendar::types::{DateFields, Month};
/// use icu_calendar::AnyCalendarKind;
///
/// let from = DateFields::from_year_month_day(2023, Month::new(2), 28);
/// let to = DateFields::from_year_month_day(2023, Month::new(2), 29);
/// let request = Request::new(AnyCalendarKind::Iso, AnyCalendarKind::Iso, from, to);
/// let error = Rows::default().span(&request).unwrap_err();
/// assert_eq!(error.cause, DateFromFieldsError::InvalidDay { max: 28 });
/// ```
#[derive(Clone, Copy, Debug, PartialEq, Eq, Hash)]
pub struct SpanError {
    /// The date.
    pub side: Side,
    /// What is invalid.
    pub cause: DateFromFieldsError,
}

impl fmt::Display for SpanError {
    fn fmt(&self, f: &mut fmt::Formatter<'_>) -> fmt::Result {
        let side = match self.side {
            Side::From => "first",
            Side::To => "second",
        };
        write!(f, "{} in the {side} date", self.cause)
    }
}

errors!(RowsError, SpanError);

/// Reads the line about a row that was refused, which is the last.
pub(super) fn rows_error(output: &str) -> RowsError {
    let words: alloc::vec::Vec<&str> = output.lines().last().unwrap_or("").split(' ').collect();
    let number = |text: &str| text.parse().unwrap_or(0);
    match words[..] {
        ["table", "line", line, fault] => RowsError::Line {
            number: number(line),
            fault: if fault == "range" {
                LineFault::Range
            } else {
                LineFault::Syntax
            },
        },
        ["table", table, row, part] => RowsError::Table {
            table: match table {
                "china" => TableName::China,
                "korea" => TableName::Korea,
                "hijri" => TableName::Hijri,
                _ => TableName::Persian,
            },
            row: number(row),
            part: match part {
                "year" => TablePart::Year,
                "join" => TablePart::Join,
                "end" => TablePart::End,
                "leap" => TablePart::Leap,
                _ => TablePart::Rule,
            },
        },
        _ => RowsError::TooLong,
    }
}

/// Reads an answer: `err`, the side, and the cause with its greatest number.
pub(super) fn span_error(output: &str) -> Option<SpanError> {
    let mut words = output.trim_end().split(' ');
    let side = match (words.next()?, words.next()?) {
        ("err", "from") => Side::From,
        ("err", "to") => Side::To,
        _ => return None,
    };
    let name = words.next()?;
    let max = words.next().and_then(|it| it.parse().ok()).unwrap_or(0);
    let cause = match name {
        "NotEnoughFields" => DateFromFieldsError::NotEnoughFields,
        "TooManyFields" => DateFromFieldsError::TooManyFields,
        "Overflow" => DateFromFieldsError::Overflow,
        "InvalidEra" => DateFromFieldsError::InvalidEra,
        "InconsistentYear" => DateFromFieldsError::InconsistentYear,
        "MonthCodeInvalidSyntax" => DateFromFieldsError::MonthCodeInvalidSyntax,
        "MonthNotInCalendar" => DateFromFieldsError::MonthNotInCalendar,
        "MonthNotInYear" => DateFromFieldsError::MonthNotInYear,
        "InconsistentMonth" => DateFromFieldsError::InconsistentMonth,
        "InvalidOrdinalMonth" => DateFromFieldsError::InvalidOrdinalMonth { max },
        "InvalidDay" => DateFromFieldsError::InvalidDay { max },
        _ => return None,
    };
    Some(SpanError { side, cause })
}
