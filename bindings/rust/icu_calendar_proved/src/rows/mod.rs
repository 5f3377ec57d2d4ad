//! Rows of a caller's own: years of the Chinese, Korean, Umm al-Qura and Persian calendars in place of computed ones, and
//! a Japanese era after Reiwa.
//!
//! The calls of this module run the program `calspan` over memory, with the rows before the request, so each reads the
//! rows again: the 753 published ones take some 0.3 ms. `rows/README.md` describes the lines, and the rules that they
//! have to keep.
//!
//! # Examples
//!
//! ```
//! use icu_calendar::rows::Rows;
//! use icu_calendar::types::{Month, RataDie};
//! use icu_calendar::AnyCalendarKind;
//!
//! # fn main() -> Result<(), Box<dyn std::error::Error>> {
//! let rows = Rows::try_read(b"row china 1912 698026 lslslslslsls 0\n")?;
//! let date = rows.date_of_day(RataDie::new(698055), AnyCalendarKind::Chinese);
//! assert_eq!((date.extended_year, date.month, date.day), (1912, Month::new(1), 30));
//! # Ok(())
//! # }
//! ```

mod answers;
mod errors;
mod requests;
mod rules;

pub use answers::{RowDate, RowHoliday, Span};
pub use errors::{LineFault, RowsError, Side, SpanError, TableName, TablePart};
pub use requests::Request;
pub use rules::{RowOccurrence, RuleError, RuleFault};

use crate::any_calendar::AnyCalendarKind;
use crate::cal::Iso;
use crate::date::Date;
use crate::holidays::{Book, BookError};
use crate::lists::{AnniversaryError, Leaping, Window};
use crate::options::{DateDifferenceOptions, DateFromFieldsOptions};
use crate::program::{calspan, Status};
use crate::types::{DateFields, Month, RataDie};
use alloc::format;
use alloc::string::String;
use alloc::vec::Vec;

/// A request that any rows answer.
const ANY_REQUEST: &str =
    "span iso iso none none none from year=1 month=M01 day=1 to year=1 month=M01 day=1\n";

/// Rows of years and of an era that form tables.
///
/// # Examples
///
/// ```
/// use icu_calendar::rows::Rows;
///
/// assert!(Rows::try_read(b"# a note\n\nrow persian 1502\n").is_ok());
/// ```
#[derive(Clone, Debug, PartialEq, Eq, Default)]
pub struct Rows {
    lines: Vec<u8>,
}

/// Returns whether a line is a row, a note or empty.
fn is_of_rows(line: &[u8]) -> bool {
    let line = line.strip_suffix(b"\r").unwrap_or(line);
    line.is_empty() || line.starts_with(b"#") || line == b"row" || line.starts_with(b"row ")
}

impl Rows {
    /// Reads rows: lines that begin with `row`, empty ones, and notes that begin with `#`.
    ///
    /// # Errors
    ///
    /// - [`RowsError::Line`] for the first line that isn't a row or a note, or is out of its range.
    /// - [`RowsError::Table`] for the first table whose rows don't fit together, and the first row that breaks a rule.
    /// - [`RowsError::TooLong`] if there are more than 16777216 bytes.
    ///
    /// # Examples
    ///
    /// ```
    /// use icu_calendar::rows::{LineFault, Rows, RowsError};
    ///
    /// let rows = Rows::try_read(b"row china 2024\n");
    /// assert_eq!(rows.unwrap_err(), RowsError::Line { number: 1, fault: LineFault::Syntax });
    /// ```
    pub fn try_read(bytes: &[u8]) -> Result<Rows, RowsError> {
        if let Some(place) = bytes
            .split(|byte| *byte == b'\n')
            .position(|line| !is_of_rows(line))
        {
            return Err(RowsError::Line {
                number: place + 1,
                fault: LineFault::Syntax,
            });
        }
        let mut lines = bytes.to_vec();
        if !lines.is_empty() && !lines.ends_with(b"\n") {
            lines.push(b'\n');
        }
        let rows = Rows { lines };
        let (status, output) = rows.run("span", ANY_REQUEST);
        match status {
            Status::Done => Ok(rows),
            Status::TableRefused => Err(errors::rows_error(&output)),
            _ => Err(RowsError::TooLong),
        }
    }

    /// Runs a command over the rows and what stands behind them.
    fn run(&self, words: &str, behind: &str) -> (Status, String) {
        self.run_over(words, behind.as_bytes())
    }

    fn run_over(&self, words: &str, behind: &[u8]) -> (Status, String) {
        let input = [self.lines.as_slice(), behind].concat();
        let run = calspan(words, &input);
        assert!(run.status != Status::NoMemory, "no memory for rows");
        (
            run.status,
            String::from_utf8_lossy(&run.output).into_owned(),
        )
    }

    /// Answers a request: two dates, both in a second calendar, and their difference.
    ///
    /// # Errors
    ///
    /// - [`SpanError`] for the first of the two bags of fields that names no date, with its first invalid field.
    ///
    /// # Panics
    ///
    /// Panics if there is no memory, or if the rows have nearly as many bytes as the program reads.
    ///
    /// # Examples
    ///
    /// ```
    /// use icu_calendar::rows::{Request, Rows};
    /// use icu_calendar::types::{DateFields, Month};
    /// use icu_calendar::AnyCalendarKind;
    ///
    /// # fn main() -> Result<(), Box<dyn std::error::Error>> {
    /// let rows = Rows::try_read(b"row china 1912 698026 lslslslslsls 0\n")?;
    /// let from = DateFields::from_year_month_day(1912, Month::new(1), 1);
    /// let to = DateFields::from_year_month_day(1912, Month::new(12), 29);
    /// let span = rows.span(&Request::new(AnyCalendarKind::Chinese, AnyCalendarKind::Iso, from, to))?;
    /// assert_eq!(span.duration.days, 353);
    /// # Ok(())
    /// # }
    /// ```
    pub fn span(&self, request: &Request<'_>) -> Result<Span, SpanError> {
        let (status, output) = self.run("span", &request.line());
        match status {
            Status::Done => Ok(answers::span(&output).expect("an answer has its form")),
            _ => Err(errors::span_error(&output).expect("an error has its form")),
        }
    }

    /// Returns the date of a day number in a calendar over the rows. The day number is clamped to the valid range.
    ///
    /// # Panics
    ///
    /// Panics if there is no memory, or if the rows have nearly as many bytes as the program reads.
    ///
    /// # Examples
    ///
    /// ```
    /// use icu_calendar::rows::Rows;
    /// use icu_calendar::types::RataDie;
    /// use icu_calendar::AnyCalendarKind;
    ///
    /// # fn main() -> Result<(), Box<dyn std::error::Error>> {
    /// let rows = Rows::try_read(b"row era 2030 1 1 next 7\n")?;
    /// let date = rows.date_of_day(RataDie::new(741078), AnyCalendarKind::Japanese);
    /// assert_eq!((date.era.unwrap().as_str(), date.era_year), ("next", 1)); // 2030-01-01
    /// # Ok(())
    /// # }
    /// ```
    pub fn date_of_day(&self, day: RataDie, calendar: AnyCalendarKind) -> RowDate {
        let date = Date::from_rata_die(day, Iso);
        let month = date.month().to_input();
        let fields =
            DateFields::from_year_month_day(date.extended_year(), month, date.day_of_month().0);
        let request = Request {
            calendar: AnyCalendarKind::Iso,
            shown: calendar,
            from: fields,
            to: fields,
            fields_options: DateFromFieldsOptions::default(),
            difference_options: DateDifferenceOptions::default(),
        };
        self.span(&request)
            .expect("an ISO date is valid")
            .from_shown
    }

    /// Lists the dates of a window that have a month and a day of a calendar over the rows, year after year.
    ///
    /// # Errors
    ///
    /// The first of these that applies:
    ///
    /// - [`AnniversaryError::MonthNotInCalendar`] if no year of the calendar has the month.
    /// - [`AnniversaryError::InvalidDay`] if the day isn't from 1 to 31.
    ///
    /// # Panics
    ///
    /// Panics if there is no memory.
    ///
    /// # Examples
    ///
    /// ```
    /// use icu_calendar::lists::{Leaping, Window};
    /// use icu_calendar::rows::Rows;
    /// use icu_calendar::types::{Month, RataDie};
    /// use icu_calendar::AnyCalendarKind;
    ///
    /// # fn main() -> Result<(), Box<dyn std::error::Error>> {
    /// let rows = Rows::try_read(b"row china 1912 698026 lslslslslsls 0\n")?;
    /// let window = Window::try_new(RataDie::new(698000), RataDie::new(698300)).unwrap();
    /// let days = rows.anniversaries(AnyCalendarKind::Chinese, Month::new(1), 1, Leaping::Exact, window)?;
    /// assert_eq!(days[0].day_number, RataDie::new(698026));
    /// # Ok(())
    /// # }
    /// ```
    pub fn anniversaries(
        &self,
        calendar: AnyCalendarKind,
        month: Month,
        day: u8,
        leaping: Leaping,
        window: Window,
    ) -> Result<Vec<RowDate>, AnniversaryError> {
        let name = calendar.program_name();
        let leaping = match leaping {
            Leaping::Exact => "exact",
            Leaping::Constrain => "constrain",
        };
        let (first, last) = (window.first().to_i64_date(), window.last().to_i64_date());
        let words = format!(
            "anniversary {name} iso {leaping} {} {day} {first} {last}",
            month.code()
        );
        let (status, output) = self.run(&words, "");
        match (status, output.as_str()) {
            (Status::Done, lines) => Ok(lines.lines().filter_map(answers::first_date).collect()),
            (_, "err InvalidDay\n") => Err(AnniversaryError::InvalidDay),
            _ => Err(AnniversaryError::MonthNotInCalendar),
        }
    }

    /// Lists the holidays of a book in a window, counted in calendars over the rows, by day, and on one day in the order of
    /// the book. Only these rows replace computed years.
    ///
    /// # Errors
    ///
    /// - [`BookError`] for the first invalid record.
    ///
    /// # Panics
    ///
    /// Panics if there is no memory, or if the rows and the book have more than 16777216 bytes.
    ///
    /// # Examples
    ///
    /// ```
    /// use icu_calendar::lists::Window;
    /// use icu_calendar::rows::Rows;
    /// use icu_calendar::types::RataDie;
    ///
    /// # fn main() -> Result<(), Box<dyn std::error::Error>> {
    /// let rows = Rows::try_read(b"row china 1912 698026 lslslslslsls 0\n")?;
    /// let window = Window::try_new(RataDie::new(698000), RataDie::new(698300)).unwrap();
    /// let listed = rows.holidays(b"fixed,Spring Festival,chinese,M01,1,exact", window)?;
    /// assert_eq!(listed[0].date.day_number, RataDie::new(698026));
    /// # Ok(())
    /// # }
    /// ```
    pub fn holidays(&self, book: &[u8], window: Window) -> Result<Vec<RowHoliday>, BookError> {
        Book::try_read(book)?;
        let (first, last) = (window.first().to_i64_date(), window.last().to_i64_date());
        let (status, output) = self.run_over(&format!("holidays {first} {last}"), book);
        assert!(status == Status::Done, "the rows and the book are too long");
        Ok(output.lines().filter_map(answers::holiday).collect())
    }

    /// Lists the occurrences of a recurrence rule of iCalendar (RFC 5545, with RSCALE and SKIP of RFC 7529) in a window,
    /// counted in a calendar over the rows. The start is clamped to the valid range. It is an occurrence only if the
    /// rule names it.
    ///
    /// # Errors
    ///
    /// - [`RuleError`] if the text isn't a rule of the calendar.
    ///
    /// # Panics
    ///
    /// Panics if there is no memory.
    ///
    /// # Examples
    ///
    /// ```
    /// use icu_calendar::lists::Window;
    /// use icu_calendar::rows::Rows;
    /// use icu_calendar::types::RataDie;
    /// use icu_calendar::AnyCalendarKind;
    ///
    /// # fn main() -> Result<(), Box<dyn std::error::Error>> {
    /// let start = RataDie::new(738886); // 2024-01-01
    /// let window = Window::try_new(start, RataDie::new(740000)).unwrap();
    /// let adar = "FREQ=YEARLY;BYMONTH=5L;BYMONTHDAY=10;SKIP=FORWARD";
    /// let found = Rows::default().rule(AnyCalendarKind::Hebrew, start, adar, window)?;
    /// let days: Vec<_> = found.iter().map(|it| it.date.day_number.to_i64_date()).collect();
    /// assert_eq!(days, [738935, 739320, 739674]); // 2024-02-19, 2025-03-10, 2026-02-27
    /// # Ok(())
    /// # }
    /// ```
    pub fn rule(
        &self,
        calendar: AnyCalendarKind,
        start: RataDie,
        rule: &str,
        window: Window,
    ) -> Result<Vec<RowOccurrence>, RuleError> {
        let name = calendar.program_name();
        let start = Date::from_rata_die(start, Iso).to_rata_die().to_i64_date();
        let (first, last) = (window.first().to_i64_date(), window.last().to_i64_date());
        let words = format!(
            "rrule {name} iso {first} {last} {start} {}",
            rules::word(rule)
        );
        let (status, output) = self.run(&words, "");
        match status {
            Status::Done => Ok(output.lines().filter_map(rules::occurrence).collect()),
            _ => Err(RuleError::read(&output).expect("an error has its form")),
        }
    }
}
