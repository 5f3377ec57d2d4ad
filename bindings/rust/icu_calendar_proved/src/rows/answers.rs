//! Dates and durations as the program writes them.

use crate::types::{DateDuration, Month, RataDie, TinyAsciiStr};
use alloc::string::String;

/// A date over rows.
///
/// # Examples
///
/// ```
/// use icu_calendar::rows::Rows;
/// use icu_calendar::types::{Month, RataDie};
/// use icu_calendar::AnyCalendarKind;
///
/// let date = Rows::default().date_of_day(RataDie::new(738946), AnyCalendarKind::Hebrew);
/// assert_eq!((date.extended_year, date.month, date.day), (5784, Month::leap(5), 21));
/// assert_eq!(date.era.unwrap(), "am");
/// ```
#[derive(Clone, Copy, Debug, PartialEq, Eq, Hash)]
pub struct RowDate {
    /// The extended year, which numbers the calendar's years without eras.
    pub extended_year: i32,
    /// The era's code, or `None` for a year of the cycle of sixty.
    pub era: Option<TinyAsciiStr<16>>,
    /// The year in the era, or in the cycle of sixty.
    pub era_year: i32,
    /// The month.
    pub month: Month,
    /// The day of the month, from 1.
    pub day: u8,
    /// The day number.
    pub day_number: RataDie,
}

/// The answer to a request.
///
/// # Examples
///
/// ```
/// use icu_calendar::rows::{Request, Rows};
/// use icu_calendar::types::{DateFields, Month};
/// use icu_calendar::AnyCalendarKind;
///
/// # fn main() -> Result<(), Box<dyn std::error::Error>> {
/// let fields = DateFields::from_year_month_day(2024, Month::new(3), 1);
/// let request = Request::new(AnyCalendarKind::Iso, AnyCalendarKind::Roc, fields, fields);
/// let span = Rows::default().span(&request)?;
/// assert_eq!((span.from.extended_year, span.from_shown.extended_year), (2024, 113));
/// # Ok(())
/// # }
/// ```
#[derive(Clone, Copy, Debug, PartialEq, Eq, Hash)]
pub struct Span {
    /// The first date.
    pub from: RowDate,
    /// The first date in the second calendar.
    pub from_shown: RowDate,
    /// The second date.
    pub to: RowDate,
    /// The second date in the second calendar.
    pub to_shown: RowDate,
    /// The difference from the first date to the second.
    pub duration: DateDuration,
}

/// A holiday over rows.
///
/// # Examples
///
/// ```
/// use icu_calendar::lists::Window;
/// use icu_calendar::rows::Rows;
/// use icu_calendar::types::RataDie;
///
/// # fn main() -> Result<(), Box<dyn std::error::Error>> {
/// let year = Window::try_new(RataDie::new(738886), RataDie::new(739251)).unwrap();
/// let listed = Rows::default().holidays(b"easter,Easter,gregorian,,0,", year)?;
/// assert_eq!((listed[0].name.as_str(), listed[0].date.day), ("Easter", 31));
/// # Ok(())
/// # }
/// ```
#[derive(Clone, Debug, PartialEq, Eq, Hash)]
pub struct RowHoliday {
    /// The date in the ISO calendar.
    pub date: RowDate,
    /// The name of the rule.
    pub name: String,
}

/// Reads a date: `EXTENDED/ERA.YEAR/CODE/DD@DAYNUMBER`.
fn date(text: &str) -> Option<RowDate> {
    let (date, number) = text.split_once('@')?;
    let mut parts = date.split('/');
    let extended_year = parts.next()?.parse().ok()?;
    let (era, era_year) = parts.next()?.split_once('.')?;
    let month = Month::try_from_str(parts.next()?).ok()?;
    let day = parts.next()?.parse().ok()?;
    Some(RowDate {
        extended_year,
        era: if era == "cycle" {
            None
        } else {
            Some(era.parse().ok()?)
        },
        era_year: era_year.parse().ok()?,
        month,
        day,
        day_number: RataDie::new(number.parse().ok()?),
    })
}

/// Reads the first date of a line.
pub(super) fn first_date(line: &str) -> Option<RowDate> {
    date(line.split(' ').next()?)
}

/// Reads a line of holidays: a date and a name, which may have spaces.
pub(super) fn holiday(line: &str) -> Option<RowHoliday> {
    let (words, name) = line.split_once(' ')?;
    Some(RowHoliday {
        date: date(words)?,
        name: name.into(),
    })
}

/// Reads an answer: `ok`, four dates and a duration.
pub(super) fn span(line: &str) -> Option<Span> {
    let mut words = line.trim_end().strip_prefix("ok ")?.split(' ');
    let mut next = || date(words.next()?);
    let (from, from_shown, to, to_shown) = (next()?, next()?, next()?, next()?);
    let duration = DateDuration::try_from_str(words.next()?).ok()?;
    Some(Span {
        from,
        from_shown,
        to,
        to_shown,
        duration,
    })
}
