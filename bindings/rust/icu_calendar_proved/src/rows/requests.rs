//! Request lines of the program.

use crate::any_calendar::AnyCalendarKind;
use crate::options::{
    DateDifferenceOptions, DateFromFieldsOptions, MissingFieldsStrategy, Overflow,
};
use crate::types::{DateDurationUnit, DateFields};
use alloc::format;
use alloc::string::String;

/// Longer codes are no codes either, so they are cut here: a line has at most 512 bytes.
const LONGEST_CODE: usize = 32;

/// A request: two dates of a calendar by their fields, and a second calendar to show them in.
///
/// # Examples
///
/// ```
/// use icu_calendar::rows::{Request, Rows};
/// use icu_calendar::types::{DateDurationUnit, DateFields, Month};
/// use icu_calendar::AnyCalendarKind;
///
/// # fn main() -> Result<(), Box<dyn std::error::Error>> {
/// let from = DateFields::from_year_month_day(5784, Month::new(1), 1);
/// let to = DateFields::from_year_month_day(5785, Month::new(1), 1);
/// let mut request = Request::new(AnyCalendarKind::Hebrew, AnyCalendarKind::Iso, from, to);
/// request.difference_options.largest_unit = Some(DateDurationUnit::Years);
/// assert_eq!(Rows::default().span(&request)?.duration.years, 1);
/// # Ok(())
/// # }
/// ```
#[derive(Clone, Copy, Debug, PartialEq, Eq)]
pub struct Request<'a> {
    /// The calendar of the fields.
    pub calendar: AnyCalendarKind,
    /// The calendar to show the dates in.
    pub shown: AnyCalendarKind,
    /// The fields of the first date.
    pub from: DateFields<'a>,
    /// The fields of the second date.
    pub to: DateFields<'a>,
    /// The options for the fields.
    pub fields_options: DateFromFieldsOptions,
    /// The options for the difference.
    pub difference_options: DateDifferenceOptions,
}

impl<'a> Request<'a> {
    /// Creates a request without options.
    ///
    /// # Examples
    ///
    /// ```
    /// use icu_calendar::rows::Request;
    /// use icu_calendar::types::DateFields;
    /// use icu_calendar::AnyCalendarKind;
    ///
    /// let fields = DateFields::default();
    /// let request = Request::new(AnyCalendarKind::Iso, AnyCalendarKind::Roc, fields, fields);
    /// assert_eq!(request.fields_options.overflow, None);
    /// ```
    pub fn new(
        calendar: AnyCalendarKind,
        shown: AnyCalendarKind,
        from: DateFields<'a>,
        to: DateFields<'a>,
    ) -> Request<'a> {
        Request {
            calendar,
            shown,
            from,
            to,
            fields_options: DateFromFieldsOptions::default(),
            difference_options: DateDifferenceOptions::default(),
        }
    }

    /// Returns the request line.
    pub(super) fn line(&self) -> String {
        let unit = match self.difference_options.largest_unit {
            None => "none",
            Some(DateDurationUnit::Years) => "years",
            Some(DateDurationUnit::Months) => "months",
            Some(DateDurationUnit::Weeks) => "weeks",
            Some(DateDurationUnit::Days) => "days",
        };
        let overflow = match self.fields_options.overflow {
            None => "none",
            Some(Overflow::Constrain) => "constrain",
            Some(Overflow::Reject) => "reject",
        };
        let missing = match self.fields_options.missing_fields_strategy {
            None => "none",
            Some(MissingFieldsStrategy::Reject) => "reject",
            Some(MissingFieldsStrategy::Ecma) => "ecma",
        };
        let (calendar, shown) = (self.calendar.program_name(), self.shown.program_name());
        let (from, to) = (words(&self.from), words(&self.to));
        format!("span {calendar} {shown} {unit} {overflow} {missing} from{from} to{to}\n")
    }
}

/// Returns a code as a line can have it. A byte that it can't have is in no code, and neither is the one in its place.
fn code(bytes: &[u8]) -> String {
    let kept = bytes.iter().take(LONGEST_CODE);
    kept.map(|byte| {
        if byte.is_ascii_graphic() {
            char::from(*byte)
        } else {
            '?'
        }
    })
    .collect()
}

/// Returns a year as a line can have it: none beyond the range of years has more than nine digits.
fn year(number: i32) -> i32 {
    number.clamp(-999_999_999, 999_999_999)
}

/// Returns the words of the fields, each behind a space.
fn words(fields: &DateFields<'_>) -> String {
    let mut line = String::new();
    let mut add = |key: &str, value: String| line.push_str(&format!(" {key}={value}"));
    if let Some(era) = fields.era {
        add("era", code(era));
    }
    if let Some(number) = fields.era_year {
        add("era-year", format!("{}", year(number)));
    }
    if let Some(number) = fields.extended_year {
        add("year", format!("{}", year(number)));
    }
    if let Some(month) = fields.month {
        add("month", format!("{}", month.code()));
    }
    if let Some(text) = fields.month_code {
        add("month-code", code(text));
    }
    if let Some(place) = fields.ordinal_month {
        add("ordinal", format!("{place}"));
    }
    if let Some(day) = fields.day {
        add("day", format!("{day}"));
    }
    line
}
