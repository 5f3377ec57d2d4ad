//! Recurrence rules of iCalendar over rows.

use super::answers::{first_date, RowDate};
use crate::error::errors;
use crate::types::TinyAsciiStr;
use core::fmt;

/// An occurrence of a recurrence rule over rows.
///
/// # Examples
///
/// ```
/// use icu_calendar::lists::Window;
/// use icu_calendar::rows::Rows;
/// use icu_calendar::types::RataDie;
/// use icu_calendar::AnyCalendarKind;
///
/// # fn main() -> Result<(), Box<dyn std::error::Error>> {
/// let start = RataDie::new(738886); // 2024-01-01
/// let window = Window::try_new(RataDie::new(738976), RataDie::new(739005)).unwrap();
/// let found = Rows::default().rule(AnyCalendarKind::Iso, start, "FREQ=MONTHLY;BYMONTHDAY=-1", window)?;
/// assert_eq!((found[0].index, found[0].date.month.number(), found[0].date.day), (2, 3, 31));
/// # Ok(())
/// # }
/// ```
#[derive(Clone, Copy, Debug, PartialEq, Eq, Hash)]
pub struct RowOccurrence {
    /// How many occurrences come before it, from the start on.
    pub index: u32,
    /// The date.
    pub date: RowDate,
}

/// What is wrong with the text of a recurrence rule.
///
/// # Examples
///
/// ```
/// use icu_calendar::lists::Window;
/// use icu_calendar::rows::{RuleFault, Rows};
/// use icu_calendar::types::RataDie;
/// use icu_calendar::AnyCalendarKind;
///
/// let day = RataDie::new(738886);
/// let window = Window::try_new(day, day).unwrap();
/// let error = Rows::default().rule(AnyCalendarKind::Iso, day, "COUNT=1", window).unwrap_err();
/// assert_eq!(error.fault, RuleFault::MissingPart);
/// ```
#[derive(Clone, Copy, Debug, PartialEq, Eq, Hash)]
pub enum RuleFault {
    /// A part isn't `NAME=VALUE`.
    BadPart,
    /// Neither RFC 5545 nor RFC 7529 has a part of the name.
    UnknownPart,
    /// A part comes twice.
    RepeatedPart,
    /// A part is about times of the day.
    TimeNotSupported,
    /// A value doesn't have the form of its part.
    BadValue,
    /// A value isn't in the range of its part, or the calendar doesn't have the month.
    ValueOutOfRange,
    /// No calendar has the name in RSCALE.
    UnknownCalendar,
    /// RSCALE names another calendar.
    MismatchedCalendar,
    /// A part is missing.
    MissingPart,
    /// COUNT and UNTIL exclude each other.
    CountWithUntil,
    /// The frequency doesn't allow a part.
    PartNotAllowed,
    /// A number in BYDAY needs FREQ=YEARLY or MONTHLY, without BYWEEKNO.
    OrdinalNotAllowed,
    /// BYSETPOS needs another BY-part.
    SetPosAlone,
}

/// The faults by their names in the program, with a message.
const FAULTS: [(&str, RuleFault, &str); 13] = [
    ("BadPart", RuleFault::BadPart, "A part isn't NAME=VALUE"),
    (
        "UnknownPart",
        RuleFault::UnknownPart,
        "There is no part of this name",
    ),
    (
        "RepeatedPart",
        RuleFault::RepeatedPart,
        "The part comes twice",
    ),
    (
        "TimeNotSupported",
        RuleFault::TimeNotSupported,
        "Times of the day aren't supported",
    ),
    (
        "BadValue",
        RuleFault::BadValue,
        "The value doesn't have its part's form",
    ),
    (
        "ValueOutOfRange",
        RuleFault::ValueOutOfRange,
        "The value is out of range",
    ),
    (
        "UnknownCalendar",
        RuleFault::UnknownCalendar,
        "There is no calendar of the name in RSCALE",
    ),
    (
        "MismatchedCalendar",
        RuleFault::MismatchedCalendar,
        "RSCALE names another calendar",
    ),
    ("MissingPart", RuleFault::MissingPart, "The part is missing"),
    (
        "CountWithUntil",
        RuleFault::CountWithUntil,
        "COUNT and UNTIL exclude each other",
    ),
    (
        "PartNotAllowed",
        RuleFault::PartNotAllowed,
        "The frequency doesn't allow the part",
    ),
    (
        "OrdinalNotAllowed",
        RuleFault::OrdinalNotAllowed,
        "A number isn't allowed in BYDAY",
    ),
    (
        "SetPosAlone",
        RuleFault::SetPosAlone,
        "BYSETPOS needs another BY-part",
    ),
];

/// The reason why a text isn't a recurrence rule of a calendar: the first invalid part's, or else that of the whole
/// rule.
///
/// # Examples
///
/// ```
/// use icu_calendar::lists::Window;
/// use icu_calendar::rows::Rows;
/// use icu_calendar::types::RataDie;
/// use icu_calendar::AnyCalendarKind;
///
/// let day = RataDie::new(738886);
/// let window = Window::try_new(day, day).unwrap();
/// let error = Rows::default().rule(AnyCalendarKind::Iso, day, "FREQ=HOURLY", window).unwrap_err();
/// assert_eq!(error.part.unwrap(), "FREQ");
/// assert_eq!(error.to_string(), "FREQ: Times of the day aren't supported");
/// ```
#[derive(Clone, Copy, Debug, PartialEq, Eq, Hash)]
pub struct RuleError {
    /// What is wrong.
    pub fault: RuleFault,
    /// The name of the part that it is about, in capitals.
    pub part: Option<TinyAsciiStr<16>>,
}

impl RuleError {
    /// Reads an error line: `err NAME` or `err NAME PART`.
    pub(super) fn read(line: &str) -> Option<RuleError> {
        let mut words = line.trim_end().split(' ').skip(1);
        let name = words.next()?;
        let (_, fault, _) = FAULTS.iter().find(|(it, _, _)| *it == name)?;
        let part = words.next().and_then(|it| it.parse().ok());
        Some(RuleError {
            fault: *fault,
            part,
        })
    }
}

impl fmt::Display for RuleError {
    fn fmt(&self, f: &mut fmt::Formatter<'_>) -> fmt::Result {
        if let Some(part) = self.part {
            write!(f, "{}: ", part.as_str())?;
        }
        let found = FAULTS.iter().find(|(_, fault, _)| *fault == self.fault);
        f.write_str(found.map_or("", |(_, _, message)| message))
    }
}

errors!(RuleError);

/// Reads a line of the program's list.
pub(super) fn occurrence(line: &str) -> Option<RowOccurrence> {
    let (index, dates) = line.split_once(' ')?;
    Some(RowOccurrence {
        index: index.parse().ok()?,
        date: first_date(dates)?,
    })
}

/// Returns a rule as a word of the command line, which is neither empty nor holds a space. Another text that is no
/// rule, for the same reason, stands for one that can't be such a word.
pub(super) fn word(rule: &str) -> alloc::string::String {
    if rule.is_empty() {
        return ";".into();
    }
    rule.replace(' ', "?")
}
