//! What a record of a book says: a rule, the years in which it is kept, and how its days move.

use crate::any_calendar::AnyCalendarKind;
use crate::lists::Leaping;
use crate::types::{Month, RataDie, Weekday};

/// A rule of a book that names at most one day in each year.
///
/// # Examples
///
/// ```
/// use icu_calendar::holidays::{Book, HolidayRule};
///
/// # fn main() -> Result<(), Box<dyn std::error::Error>> {
/// let book = Book::try_read(b"easter,Pascha,julian,,0,")?;
/// assert_eq!(book.rule(0), Some(HolidayRule::Easter { julian: true, offset: 0 }));
/// # Ok(())
/// # }
/// ```
#[derive(Clone, Copy, Debug, PartialEq, Eq, Hash)]
pub enum HolidayRule {
    /// A month and a day.
    Fixed {
        /// The calendar.
        calendar: AnyCalendarKind,
        /// The month.
        month: Month,
        /// The day of the month, from 1 to 31.
        day: u8,
        /// How to handle a year without the month or day.
        leaping: Leaping,
    },
    /// So many days after Easter.
    Easter {
        /// Whether it is Orthodox Easter.
        julian: bool,
        /// The days after Easter, from -400 to 400.
        offset: i32,
    },
    /// A weekday of a month.
    Nth {
        /// The calendar.
        calendar: AnyCalendarKind,
        /// The month.
        month: Month,
        /// Which of these weekdays: 1 to 5, or -1 for the last.
        nth: i8,
        /// The weekday.
        weekday: Weekday,
    },
    /// A weekday of a week that begins or ends with a month and a day. Years without the date are skipped.
    Span {
        /// The calendar.
        calendar: AnyCalendarKind,
        /// The month.
        month: Month,
        /// The day of the month, from 1 to 31.
        day: u8,
        /// Whether the week begins or ends with the date.
        week: SpanWeek,
        /// The weekday.
        weekday: Weekday,
    },
}

/// A week beside a date.
///
/// # Examples
///
/// ```
/// use icu_calendar::holidays::{Book, HolidayRule, SpanWeek};
///
/// # fn main() -> Result<(), Box<dyn std::error::Error>> {
/// let book = Book::try_read(b"span,Advent Sunday,gregorian,M11,27,sunday")?;
/// assert!(matches!(book.rule(0), Some(HolidayRule::Span { week: SpanWeek::From, .. })));
/// # Ok(())
/// # }
/// ```
#[derive(Clone, Copy, Debug, PartialEq, Eq, Hash)]
pub enum SpanWeek {
    /// The seven days from the date on.
    From,
    /// The seven days up to the date.
    UpTo,
}

/// A recurrence rule of a book (RFC 5545, 3.3.10; RFC 7529, 4), which names its occurrences from its start on.
///
/// # Examples
///
/// ```
/// use icu_calendar::holidays::Book;
/// use icu_calendar::types::RataDie;
/// use icu_calendar::AnyCalendarKind;
///
/// # fn main() -> Result<(), Box<dyn std::error::Error>> {
/// let book = Book::try_read(b"rule,Rosh Chodesh,hebrew,,\"FREQ=MONTHLY;BYMONTHDAY=1,30\",2024-03-01")?;
/// let rule = book.recurrence(0).unwrap();
/// assert_eq!((rule.calendar, rule.text), (AnyCalendarKind::Hebrew, "FREQ=MONTHLY;BYMONTHDAY=1,30"));
/// assert_eq!(rule.start, RataDie::new(738946));
/// # Ok(())
/// # }
/// ```
#[derive(Clone, Copy, Debug, PartialEq, Eq, Hash)]
pub struct Recurrence<'b> {
    /// The calendar.
    pub calendar: AnyCalendarKind,
    /// The text of the rule, which is one of the calendar.
    pub text: &'b str,
    /// The day on which the rule starts.
    pub start: RataDie,
}

/// The years in which a rule is kept: extended years of its calendar, or the years of its Easter.
///
/// # Examples
///
/// ```
/// use icu_calendar::holidays::{Book, RuleYears};
///
/// # fn main() -> Result<(), Box<dyn std::error::Error>> {
/// let book = Book::try_read(b"fixed,Inauguration Day,gregorian,M01,20,exact,1957,,4")?;
/// assert_eq!(book.years(0), RuleYears { since: Some(1957), until: None, every: 4 });
/// # Ok(())
/// # }
/// ```
#[derive(Clone, Copy, Debug, PartialEq, Eq, Hash)]
pub struct RuleYears {
    /// The first year, from -999999 to 999999.
    pub since: Option<i32>,
    /// The last year, from -999999 to 999999.
    pub until: Option<i32>,
    /// The steps from the first year on, from 1 to 400; 1 if no year is the first.
    pub every: u16,
}

impl RuleYears {
    /// Returns whether the rule is kept in a year.
    pub(super) fn keeps(self, year: i32) -> bool {
        self.first_from(year) == year && self.last_to(year) == year
    }

    /// Returns the first year from `low` on in which the rule is kept, if none is the last.
    pub(super) fn first_from(self, low: i32) -> i32 {
        match self.since {
            None => low,
            Some(since) if low <= since => since,
            Some(since) => low + (since - low).rem_euclid(i32::from(self.every)),
        }
    }

    /// Returns the last year up to `high` that isn't past the last one of the rule.
    pub(super) fn last_to(self, high: i32) -> i32 {
        self.until.map_or(high, |until| until.min(high))
    }
}

/// By how many days a holiday moves off weekdays.
///
/// # Examples
///
/// ```
/// use icu_calendar::holidays::Book;
/// use icu_calendar::types::{RataDie, Weekday};
///
/// # fn main() -> Result<(), Box<dyn std::error::Error>> {
/// let book = Book::try_read(b"fixed,Veterans Day,gregorian,M11,11,exact,,,,saturday-1 sunday+1")?;
/// assert_eq!(book.moves(0).on(Weekday::Sunday), Some(1));
/// assert_eq!(book.moves(0).moved(RataDie::new(738835)), RataDie::new(738834)); // 2023-11-11
/// # Ok(())
/// # }
/// ```
#[derive(Clone, Copy, Debug, Default, PartialEq, Eq, Hash)]
pub struct Moves {
    /// The days of each weekday from Sunday on.
    days: [Option<i8>; 7],
}

impl Moves {
    /// Adds the move of a weekday, unless there is one.
    pub(super) fn with(mut self, weekday: Weekday, days: i8) -> Option<Moves> {
        let of_day = &mut self.days[weekday.days_since_sunday()];
        if of_day.is_some() {
            return None;
        }
        *of_day = Some(days);
        Some(self)
    }

    /// Returns by how many days, from -6 to 6, the holiday moves if it falls on a weekday, or `None` if the book doesn't
    /// say it.
    ///
    /// # Examples
    ///
    /// ```
    /// use icu_calendar::holidays::Book;
    /// use icu_calendar::types::Weekday;
    ///
    /// # fn main() -> Result<(), Box<dyn std::error::Error>> {
    /// let book = Book::try_read(b"easter,Easter,gregorian,,0,,,,,sunday+0")?;
    /// assert_eq!(book.moves(0).on(Weekday::Sunday), Some(0));
    /// assert_eq!(book.moves(0).on(Weekday::Monday), None);
    /// # Ok(())
    /// # }
    /// ```
    pub fn on(&self, weekday: Weekday) -> Option<i8> {
        self.days[weekday.days_since_sunday()]
    }

    /// Returns the day to which a day moves.
    ///
    /// # Examples
    ///
    /// ```
    /// use icu_calendar::holidays::Book;
    /// use icu_calendar::types::RataDie;
    ///
    /// # fn main() -> Result<(), Box<dyn std::error::Error>> {
    /// let book = Book::try_read(b"fixed,Christmas Day,gregorian,M12,25,exact,,,,sunday+2")?;
    /// assert_eq!(book.moves(0).moved(RataDie::new(738514)), RataDie::new(738516)); // 2022-12-25
    /// # Ok(())
    /// # }
    /// ```
    pub fn moved(&self, day: RataDie) -> RataDie {
        day + i64::from(self.on(Weekday::from(day)).unwrap_or(0))
    }

    /// Returns how far a day may move.
    pub(super) fn reach(&self) -> i64 {
        let sizes = self.days.iter().flatten();
        sizes
            .map(|days| i64::from(days.unsigned_abs()))
            .max()
            .unwrap_or(0)
    }
}
