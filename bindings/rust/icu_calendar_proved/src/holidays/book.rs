//! Books of holidays.

use super::entry::{Entry, EntryRule};
use super::records::{behind_notes, Records};
use super::rule::{HolidayRule, Moves, Recurrence, RuleYears};
use crate::error::errors;
use alloc::vec::Vec;
use core::fmt;

/// The first record of a text that is no rule of a book.
///
/// # Examples
///
/// ```
/// use icu_calendar::holidays::{Book, BookError};
///
/// let book = Book::try_read(b"fixed,Founding day,klingon,M01,1,exact");
/// assert_eq!(book.unwrap_err(), BookError { number: 1, field: 3 });
/// ```
#[derive(Clone, Copy, Debug, PartialEq, Eq, Hash)]
pub struct BookError {
    /// The record's number, from 1.
    pub number: usize,
    /// The number of its first invalid field, from 1, or 0 if the record doesn't have six to ten fields.
    pub field: u8,
}

impl fmt::Display for BookError {
    fn fmt(&self, f: &mut fmt::Formatter<'_>) -> fmt::Result {
        let BookError { number, field } = self;
        write!(f, "Record {number} of the book is invalid in field {field}")
    }
}

errors!(BookError);

/// A book: names of holidays, each with a rule.
///
/// # Examples
///
/// ```
/// use icu_calendar::holidays::Book;
///
/// # fn main() -> Result<(), Box<dyn std::error::Error>> {
/// let book = Book::try_read(b"fixed,Purim,hebrew,M06,14,constrain\n")?;
/// assert_eq!((book.len(), book.name(0)), (1, "Purim"));
/// # Ok(())
/// # }
/// ```
#[derive(Clone, Debug, PartialEq, Eq)]
pub struct Book {
    entries: Vec<Entry>,
}

impl Book {
    /// Reads a book: records of six to ten fields with commas between them, which `docs/MANUAL.md` describes. Empty lines
    /// and notes, which begin with `#`, may stand before the first record.
    ///
    /// # Errors
    ///
    /// - [`BookError`] for the first invalid record.
    ///
    /// # Examples
    ///
    /// ```
    /// use icu_calendar::holidays::Book;
    ///
    /// # fn main() -> Result<(), Box<dyn std::error::Error>> {
    /// let book = Book::try_read(b"weekday,\"Mother's Day\",gregorian,M05,2,sunday\n")?;
    /// assert_eq!(book.name(0), "Mother's Day");
    /// # Ok(())
    /// # }
    /// ```
    pub fn try_read(bytes: &[u8]) -> Result<Book, BookError> {
        let numbered = (1..).zip(Records::new(behind_notes(bytes)));
        let entries = numbered.map(|(number, fields)| {
            Entry::read(&fields).map_err(|field| BookError { number, field })
        });
        Ok(Book {
            entries: entries.collect::<Result<_, _>>()?,
        })
    }

    /// Returns the number of rules.
    ///
    /// # Examples
    ///
    /// ```
    /// use icu_calendar::holidays::Book;
    ///
    /// # fn main() -> Result<(), Box<dyn std::error::Error>> {
    /// assert_eq!(Book::try_read(b"easter,Easter,gregorian,,0,")?.len(), 1);
    /// # Ok(())
    /// # }
    /// ```
    pub fn len(&self) -> usize {
        self.entries.len()
    }

    /// Returns `true` if the book has no rules.
    ///
    /// # Examples
    ///
    /// ```
    /// use icu_calendar::holidays::Book;
    ///
    /// # fn main() -> Result<(), Box<dyn std::error::Error>> {
    /// assert!(Book::try_read(b"")?.is_empty());
    /// # Ok(())
    /// # }
    /// ```
    pub fn is_empty(&self) -> bool {
        self.entries.is_empty()
    }

    /// Returns a rule, or `None` if it is a recurrence rule, which [`Book::recurrence`] returns.
    ///
    /// # Panics
    ///
    /// Panics unless `index` is below [`Book::len`].
    ///
    /// # Examples
    ///
    /// ```
    /// use icu_calendar::holidays::{Book, HolidayRule};
    ///
    /// # fn main() -> Result<(), Box<dyn std::error::Error>> {
    /// let book = Book::try_read(b"easter,Good Friday,gregorian,,-2,")?;
    /// assert_eq!(book.rule(0), Some(HolidayRule::Easter { julian: false, offset: -2 }));
    /// # Ok(())
    /// # }
    /// ```
    pub fn rule(&self, index: usize) -> Option<HolidayRule> {
        match self.entries[index].rule {
            EntryRule::Yearly(rule) => Some(rule),
            EntryRule::Recurring(_) => None,
        }
    }

    /// Returns a recurrence rule, or `None` if the rule is another one, which [`Book::rule`] returns.
    ///
    /// # Panics
    ///
    /// Panics unless `index` is below [`Book::len`].
    ///
    /// # Examples
    ///
    /// ```
    /// use icu_calendar::holidays::Book;
    ///
    /// # fn main() -> Result<(), Box<dyn std::error::Error>> {
    /// let book = Book::try_read(b"rule,Payday,iso,,FREQ=MONTHLY;BYMONTHDAY=-1,2024-01-01")?;
    /// assert_eq!(book.recurrence(0).unwrap().text, "FREQ=MONTHLY;BYMONTHDAY=-1");
    /// assert_eq!(book.rule(0), None);
    /// # Ok(())
    /// # }
    /// ```
    pub fn recurrence(&self, index: usize) -> Option<Recurrence<'_>> {
        match &self.entries[index].rule {
            EntryRule::Yearly(_) => None,
            EntryRule::Recurring(rule) => Some(rule.told()),
        }
    }

    /// Returns the years in which a rule is kept.
    ///
    /// # Panics
    ///
    /// Panics unless `index` is below [`Book::len`].
    ///
    /// # Examples
    ///
    /// ```
    /// use icu_calendar::holidays::Book;
    ///
    /// # fn main() -> Result<(), Box<dyn std::error::Error>> {
    /// let book = Book::try_read(b"fixed,Juneteenth,gregorian,M06,19,exact,2021")?;
    /// assert_eq!(book.years(0).since, Some(2021));
    /// # Ok(())
    /// # }
    /// ```
    pub fn years(&self, index: usize) -> RuleYears {
        self.entries[index].years
    }

    /// Returns how the days of a rule move.
    ///
    /// # Panics
    ///
    /// Panics unless `index` is below [`Book::len`].
    ///
    /// # Examples
    ///
    /// ```
    /// use icu_calendar::holidays::Book;
    /// use icu_calendar::types::Weekday;
    ///
    /// # fn main() -> Result<(), Box<dyn std::error::Error>> {
    /// let book = Book::try_read(b"fixed,Waitangi Day,gregorian,M02,06,exact,2014,,,saturday+2 sunday+1")?;
    /// assert_eq!(book.moves(0).on(Weekday::Saturday), Some(2));
    /// # Ok(())
    /// # }
    /// ```
    pub fn moves(&self, index: usize) -> Moves {
        self.entries[index].moves
    }

    pub(super) fn entry(&self, index: usize) -> &Entry {
        &self.entries[index]
    }

    /// Returns the name of a rule.
    ///
    /// # Panics
    ///
    /// Panics unless `index` is below [`Book::len`].
    ///
    /// # Examples
    ///
    /// ```
    /// use icu_calendar::holidays::Book;
    ///
    /// # fn main() -> Result<(), Box<dyn std::error::Error>> {
    /// assert_eq!(Book::try_read(b"easter,Easter,gregorian,,0,")?.name(0), "Easter");
    /// # Ok(())
    /// # }
    /// ```
    pub fn name(&self, index: usize) -> &str {
        &self.entries[index].name
    }
}
