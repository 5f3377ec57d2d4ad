//! Holidays by the rules of a book, which is a text with one rule in each line.
//!
//! `books/` has books with their sources, and `books/README.md` describes them.
//!
//! # Examples
//!
//! ```
//! use icu_calendar::holidays::{holidays, Book, Years};
//! use icu_calendar::lists::Window;
//! use icu_calendar::types::RataDie;
//!
//! # fn main() -> Result<(), Box<dyn std::error::Error>> {
//! let book = Book::try_read(b"easter,Easter,gregorian,,0,\nweekday,Thanksgiving,gregorian,M11,4,thursday\n")?;
//! let year = Window::try_new(RataDie::new(738886), RataDie::new(739251)).unwrap();
//! let names: Vec<&str> = holidays(&book, Years::Published, year, 0).map(|it| book.name(it.rule)).collect();
//! assert_eq!(names, ["Easter", "Thanksgiving"]);
//! # Ok(())
//! # }
//! ```

mod book;
mod days;
mod entry;
mod list;
mod occurrences;
mod records;
mod rule;

pub use book::{Book, BookError};
pub use list::{holidays, Holiday, Holidays, Rest, Years};
pub use rule::{HolidayRule, Moves, Recurrence, RuleYears, SpanWeek};
