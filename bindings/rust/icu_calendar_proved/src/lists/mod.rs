//! Days that are repeated: anniversaries, and recurrences by a rule. `holidays` has those that a book names.
//!
//! A list has the days of a [`Window`], which is a first and a last day. It is an iterator: it takes no memory, it ends,
//! and `rest` returns what is left of its window, to be resumed later.
//!
//! # Examples
//!
//! Chinese New Year from 2023 to 2025:
//!
//! ```
//! use icu_calendar::cal::ChineseTraditional;
//! use icu_calendar::lists::{anniversaries, Leaping, Window};
//! use icu_calendar::types::Month;
//! use icu_calendar::{Date, Iso};
//!
//! # fn main() -> Result<(), Box<dyn std::error::Error>> {
//! let first = Date::try_new_iso(2023, 1, 1)?.to_rata_die();
//! let last = Date::try_new_iso(2025, 12, 31)?.to_rata_die();
//! let window = Window::try_new(first, last).unwrap();
//! let days = anniversaries(ChineseTraditional::new(), Month::new(1), 1, Leaping::Exact, window)?;
//! let dates: Vec<_> = days.map(|day| Date::from_rata_die(day, Iso)).collect();
//! assert_eq!(dates[1], Date::try_new_iso(2024, 2, 10)?);
//! assert_eq!(dates.len(), 3);
//! # Ok(())
//! # }
//! ```

mod anniversaries;
mod recurrences;
mod window;

#[cfg(feature = "alloc")]
pub(crate) use anniversaries::knows_month;
pub use anniversaries::{anniversaries, Anniversaries, AnniversaryError, Leaping};
pub use recurrences::{Missing, Occurrence, Recurrence, Rule};
pub use window::Window;
