//! The calendars, each as a type.
//!
//! Chinese, Korean, Umm al-Qura and Persian years are the published ones, as far as they go, and computed beyond.
//! [`Computed`] is a calendar with computed years only.
//!
//! # Examples
//!
//! ```
//! use icu_calendar::cal::{ChineseTraditional, Computed, Hebrew};
//! use icu_calendar::Date;
//!
//! # fn main() -> Result<(), Box<dyn std::error::Error>> {
//! let date = Date::try_new_iso(2024, 3, 1)?;
//! assert_eq!(date.to_calendar(Hebrew).day_of_month().0, 21);
//! assert_eq!(date.to_calendar(ChineseTraditional::new()).day_of_month().0, 21);
//! # Ok(())
//! # }
//! ```

mod computed;
pub mod east_asian_traditional;
mod ethiopian;
pub mod hijri;
mod plain;

pub use crate::any_calendar::{AnyCalendar, AnyCalendarKind};
pub use computed::Computed;
#[doc(no_inline)]
pub use east_asian_traditional::{ChineseTraditional, EastAsianTraditional, KoreanTraditional};
pub use ethiopian::{Ethiopian, EthiopianEraStyle};
#[doc(no_inline)]
pub use hijri::Hijri;
pub use plain::{Buddhist, Coptic, Gregorian, Hebrew, Indian, Iso, Japanese, Julian, Persian, Roc};
