//! The parts of dates: years, months, days, day numbers, durations and fields.
//!
//! # Examples
//!
//! ```
//! use icu_calendar::types::{DateDuration, Month, Weekday};
//! use icu_calendar::{Date, Iso};
//!
//! # fn main() -> Result<(), Box<dyn std::error::Error>> {
//! let date = Date::try_new(2024.into(), Month::new(3), 1, Iso)?;
//! assert_eq!(date.weekday(), Weekday::Friday);
//! # Ok(())
//! # }
//! ```

mod day;
mod duration;
mod duration_text;
mod fields;
mod month;
mod month_code;
mod month_info;
mod rata_die;
mod tiny;
mod weekday;
mod year;

pub use day::{DayOfMonth, DayOfWeekInMonth, DayOfYear, IsoWeekOfYear};
pub use duration::{DateDuration, DateDurationUnit};
pub use fields::DateFields;
pub use month::Month;
pub use month_code::MonthCode;
pub(crate) use month_info::Beside;
pub use month_info::{LeapStatus, MonthInfo};
pub use rata_die::RataDie;
pub use tiny::TinyAsciiStr;
pub use weekday::Weekday;
pub use year::{CyclicYear, EraYear, YearAmbiguity, YearInfo, YearInput};
