//! Dates in twenty calendars, with the surface of `icu_calendar` 2.4.0 and a proved engine below.
//!
//! A [`Date`] is a date together with its calendar. The calendar has a type of its own, such as [`Iso`] or
//! [`cal::Hebrew`], or is chosen at run time, as [`AnyCalendar`]. Start with a constructor such as
//! [`Date::try_new_iso`], or with [`Date::try_new`].
//!
//! Conversions, fields, sums, differences, eras, weeks and Easter are calls of the archive that this crate links; every
//! call is proved to do what its contract says. This crate passes values on, reads texts, and walks lists.
//!
//! # Examples
//!
//! A birthday in the Hebrew calendar, and an age:
//!
//! ```
//! use icu_calendar::cal::Hebrew;
//! use icu_calendar::options::DateDifferenceOptions;
//! use icu_calendar::types::DateDurationUnit;
//! use icu_calendar::Date;
//!
//! # fn main() -> Result<(), Box<dyn std::error::Error>> {
//! let born = Date::try_new_iso(1990, 7, 20)?;
//! let today = Date::try_new_iso(2024, 3, 1)?;
//! let mut options = DateDifferenceOptions::default();
//! options.largest_unit = Some(DateDurationUnit::Years);
//! let age = born.try_until_with_options(&today, options)?;
//! assert_eq!(age.to_string(), "P33Y7M10D");
//! let hebrew = born.to_calendar(Hebrew);
//! assert_eq!(format!("{hebrew:?}"), "Date(5750-10-27, am era, for calendar Hebrew)");
//! # Ok(())
//! # }
//! ```
#![cfg_attr(not(feature = "std"), no_std)]
#![deny(missing_docs, unsafe_code)]

#[cfg(feature = "alloc")]
extern crate alloc;

mod any_calendar;
pub mod cal;
mod calendar;
mod date;
mod date_inner;
mod engine;
pub mod error;
mod ffi;
#[cfg(feature = "alloc")]
pub mod holidays;
pub mod lists;
mod measures;
mod names;
mod naming;
pub mod options;
pub mod preferences;
#[cfg(feature = "alloc")]
pub mod program;
#[cfg(feature = "alloc")]
pub mod rows;
pub mod types;
pub mod week;

pub use any_calendar::{AnyCalendar, AnyCalendarKind, IntoAnyCalendar};
pub use cal::{Gregorian, Iso};
pub use calendar::{AsCalendar, Calendar, Ref};
pub use date::{Date, DateRecord, IxdtfRecord};
#[doc(no_inline)]
pub use error::{DateError, ParseError, RangeError};
