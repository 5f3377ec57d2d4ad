//! The options of ECMAScript Temporal for fields, sums and differences of dates.

use crate::types::DateDurationUnit;

/// How to handle a month or day that doesn't exist. (ECMAScript Temporal, `overflow`)
///
/// # Examples
///
/// ```
/// use icu_calendar::options::Overflow;
///
/// assert_eq!(Overflow::default(), Overflow::Reject);
/// ```
#[derive(Clone, Copy, Debug, PartialEq, Eq, Hash, Default)]
pub enum Overflow {
    /// Use the nearest one that exists.
    Constrain,
    /// Fail.
    #[default]
    Reject,
}

/// How to handle missing fields.
///
/// # Examples
///
/// ```
/// use icu_calendar::options::{DateFromFieldsOptions, MissingFieldsStrategy};
/// use icu_calendar::types::{DateFields, Month};
/// use icu_calendar::{Date, Iso};
///
/// # fn main() -> Result<(), Box<dyn std::error::Error>> {
/// let mut fields = DateFields::default();
/// fields.month = Some(Month::new(2));
/// fields.day = Some(29);
/// let mut options = DateFromFieldsOptions::default();
/// options.missing_fields_strategy = Some(MissingFieldsStrategy::Ecma);
/// let leap_day = Date::try_from_fields(fields, options, Iso)?;
/// assert_eq!(leap_day.year().extended_year(), 1972);
/// # Ok(())
/// # }
/// ```
#[derive(Clone, Copy, Debug, PartialEq, Eq, Hash, Default)]
pub enum MissingFieldsStrategy {
    /// Fail.
    #[default]
    Reject,
    /// Supply a reference year for a missing year, or day 1 for a missing day, as Temporal's `PlainMonthDay` and
    /// `PlainYearMonth` do.
    Ecma,
}

/// Options for creating a date from fields. `None` stands for the default.
///
/// # Examples
///
/// ```
/// use icu_calendar::options::{DateFromFieldsOptions, Overflow};
///
/// let mut options = DateFromFieldsOptions::default();
/// options.overflow = Some(Overflow::Constrain);
/// ```
#[derive(Clone, Copy, Debug, PartialEq, Eq, Hash, Default)]
pub struct DateFromFieldsOptions {
    /// How to handle a month or day that doesn't exist. The default is [`Overflow::Reject`].
    pub overflow: Option<Overflow>,
    /// How to handle a missing year or day. The default is [`MissingFieldsStrategy::Reject`].
    pub missing_fields_strategy: Option<MissingFieldsStrategy>,
}

/// Options for adding a duration. `None` stands for the default.
///
/// # Examples
///
/// ```
/// use icu_calendar::options::{DateAddOptions, Overflow};
/// use icu_calendar::types::DateDuration;
/// use icu_calendar::Date;
///
/// # fn main() -> Result<(), Box<dyn std::error::Error>> {
/// let mut options = DateAddOptions::default();
/// options.overflow = Some(Overflow::Reject);
/// let date = Date::try_new_iso(2024, 1, 31)?;
/// assert!(date.try_added_with_options(DateDuration::for_months(1), options).is_err());
/// # Ok(())
/// # }
/// ```
#[derive(Clone, Copy, Debug, PartialEq, Eq, Hash, Default)]
pub struct DateAddOptions {
    /// How to handle a month or day that doesn't exist after years and months are added. The default is
    /// [`Overflow::Constrain`].
    pub overflow: Option<Overflow>,
}

/// Options for a difference. `None` stands for the default.
///
/// # Examples
///
/// ```
/// use icu_calendar::options::DateDifferenceOptions;
/// use icu_calendar::types::DateDurationUnit;
///
/// let mut options = DateDifferenceOptions::default();
/// options.largest_unit = Some(DateDurationUnit::Years);
/// ```
#[derive(Clone, Copy, Debug, PartialEq, Eq, Hash, Default)]
pub struct DateDifferenceOptions {
    /// The largest unit of the duration. The default is [`DateDurationUnit::Days`].
    pub largest_unit: Option<DateDurationUnit>,
}
