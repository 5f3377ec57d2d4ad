//! A bag of fields for a date, like the property bags of ECMAScript Temporal.

use super::month::Month;

/// Some fields of a date. A calendar decides whether they name a date.
///
/// # Examples
///
/// ```
/// use icu_calendar::cal::Japanese;
/// use icu_calendar::options::DateFromFieldsOptions;
/// use icu_calendar::types::DateFields;
/// use icu_calendar::Date;
///
/// # fn main() -> Result<(), Box<dyn std::error::Error>> {
/// let mut fields = DateFields::default();
/// fields.era = Some(b"reiwa");
/// fields.era_year = Some(6);
/// fields.ordinal_month = Some(3);
/// fields.day = Some(1);
/// let date = Date::try_from_fields(fields, DateFromFieldsOptions::default(), Japanese::new())?;
/// assert_eq!(date.to_iso(), Date::try_new_iso(2024, 3, 1)?);
/// # Ok(())
/// # }
/// ```
#[derive(Clone, Copy, Debug, PartialEq, Eq, Default)]
pub struct DateFields<'a> {
    /// The era's code, in bytes. It needs `era_year`.
    pub era: Option<&'a [u8]>,
    /// The era year. It needs `era`.
    pub era_year: Option<i32>,
    /// The extended year, which numbers a calendar's years without eras.
    pub extended_year: Option<i32>,
    /// The month by its number. It excludes `month_code`.
    pub month: Option<Month>,
    /// The month by its code, such as `M05L`, in bytes. It excludes `month`.
    pub month_code: Option<&'a [u8]>,
    /// The ordinal month: its number in the year, from 1.
    pub ordinal_month: Option<u8>,
    /// The day of the month, from 1.
    pub day: Option<u8>,
}

impl DateFields<'_> {
    /// Creates a bag with an extended year, a month and a day only.
    ///
    /// # Examples
    ///
    /// ```
    /// use icu_calendar::{Date, Gregorian};
    /// use icu_calendar::options::{DateFromFieldsOptions, Overflow};
    /// use icu_calendar::types::{DateFields, Month};
    ///
    /// # fn main() -> Result<(), Box<dyn std::error::Error>> {
    /// let fields = DateFields::from_year_month_day(2024, Month::new(2), 30);
    /// let constrain = DateFromFieldsOptions {
    ///     overflow: Some(Overflow::Constrain),
    ///     missing_fields_strategy: None,
    /// };
    /// let date = Date::try_from_fields(fields, constrain, Gregorian)?;
    /// assert!(date.day_of_month().0 == 29);
    /// # Ok(())
    /// # }
    /// ```
    pub fn from_year_month_day(extended_year: i32, month: Month, day: u8) -> Self {
        DateFields {
            extended_year: Some(extended_year),
            month: Some(month),
            day: Some(day),
            ..DateFields::default()
        }
    }
}
