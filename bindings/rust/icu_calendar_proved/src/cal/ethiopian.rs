//! The Ethiopian calendar.

use crate::calendar::{Calendar, Sealed};
use crate::date_inner::DateInner;
use crate::engine::{codes, Chosen};
use crate::preferences::CalendarAlgorithm;
use crate::types::EraYear;
use core::convert::Infallible;

/// The eras of an Ethiopian calendar.
///
/// # Examples
///
/// ```
/// use icu_calendar::cal::EthiopianEraStyle;
/// use icu_calendar::Date;
///
/// # fn main() -> Result<(), Box<dyn std::error::Error>> {
/// let date = Date::try_new_ethiopian(EthiopianEraStyle::AmeteAlem, 7516, 6, 22)?;
/// assert_eq!(date.to_iso(), Date::try_new_iso(2024, 3, 1)?);
/// # Ok(())
/// # }
/// ```
#[derive(Clone, Copy, Debug, PartialEq, Eq, PartialOrd, Ord, Hash)]
pub enum EthiopianEraStyle {
    /// The eras `am` (of the Incarnation) and, before it, `aa`.
    AmeteMihret,
    /// The era `aa` (of the World) only.
    AmeteAlem,
}

/// The Ethiopian calendar of thirteen months.
///
/// # Examples
///
/// ```
/// use icu_calendar::cal::Ethiopian;
/// use icu_calendar::Date;
///
/// # fn main() -> Result<(), Box<dyn std::error::Error>> {
/// let date = Date::try_new_iso(2024, 3, 1)?.to_calendar(Ethiopian::new());
/// assert_eq!((date.era_year().year, date.month().ordinal, date.day_of_month().0), (2016, 6, 22));
/// # Ok(())
/// # }
/// ```
#[derive(Clone, Copy, Debug, PartialEq, Eq, PartialOrd, Ord, Hash)]
pub struct Ethiopian(EthiopianEraStyle);

impl Ethiopian {
    /// Returns the calendar with the era of the Incarnation ([`EthiopianEraStyle::AmeteMihret`]).
    ///
    /// # Examples
    ///
    /// ```
    /// use icu_calendar::cal::{Ethiopian, EthiopianEraStyle};
    ///
    /// assert_eq!(Ethiopian::new().era_style(), EthiopianEraStyle::AmeteMihret);
    /// ```
    pub const fn new() -> Ethiopian {
        Ethiopian(EthiopianEraStyle::AmeteMihret)
    }

    /// Returns the calendar with the eras of a style.
    ///
    /// # Examples
    ///
    /// ```
    /// use icu_calendar::cal::{Ethiopian, EthiopianEraStyle};
    ///
    /// let world = Ethiopian::new_with_era_style(EthiopianEraStyle::AmeteAlem);
    /// assert_ne!(world, Ethiopian::new());
    /// ```
    pub const fn new_with_era_style(era_style: EthiopianEraStyle) -> Ethiopian {
        Ethiopian(era_style)
    }

    /// Returns the style of its eras.
    ///
    /// # Examples
    ///
    /// ```
    /// use icu_calendar::cal::{Ethiopian, EthiopianEraStyle};
    ///
    /// let world = Ethiopian::new_with_era_style(EthiopianEraStyle::AmeteAlem);
    /// assert_eq!(world.era_style(), EthiopianEraStyle::AmeteAlem);
    /// ```
    pub const fn era_style(&self) -> EthiopianEraStyle {
        self.0
    }
}

/// Returns the calendar as [`Ethiopian::new`] does.
impl Default for Ethiopian {
    fn default() -> Ethiopian {
        Ethiopian::new()
    }
}

impl Sealed for Ethiopian {
    #[inline]
    fn chosen(&self) -> Chosen {
        Chosen::published(match self.0 {
            EthiopianEraStyle::AmeteMihret => codes::ETHIOPIC,
            EthiopianEraStyle::AmeteAlem => codes::ETHIOAA,
        })
    }
}

impl Calendar for Ethiopian {
    type DateInner = DateInner<Ethiopian>;
    type Year = EraYear;
    type DateCompatibilityError = Infallible;

    /// Returns `Ok`: both styles name the same months and days.
    fn check_date_compatibility(&self, _: &Self) -> Result<(), Infallible> {
        Ok(())
    }

    fn calendar_algorithm(&self) -> Option<CalendarAlgorithm> {
        Some(match self.0 {
            EthiopianEraStyle::AmeteMihret => CalendarAlgorithm::Ethiopic,
            EthiopianEraStyle::AmeteAlem => CalendarAlgorithm::Ethioaa,
        })
    }

    fn debug_name(&self) -> &'static str {
        match self.0 {
            EthiopianEraStyle::AmeteMihret => "Ethiopian",
            EthiopianEraStyle::AmeteAlem => "Ethiopian (Amete Alem)",
        }
    }
}
