//! Calendars with computed years only.

use crate::calendar::{Calendar, Sealed};
use crate::date_inner::DateInner;
use crate::engine::Chosen;
use crate::preferences::CalendarAlgorithm;

/// A calendar with computed years only, in which no published year replaces one: mean moons in the Chinese and the
/// Korean calendar, tabular years in the one of Umm al-Qura, and the rule of 33 years in the Persian one. The program
/// `calspan` counts so if it is given no rows.
///
/// # Examples
///
/// ```
/// use icu_calendar::cal::{ChineseTraditional, Computed};
/// use icu_calendar::types::Month;
/// use icu_calendar::Date;
///
/// # fn main() -> Result<(), Box<dyn std::error::Error>> {
/// let published = Date::try_new(2023.into(), Month::new(1), 1, ChineseTraditional::new())?;
/// let computed = Date::try_new(2023.into(), Month::new(1), 1, Computed(ChineseTraditional::new()))?;
/// assert_eq!(computed.to_rata_die() - published.to_rata_die(), 29);
/// # Ok(())
/// # }
/// ```
#[derive(Clone, Copy, Debug, Default, PartialEq, Eq, PartialOrd, Ord, Hash)]
pub struct Computed<C>(pub C);

impl<C: Calendar> Sealed for Computed<C> {
    #[inline]
    fn chosen(&self) -> Chosen {
        self.0.chosen().computed()
    }
}

impl<C: Calendar> Calendar for Computed<C> {
    type DateInner = DateInner<Computed<C>>;
    type Year = C::Year;
    type DateCompatibilityError = C::DateCompatibilityError;

    fn check_date_compatibility(&self, other: &Self) -> Result<(), C::DateCompatibilityError> {
        self.0.check_date_compatibility(&other.0)
    }

    fn calendar_algorithm(&self) -> Option<CalendarAlgorithm> {
        self.0.calendar_algorithm()
    }

    fn debug_name(&self) -> &'static str {
        self.0.debug_name()
    }
}
