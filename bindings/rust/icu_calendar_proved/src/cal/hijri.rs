//! The Hijri calendars, and the rules that tell them apart.
//!
//! # Examples
//!
//! ```
//! use icu_calendar::cal::hijri::{TabularAlgorithmEpoch, TabularAlgorithmLeapYears};
//! use icu_calendar::cal::Hijri;
//! use icu_calendar::Date;
//!
//! # fn main() -> Result<(), Box<dyn std::error::Error>> {
//! let civil = Hijri::new_tabular(TabularAlgorithmLeapYears::TypeII, TabularAlgorithmEpoch::Friday);
//! let date = Date::try_new_iso(2023, 8, 17)?.to_calendar(civil);
//! assert_eq!((date.month().ordinal, date.day_of_month().0), (1, 30));
//! let date = date.to_calendar(Hijri::new_umm_al_qura());
//! assert_eq!((date.month().ordinal, date.day_of_month().0), (2, 1));
//! # Ok(())
//! # }
//! ```

use crate::any_calendar::AnyCalendarKind;
use crate::calendar::{Calendar, Sealed};
use crate::date_inner::DateInner;
use crate::engine::{codes, Chosen};
use crate::error::MismatchedCalendarError;
use crate::preferences::{CalendarAlgorithm, HijriCalendarAlgorithm};
use crate::types::EraYear;
use core::convert::Infallible;
use core::fmt::Debug;

/// A Hijri calendar, by its rules `S`: [`UmmAlQura`], [`TabularAlgorithm`] or [`AstronomicalSimulation`].
///
/// # Examples
///
/// ```
/// use icu_calendar::cal::hijri::UmmAlQura;
/// use icu_calendar::cal::Hijri;
///
/// assert_eq!(Hijri(UmmAlQura), Hijri::new_umm_al_qura());
/// ```
#[derive(Clone, Copy, Debug, Default, PartialEq, Eq, PartialOrd, Ord, Hash)]
pub struct Hijri<S>(pub S);

/// The rules of a Hijri calendar. The trait is sealed.
///
/// # Examples
///
/// ```
/// use icu_calendar::cal::hijri::Rules;
/// use icu_calendar::cal::Hijri;
/// use icu_calendar::{Calendar, Date};
///
/// fn name<R: Rules>(date: &Date<Hijri<R>>) -> &'static str {
///     date.calendar().debug_name()
/// }
///
/// # fn main() -> Result<(), Box<dyn std::error::Error>> {
/// let date = Date::try_new_iso(2024, 3, 11)?.to_calendar(Hijri::new_umm_al_qura());
/// assert_eq!(name(&date), "Hijri (Umm al-Qura)");
/// # Ok(())
/// # }
/// ```
pub trait Rules: Copy + Debug + Sealed {
    /// The error for two calendars of these rules whose dates can't be compared.
    type DateCompatibilityError: Debug;

    #[doc(hidden)]
    fn check_compatibility(&self, other: &Self) -> Result<(), Self::DateCompatibilityError>;

    #[doc(hidden)]
    fn algorithm(&self) -> Option<HijriCalendarAlgorithm>;

    #[doc(hidden)]
    fn name(&self) -> &'static str;
}

impl<R: Rules> Sealed for Hijri<R> {
    #[inline]
    fn chosen(&self) -> Chosen {
        self.0.chosen()
    }
}

impl<R: Rules> Calendar for Hijri<R> {
    type DateInner = DateInner<Hijri<R>>;
    type Year = EraYear;
    type DateCompatibilityError = R::DateCompatibilityError;

    fn check_date_compatibility(&self, other: &Self) -> Result<(), R::DateCompatibilityError> {
        self.0.check_compatibility(&other.0)
    }

    fn calendar_algorithm(&self) -> Option<CalendarAlgorithm> {
        self.0
            .algorithm()
            .map(|kind| CalendarAlgorithm::Hijri(Some(kind)))
    }

    fn debug_name(&self) -> &'static str {
        self.0.name()
    }
}

/// The years of Umm al-Qura: the published ones from 1300 to 1600, and tabular ones beyond.
///
/// # Examples
///
/// ```
/// use icu_calendar::cal::hijri::UmmAlQura;
///
/// assert_eq!(UmmAlQura::default(), UmmAlQura);
/// ```
#[derive(Clone, Copy, Debug, Default, PartialEq, Eq, PartialOrd, Ord, Hash)]
pub struct UmmAlQura;

/// The rules of the calendar that is meant to simulate Mecca's moon. Its years are tabular ones here.
///
/// # Examples
///
/// ```
/// use icu_calendar::cal::hijri::AstronomicalSimulation;
/// use icu_calendar::cal::Hijri;
///
/// assert_eq!(Hijri::new_simulated_mecca().0, AstronomicalSimulation::default());
/// ```
#[derive(Clone, Copy, Debug, Default, PartialEq, Eq, PartialOrd, Ord, Hash)]
pub struct AstronomicalSimulation(());

/// Years by a table of eleven leap years in thirty, from an epoch.
///
/// # Examples
///
/// ```
/// use icu_calendar::cal::hijri::{TabularAlgorithm, TabularAlgorithmEpoch, TabularAlgorithmLeapYears};
/// use icu_calendar::cal::Hijri;
///
/// let rules = TabularAlgorithm::new(TabularAlgorithmLeapYears::TypeII, TabularAlgorithmEpoch::Thursday);
/// assert_ne!(Hijri(rules), Hijri::new_tabular(TabularAlgorithmLeapYears::TypeII, TabularAlgorithmEpoch::Friday));
/// ```
#[derive(Clone, Copy, Debug, PartialEq, Eq, PartialOrd, Ord, Hash)]
pub struct TabularAlgorithm {
    leap_years: TabularAlgorithmLeapYears,
    epoch: TabularAlgorithmEpoch,
}

/// The leap years of a tabular calendar.
///
/// # Examples
///
/// ```
/// use icu_calendar::cal::hijri::{TabularAlgorithmEpoch, TabularAlgorithmLeapYears};
/// use icu_calendar::cal::Hijri;
/// use icu_calendar::Date;
///
/// # fn main() -> Result<(), Box<dyn std::error::Error>> {
/// let type_i = Hijri::new_tabular(TabularAlgorithmLeapYears::TypeI, TabularAlgorithmEpoch::Friday);
/// assert!(Date::try_new_hijri_with_calendar(1425, 1, 1, type_i)?.is_in_leap_year());
/// # Ok(())
/// # }
/// ```
#[derive(Clone, Copy, Debug, PartialEq, Eq, PartialOrd, Ord, Hash)]
pub enum TabularAlgorithmLeapYears {
    /// The years 2, 5, 7, 10, 13, 16, 18, 21, 24, 26 and 29 of thirty.
    TypeII,
    /// The years 2, 5, 7, 10, 13, 15, 18, 21, 24, 26 and 29 of thirty.
    TypeI,
}

/// The epoch of a tabular calendar: the first day of its year 1.
///
/// # Examples
///
/// ```
/// use icu_calendar::cal::hijri::{TabularAlgorithmEpoch, TabularAlgorithmLeapYears};
/// use icu_calendar::cal::{Hijri, Julian};
/// use icu_calendar::Date;
///
/// # fn main() -> Result<(), Box<dyn std::error::Error>> {
/// let civil = Hijri::new_tabular(TabularAlgorithmLeapYears::TypeII, TabularAlgorithmEpoch::Friday);
/// let first = Date::try_new_hijri_with_calendar(1, 1, 1, civil)?;
/// assert_eq!(first.to_calendar(Julian), Date::try_new_julian(622, 7, 16)?);
/// # Ok(())
/// # }
/// ```
#[derive(Clone, Copy, Debug, PartialEq, Eq, PartialOrd, Ord, Hash)]
pub enum TabularAlgorithmEpoch {
    /// Thursday, 15 July 622 in the Julian calendar.
    Thursday,
    /// Friday, 16 July 622 in the Julian calendar.
    Friday,
}

impl TabularAlgorithm {
    /// Returns the rules with leap years of a type, from an epoch.
    ///
    /// # Examples
    ///
    /// ```
    /// use icu_calendar::cal::hijri::{TabularAlgorithm, TabularAlgorithmEpoch, TabularAlgorithmLeapYears};
    ///
    /// let rules = TabularAlgorithm::new(TabularAlgorithmLeapYears::TypeI, TabularAlgorithmEpoch::Friday);
    /// assert_eq!(rules, rules.clone());
    /// ```
    pub const fn new(
        leap_years: TabularAlgorithmLeapYears,
        epoch: TabularAlgorithmEpoch,
    ) -> TabularAlgorithm {
        TabularAlgorithm { leap_years, epoch }
    }

    /// Returns the kind of the calendar with these rules.
    pub(crate) fn kind(self) -> AnyCalendarKind {
        match (self.leap_years, self.epoch) {
            (TabularAlgorithmLeapYears::TypeII, TabularAlgorithmEpoch::Friday) => {
                AnyCalendarKind::HijriTabularTypeIIFriday
            }
            (TabularAlgorithmLeapYears::TypeII, TabularAlgorithmEpoch::Thursday) => {
                AnyCalendarKind::HijriTabularTypeIIThursday
            }
            (TabularAlgorithmLeapYears::TypeI, TabularAlgorithmEpoch::Friday) => {
                AnyCalendarKind::HijriTabularTypeIFriday
            }
            (TabularAlgorithmLeapYears::TypeI, TabularAlgorithmEpoch::Thursday) => {
                AnyCalendarKind::HijriTabularTypeIThursday
            }
        }
    }
}

impl Hijri<TabularAlgorithm> {
    /// Returns the tabular calendar with leap years of a type, from an epoch.
    ///
    /// # Examples
    ///
    /// ```
    /// use icu_calendar::cal::hijri::{TabularAlgorithmEpoch, TabularAlgorithmLeapYears};
    /// use icu_calendar::cal::Hijri;
    /// use icu_calendar::Date;
    ///
    /// # fn main() -> Result<(), Box<dyn std::error::Error>> {
    /// let civil = Hijri::new_tabular(TabularAlgorithmLeapYears::TypeII, TabularAlgorithmEpoch::Friday);
    /// assert_eq!(Date::try_new_iso(2023, 8, 18)?.to_calendar(civil).month().ordinal, 2);
    /// # Ok(())
    /// # }
    /// ```
    pub const fn new_tabular(
        leap_years: TabularAlgorithmLeapYears,
        epoch: TabularAlgorithmEpoch,
    ) -> Hijri<TabularAlgorithm> {
        Hijri(TabularAlgorithm::new(leap_years, epoch))
    }
}

impl Hijri<UmmAlQura> {
    /// Returns the calendar of Umm al-Qura.
    ///
    /// # Examples
    ///
    /// ```
    /// use icu_calendar::cal::Hijri;
    /// use icu_calendar::Date;
    ///
    /// # fn main() -> Result<(), Box<dyn std::error::Error>> {
    /// let ramadan = Date::try_new_hijri_with_calendar(1445, 9, 1, Hijri::new_umm_al_qura())?;
    /// assert_eq!(ramadan.to_iso(), Date::try_new_iso(2024, 3, 11)?);
    /// # Ok(())
    /// # }
    /// ```
    pub const fn new_umm_al_qura() -> Hijri<UmmAlQura> {
        Hijri(UmmAlQura)
    }
}

impl Hijri<AstronomicalSimulation> {
    /// Returns the calendar that is meant to simulate Mecca's moon. Its years are tabular ones here.
    ///
    /// # Examples
    ///
    /// ```
    /// use icu_calendar::cal::Hijri;
    /// use icu_calendar::Calendar;
    ///
    /// assert_eq!(Hijri::new_simulated_mecca().debug_name(), "Hijri (simulated, Mecca)");
    /// ```
    pub const fn new_simulated_mecca() -> Hijri<AstronomicalSimulation> {
        Hijri(AstronomicalSimulation(()))
    }
}

impl Sealed for UmmAlQura {
    #[inline]
    fn chosen(&self) -> Chosen {
        Chosen::published(codes::ISLAMIC_UMALQURA)
    }
}

impl Rules for UmmAlQura {
    type DateCompatibilityError = Infallible;

    fn check_compatibility(&self, _: &Self) -> Result<(), Infallible> {
        Ok(())
    }

    fn algorithm(&self) -> Option<HijriCalendarAlgorithm> {
        Some(HijriCalendarAlgorithm::Umalqura)
    }

    fn name(&self) -> &'static str {
        "Hijri (Umm al-Qura)"
    }
}

impl Sealed for AstronomicalSimulation {
    #[inline]
    fn chosen(&self) -> Chosen {
        Chosen::published(codes::ISLAMIC_SIMULATED)
    }
}

impl Rules for AstronomicalSimulation {
    type DateCompatibilityError = Infallible;

    fn check_compatibility(&self, _: &Self) -> Result<(), Infallible> {
        Ok(())
    }

    fn algorithm(&self) -> Option<HijriCalendarAlgorithm> {
        None
    }

    fn name(&self) -> &'static str {
        "Hijri (simulated, Mecca)"
    }
}

impl Sealed for TabularAlgorithm {
    #[inline]
    fn chosen(&self) -> Chosen {
        Chosen::published(match (self.leap_years, self.epoch) {
            (TabularAlgorithmLeapYears::TypeII, TabularAlgorithmEpoch::Friday) => {
                codes::ISLAMIC_CIVIL
            }
            (TabularAlgorithmLeapYears::TypeII, TabularAlgorithmEpoch::Thursday) => {
                codes::ISLAMIC_TBLA
            }
            (TabularAlgorithmLeapYears::TypeI, TabularAlgorithmEpoch::Friday) => {
                codes::ISLAMIC_TYPE1_FRIDAY
            }
            (TabularAlgorithmLeapYears::TypeI, TabularAlgorithmEpoch::Thursday) => {
                codes::ISLAMIC_TYPE1_THURSDAY
            }
        })
    }
}

impl Rules for TabularAlgorithm {
    type DateCompatibilityError = MismatchedCalendarError;

    fn check_compatibility(&self, other: &Self) -> Result<(), MismatchedCalendarError> {
        if self == other {
            Ok(())
        } else {
            Err(MismatchedCalendarError)
        }
    }

    fn algorithm(&self) -> Option<HijriCalendarAlgorithm> {
        match (self.leap_years, self.epoch) {
            (TabularAlgorithmLeapYears::TypeI, _) => None,
            (TabularAlgorithmLeapYears::TypeII, TabularAlgorithmEpoch::Thursday) => {
                Some(HijriCalendarAlgorithm::Tbla)
            }
            (TabularAlgorithmLeapYears::TypeII, TabularAlgorithmEpoch::Friday) => {
                Some(HijriCalendarAlgorithm::Civil)
            }
        }
    }

    fn name(&self) -> &'static str {
        match (self.leap_years, self.epoch) {
            (TabularAlgorithmLeapYears::TypeI, TabularAlgorithmEpoch::Thursday) => {
                "Hijri (Type I, Thursday)"
            }
            (TabularAlgorithmLeapYears::TypeI, TabularAlgorithmEpoch::Friday) => {
                "Hijri (Type I, Friday)"
            }
            (TabularAlgorithmLeapYears::TypeII, TabularAlgorithmEpoch::Thursday) => {
                "Hijri (astronomical)"
            }
            (TabularAlgorithmLeapYears::TypeII, TabularAlgorithmEpoch::Friday) => "Hijri (civil)",
        }
    }
}
