//! The Chinese and the Korean calendar, and the rules that tell them apart.
//!
//! # Examples
//!
//! ```
//! use icu_calendar::cal::east_asian_traditional::{ChineseTraditional, KoreanTraditional};
//! use icu_calendar::Date;
//!
//! # fn main() -> Result<(), Box<dyn std::error::Error>> {
//! let date = Date::try_new_iso(2024, 2, 10)?;
//! assert_eq!(date.to_calendar(ChineseTraditional::new()).day_of_year().0, 1);
//! assert_eq!(date.to_calendar(KoreanTraditional::new()).day_of_year().0, 1);
//! # Ok(())
//! # }
//! ```

use crate::calendar::{Calendar, Sealed};
use crate::date_inner::DateInner;
use crate::engine::{codes, Chosen};
use crate::preferences::CalendarAlgorithm;
use crate::types::CyclicYear;
use core::convert::Infallible;
use core::fmt::Debug;

/// A calendar of moons with leap months, by its rules `R`: [`China`] or [`Korea`].
///
/// # Examples
///
/// ```
/// use icu_calendar::cal::east_asian_traditional::{ChineseTraditional, EastAsianTraditional};
/// use icu_calendar::cal::east_asian_traditional::China;
///
/// assert_eq!(EastAsianTraditional(China::default()), ChineseTraditional::new());
/// ```
#[derive(Clone, Copy, Debug, Default, PartialEq, Eq, PartialOrd, Ord, Hash)]
pub struct EastAsianTraditional<R>(pub R);

/// The Chinese calendar: the published years from 1912 to 2099, and computed ones beyond.
///
/// # Examples
///
/// ```
/// use icu_calendar::cal::ChineseTraditional;
/// use icu_calendar::Date;
///
/// # fn main() -> Result<(), Box<dyn std::error::Error>> {
/// let date = Date::try_new_iso(2023, 3, 22)?.to_calendar(ChineseTraditional::new());
/// assert!(date.month().is_leap());
/// # Ok(())
/// # }
/// ```
pub type ChineseTraditional = EastAsianTraditional<China>;

/// The Korean calendar (Dangi): the published years from 1912 to 2097, and computed ones beyond.
///
/// # Examples
///
/// ```
/// use icu_calendar::cal::KoreanTraditional;
/// use icu_calendar::Date;
///
/// # fn main() -> Result<(), Box<dyn std::error::Error>> {
/// let date = Date::try_new_iso(2024, 9, 17)?.to_calendar(KoreanTraditional::new());
/// assert_eq!((date.month().number(), date.day_of_month().0), (8, 15));
/// # Ok(())
/// # }
/// ```
pub type KoreanTraditional = EastAsianTraditional<Korea>;

/// The rules of the Chinese calendar.
///
/// # Examples
///
/// ```
/// use icu_calendar::cal::east_asian_traditional::{China, EastAsianTraditional};
/// use icu_calendar::Calendar;
///
/// assert_eq!(EastAsianTraditional(China::default()).debug_name(), "Chinese");
/// ```
#[derive(Clone, Copy, Debug, Default, PartialEq, Eq, PartialOrd, Ord, Hash)]
pub struct China(());

/// The rules of the Korean calendar.
///
/// # Examples
///
/// ```
/// use icu_calendar::cal::east_asian_traditional::{EastAsianTraditional, Korea};
/// use icu_calendar::Calendar;
///
/// assert_eq!(EastAsianTraditional(Korea::default()).debug_name(), "Korean");
/// ```
#[derive(Clone, Copy, Debug, Default, PartialEq, Eq, PartialOrd, Ord, Hash)]
pub struct Korea(());

/// The rules of a calendar of this kind. The trait is sealed.
///
/// # Examples
///
/// ```
/// use icu_calendar::cal::east_asian_traditional::{EastAsianTraditional, Rules};
/// use icu_calendar::cal::KoreanTraditional;
/// use icu_calendar::Date;
///
/// fn is_new_year<R: Rules>(date: &Date<EastAsianTraditional<R>>) -> bool {
///     date.day_of_year().0 == 1
/// }
///
/// # fn main() -> Result<(), Box<dyn std::error::Error>> {
/// assert!(is_new_year(&Date::try_new_iso(2024, 2, 10)?.to_calendar(KoreanTraditional::new())));
/// # Ok(())
/// # }
/// ```
pub trait Rules: Copy + Debug + Sealed {
    #[doc(hidden)]
    const ALGORITHM: CalendarAlgorithm;

    #[doc(hidden)]
    const NAME: &'static str;
}

impl EastAsianTraditional<China> {
    /// Returns the Chinese calendar.
    ///
    /// # Examples
    ///
    /// ```
    /// use icu_calendar::cal::ChineseTraditional;
    ///
    /// assert_eq!(ChineseTraditional::new(), ChineseTraditional::default());
    /// ```
    pub const fn new() -> ChineseTraditional {
        EastAsianTraditional(China(()))
    }
}

impl EastAsianTraditional<Korea> {
    /// Returns the Korean calendar.
    ///
    /// # Examples
    ///
    /// ```
    /// use icu_calendar::cal::KoreanTraditional;
    ///
    /// assert_eq!(KoreanTraditional::new(), KoreanTraditional::default());
    /// ```
    pub const fn new() -> KoreanTraditional {
        EastAsianTraditional(Korea(()))
    }
}

impl Sealed for China {
    #[inline]
    fn chosen(&self) -> Chosen {
        Chosen::published(codes::CHINESE)
    }
}

impl Rules for China {
    const ALGORITHM: CalendarAlgorithm = CalendarAlgorithm::Chinese;
    const NAME: &'static str = "Chinese";
}

impl Sealed for Korea {
    #[inline]
    fn chosen(&self) -> Chosen {
        Chosen::published(codes::DANGI)
    }
}

impl Rules for Korea {
    const ALGORITHM: CalendarAlgorithm = CalendarAlgorithm::Dangi;
    const NAME: &'static str = "Korean";
}

impl<R: Rules> Sealed for EastAsianTraditional<R> {
    #[inline]
    fn chosen(&self) -> Chosen {
        self.0.chosen()
    }
}

impl<R: Rules> Calendar for EastAsianTraditional<R> {
    type DateInner = DateInner<EastAsianTraditional<R>>;
    type Year = CyclicYear;
    type DateCompatibilityError = Infallible;

    fn check_date_compatibility(&self, _: &Self) -> Result<(), Infallible> {
        Ok(())
    }

    fn calendar_algorithm(&self) -> Option<CalendarAlgorithm> {
        Some(R::ALGORITHM)
    }

    fn debug_name(&self) -> &'static str {
        R::NAME
    }
}
