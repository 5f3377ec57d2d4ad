//! Years, as callers pass them and as dates return them.

use super::tiny::TinyAsciiStr;

/// A year in the form that date constructors take.
///
/// # Examples
///
/// ```
/// use icu_calendar::types::{Month, YearInput};
/// use icu_calendar::{Date, Gregorian};
///
/// # fn main() -> Result<(), Box<dyn std::error::Error>> {
/// let ides = Date::try_new(YearInput::EraYear("bce", 44), Month::new(3), 15, Gregorian)?;
/// assert_eq!(ides, Date::try_new((-43).into(), Month::new(3), 15, Gregorian)?);
/// # Ok(())
/// # }
/// ```
#[derive(Clone, Copy, Debug, PartialEq, Eq, Hash)]
pub enum YearInput<'a> {
    /// The extended year, which numbers a calendar's years without eras.
    Extended(i32),
    /// An era's code and an era year.
    EraYear(&'a str, i32),
}

/// Returns the number as an extended year.
impl<'a> From<i32> for YearInput<'a> {
    fn from(year: i32) -> YearInput<'a> {
        YearInput::Extended(year)
    }
}

/// How much of a year and its era a reader needs in order to know the year.
///
/// # Examples
///
/// ```
/// use icu_calendar::types::YearAmbiguity;
/// use icu_calendar::Date;
///
/// # fn main() -> Result<(), Box<dyn std::error::Error>> {
/// let ides = Date::try_new_gregorian(-43, 3, 15)?;
/// assert_eq!(ides.era_year().ambiguity, YearAmbiguity::EraAndCenturyRequired);
/// # Ok(())
/// # }
/// ```
#[derive(Clone, Copy, Debug, PartialEq, Eq, Hash)]
pub enum YearAmbiguity {
    /// The last two digits are enough.
    Unambiguous,
    /// The whole number is needed.
    CenturyRequired,
    /// The era is needed.
    EraRequired,
    /// The whole number and the era are needed.
    EraAndCenturyRequired,
}

/// A year in an era.
///
/// # Examples
///
/// ```
/// use icu_calendar::Date;
///
/// # fn main() -> Result<(), Box<dyn std::error::Error>> {
/// let year = Date::try_new_gregorian(-43, 3, 15)?.era_year();
/// assert_eq!((year.year, year.extended_year), (44, -43));
/// assert_eq!(year.era, "bce");
/// # Ok(())
/// # }
/// ```
#[derive(Clone, Copy, Debug, PartialEq, Eq, Hash)]
pub struct EraYear {
    /// The era year.
    pub year: i32,
    /// The extended year, which numbers the calendar's years without eras.
    pub extended_year: i32,
    /// The era's code: CLDR's (UTS 35), if CLDR defines one.
    pub era: TinyAsciiStr<16>,
    /// The era's index among the calendar's eras, if it has one.
    pub era_index: Option<u8>,
    /// How much of the year and era a reader needs.
    pub ambiguity: YearAmbiguity,
}

/// A year of the cycle of sixty years.
///
/// # Examples
///
/// ```
/// use icu_calendar::cal::ChineseTraditional;
/// use icu_calendar::Date;
///
/// # fn main() -> Result<(), Box<dyn std::error::Error>> {
/// let new_year = Date::try_new_iso(2024, 2, 10)?.to_calendar(ChineseTraditional::new());
/// assert_eq!((new_year.cyclic_year().year, new_year.cyclic_year().related_iso), (41, 2024));
/// # Ok(())
/// # }
/// ```
#[derive(Clone, Copy, Debug, PartialEq, Eq, Hash)]
pub struct CyclicYear {
    /// The year in the cycle, from 1 to 60.
    pub year: u8,
    /// The ISO year in which the year begins.
    pub related_iso: i32,
}

/// A date's year, in an era or in the cycle of sixty years.
///
/// # Examples
///
/// ```
/// use icu_calendar::types::YearInfo;
/// use icu_calendar::Date;
///
/// # fn main() -> Result<(), Box<dyn std::error::Error>> {
/// let date = Date::try_new_iso(2024, 3, 1)?.to_any();
/// match date.year() {
///     YearInfo::Era(year) => assert_eq!(year.year, 2024),
///     YearInfo::Cyclic(year) => panic!("a year of the cycle: {}", year.year),
/// }
/// # Ok(())
/// # }
/// ```
#[derive(Clone, Copy, Debug, PartialEq, Eq, Hash)]
pub enum YearInfo {
    /// A year in an era.
    Era(EraYear),
    /// A year in the cycle of sixty years.
    Cyclic(CyclicYear),
}

impl YearInfo {
    /// Returns the era year, or the ISO year in which a year of the cycle begins.
    ///
    /// # Examples
    ///
    /// ```
    /// use icu_calendar::Date;
    /// use icu_calendar::cal::Buddhist;
    /// use icu_calendar::types::RataDie;
    ///
    /// let date = Date::from_rata_die(RataDie::new(738946), Buddhist);
    /// assert!(date.year().era_year_or_related_iso() == 2567);
    /// ```
    pub fn era_year_or_related_iso(self) -> i32 {
        match self {
            YearInfo::Era(era) => era.year,
            YearInfo::Cyclic(cyclic) => cyclic.related_iso,
        }
    }

    /// Returns the extended year. For a year of the cycle it's the ISO year in which it begins.
    ///
    /// # Examples
    ///
    /// ```
    /// use icu_calendar::{Date, Iso};
    /// use icu_calendar::types::RataDie;
    ///
    /// let date = Date::from_rata_die(RataDie::new(738946), Iso);
    /// assert!(date.year().extended_year() == 2024);
    /// ```
    pub fn extended_year(self) -> i32 {
        match self {
            YearInfo::Era(era) => era.extended_year,
            YearInfo::Cyclic(cyclic) => cyclic.related_iso,
        }
    }

    /// Returns the year in an era, or `None` exactly for a year of the cycle.
    ///
    /// # Examples
    ///
    /// ```
    /// use icu_calendar::Date;
    /// use icu_calendar::cal::Buddhist;
    /// use icu_calendar::types::RataDie;
    ///
    /// # fn main() -> Result<(), Box<dyn std::error::Error>> {
    /// let year = Date::from_rata_die(RataDie::new(738946), Buddhist).year();
    /// assert_eq!(year.era().unwrap().year, 2567);
    /// # Ok(())
    /// # }
    /// ```
    pub fn era(self) -> Option<EraYear> {
        match self {
            YearInfo::Era(era) => Some(era),
            YearInfo::Cyclic(_) => None,
        }
    }

    /// Returns the year in the cycle, or `None` exactly for a year in an era.
    ///
    /// # Examples
    ///
    /// ```
    /// use icu_calendar::Date;
    /// use icu_calendar::cal::ChineseTraditional;
    /// use icu_calendar::types::RataDie;
    ///
    /// # fn main() -> Result<(), Box<dyn std::error::Error>> {
    /// let year = Date::from_rata_die(RataDie::new(738946), ChineseTraditional::new()).year();
    /// assert_eq!(year.cyclic().unwrap().year, 41); // of 2024
    /// # Ok(())
    /// # }
    /// ```
    pub fn cyclic(self) -> Option<CyclicYear> {
        match self {
            YearInfo::Era(_) => None,
            YearInfo::Cyclic(cyclic) => Some(cyclic),
        }
    }
}

/// Returns the year as [`YearInfo::Era`].
impl From<EraYear> for YearInfo {
    fn from(era: EraYear) -> YearInfo {
        YearInfo::Era(era)
    }
}

/// Returns the year as [`YearInfo::Cyclic`].
impl From<CyclicYear> for YearInfo {
    fn from(cyclic: CyclicYear) -> YearInfo {
        YearInfo::Cyclic(cyclic)
    }
}
