//! The calendars without anything to choose.

use crate::calendar::{Calendar, Sealed};
use crate::date_inner::DateInner;
use crate::engine::{codes, Chosen};
use crate::preferences::CalendarAlgorithm;
use crate::types::EraYear;
use core::convert::Infallible;

/// Makes a calendar without anything to choose: its code, its algorithm and its name.
macro_rules! calendar {
    ($(#[$docs:meta])* $name:ident, $code:ident, $algorithm:expr, $debug_name:literal) => {
        $(#[$docs])*
        #[derive(Clone, Copy, Debug, Default, PartialEq, Eq, PartialOrd, Ord, Hash)]
        pub struct $name;

        impl $name {
            /// Returns the calendar.
            ///
            /// # Examples
            ///
            /// ```
            #[doc = concat!("use icu_calendar::cal::", stringify!($name), ";")]
            ///
            #[doc = concat!("assert_eq!(", stringify!($name), "::new(), ", stringify!($name), ");")]
            /// ```
            pub const fn new() -> $name {
                $name
            }
        }

        impl Sealed for $name {
            #[inline]
            fn chosen(&self) -> Chosen {
                Chosen::published(codes::$code)
            }
        }

        impl Calendar for $name {
            type DateInner = DateInner<$name>;
            type Year = EraYear;
            type DateCompatibilityError = Infallible;

            fn check_date_compatibility(&self, _: &Self) -> Result<(), Infallible> {
                Ok(())
            }

            fn calendar_algorithm(&self) -> Option<CalendarAlgorithm> {
                $algorithm
            }

            fn debug_name(&self) -> &'static str {
                $debug_name
            }
        }
    };
}

calendar!(
    /// The ISO calendar: the proleptic Gregorian one, with a single era. (ISO 8601)
    ///
    /// # Examples
    ///
    /// ```
    /// use icu_calendar::Date;
    ///
    /// # fn main() -> Result<(), Box<dyn std::error::Error>> {
    /// let date = Date::try_new_iso(2024, 3, 1)?;
    /// assert_eq!(format!("{date:?}"), "Date(2024-3-1, default era, for calendar ISO)");
    /// # Ok(())
    /// # }
    /// ```
    Iso, ISO, None, "ISO"
);

calendar!(
    /// The proleptic Gregorian calendar, with the eras `ce` and `bce`.
    ///
    /// # Examples
    ///
    /// ```
    /// use icu_calendar::{Date, Gregorian};
    ///
    /// # fn main() -> Result<(), Box<dyn std::error::Error>> {
    /// let date = Date::try_new_iso(-43, 3, 13)?.to_calendar(Gregorian);
    /// assert_eq!((date.era_year().year, date.era_year().era.as_str()), (44, "bce"));
    /// # Ok(())
    /// # }
    /// ```
    Gregorian, GREGORIAN, Some(CalendarAlgorithm::Gregory), "Gregorian"
);

calendar!(
    /// The proleptic Julian calendar, with the eras `ce` and `bce`.
    ///
    /// # Examples
    ///
    /// ```
    /// use icu_calendar::cal::Julian;
    /// use icu_calendar::Date;
    ///
    /// # fn main() -> Result<(), Box<dyn std::error::Error>> {
    /// let date = Date::try_new_iso(1582, 10, 15)?.to_calendar(Julian);
    /// assert_eq!(date.day_of_month().0, 5);
    /// # Ok(())
    /// # }
    /// ```
    Julian, JULIAN, None, "Julian"
);

calendar!(
    /// The Thai solar calendar, whose years are 543 ahead of the Gregorian ones, with the era `be`.
    ///
    /// # Examples
    ///
    /// ```
    /// use icu_calendar::cal::Buddhist;
    /// use icu_calendar::Date;
    ///
    /// # fn main() -> Result<(), Box<dyn std::error::Error>> {
    /// assert_eq!(Date::try_new_iso(2024, 3, 1)?.to_calendar(Buddhist).era_year().year, 2567);
    /// # Ok(())
    /// # }
    /// ```
    Buddhist, BUDDHIST, Some(CalendarAlgorithm::Buddhist), "Buddhist"
);

calendar!(
    /// The calendar of the Republic of China (Minguo), with the eras `roc` and `broc`.
    ///
    /// # Examples
    ///
    /// ```
    /// use icu_calendar::cal::Roc;
    /// use icu_calendar::Date;
    ///
    /// # fn main() -> Result<(), Box<dyn std::error::Error>> {
    /// assert_eq!(Date::try_new_iso(2024, 3, 1)?.to_calendar(Roc).era_year().year, 113);
    /// # Ok(())
    /// # }
    /// ```
    Roc, ROC, Some(CalendarAlgorithm::Roc), "ROC"
);

calendar!(
    /// The Japanese calendar, with the eras from Meiji to Reiwa. Years before 1873 are in `ce` and `bce`.
    ///
    /// # Examples
    ///
    /// ```
    /// use icu_calendar::cal::Japanese;
    /// use icu_calendar::Date;
    ///
    /// # fn main() -> Result<(), Box<dyn std::error::Error>> {
    /// let year = Date::try_new_iso(2024, 3, 1)?.to_calendar(Japanese::new()).era_year();
    /// assert_eq!((year.year, year.era.as_str()), (6, "reiwa"));
    /// # Ok(())
    /// # }
    /// ```
    Japanese, JAPANESE, Some(CalendarAlgorithm::Japanese), "Japanese"
);

calendar!(
    /// The Hebrew calendar, with the era `am`. `M01` is Tishri, and `M05L` is Adar I.
    ///
    /// # Examples
    ///
    /// ```
    /// use icu_calendar::cal::Hebrew;
    /// use icu_calendar::types::Month;
    /// use icu_calendar::Date;
    ///
    /// # fn main() -> Result<(), Box<dyn std::error::Error>> {
    /// let date = Date::try_new_iso(2024, 3, 1)?.to_calendar(Hebrew);
    /// assert_eq!(date.month().to_input(), Month::leap(5));
    /// # Ok(())
    /// # }
    /// ```
    Hebrew, HEBREW, Some(CalendarAlgorithm::Hebrew), "Hebrew"
);

calendar!(
    /// The Persian (Solar Hijri) calendar, with the era `ap`. Its leap years follow a rule of 33 years with the 78
    /// published corrections of the years 1502 to 2987.
    ///
    /// # Examples
    ///
    /// ```
    /// use icu_calendar::cal::Persian;
    /// use icu_calendar::Date;
    ///
    /// # fn main() -> Result<(), Box<dyn std::error::Error>> {
    /// assert_eq!(Date::try_new_iso(2024, 3, 20)?.to_calendar(Persian).era_year().year, 1403);
    /// # Ok(())
    /// # }
    /// ```
    Persian, PERSIAN, Some(CalendarAlgorithm::Persian), "Persian"
);

calendar!(
    /// The Indian national calendar, with the era `shaka`.
    ///
    /// # Examples
    ///
    /// ```
    /// use icu_calendar::cal::Indian;
    /// use icu_calendar::Date;
    ///
    /// # fn main() -> Result<(), Box<dyn std::error::Error>> {
    /// assert_eq!(Date::try_new_iso(2024, 3, 1)?.to_calendar(Indian).era_year().year, 1945);
    /// # Ok(())
    /// # }
    /// ```
    Indian, INDIAN, Some(CalendarAlgorithm::Indian), "Indian"
);

calendar!(
    /// The Coptic calendar of thirteen months, with the era `am`.
    ///
    /// # Examples
    ///
    /// ```
    /// use icu_calendar::cal::Coptic;
    /// use icu_calendar::Date;
    ///
    /// # fn main() -> Result<(), Box<dyn std::error::Error>> {
    /// assert_eq!(Date::try_new_iso(2024, 3, 1)?.to_calendar(Coptic).era_year().year, 1740);
    /// # Ok(())
    /// # }
    /// ```
    Coptic, COPTIC, Some(CalendarAlgorithm::Coptic), "Coptic"
);

impl Gregorian {
    /// Returns the date of Easter in a year of the Gregorian calendar.
    ///
    /// # Examples
    ///
    /// ```
    /// use icu_calendar::{Date, Gregorian};
    ///
    /// # fn main() -> Result<(), Box<dyn std::error::Error>> {
    /// assert_eq!(Gregorian::easter(2024), Date::try_new_gregorian(2024, 3, 31)?);
    /// # Ok(())
    /// # }
    /// ```
    pub fn easter(year: i32) -> crate::Date<Gregorian> {
        crate::Date::from_rata_die(crate::engine::easter(false, year), Gregorian)
    }
}

impl Julian {
    /// Returns the date of Orthodox Easter in a year of the Julian calendar.
    ///
    /// # Examples
    ///
    /// ```
    /// use icu_calendar::cal::Julian;
    /// use icu_calendar::Date;
    ///
    /// # fn main() -> Result<(), Box<dyn std::error::Error>> {
    /// assert_eq!(Julian::easter(2024).to_iso(), Date::try_new_iso(2024, 5, 5)?);
    /// # Ok(())
    /// # }
    /// ```
    pub fn easter(year: i32) -> crate::Date<Julian> {
        crate::Date::from_rata_die(crate::engine::easter(true, year), Julian)
    }
}
