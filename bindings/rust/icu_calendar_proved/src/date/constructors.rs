//! Constructors for single calendars: a year from -9999 to 9999, a month and a day. Values out of range are rejected,
//! never adjusted.

use super::Date;
use crate::cal::hijri::Rules;
use crate::cal::{
    Buddhist, ChineseTraditional, Coptic, Ethiopian, EthiopianEraStyle, Gregorian, Hebrew, Hijri,
    Indian, Iso, Japanese, Julian, KoreanTraditional, Persian, Roc,
};
use crate::calendar::AsCalendar;
use crate::error::{DateError, LunisolarDateError, RangeError};
use crate::naming::{lunisolar, placed, placed_in_era};
use crate::types::Month;

/// Writes the constructor of a calendar in which a month is a number: its name, and a date that is 2024-03-01.
macro_rules! by_number {
    ($calendar:ident, $name:ident, $of:literal, $months:literal, $year:literal, $month:literal, $day:literal) => {
        impl Date<$calendar> {
            #[doc = concat!("Creates a date of the ", $of, " calendar from an extended year, a month and a day.")]
            ///
            /// # Errors
            ///
            #[doc = concat!(
                "- [`RangeError`] for the first field out of range: `\"year\"` from -9999 to 9999, `\"month\"` from 1 to ",
                $months, ", `\"day\"` from 1 to the month's length."
            )]
            ///
            /// # Examples
            ///
            /// ```
            /// use icu_calendar::Date;
            ///
            /// # fn main() -> Result<(), Box<dyn std::error::Error>> {
            #[doc = concat!("let date = Date::", stringify!($name), "(", $year, ", ", $month, ", ", $day, ")?;")]
            /// assert_eq!(date.to_iso(), Date::try_new_iso(2024, 3, 1)?);
            #[doc = concat!("assert!(Date::", stringify!($name), "(10000, 1, 1).is_err());")]
            /// # Ok(())
            /// # }
            /// ```
            pub fn $name(year: i32, month: u8, day: u8) -> Result<Date<$calendar>, RangeError> {
                placed(year, month, day, $calendar)
            }
        }
    };
}

by_number!(Iso, try_new_iso, "ISO", "12", "2024", "3", "1");
by_number!(
    Gregorian,
    try_new_gregorian,
    "Gregorian",
    "12",
    "2024",
    "3",
    "1"
);
by_number!(Julian, try_new_julian, "Julian", "12", "2024", "2", "17");
by_number!(
    Buddhist,
    try_new_buddhist,
    "Buddhist",
    "12",
    "2567",
    "3",
    "1"
);
by_number!(
    Roc,
    try_new_roc,
    "Republic of China's",
    "12",
    "113",
    "3",
    "1"
);
by_number!(Coptic, try_new_coptic, "Coptic", "13", "1740", "6", "22");
by_number!(Indian, try_new_indian, "Indian", "12", "1945", "12", "11");
by_number!(
    Persian,
    try_new_persian,
    "Persian",
    "12",
    "1402",
    "12",
    "11"
);

impl Date<Ethiopian> {
    /// Creates an Ethiopian date from a year in the style's era, a month and a day.
    ///
    /// # Errors
    ///
    /// - [`RangeError`] for the first field out of range: `"year"` from -9999 to 9999, `"month"` from 1 to 13, `"day"`
    ///   from 1 to the month's length.
    ///
    /// # Examples
    ///
    /// ```
    /// use icu_calendar::cal::EthiopianEraStyle;
    /// use icu_calendar::Date;
    ///
    /// # fn main() -> Result<(), Box<dyn std::error::Error>> {
    /// let date = Date::try_new_ethiopian(EthiopianEraStyle::AmeteMihret, 2016, 6, 22)?;
    /// assert_eq!(date.to_iso(), Date::try_new_iso(2024, 3, 1)?);
    /// # Ok(())
    /// # }
    /// ```
    pub fn try_new_ethiopian(
        era_style: EthiopianEraStyle,
        year: i32,
        month: u8,
        day: u8,
    ) -> Result<Date<Ethiopian>, RangeError> {
        placed(year, month, day, Ethiopian::new_with_era_style(era_style))
    }
}

impl<A: AsCalendar<Calendar = Hijri<R>>, R: Rules> Date<A> {
    /// Creates a Hijri date from a year, a month and a day, in a given calendar.
    ///
    /// # Errors
    ///
    /// - [`RangeError`] for the first field out of range: `"year"` from -9999 to 9999, `"month"` from 1 to 12, `"day"`
    ///   from 1 to the month's length.
    ///
    /// # Examples
    ///
    /// ```
    /// use icu_calendar::cal::Hijri;
    /// use icu_calendar::Date;
    ///
    /// # fn main() -> Result<(), Box<dyn std::error::Error>> {
    /// let date = Date::try_new_hijri_with_calendar(1445, 8, 20, Hijri::new_umm_al_qura())?;
    /// assert_eq!(date.to_iso(), Date::try_new_iso(2024, 3, 1)?);
    /// # Ok(())
    /// # }
    /// ```
    pub fn try_new_hijri_with_calendar(
        year: i32,
        month: u8,
        day: u8,
        calendar: A,
    ) -> Result<Date<A>, RangeError> {
        placed(year, month, day, calendar)
    }
}

impl Date<Hebrew> {
    /// Creates a Hebrew date from a year, a month and a day. `Month::leap(5)` is Adar I.
    ///
    /// # Errors
    ///
    /// - [`LunisolarDateError`] for the first invalid argument: the year isn't from -9999 to 9999, the month isn't one
    ///   of the calendar's or of this year's months, or the day isn't from 1 to the month's length.
    ///
    /// # Examples
    ///
    /// ```
    /// use icu_calendar::types::Month;
    /// use icu_calendar::Date;
    ///
    /// # fn main() -> Result<(), Box<dyn std::error::Error>> {
    /// let date = Date::try_new_hebrew_v2(5784, Month::leap(5), 21)?;
    /// assert_eq!(date.to_iso(), Date::try_new_iso(2024, 3, 1)?);
    /// # Ok(())
    /// # }
    /// ```
    pub fn try_new_hebrew_v2(
        year: i32,
        month: Month,
        day: u8,
    ) -> Result<Date<Hebrew>, LunisolarDateError> {
        lunisolar(year, month, day, Hebrew)
    }
}

impl Date<ChineseTraditional> {
    /// Creates a Chinese date from the ISO year in which its year begins, a month and a day.
    ///
    /// # Errors
    ///
    /// - [`LunisolarDateError`] for the first invalid argument: the year isn't from -9999 to 9999, the month isn't one
    ///   of the calendar's or of this year's months, or the day isn't from 1 to the month's length.
    ///
    /// # Examples
    ///
    /// ```
    /// use icu_calendar::types::Month;
    /// use icu_calendar::Date;
    ///
    /// # fn main() -> Result<(), Box<dyn std::error::Error>> {
    /// let date = Date::try_new_chinese_traditional(2024, Month::new(1), 21)?;
    /// assert_eq!(date.to_iso(), Date::try_new_iso(2024, 3, 1)?);
    /// # Ok(())
    /// # }
    /// ```
    pub fn try_new_chinese_traditional(
        related_iso_year: i32,
        month: Month,
        day: u8,
    ) -> Result<Date<ChineseTraditional>, LunisolarDateError> {
        lunisolar(related_iso_year, month, day, ChineseTraditional::new())
    }
}

impl Date<KoreanTraditional> {
    /// Creates a Korean date from the ISO year in which its year begins, a month and a day.
    ///
    /// # Errors
    ///
    /// - [`LunisolarDateError`] for the first invalid argument: the year isn't from -9999 to 9999, the month isn't one
    ///   of the calendar's or of this year's months, or the day isn't from 1 to the month's length.
    ///
    /// # Examples
    ///
    /// ```
    /// use icu_calendar::types::Month;
    /// use icu_calendar::Date;
    ///
    /// # fn main() -> Result<(), Box<dyn std::error::Error>> {
    /// let date = Date::try_new_korean_traditional(2024, Month::new(1), 21)?;
    /// assert_eq!(date.to_iso(), Date::try_new_iso(2024, 3, 1)?);
    /// # Ok(())
    /// # }
    /// ```
    pub fn try_new_korean_traditional(
        related_iso_year: i32,
        month: Month,
        day: u8,
    ) -> Result<Date<KoreanTraditional>, LunisolarDateError> {
        lunisolar(related_iso_year, month, day, KoreanTraditional::new())
    }
}

impl<A: AsCalendar<Calendar = Japanese>> Date<A> {
    /// Creates a Japanese date from the code of an era, a year of it, a month and a day. Any year from -9999 to 9999 is
    /// accepted; the date prints in its own era.
    ///
    /// # Errors
    ///
    /// The first of these that applies:
    ///
    /// - [`DateError::Range`] if the year isn't from -9999 to 9999.
    /// - [`DateError::UnknownEra`] if the calendar doesn't have the era.
    /// - [`DateError::Range`] if the month isn't from 1 to 12, or the day isn't from 1 to the month's length.
    ///
    /// # Examples
    ///
    /// ```
    /// use icu_calendar::cal::Japanese;
    /// use icu_calendar::Date;
    ///
    /// # fn main() -> Result<(), Box<dyn std::error::Error>> {
    /// let date = Date::try_new_japanese_with_calendar("reiwa", 6, 3, 1, Japanese::new())?;
    /// assert_eq!(date.to_iso(), Date::try_new_iso(2024, 3, 1)?);
    /// # Ok(())
    /// # }
    /// ```
    pub fn try_new_japanese_with_calendar(
        era: &str,
        year: i32,
        month: u8,
        day: u8,
        japanese_calendar: A,
    ) -> Result<Date<A>, DateError> {
        placed_in_era(era, year, month, day, japanese_calendar)
    }
}
