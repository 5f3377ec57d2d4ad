//! Dates.

mod arithmetic;
mod comparing;
mod constructors;
#[cfg(feature = "alloc")]
mod holding;
mod text;

use crate::cal::Iso;
use crate::calendar::{AsCalendar, Calendar, Ref, Sealed};
use crate::date_inner::HasParts;
use crate::error::{DateFromFieldsError, DateNewError};
use crate::options::DateFromFieldsOptions;
use crate::types::{
    CyclicYear, DateFields, DayOfMonth, DayOfYear, EraYear, IsoWeekOfYear, Month, MonthInfo,
    RataDie, Weekday, YearInfo, YearInput,
};
use crate::{engine, names};
use core::fmt;
pub use text::{DateRecord, IxdtfRecord};

/// A date together with its calendar, or a pointer to its calendar.
///
/// Its day number (rata die) is from -365242499 to 365242134, the years -999999 to 999999 of the ISO calendar.
/// Conversion to another calendar keeps the day number. Dates of one calendar are ordered by their day numbers. Adding
/// the difference to a second date, with [`Overflow::Constrain`](crate::options::Overflow::Constrain), returns the
/// second date.
///
/// To create one, use a constructor of its calendar ([`Date::try_new_iso`] and others), [`Date::try_new`],
/// [`Date::try_from_fields`], [`Date::from_rata_die`] or [`Date::to_calendar`].
///
/// # Examples
///
/// ```
/// use icu_calendar::cal::Hebrew;
/// use icu_calendar::types::Month;
/// use icu_calendar::{Date, Gregorian};
///
/// # fn main() -> Result<(), Box<dyn std::error::Error>> {
/// let purim = Date::try_new(5784.into(), Month::new(6), 14, Hebrew)?;
/// assert_eq!(purim.to_calendar(Gregorian), Date::try_new_gregorian(2024, 3, 24)?);
/// # Ok(())
/// # }
/// ```
pub struct Date<A: AsCalendar> {
    inner: <A::Calendar as Calendar>::DateInner,
    calendar: A,
}

impl<A: AsCalendar> Date<A> {
    /// Creates a date from an inner date of its calendar.
    #[inline]
    pub(crate) fn of_inner(inner: <A::Calendar as Calendar>::DateInner, calendar: A) -> Self {
        Date { inner, calendar }
    }

    /// Returns the calendar that the date holds.
    pub(crate) fn into_calendar(self) -> A {
        self.calendar
    }

    #[inline]
    pub(crate) fn day_number(&self) -> i64 {
        self.inner.parts().day_number()
    }

    /// Creates a date from a year, a month and a day. Values out of range are rejected, never adjusted.
    ///
    /// The year is an extended year, `2024.into()`, or an era year, `YearInput::EraYear("ce", 2024)`.
    ///
    /// # Errors
    ///
    /// The first of these that applies:
    ///
    /// - [`DateNewError::InvalidYear`] if the extended year or era year isn't from -9999 to 9999.
    /// - [`DateNewError::InvalidEra`] if the calendar doesn't have the era.
    /// - [`DateNewError::MonthNotInCalendar`] if the month isn't one of the calendar's months.
    /// - [`DateNewError::MonthNotInYear`] if the month doesn't occur in this year.
    /// - [`DateNewError::InvalidDay`] if the day isn't from 1 to the month's length; `max` is the month's length.
    ///
    /// # Examples
    ///
    /// ```
    /// use icu_calendar::cal::Hebrew;
    /// use icu_calendar::types::Month;
    /// use icu_calendar::Date;
    ///
    /// # fn main() -> Result<(), Box<dyn std::error::Error>> {
    /// let date = Date::try_new(5784.into(), Month::leap(5), 21, Hebrew)?;
    /// assert_eq!(date.to_rata_die().to_i64_date(), 738946); // 2024-03-01
    /// assert!(Date::try_new(5783.into(), Month::leap(5), 21, Hebrew).is_err());
    /// # Ok(())
    /// # }
    /// ```
    pub fn try_new(
        year: YearInput<'_>,
        month: Month,
        day: u8,
        calendar: A,
    ) -> Result<Self, DateNewError> {
        let inner = calendar.as_calendar().new_date(year, month, day)?;
        Ok(Date { inner, calendar })
    }

    /// Creates a date from fields. The default of the option `overflow` is
    /// [`Overflow::Reject`](crate::options::Overflow::Reject); the default of `missing_fields_strategy` is
    /// [`MissingFieldsStrategy::Reject`](crate::options::MissingFieldsStrategy::Reject).
    ///
    /// The year comes from `extended_year`, or from `era` and `era_year`; each number is from -1040000 to 1040000. The
    /// month comes from `month`, `month_code` or `ordinal_month`; an `ordinal_month` beside one of the others has to
    /// agree with it. (ECMAScript Temporal, `CalendarResolveFields`)
    ///
    /// # Errors
    ///
    /// The first of these that applies:
    ///
    /// - [`DateFromFieldsError::NotEnoughFields`] if the day or the month is missing. The strategy `Ecma` supplies day
    ///   1 if a year is named.
    /// - [`DateFromFieldsError::TooManyFields`] if both `month` and `month_code` are set.
    /// - For the year: [`DateFromFieldsError::NotEnoughFields`] for an era without an era year or an era year without
    ///   an era; [`DateFromFieldsError::Overflow`] for a year outside the range above;
    ///   [`DateFromFieldsError::InvalidEra`]; [`DateFromFieldsError::InconsistentYear`] if `extended_year` isn't the
    ///   era's year; [`DateFromFieldsError::NotEnoughFields`] if there is no year. The strategy `Ecma` supplies the
    ///   month's reference year if no ordinal month is set.
    /// - For the month: [`DateFromFieldsError::MonthCodeInvalidSyntax`], [`DateFromFieldsError::MonthNotInCalendar`],
    ///   [`DateFromFieldsError::MonthNotInYear`] and [`DateFromFieldsError::InconsistentMonth`]; for an ordinal month
    ///   alone, under `Reject`, [`DateFromFieldsError::InvalidOrdinalMonth`].
    /// - [`DateFromFieldsError::InvalidDay`], under `Reject`, if the day isn't from 1 to the month's length; `max` is
    ///   the month's length.
    /// - [`DateFromFieldsError::Overflow`] if the day number isn't from -365242499 to 365242134.
    ///
    /// # Examples
    ///
    /// ```
    /// use icu_calendar::options::{DateFromFieldsOptions, Overflow};
    /// use icu_calendar::types::{DateFields, Month};
    /// use icu_calendar::{Date, Gregorian};
    ///
    /// # fn main() -> Result<(), Box<dyn std::error::Error>> {
    /// let mut fields = DateFields::default();
    /// fields.extended_year = Some(2024);
    /// fields.month = Some(Month::new(2));
    /// fields.day = Some(30);
    /// let mut options = DateFromFieldsOptions::default();
    /// assert!(Date::try_from_fields(fields, options, Gregorian).is_err());
    /// options.overflow = Some(Overflow::Constrain);
    /// let date = Date::try_from_fields(fields, options, Gregorian)?;
    /// assert_eq!(date.day_of_month().0, 29);
    /// # Ok(())
    /// # }
    /// ```
    pub fn try_from_fields(
        fields: DateFields<'_>,
        options: DateFromFieldsOptions,
        calendar: A,
    ) -> Result<Self, DateFromFieldsError> {
        let inner = calendar.as_calendar().from_fields(fields, options)?;
        Ok(Date { inner, calendar })
    }

    /// Creates a date from an inner date and its calendar. If the inner date was made by a calendar that differs, such
    /// as another one of [`AnyCalendar`](crate::AnyCalendar), the date has its day.
    ///
    /// # Examples
    ///
    /// ```
    /// use icu_calendar::types::RataDie;
    /// use icu_calendar::{Calendar, Date, Iso};
    ///
    /// let inner = Iso.from_rata_die(RataDie::new(738946));
    /// assert_eq!(Date::from_raw(inner, Iso).to_rata_die(), RataDie::new(738946));
    /// ```
    pub fn from_raw(inner: <A::Calendar as Calendar>::DateInner, calendar: A) -> Self {
        if inner.parts().chosen() == calendar.as_calendar().chosen() {
            return Date { inner, calendar };
        }
        Date::from_rata_die(RataDie::new(inner.parts().day_number()), calendar)
    }

    /// Returns the date as its calendar stores it.
    ///
    /// # Examples
    ///
    /// ```
    /// use icu_calendar::types::RataDie;
    /// use icu_calendar::{Calendar, Date, Iso};
    ///
    /// let inner = Iso.from_rata_die(RataDie::new(738946));
    /// assert_eq!(*Date::from_raw(inner, Iso).inner(), inner);
    /// ```
    pub fn inner(&self) -> &<A::Calendar as Calendar>::DateInner {
        &self.inner
    }

    /// Returns the calendar or the pointer to it that the date holds.
    ///
    /// # Examples
    ///
    /// ```
    /// use icu_calendar::{Date, Iso};
    ///
    /// # fn main() -> Result<(), Box<dyn std::error::Error>> {
    /// assert_eq!(*Date::try_new_iso(2024, 3, 1)?.calendar_wrapper(), Iso);
    /// # Ok(())
    /// # }
    /// ```
    pub fn calendar_wrapper(&self) -> &A {
        &self.calendar
    }

    /// Returns the calendar that the date belongs to.
    ///
    /// # Examples
    ///
    /// ```
    /// use icu_calendar::{Date, Iso};
    ///
    /// # fn main() -> Result<(), Box<dyn std::error::Error>> {
    /// assert_eq!(*Date::try_new_iso(2024, 3, 1)?.calendar(), Iso);
    /// # Ok(())
    /// # }
    /// ```
    pub fn calendar(&self) -> &A::Calendar {
        self.calendar.as_calendar()
    }

    /// Returns the same date with its calendar borrowed.
    ///
    /// # Examples
    ///
    /// ```
    /// use icu_calendar::Date;
    ///
    /// # fn main() -> Result<(), Box<dyn std::error::Error>> {
    /// let date = Date::try_new_iso(2024, 3, 1)?;
    /// assert_eq!(date.as_borrowed(), date);
    /// # Ok(())
    /// # }
    /// ```
    pub fn as_borrowed(&self) -> Date<Ref<'_, A>> {
        Date {
            inner: self.inner,
            calendar: Ref(&self.calendar),
        }
    }

    /// Returns the date of a day number (rata die). The day number is clamped to the range -365242499 to 365242134.
    ///
    /// # Examples
    ///
    /// ```
    /// use icu_calendar::types::RataDie;
    /// use icu_calendar::{Date, Iso};
    ///
    /// # fn main() -> Result<(), Box<dyn std::error::Error>> {
    /// assert_eq!(Date::from_rata_die(RataDie::new(738946), Iso), Date::try_new_iso(2024, 3, 1)?);
    /// # Ok(())
    /// # }
    /// ```
    #[inline]
    pub fn from_rata_die(rd: RataDie, calendar: A) -> Self {
        let inner = calendar.as_calendar().from_rata_die(rd);
        Date { inner, calendar }
    }

    /// Returns the day number (rata die) of the date, from -365242499 to 365242134.
    ///
    /// # Examples
    ///
    /// ```
    /// use icu_calendar::Date;
    ///
    /// # fn main() -> Result<(), Box<dyn std::error::Error>> {
    /// assert_eq!(Date::try_new_iso(1970, 1, 1)?.to_rata_die().to_i64_date(), 719163);
    /// # Ok(())
    /// # }
    /// ```
    #[inline]
    pub fn to_rata_die(&self) -> RataDie {
        RataDie::new(self.day_number())
    }

    /// Converts an ISO date to a calendar. The day number stays the same.
    ///
    /// # Examples
    ///
    /// ```
    /// use icu_calendar::cal::Buddhist;
    /// use icu_calendar::Date;
    ///
    /// # fn main() -> Result<(), Box<dyn std::error::Error>> {
    /// let date = Date::new_from_iso(Date::try_new_iso(2024, 3, 1)?, Buddhist);
    /// assert_eq!(date.era_year().year, 2567);
    /// # Ok(())
    /// # }
    /// ```
    pub fn new_from_iso(iso: Date<Iso>, calendar: A) -> Self {
        Date::from_rata_die(iso.to_rata_die(), calendar)
    }

    /// Converts the date to the ISO calendar. The day number stays the same.
    ///
    /// # Examples
    ///
    /// ```
    /// use icu_calendar::Date;
    ///
    /// # fn main() -> Result<(), Box<dyn std::error::Error>> {
    /// assert_eq!(Date::try_new_buddhist(2567, 3, 1)?.to_iso(), Date::try_new_iso(2024, 3, 1)?);
    /// # Ok(())
    /// # }
    /// ```
    pub fn to_iso(&self) -> Date<Iso> {
        self.to_calendar(Iso)
    }

    /// Converts the date to another calendar. The day number stays the same.
    ///
    /// # Examples
    ///
    /// ```
    /// use icu_calendar::cal::Hebrew;
    /// use icu_calendar::Date;
    ///
    /// # fn main() -> Result<(), Box<dyn std::error::Error>> {
    /// let date = Date::try_new_iso(2024, 3, 1)?.to_calendar(Hebrew);
    /// assert_eq!(date.era_year().year, 5784);
    /// # Ok(())
    /// # }
    /// ```
    #[inline]
    pub fn to_calendar<A2: AsCalendar>(&self, calendar: A2) -> Date<A2> {
        Date::from_rata_die(self.to_rata_die(), calendar)
    }

    /// Returns the year, with its era or its place in the cycle.
    ///
    /// # Examples
    ///
    /// ```
    /// use icu_calendar::Date;
    ///
    /// # fn main() -> Result<(), Box<dyn std::error::Error>> {
    /// assert_eq!(Date::try_new_buddhist(2567, 3, 1)?.year().era_year_or_related_iso(), 2567);
    /// # Ok(())
    /// # }
    /// ```
    #[inline]
    pub fn year(&self) -> YearInfo {
        names::OfParts::of_parts(self.inner.parts())
    }

    /// Returns the extended year, which numbers the calendar's years without eras.
    ///
    /// # Examples
    ///
    /// ```
    /// use icu_calendar::Date;
    ///
    /// # fn main() -> Result<(), Box<dyn std::error::Error>> {
    /// assert_eq!(Date::try_new_gregorian(-43, 3, 15)?.extended_year(), -43); // 44 BCE
    /// # Ok(())
    /// # }
    /// ```
    #[inline]
    pub fn extended_year(&self) -> i32 {
        self.inner.parts().extended_year
    }

    /// Returns `true` if the year is a leap year of the calendar.
    ///
    /// # Examples
    ///
    /// ```
    /// use icu_calendar::Date;
    ///
    /// # fn main() -> Result<(), Box<dyn std::error::Error>> {
    /// assert!(Date::try_new_gregorian(2024, 3, 1)?.is_in_leap_year());
    /// # Ok(())
    /// # }
    /// ```
    pub fn is_in_leap_year(&self) -> bool {
        self.calendar().is_in_leap_year(&self.inner)
    }

    /// Returns the number of months in the year: 12 or 13.
    ///
    /// # Examples
    ///
    /// ```
    /// use icu_calendar::types::Month;
    /// use icu_calendar::Date;
    ///
    /// # fn main() -> Result<(), Box<dyn std::error::Error>> {
    /// assert_eq!(Date::try_new_hebrew_v2(5784, Month::new(1), 1)?.months_in_year(), 13);
    /// # Ok(())
    /// # }
    /// ```
    pub fn months_in_year(&self) -> u8 {
        self.calendar().months_in_year(&self.inner)
    }

    /// Returns the number of days in the year.
    ///
    /// # Examples
    ///
    /// ```
    /// use icu_calendar::Date;
    ///
    /// # fn main() -> Result<(), Box<dyn std::error::Error>> {
    /// assert_eq!(Date::try_new_gregorian(2024, 3, 1)?.days_in_year(), 366);
    /// # Ok(())
    /// # }
    /// ```
    pub fn days_in_year(&self) -> u16 {
        self.calendar().days_in_year(&self.inner)
    }

    /// Returns the number of days in the month.
    ///
    /// # Examples
    ///
    /// ```
    /// use icu_calendar::Date;
    ///
    /// # fn main() -> Result<(), Box<dyn std::error::Error>> {
    /// assert_eq!(Date::try_new_gregorian(2024, 2, 1)?.days_in_month(), 29);
    /// # Ok(())
    /// # }
    /// ```
    pub fn days_in_month(&self) -> u8 {
        self.calendar().days_in_month(&self.inner)
    }

    /// Returns the month: its ordinal number in the year, from 1, and its month codes.
    ///
    /// # Examples
    ///
    /// ```
    /// use icu_calendar::cal::Hebrew;
    /// use icu_calendar::types::Month;
    /// use icu_calendar::Date;
    ///
    /// # fn main() -> Result<(), Box<dyn std::error::Error>> {
    /// let month = Date::try_new_iso(2024, 3, 1)?.to_calendar(Hebrew).month();
    /// assert_eq!(month.to_input(), Month::leap(5)); // Adar I
    /// # Ok(())
    /// # }
    /// ```
    #[inline]
    pub fn month(&self) -> MonthInfo {
        names::month_info(self.inner.parts())
    }

    /// Returns the day of the month, from 1.
    ///
    /// # Examples
    ///
    /// ```
    /// use icu_calendar::Date;
    ///
    /// # fn main() -> Result<(), Box<dyn std::error::Error>> {
    /// assert_eq!(Date::try_new_iso(2024, 3, 1)?.day_of_month().0, 1);
    /// # Ok(())
    /// # }
    /// ```
    #[inline]
    pub fn day_of_month(&self) -> DayOfMonth {
        DayOfMonth(self.inner.parts().day)
    }

    /// Returns the day of the year, from 1.
    ///
    /// # Examples
    ///
    /// ```
    /// use icu_calendar::Date;
    ///
    /// # fn main() -> Result<(), Box<dyn std::error::Error>> {
    /// assert_eq!(Date::try_new_iso(2024, 3, 1)?.day_of_year().0, 61);
    /// # Ok(())
    /// # }
    /// ```
    pub fn day_of_year(&self) -> DayOfYear {
        self.calendar().day_of_year(&self.inner)
    }

    /// Returns the day of the week: the day number modulo 7, counted from Sunday.
    ///
    /// # Examples
    ///
    /// ```
    /// use icu_calendar::types::Weekday;
    /// use icu_calendar::Date;
    ///
    /// # fn main() -> Result<(), Box<dyn std::error::Error>> {
    /// assert_eq!(Date::try_new_iso(2024, 3, 1)?.weekday(), Weekday::Friday);
    /// # Ok(())
    /// # }
    /// ```
    pub fn weekday(&self) -> Weekday {
        Weekday::from(self.to_rata_die())
    }

    /// Returns the day of the week, as [`Date::weekday`] does.
    ///
    /// # Examples
    ///
    /// ```
    /// use icu_calendar::types::Weekday;
    /// use icu_calendar::Date;
    ///
    /// # fn main() -> Result<(), Box<dyn std::error::Error>> {
    /// assert_eq!(Date::try_new_iso(2024, 3, 1)?.day_of_week(), Weekday::Friday);
    /// # Ok(())
    /// # }
    /// ```
    pub fn day_of_week(&self) -> Weekday {
        self.weekday()
    }
}

impl<A: AsCalendar> Date<A>
where
    A::Calendar: Calendar<Year = EraYear>,
{
    /// Returns the year in its era, in a calendar whose years all have one.
    ///
    /// # Examples
    ///
    /// ```
    /// use icu_calendar::Date;
    ///
    /// # fn main() -> Result<(), Box<dyn std::error::Error>> {
    /// let year = Date::try_new_buddhist(2567, 3, 1)?.era_year();
    /// assert_eq!((year.year, year.era.as_str()), (2567, "be"));
    /// # Ok(())
    /// # }
    /// ```
    #[inline]
    pub fn era_year(&self) -> EraYear {
        names::OfParts::of_parts(self.inner.parts())
    }
}

impl<A: AsCalendar> Date<A>
where
    A::Calendar: Calendar<Year = CyclicYear>,
{
    /// Returns the year in the cycle of sixty years, in a calendar that counts years in it.
    ///
    /// # Examples
    ///
    /// ```
    /// use icu_calendar::cal::ChineseTraditional;
    /// use icu_calendar::Date;
    ///
    /// # fn main() -> Result<(), Box<dyn std::error::Error>> {
    /// let date = Date::try_new_iso(2024, 3, 1)?.to_calendar(ChineseTraditional::new());
    /// assert_eq!(date.cyclic_year().year, 41);
    /// # Ok(())
    /// # }
    /// ```
    #[inline]
    pub fn cyclic_year(&self) -> CyclicYear {
        names::OfParts::of_parts(self.inner.parts())
    }
}

impl<A: AsCalendar<Calendar = Iso>> Date<A> {
    /// Returns the week of the date and the year that the week belongs to. A week runs from Monday to Sunday and belongs
    /// to the year of its Thursday. (ISO 8601)
    ///
    /// # Examples
    ///
    /// ```
    /// use icu_calendar::Date;
    ///
    /// # fn main() -> Result<(), Box<dyn std::error::Error>> {
    /// let week = Date::try_new_iso(2024, 12, 30)?.week_of_year();
    /// assert_eq!((week.week_number, week.iso_year), (1, 2025));
    /// # Ok(())
    /// # }
    /// ```
    pub fn week_of_year(&self) -> IsoWeekOfYear {
        let (iso_year, week_number) = engine::week_of_year(self.day_number());
        IsoWeekOfYear {
            week_number,
            iso_year,
        }
    }
}

/// Writes `Date(YEAR-MONTH-DAY, ERA era, for calendar NAME)` with the era year and the ordinal month. A year of the
/// cycle of sixty years has `ISO year RELATED` in place of the era.
impl<A: AsCalendar> fmt::Debug for Date<A> {
    fn fmt(&self, f: &mut fmt::Formatter<'_>) -> fmt::Result {
        let (month, day) = (self.month().ordinal, self.day_of_month().0);
        let name = self.calendar().debug_name();
        match self.year() {
            YearInfo::Era(EraYear { year, era, .. }) => {
                write!(
                    f,
                    "Date({year}-{month}-{day}, {era} era, for calendar {name})"
                )
            }
            YearInfo::Cyclic(CyclicYear { year, related_iso }) => {
                write!(
                    f,
                    "Date({year}-{month}-{day}, ISO year {related_iso}, for calendar {name})"
                )
            }
        }
    }
}
