//! Calendars, and what leads to one.

use crate::cal::Iso;
use crate::date_inner::{DateInner, HasParts};
use crate::engine::Chosen;
use crate::error::{DateAddError, DateFromFieldsError, DateNewError};
use crate::names::OfParts;
use crate::naming;
use crate::options::{DateAddOptions, DateDifferenceOptions, DateFromFieldsOptions};
use crate::preferences::CalendarAlgorithm;
use crate::types::{
    DateDuration, DateFields, DayOfMonth, DayOfYear, Month, MonthInfo, RataDie, YearInfo, YearInput,
};
#[cfg(feature = "alloc")]
use alloc::{rc::Rc, sync::Arc};
use core::fmt::Debug;
use core::ops::Deref;

/// What seals [`Calendar`]: the calendar of the engine.
pub trait Sealed {
    /// Returns the calendar of the engine.
    #[doc(hidden)]
    fn chosen(&self) -> Chosen;
}

/// A calendar. The types of [`cal`](crate::cal) implement it, and so does [`AnyCalendar`](crate::AnyCalendar).
///
/// [`Date`](crate::Date) has these operations in a handier form. The trait is sealed: there are no calendars of a
/// caller's own.
///
/// # Examples
///
/// ```
/// use icu_calendar::types::RataDie;
/// use icu_calendar::{Calendar, Date, Iso};
///
/// fn new_year<C: Calendar>(calendar: C, day: RataDie) -> RataDie {
///     let date = Date::from_rata_die(day, calendar);
///     day - i64::from(date.day_of_year().0) + 1
/// }
///
/// assert_eq!(new_year(Iso, RataDie::new(738946)), RataDie::new(738886)); // 2024-01-01
/// ```
// The names are those of the crate.
#[allow(clippy::wrong_self_convention)]
pub trait Calendar: Sealed {
    /// A date as the calendar stores it.
    type DateInner: Eq + Copy + PartialOrd + Debug + HasParts;
    /// A date's year: one in an era, one of the cycle of sixty, or either.
    type Year: Debug + Into<YearInfo> + OfParts;
    /// The error for two calendars of this type whose dates can't be compared.
    type DateCompatibilityError: Debug;

    /// Returns `Ok` if dates of the two calendars can be compared.
    ///
    /// # Errors
    ///
    /// - The calendar's own error if they can't.
    ///
    /// # Examples
    ///
    /// ```
    /// use icu_calendar::cal::Ethiopian;
    /// use icu_calendar::Calendar;
    ///
    /// assert!(Ethiopian::new().check_date_compatibility(&Ethiopian::default()).is_ok());
    /// ```
    fn check_date_compatibility(&self, other: &Self) -> Result<(), Self::DateCompatibilityError>;

    /// Returns the calendar's algorithm, if CLDR has a name for it.
    ///
    /// # Examples
    ///
    /// ```
    /// use icu_calendar::cal::Hebrew;
    /// use icu_calendar::preferences::CalendarAlgorithm;
    /// use icu_calendar::Calendar;
    ///
    /// assert_eq!(Hebrew.calendar_algorithm(), Some(CalendarAlgorithm::Hebrew));
    /// ```
    fn calendar_algorithm(&self) -> Option<CalendarAlgorithm>;

    /// Returns the name that a date prints with `{:?}`.
    ///
    /// # Examples
    ///
    /// ```
    /// use icu_calendar::{Calendar, Iso};
    ///
    /// assert_eq!(Iso.debug_name(), "ISO");
    /// ```
    fn debug_name(&self) -> &'static str;

    /// Creates a date as [`Date::try_new`](crate::Date::try_new) does.
    ///
    /// # Errors
    ///
    /// - The errors of [`Date::try_new`](crate::Date::try_new).
    ///
    /// # Examples
    ///
    /// ```
    /// use icu_calendar::types::Month;
    /// use icu_calendar::{Calendar, Iso};
    ///
    /// assert!(Iso.new_date(2024.into(), Month::new(13), 1).is_err());
    /// ```
    fn new_date(
        &self,
        year: YearInput<'_>,
        month: Month,
        day: u8,
    ) -> Result<Self::DateInner, DateNewError> {
        naming::new_date(self.chosen(), year, month, day).map(Self::DateInner::of_parts)
    }

    /// Creates a date as [`Date::try_from_fields`](crate::Date::try_from_fields) does.
    ///
    /// # Errors
    ///
    /// - The errors of [`Date::try_from_fields`](crate::Date::try_from_fields).
    ///
    /// # Examples
    ///
    /// ```
    /// use icu_calendar::types::DateFields;
    /// use icu_calendar::{Calendar, Iso};
    ///
    /// assert!(Iso.from_fields(DateFields::default(), Default::default()).is_err());
    /// ```
    fn from_fields(
        &self,
        fields: DateFields<'_>,
        options: DateFromFieldsOptions,
    ) -> Result<Self::DateInner, DateFromFieldsError> {
        self.chosen()
            .date_of_fields(&fields, options)
            .map(Self::DateInner::of_parts)
    }

    /// Returns the date of a day number, clamped to the valid range.
    ///
    /// # Examples
    ///
    /// ```
    /// use icu_calendar::types::RataDie;
    /// use icu_calendar::{Calendar, Iso};
    ///
    /// let date = Iso.from_rata_die(RataDie::new(738946));
    /// assert_eq!(Iso.day_of_month(&date).0, 1);
    /// ```
    #[inline]
    fn from_rata_die(&self, rd: RataDie) -> Self::DateInner {
        Self::DateInner::of_parts(self.chosen().date_of_day(rd))
    }

    /// Returns the day number of a date.
    ///
    /// # Examples
    ///
    /// ```
    /// use icu_calendar::types::RataDie;
    /// use icu_calendar::{Calendar, Iso};
    ///
    /// let date = Iso.from_rata_die(RataDie::new(738946));
    /// assert_eq!(Iso.to_rata_die(&date), RataDie::new(738946));
    /// ```
    #[inline]
    fn to_rata_die(&self, date: &Self::DateInner) -> RataDie {
        RataDie::new(date.parts().day_number())
    }

    /// Returns whether a conversion to or from ISO is cheaper than by day numbers: never, since a day number is part of
    /// every date.
    ///
    /// # Examples
    ///
    /// ```
    /// use icu_calendar::{Calendar, Iso};
    ///
    /// assert!(!Iso.has_cheap_iso_conversion());
    /// ```
    fn has_cheap_iso_conversion(&self) -> bool {
        false
    }

    /// Converts an ISO date to this calendar.
    ///
    /// # Examples
    ///
    /// ```
    /// use icu_calendar::cal::Buddhist;
    /// use icu_calendar::types::RataDie;
    /// use icu_calendar::{Calendar, Iso};
    ///
    /// let date = Buddhist.from_iso(Iso.from_rata_die(RataDie::new(738946)));
    /// assert_eq!(Buddhist.extended_year(&date), 2567);
    /// ```
    fn from_iso(&self, iso: DateInner<Iso>) -> Self::DateInner {
        self.from_rata_die(Iso.to_rata_die(&iso))
    }

    /// Converts a date to the ISO calendar.
    ///
    /// # Examples
    ///
    /// ```
    /// use icu_calendar::cal::Buddhist;
    /// use icu_calendar::types::RataDie;
    /// use icu_calendar::{Calendar, Iso};
    ///
    /// let date = Buddhist.from_rata_die(RataDie::new(738946));
    /// assert_eq!(Iso.extended_year(&Buddhist.to_iso(&date)), 2024);
    /// ```
    fn to_iso(&self, date: &Self::DateInner) -> DateInner<Iso> {
        Iso.from_rata_die(self.to_rata_die(date))
    }

    /// Returns the number of months in the year: 12 or 13.
    ///
    /// # Examples
    ///
    /// ```
    /// use icu_calendar::cal::Coptic;
    /// use icu_calendar::types::RataDie;
    /// use icu_calendar::Calendar;
    ///
    /// assert_eq!(Coptic.months_in_year(&Coptic.from_rata_die(RataDie::new(738946))), 13);
    /// ```
    fn months_in_year(&self, date: &Self::DateInner) -> u8 {
        let parts = date.parts();
        parts.chosen().months_in_year(parts.extended_year)
    }

    /// Returns the number of days in the year.
    ///
    /// # Examples
    ///
    /// ```
    /// use icu_calendar::types::RataDie;
    /// use icu_calendar::{Calendar, Iso};
    ///
    /// assert_eq!(Iso.days_in_year(&Iso.from_rata_die(RataDie::new(738946))), 366);
    /// ```
    fn days_in_year(&self, date: &Self::DateInner) -> u16 {
        let parts = date.parts();
        parts.chosen().days_in_year(parts.extended_year)
    }

    /// Returns the number of days in the month.
    ///
    /// # Examples
    ///
    /// ```
    /// use icu_calendar::types::RataDie;
    /// use icu_calendar::{Calendar, Iso};
    ///
    /// assert_eq!(Iso.days_in_month(&Iso.from_rata_die(RataDie::new(738946))), 31);
    /// ```
    fn days_in_month(&self, date: &Self::DateInner) -> u8 {
        let parts = date.parts();
        parts
            .chosen()
            .days_in_month(parts.extended_year, parts.ordinal_month)
    }

    /// Returns `true` if the year is a leap year of the calendar.
    ///
    /// # Examples
    ///
    /// ```
    /// use icu_calendar::types::RataDie;
    /// use icu_calendar::{Calendar, Iso};
    ///
    /// assert!(Iso.is_in_leap_year(&Iso.from_rata_die(RataDie::new(738946))));
    /// ```
    fn is_in_leap_year(&self, date: &Self::DateInner) -> bool {
        crate::names::is_in_leap_year(date.parts())
    }

    /// Returns the year, with its era or its place in the cycle.
    ///
    /// # Examples
    ///
    /// ```
    /// use icu_calendar::types::RataDie;
    /// use icu_calendar::{Calendar, Gregorian};
    ///
    /// let date = Gregorian.from_rata_die(RataDie::new(738946));
    /// assert_eq!(Gregorian.year_info(&date).era, "ce");
    /// ```
    fn year_info(&self, date: &Self::DateInner) -> Self::Year {
        Self::Year::of_parts(date.parts())
    }

    /// Returns the extended year, which numbers the calendar's years without eras.
    ///
    /// # Examples
    ///
    /// ```
    /// use icu_calendar::types::RataDie;
    /// use icu_calendar::{Calendar, Iso};
    ///
    /// assert_eq!(Iso.extended_year(&Iso.from_rata_die(RataDie::new(0))), 0);
    /// ```
    #[inline]
    fn extended_year(&self, date: &Self::DateInner) -> i32 {
        date.parts().extended_year
    }

    /// Returns the month.
    ///
    /// # Examples
    ///
    /// ```
    /// use icu_calendar::types::RataDie;
    /// use icu_calendar::{Calendar, Iso};
    ///
    /// assert_eq!(Iso.month(&Iso.from_rata_die(RataDie::new(738946))).ordinal, 3);
    /// ```
    #[inline]
    fn month(&self, date: &Self::DateInner) -> MonthInfo {
        crate::names::month_info(date.parts())
    }

    /// Returns the day of the month, from 1.
    ///
    /// # Examples
    ///
    /// ```
    /// use icu_calendar::types::RataDie;
    /// use icu_calendar::{Calendar, Iso};
    ///
    /// assert_eq!(Iso.day_of_month(&Iso.from_rata_die(RataDie::new(738946))).0, 1);
    /// ```
    #[inline]
    fn day_of_month(&self, date: &Self::DateInner) -> DayOfMonth {
        DayOfMonth(date.parts().day)
    }

    /// Returns the day of the year, from 1.
    ///
    /// # Examples
    ///
    /// ```
    /// use icu_calendar::types::RataDie;
    /// use icu_calendar::{Calendar, Iso};
    ///
    /// assert_eq!(Iso.day_of_year(&Iso.from_rata_die(RataDie::new(738946))).0, 61);
    /// ```
    fn day_of_year(&self, date: &Self::DateInner) -> DayOfYear {
        let parts = date.parts();
        DayOfYear(parts.chosen().day_of_year(parts))
    }

    /// Adds a duration as [`Date::try_added_with_options`](crate::Date::try_added_with_options) does.
    ///
    /// # Errors
    ///
    /// - The errors of [`Date::try_added_with_options`](crate::Date::try_added_with_options).
    ///
    /// # Examples
    ///
    /// ```
    /// use icu_calendar::types::{DateDuration, RataDie};
    /// use icu_calendar::{Calendar, Iso};
    ///
    /// let date = Iso.from_rata_die(RataDie::new(738946));
    /// let next = Iso.add(&date, DateDuration::for_days(1), Default::default()).unwrap();
    /// assert_eq!(Iso.day_of_month(&next).0, 2);
    /// ```
    #[inline]
    fn add(
        &self,
        date: &Self::DateInner,
        duration: DateDuration,
        options: DateAddOptions,
    ) -> Result<Self::DateInner, DateAddError> {
        let parts = date.parts();
        parts
            .chosen()
            .add(parts.day_number(), duration, options)
            .map(Self::DateInner::of_parts)
    }

    /// Returns the difference between two dates of calendars that are compatible, as
    /// [`Date::try_until_with_options`](crate::Date::try_until_with_options) does.
    ///
    /// # Examples
    ///
    /// ```
    /// use icu_calendar::types::RataDie;
    /// use icu_calendar::{Calendar, Iso};
    ///
    /// let (first, second) = (Iso.from_rata_die(RataDie::new(1)), Iso.from_rata_die(RataDie::new(8)));
    /// assert_eq!(Iso.until(&first, &second, Default::default()).days, 7);
    /// ```
    #[inline]
    fn until(
        &self,
        date1: &Self::DateInner,
        date2: &Self::DateInner,
        options: DateDifferenceOptions,
    ) -> DateDuration {
        let (first, second) = (date1.parts(), date2.parts());
        first
            .chosen()
            .until(first.day_number(), second.day_number(), options)
    }
}

/// A calendar, or a pointer to one: by reference ([`Ref`]), or counted (`Rc` and `Arc`).
///
/// # Examples
///
/// ```
/// use icu_calendar::{AnyCalendar, AnyCalendarKind, Date};
/// use std::rc::Rc;
///
/// # fn main() -> Result<(), Box<dyn std::error::Error>> {
/// let calendar = Rc::new(AnyCalendar::new(AnyCalendarKind::Hebrew));
/// let date = Date::try_new_iso(2024, 3, 1)?.to_calendar(Rc::clone(&calendar));
/// assert_eq!(date.day_of_month().0, 21);
/// # Ok(())
/// # }
/// ```
pub trait AsCalendar {
    /// The type of the calendar.
    type Calendar: Calendar;

    /// Returns the calendar.
    ///
    /// # Examples
    ///
    /// ```
    /// use icu_calendar::{AsCalendar, Iso, Ref};
    ///
    /// assert_eq!(*Ref(&Iso).as_calendar(), Iso);
    /// ```
    fn as_calendar(&self) -> &Self::Calendar;
}

impl<C: Calendar> AsCalendar for C {
    type Calendar = C;

    #[inline]
    fn as_calendar(&self) -> &C {
        self
    }
}

#[cfg(feature = "alloc")]
impl<C: AsCalendar> AsCalendar for Rc<C> {
    type Calendar = C::Calendar;

    #[inline]
    fn as_calendar(&self) -> &C::Calendar {
        (**self).as_calendar()
    }
}

#[cfg(feature = "alloc")]
impl<C: AsCalendar> AsCalendar for Arc<C> {
    type Calendar = C::Calendar;

    #[inline]
    fn as_calendar(&self) -> &C::Calendar {
        (**self).as_calendar()
    }
}

/// A borrowed calendar.
///
/// # Examples
///
/// ```
/// use icu_calendar::{AnyCalendar, AnyCalendarKind, Date, Ref};
///
/// # fn main() -> Result<(), Box<dyn std::error::Error>> {
/// let calendar = AnyCalendar::new(AnyCalendarKind::Hebrew);
/// let date = Date::try_new_iso(2024, 3, 1)?.to_calendar(Ref(&calendar));
/// assert_eq!(date.months_in_year(), 13);
/// # Ok(())
/// # }
/// ```
#[derive(PartialEq, Eq, Debug)]
pub struct Ref<'a, C>(pub &'a C);

impl<C> Copy for Ref<'_, C> {}

impl<C> Clone for Ref<'_, C> {
    fn clone(&self) -> Self {
        *self
    }
}

impl<C> Deref for Ref<'_, C> {
    type Target = C;

    fn deref(&self) -> &C {
        self.0
    }
}

impl<C: AsCalendar> AsCalendar for Ref<'_, C> {
    type Calendar = C::Calendar;

    #[inline]
    fn as_calendar(&self) -> &C::Calendar {
        self.0.as_calendar()
    }
}
