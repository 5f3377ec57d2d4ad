//! Sums and differences.

use super::Date;
use crate::calendar::{AsCalendar, Calendar};
use crate::error::DateAddError;
use crate::options::{DateAddOptions, DateDifferenceOptions};
use crate::types::DateDuration;

impl<A: AsCalendar> Date<A> {
    /// Adds a duration to the date in place. The default of the option `overflow` is
    /// [`Overflow::Constrain`](crate::options::Overflow::Constrain). After an error the date is unchanged. (ECMAScript
    /// Temporal, `NonISODateAdd`)
    ///
    /// # Errors
    ///
    /// The first of these that applies:
    ///
    /// - [`DateAddError::Overflow`] if the duration has more than 2080000 years, 27040000 months (13 in each of these
    ///   years) or 838240000 days including its weeks (31 in each of these months), or if its years lead outside the
    ///   years -1040000 to 1040000.
    /// - [`DateAddError::MonthNotInYear`] under `Overflow::Reject` if the month doesn't occur in the year that the years
    ///   lead to.
    /// - [`DateAddError::InvalidDay`] under `Overflow::Reject` if the day doesn't exist in the month that the months
    ///   lead to.
    /// - [`DateAddError::Overflow`] if the sum's day number isn't from -365242499 to 365242134.
    ///
    /// # Examples
    ///
    /// ```
    /// use icu_calendar::options::DateAddOptions;
    /// use icu_calendar::types::DateDuration;
    /// use icu_calendar::Date;
    ///
    /// # fn main() -> Result<(), Box<dyn std::error::Error>> {
    /// let mut date = Date::try_new_iso(2024, 1, 31)?;
    /// date.try_add_with_options(DateDuration::for_months(1), DateAddOptions::default())?;
    /// assert_eq!(date, Date::try_new_iso(2024, 2, 29)?);
    /// # Ok(())
    /// # }
    /// ```
    #[inline]
    pub fn try_add_with_options(
        &mut self,
        duration: DateDuration,
        options: DateAddOptions,
    ) -> Result<(), DateAddError> {
        self.inner = self
            .calendar
            .as_calendar()
            .add(&self.inner, duration, options)?;
        Ok(())
    }

    /// Returns the date with a duration added. (ECMAScript Temporal, `NonISODateAdd`)
    ///
    /// # Errors
    ///
    /// - The errors of [`Date::try_add_with_options`], in the same order.
    ///
    /// # Examples
    ///
    /// ```
    /// use icu_calendar::options::DateAddOptions;
    /// use icu_calendar::types::DateDuration;
    /// use icu_calendar::Date;
    ///
    /// # fn main() -> Result<(), Box<dyn std::error::Error>> {
    /// let date = Date::try_new_iso(2024, 1, 31)?;
    /// let later = date.try_added_with_options(DateDuration::for_months(1), DateAddOptions::default())?;
    /// assert_eq!(later, Date::try_new_iso(2024, 2, 29)?);
    /// # Ok(())
    /// # }
    /// ```
    #[inline]
    pub fn try_added_with_options(
        mut self,
        duration: DateDuration,
        options: DateAddOptions,
    ) -> Result<Self, DateAddError> {
        self.try_add_with_options(duration, options)?;
        Ok(self)
    }

    /// Returns the difference from this date to another date of the same calendar: the greatest duration that doesn't
    /// lead past the other date. The default of the option `largest_unit` is days. Adding the difference back, with
    /// [`Overflow::Constrain`](crate::options::Overflow::Constrain), returns the other date. (ECMAScript Temporal,
    /// `NonISODateUntil`)
    ///
    /// Months are counted with the original day, and days from the day that the month has. From September 30 to
    /// October 31, the difference is one month and one day: October 30 and one more day. From October 31 back to
    /// September 30, it is one month and no day. So the difference in the other direction may be more than a change
    /// of sign.
    ///
    /// # Errors
    ///
    /// - The calendar's `DateCompatibilityError` exactly if the two calendars aren't compatible, as two different ones
    ///   of [`AnyCalendar`](crate::AnyCalendar).
    ///
    /// # Examples
    ///
    /// ```
    /// use icu_calendar::options::DateDifferenceOptions;
    /// use icu_calendar::types::DateDurationUnit;
    /// use icu_calendar::Date;
    ///
    /// # fn main() -> Result<(), Box<dyn std::error::Error>> {
    /// let first = Date::try_new_iso(2024, 9, 30)?;
    /// let second = Date::try_new_iso(2024, 10, 31)?;
    /// let mut options = DateDifferenceOptions::default();
    /// options.largest_unit = Some(DateDurationUnit::Months);
    /// let difference = first.try_until_with_options(&second, options)?;
    /// assert_eq!((difference.months, difference.days), (1, 1));
    /// # Ok(())
    /// # }
    /// ```
    #[inline]
    pub fn try_until_with_options<B: AsCalendar<Calendar = A::Calendar>>(
        &self,
        other: &Date<B>,
        options: DateDifferenceOptions,
    ) -> Result<DateDuration, <A::Calendar as Calendar>::DateCompatibilityError> {
        let calendar = self.calendar.as_calendar();
        calendar.check_date_compatibility(other.calendar.as_calendar())?;
        Ok(calendar.until(&self.inner, &other.inner, options))
    }
}
