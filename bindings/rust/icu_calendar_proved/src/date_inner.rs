//! Dates as their calendars store them.

use crate::calendar::Calendar;
use crate::engine::Parts;
use core::cmp::Ordering;
use core::fmt;
use core::hash::{Hash, Hasher};
use core::marker::PhantomData;

/// What every inner date is made of.
pub trait HasParts {
    /// Stores the parts of a date.
    #[doc(hidden)]
    fn of_parts(parts: Parts) -> Self;

    /// Returns the parts of the date.
    #[doc(hidden)]
    fn parts(&self) -> &Parts;
}

/// A date as the calendar `C` stores it: its parts, and its day number.
///
/// Inner dates of one calendar are ordered by their days. Two of calendars that differ, such as those of
/// [`AnyCalendar`](crate::AnyCalendar), are never equal and have no order.
///
/// # Examples
///
/// ```
/// use icu_calendar::types::RataDie;
/// use icu_calendar::{Calendar, Iso};
///
/// assert!(Iso.from_rata_die(RataDie::new(1)) < Iso.from_rata_die(RataDie::new(2)));
/// ```
pub struct DateInner<C> {
    parts: Parts,
    of: PhantomData<fn() -> C>,
}

impl<C: Calendar> HasParts for DateInner<C> {
    #[inline]
    fn of_parts(parts: Parts) -> Self {
        DateInner {
            parts,
            of: PhantomData,
        }
    }

    #[inline]
    fn parts(&self) -> &Parts {
        &self.parts
    }
}

impl<C> Copy for DateInner<C> {}

impl<C> Clone for DateInner<C> {
    #[inline]
    fn clone(&self) -> Self {
        *self
    }
}

impl<C> PartialEq for DateInner<C> {
    fn eq(&self, other: &Self) -> bool {
        self.partial_cmp(other) == Some(Ordering::Equal)
    }
}

impl<C> Eq for DateInner<C> {}

impl<C> PartialOrd for DateInner<C> {
    fn partial_cmp(&self, other: &Self) -> Option<Ordering> {
        if self.parts.chosen().is_like(other.parts.chosen()) {
            Some(self.parts.day_number().cmp(&other.parts.day_number()))
        } else {
            None
        }
    }
}

impl<C> Hash for DateInner<C> {
    fn hash<H: Hasher>(&self, state: &mut H) {
        self.parts.day_number().hash(state);
    }
}

impl<C> fmt::Debug for DateInner<C> {
    fn fmt(&self, f: &mut fmt::Formatter<'_>) -> fmt::Result {
        let (year, month, day) = (
            self.parts.extended_year,
            self.parts.ordinal_month,
            self.parts.day,
        );
        f.debug_tuple("DateInner")
            .field(&year)
            .field(&month)
            .field(&day)
            .finish()
    }
}
