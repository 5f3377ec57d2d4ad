//! Copies, equality, order and hashes of dates.

use super::Date;
use crate::calendar::{AsCalendar, Calendar};
use core::cmp::Ordering;
use core::convert::Infallible;
use core::hash::{Hash, Hasher};

impl<A: AsCalendar + Copy> Copy for Date<A> {}

impl<A: AsCalendar + Clone> Clone for Date<A> {
    #[inline]
    fn clone(&self) -> Self {
        Date {
            inner: self.inner,
            calendar: self.calendar.clone(),
        }
    }
}

/// Dates are equal if their calendars are compatible and they have the same day. They may hold their calendars
/// differently, such as one borrowed and one counted.
impl<C: Calendar, A: AsCalendar<Calendar = C>, B: AsCalendar<Calendar = C>> PartialEq<Date<B>>
    for Date<A>
{
    fn eq(&self, other: &Date<B>) -> bool {
        self.partial_cmp(other) == Some(Ordering::Equal)
    }
}

impl<A: AsCalendar> Eq for Date<A> {}

/// Dates of calendars that are compatible are ordered by their days. Others have no order.
impl<C: Calendar, A: AsCalendar<Calendar = C>, B: AsCalendar<Calendar = C>> PartialOrd<Date<B>>
    for Date<A>
{
    fn partial_cmp(&self, other: &Date<B>) -> Option<Ordering> {
        self.calendar()
            .check_date_compatibility(other.calendar())
            .ok()?;
        Some(self.day_number().cmp(&other.day_number()))
    }
}

/// The order of days, for calendars that are always compatible.
impl<C: Calendar<DateCompatibilityError = Infallible>, A: AsCalendar<Calendar = C>> Ord
    for Date<A>
{
    fn cmp(&self, other: &Self) -> Ordering {
        self.day_number().cmp(&other.day_number())
    }
}

/// Hashes the day, so that equal dates have one hash.
impl<A: AsCalendar> Hash for Date<A> {
    fn hash<H: Hasher>(&self, state: &mut H) {
        self.day_number().hash(state);
    }
}
