//! Day numbers.

use core::ops::{Add, AddAssign, Sub, SubAssign};

/// A day number (rata die): 1 is 0001-01-01 in the ISO calendar. (Reingold and Dershowitz, Calendrical Calculations)
///
/// Valid dates have day numbers from -365242499 to 365242134. Sums that would leave `i64` stop at its ends.
///
/// # Examples
///
/// ```
/// use icu_calendar::types::RataDie;
/// use icu_calendar::Date;
///
/// # fn main() -> Result<(), Box<dyn std::error::Error>> {
/// let day = Date::try_new_iso(2024, 3, 1)?.to_rata_die();
/// assert_eq!(day, RataDie::new(738946));
/// assert_eq!(day + 7 - day, 7);
/// # Ok(())
/// # }
/// ```
#[derive(Clone, Copy, Debug, PartialEq, Eq, PartialOrd, Ord, Hash)]
pub struct RataDie(i64);

impl RataDie {
    /// Creates a day number.
    ///
    /// # Examples
    ///
    /// ```
    /// use icu_calendar::types::RataDie;
    ///
    /// assert!(RataDie::new(1) < RataDie::new(2));
    /// ```
    pub const fn new(value: i64) -> RataDie {
        RataDie(value)
    }

    /// Returns the number.
    ///
    /// # Examples
    ///
    /// ```
    /// use icu_calendar::types::RataDie;
    ///
    /// assert_eq!(RataDie::new(738946).to_i64_date(), 738946);
    /// ```
    pub const fn to_i64_date(self) -> i64 {
        self.0
    }

    /// Returns the number of days from another day to this one.
    ///
    /// # Examples
    ///
    /// ```
    /// use icu_calendar::types::RataDie;
    ///
    /// assert_eq!(RataDie::new(738946).since(RataDie::new(738886)), 60);
    /// ```
    pub const fn since(self, other: RataDie) -> i64 {
        self.0.saturating_sub(other.0)
    }

    /// Returns the day so many days later, or `None` if its number isn't an `i64`.
    ///
    /// # Examples
    ///
    /// ```
    /// use icu_calendar::types::RataDie;
    ///
    /// assert_eq!(RataDie::new(1).checked_add(-2), Some(RataDie::new(-1)));
    /// assert_eq!(RataDie::new(i64::MAX).checked_add(1), None);
    /// ```
    pub const fn checked_add(self, days: i64) -> Option<RataDie> {
        match self.0.checked_add(days) {
            Some(day) => Some(RataDie(day)),
            None => None,
        }
    }
}

impl Add<i64> for RataDie {
    type Output = RataDie;

    fn add(self, days: i64) -> RataDie {
        RataDie(self.0.saturating_add(days))
    }
}

impl AddAssign<i64> for RataDie {
    fn add_assign(&mut self, days: i64) {
        *self = *self + days;
    }
}

impl Sub<i64> for RataDie {
    type Output = RataDie;

    fn sub(self, days: i64) -> RataDie {
        RataDie(self.0.saturating_sub(days))
    }
}

impl SubAssign<i64> for RataDie {
    fn sub_assign(&mut self, days: i64) {
        *self = *self - days;
    }
}

/// Returns the number of days from the second day to the first.
impl Sub<RataDie> for RataDie {
    type Output = i64;

    fn sub(self, other: RataDie) -> i64 {
        self.since(other)
    }
}
