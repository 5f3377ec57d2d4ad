//! Windows: days in a row.

use crate::engine::{FIRST_DAY, LAST_DAY};
use crate::types::RataDie;

/// The days from a first to a last one, both included and valid: from -365242499 to 365242134.
///
/// # Examples
///
/// ```
/// use icu_calendar::lists::Window;
/// use icu_calendar::Date;
///
/// # fn main() -> Result<(), Box<dyn std::error::Error>> {
/// let first = Date::try_new_iso(2024, 1, 1)?.to_rata_die();
/// let year = Window::try_new(first, first + 365).unwrap();
/// assert!(year.contains(Date::try_new_iso(2024, 12, 31)?.to_rata_die()));
/// # Ok(())
/// # }
/// ```
#[derive(Clone, Copy, Debug, PartialEq, Eq, Hash)]
pub struct Window {
    first: i64,
    last: i64,
}

impl Window {
    /// Creates a window. Returns `None` exactly if one of the two days isn't from -365242499 to 365242134, or if the
    /// first comes after the last.
    ///
    /// # Examples
    ///
    /// ```
    /// use icu_calendar::lists::Window;
    /// use icu_calendar::types::RataDie;
    ///
    /// assert!(Window::try_new(RataDie::new(738886), RataDie::new(739251)).is_some());
    /// assert!(Window::try_new(RataDie::new(739251), RataDie::new(738886)).is_none());
    /// ```
    pub const fn try_new(first: RataDie, last: RataDie) -> Option<Window> {
        let (first, last) = (first.to_i64_date(), last.to_i64_date());
        if FIRST_DAY <= first && first <= last && last <= LAST_DAY {
            Some(Window { first, last })
        } else {
            None
        }
    }

    /// Returns the first day.
    ///
    /// # Examples
    ///
    /// ```
    /// use icu_calendar::lists::Window;
    /// use icu_calendar::types::RataDie;
    ///
    /// let year = Window::try_new(RataDie::new(738886), RataDie::new(739251)).unwrap();
    /// assert_eq!(year.first(), RataDie::new(738886)); // 2024-01-01
    /// ```
    pub const fn first(self) -> RataDie {
        RataDie::new(self.first)
    }

    /// Returns the last day.
    ///
    /// # Examples
    ///
    /// ```
    /// use icu_calendar::lists::Window;
    /// use icu_calendar::types::RataDie;
    ///
    /// let year = Window::try_new(RataDie::new(738886), RataDie::new(739251)).unwrap();
    /// assert_eq!(year.last(), RataDie::new(739251)); // 2024-12-31
    /// ```
    pub const fn last(self) -> RataDie {
        RataDie::new(self.last)
    }

    /// Returns the first and the last day.
    ///
    /// # Examples
    ///
    /// ```
    /// use icu_calendar::lists::Window;
    /// use icu_calendar::types::RataDie;
    ///
    /// let year = Window::try_new(RataDie::new(738886), RataDie::new(739251)).unwrap();
    /// assert_eq!(year.ends(), (year.first(), year.last()));
    /// ```
    pub const fn ends(&self) -> (RataDie, RataDie) {
        (self.first(), self.last())
    }

    /// Returns `true` if the window contains a day.
    ///
    /// # Examples
    ///
    /// ```
    /// use icu_calendar::lists::Window;
    /// use icu_calendar::types::RataDie;
    ///
    /// let year = Window::try_new(RataDie::new(738886), RataDie::new(739251)).unwrap();
    /// assert!(year.contains(RataDie::new(738946)));
    /// ```
    pub const fn contains(&self, day: RataDie) -> bool {
        self.first <= day.to_i64_date() && day.to_i64_date() <= self.last
    }

    /// Returns the window with so many days before and behind it, as far as they are valid.
    #[cfg(feature = "alloc")]
    pub(crate) fn around(self, days: i64) -> Window {
        Window {
            first: FIRST_DAY.max(self.first - days),
            last: LAST_DAY.min(self.last + days),
        }
    }

    /// Returns the part of the window after one of its days, or `None` if that day is the last.
    ///
    /// # Examples
    ///
    /// ```
    /// use icu_calendar::lists::Window;
    /// use icu_calendar::types::RataDie;
    ///
    /// let year = Window::try_new(RataDie::new(738886), RataDie::new(739251)).unwrap();
    /// assert_eq!(year.after(RataDie::new(739251)), None);
    /// ```
    pub fn after(&self, day: RataDie) -> Option<Window> {
        Window::try_new(day + 1, self.last())
    }
}
