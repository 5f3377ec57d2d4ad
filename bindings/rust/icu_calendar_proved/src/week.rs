//! The first day of the week and the weekend, as in CLDR's week data of a region (UTS 35).

use crate::types::Weekday;

/// The first day of the week, and the weekend.
///
/// # Examples
///
/// ```
/// use icu_calendar::types::Weekday;
/// use icu_calendar::week::{WeekInformation, WeekdaySet};
///
/// let weekend = WeekdaySet::new(&[Weekday::Friday, Weekday::Saturday]);
/// let weeks = WeekInformation { first_weekday: Weekday::Sunday, weekend };
/// assert!(!weeks.weekend.contains(Weekday::Sunday));
/// ```
#[derive(Clone, Copy, Debug, PartialEq, Eq)]
pub struct WeekInformation {
    /// The first day of the week.
    pub first_weekday: Weekday,
    /// The days of the weekend.
    pub weekend: WeekdaySet,
}

impl WeekInformation {
    /// Creates a `WeekInformation` from the first day of the week and the weekend.
    ///
    /// # Examples
    ///
    /// ```
    /// use icu_calendar::types::Weekday;
    /// use icu_calendar::week::{WeekInformation, WeekdaySet};
    ///
    /// let weekend = WeekdaySet::new(&[Weekday::Saturday, Weekday::Sunday]);
    /// let weeks = WeekInformation::new(Weekday::Monday, weekend);
    /// ```
    pub fn new(first_weekday: Weekday, weekend: WeekdaySet) -> Self {
        WeekInformation {
            first_weekday,
            weekend,
        }
    }

    /// Returns the days of the weekend, each once, in the order of the week.
    ///
    /// # Examples
    ///
    /// ```
    /// use icu_calendar::types::Weekday;
    /// use icu_calendar::week::{WeekInformation, WeekdaySet};
    ///
    /// let weekend = WeekdaySet::new(&[Weekday::Saturday, Weekday::Sunday]);
    /// let weeks = WeekInformation::new(Weekday::Monday, weekend);
    /// assert!(weeks.weekend().next() == Some(Weekday::Saturday));
    /// ```
    pub fn weekend(self) -> WeekdaySetIterator {
        WeekdaySetIterator {
            set: self.weekend,
            next: self.first_weekday,
            left: 7,
        }
    }
}

/// An iterator over the days of a set, each once, in the order of a week.
///
/// # Examples
///
/// ```
/// use icu_calendar::types::Weekday;
/// use icu_calendar::week::{WeekInformation, WeekdaySet};
///
/// let weekend = WeekdaySet::new(&[Weekday::Sunday, Weekday::Saturday]);
/// let weeks = WeekInformation::new(Weekday::Monday, weekend);
/// assert!(weeks.weekend().eq([Weekday::Saturday, Weekday::Sunday]));
/// ```
#[derive(Clone, Copy, Debug, PartialEq, Eq)]
pub struct WeekdaySetIterator {
    set: WeekdaySet,
    /// The day to look at next.
    next: Weekday,
    /// The number of days still to look at.
    left: u8,
}

impl Iterator for WeekdaySetIterator {
    type Item = Weekday;

    fn next(&mut self) -> Option<Weekday> {
        while self.left > 0 {
            let day = self.next;
            self.next = day.next();
            self.left -= 1;
            if self.set.contains(day) {
                return Some(day);
            }
        }
        None
    }
}

/// A set of days of the week.
///
/// # Examples
///
/// ```
/// use icu_calendar::types::Weekday;
/// use icu_calendar::week::WeekdaySet;
///
/// const WEEKEND: WeekdaySet = WeekdaySet::new(&[Weekday::Saturday, Weekday::Sunday]);
/// assert!(WEEKEND.contains(Weekday::Saturday));
/// ```
#[derive(Clone, Copy, Debug, PartialEq, Eq)]
pub struct WeekdaySet {
    /// Whether each day is in the set, from Sunday on.
    held: [bool; 7],
}

impl WeekdaySet {
    /// Creates the set of some days.
    ///
    /// # Examples
    ///
    /// ```
    /// use icu_calendar::types::Weekday;
    /// use icu_calendar::week::WeekdaySet;
    ///
    /// let weekend = WeekdaySet::new(&[Weekday::Saturday, Weekday::Sunday]);
    /// assert!(weekend.contains(Weekday::Sunday));
    /// ```
    pub const fn new(days: &[Weekday]) -> Self {
        let mut held = [false; 7];
        let mut i = 0;
        while i < days.len() {
            held[days[i].days_since_sunday()] = true;
            i += 1;
        }
        WeekdaySet { held }
    }

    /// Returns `true` if the set contains the day.
    ///
    /// # Examples
    ///
    /// ```
    /// use icu_calendar::types::Weekday;
    /// use icu_calendar::week::WeekdaySet;
    ///
    /// let weekend = WeekdaySet::new(&[Weekday::Saturday, Weekday::Sunday]);
    /// assert!(weekend.contains(Weekday::Sunday));
    /// ```
    pub const fn contains(&self, day: Weekday) -> bool {
        self.held[day.days_since_sunday()]
    }
}
