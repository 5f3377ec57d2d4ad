//! A date with a step added again and again.

use super::Window;
use crate::calendar::AsCalendar;
use crate::date::Date;
use crate::date_inner::HasParts;
use crate::engine::Chosen;
use crate::options::{DateAddOptions, DateDifferenceOptions, Overflow};
use crate::types::{DateDuration, DateDurationUnit, RataDie};

/// How to handle an occurrence whose month or day doesn't exist.
///
/// # Examples
///
/// ```
/// use icu_calendar::lists::{Missing, Rule};
/// use icu_calendar::types::DateDurationUnit;
///
/// let monthly = Rule::try_new(DateDurationUnit::Months, 1, Missing::Skip);
/// assert!(monthly.is_some());
/// ```
#[derive(Clone, Copy, Debug, PartialEq, Eq, Hash)]
pub enum Missing {
    /// Leave it out.
    Skip,
    /// Use the nearest day that exists.
    Constrain,
}

/// A rule of a recurrence: so many years, months, weeks or days from one occurrence to the next.
///
/// # Examples
///
/// ```
/// use icu_calendar::lists::{Missing, Rule, Window};
/// use icu_calendar::types::DateDurationUnit;
/// use icu_calendar::{Date, Iso};
///
/// # fn main() -> Result<(), Box<dyn std::error::Error>> {
/// let start = Date::try_new_iso(2021, 1, 31)?;
/// let monthly = Rule::try_new(DateDurationUnit::Months, 1, Missing::Constrain).unwrap();
/// let window = Window::try_new(start.to_rata_die(), start.to_rata_die() + 89).unwrap();
/// let days: Vec<_> = start.recur(monthly, window).map(|it| Date::from_rata_die(it.day, Iso)).collect();
/// assert_eq!(days[1], Date::try_new_iso(2021, 2, 28)?);
/// assert_eq!(days[2], Date::try_new_iso(2021, 3, 31)?);
/// # Ok(())
/// # }
/// ```
#[derive(Clone, Copy, Debug, PartialEq, Eq, Hash)]
pub struct Rule {
    unit: DateDurationUnit,
    every: u32,
    missing: Missing,
}

impl Rule {
    /// Creates a rule. Returns `None` exactly if `every` is 0.
    ///
    /// # Examples
    ///
    /// ```
    /// use icu_calendar::lists::{Missing, Rule};
    /// use icu_calendar::types::DateDurationUnit;
    ///
    /// assert!(Rule::try_new(DateDurationUnit::Days, 0, Missing::Skip).is_none());
    /// ```
    pub const fn try_new(unit: DateDurationUnit, every: u32, missing: Missing) -> Option<Rule> {
        if every == 0 {
            None
        } else {
            Some(Rule {
                unit,
                every,
                missing,
            })
        }
    }

    fn duration(self, amount: u32) -> DateDuration {
        let mut duration = DateDuration::default();
        *match self.unit {
            DateDurationUnit::Years => &mut duration.years,
            DateDurationUnit::Months => &mut duration.months,
            DateDurationUnit::Weeks => &mut duration.weeks,
            DateDurationUnit::Days => &mut duration.days,
        } = amount;
        duration
    }
}

/// An occurrence of a rule.
///
/// # Examples
///
/// ```
/// use icu_calendar::lists::Occurrence;
/// use icu_calendar::types::RataDie;
///
/// let first = Occurrence { index: 0, day: RataDie::new(738946) };
/// assert_eq!(first.index, 0);
/// ```
#[derive(Clone, Copy, Debug, PartialEq, Eq, Hash)]
pub struct Occurrence {
    /// How often the step was added to the first date. Occurrences that are left out count, too.
    pub index: u32,
    /// The day.
    pub day: RataDie,
}

/// An iterator over the occurrences of a rule in a window.
///
/// # Examples
///
/// ```
/// use icu_calendar::lists::{Missing, Rule, Window};
/// use icu_calendar::types::DateDurationUnit;
/// use icu_calendar::Date;
///
/// # fn main() -> Result<(), Box<dyn std::error::Error>> {
/// let start = Date::try_new_iso(2024, 3, 1)?;
/// let weekly = Rule::try_new(DateDurationUnit::Weeks, 1, Missing::Skip).unwrap();
/// let window = Window::try_new(start.to_rata_die(), start.to_rata_die() + 27).unwrap();
/// assert_eq!(start.recur(weekly, window).count(), 4);
/// # Ok(())
/// # }
/// ```
#[derive(Clone, Copy, Debug)]
pub struct Recurrence {
    chosen: Chosen,
    start: i64,
    rule: Rule,
    rest: Option<Window>,
    /// The next index to look at.
    index: u32,
}

impl<A: AsCalendar> Date<A> {
    /// Lists the days of a window on which this date recurs by a rule. Each occurrence counts from this date, so a rule
    /// from January 31 returns to the 31st after February.
    ///
    /// # Examples
    ///
    /// ```
    /// use icu_calendar::lists::{Missing, Rule, Window};
    /// use icu_calendar::types::{DateDurationUnit, RataDie};
    /// use icu_calendar::Date;
    ///
    /// # fn main() -> Result<(), Box<dyn std::error::Error>> {
    /// let birth = Date::try_new_iso(2020, 2, 29)?;
    /// let yearly = Rule::try_new(DateDurationUnit::Years, 1, Missing::Skip).unwrap();
    /// let window = Window::try_new(RataDie::new(738521), RataDie::new(740000)).unwrap();
    /// let items: Vec<_> = birth.recur(yearly, window).collect();
    /// assert_eq!((items.len(), items[0].index), (1, 4)); // 2024-02-29
    /// # Ok(())
    /// # }
    /// ```
    pub fn recur(&self, rule: Rule, window: Window) -> Recurrence {
        let parts = self.inner().parts();
        let mut list = Recurrence {
            chosen: parts.chosen(),
            start: parts.day_number(),
            rule,
            rest: Some(window),
            index: 0,
        };
        list.index = list.units_before(parts.extended_year, window.first()) / rule.every;
        list
    }
}

impl Recurrence {
    /// Returns what is left of the window, or `None` after the end.
    ///
    /// # Examples
    ///
    /// ```
    /// use icu_calendar::lists::{Missing, Rule, Window};
    /// use icu_calendar::types::DateDurationUnit;
    /// use icu_calendar::Date;
    ///
    /// # fn main() -> Result<(), Box<dyn std::error::Error>> {
    /// let start = Date::try_new_iso(2024, 3, 1)?;
    /// let daily = Rule::try_new(DateDurationUnit::Days, 1, Missing::Skip).unwrap();
    /// let window = Window::try_new(start.to_rata_die(), start.to_rata_die()).unwrap();
    /// let mut list = start.recur(daily, window);
    /// assert_eq!(list.rest(), Some(window));
    /// list.next();
    /// assert_eq!(list.rest(), None);
    /// # Ok(())
    /// # }
    /// ```
    pub fn rest(&self) -> Option<Window> {
        self.rest
    }

    /// Returns how many units can be added to the start so that the sum doesn't lie in the window, but for the last
    /// one.
    fn units_before(&self, start_year: i32, first: RataDie) -> u32 {
        let day = first.to_i64_date();
        if day <= self.start {
            return 0;
        }
        match self.rule.unit {
            DateDurationUnit::Days => (day - self.start) as u32,
            DateDurationUnit::Weeks => ((day - self.start) / 7) as u32,
            DateDurationUnit::Years => {
                let years = self.chosen.date_of_day(first).extended_year - start_year;
                u32::try_from(years).unwrap_or(0)
            }
            DateDurationUnit::Months => {
                let largest_unit = Some(DateDurationUnit::Months);
                self.chosen
                    .until(self.start, day, DateDifferenceOptions { largest_unit })
                    .months
            }
        }
    }

    /// Returns the day of an occurrence, or `None` if there is none.
    fn occurrence(&self, index: u32, overflow: Overflow) -> Option<RataDie> {
        let amount = index.checked_mul(self.rule.every)?;
        let options = DateAddOptions {
            overflow: Some(overflow),
        };
        let sum = self
            .chosen
            .add(self.start, self.rule.duration(amount), options)
            .ok()?;
        Some(RataDie::new(sum.day_number()))
    }

    /// Returns the day of an occurrence, or of the day nearest to it, and whether it occurs.
    fn day_at(&self, index: u32) -> Option<(RataDie, bool)> {
        if self.rule.missing == Missing::Skip {
            if let Some(day) = self.occurrence(index, Overflow::Reject) {
                return Some((day, true));
            }
        }
        let day = self.occurrence(index, Overflow::Constrain)?;
        Some((day, self.rule.missing == Missing::Constrain))
    }

    /// Returns the next occurrence in a window, and moves behind it.
    fn next_in(&mut self, window: Window) -> Option<Occurrence> {
        loop {
            let index = self.index;
            let (day, occurs) = self.day_at(index)?;
            if day > window.last() {
                return None;
            }
            self.index = index.checked_add(1)?;
            if occurs && day >= window.first() {
                return Some(Occurrence { index, day });
            }
        }
    }
}

impl Iterator for Recurrence {
    type Item = Occurrence;

    fn next(&mut self) -> Option<Occurrence> {
        let found = self.rest.and_then(|window| self.next_in(window));
        self.rest = found.and_then(|item| self.rest?.after(item.day));
        found
    }
}
