//! The holidays of a window.

use super::book::Book;
use super::days::first_day;
use crate::lists::Window;
use crate::types::RataDie;
use alloc::vec::Vec;

/// Where the years of Chinese, Korean, Umm al-Qura and Persian rules come from.
///
/// # Examples
///
/// ```
/// use icu_calendar::holidays::{holidays, Book, Years};
/// use icu_calendar::lists::Window;
/// use icu_calendar::types::RataDie;
///
/// # fn main() -> Result<(), Box<dyn std::error::Error>> {
/// let book = Book::try_read(b"fixed,Spring Festival,chinese,M01,1,exact")?;
/// let year = Window::try_new(RataDie::new(738521), RataDie::new(738885)).unwrap();
/// let day = |years| holidays(&book, years, year, 0).next().unwrap().day;
/// assert_eq!(day(Years::Published), RataDie::new(738542)); // 2023-01-22
/// assert_eq!(day(Years::Computed), RataDie::new(738571));
/// # Ok(())
/// # }
/// ```
#[derive(Clone, Copy, Debug, PartialEq, Eq, Hash)]
pub enum Years {
    /// Published years, and computed ones beyond.
    Published,
    /// Computed years only, as the program `calspan` counts.
    Computed,
}

/// A holiday: a day, and the rule that names it.
///
/// # Examples
///
/// ```
/// use icu_calendar::holidays::Holiday;
/// use icu_calendar::types::RataDie;
///
/// let holiday = Holiday { day: RataDie::new(738976), rule: 0 };
/// assert_eq!(holiday.rule, 0);
/// ```
#[derive(Clone, Copy, Debug, PartialEq, Eq, Hash)]
pub struct Holiday {
    /// The day.
    pub day: RataDie,
    /// The place of the rule in the book, from 0.
    pub rule: usize,
}

/// What is left of a list of holidays.
///
/// # Examples
///
/// ```
/// use icu_calendar::holidays::{holidays, Book, Rest, Years};
/// use icu_calendar::lists::Window;
/// use icu_calendar::types::RataDie;
///
/// # fn main() -> Result<(), Box<dyn std::error::Error>> {
/// let book = Book::try_read(b"easter,Easter,gregorian,,0,\neaster,Sunday,gregorian,,0,\n")?;
/// let window = Window::try_new(RataDie::new(738886), RataDie::new(739251)).unwrap();
/// let mut days = holidays(&book, Years::Published, window, 0);
/// days.next();
/// let Rest { window, first_rule } = days.rest().unwrap();
/// let mut left = holidays(&book, Years::Published, window, first_rule);
/// assert_eq!(left.next(), days.next());
/// # Ok(())
/// # }
/// ```
#[derive(Clone, Copy, Debug, PartialEq, Eq, Hash)]
pub struct Rest {
    /// The days that are left.
    pub window: Window,
    /// The first rule for the first of these days.
    pub first_rule: usize,
}

/// An iterator over the holidays of a window, by day, and on one day in the order of the book.
///
/// # Examples
///
/// ```
/// use icu_calendar::holidays::{holidays, Book, Years};
/// use icu_calendar::lists::Window;
/// use icu_calendar::types::RataDie;
///
/// # fn main() -> Result<(), Box<dyn std::error::Error>> {
/// let book = Book::try_read(b"weekday,Monday,iso,M01,1,monday\n")?;
/// let years = Window::try_new(RataDie::new(738886), RataDie::new(739616)).unwrap();
/// assert_eq!(holidays(&book, Years::Published, years, 0).count(), 2);
/// # Ok(())
/// # }
/// ```
#[derive(Clone, Debug)]
pub struct Holidays<'b> {
    book: &'b Book,
    years: Years,
    rest: Option<Rest>,
    /// The next day of each rule.
    days: Vec<Option<RataDie>>,
}

/// Lists the holidays of a window. `first_rule` is the first rule for the window's first day: 0, or what
/// [`Holidays::rest`] says.
///
/// # Examples
///
/// ```
/// use icu_calendar::holidays::{holidays, Book, Years};
/// use icu_calendar::lists::Window;
/// use icu_calendar::types::RataDie;
///
/// # fn main() -> Result<(), Box<dyn std::error::Error>> {
/// let book = Book::try_read(b"fixed,Purim,hebrew,M06,14,constrain\n")?;
/// let year = Window::try_new(RataDie::new(738886), RataDie::new(739251)).unwrap();
/// let purim = holidays(&book, Years::Published, year, 0).next().unwrap();
/// assert_eq!(purim.day, RataDie::new(738969)); // 2024-03-24
/// # Ok(())
/// # }
/// ```
pub fn holidays(book: &Book, years: Years, window: Window, first_rule: usize) -> Holidays<'_> {
    let mut list = Holidays {
        book,
        years,
        rest: Some(Rest { window, first_rule }),
        days: Vec::with_capacity(book.len()),
    };
    for rule in 0..book.len() {
        let from = if rule < first_rule {
            window.after(window.first())
        } else {
            Some(window)
        };
        list.days.push(list.first_day(rule, from));
    }
    list
}

impl Holidays<'_> {
    /// Returns what is left of the list, or `None` after the end.
    ///
    /// # Examples
    ///
    /// ```
    /// use icu_calendar::holidays::{holidays, Book, Years};
    /// use icu_calendar::lists::Window;
    /// use icu_calendar::types::RataDie;
    ///
    /// # fn main() -> Result<(), Box<dyn std::error::Error>> {
    /// let book = Book::try_read(b"easter,Easter,gregorian,,0,")?;
    /// let year = Window::try_new(RataDie::new(738886), RataDie::new(739251)).unwrap();
    /// let mut days = holidays(&book, Years::Published, year, 0);
    /// assert_eq!(days.rest().unwrap().window, year);
    /// days.by_ref().count();
    /// assert_eq!(days.rest(), None);
    /// # Ok(())
    /// # }
    /// ```
    pub fn rest(&self) -> Option<Rest> {
        self.rest
    }

    fn first_day(&self, rule: usize, window: Option<Window>) -> Option<RataDie> {
        first_day(self.book.entry(rule), self.years, window?)
    }

    /// Returns what is left of a window behind a holiday.
    fn behind(&self, window: Window, found: Holiday) -> Option<Rest> {
        if found.rule + 1 < self.days.len() {
            let window = Window::try_new(found.day, window.last())?;
            let first_rule = found.rule + 1;
            return Some(Rest { window, first_rule });
        }
        let window = window.after(found.day)?;
        Some(Rest {
            window,
            first_rule: 0,
        })
    }
}

impl Iterator for Holidays<'_> {
    type Item = Holiday;

    fn next(&mut self) -> Option<Holiday> {
        let window = self.rest?.window;
        let days = self.days.iter().enumerate();
        let first = days
            .filter_map(|(rule, day)| day.map(|day| (day, rule)))
            .min();
        let Some((day, rule)) = first else {
            self.rest = None;
            return None;
        };
        let found = Holiday { day, rule };
        self.days[rule] = self.first_day(rule, window.after(day));
        self.rest = self.behind(window, found);
        Some(found)
    }
}
