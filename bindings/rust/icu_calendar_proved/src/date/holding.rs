//! Dates that share their calendar.

use super::Date;
use crate::calendar::AsCalendar;
use alloc::{rc::Rc, sync::Arc};

impl<A: AsCalendar> Date<A> {
    /// Moves the date's calendar into an `Rc`, which several dates may share.
    ///
    /// # Examples
    ///
    /// ```
    /// use icu_calendar::Date;
    ///
    /// # fn main() -> Result<(), Box<dyn std::error::Error>> {
    /// let date = Date::try_new_iso(2024, 3, 1)?;
    /// assert_eq!(date.into_ref_counted(), date);
    /// # Ok(())
    /// # }
    /// ```
    pub fn into_ref_counted(self) -> Date<Rc<A>> {
        Date {
            inner: self.inner,
            calendar: Rc::new(self.calendar),
        }
    }

    /// Moves the date's calendar into an `Arc`, which several dates and threads may share.
    ///
    /// # Examples
    ///
    /// ```
    /// use icu_calendar::Date;
    ///
    /// # fn main() -> Result<(), Box<dyn std::error::Error>> {
    /// let date = Date::try_new_iso(2024, 3, 1)?.into_atomic_ref_counted();
    /// let year = std::thread::spawn(move || date.extended_year()).join().unwrap();
    /// assert_eq!(year, 2024);
    /// # Ok(())
    /// # }
    /// ```
    pub fn into_atomic_ref_counted(self) -> Date<Arc<A>> {
        Date {
            inner: self.inner,
            calendar: Arc::new(self.calendar),
        }
    }
}
