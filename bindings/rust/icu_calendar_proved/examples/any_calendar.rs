//! Calendars that are chosen at run time, shared between dates.
use icu_calendar::{AnyCalendar, AnyCalendarKind, Date};
use std::rc::Rc;

fn main() -> Result<(), Box<dyn std::error::Error>> {
    let day = Date::try_new_iso(2024, 3, 1)?.to_any();
    for name in ["gregorian", "roc", "indian", "ethiopic", "dangi"] {
        let kind = AnyCalendarKind::from_program_name(name.as_bytes()).ok_or("no such calendar")?;
        let calendar = Rc::new(AnyCalendar::new(kind));
        let date = day.to_calendar(Rc::clone(&calendar));
        let next = Date::try_new_iso(2024, 3, 2)?.to_calendar(calendar);
        println!("{:?} before {:?}: {}", date, next, date < next);
    }
    println!(
        "{:?}",
        day.partial_cmp(&day.to_calendar(AnyCalendar::new(AnyCalendarKind::Roc)))
    );
    Ok(())
}
