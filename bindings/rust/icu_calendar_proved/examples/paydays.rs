//! The last days of months, as a sum and as a rule.
use icu_calendar::lists::{Missing, Rule, Window};
use icu_calendar::options::{DateAddOptions, Overflow};
use icu_calendar::types::{DateDuration, DateDurationUnit};
use icu_calendar::{Date, Iso};

fn main() -> Result<(), Box<dyn std::error::Error>> {
    let start = Date::try_new_iso(2024, 1, 31)?;
    let next =
        start.try_added_with_options(DateDuration::for_months(1), DateAddOptions::default())?;
    println!("{next:?}");
    let mut options = DateAddOptions::default();
    options.overflow = Some(Overflow::Reject);
    println!(
        "{}",
        start
            .try_added_with_options(DateDuration::for_months(1), options)
            .unwrap_err()
    );
    let monthly = Rule::try_new(DateDurationUnit::Months, 1, Missing::Constrain)
        .ok_or("a rule of no months")?;
    let window =
        Window::try_new(start.to_rata_die(), start.to_rata_die() + 130).ok_or("no days")?;
    for item in start.recur(monthly, window) {
        let date = Date::from_rata_die(item.day, Iso);
        println!(
            "{}: {}-{:02}, {:?}",
            item.index,
            date.month().ordinal,
            date.day_of_month().0,
            date.weekday()
        );
    }
    Ok(())
}
