//! The birthdays of someone born on 10 Adar I, also in years without a leap month.
use icu_calendar::cal::Hebrew;
use icu_calendar::lists::{anniversaries, Leaping, Window};
use icu_calendar::types::Month;
use icu_calendar::{Date, Iso};

fn main() -> Result<(), Box<dyn std::error::Error>> {
    let first = Date::try_new_iso(2022, 1, 1)?.to_rata_die();
    let last = Date::try_new_iso(2025, 12, 31)?.to_rata_die();
    let window = Window::try_new(first, last).expect("the first day comes first");
    for day in anniversaries(Hebrew, Month::leap(5), 10, Leaping::Constrain, window)? {
        let date = Date::from_rata_die(day, Iso);
        let year = date.to_calendar(Hebrew).era_year().year;
        println!(
            "{year}: {}-{:02}-{:02}",
            date.extended_year(),
            date.month().ordinal,
            date.day_of_month().0
        );
    }
    Ok(())
}
