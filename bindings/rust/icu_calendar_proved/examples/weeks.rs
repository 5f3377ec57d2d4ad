//! Weeks of ISO 8601 around the turn of years.
use icu_calendar::Date;

fn main() -> Result<(), Box<dyn std::error::Error>> {
    for (year, month, day) in [
        (2020, 12, 31),
        (2021, 1, 3),
        (2021, 1, 4),
        (2024, 12, 29),
        (2024, 12, 30),
    ] {
        let date = Date::try_new_iso(year, month, day)?;
        let week = date.week_of_year();
        println!(
            "{year}-{month:02}-{day:02}: {}-W{:02}, {:?}",
            week.iso_year,
            week.week_number,
            date.weekday()
        );
    }
    Ok(())
}
