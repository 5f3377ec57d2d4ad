//! An age, in years and as a whole.
use icu_calendar::options::DateDifferenceOptions;
use icu_calendar::types::DateDurationUnit;
use icu_calendar::Date;

fn main() -> Result<(), Box<dyn std::error::Error>> {
    let born = Date::try_new_gregorian(1990, 7, 20)?;
    let mut options = DateDifferenceOptions::default();
    options.largest_unit = Some(DateDurationUnit::Years);
    for (month, day) in [(7, 19), (7, 20)] {
        let today = Date::try_new_gregorian(2024, month, day)?;
        let age = born.try_until_with_options(&today, options)?;
        println!("{} years: {}", age.years, age);
    }
    Ok(())
}
