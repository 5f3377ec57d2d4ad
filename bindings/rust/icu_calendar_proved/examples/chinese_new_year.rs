//! Chinese New Year, and the leap months between.
use icu_calendar::types::Month;
use icu_calendar::Date;

fn main() -> Result<(), Box<dyn std::error::Error>> {
    for year in 2023..=2026 {
        let date = Date::try_new_chinese_traditional(year, Month::new(1), 1)?;
        let iso = date.to_iso();
        print!(
            "{}-{:02}-{:02}",
            year,
            iso.month().ordinal,
            iso.day_of_month().0
        );
        print!(
            ", year {} of the cycle, {} months",
            date.cyclic_year().year,
            date.months_in_year()
        );
        let leap = (1..=12).find(|number| {
            Date::try_new_chinese_traditional(year, Month::leap(*number), 1).is_ok()
        });
        match leap {
            Some(number) => println!(", leap month {}", Month::leap(number).code()),
            None => println!(),
        }
    }
    Ok(())
}
