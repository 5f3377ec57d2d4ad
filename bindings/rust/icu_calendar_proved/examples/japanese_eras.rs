//! Dates by Japanese eras.
use icu_calendar::cal::Japanese;
use icu_calendar::Date;

fn main() -> Result<(), Box<dyn std::error::Error>> {
    let japanese = Japanese::new();
    for (era, year, month, day) in [
        ("heisei", 31, 4, 30),
        ("reiwa", 1, 5, 1),
        ("showa", 64, 1, 8),
        ("taisho", 1, 7, 30),
    ] {
        let date = Date::try_new_japanese_with_calendar(era, year, month, day, japanese)?;
        let (named, iso) = (date.era_year(), date.to_iso());
        let (iso_year, iso_month, iso_day) = (
            iso.extended_year(),
            iso.month().ordinal,
            iso.day_of_month().0,
        );
        println!(
            "{era} {year} is {} {}: {iso_year}-{iso_month:02}-{iso_day:02}",
            named.era, named.year
        );
    }
    println!(
        "{}",
        Date::try_new_japanese_with_calendar("keio", 3, 1, 1, japanese).unwrap_err()
    );
    Ok(())
}
