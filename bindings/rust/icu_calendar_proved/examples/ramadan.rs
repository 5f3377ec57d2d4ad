//! The first days of Ramadan by published years of Umm al-Qura, beside the tabular calendar.
use icu_calendar::cal::hijri::{TabularAlgorithmEpoch, TabularAlgorithmLeapYears};
use icu_calendar::cal::Hijri;
use icu_calendar::Date;

fn main() -> Result<(), Box<dyn std::error::Error>> {
    let civil = Hijri::new_tabular(
        TabularAlgorithmLeapYears::TypeII,
        TabularAlgorithmEpoch::Friday,
    );
    for year in 1443..=1447 {
        let published = Date::try_new_hijri_with_calendar(year, 9, 1, Hijri::new_umm_al_qura())?;
        let tabular = Date::try_new_hijri_with_calendar(year, 9, 1, civil)?;
        let iso = published.to_iso();
        print!(
            "{year}: {}-{:02}-{:02}",
            iso.extended_year(),
            iso.month().ordinal,
            iso.day_of_month().0
        );
        println!(
            ", tabular {:+} days",
            tabular.to_rata_die() - published.to_rata_die()
        );
    }
    Ok(())
}
