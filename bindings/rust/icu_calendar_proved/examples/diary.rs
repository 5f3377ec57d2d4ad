//! Dates as keys of maps and sets.
use icu_calendar::cal::Hebrew;
use icu_calendar::types::Month;
use icu_calendar::{Date, Iso};
use std::collections::{BTreeMap, HashSet};

fn main() -> Result<(), Box<dyn std::error::Error>> {
    let mut diary: BTreeMap<Date<Iso>, &str> = BTreeMap::new();
    diary.insert(Date::try_new_iso(2024, 3, 24)?, "Purim");
    diary.insert(Date::try_new_iso(2024, 2, 10)?, "New Year");
    diary.insert(
        Date::try_new_hebrew_v2(5784, Month::new(7), 15)?.to_iso(),
        "Passover",
    );
    for (date, name) in &diary {
        println!("{date:?} {name}");
    }
    let days: HashSet<Date<Hebrew>> = diary.keys().map(|date| date.to_calendar(Hebrew)).collect();
    println!(
        "{}",
        days.contains(&Date::try_new_hebrew_v2(5784, Month::new(6), 14)?)
    );
    Ok(())
}
