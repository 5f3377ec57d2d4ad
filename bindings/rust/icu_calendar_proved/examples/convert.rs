//! A day in several calendars.
use icu_calendar::cal::{Buddhist, ChineseTraditional, Coptic, Hebrew, Hijri, Japanese, Persian};
use icu_calendar::{Date, Gregorian};

fn main() -> Result<(), Box<dyn std::error::Error>> {
    let day = Date::try_new_iso(2024, 3, 1)?;
    println!("{:?}", day);
    println!("{:?}", day.to_calendar(Gregorian));
    println!("{:?}", day.to_calendar(Buddhist));
    println!("{:?}", day.to_calendar(Japanese::new()));
    println!("{:?}", day.to_calendar(Hebrew));
    println!("{:?}", day.to_calendar(Hijri::new_umm_al_qura()));
    println!("{:?}", day.to_calendar(Persian));
    println!("{:?}", day.to_calendar(ChineseTraditional::new()));
    println!("{:?}", day.to_calendar(Coptic));
    Ok(())
}
