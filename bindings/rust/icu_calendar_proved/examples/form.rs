//! A form's fields, with the error that names the one at fault.
use icu_calendar::cal::Hebrew;
use icu_calendar::options::{DateFromFieldsOptions, Overflow};
use icu_calendar::types::DateFields;
use icu_calendar::Date;

fn main() {
    let mut options = DateFromFieldsOptions::default();
    for (year, code, day) in [
        (5784, "M05L", 30),
        (5785, "M05L", 30),
        (5785, "M14", 1),
        (5785, "M02", 31),
        (5785, "Adar", 1),
    ] {
        let mut fields = DateFields::default();
        fields.extended_year = Some(year);
        fields.month_code = Some(code.as_bytes());
        fields.day = Some(day);
        options.overflow = None;
        match Date::try_from_fields(fields, options, Hebrew) {
            Ok(date) => println!("{year} {code} {day}: {:?}", date.to_iso()),
            Err(error) => println!("{year} {code} {day}: {error}"),
        }
        options.overflow = Some(Overflow::Constrain);
        if let Ok(date) = Date::try_from_fields(fields, options, Hebrew) {
            println!(
                "  nearest: {} {}",
                date.month().standard_code,
                date.day_of_month().0
            );
        }
    }
}
