//! Dates in the format of RFC 9557, and what is wrong with others.
use icu_calendar::cal::Hebrew;
use icu_calendar::{Date, Iso};

fn main() {
    for text in [
        "2024-03-01",
        "2024-03-01[u-ca=hebrew]",
        "-000044-03-15",
        "2024-03-01[u-ca=roc]",
        "2023-02-29",
        "March 1",
    ] {
        match Date::try_from_str(text, Hebrew) {
            Ok(date) => println!("{text}: {date:?}"),
            Err(error) => println!("{text}: {error}"),
        }
    }
    let date: Date<Iso> = "2024-03-01".parse().unwrap();
    println!("{:?}", date.weekday());
}
