//! The holidays of a year that a book names.
use icu_calendar::holidays::{holidays, Book, Years};
use icu_calendar::lists::Window;
use icu_calendar::{Date, Iso};

const BOOK: &str = "\
fixed,Spring Festival,chinese,M01,1,exact
fixed,Purim,hebrew,M06,14,constrain
easter,Easter,gregorian,,0,
easter,Pascha,julian,,0,
weekday,Thanksgiving,gregorian,M11,4,thursday
rule,Election Day,gregorian,,\"FREQ=YEARLY;INTERVAL=4;BYMONTH=11;BYDAY=TU;BYMONTHDAY=2,3,4,5,6,7,8\",2024-11-05
";

fn main() -> Result<(), Box<dyn std::error::Error>> {
    let book = Book::try_read(BOOK.as_bytes())?;
    let first = Date::try_new_iso(2024, 1, 1)?.to_rata_die();
    let window = Window::try_new(first, first + 365).ok_or("no days")?;
    for holiday in holidays(&book, Years::Published, window, 0) {
        let date = Date::from_rata_die(holiday.day, Iso);
        println!(
            "{:02}-{:02} {}",
            date.month().ordinal,
            date.day_of_month().0,
            book.name(holiday.rule)
        );
    }
    Ok(())
}
