//! Books of holidays: those of `books/` beside the days that other programs have, records with all fields beside the program `calspan`, and records
//! that are refused.

mod common;

use icu_calendar::holidays::{holidays, Book, BookError, Years};
use icu_calendar::lists::Window;
use icu_calendar::program::{calspan, Status};
use icu_calendar::rows::Rows;
use icu_calendar::types::RataDie;
use icu_calendar::{Date, Iso};
use std::fs;
use std::path::PathBuf;

/// The first and the last valid day.
const ENDS: (i64, i64) = (-365_242_499, 365_242_134);

/// The books of `books/`, without the ending of their names.
fn books() -> Vec<PathBuf> {
    let mut books = Vec::new();
    for folder in ["books", "books/countries"] {
        let files = fs::read_dir(common::top().join(folder)).unwrap();
        let files = files.map(|file| file.unwrap().path());
        let names = files.filter(|it| it.extension().is_some_and(|it| it == "csv"));
        books.extend(names.map(|it| it.with_extension("")));
    }
    books.sort();
    books
}

/// Returns the window of the years in a head such as `# Days of 1992 to 2029, made by`.
fn years_of(head: &str) -> Window {
    let words: Vec<&str> = head.split([' ', ',']).collect();
    let ["#", "Days", "of", first, "to", last, ..] = words[..] else {
        panic!("{head}")
    };
    let first = Date::try_new_iso(first.parse().unwrap(), 1, 1).unwrap();
    let last = Date::try_new_iso(last.parse().unwrap(), 12, 31).unwrap();
    Window::try_new(first.to_rata_die(), last.to_rata_die()).unwrap()
}

#[test]
fn books_have_the_days_of_other_programs() {
    let mut compared = 0;
    let books = books();
    assert!(books.len() > 60, "{}", books.len());
    for path in books {
        let read = fs::read(path.with_extension("csv")).unwrap();
        let book = Book::try_read(&read).unwrap();
        let top = common::top().join("books");
        let name = path.strip_prefix(&top).unwrap();
        let wanted = top.join("expected").join(name).with_extension("txt");
        let wanted = fs::read_to_string(wanted).unwrap();
        let window = years_of(wanted.lines().next().unwrap());
        let listed = holidays(&book, Years::Published, window, 0);
        let mut got: Vec<String> = listed
            .map(|it| {
                let date = Date::from_rata_die(it.day, Iso);
                let (year, month) = (date.extended_year(), date.month().ordinal);
                let day = date.day_of_month().0;
                format!("{year:04}-{month:02}-{day:02} {}", book.name(it.rule))
            })
            .collect();
        let mut wanted: Vec<&str> = wanted.lines().filter(|it| !it.starts_with('#')).collect();
        got.sort();
        wanted.sort();
        assert_eq!(got, wanted, "{}", name.display());
        compared += got.len();
    }
    assert!(compared > 18_000, "{compared}");
}

/// Lists a book as the program does, or says which record it refuses.
fn listed(book: &[u8], (first, last): (i64, i64)) -> String {
    let window = Window::try_new(RataDie::new(first), RataDie::new(last)).unwrap();
    match Book::try_read(book) {
        Ok(book) => holidays(&book, Years::Computed, window, 0)
            .map(|it| {
                let date = common::shown(&Date::from_rata_die(it.day, Iso));
                format!("{date} {}\n", book.name(it.rule))
            })
            .collect(),
        Err(BookError { number, field }) => format!("err record {number} field {field}\n"),
    }
}

/// Lists a book by the program.
fn listed_by_program(book: &[u8], (first, last): (i64, i64)) -> String {
    let run = calspan(&format!("holidays {first} {last}"), book);
    assert!(
        matches!(run.status, Status::Done | Status::Refused),
        "{:?}",
        run.status
    );
    String::from_utf8(run.output).unwrap()
}

const WEEKDAYS: [&str; 7] = [
    "sunday",
    "monday",
    "tuesday",
    "wednesday",
    "thursday",
    "friday",
    "saturday",
];

/// Makes the words of a field of moves.
fn moved(numbers: &mut common::Numbers) -> String {
    let start = numbers.below(7) as usize;
    let count = [0, 0, 1, 2, 3, 7][numbers.below(6) as usize];
    let words: Vec<String> = (0..count)
        .map(|turn| {
            let day = WEEKDAYS[(start + turn) % 7];
            format!("{day}{:+}", numbers.below(13) as i64 - 6)
        })
        .collect();
    words.join(" ")
}

/// Makes a year near that of a day, or nothing.
fn year_near(numbers: &mut common::Numbers, year: i32, spread: u64) -> String {
    if numbers.below(2) == 0 {
        return String::new();
    }
    let year = year + numbers.below(2 * spread) as i32 - spread as i32;
    year.clamp(-999_999, 999_999).to_string()
}

/// Recurrence rules of all calendars.
const RULES: [&str; 12] = [
    "FREQ=YEARLY",
    "FREQ=YEARLY;BYMONTH=2;BYMONTHDAY=30;SKIP=FORWARD",
    "FREQ=YEARLY;BYMONTHDAY=-1;INTERVAL=3",
    "FREQ=YEARLY;BYYEARDAY=1,-1",
    "FREQ=YEARLY;BYWEEKNO=1,-1;BYDAY=MO",
    "FREQ=MONTHLY;BYDAY=1MO,-1FR",
    "FREQ=MONTHLY;BYDAY=MO,TU,WE,TH,FR;BYSETPOS=-1;COUNT=60",
    "FREQ=MONTHLY;BYMONTHDAY=29;UNTIL=20240203",
    "FREQ=WEEKLY;INTERVAL=2;BYDAY=TU,SA;WKST=SU",
    "FREQ=DAILY;INTERVAL=40",
    "FREQ=DAILY;COUNT=30",
    "FREQ=HOURLY",
];

/// Makes what a record with a recurrence rule has after its calendar. The start may be near a day.
fn repeated(numbers: &mut common::Numbers, near: i64) -> String {
    let before = [0, 30, 4000, 90_000][numbers.below(4) as usize];
    let start = near + 30 - numbers.below(before + 60) as i64;
    let start = Date::from_rata_die(RataDie::new(start.clamp(-365, 3_652_059)), Iso);
    let (year, month) = (start.extended_year(), start.month().ordinal);
    let day = start.day_of_month().0;
    let rule = RULES[numbers.below(RULES.len() as u64) as usize];
    format!(",\"{rule}\",{year:04}-{month:02}-{day:02}")
}

/// Makes a record whose days may be near a day.
fn record(numbers: &mut common::Numbers, number: usize, near: i64) -> String {
    // A rule starts in the years 0 to 9999, and each of its days is counted from there.
    let kinds: &[&str] = match near {
        -365..=4_000_000 => &["fixed", "easter", "weekday", "span", "rule"],
        _ => &["fixed", "easter", "weekday", "span"],
    };
    let kind = kinds[numbers.below(kinds.len() as u64) as usize];
    let calendar = match kind {
        "easter" => ["gregorian", "julian"][numbers.below(2) as usize],
        _ => common::NAMES[numbers.below(20) as usize],
    };
    let date = Date::from_rata_die(RataDie::new(near), common::computed(calendar).unwrap());
    let weekday = WEEKDAYS[numbers.below(7) as usize];
    let days = [date.day_of_month().0, 1, 29, 30, 31];
    let day = days[numbers.below(5) as usize];
    let month = date.month().standard_code;
    let rest = match kind {
        "fixed" => format!(
            "{month},{day},{}",
            ["exact", "constrain"][numbers.below(2) as usize]
        ),
        "easter" => format!(",{},", numbers.below(801) as i64 - 400),
        "weekday" => {
            let nth = ["1", "2", "3", "4", "5", "-1"][numbers.below(6) as usize];
            format!("{month},{nth},{weekday}")
        }
        "rule" => repeated(numbers, near),
        _ => format!(
            "{month},{day},{}{weekday}",
            ["", "-"][numbers.below(2) as usize]
        ),
    };
    let since = year_near(numbers, date.extended_year(), 20);
    let until = year_near(numbers, date.extended_year(), 20);
    let every = match (since.as_str(), numbers.below(2)) {
        ("", _) | (_, 0) => String::new(),
        _ => [1, 2, 3, 4, 7, 19, 400][numbers.below(7) as usize].to_string(),
    };
    let moved = moved(numbers);
    format!("{kind},rule {number},{calendar},{rest},{since},{until},{every},{moved}\n")
}

/// Changes a byte of a text into one of those that records have, or takes it away.
fn changed(numbers: &mut common::Numbers, text: &str) -> Vec<u8> {
    let mut bytes = text.as_bytes().to_vec();
    let at = numbers.below(bytes.len() as u64) as usize;
    let by = b" ,+-0123456789LMadnsuy\"\n#\r"[numbers.below(26) as usize];
    match numbers.below(3) {
        0 => bytes[at] = by,
        1 => bytes.insert(at, by),
        _ => drop(bytes.remove(at)),
    }
    bytes
}

#[test]
fn books_are_listed_as_by_the_program() {
    let mut numbers = common::Numbers(66);
    let mut lines = 0;
    for turn in 0..400 {
        let length = [0, 30, 400, 1500, 4000][numbers.below(5) as usize];
        let first = match turn % 10 {
            0 => ENDS.0 + numbers.below(400) as i64,
            1 => ENDS.1 - length,
            _ => numbers.below(300_000) as i64 + 600_000,
        };
        let near = (first + numbers.below(length as u64 + 1) as i64).min(ENDS.1);
        let records: Vec<String> = (0..8)
            .map(|number| record(&mut numbers, number, near))
            .collect();
        let notes = ["", "# a book\n\n", "\r\n#\r\n", "\n\u{feff}"][numbers.below(4) as usize];
        let (book, window) = (
            notes.to_owned() + &records.concat(),
            (first, (first + length).min(ENDS.1)),
        );
        let wanted = listed_by_program(book.as_bytes(), window);
        assert_eq!(
            listed(book.as_bytes(), window),
            wanted,
            "{window:?}\n{book}"
        );
        lines += wanted.lines().count();
        for _ in 0..5 {
            let book = changed(&mut numbers, &book);
            let text = String::from_utf8_lossy(&book);
            let wanted = listed_by_program(&book, (first, first));
            assert_eq!(listed(&book, (first, first)), wanted, "{first}\n{text}");
        }
    }
    assert!(lines > 1000, "{lines}");
}

/// Compares the lists of single days.
fn compare_days(book: &str, days: std::ops::RangeInclusive<i64>) -> usize {
    let compared = days.map(|day| {
        let wanted = listed_by_program(book.as_bytes(), (day, day));
        assert_eq!(listed(book.as_bytes(), (day, day)), wanted, "{day}\n{book}");
        wanted.lines().count()
    });
    compared.sum()
}

#[test]
fn weeks_and_moves_over_the_ends_of_years_are_listed() {
    let mut lines = 0;
    for name in common::NAMES {
        let calendar = common::computed(name).unwrap();
        let date = Date::from_rata_die(RataDie::new(739_000), calendar);
        let first = date.to_rata_die() - i64::from(date.day_of_year().0) + 1;
        let last = Date::from_rata_die(first - 1, calendar);
        let (month, day) = (last.month().standard_code, last.day_of_month().0);
        let records = WEEKDAYS.map(|weekday| {
            format!(
                "span,a {weekday},{name},M01,1,-{weekday},,,,{weekday}-1\n\
                 span,b {weekday},{name},{month},{day},{weekday},,,,{weekday}+6\n\
                 fixed,c {weekday},{name},M01,1,exact,,,,{weekday}-6\n\
                 fixed,d {weekday},{name},{month},{day},exact,,,,{weekday}+6\n"
            )
        });
        let first = first.to_i64_date();
        lines += compare_days(&records.concat(), first - 14..=first + 14);
    }
    assert!(lines > 250, "{lines}");
}

#[test]
fn days_at_the_ends_of_all_days_are_listed() {
    let mut lines = 0;
    for name in common::NAMES {
        for (end, sign) in [(ENDS.0, '+'), (ENDS.1, '-')] {
            let calendar = common::computed(name).unwrap();
            let date = Date::from_rata_die(RataDie::new(end), calendar);
            let (month, day) = (date.month().standard_code, date.day_of_month().0);
            let moves = WEEKDAYS
                .map(|weekday| format!("{weekday}{sign}6"))
                .join(" ");
            let mut book = format!("span,s,{name},{month},{day},-sunday,,,,{moves}\n");
            for weekday in WEEKDAYS {
                for nth in ["1", "2", "3", "4", "5", "-1"] {
                    book += &format!(
                        "weekday,{weekday} {nth},{name},{month},{nth},{weekday},,,,{moves}\n"
                    );
                }
            }
            for offset in -400..=-350 {
                book += &format!("easter,{offset},gregorian,,{offset},,,,,{moves}\n");
            }
            let last = (end + 40).min(ENDS.1);
            lines += compare_days(&book, (last - 40).max(ENDS.0)..=last);
        }
    }
    assert!(lines > 900, "{lines}");
}

#[test]
fn books_over_published_rows_have_published_years() {
    let rows = ["china", "hijri", "korea", "persian"].map(|name| {
        let path = common::top().join(format!("rows/{name}.rows"));
        fs::read(path).unwrap()
    });
    let rows = Rows::try_read(&rows.concat()).unwrap();
    let window = Window::try_new(RataDie::new(700_000), RataDie::new(760_000)).unwrap();
    for name in ["chinese", "korean", "umm-al-qura", "countries/china"] {
        let text = fs::read(common::top().join(format!("books/{name}.csv"))).unwrap();
        let text = [b"\xef\xbb\xbf", text.as_slice()].concat();
        let book = Book::try_read(&text).unwrap();
        let over = |years| {
            let days = holidays(&book, years, window, 0);
            days.map(|it| (it.day, book.name(it.rule).to_owned()))
                .collect::<Vec<_>>()
        };
        let listed = rows.holidays(&text, window).unwrap();
        let listed: Vec<_> = listed
            .into_iter()
            .map(|it| (it.date.day_number, it.name))
            .collect();
        assert_eq!(listed, over(Years::Published), "{name}");
        assert_ne!(listed, over(Years::Computed), "{name}");
    }
    let none = Rows::default().holidays(b"row\n", window);
    let error = BookError {
        number: 1,
        field: 0,
    };
    assert_eq!(none, Err(error));
}

#[test]
fn the_first_invalid_field_is_named() {
    let easter = "easter,Easter,gregorian,,0";
    for (fields, field) in [
        (",,,,,,", 0),
        (",exact,x", 6),
        (",,1000000", 7),
        (",,+1", 7),
        (",,-,x", 7),
        (",,1,-0000001", 8),
        (",,,,2,x", 9),
        (",,1,,401", 9),
        (",,1,,0", 9),
        (",,1,,0001", 9),
        (",,,,,saturday", 10),
        (",,,,,saturday-7", 10),
        (",,,,,saturday1", 10),
        (",,,,,saturday-1  sunday+1", 10),
        (",,,,,sunday+1 sunday+1", 10),
        (",,,,,sunday+1 ", 10),
    ] {
        let book = format!("{easter},\n\n{easter}{fields}");
        let error = Book::try_read(book.as_bytes()).unwrap_err();
        assert_eq!(error, BookError { number: 2, field }, "{fields}");
    }
    for (record, field) in [
        ("spans,X,iso,M11,27,sunday", 1),
        ("span,,klingon,M11,27,sunday", 2),
        ("span,X,klingon,M11,27,sunday", 3),
        ("span,X,iso,M13,27,sunday", 4),
        ("span,X,iso,M11,0,sunday", 5),
        ("span,X,iso,M11,27,--sunday", 6),
        ("span,X,iso,M11,27,+sunday", 6),
        ("rules,X,iso,,FREQ=DAILY,2024-01-01", 1),
        ("rule,,klingon,,FREQ=DAILY,2024-01-01", 2),
        ("rule,X,klingon,M01,FREQ=DAILY,2024-01-01", 3),
        ("rule,X,iso,M01,FREQ=HOURLY,2024-01-01", 4),
        ("rule,X,iso,,,2024-01-01", 5),
        ("rule,X,iso,,FREQ=HOURLY,2024-02-30", 5),
        ("rule,X,iso,,FREQ=YEARLY;BYMONTH=5L,2024-01-01", 5),
        ("rule,X,hebrew,,RSCALE=CHINESE;FREQ=DAILY,2024-01-01", 5),
        ("rule,X,iso,,FREQ=WEEKLY;BYDAY=MO,TU,2024-01-01", 6),
        ("rule,X,iso,,FREQ=DAILY,", 6),
        ("rule,X,iso,,FREQ=DAILY,2023-02-29", 6),
        ("rule,X,iso,,FREQ=DAILY,2024-13-01,x", 6),
        ("rule,X,iso,,FREQ=DAILY,2024-00-01", 6),
        ("rule,X,iso,,FREQ=DAILY,2024-1-01", 6),
        ("rule,X,iso,,FREQ=DAILY,02024-01-01", 6),
        ("rule,X,iso,,FREQ=DAILY,-024-01-01", 6),
        ("rule,X,iso,,FREQ=DAILY,2024/01/01", 6),
        ("rule,X,iso,,FREQ=DAILY,2024-01-01 ", 6),
        ("rule,X,iso,,FREQ=DAILY,2024-01-01,x", 7),
        ("rule,X,iso,,FREQ=DAILY,2024-01-01,,x", 8),
        ("rule,X,iso,,FREQ=DAILY,2024-01-01,,,2", 9),
        ("rule,X,iso,,FREQ=DAILY,2024-01-01,,,,x", 10),
    ] {
        let error = Book::try_read(record.as_bytes()).unwrap_err();
        assert_eq!(error, BookError { number: 1, field }, "{record}");
        let wanted = listed_by_program(record.as_bytes(), (1, 1));
        assert_eq!(wanted, format!("err record 1 field {field}\n"), "{record}");
    }
}

#[test]
fn the_ends_of_each_range_are_read() {
    for record in [
        "easter,X,gregorian,,0,,",
        "easter,X,gregorian,,0,,,,,",
        "easter,X,gregorian,,0,,-999999,999999,400,",
        "easter,X,gregorian,,0,,000001,-0,001,sunday+0",
        "span,X,iso,M02,31,-saturday,,,,monday-6 tuesday+6",
        "span,X,hebrew,M05L,01,monday,5000",
        "rule,X,iso,,FREQ=DAILY,0000-01-01",
        "rule,X,iso,,\"freq=daily\",9999-12-31,1,2,3,sunday+1",
        "rule,X,chinese,,\"RSCALE=CHINESE;FREQ=YEARLY;BYMONTH=5L;BYMONTHDAY=1,15\",2024-02-29",
    ] {
        assert_eq!(Book::try_read(record.as_bytes()).unwrap().len(), 1);
    }
}

#[test]
fn rules_of_books_have_published_years() {
    let book = b"rule,Spring Festival,chinese,,FREQ=YEARLY;BYMONTH=1;BYMONTHDAY=1,1900-01-01\n\
                 fixed,Spring Festival,chinese,M01,1,exact,1900\n";
    let book = Book::try_read(book).unwrap();
    let window = Window::try_new(RataDie::new(693_000), RataDie::new(770_000)).unwrap();
    let days = |years, rule| {
        let days = holidays(&book, years, window, 0);
        let days = days.filter(|it| it.rule == rule).map(|it| it.day);
        days.collect::<Vec<_>>()
    };
    for years in [Years::Published, Years::Computed] {
        assert_eq!(days(years, 0), days(years, 1));
    }
    assert!(days(Years::Published, 0).len() > 200);
    assert_ne!(days(Years::Published, 0), days(Years::Computed, 0));
}
