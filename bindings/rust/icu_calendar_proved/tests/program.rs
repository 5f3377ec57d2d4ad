//! Dates of this crate beside those of the program `calspan`, on generated days, over published years and without them.

mod common;

use icu_calendar::cal::Computed;
use icu_calendar::lists::{anniversaries, Leaping, Window};
use icu_calendar::program::{calspan, Run, Status};
use icu_calendar::rows::{LineFault, Request, Rows, RowsError, TableName};
use icu_calendar::types::{DateDurationUnit, DateFields, Month, RataDie};
use icu_calendar::{AnyCalendar, AnyCalendarKind, AsCalendar, Date, Iso};
use std::fs;

/// The published rows.
fn published_rows() -> Vec<u8> {
    let read = |name| fs::read(common::top().join(format!("rows/{name}.rows"))).unwrap();
    ["china", "hijri", "korea", "persian"].map(read).concat()
}

/// The fields of a date: its extended year, its month and its day.
fn fields<A: AsCalendar>(date: &Date<A>) -> String {
    let code = date.month().standard_code;
    format!(
        "year={} month={code} day={}",
        date.extended_year(),
        date.day_of_month().0
    )
}

/// Makes requests between days of each calendar and its neighbour in the list.
fn requests<A: AsCalendar + Copy>(count: usize, calendar_of: impl Fn(&str) -> A) -> Vec<String> {
    let mut numbers = common::Numbers(74);
    let mut lines = Vec::new();
    for turn in 0..count {
        let (name, shown) = (
            common::NAMES[turn % 20],
            common::NAMES[numbers.below(20) as usize],
        );
        let calendar = calendar_of(name);
        let first = Date::from_rata_die(numbers.day(), calendar);
        let second = Date::from_rata_die(numbers.day(), calendar);
        let unit = ["years", "months", "weeks", "days", "none"][numbers.below(5) as usize];
        let overflow = ["constrain", "reject", "none"][numbers.below(3) as usize];
        let (from, to) = (fields(&first), fields(&second));
        lines.push(format!(
            "span {name} {shown} {unit} {overflow} none from {from} to {to}"
        ));
    }
    lines
}

/// Compares the program's answers to requests with those of dates.
fn compare<A: AsCalendar + Copy>(rows: &[u8], calendar_of: impl Fn(&str) -> A + Copy) {
    let lines = requests(10_000, calendar_of);
    let input = [rows, lines.join("\n").as_bytes(), b"\n"].concat();
    let Run { status, output } = calspan("span", &input);
    assert!(
        status == Status::Done || status == Status::Refused,
        "{status:?}"
    );
    let output = String::from_utf8(output).unwrap();
    assert_eq!(output.lines().count(), lines.len());
    for (line, wanted) in lines.iter().zip(output.lines()) {
        assert_eq!(common::answer(line, calendar_of), wanted, "{line}");
    }
}

#[test]
fn dates_are_those_of_the_program() {
    compare(b"", |name| common::computed(name).unwrap());
}

#[test]
fn dates_over_published_years_are_those_of_the_program() {
    compare(&published_rows(), |name| common::calendar(name).unwrap());
}

#[test]
fn anniversaries_over_published_years_are_those_of_the_program() {
    let rows = Rows::try_read(&published_rows()).unwrap();
    let window = Window::try_new(RataDie::new(698_000), RataDie::new(770_000)).unwrap();
    for (name, month, day) in [
        ("chinese", Month::new(12), 30),
        ("dangi", Month::leap(5), 1),
        ("persian", Month::new(12), 30),
    ] {
        let kind = AnyCalendarKind::from_program_name(name.as_bytes()).unwrap();
        for leaping in [Leaping::Exact, Leaping::Constrain] {
            let own: Vec<_> = anniversaries(AnyCalendar::new(kind), month, day, leaping, window)
                .unwrap()
                .collect();
            let listed = rows
                .anniversaries(kind, month, day, leaping, window)
                .unwrap();
            let listed: Vec<_> = listed.iter().map(|date| date.day_number).collect();
            assert_eq!(own, listed, "{name}");
            assert!(own.len() > 3, "{name}");
        }
    }
}

#[test]
fn rows_of_a_caller_replace_years() {
    let rows = Rows::try_read(b"# one year\r\n\nrow china 1912 698026 lslslslslsls 0").unwrap();
    let day = RataDie::new(698_055);
    let date = rows.date_of_day(day, AnyCalendarKind::Chinese);
    assert_eq!(
        (date.extended_year, date.month, date.day, date.era),
        (1912, Month::new(1), 30, None)
    );
    let computed = Date::from_rata_die(day, Computed(AnyCalendar::new(AnyCalendarKind::Chinese)));
    assert_ne!(computed.day_of_month().0, 30);
    let none = Rows::default().date_of_day(day, AnyCalendarKind::Chinese);
    assert_eq!(
        (none.extended_year, none.day),
        (computed.extended_year(), computed.day_of_month().0)
    );
}

#[test]
fn requests_over_rows_have_their_options() {
    let from = DateFields::from_year_month_day(2024, Month::new(1), 31);
    let to = DateFields::from_year_month_day(2024, Month::new(3), 1);
    let mut request = Request::new(AnyCalendarKind::Iso, AnyCalendarKind::Hebrew, from, to);
    request.difference_options.largest_unit = Some(DateDurationUnit::Months);
    let span = Rows::default().span(&request).unwrap();
    assert_eq!(span.duration.to_string(), "P1M1D");
    assert_eq!(span.to_shown.month, Month::leap(5));
    assert_eq!(
        span.to.day_number,
        Date::try_new_iso(2024, 3, 1).unwrap().to_rata_die()
    );
    request.from.era = Some(b"an era with spaces and\nlines that is very, very long indeed");
    request.from.era_year = Some(i32::MIN);
    request.from.extended_year = None;
    assert_eq!(
        Rows::default().span(&request).unwrap_err().to_string(),
        "Result out of range in the first date"
    );
    request.from.era_year = Some(1);
    assert_eq!(
        Rows::default().span(&request).unwrap_err().to_string(),
        "Unknown era or invalid syntax in the first date"
    );
}

#[test]
fn invalid_rows_are_named() {
    let error = |text: &str| Rows::try_read(text.as_bytes()).unwrap_err();
    assert_eq!(
        error("row china 2024"),
        RowsError::Line {
            number: 1,
            fault: LineFault::Syntax
        }
    );
    assert_eq!(
        error("\nspan iso"),
        RowsError::Line {
            number: 2,
            fault: LineFault::Syntax
        }
    );
    assert_eq!(
        error("row era 2030 1 1 next 9"),
        RowsError::Line {
            number: 1,
            fault: LineFault::Range
        }
    );
    let table = error("row persian 1502\nrow persian 1503\n");
    assert!(
        matches!(
            table,
            RowsError::Table {
                table: TableName::Persian,
                row: 2,
                ..
            }
        ),
        "{table:?}"
    );
}

/// Writes an error of rows as the program does.
fn line_of(error: RowsError) -> String {
    match error {
        RowsError::Line { number, fault } => {
            format!("table line {number} {fault:?}").to_lowercase()
        }
        RowsError::Table { table, row, part } => {
            format!("table {table:?} {row} {part:?}").to_lowercase()
        }
        RowsError::TooLong => "long".to_owned(),
    }
}

#[test]
fn tables_of_the_cases_are_refused_alike() {
    let read = |name: &str| fs::read(common::top().join("cases/tables").join(name)).unwrap();
    let statuses = String::from_utf8(read("statuses")).unwrap();
    let mut compared = 0;
    for name in statuses.lines().filter_map(|line| line.strip_suffix(" 6")) {
        let (input, output) = (read(&format!("{name}.in")), read(&format!("{name}.out")));
        let output = String::from_utf8(output).unwrap();
        let wanted = output.lines().last().unwrap();
        let is_of_rows =
            |line: &&[u8]| line.is_empty() || line.starts_with(b"#") || line.starts_with(b"row");
        let lines = input.split(|byte| *byte == b'\n');
        let rows: Vec<_> = lines.take_while(is_of_rows).collect();
        // Of some the fault comes behind a line that is none of rows.
        if let Err(error) = Rows::try_read(&rows.join(&b'\n')) {
            assert_eq!(line_of(error), wanted, "{name}");
            compared += 1;
        }
    }
    assert!(compared > 20, "{compared} tables");
}

#[test]
fn the_program_says_how_it_ended() {
    assert_eq!(calspan("gen 1000", b"").output.len(), 79);
    assert_eq!(calspan("spin", b"").status, Status::Words);
    assert_eq!(calspan("span", b"spam\n").status, Status::Refused);
    assert_eq!(calspan("span", b"row\n").status, Status::TableRefused);
    let long = vec![b'#'; 16_777_217];
    assert_eq!(calspan("span", &long).status, Status::TooLong);
    // The output is longer than the first room for it.
    let run = calspan(
        "anniversary iso hebrew exact M01 1 -365242499 -360000000",
        b"",
    );
    assert_eq!(
        run.output.iter().filter(|byte| **byte == b'\n').count(),
        14_354
    );
    let first = Date::from_rata_die(RataDie::new(-365_242_499), Iso);
    assert!(run.output.starts_with(common::shown(&first).as_bytes()));
}
