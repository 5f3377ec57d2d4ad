//! The cases of the lists, `cases/lists.jsonl` and `cases/rrule.jsonl`, through the iterators of this crate and its rows.

mod common;

use icu_calendar::holidays::{holidays, Book, BookError, Years};
use icu_calendar::lists::{anniversaries, AnniversaryError, Leaping, Missing, Rule, Window};
use icu_calendar::rows::{Rows, RuleError};
use icu_calendar::types::{Month, RataDie};
use icu_calendar::{AnyCalendarKind, Date, Iso};
use std::collections::BTreeSet;
use std::fs;

/// A case: the words of a command, what it reads and what it writes.
struct Case {
    words: Vec<String>,
    source: String,
    out: String,
    are_words_wrong: bool,
}

/// Reads the texts of a line of JSON, whose keys have no escapes.
fn texts(line: &str) -> Vec<String> {
    let mut texts = Vec::new();
    let mut chars = line.chars();
    while chars.by_ref().any(|it| it == '"') {
        let mut text = String::new();
        loop {
            match chars.next().unwrap() {
                '"' => break,
                '\\' => match chars.next().unwrap() {
                    'n' => text.push('\n'),
                    'r' => text.push('\r'),
                    't' => text.push('\t'),
                    'b' => text.push('\u{8}'),
                    'f' => text.push('\u{c}'),
                    'u' => {
                        let digits: String = chars.by_ref().take(4).collect();
                        text.push(
                            char::from_u32(u32::from_str_radix(&digits, 16).unwrap()).unwrap(),
                        );
                    }
                    other => text.push(other),
                },
                other => text.push(other),
            }
        }
        texts.push(text);
    }
    texts
}

/// Reads a case: its keys are `words`, `source`, `out` and `status`, in this order.
fn case(line: &str) -> Case {
    let mut texts = texts(line);
    assert_eq!(texts.remove(0), "words");
    assert_eq!(texts.pop().unwrap(), "status");
    let out = texts.pop().unwrap();
    assert_eq!(texts.pop().unwrap(), "out");
    let source = texts.pop().unwrap();
    assert_eq!(texts.pop().unwrap(), "source");
    let are_words_wrong = line.ends_with("\"status\": 2}");
    Case {
        words: texts,
        source,
        out,
        are_words_wrong,
    }
}

fn cases(command: &str) -> Vec<Case> {
    let name = if command == "rrule" { "rrule" } else { "lists" };
    let lines = fs::read_to_string(common::top().join(format!("cases/{name}.jsonl"))).unwrap();
    let all = lines
        .lines()
        .map(case)
        .filter(|case| case.words[0] == command);
    let cases: Vec<Case> = all.collect();
    assert!(cases.len() > 100, "{command}: {}", cases.len());
    cases
}

/// Returns whether a case is about words, rows or lines, which are the program's own business.
fn is_about_lines(case: &Case) -> bool {
    case.are_words_wrong
        || case.source.lines().any(|line| line.starts_with("row"))
        || case.out.starts_with("err line")
}

fn window(first: &str, last: &str) -> Option<Window> {
    let day = |text: &str| RataDie::new(text.parse().unwrap());
    Window::try_new(day(first), day(last))
}

fn list_anniversaries(words: &[&str]) -> String {
    let &[_, calendar, shown, leaping, code, day, first, last] = words else {
        panic!("{words:?}")
    };
    let (calendar, shown) = (
        common::computed(calendar).unwrap(),
        common::computed(shown).unwrap(),
    );
    let Some(window) = window(first, last) else {
        return "err InvalidWindow\n".to_owned();
    };
    let leaping = if leaping == "exact" {
        Leaping::Exact
    } else {
        Leaping::Constrain
    };
    let month = Month::try_from_str(code).unwrap();
    match anniversaries(calendar, month, day.parse().unwrap(), leaping, window) {
        Ok(days) => days
            .map(|day| {
                let date = Date::from_rata_die(day, calendar);
                format!(
                    "{} {}\n",
                    common::shown(&date),
                    common::shown(&date.to_calendar(shown))
                )
            })
            .collect(),
        Err(AnniversaryError::MonthNotInCalendar) => "err MonthNotInCalendar\n".to_owned(),
        Err(AnniversaryError::InvalidDay) => "err InvalidDay\n".to_owned(),
    }
}

fn list_recurrences(words: &[&str]) -> String {
    let &[_, calendar, shown, unit, every, missing, first, last, ref fields @ ..] = words else {
        panic!("{words:?}")
    };
    let (calendar, shown) = (
        common::computed(calendar).unwrap(),
        common::computed(shown).unwrap(),
    );
    let Some(window) = window(first, last) else {
        return "err InvalidWindow\n".to_owned();
    };
    let missing = if missing == "skip" {
        Missing::Skip
    } else {
        Missing::Constrain
    };
    let Some(rule) = Rule::try_new(common::unit(unit).unwrap(), every.parse().unwrap(), missing)
    else {
        return "err Every\n".to_owned();
    };
    let start = match Date::try_from_fields(common::fields(fields), Default::default(), calendar) {
        Ok(start) => start,
        Err(error) => return format!("err {}\n", common::cause(error)),
    };
    let items = start.recur(rule, window).map(|item| {
        let date = Date::from_rata_die(item.day, calendar);
        format!(
            "{} {} {}\n",
            item.index,
            common::shown(&date),
            common::shown(&date.to_calendar(shown))
        )
    });
    items.collect()
}

fn list_holidays(words: &[&str], source: &str) -> String {
    let &[_, first, last] = words else {
        panic!("{words:?}")
    };
    let Some(window) = window(first, last) else {
        return "err InvalidWindow\n".to_owned();
    };
    let book = match Book::try_read(source.as_bytes()) {
        Ok(book) => book,
        Err(error) => return format!("err record {} field {}\n", error.number, error.field),
    };
    let days = holidays(&book, Years::Computed, window, 0);
    days.map(|it| {
        format!(
            "{} {}\n",
            common::shown(&Date::from_rata_die(it.day, Iso)),
            book.name(it.rule)
        )
    })
    .collect()
}

/// Lists a rule from a day number on. Cases of other starts are passed over.
fn list_rule(words: &[&str], case: &Case) -> Option<String> {
    let &[_, calendar, _, first, last, start, rule] = words else {
        return None;
    };
    let kind = AnyCalendarKind::from_program_name(calendar.as_bytes())?;
    let start = start.parse().ok().map(RataDie::new)?;
    let Some(window) = window(first, last) else {
        return Some("err InvalidWindow\n".to_owned());
    };
    let rows = Rows::try_read(case.source.as_bytes()).unwrap();
    let found = match rows.rule(kind, start, rule, window) {
        Ok(found) => found,
        Err(RuleError { fault, part }) => {
            let part = part.map_or(String::new(), |it| format!(" {}", it.as_str()));
            return Some(format!("err {fault:?}{part}\n"));
        }
    };
    // What is compared of a line: its index and its day.
    let lines = found
        .iter()
        .map(|it| format!("{} @{}", it.index, it.date.day_number.to_i64_date()));
    Some(lines.collect::<Vec<_>>().join("\n"))
}

/// Returns the index and the day of each line, or the error line.
fn indexed_days(out: &str) -> String {
    if out.starts_with("err") {
        return out.to_owned();
    }
    let day = |line: &str| {
        let (index, _) = line.split_once(' ').unwrap();
        format!("{index} @{}", line.rsplit_once('@').unwrap().1)
    };
    out.lines().map(day).collect::<Vec<_>>().join("\n")
}

#[test]
fn rules_are_the_programs() {
    let mut compared = 0;
    for case in cases("rrule") {
        // A start that is no valid day is clamped here, and an error of the program.
        if is_about_lines(&case) || case.out == "err Overflow\n" {
            continue;
        }
        let words: Vec<&str> = case.words.iter().map(String::as_str).collect();
        if let Some(found) = list_rule(&words, &case) {
            assert_eq!(found, indexed_days(&case.out), "{words:?}");
            compared += 1;
        }
    }
    assert!(compared > 100, "{compared}");
}

/// The records of a rule in a book: in all years, up to a year, and every third year from it on, when days move.
fn records(calendar: &str, rule: &str, start: &Date<Iso>, year: i32) -> String {
    let quoted = rule.replace('"', "\"\"");
    let (number, month) = (start.extended_year(), start.month().ordinal);
    let day = start.day_of_month().0;
    let record = format!("rule,X,{calendar},,\"{quoted}\",{number:04}-{month:02}-{day:02}");
    format!("{record}\n{record},,{year}\n{record},{year},,3,{MOVED}\n")
}

/// How days move, and by how many days each weekday from Sunday on.
const MOVED: &str = "monday+6 tuesday-6 wednesday+1 thursday-1 saturday+3";
const MOVES: [i64; 7] = [0, 6, -6, 1, -1, 0, 3];

/// Returns the extended year and the day of each line in a list of the program.
fn years_and_days(out: &str) -> Vec<(i32, i64)> {
    let date = |line: &str| {
        let date = line.split(' ').nth(1).unwrap();
        let (year, _) = date.split_once('/').unwrap();
        let (_, day) = date.rsplit_once('@').unwrap();
        (year.parse().unwrap(), day.parse().unwrap())
    };
    out.lines().map(date).collect()
}

/// Returns the days of the three records, with their places.
fn days_of_records(occurrences: &[(i32, i64)], from: i32, window: Window) -> Vec<(i64, usize)> {
    let mut days = BTreeSet::new();
    for &(year, day) in occurrences {
        days.insert((day, 0));
        if year <= from {
            days.insert((day, 1));
        }
        if year >= from && (year - from) % 3 == 0 {
            days.insert((day + MOVES[day.rem_euclid(7) as usize], 2));
        }
    }
    let days = days.into_iter();
    days.filter(|(day, _)| window.contains(RataDie::new(*day)))
        .collect()
}

#[test]
fn rules_of_books_are_the_programs() {
    let (mut compared, mut refused) = (0, 0);
    for case in cases("rrule") {
        let words: Vec<&str> = case.words.iter().map(String::as_str).collect();
        let &[_, calendar, _, first, last, start, rule] = &words[..] else {
            continue;
        };
        let Ok(start) = start.parse().map(RataDie::new) else {
            continue;
        };
        let start = Date::from_rata_die(start, Iso);
        let is_other = ["err InvalidWindow\n", "err Overflow\n"].contains(&case.out.as_str());
        if is_about_lines(&case) || is_other || !(0..=9999).contains(&start.extended_year()) {
            continue;
        }
        if case.out.starts_with("err ") {
            let error = Book::try_read(records(calendar, rule, &start, 0).as_bytes()).unwrap_err();
            let (number, field) = (1, 5);
            assert_eq!(error, BookError { number, field }, "{words:?}");
            refused += 1;
            continue;
        }
        // A day moves by at most six days, so all that lead to a day of a window six days smaller are listed.
        let days = |text: &str| text.parse::<i64>().unwrap();
        let ends = (RataDie::new(days(first) + 6), RataDie::new(days(last) - 6));
        let Some(window) = Window::try_new(ends.0, ends.1) else {
            continue;
        };
        let occurrences = years_and_days(&case.out);
        let middle = occurrences.get(occurrences.len() / 2);
        let year = middle.map_or(0, |(year, _)| *year);
        let book = Book::try_read(records(calendar, rule, &start, year).as_bytes()).unwrap();
        let found = holidays(&book, Years::Computed, window, 0);
        let found: Vec<_> = found.map(|it| (it.day.to_i64_date(), it.rule)).collect();
        let wanted = days_of_records(&occurrences, year, window);
        assert_eq!(found, wanted, "{words:?}");
        compared += wanted.len();
    }
    assert!(compared > 1000 && refused > 50, "{compared}, {refused}");
}

fn compare(command: &str, list: impl Fn(&[&str], &Case) -> String) {
    let mut compared = 0;
    for case in cases(command) {
        if is_about_lines(&case) {
            continue;
        }
        let words: Vec<&str> = case.words.iter().map(String::as_str).collect();
        assert_eq!(list(&words, &case), case.out, "{words:?}");
        compared += 1;
    }
    assert!(compared > 100, "{command}: {compared}");
}

#[test]
fn anniversaries_are_the_programs() {
    compare("anniversary", |words, _| list_anniversaries(words));
}

#[test]
fn recurrences_are_the_programs() {
    compare("recur", |words, _| list_recurrences(words));
}

#[test]
fn holidays_are_the_programs() {
    compare("holidays", |words, case| list_holidays(words, &case.source));
}

#[test]
fn lists_are_resumed() {
    let window = Window::try_new(RataDie::new(700_000), RataDie::new(740_000)).unwrap();
    let mut text = fs::read(common::top().join("books/jewish.csv")).unwrap();
    text.extend(b"rule,Mondays,iso,,FREQ=WEEKLY;BYDAY=MO,1920-01-01\n");
    let book = Book::try_read(&text).unwrap();
    let mut list = holidays(&book, Years::Published, window, 0);
    let whole: Vec<_> = list.clone().collect();
    let mut resumed = Vec::new();
    while let Some(item) = list.next() {
        resumed.push(item);
        let Some(rest) = list.rest() else { break };
        list = holidays(&book, Years::Published, rest.window, rest.first_rule);
    }
    assert_eq!(resumed, whole);
    assert!(whole.len() > 1000);
}
