//! Requests and dates as the program `calspan` writes them.
#![allow(dead_code)]

use icu_calendar::cal::Computed;
use icu_calendar::error::DateFromFieldsError;
use icu_calendar::options::{
    DateDifferenceOptions, DateFromFieldsOptions, MissingFieldsStrategy, Overflow,
};
use icu_calendar::types::{DateDurationUnit, DateFields, Month, RataDie, YearInfo};
use icu_calendar::{AnyCalendar, AnyCalendarKind, AsCalendar, Date};
use std::path::{Path, PathBuf};

/// The folder of a checkout that this crate stands in.
pub fn top() -> PathBuf {
    Path::new(env!("CARGO_MANIFEST_DIR")).join("../../..")
}

/// Numbers that look random, from a fixed start.
pub struct Numbers(pub u64);

impl Numbers {
    /// Returns the next number below a bound.
    pub fn below(&mut self, bound: u64) -> u64 {
        self.0 = self
            .0
            .wrapping_mul(6_364_136_223_846_793_005)
            .wrapping_add(1_442_695_040_888_963_407);
        (self.0 >> 33) % bound
    }

    /// Returns a day: nearly always in recent centuries, and now and then anywhere.
    pub fn day(&mut self) -> RataDie {
        if self.below(8) == 0 {
            RataDie::new(self.below(730_484_634) as i64 - 365_242_499)
        } else {
            RataDie::new(self.below(300_000) as i64 + 600_000)
        }
    }
}

/// The twenty calendars of the program.
pub const NAMES: [&str; 20] = [
    "iso",
    "gregorian",
    "julian",
    "buddhist",
    "roc",
    "japanese",
    "chinese",
    "dangi",
    "hebrew",
    "islamic-umalqura",
    "islamic-civil",
    "islamic-tbla",
    "islamic-type1-friday",
    "islamic-type1-thursday",
    "islamic-simulated",
    "persian",
    "indian",
    "coptic",
    "ethiopic",
    "ethioaa",
];

pub fn calendar(name: &str) -> Option<AnyCalendar> {
    AnyCalendarKind::from_program_name(name.as_bytes()).map(AnyCalendar::new)
}

pub fn computed(name: &str) -> Option<Computed<AnyCalendar>> {
    calendar(name).map(Computed)
}

/// Writes a date as the program does.
pub fn shown<A: AsCalendar>(date: &Date<A>) -> String {
    let year = match date.year() {
        YearInfo::Era(year) => format!("{}.{}", year.era, year.year),
        YearInfo::Cyclic(year) => format!("cycle.{}", year.year),
    };
    let (extended, code) = (date.extended_year(), date.month().standard_code);
    let (day, number) = (date.day_of_month().0, date.to_rata_die().to_i64_date());
    format!("{extended}/{year}/{code}/{day:02}@{number}")
}

/// Writes an error as the program does.
pub fn cause(error: DateFromFieldsError) -> String {
    match error {
        DateFromFieldsError::InvalidOrdinalMonth { max } => format!("InvalidOrdinalMonth {max}"),
        DateFromFieldsError::InvalidDay { max } => format!("InvalidDay {max}"),
        other => format!("{other:?}"),
    }
}

pub fn unit(word: &str) -> Option<DateDurationUnit> {
    match word {
        "years" => Some(DateDurationUnit::Years),
        "months" => Some(DateDurationUnit::Months),
        "weeks" => Some(DateDurationUnit::Weeks),
        "days" => Some(DateDurationUnit::Days),
        _ => None,
    }
}

pub fn fields_options(overflow: &str, missing: &str) -> DateFromFieldsOptions {
    let mut options = DateFromFieldsOptions::default();
    options.overflow = match overflow {
        "constrain" => Some(Overflow::Constrain),
        "reject" => Some(Overflow::Reject),
        _ => None,
    };
    options.missing_fields_strategy = match missing {
        "ecma" => Some(MissingFieldsStrategy::Ecma),
        "reject" => Some(MissingFieldsStrategy::Reject),
        _ => None,
    };
    options
}

/// Reads the words of fields, which are known to be well formed.
pub fn fields<'a>(words: &[&'a str]) -> DateFields<'a> {
    let mut fields = DateFields::default();
    for word in words {
        let (key, value) = word.split_once('=').unwrap();
        match key {
            "era" => fields.era = Some(value.as_bytes()),
            "era-year" => fields.era_year = Some(value.parse().unwrap()),
            "year" => fields.extended_year = Some(value.parse().unwrap()),
            "month" => fields.month = Some(Month::try_from_str(value).unwrap()),
            "month-code" => fields.month_code = Some(value.as_bytes()),
            "ordinal" => fields.ordinal_month = Some(value.parse().unwrap()),
            "day" => fields.day = Some(value.parse().unwrap()),
            other => panic!("the key {other}"),
        }
    }
    fields
}

/// Answers a request line of the program through the dates of this crate. The line is known to be well formed.
pub fn answer<A: AsCalendar + Copy>(line: &str, calendar_of: impl Fn(&str) -> A) -> String {
    let words: Vec<&str> = line.split(' ').collect();
    let [_, calendar, shown_in, largest, overflow, missing, "from", ref rest @ ..] = words[..]
    else {
        panic!("no request: {line}")
    };
    let split = rest.iter().position(|word| *word == "to").unwrap();
    let (calendar, shown_in) = (calendar_of(calendar), calendar_of(shown_in));
    let options = fields_options(overflow, missing);
    let date = |words: &[&str]| Date::try_from_fields(fields(words), options, calendar);
    let (first, second) = match (date(&rest[..split]), date(&rest[split + 1..])) {
        (Ok(first), Ok(second)) => (first, second),
        (Err(error), _) => return format!("err from {}", cause(error)),
        (_, Err(error)) => return format!("err to {}", cause(error)),
    };
    let mut options = DateDifferenceOptions::default();
    options.largest_unit = unit(largest);
    let Ok(difference) = first.try_until_with_options(&second, options) else {
        panic!("two dates of one calendar: {line}")
    };
    let dates = [
        shown(&first),
        shown(&first.to_calendar(shown_in)),
        shown(&second),
        shown(&second.to_calendar(shown_in)),
    ];
    format!("ok {} {difference}", dates.join(" "))
}
