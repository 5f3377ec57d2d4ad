//! Repeats an operation on dates, for bench/from_rust.py: the words are an operation, a calendar and a count, and it prints a checksum. The days and
//! the operations are those of `dates_bench`: from 1643 to 2465, 7919 days apart, over computed years.

use icu_calendar::cal::hijri::{TabularAlgorithmEpoch, TabularAlgorithmLeapYears};
use icu_calendar::cal::{
    Buddhist, ChineseTraditional, Computed, Coptic, Ethiopian, Hebrew, Hijri, Indian, Japanese,
    Julian, KoreanTraditional, Persian, Roc,
};
use icu_calendar::options::{DateAddOptions, DateDifferenceOptions};
use icu_calendar::types::{DateDuration, DateDurationUnit, RataDie};
use icu_calendar::{AsCalendar, Calendar, Date, Gregorian, Iso};
use std::hint::black_box;

/// The days of turns, one after another.
fn days(turns: u32) -> impl Iterator<Item = i64> {
    (0..turns).map(|turn| 600_000 + i64::from(turn) * 7919 % 300_000)
}

/// Returns the day number of a date, of which the extended year, the month and the day are read.
fn day_and_back<A: AsCalendar + Copy>(day: i64, calendar: A) -> i64 {
    let date = Date::from_rata_die(RataDie::new(day), calendar);
    black_box((
        date.extended_year(),
        date.month().ordinal,
        date.day_of_month().0,
    ));
    date.to_rata_die().to_i64_date()
}

/// Does the same, and reads the year with its era and the month with its codes.
fn day_and_names<A: AsCalendar + Copy>(day: i64, calendar: A) -> i64 {
    let date = Date::from_rata_die(RataDie::new(day), calendar);
    black_box((date.year(), date.month(), date.day_of_month()));
    date.to_rata_die().to_i64_date()
}

fn day_of_sum<A: AsCalendar + Copy>(day: i64, calendar: A) -> i64 {
    let date = Date::from_rata_die(RataDie::new(day), calendar);
    match date.try_added_with_options(DateDuration::for_years(1), DateAddOptions::default()) {
        Ok(sum) => sum.to_rata_die().to_i64_date(),
        Err(_) => 0,
    }
}

fn parts_between<A: AsCalendar + Copy>(from: i64, to: i64, calendar: A) -> i64 {
    let (from, to) = (
        Date::from_rata_die(RataDie::new(from), calendar),
        Date::from_rata_die(RataDie::new(to), calendar),
    );
    let options = DateDifferenceOptions {
        largest_unit: Some(DateDurationUnit::Years),
    };
    match from.try_until_with_options(&to, options) {
        Ok(it) => i64::from(it.years) + i64::from(it.months) + i64::from(it.days),
        Err(_) => 0,
    }
}

fn measure<C: Calendar + Copy>(operation: &str, turns: u32, calendar: C) -> i64 {
    let calendar = Computed(calendar);
    match operation {
        "day" => days(turns).map(|day| day_and_back(day, calendar)).sum(),
        "names" => days(turns).map(|day| day_and_names(day, calendar)).sum(),
        "year" => days(turns).map(|day| day_of_sum(day, calendar)).sum(),
        "difference" => days(turns)
            .map(|day| parts_between(day * 2 / 3, day, calendar))
            .sum(),
        other => panic!("no operation {other}"),
    }
}

fn tabular(leap_years: TabularAlgorithmLeapYears) -> impl Calendar + Copy {
    Hijri::new_tabular(leap_years, TabularAlgorithmEpoch::Friday)
}

fn main() {
    let words: Vec<String> = std::env::args().collect();
    let [_, operation, calendar, turns] = &words[..] else {
        panic!("usage: from_rust day|names|year|difference CALENDAR COUNT")
    };
    let turns = turns.parse().expect("a count");
    let sum = match calendar.as_str() {
        "iso" => measure(operation, turns, Iso),
        "gregorian" => measure(operation, turns, Gregorian),
        "julian" => measure(operation, turns, Julian),
        "buddhist" => measure(operation, turns, Buddhist),
        "roc" => measure(operation, turns, Roc),
        "japanese" => measure(operation, turns, Japanese),
        "chinese" => measure(operation, turns, ChineseTraditional::new()),
        "dangi" => measure(operation, turns, KoreanTraditional::new()),
        "hebrew" => measure(operation, turns, Hebrew),
        "islamic-umalqura" => measure(operation, turns, Hijri::new_umm_al_qura()),
        "islamic-civil" => measure(operation, turns, tabular(TabularAlgorithmLeapYears::TypeII)),
        "islamic-type1-friday" => {
            measure(operation, turns, tabular(TabularAlgorithmLeapYears::TypeI))
        }
        "persian" => measure(operation, turns, Persian),
        "indian" => measure(operation, turns, Indian),
        "coptic" => measure(operation, turns, Coptic),
        "ethiopic" => measure(operation, turns, Ethiopian::new()),
        other => panic!("no calendar {other}"),
    };
    println!("{sum}");
}
