//! The first day of a rule from a day on.

use super::entry::{Entry, EntryRule};
use super::list::Years;
use super::occurrences::Occurrences;
use super::rule::{HolidayRule, Moves, Recurrence, SpanWeek};
use crate::any_calendar::{AnyCalendar, AnyCalendarKind};
use crate::calendar::Sealed;
use crate::engine::{easter, Chosen, Parts, FIRST_DAY, LAST_DAY};
use crate::error::DateFromFieldsError;
use crate::lists::{Leaping, Window};
use crate::options::{DateFromFieldsOptions, Overflow};
use crate::types::{DateFields, Month, RataDie, Weekday};

/// How many years beside that of a day an Easter may lie that leads to the day.
const YEARS_BESIDE: i32 = 2;

/// How far a day of `span` lies from its date.
const DAYS_BESIDE: i64 = 6;

/// The first day of a window to which own days move, of those that were looked at.
struct First {
    window: Window,
    moves: Moves,
    day: Option<RataDie>,
}

impl First {
    /// Looks at an own day.
    fn add(&mut self, own: RataDie) {
        let moved = self.moves.moved(own);
        if self.window.contains(moved) && self.day.map_or(true, |day| moved < day) {
            self.day = Some(moved);
        }
    }

    /// Returns whether the days behind an own day, moved back as far as can be, are no earlier.
    fn is_settled(&self, own: RataDie) -> bool {
        self.day.is_some_and(|day| day + self.moves.reach() <= own)
    }
}

/// Returns the first day of a record in a window.
pub(super) fn first_day(entry: &Entry, years: Years, window: Window) -> Option<RataDie> {
    let first = First {
        window,
        moves: entry.moves,
        day: None,
    };
    match &entry.rule {
        EntryRule::Yearly(rule) => first_of_years(entry, *rule, years, first),
        EntryRule::Recurring(rule) => first_repeated(entry, rule.told(), years, first),
    }
}

/// Returns the first day that a rule with at most one day in each year names.
fn first_of_years(
    entry: &Entry,
    rule: HolidayRule,
    years: Years,
    mut first: First,
) -> Option<RataDie> {
    let chosen = chosen(calendar_of(rule), years);
    let (low, high) = years_of(chosen, rule, first.window, entry.moves.reach());
    let last_year = entry.years.last_to(high);
    let mut year = entry.years.first_from(low);
    while year <= last_year {
        if let Some(own) = own_day(chosen, rule, year) {
            first.add(own);
            if first.is_settled(own) {
                break;
            }
        }
        year += i32::from(entry.years.every);
    }
    first.day
}

/// Returns the first day that a recurrence rule names.
fn first_repeated(
    entry: &Entry,
    rule: Recurrence<'_>,
    years: Years,
    mut first: First,
) -> Option<RataDie> {
    let chosen = chosen(rule.calendar, years);
    let around = first.window.around(entry.moves.reach());
    for own in Occurrences::new(chosen, rule, around) {
        if entry.years.keeps(chosen.date_of_day(own).extended_year) {
            first.add(own);
        }
        if first.is_settled(own) {
            break;
        }
    }
    first.day
}

/// Returns the calendar whose years a rule counts.
fn calendar_of(rule: HolidayRule) -> AnyCalendarKind {
    match rule {
        HolidayRule::Fixed { calendar, .. }
        | HolidayRule::Nth { calendar, .. }
        | HolidayRule::Span { calendar, .. } => calendar,
        HolidayRule::Easter { julian: true, .. } => AnyCalendarKind::Julian,
        HolidayRule::Easter { julian: false, .. } => AnyCalendarKind::Gregorian,
    }
}

fn chosen(calendar: AnyCalendarKind, years: Years) -> Chosen {
    let published = AnyCalendar::new(calendar).chosen();
    match years {
        Years::Published => published,
        Years::Computed => published.computed(),
    }
}

/// Returns the first and the last year whose day may lie in a window, or as many days beside it as `reach` says.
fn years_of(chosen: Chosen, rule: HolidayRule, window: Window, reach: i64) -> (i32, i32) {
    let (days, years) = match rule {
        HolidayRule::Fixed { .. } | HolidayRule::Nth { .. } => (reach, 0),
        HolidayRule::Easter { .. } => (reach, YEARS_BESIDE),
        HolidayRule::Span { .. } => (reach + DAYS_BESIDE, 0),
    };
    let year_of = |day| chosen.date_of_day(day).extended_year;
    (
        year_of(window.first() - days) - years,
        year_of(window.last() + days) + years,
    )
}

/// Returns the day of a rule in a year, before it moves, if there is one in the valid range.
fn own_day(chosen: Chosen, rule: HolidayRule, year: i32) -> Option<RataDie> {
    let day = match rule {
        HolidayRule::Fixed {
            month,
            day,
            leaping,
            ..
        } => date_in(chosen, year, month, day, leaping)
            .ok()?
            .day_number(),
        HolidayRule::Easter { julian, offset } => {
            (easter(julian, year) + i64::from(offset)).to_i64_date()
        }
        HolidayRule::Nth {
            month,
            nth,
            weekday,
            ..
        } => nth_day(chosen, &month_in(chosen, year, month)?, nth, weekday)?,
        HolidayRule::Span {
            month,
            day,
            week,
            weekday,
            ..
        } => {
            let date = date_in(chosen, year, month, day, Leaping::Exact).ok()?;
            day_in_week(date.day_number(), week, weekday)
        }
    };
    Some(RataDie::new(day)).filter(|_| (FIRST_DAY..=LAST_DAY).contains(&day))
}

/// Returns the date of a month and a day in a year.
fn date_in(
    chosen: Chosen,
    year: i32,
    month: Month,
    day: u8,
    leaping: Leaping,
) -> Result<Parts, DateFromFieldsError> {
    let fields = DateFields::from_year_month_day(year, month, day);
    let options = DateFromFieldsOptions {
        overflow: Some(match leaping {
            Leaping::Exact => Overflow::Reject,
            Leaping::Constrain => Overflow::Constrain,
        }),
        missing_fields_strategy: None,
    };
    chosen.date_of_fields(&fields, options)
}

/// Returns a date in a month of a year. It is the first day, unless that comes before the first valid day.
fn month_in(chosen: Chosen, year: i32, month: Month) -> Option<Parts> {
    match date_in(chosen, year, month, 1, Leaping::Exact) {
        Ok(first) => Some(first),
        Err(DateFromFieldsError::Overflow) => {
            let first = chosen.date_of_day(RataDie::new(FIRST_DAY));
            Some(first).filter(|it| it.extended_year == year && it.month() == month)
        }
        Err(_) => None,
    }
}

/// Returns the first to the fifth, or for -1 the last, of a weekday in the month of a date.
fn nth_day(chosen: Chosen, date: &Parts, nth: i8, weekday: Weekday) -> Option<i64> {
    let length = i64::from(chosen.days_in_month(date.extended_year, date.ordinal_month));
    let before = date.day_number() - i64::from(date.day);
    let last = before + length;
    if nth < 0 {
        return Some(day_in_week(last, SpanWeek::UpTo, weekday));
    }
    let day = day_in_week(before + 1, SpanWeek::From, weekday) + 7 * (i64::from(nth) - 1);
    Some(day).filter(|day| *day <= last)
}

/// Returns the weekday of a week beside a day.
fn day_in_week(day: i64, week: SpanWeek, weekday: Weekday) -> i64 {
    let weekday = weekday.days_since_sunday() as i64;
    match week {
        SpanWeek::From => day + (weekday - day).rem_euclid(7),
        SpanWeek::UpTo => day - (day - weekday).rem_euclid(7),
    }
}
