//! What is read of a record: six to ten fields, of which the first invalid one is told.

use super::occurrences::is_rule;
use super::rule::{HolidayRule, Moves, Recurrence, RuleYears, SpanWeek};
use crate::any_calendar::{AnyCalendar, AnyCalendarKind};
use crate::calendar::Sealed;
use crate::date::Date;
use crate::lists::{knows_month, Leaping};
use crate::types::{Month, RataDie, Weekday};
use alloc::string::String;
use alloc::vec::Vec;
use core::str;

/// The name of a holiday, and what names its days.
#[derive(Clone, Debug, PartialEq, Eq)]
pub(super) struct Entry {
    pub(super) name: String,
    pub(super) rule: EntryRule,
    pub(super) years: RuleYears,
    pub(super) moves: Moves,
}

/// What names the days of a holiday before they move.
#[derive(Clone, Debug, PartialEq, Eq)]
pub(super) enum EntryRule {
    /// A rule that names at most one day in each year.
    Yearly(HolidayRule),
    /// A recurrence rule.
    Recurring(RecurringRule),
}

/// A recurrence rule of a calendar, and the day on which it starts.
#[derive(Clone, Debug, PartialEq, Eq)]
pub(super) struct RecurringRule {
    calendar: AnyCalendarKind,
    text: String,
    start: RataDie,
}

impl RecurringRule {
    /// Returns the rule as a book tells it.
    pub(super) fn told(&self) -> Recurrence<'_> {
        Recurrence {
            calendar: self.calendar,
            text: &self.text,
            start: self.start,
        }
    }
}

/// Reads a number of at most so many digits.
fn number(text: &[u8], digits: usize) -> Option<i32> {
    if text.len() > digits || !text.iter().all(u8::is_ascii_digit) {
        return None;
    }
    str::from_utf8(text).ok()?.parse().ok()
}

/// Reads a number of at most so many digits, and a minus before it.
fn signed(text: &[u8], digits: usize) -> Option<i32> {
    match text {
        [b'-', rest @ ..] => Some(-number(rest, digits)?),
        text => number(text, digits),
    }
}

fn day(text: &[u8]) -> Option<u8> {
    number(text, 2)
        .filter(|day| (1..=31).contains(day))
        .map(|day| day as u8)
}

fn offset(text: &[u8]) -> Option<i32> {
    signed(text, 9).filter(|days| (-400..=400).contains(days))
}

fn leaping(text: &[u8]) -> Option<Leaping> {
    match text {
        b"exact" => Some(Leaping::Exact),
        b"constrain" => Some(Leaping::Constrain),
        _ => None,
    }
}

fn nth(text: &[u8]) -> Option<i8> {
    match text {
        [digit @ b'1'..=b'5'] => Some((digit - b'0') as i8),
        b"-1" => Some(-1),
        _ => None,
    }
}

fn weekday(text: &[u8]) -> Option<Weekday> {
    Some(match text {
        b"monday" => Weekday::Monday,
        b"tuesday" => Weekday::Tuesday,
        b"wednesday" => Weekday::Wednesday,
        b"thursday" => Weekday::Thursday,
        b"friday" => Weekday::Friday,
        b"saturday" => Weekday::Saturday,
        b"sunday" => Weekday::Sunday,
        _ => return None,
    })
}

/// Reads a weekday, and a minus before it if the week ends with the date.
fn week(text: &[u8]) -> Option<(SpanWeek, Weekday)> {
    match text {
        [b'-', rest @ ..] => Some((SpanWeek::UpTo, weekday(rest)?)),
        text => Some((SpanWeek::From, weekday(text)?)),
    }
}

fn month_of(calendar: AnyCalendarKind, text: &[u8]) -> Option<Month> {
    let month = Month::try_from_utf8(text).ok()?;
    knows_month(AnyCalendar::new(calendar).chosen(), month).then_some(month)
}

/// Reads a recurrence rule of a calendar.
fn recurrence(calendar: AnyCalendarKind, text: &[u8]) -> Option<String> {
    let text = str::from_utf8(text).ok()?;
    is_rule(calendar, text).then(|| String::from(text))
}

/// Reads the day of an ISO date such as `2024-02-29`.
fn start(text: &[u8]) -> Option<RataDie> {
    let [year @ .., b'-', m, mm, b'-', d, dd] = text else {
        return None;
    };
    if year.len() != 4 {
        return None;
    }
    let (year, month, day) = (
        number(year, 4)?,
        number(&[*m, *mm], 2)?,
        number(&[*d, *dd], 2)?,
    );
    let date = Date::try_new_iso(year, month as u8, day as u8).ok()?;
    Some(date.to_rata_die())
}

/// Reads a year, or nothing.
fn year(text: &[u8]) -> Option<Option<i32>> {
    if text.is_empty() {
        return Some(None);
    }
    Some(Some(signed(text, 6)?))
}

/// Reads steps of years, which need a first year.
fn every(since: Option<i32>, text: &[u8]) -> Option<u16> {
    if text.is_empty() {
        return Some(1);
    }
    since?;
    number(text, 3)
        .filter(|years| (1..=400).contains(years))
        .map(|years| years as u16)
}

/// Reads a word such as `saturday-1`.
fn weekday_move(word: &[u8]) -> Option<(Weekday, i8)> {
    let [name @ .., sign, digit @ b'0'..=b'6'] = word else {
        return None;
    };
    let size = (digit - b'0') as i8;
    let days = match sign {
        b'+' => size,
        b'-' => -size,
        _ => return None,
    };
    Some((weekday(name)?, days))
}

/// Reads words with a space between two, of which no two have one weekday.
fn moves(text: &[u8]) -> Option<Moves> {
    if text.is_empty() {
        return Some(Moves::default());
    }
    let mut words = text.split(|byte| *byte == b' ');
    words.try_fold(Moves::default(), |moves, word| {
        let (weekday, days) = weekday_move(word)?;
        moves.with(weekday, days)
    })
}

/// Reads a rule from the fields 3 to 6, or finds the number of the first invalid one.
fn rule(kind: &[u8], fields: [&[u8]; 4]) -> Result<EntryRule, u8> {
    match kind {
        b"rule" => Ok(EntryRule::Recurring(recurring_rule(fields)?)),
        b"easter" => Ok(EntryRule::Yearly(easter_rule(fields)?)),
        kind => Ok(EntryRule::Yearly(rule_in_month(kind, fields)?)),
    }
}

fn rule_in_month(kind: &[u8], fields: [&[u8]; 4]) -> Result<HolidayRule, u8> {
    let [calendar, month, value, last] = fields;
    let calendar = AnyCalendarKind::from_program_name(calendar).ok_or(3)?;
    let month = month_of(calendar, month).ok_or(4)?;
    Ok(match kind {
        b"fixed" => HolidayRule::Fixed {
            calendar,
            month,
            day: day(value).ok_or(5)?,
            leaping: leaping(last).ok_or(6)?,
        },
        b"weekday" => HolidayRule::Nth {
            calendar,
            month,
            nth: nth(value).ok_or(5)?,
            weekday: weekday(last).ok_or(6)?,
        },
        _ => {
            let day = day(value).ok_or(5)?;
            let (week, weekday) = week(last).ok_or(6)?;
            HolidayRule::Span {
                calendar,
                month,
                day,
                week,
                weekday,
            }
        }
    })
}

fn easter_rule([calendar, month, value, last]: [&[u8]; 4]) -> Result<HolidayRule, u8> {
    let julian = match calendar {
        b"gregorian" => false,
        b"julian" => true,
        _ => return Err(3),
    };
    if !month.is_empty() {
        return Err(4);
    }
    let offset = offset(value).ok_or(5)?;
    if !last.is_empty() {
        return Err(6);
    }
    Ok(HolidayRule::Easter { julian, offset })
}

fn recurring_rule([calendar, month, value, last]: [&[u8]; 4]) -> Result<RecurringRule, u8> {
    let calendar = AnyCalendarKind::from_program_name(calendar).ok_or(3)?;
    if !month.is_empty() {
        return Err(4);
    }
    Ok(RecurringRule {
        calendar,
        text: recurrence(calendar, value).ok_or(5)?,
        start: start(last).ok_or(6)?,
    })
}

/// Reads the years from the fields 7 to 9, or finds the number of the first invalid one.
fn rule_years([since, until, steps]: [&[u8]; 3]) -> Result<RuleYears, u8> {
    let since = year(since).ok_or(7)?;
    Ok(RuleYears {
        since,
        until: year(until).ok_or(8)?,
        every: every(since, steps).ok_or(9)?,
    })
}

fn name(text: &[u8]) -> Option<String> {
    let is_name = (1..=64).contains(&text.len()) && text.iter().all(|it| (32..=126).contains(it));
    let text = str::from_utf8(text).ok().filter(|_| is_name)?;
    Some(String::from(text))
}

impl Entry {
    /// Reads a record, or finds the number of its first invalid field: 0 if there aren't six to ten.
    pub(super) fn read(fields: &[Vec<u8>]) -> Result<Entry, u8> {
        if !(6..=10).contains(&fields.len()) {
            return Err(0);
        }
        let at = |place: usize| fields.get(place).map_or(&b""[..], Vec::as_slice);
        let kind = at(0);
        if ![&b"fixed"[..], b"easter", b"weekday", b"span", b"rule"].contains(&kind) {
            return Err(1);
        }
        Ok(Entry {
            name: name(at(1)).ok_or(2)?,
            rule: rule(kind, [at(2), at(3), at(4), at(5)])?,
            years: rule_years([at(6), at(7), at(8)])?,
            moves: moves(at(9)).ok_or(10)?,
        })
    }
}
