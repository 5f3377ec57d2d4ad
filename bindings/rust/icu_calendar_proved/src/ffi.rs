//! The calls of the archive, and the only unsafe code of this crate.
//!
//! `bindings/c/include/icu_calendar.h` asks two things of a caller: no pointer is null, not even for zero bytes, and
//! what two pointers point to doesn't overlap. The pointers here come from references and slices, so they are never
//! null, are valid for the lengths that are passed beside them, and a `&mut` overlaps nothing else. All other arguments
//! are checked by the calls themselves. The calls keep nothing, so any thread may make them.
#![allow(unsafe_code)]

/// The parts of a date (`icu_calendar_date`).
#[repr(C)]
#[derive(Clone, Copy, Default)]
pub(crate) struct RawDate {
    pub(crate) day_number: i64,
    pub(crate) extended_year: i32,
    pub(crate) era_year: i32,
    pub(crate) cyclic_year: u8,
    pub(crate) ordinal_month: u8,
    pub(crate) month_number: u8,
    pub(crate) month_is_leap: u8,
    pub(crate) day: u8,
}

/// Some fields of a date (`icu_calendar_fields`).
#[repr(C)]
#[derive(Clone, Copy, Default)]
pub(crate) struct RawFields {
    pub(crate) era_year: i32,
    pub(crate) extended_year: i32,
    pub(crate) has_era_year: u8,
    pub(crate) has_extended_year: u8,
    pub(crate) has_month: u8,
    pub(crate) month_number: u8,
    pub(crate) month_is_leap: u8,
    pub(crate) has_ordinal_month: u8,
    pub(crate) ordinal_month: u8,
    pub(crate) has_day: u8,
    pub(crate) day: u8,
}

/// A signed duration (`icu_calendar_duration`).
#[repr(C)]
#[derive(Clone, Copy, Default)]
pub(crate) struct RawDuration {
    pub(crate) years: u32,
    pub(crate) months: u32,
    pub(crate) weeks: u32,
    pub(crate) days: u32,
    pub(crate) is_negative: u8,
}

/// An occurrence of a recurrence rule (`icu_calendar_occurrence`).
#[cfg(feature = "alloc")]
#[repr(C)]
#[derive(Clone, Copy, Debug, Default)]
pub(crate) struct RawOccurrence {
    pub(crate) day: i64,
    _index: u32,
}

/// Why a text is no recurrence rule (`icu_calendar_rule_fault`).
#[cfg(feature = "alloc")]
#[repr(C)]
#[derive(Clone, Copy, Default)]
struct RawRuleFault {
    _cause: u8,
    _part: u8,
}

// The sizes that the header asserts.
const _: () = assert!(core::mem::size_of::<RawDate>() == 24);
const _: () = assert!(core::mem::size_of::<RawFields>() == 20);
const _: () = assert!(core::mem::size_of::<RawDuration>() == 20);
#[cfg(feature = "alloc")]
const _: () = assert!(core::mem::size_of::<RawOccurrence>() == 16);
#[cfg(feature = "alloc")]
const _: () = assert!(core::mem::size_of::<RawRuleFault>() == 2);

/// A call that failed: its code, and the greatest valid number or 0.
#[derive(Clone, Copy)]
pub(crate) struct Refusal {
    pub(crate) code: u8,
    pub(crate) max: u8,
}

/// The declarations of the header.
mod raw {
    use super::{RawDate, RawDuration, RawFields};
    #[cfg(feature = "alloc")]
    use super::{RawOccurrence, RawRuleFault};

    extern "C" {
        pub(super) fn icu_calendar_date_of_day(
            calendar: u8,
            years: u8,
            day: i64,
            date: *mut RawDate,
        ) -> u8;
        pub(super) fn icu_calendar_date_of_fields(
            calendar: u8,
            years: u8,
            fields: *const RawFields,
            era: *const u8,
            era_len: usize,
            month_code: *const u8,
            month_code_len: usize,
            overflow: u8,
            missing: u8,
            date: *mut RawDate,
            max: *mut u8,
        ) -> u8;
        pub(super) fn icu_calendar_add(
            calendar: u8,
            years: u8,
            day: i64,
            duration: *const RawDuration,
            overflow: u8,
            date: *mut RawDate,
            max: *mut u8,
        ) -> u8;
        pub(super) fn icu_calendar_until(
            calendar: u8,
            years: u8,
            first: i64,
            second: i64,
            unit: u8,
            duration: *mut RawDuration,
        ) -> u8;
        pub(super) fn icu_calendar_era_of_day(
            calendar: u8,
            years: u8,
            day: i64,
            room: *mut u8,
            room_len: usize,
            written: *mut usize,
        ) -> u8;
        pub(super) fn icu_calendar_week_of_year(day: i64, year: *mut i32, week: *mut u8) -> u8;
        pub(super) fn icu_calendar_easter(rule: u8, year: i32, day: *mut i64) -> u8;
        #[cfg(feature = "alloc")]
        pub(super) fn icu_calendar_rule_days(
            calendar: u8,
            years: u8,
            start: i64,
            rule: *const u8,
            rule_len: usize,
            first: i64,
            last: i64,
            items: *mut RawOccurrence,
            items_len: usize,
            written: *mut usize,
            next: *mut i64,
            fault: *mut RawRuleFault,
        ) -> u8;
        #[cfg(feature = "alloc")]
        pub(super) fn calspan(
            words: *const u8,
            words_len: usize,
            input: *const u8,
            input_len: usize,
            output: *mut u8,
            output_len: usize,
            written: *mut usize,
        ) -> u8;
    }
}

/// Converts a day number to a date.
#[inline]
pub(crate) fn date_of_day(calendar: u8, years: u8, day: i64) -> Result<RawDate, u8> {
    let mut date = RawDate::default();
    // SAFETY: `date` is a local of the header's layout.
    let code = unsafe { raw::icu_calendar_date_of_day(calendar, years, day, &mut date) };
    if code == 0 {
        Ok(date)
    } else {
        Err(code)
    }
}

/// What a date is named by: its fields, and the codes of its era and its month, where an empty one counts as not given.
pub(crate) struct Bag<'a> {
    pub(crate) fields: RawFields,
    pub(crate) era: &'a [u8],
    pub(crate) month_code: &'a [u8],
}

/// Creates a date from fields. `overflow` and `missing` are codes of the header.
#[inline]
pub(crate) fn date_of_fields(
    calendar: u8,
    years: u8,
    bag: &Bag<'_>,
    overflow: u8,
    missing: u8,
) -> Result<RawDate, Refusal> {
    let mut date = RawDate::default();
    let mut max = 0;
    // SAFETY: `date` and `max` are two locals of the header's layout. The two slices are borrowed for the call, with
    // their own lengths, and their pointers aren't null even if they are empty; nothing is written to them.
    let code = unsafe {
        raw::icu_calendar_date_of_fields(
            calendar,
            years,
            &bag.fields,
            bag.era.as_ptr(),
            bag.era.len(),
            bag.month_code.as_ptr(),
            bag.month_code.len(),
            overflow,
            missing,
            &mut date,
            &mut max,
        )
    };
    if code == 0 {
        Ok(date)
    } else {
        Err(Refusal { code, max })
    }
}

/// Adds a duration to the date of a day number.
#[inline]
pub(crate) fn add(
    calendar: u8,
    years: u8,
    day: i64,
    duration: &RawDuration,
    overflow: u8,
) -> Result<RawDate, Refusal> {
    let mut date = RawDate::default();
    let mut max = 0;
    // SAFETY: `date` and `max` are two locals of the header's layout, and `duration` is a borrowed struct of it.
    let code = unsafe {
        raw::icu_calendar_add(
            calendar, years, day, duration, overflow, &mut date, &mut max,
        )
    };
    if code == 0 {
        Ok(date)
    } else {
        Err(Refusal { code, max })
    }
}

/// Computes the difference between the dates of two day numbers.
#[inline]
pub(crate) fn until(
    calendar: u8,
    years: u8,
    first: i64,
    second: i64,
    unit: u8,
) -> Result<RawDuration, u8> {
    let mut duration = RawDuration::default();
    // SAFETY: `duration` is a local of the header's layout.
    let code =
        unsafe { raw::icu_calendar_until(calendar, years, first, second, unit, &mut duration) };
    if code == 0 {
        Ok(duration)
    } else {
        Err(code)
    }
}

/// Writes the code of the era of a day's year to the start of a room, and returns its length.
#[inline]
pub(crate) fn era_of_day(
    calendar: u8,
    years: u8,
    day: i64,
    room: &mut [u8; 16],
) -> Result<usize, u8> {
    let mut written = 0;
    // SAFETY: the room is borrowed for writing, with its own length, and `written` is a local.
    let code = unsafe {
        raw::icu_calendar_era_of_day(
            calendar,
            years,
            day,
            room.as_mut_ptr(),
            room.len(),
            &mut written,
        )
    };
    if code == 0 {
        Ok(written)
    } else {
        Err(code)
    }
}

/// Computes the ISO 8601 week of a day number, and its year.
#[inline]
pub(crate) fn week_of_year(day: i64) -> Result<(i32, u8), u8> {
    let (mut year, mut week) = (0, 0);
    // SAFETY: `year` and `week` are two locals.
    let code = unsafe { raw::icu_calendar_week_of_year(day, &mut year, &mut week) };
    if code == 0 {
        Ok((year, week))
    } else {
        Err(code)
    }
}

/// Computes the day number of Easter by a rule, 0 or 1.
#[inline]
pub(crate) fn easter(rule: u8, year: i32) -> Result<i64, u8> {
    let mut day = 0;
    // SAFETY: `day` is a local.
    let code = unsafe { raw::icu_calendar_easter(rule, year, &mut day) };
    if code == 0 {
        Ok(day)
    } else {
        Err(code)
    }
}

/// Writes the first occurrences of a recurrence rule in a window to the start of a room. Returns how many, and the day
/// from which the list goes on.
#[cfg(feature = "alloc")]
pub(crate) fn rule_days(
    calendar: u8,
    years: u8,
    start: i64,
    rule: &[u8],
    (first, last): (i64, i64),
    items: &mut [RawOccurrence],
) -> Result<(usize, i64), u8> {
    let (mut written, mut next) = (0, first);
    let mut fault = RawRuleFault::default();
    // SAFETY: the text is borrowed, and the room is borrowed for writing, each with its own length; `written`, `next`
    // and `fault` are three locals of the header's layout. The pointers aren't null even if a slice is empty.
    let code = unsafe {
        raw::icu_calendar_rule_days(
            calendar,
            years,
            start,
            rule.as_ptr(),
            rule.len(),
            first,
            last,
            items.as_mut_ptr(),
            items.len(),
            &mut written,
            &mut next,
            &mut fault,
        )
    };
    if code == 0 {
        Ok((written, next))
    } else {
        Err(code)
    }
}

/// Runs the program over memory. Returns its code and the number of bytes that it has written or needs.
#[cfg(feature = "alloc")]
pub(crate) fn calspan(words: &str, input: &[u8], output: &mut [u8]) -> (u8, usize) {
    let mut written = 0;
    // SAFETY: the words and the input are borrowed, and the output is borrowed for writing, each with its own length;
    // `written` is a local. The pointers aren't null even if a slice is empty.
    let code = unsafe {
        raw::calspan(
            words.as_ptr(),
            words.len(),
            input.as_ptr(),
            input.len(),
            output.as_mut_ptr(),
            output.len(),
            &mut written,
        )
    };
    (code, written)
}
