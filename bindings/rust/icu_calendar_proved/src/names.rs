//! How a calendar names the year and the month of a date.

use crate::engine::{codes, Parts};
use crate::types::{
    Beside, CyclicYear, EraYear, LeapStatus, Month, MonthInfo, TinyAsciiStr, YearAmbiguity,
    YearInfo,
};

/// The place that Adar has in a Hebrew leap year, behind Adar I.
const ADAR_IN_LEAP_YEAR: u8 = 7;

/// A type of years that a date can have.
pub trait OfParts {
    /// Returns the year of a date.
    #[doc(hidden)]
    fn of_parts(parts: &Parts) -> Self;
}

impl OfParts for EraYear {
    #[inline]
    fn of_parts(parts: &Parts) -> EraYear {
        let (era, index, ambiguity) = era_of(parts);
        EraYear {
            year: parts.era_year,
            extended_year: parts.extended_year,
            era,
            era_index: index,
            ambiguity,
        }
    }
}

impl OfParts for CyclicYear {
    #[inline]
    fn of_parts(parts: &Parts) -> CyclicYear {
        CyclicYear {
            year: parts.cyclic_year,
            related_iso: parts.era_year,
        }
    }
}

impl OfParts for YearInfo {
    #[inline]
    fn of_parts(parts: &Parts) -> YearInfo {
        if parts.cyclic_year == 0 {
            YearInfo::Era(EraYear::of_parts(parts))
        } else {
            YearInfo::Cyclic(CyclicYear::of_parts(parts))
        }
    }
}

/// An era's code and index, and how ambiguous its years are.
type Era = (TinyAsciiStr<16>, Option<u8>, YearAmbiguity);

const fn era(code: &str, index: u8, ambiguity: YearAmbiguity) -> Era {
    (
        TinyAsciiStr::of_text(code.as_bytes()),
        Some(index),
        ambiguity,
    )
}

/// Returns an era whose years are read with their century.
const fn plain(code: &str, index: u8) -> Era {
    era(code, index, YearAmbiguity::CenturyRequired)
}

/// The eras, which are made when this crate is compiled.
const DEFAULT: Era = era("default", 0, YearAmbiguity::Unambiguous);
const BCE: Era = era("bce", 0, YearAmbiguity::EraAndCenturyRequired);
const EARLY_CE: Era = era("ce", 1, YearAmbiguity::EraAndCenturyRequired);
const RECENT_CE: Era = era("ce", 1, YearAmbiguity::Unambiguous);
const CE: Era = plain("ce", 1);
const BE: Era = plain("be", 0);
const BROC: Era = era("broc", 0, YearAmbiguity::EraAndCenturyRequired);
const ROC: Era = plain("roc", 1);
const MEIJI: Era = plain("meiji", 2);
const TAISHO: Era = plain("taisho", 3);
const SHOWA: Era = plain("showa", 4);
const HEISEI: Era = plain("heisei", 5);
const REIWA: Era = plain("reiwa", 6);
const AM: Era = plain("am", 0);
const INCARNATION: Era = plain("am", 1);
const AA: Era = plain("aa", 0);
const SHAKA: Era = plain("shaka", 0);
const AP: Era = plain("ap", 0);
const AH: Era = plain("ah", 0);
const BH: Era = plain("bh", 1);

#[inline]
fn common_era(year: i32) -> Era {
    match year {
        ..=0 => BCE,
        1..=999 => EARLY_CE,
        1950..=2049 => RECENT_CE,
        _ => CE,
    }
}

/// Returns the era of a Japanese date. An era is told by what its years are ahead of the common era's; the engine says
/// the code of one that isn't listed here.
#[inline]
fn japanese_era(parts: &Parts) -> Era {
    match parts.extended_year - parts.era_year {
        0 => common_era(parts.extended_year),
        ..=-1 => BCE,
        1867 => MEIJI,
        1911 => TAISHO,
        1925 => SHOWA,
        1988 => HEISEI,
        2018 => REIWA,
        _ => unlisted_era(parts),
    }
}

#[cold]
fn unlisted_era(parts: &Parts) -> Era {
    let code = parts.chosen().era(parts.day_number());
    (code, None, YearAmbiguity::CenturyRequired)
}

/// Returns the era of the year of a date in a calendar with eras.
#[inline]
fn era_of(parts: &Parts) -> Era {
    let is_before = parts.extended_year < 1;
    match parts.chosen().code() {
        codes::ISO => DEFAULT,
        codes::GREGORIAN => common_era(parts.extended_year),
        codes::JULIAN if is_before => BCE,
        codes::JULIAN => CE,
        codes::BUDDHIST => BE,
        codes::ROC if is_before => BROC,
        codes::ROC => ROC,
        codes::JAPANESE => japanese_era(parts),
        codes::COPTIC | codes::HEBREW => AM,
        codes::ETHIOPIC if is_before => AA,
        codes::ETHIOPIC => INCARNATION,
        codes::ETHIOAA => AA,
        codes::INDIAN => SHAKA,
        codes::PERSIAN => AP,
        _ if is_before => BH,
        _ => AH,
    }
}

/// Returns whether the year of a date is a leap year: by a leap month, or by a leap day.
pub(crate) fn is_in_leap_year(parts: &Parts) -> bool {
    let (chosen, year) = (parts.chosen(), parts.extended_year);
    match chosen.code() {
        codes::CHINESE | codes::DANGI | codes::HEBREW => chosen.months_in_year(year) == 13,
        codes::ISLAMIC_CIVIL
        | codes::ISLAMIC_SIMULATED
        | codes::ISLAMIC_TBLA
        | codes::ISLAMIC_UMALQURA
        | codes::ISLAMIC_TYPE1_FRIDAY
        | codes::ISLAMIC_TYPE1_THURSDAY => chosen.days_in_year(year) == 355,
        _ => chosen.days_in_year(year) == 366,
    }
}

/// Returns the month of a date.
#[inline]
pub(crate) fn month_info(parts: &Parts) -> MonthInfo {
    let month = parts.month();
    let place = parts.ordinal_month;
    if month.is_leap() {
        return MonthInfo::new(place, month, month, Beside::Known(LeapStatus::Leap));
    }
    match parts.chosen().code() {
        codes::HEBREW if place == ADAR_IN_LEAP_YEAR && month.number() < place => MonthInfo::new(
            place,
            month,
            Month::leap(6),
            Beside::Known(LeapStatus::Base),
        ),
        // A month in the place of its number has no leap month before it, and may have one behind it.
        codes::CHINESE | codes::DANGI if place == month.number() => {
            let beside = Beside::Next(parts.chosen(), parts.extended_year);
            MonthInfo::new(place, month, month, beside)
        }
        _ => MonthInfo::new(place, month, month, Beside::Known(LeapStatus::Normal)),
    }
}
