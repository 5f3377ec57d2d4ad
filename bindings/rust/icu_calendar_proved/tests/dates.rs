//! Dates and their traits. Days and names are those of the Unicode calendars as other programs have them.

use icu_calendar::cal::hijri::{TabularAlgorithmEpoch, TabularAlgorithmLeapYears};
use icu_calendar::cal::{
    ChineseTraditional, Coptic, Ethiopian, EthiopianEraStyle, Hebrew, Hijri, Japanese, Julian,
    KoreanTraditional, Persian, Roc,
};
use icu_calendar::error::{
    DateAddError, DateFromFieldsError, DateNewError, LunisolarDateError, ParseError,
};
use icu_calendar::options::{
    DateAddOptions, DateDifferenceOptions, DateFromFieldsOptions, Overflow,
};
use icu_calendar::types::{
    DateDuration, DateDurationUnit, DateFields, LeapStatus, Month, RataDie, Weekday, YearAmbiguity,
    YearInput,
};
use icu_calendar::{
    AnyCalendar, AnyCalendarKind, AsCalendar, Date, Gregorian, IntoAnyCalendar, Iso, Ref,
};
use std::collections::{BTreeSet, HashSet};
use std::rc::Rc;
use std::sync::Arc;

fn iso(year: i32, month: u8, day: u8) -> Date<Iso> {
    Date::try_new_iso(year, month, day).unwrap()
}

#[test]
fn dates_print_as_in_the_crate() {
    let date = iso(2024, 3, 1);
    let text = |it: &dyn std::fmt::Debug| format!("{it:?}");
    assert_eq!(text(&date), "Date(2024-3-1, default era, for calendar ISO)");
    assert_eq!(
        text(&date.to_calendar(Gregorian)),
        "Date(2024-3-1, ce era, for calendar Gregorian)"
    );
    assert_eq!(
        text(&date.to_calendar(Hebrew)),
        "Date(5784-6-21, am era, for calendar Hebrew)"
    );
    assert_eq!(
        text(&date.to_calendar(Japanese::new())),
        "Date(6-3-1, reiwa era, for calendar Japanese)"
    );
    let chinese = date.to_calendar(ChineseTraditional::new());
    assert_eq!(
        text(&chinese),
        "Date(41-1-21, ISO year 2024, for calendar Chinese)"
    );
    assert_eq!(
        text(&date.to_any()),
        "Date(2024-3-1, default era, for calendar AnyCalendar (Iso))"
    );
}

#[test]
fn pointers_to_calendars_lead_to_dates_that_compare() {
    let date = iso(2024, 3, 1);
    let (counted, shared) = (Rc::new(Iso), Arc::new(Iso));
    let by_rc = date.to_calendar(Rc::clone(&counted));
    let by_arc = date.to_calendar(Arc::clone(&shared));
    let by_ref = date.to_calendar(Ref(&Iso));
    assert!(by_rc == date && by_arc == date && by_ref == date && by_rc == by_arc);
    assert!(by_ref < iso(2024, 3, 2) && iso(2024, 2, 29) < by_rc);
    let copy = by_ref;
    assert_eq!(copy, by_ref);
    assert_eq!(by_rc.clone(), by_rc);
    let nested = date.to_calendar(Rc::new(Rc::new(AnyCalendar::new(AnyCalendarKind::Coptic))));
    assert_eq!(nested.calendar().kind(), AnyCalendarKind::Coptic);
    let until = date
        .try_until_with_options(&by_arc, DateDifferenceOptions::default())
        .unwrap();
    assert_eq!(until, DateDuration::default());
}

#[test]
fn dates_are_ordered_and_hashed_by_day() {
    let days = [
        iso(2024, 3, 1),
        iso(-1, 12, 31),
        iso(1970, 1, 1),
        iso(2024, 3, 1),
    ];
    let sorted: Vec<_> = days
        .iter()
        .copied()
        .collect::<BTreeSet<_>>()
        .into_iter()
        .collect();
    assert_eq!(sorted, [iso(-1, 12, 31), iso(1970, 1, 1), iso(2024, 3, 1)]);
    assert_eq!(days.iter().copied().collect::<HashSet<_>>().len(), 3);
    assert_eq!(days.iter().max(), Some(&iso(2024, 3, 1)));
}

#[test]
fn dates_of_two_calendars_have_no_order() {
    let date = iso(2024, 3, 1).to_any();
    let hebrew = date.to_calendar(AnyCalendar::from(Hebrew));
    assert!(date != hebrew && date.partial_cmp(&hebrew).is_none());
    let civil = Hijri::new_tabular(
        TabularAlgorithmLeapYears::TypeII,
        TabularAlgorithmEpoch::Friday,
    );
    let thursday = Hijri::new_tabular(
        TabularAlgorithmLeapYears::TypeII,
        TabularAlgorithmEpoch::Thursday,
    );
    assert!(date.to_calendar(civil) != date.to_calendar(thursday));
    // The two styles of Ethiopian years name the same months and days.
    let world = Ethiopian::new_with_era_style(EthiopianEraStyle::AmeteAlem);
    assert_eq!(date.to_calendar(Ethiopian::new()), date.to_calendar(world));
    assert_eq!(
        date.to_calendar(Ethiopian::new()).inner(),
        date.to_calendar(world).inner()
    );
}

#[test]
fn inner_dates_of_another_calendar_keep_their_day() {
    let hebrew = AnyCalendar::new(AnyCalendarKind::Hebrew);
    let inner = *iso(2024, 3, 1).to_any().inner();
    let date = Date::from_raw(inner, hebrew);
    assert_eq!(date.to_rata_die(), RataDie::new(738_946));
    assert_eq!(
        (
            date.extended_year(),
            date.month().to_input(),
            date.day_of_month().0
        ),
        (5784, Month::leap(5), 21)
    );
}

#[test]
fn any_calendars_hold_each_kind() {
    for name in [
        "buddhist",
        "chinese",
        "ethioaa",
        "islamic-civil",
        "islamic-type1-thursday",
        "roc",
    ] {
        let kind = AnyCalendarKind::from_program_name(name.as_bytes()).unwrap();
        assert_eq!(
            (AnyCalendar::new(kind).kind(), kind.program_name()),
            (kind, name)
        );
    }
    let extended = AnyCalendar::new(AnyCalendarKind::JapaneseExtended);
    assert_eq!(extended.kind(), AnyCalendarKind::JapaneseExtended);
    assert_eq!(Japanese::from_any(extended), Err(extended));
    assert_eq!(Roc::from_any_ref(&Roc.to_any()), Some(&Roc));
    let date = iso(2024, 3, 1).to_any();
    assert_eq!(
        date.convert_any(&AnyCalendar::Persian(Persian))
            .day_of_month()
            .0,
        11
    );
}

#[test]
fn months_of_leap_years_have_their_codes() {
    let adar = Date::try_new(5784.into(), Month::new(6), 1, Hebrew)
        .unwrap()
        .month();
    assert_eq!(
        (
            adar.ordinal,
            adar.standard_code.0.as_str(),
            adar.formatting_code.0.as_str()
        ),
        (7, "M06", "M06L")
    );
    assert_eq!(adar.leap_status(), LeapStatus::Base);
    let adar = Date::try_new(5785.into(), Month::new(6), 1, Hebrew)
        .unwrap()
        .month();
    assert_eq!(
        (
            adar.ordinal,
            adar.formatting_code.0.as_str(),
            adar.leap_status()
        ),
        (6, "M06", LeapStatus::Normal)
    );
    let second = |month| {
        Date::try_new_chinese_traditional(2023, month, 1)
            .unwrap()
            .month()
    };
    assert_eq!(second(Month::new(2)).leap_status(), LeapStatus::Base);
    assert_eq!(second(Month::leap(2)).leap_status(), LeapStatus::Leap);
    assert_eq!(second(Month::new(3)).leap_status(), LeapStatus::Normal);
    assert_eq!(second(Month::new(3)).ordinal, 4);
    let other_year = Date::try_new_korean_traditional(2024, Month::new(2), 1)
        .unwrap()
        .month();
    assert_eq!(other_year.leap_status(), LeapStatus::Normal);
    assert_ne!(other_year, second(Month::new(2)));
}

#[test]
fn lengths_hold_at_the_ends_of_the_range() {
    // The first and the last valid day, in calendars whose years lie across them.
    let (first, last) = (RataDie::new(-365_242_499), RataDie::new(365_242_134));
    assert_eq!(Date::from_rata_die(first - 1, Iso), iso_any(-999_999, 1, 1));
    assert_eq!(Date::from_rata_die(last + 1, Iso), iso_any(999_999, 12, 31));
    for kind in [
        AnyCalendarKind::Iso,
        AnyCalendarKind::Hebrew,
        AnyCalendarKind::Coptic,
        AnyCalendarKind::Chinese,
    ] {
        for day in [first, last] {
            let date = Date::from_rata_die(day, AnyCalendar::new(kind));
            let (place, length) = (date.day_of_year().0, date.days_in_year());
            assert!(
                1 <= place && place <= length && (353..=385).contains(&length),
                "{date:?} {place} {length}"
            );
            assert!(date.day_of_month().0 <= date.days_in_month());
            assert_eq!(
                date.is_in_leap_year(),
                length > 360 && length != 365,
                "{date:?}"
            );
        }
    }
}

/// A date of a year beyond the constructors' range.
fn iso_any(year: i32, month: u8, day: u8) -> Date<Iso> {
    let fields = DateFields::from_year_month_day(year, Month::new(month), day);
    Date::try_from_fields(fields, DateFromFieldsOptions::default(), Iso).unwrap()
}

#[test]
fn years_are_made_of_their_months() {
    for kind in [
        AnyCalendarKind::Hebrew,
        AnyCalendarKind::Dangi,
        AnyCalendarKind::HijriUmmAlQura,
        AnyCalendarKind::Coptic,
    ] {
        let calendar = AnyCalendar::new(kind);
        for turn in 0..200 {
            let date = Date::from_rata_die(RataDie::new(600_000 + turn * 1499), calendar);
            let first = date.to_rata_die() - i64::from(date.day_of_year().0) + 1;
            let mut begun = Date::from_rata_die(first, calendar);
            assert_eq!(
                (begun.month().ordinal, begun.day_of_month().0),
                (1, 1),
                "{date:?}"
            );
            let mut days = 0;
            for place in 1..=date.months_in_year() {
                assert_eq!(
                    (begun.month().ordinal, begun.extended_year()),
                    (place, date.extended_year())
                );
                days += u16::from(begun.days_in_month());
                begun = Date::from_rata_die(
                    begun.to_rata_die() + i64::from(begun.days_in_month()),
                    calendar,
                );
            }
            assert_eq!(
                (days, begun.extended_year()),
                (date.days_in_year(), date.extended_year() + 1),
                "{date:?}"
            );
        }
    }
}

#[test]
fn eras_say_how_ambiguous_they_are() {
    let year = |date: Date<Gregorian>| (date.era_year().era_index, date.era_year().ambiguity);
    let gregorian = |year| Date::try_new_gregorian(year, 1, 1).unwrap();
    assert_eq!(year(gregorian(2024)), (Some(1), YearAmbiguity::Unambiguous));
    assert_eq!(
        year(gregorian(1900)),
        (Some(1), YearAmbiguity::CenturyRequired)
    );
    assert_eq!(
        year(gregorian(900)),
        (Some(1), YearAmbiguity::EraAndCenturyRequired)
    );
    assert_eq!(
        year(gregorian(0)),
        (Some(0), YearAmbiguity::EraAndCenturyRequired)
    );
    let era = |date: Date<Iso>| {
        date.to_calendar(Japanese::new())
            .era_year()
            .era
            .as_str()
            .to_owned()
    };
    // The last and the first days of eras.
    for (date, name) in [
        (iso(1872, 12, 31), "ce"),
        (iso(1873, 1, 1), "meiji"),
        (iso(1912, 7, 29), "meiji"),
        (iso(1912, 7, 30), "taisho"),
        (iso(1926, 12, 24), "taisho"),
        (iso(1926, 12, 25), "showa"),
        (iso(1989, 1, 7), "showa"),
        (iso(1989, 1, 8), "heisei"),
        (iso(2019, 4, 30), "heisei"),
        (iso(2019, 5, 1), "reiwa"),
        (iso(0, 1, 1), "bce"),
    ] {
        assert_eq!(era(date), name, "{date:?}");
    }
}

#[test]
fn errors_are_those_of_the_crate() {
    let message = |error: &dyn std::error::Error| error.to_string();
    let error = Date::try_new_iso(2023, 2, 29).unwrap_err();
    assert_eq!(
        message(&error),
        "The day = 29 argument is out of range 1..=28"
    );
    assert_eq!(Date::try_new_coptic(1740, 14, 1).unwrap_err().max, 13);
    assert_eq!(Date::try_new_roc(-10_000, 1, 1).unwrap_err().field, "year");
    let error = Date::try_new(YearInput::EraYear("", 1), Month::new(1), 1, Gregorian).unwrap_err();
    assert_eq!(error, DateNewError::InvalidEra);
    assert_eq!(
        Date::try_new(1.into(), Month::new(13), 1, Iso).unwrap_err(),
        DateNewError::MonthNotInCalendar
    );
    let error = Date::try_new_chinese_traditional(2024, Month::leap(2), 1).unwrap_err();
    assert_eq!(error, LunisolarDateError::MonthNotInYear);
    let error = iso(2024, 1, 31)
        .try_added_with_options(DateDuration::for_months(1), reject())
        .unwrap_err();
    assert_eq!(error, DateAddError::InvalidDay { max: 29 });
    assert_eq!(message(&error), "Invalid day for month, max is 29");
}

fn reject() -> DateAddOptions {
    let mut options = DateAddOptions::default();
    options.overflow = Some(Overflow::Reject);
    options
}

#[test]
fn empty_codes_are_given() {
    let mut fields = DateFields::from_year_month_day(2024, Month::new(1), 1);
    fields.era = Some(b"");
    fields.era_year = Some(2024);
    let date = |fields| Date::try_from_fields(fields, DateFromFieldsOptions::default(), Gregorian);
    assert_eq!(date(fields).unwrap_err(), DateFromFieldsError::InvalidEra);
    fields.era_year = None;
    assert_eq!(
        date(fields).unwrap_err(),
        DateFromFieldsError::NotEnoughFields
    );
    fields.era = None;
    fields.month_code = Some(b"");
    assert_eq!(
        date(fields).unwrap_err(),
        DateFromFieldsError::TooManyFields
    );
    fields.month = None;
    assert_eq!(
        date(fields).unwrap_err(),
        DateFromFieldsError::MonthCodeInvalidSyntax
    );
}

#[test]
fn texts_name_dates() {
    assert_eq!("2024-03-01".parse(), Ok(iso(2024, 3, 1)));
    assert_eq!(
        Date::try_from_str("-000044-03-15", Iso),
        Ok(iso(-44, 3, 15))
    );
    assert_eq!(
        Date::try_from_str("+012345-03-15", Iso)
            .unwrap()
            .extended_year(),
        12_345
    );
    assert_eq!(
        Date::try_from_str("2024-03-01[u-ca=iso8601]", Iso),
        Ok(iso(2024, 3, 1))
    );
    for text in [
        "",
        "2024-3-1",
        "2024-02-30",
        "2024-13-01",
        "-000000-01-01",
        "2024-03-01T00:00",
        "2024-03-01[x]",
    ] {
        assert_eq!(
            Date::try_from_str(text, Iso),
            Err(ParseError::Syntax),
            "{text}"
        );
    }
    let roc = Date::try_from_str("2024-03-01[u-ca=roc]", Hebrew).unwrap_err();
    assert_eq!(
        roc.to_string(),
        "Expected calendar hebrew but found calendar roc"
    );
    let klingon = Date::try_from_str("2024-03-01[u-ca=klingon]", Coptic).unwrap_err();
    assert_eq!(klingon, ParseError::UnknownCalendar);
    assert!(Date::try_from_str("2024-03-01[u-ca=klingon]", Julian).is_ok());
}

#[test]
fn durations_are_read_as_written() {
    for text in ["P1Y2M3W4D", "-P3W", "P0D", "-P0D", "P4294967295D", "P12M"] {
        assert_eq!(text.parse::<DateDuration>().unwrap().to_string(), text);
    }
    for text in [
        "",
        "P",
        "1Y",
        "P1",
        "P1H",
        "P1D2D",
        "+P1D",
        "P4294967296D",
        "PT1H",
        "PY",
    ] {
        assert!(text.parse::<DateDuration>().is_err(), "{text}");
    }
}

#[test]
fn differences_lead_back() {
    let calendars = [
        AnyCalendarKind::Iso,
        AnyCalendarKind::Hebrew,
        AnyCalendarKind::Chinese,
        AnyCalendarKind::Persian,
    ];
    for kind in calendars {
        let calendar = AnyCalendar::new(kind);
        for turn in 0..300 {
            let first = Date::from_rata_die(RataDie::new(600_000 + turn * 997), calendar);
            let second = Date::from_rata_die(RataDie::new(900_000 - turn * 1013), calendar);
            let mut options = DateDifferenceOptions::default();
            options.largest_unit = Some(DateDurationUnit::Years);
            let between = first.try_until_with_options(&second, options).unwrap();
            assert_eq!(
                first.try_added_with_options(between, DateAddOptions::default()),
                Ok(second),
                "{between}"
            );
        }
    }
}

#[test]
fn weeks_and_weekdays_are_those_of_iso() {
    let date = iso(2024, 12, 30);
    assert_eq!(
        (
            date.week_of_year().iso_year,
            date.week_of_year().week_number
        ),
        (2025, 1)
    );
    assert_eq!(date.weekday(), Weekday::Monday);
    assert_eq!(Weekday::from(RataDie::new(0)), Weekday::Sunday);
    assert_eq!(iso(2021, 1, 3).week_of_year().week_number, 53);
}

#[test]
fn easter_is_the_known_one() {
    let days = [
        (2024, 3, 31, 5, 5),
        (2025, 4, 20, 4, 20),
        (2000, 4, 23, 4, 30),
    ];
    for (year, month, day, julian_month, julian_day) in days {
        assert_eq!(Gregorian::easter(year).to_iso(), iso(year, month, day));
        assert_eq!(
            Julian::easter(year).to_iso(),
            iso(year, julian_month, julian_day)
        );
    }
    assert_eq!(
        Gregorian::easter(i32::MAX).to_rata_die(),
        RataDie::new(365_242_134)
    );
}

#[test]
fn day_numbers_never_overflow() {
    assert_eq!(RataDie::new(i64::MAX) + 1, RataDie::new(i64::MAX));
    assert_eq!(RataDie::new(i64::MIN) - 1, RataDie::new(i64::MIN));
    let mut day = RataDie::new(5);
    day += 3;
    day -= 1;
    assert_eq!(day - RataDie::new(2), 5);
    assert_eq!(
        Date::from_rata_die(RataDie::new(i64::MIN), Iso).extended_year(),
        -999_999
    );
}

#[test]
fn types_cross_threads() {
    fn sent<T: Send + Sync>(_: &T) {}
    sent(&iso(2024, 3, 1));
    sent(&iso(2024, 3, 1).to_any());
    sent(&AnyCalendar::from(Hebrew));
    assert_eq!(std::mem::size_of::<Date<Iso>>(), 20);
    fn by_pointer<A: AsCalendar>(date: &Date<A>) -> u8 {
        date.day_of_month().0
    }
    assert_eq!(
        by_pointer(&iso(2024, 3, 1).to_calendar(KoreanTraditional::new())),
        21
    );
}
