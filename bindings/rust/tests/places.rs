//! Where in an interval text a refusal lies.
use cullpethi::*;

/// The refusal of a text that each reader refuses alike, the last with each default unit.
fn of_all(text: &str) -> Refusal {
    let refusal = parse_interval_month_day_nano(text).unwrap_err();
    assert_eq!(parse_interval_year_month(text), Err(refusal), "{text:?}");
    assert_eq!(parse_interval_day_time(text), Err(refusal), "{text:?}");
    for unit in IntervalUnit::ALL {
        let read = parse_interval_month_day_nano_config(text, IntervalParseConfig::new(unit));
        assert_eq!(read, Err(refusal), "{unit:?} {text:?}");
    }
    refusal
}

#[test]
fn first_bad_piece() {
    for (text, place) in [
        ("1-2 days", 0),
        ("1 2day", 2),
        ("1day2", 1),
        ("1  day", 2),
        ("1 ", 2),
        ("1 day ", 6),
        ("+1 day", 0),
        ("", 0),
        ("1 day x", 6),
        ("1.5x", 3),
        ("5 5", 2),
        ("1 day 5 5", 8),
        ("1 day -1.5x 2 dayz", 10),
        ("1 day --1x", 6),
        ("1 day 2 hours 0.1234567890123456 days", 14),
        ("1 day 1 day 1 day 2 dayz", 20),
        (
            "1c 1dec 1y 1mon 1w 1d 1h 1m 1s 1ms 1us 1nanosecond 1c 1dec 1q",
            60,
        ),
    ] {
        assert_eq!(of_all(text), Refusal::Interval { place }, "{text:?}");
    }
}

#[test]
fn first_repeat() {
    for (text, place) in [
        ("1 day 1 day", 6),
        ("1 day 2 hours 3 DAYS 4 hours", 14),
        ("1 day 99999999999999 years 2 days", 27),
        ("1 day 2147483647 months 1 year -99999999999 days", 31),
        ("1c 1dec 1y 1mon 1w 1d 1h 1m 1s 1ms 1us 1nanosecond 1c", 51),
    ] {
        assert_eq!(of_all(text), Refusal::RepeatedUnit { place }, "{text:?}");
    }
}

#[test]
fn first_that_does_not_fit() {
    for (text, place) in [
        ("306783378 weeks 0.1 months -2 days", 16),
        ("1 day 2147483647 months 1 year -1 decade", 24),
        ("2147483647 days 0.1 months 2147483648 years", 16),
        ("2147483647 days 1 week 2147483648 months", 16),
        ("3 mons -9223372036854775808.9 nanoseconds -1us", 42),
    ] {
        assert_eq!(of_all(text), Refusal::Overflow { place }, "{text:?}");
    }
}

#[test]
fn default_units() {
    let repeated = |place| Refusal::RepeatedUnit { place };
    let overflow = |place| Refusal::Overflow { place };
    let read = |text, unit| {
        parse_interval_month_day_nano_config(text, IntervalParseConfig::new(unit)).unwrap_err()
    };
    assert_eq!(parse_interval_year_month("1 year 2"), Err(repeated(7)));
    assert_eq!(parse_interval_day_time("1 d 1 h 2"), Err(repeated(8)));
    assert_eq!(parse_interval_month_day_nano("1mon 2"), Err(repeated(5)));
    assert_eq!(read("1 day 2 h 3", IntervalUnit::Hour), repeated(10));
    assert_eq!(
        read("1 day 2 h 9223372037", IntervalUnit::Second),
        overflow(10)
    );
}

/// A place counts bytes: 3 of U+3000, U+2003 and U+212A, 2 of U+00A0. It is where a character begins.
#[test]
fn bytes_of_characters() {
    for (text, refusal) in [
        (
            "1\u{3000}day\u{2003}2 weeKs 3 \u{212A}",
            Refusal::Interval { place: 20 },
        ),
        (
            "1 wee\u{212A} 2 \u{A0}days",
            Refusal::Interval { place: 11 },
        ),
        ("1 day\u{3000}", Refusal::Interval { place: 8 }),
        ("1day\u{A0}2é", Refusal::Interval { place: 7 }),
        (
            "1\u{3000}wee\u{212A}\u{2003}2 weeks",
            Refusal::RepeatedUnit { place: 13 },
        ),
        (
            "1\u{2003}day\u{3000}178956971 years",
            Refusal::Overflow { place: 10 },
        ),
    ] {
        assert_eq!(of_all(text), refusal, "{text:?}");
        assert!(text.is_char_boundary(refusal.place().unwrap()), "{text:?}");
    }
}

#[test]
fn no_place() {
    for refused in [
        parse_interval_month_day_nano(b"1 day x \xFF").map(|_| ()),
        parse_interval_year_month("1 year 2 days").map(|_| ()),
        parse_interval_day_time("71582789 months -23 days").map(|_| ()),
        string_to_timestamp_nanos("1970-01-01_").map(|_| ()),
        string_to_time_nanoseconds("24:00").map(|_| ()),
        site_stamp("1970-01-01 00:00:00Z").map(|_| ()),
        parse_date32("x").map(|_| ()),
    ] {
        assert_eq!(refused.unwrap_err().place(), None);
    }
    assert_eq!(Refusal::Column.place(), None);
}

#[test]
fn sentences() {
    let told = |text| parse_interval_month_day_nano(text).unwrap_err().to_string();
    assert_eq!(
        told("1  day"),
        "an interval text has no division, at byte 2"
    );
    assert_eq!(told("1 day 2 days"), "a unit comes twice, at byte 6");
    assert_eq!(
        told("1 day 2147483648 months"),
        "a contribution or a running total does not fit, at byte 6"
    );
    assert_eq!(
        parse_interval_year_month("1 day").unwrap_err().to_string(),
        "the narrowed interval form cannot hold the result"
    );
}
