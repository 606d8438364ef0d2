//! Intervals as texts, and the components of interval texts.
use cullpethi::*;

const LEAST: IntervalMonthDayNano = IntervalMonthDayNano::new(i32::MIN, i32::MIN, i64::MIN);

/// Intervals with their texts.
const TEXTS: [(IntervalMonthDayNano, &str); 9] = [
    (IntervalMonthDayNano::new(0, 0, 0), "0 months"),
    (IntervalMonthDayNano::new(1, 0, 0), "1 months"),
    (IntervalMonthDayNano::new(0, -1, 0), "-1 days"),
    (
        IntervalMonthDayNano::new(0, 0, i64::MIN),
        "-9223372036854775808 nanoseconds",
    ),
    (
        LEAST,
        "-2147483648 months -2147483648 days -9223372036854775808 nanoseconds",
    ),
    (
        IntervalMonthDayNano::new(i32::MAX, 0, 1_000_000_000),
        "2147483647 months 1000000000 nanoseconds",
    ),
    (
        IntervalMonthDayNano::new(10, -100, 0),
        "10 months -100 days",
    ),
    (
        IntervalMonthDayNano::new(0, 9, -10),
        "9 days -10 nanoseconds",
    ),
    (
        IntervalMonthDayNano::new(-9, 99, i64::MAX),
        "-9 months 99 days 9223372036854775807 nanoseconds",
    ),
];

/// Texts with their default units and listings.
const LISTINGS: [(&str, IntervalUnit, &str); 6] = [
    (
        "1.5 months -.5 days",
        IntervalUnit::Month,
        "unit=month whole=1 frac=500000000000000\nunit=day whole=0 frac=-500000000000000\n",
    ),
    (
        "-0 wee\u{212A}s 2",
        IntervalUnit::Hour,
        "unit=week whole=0 frac=0\nunit=hour whole=2 frac=0\n",
    ),
    (
        "-0.000000000000001",
        IntervalUnit::Day,
        "unit=day whole=0 frac=-1\n",
    ),
    (
        "-9223372036854775808.999999999999999 NANOSECONDS",
        IntervalUnit::Month,
        "unit=nanosecond whole=-9223372036854775808 frac=-999999999999999\n",
    ),
    (
        "0010.50c 007us",
        IntervalUnit::Month,
        "unit=century whole=10 frac=500000000000000\nunit=microsecond whole=7 frac=0\n",
    ),
    (
        "2.000000000000000",
        IntervalUnit::Millisecond,
        "unit=millisecond whole=2 frac=0\n",
    ),
];

/// Texts that are refused, with their default units.
const REFUSED: [(&[u8], IntervalUnit, Refusal); 5] = [
    (
        b"1 day 2",
        IntervalUnit::Day,
        Refusal::RepeatedUnit { place: 6 },
    ),
    (
        b"306783378 weeks 0.1 months -2 days",
        IntervalUnit::Month,
        Refusal::Overflow { place: 16 },
    ),
    (
        b"1 day ",
        IntervalUnit::Month,
        Refusal::Interval { place: 6 },
    ),
    (
        b"1 day 2 h 9223372037",
        IntervalUnit::Second,
        Refusal::Overflow { place: 10 },
    ),
    (b"1ms\xC2", IntervalUnit::Month, Refusal::NotUtf8),
];

/// What a call with a buffer of so many bytes answers; past what is printed each byte is kept, and with a refusal all are.
fn printed(
    room: usize,
    call: impl FnOnce(&mut [u8]) -> Result<usize, Refusal>,
) -> Result<String, Refusal> {
    let mut buffer = vec![0xA5; room];
    let answer = call(&mut buffer);
    let kept = buffer.split_off(answer.unwrap_or(0));
    assert!(kept.iter().all(|b| *b == 0xA5));
    answer.map(|_| String::from_utf8(buffer).unwrap())
}

/// What is printed needs as many bytes as it has, and leaves more as they are.
fn needs(text: &str, call: impl Fn(&mut [u8]) -> Result<usize, Refusal>) {
    for room in 0..text.len() {
        assert_eq!(printed(room, &call), Err(Refusal::Buffer), "{text:?}");
    }
    for more in [0, 1, 1000] {
        assert_eq!(printed(text.len() + more, &call).as_deref(), Ok(text));
    }
}

#[test]
fn written() {
    for (interval, text) in TEXTS {
        needs(text, |buffer| write_interval(interval, buffer));
    }
    assert_eq!(LEAST.to_string().len(), 68);
}

#[test]
fn displayed() {
    for (interval, text) in TEXTS {
        assert_eq!(interval.to_string(), text);
        assert_eq!(format!("{interval:200.3}"), text);
    }
}

#[test]
fn read_back() {
    for (interval, text) in TEXTS {
        assert_eq!(parse_interval_month_day_nano(text), Ok(interval));
        for unit in IntervalUnit::ALL {
            let config = IntervalParseConfig::new(unit);
            let read = parse_interval_month_day_nano_config(text, config);
            assert_eq!(read, Ok(interval), "{unit:?} {text:?}");
        }
    }
}

#[test]
fn listed() {
    for (text, unit, lines) in LISTINGS {
        let config = IntervalParseConfig::new(unit);
        assert_eq!(
            list_interval(text, config).as_deref(),
            Ok(lines),
            "{text:?}"
        );
        needs(lines, |buffer| list_interval_into(text, config, buffer));
    }
}

#[test]
fn refused() {
    for (text, unit, refusal) in REFUSED {
        let config = IntervalParseConfig::new(unit);
        assert_eq!(list_interval(text, config), Err(refusal));
        for room in [0, 1, 1000] {
            let listed = printed(room, |buffer| list_interval_into(text, config, buffer));
            assert_eq!(listed, Err(refusal));
        }
        let read = parse_interval_month_day_nano_config(text, config);
        assert_eq!(read, Err(refusal));
    }
}

/// The line of -1.5 of a unit: its name is that of the enumeration.
fn line(unit: IntervalUnit) -> String {
    let name = format!("{unit:?}").to_lowercase();
    format!("unit={name} whole=-1 frac=-500000000000000\n")
}

#[test]
fn names() {
    for unit in IntervalUnit::ALL {
        assert_eq!(
            list_interval("-1.5", IntervalParseConfig::new(unit)),
            Ok(line(unit))
        );
        for spelling in unit.spellings() {
            let listed = list_interval(
                &format!("-1.5 {spelling}"),
                IntervalParseConfig::new(IntervalUnit::Month),
            );
            assert_eq!(listed, Ok(line(unit)));
        }
    }
}

/// A line for each unit, in the order of the text.
#[test]
fn every_unit() {
    let mut units = IntervalUnit::ALL;
    for _ in 0..2 {
        let parts: Vec<String> = units
            .iter()
            .map(|unit| format!("-1.5{}", unit.spellings()[0]))
            .collect();
        let lines: String = units.into_iter().map(line).collect();
        let listed = list_interval(
            &parts.join("\u{3000}"),
            IntervalParseConfig::new(IntervalUnit::Month),
        );
        assert_eq!(listed, Ok(lines));
        units.reverse();
    }
}

#[test]
fn longest_line() {
    let amount = "-9223372036854775808.999999999999999";
    let listed = list_interval(amount, IntervalParseConfig::new(IntervalUnit::Nanosecond)).unwrap();
    assert!(listed.ends_with("whole=-9223372036854775808 frac=-999999999999999\n"));
    assert!(listed.len() <= 66);
}

#[test]
fn errors() {
    let refusal = write_interval(LEAST, &mut [0; 67]).unwrap_err();
    assert_eq!((refusal.number(), refusal.place()), (14, None));
    assert_eq!(refusal.to_string(), "the buffer is too short");
}
