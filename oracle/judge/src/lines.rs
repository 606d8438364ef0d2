//! The lines of the programs `readings` and `replay`: the readers' names, and texts with bytes that do not print as `\xHH`.
use crate::Reader;

pub const NAMES: [(&str, Reader); 27] = [
    ("stamp", Reader::StringToTimestampNanos),
    ("time", Reader::StringToTimeNanoseconds),
    ("ts_ns", Reader::TimestampNanosecond),
    ("ts_us", Reader::TimestampMicrosecond),
    ("ts_ms", Reader::TimestampMillisecond),
    ("ts_s", Reader::TimestampSecond),
    ("t64_ns", Reader::Time64Nanosecond),
    ("t64_us", Reader::Time64Microsecond),
    ("t32_ms", Reader::Time32Millisecond),
    ("t32_s", Reader::Time32Second),
    ("date32", Reader::Date32),
    ("date64", Reader::Date64),
    ("year_month", Reader::IntervalYearMonth),
    ("day_time", Reader::IntervalDayTime),
    ("interval", Reader::IntervalMonthDayNano),
    ("in_centuries", Reader::IntervalConfig(0)),
    ("in_decades", Reader::IntervalConfig(1)),
    ("in_years", Reader::IntervalConfig(2)),
    ("in_months", Reader::IntervalConfig(3)),
    ("in_weeks", Reader::IntervalConfig(4)),
    ("in_days", Reader::IntervalConfig(5)),
    ("in_hours", Reader::IntervalConfig(6)),
    ("in_minutes", Reader::IntervalConfig(7)),
    ("in_seconds", Reader::IntervalConfig(8)),
    ("in_milliseconds", Reader::IntervalConfig(9)),
    ("in_microseconds", Reader::IntervalConfig(10)),
    ("in_nanoseconds", Reader::IntervalConfig(11)),
];

pub fn reader_named(name: &[u8]) -> Option<Reader> {
    NAMES.iter().find(|(n, _)| n.as_bytes() == name).map(|(_, r)| *r)
}

pub fn escape(t: &[u8]) -> String {
    t.iter().map(|b| if matches!(b, 0x20..=0x7E) && *b != b'\\' { (*b as char).to_string() } else { format!("\\x{b:02X}") }).collect()
}

pub fn unescape(t: &[u8]) -> Vec<u8> {
    let mut out = vec![];
    let mut i = 0;
    while i < t.len() {
        if t[i..].starts_with(b"\\x") && i + 3 < t.len() {
            out.push(u8::from_str_radix(std::str::from_utf8(&t[i + 2..i + 4]).unwrap(), 16).unwrap());
            i += 4;
        } else {
            out.push(t[i]);
            i += 1;
        }
    }
    out
}
