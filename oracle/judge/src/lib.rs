//! The Rust's answers, in document 01's terms: a value, or a refusal with its number where the Rust's error tells the step.
use arrow_array::types::*;
use arrow_cast::parse::*;
use arrow_schema::ArrowError;

/// A value (one to three numbers), or a refusal; `None` where the Rust does not say which.
#[derive(Clone, Copy, Debug, PartialEq, Eq)]
pub enum Answer {
    One(i64),
    Two(i64, i64),
    Three(i64, i64, i64),
    Refused(Option<u8>),
}

pub mod bench;
pub mod column;
pub mod generate;
pub mod keypad;
pub mod library;
pub mod lines;
pub mod page;
pub mod place;
pub mod postgres;
pub mod printing;
pub mod records;
pub mod site;

pub use Answer::*;

#[derive(Clone, Copy, Debug, PartialEq, Eq)]
pub enum Reader {
    StringToTimestampNanos,
    StringToTimeNanoseconds,
    TimestampNanosecond,
    TimestampMicrosecond,
    TimestampMillisecond,
    TimestampSecond,
    Time64Nanosecond,
    Time64Microsecond,
    Time32Millisecond,
    Time32Second,
    Date32,
    Date64,
    IntervalYearMonth,
    IntervalDayTime,
    IntervalMonthDayNano,
    /// With the default unit of that rank, from century 0 to nanosecond 11.
    IntervalConfig(u8),
}

pub const UNITS: [IntervalUnit; 12] = [
    IntervalUnit::Century,
    IntervalUnit::Decade,
    IntervalUnit::Year,
    IntervalUnit::Month,
    IntervalUnit::Week,
    IntervalUnit::Day,
    IntervalUnit::Hour,
    IntervalUnit::Minute,
    IntervalUnit::Second,
    IntervalUnit::Millisecond,
    IntervalUnit::Microsecond,
    IntervalUnit::Nanosecond,
];

/// The step at which `string_to_timestamp_nanos` refuses, by its error.
fn stamp_step(e: &ArrowError) -> Option<u8> {
    let ArrowError::ParseError(text) = e else { return None };
    let ends = |s: &str| text.ends_with(s);
    Some(if ends(": timestamp must contain at least 10 characters") || ends(": error parsing date") {
        2
    } else if ends(": invalid timestamp separator") {
        3
    } else if ends(": error parsing time") {
        4
    } else if text.starts_with("no time zone: ") {
        5
    } else if text.starts_with("offset out of range: ") {
        15
    } else if text.starts_with("The dates that can be represented as nanoseconds") {
        6
    } else {
        return None;
    })
}

/// The step at which an interval is refused, by its error. Repeated units are told from syntax by the words behind the text.
fn interval_step(text: &str, e: &ArrowError) -> Option<u8> {
    Some(match e {
        ArrowError::CastError(_) => 11,
        ArrowError::ParseError(s) if *s == format!("Invalid input syntax for type interval: {text:?}") => 8,
        ArrowError::ParseError(s) if s.starts_with(&format!("Invalid input syntax for type interval: {text:?}. Repeated type")) => 9,
        _ => 10,
    })
}

/// The Rust's `trim_pre_and_post_whitespace`, which is private, by what document 01 says of it.
pub fn trimmed(s: &str) -> &str {
    s.trim_matches(|c| matches!(c, '\t' | '\n' | '\x0C' | '\r' | ' '))
}

fn stamp(s: &str) -> Answer {
    match string_to_timestamp_nanos(s) {
        Ok(z) => One(z),
        Err(e) => Refused(stamp_step(&e)),
    }
}

/// A timestamp column: its refusal is the trimmed attempt's.
fn stamp_column(value: Option<i64>, s: &str) -> Answer {
    match value {
        Some(z) => One(z),
        None => match stamp(trimmed(s)) {
            Refused(n) => Refused(n),
            _ => Refused(Some(0)), // the column refuses what its reader accepts: never equal to an answer
        },
    }
}

fn option<T: Into<i64>>(value: Option<T>, otherwise: Option<u8>) -> Answer {
    value.map_or(Refused(otherwise), |z| One(z.into()))
}

/// The refusal of a date: 2 up to 10 bytes, else the stamp's; the Rust does not tell 2 from 6 in the signed form.
fn date_step(s: &str) -> Option<u8> {
    if s.starts_with('+') || s.starts_with('-') {
        return None;
    }
    if s.len() <= 10 {
        return Some(2);
    }
    match string_to_datetime(&chrono_utc(), s) {
        Ok(_) => Some(0),
        Err(e) => stamp_step(&e),
    }
}

fn chrono_utc() -> chrono::Utc {
    chrono::Utc
}

fn triple(r: Result<(i32, i32, i64), ArrowError>, s: &str) -> Answer {
    match r {
        Ok((m, d, n)) => Three(m as i64, d as i64, n),
        Err(e) => Refused(interval_step(s, &e)),
    }
}

/// What the Rust says of a text.
pub fn rust(reader: Reader, s: &str) -> Answer {
    match reader {
        Reader::StringToTimestampNanos => stamp(s),
        Reader::StringToTimeNanoseconds => option(string_to_time_nanoseconds(s).ok(), Some(7)),
        Reader::TimestampNanosecond => stamp_column(TimestampNanosecondType::parse(s), s),
        Reader::TimestampMicrosecond => stamp_column(TimestampMicrosecondType::parse(s), s),
        Reader::TimestampMillisecond => stamp_column(TimestampMillisecondType::parse(s), s),
        Reader::TimestampSecond => stamp_column(TimestampSecondType::parse(s), s),
        Reader::Time64Nanosecond => option(Time64NanosecondType::parse(s), Some(7)),
        Reader::Time64Microsecond => option(Time64MicrosecondType::parse(s), Some(7)),
        Reader::Time32Millisecond => option(Time32MillisecondType::parse(s), Some(7)),
        Reader::Time32Second => option(Time32SecondType::parse(s), Some(7)),
        Reader::Date32 => option(Date32Type::parse(s), date_step(trimmed(s))),
        Reader::Date64 => option(
            Date64Type::parse(s),
            if s.len() <= 10 {
                Some(2)
            } else {
                string_to_datetime(&chrono_utc(), s).map_or_else(|e| stamp_step(&e), |_| Some(0))
            },
        ),
        Reader::IntervalYearMonth => match parse_interval_year_month(s) {
            Ok(m) => One(m as i64),
            Err(e) => Refused(interval_step(s, &e)),
        },
        Reader::IntervalDayTime => match parse_interval_day_time(s) {
            Ok((d, m)) => Two(d as i64, m as i64),
            Err(e) => Refused(interval_step(s, &e)),
        },
        Reader::IntervalMonthDayNano => triple(parse_interval_month_day_nano(s), s),
        Reader::IntervalConfig(u) => {
            triple(parse_interval_month_day_nano_config(s, IntervalParseConfig::new(UNITS[u as usize])), s)
        }
    }
}

/// The same of any bytes: the Rust has `&str`, and 1 is added.
pub fn rust_bytes(reader: Reader, text: &[u8]) -> Answer {
    std::str::from_utf8(text).map_or(Refused(Some(1)), |s| rust(reader, s))
}

/// Whether a stamp's tail is one that the Rust could read as a zone name or as an offset that is not of RFC 3339, which the shim's `Tz`
/// cannot tell.
pub fn beyond_the_claim(reader: Reader, text: &[u8]) -> bool {
    let Ok(s) = std::str::from_utf8(text) else { return false };
    match rust(reader, s) {
        Refused(Some(5)) => (),
        answer => return answer == Refused(Some(15)),
    }
    let trims = !matches!(reader, Reader::StringToTimestampNanos | Reader::Date64);
    let clock = &(if trims { trimmed(s) } else { s })[11..];
    let tail = match clock.as_bytes()[2] {
        b':' if clock[8..].starts_with('.') => clock[9..].trim_start_matches(|c: char| c.is_ascii_digit()),
        b':' => &clock[8..],
        _ => &clock[6..],
    };
    tail.trim_start().starts_with(|c: char| c == '+' || c == '-' || c.is_ascii_alphabetic())
}
