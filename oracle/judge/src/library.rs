//! The delivered library's answers, through its C interface.
use crate::{Answer, Answer::*, Reader};

use raw::*;

type Text = (*const u8, usize);

/// The C interface.
pub mod raw {
    extern "C" {
        pub fn cullpethi_string_to_timestamp_nanos(text: *const u8, len: usize, out: &mut i64) -> u8;
        pub fn cullpethi_string_to_time_nanoseconds(text: *const u8, len: usize, out: &mut i64) -> u8;
        pub fn cullpethi_site_stamp(text: *const u8, len: usize, nanos: &mut i64, leap: &mut u8) -> u8;
        pub fn cullpethi_parse_timestamp_nanosecond(text: *const u8, len: usize, out: &mut i64) -> u8;
        pub fn cullpethi_parse_timestamp_microsecond(text: *const u8, len: usize, out: &mut i64) -> u8;
        pub fn cullpethi_parse_timestamp_millisecond(text: *const u8, len: usize, out: &mut i64) -> u8;
        pub fn cullpethi_parse_timestamp_second(text: *const u8, len: usize, out: &mut i64) -> u8;
        pub fn cullpethi_parse_time64_nanosecond(text: *const u8, len: usize, out: &mut i64) -> u8;
        pub fn cullpethi_parse_time64_microsecond(text: *const u8, len: usize, out: &mut i64) -> u8;
        pub fn cullpethi_parse_time32_millisecond(text: *const u8, len: usize, out: &mut i32) -> u8;
        pub fn cullpethi_parse_time32_second(text: *const u8, len: usize, out: &mut i32) -> u8;
        pub fn cullpethi_parse_date32(text: *const u8, len: usize, out: &mut i32) -> u8;
        pub fn cullpethi_parse_date64(text: *const u8, len: usize, out: &mut i64) -> u8;
        pub fn cullpethi_parse_interval_year_month(text: *const u8, len: usize, months: &mut i32, place: &mut usize) -> u8;
        pub fn cullpethi_parse_interval_day_time(text: *const u8, len: usize, days: &mut i32, millis: &mut i32, place: &mut usize) -> u8;
        pub fn cullpethi_parse_interval_month_day_nano(
            text: *const u8,
            len: usize,
            months: &mut i32,
            days: &mut i32,
            nanos: &mut i64,
            place: &mut usize,
        ) -> u8;
        pub fn cullpethi_parse_interval_month_day_nano_config(
            text: *const u8,
            len: usize,
            default_unit: u8,
            months: &mut i32,
            days: &mut i32,
            nanos: &mut i64,
            place: &mut usize,
        ) -> u8;
        pub fn cullpethi_write_interval(
            months: i32,
            days: i32,
            nanos: i64,
            buffer: *mut u8,
            buffer_len: usize,
            length: &mut usize,
        ) -> u8;
        pub fn cullpethi_list_interval(
            text: *const u8,
            len: usize,
            default_unit: u8,
            buffer: *mut u8,
            buffer_len: usize,
            length: &mut usize,
            place: &mut usize,
        ) -> u8;
        pub fn cullpethi_parse_column(
            column: u8,
            texts: *const u8,
            texts_len: usize,
            ends: *const u32,
            ends_len: usize,
            cells: *mut i64,
            cells_len: usize,
            index: &mut usize,
        ) -> u8;
        pub fn cullpethi_day_time_to_month_day_nano(from: *const u8, from_len: usize, to: *mut u8, to_len: usize) -> u8;
        pub fn cullpethi_month_day_nano_to_day_time(from: *const u8, from_len: usize, to: *mut u8, to_len: usize, index: &mut usize) -> u8;
        pub fn cullpethi_keypad_text(k: u64, buffer: *mut u8, buffer_len: usize, length: &mut usize) -> u8;
    }
}

/// An answer, and the place of a refusal that has one.
pub type Told = (Answer, Option<usize>);

/// What a cell holds before each call; a refusal must leave it.
const BEFORE: i64 = 0x5A5A_5A5A;
const BEFORE32: i32 = BEFORE as i32;
/// What the place holds before each call, and is in no text.
const NOWHERE: usize = usize::MAX;

/// A call with these cells and a place, which must be written exactly with 8, 9 and 10.
fn placed<V: Copy + PartialEq>(before: V, value: impl FnOnce(V) -> Answer, call: impl FnOnce(&mut V, &mut usize) -> u8) -> Told {
    let (mut cells, mut place) = (before, NOWHERE);
    let status = call(&mut cells, &mut place);
    let at = (place != NOWHERE).then_some(place);
    match status {
        0 if at.is_none() => (value(cells), None),
        1.. if cells == before && at.is_some() == matches!(status, 8..=10) => (Refused(Some(status)), at),
        _ => (Refused(Some(254)), None),
    }
}

fn wide(f: unsafe extern "C" fn(*const u8, usize, &mut i64) -> u8, (text, len): Text) -> Told {
    placed(BEFORE, One, |cell, _| unsafe { f(text, len, cell) })
}

fn narrow(f: unsafe extern "C" fn(*const u8, usize, &mut i32) -> u8, (text, len): Text) -> Told {
    placed(BEFORE32, |z| One(z as i64), |cell, _| unsafe { f(text, len, cell) })
}

fn year_month((text, len): Text) -> Told {
    let call = |months: &mut i32, place: &mut usize| unsafe { cullpethi_parse_interval_year_month(text, len, months, place) };
    placed(BEFORE32, |months| One(months as i64), call)
}

fn day_time((text, len): Text) -> Told {
    let value = |(days, millis)| Two(days as i64, millis as i64);
    placed((BEFORE32, BEFORE32), value, |(days, millis), place| unsafe {
        cullpethi_parse_interval_day_time(text, len, days, millis, place)
    })
}

fn three(call: impl FnOnce(&mut i32, &mut i32, &mut i64, &mut usize) -> u8) -> Told {
    let value = |(months, days, nanos)| Three(months as i64, days as i64, nanos);
    placed((BEFORE32, BEFORE32, BEFORE), value, |(months, days, nanos), place| call(months, days, nanos, place))
}

/// What the library says of a text; 254 where a refusal changed a cell that it must keep, or a place was written with another number than
/// 8, 9 and 10, or none with these.
pub fn told(reader: Reader, s: &[u8]) -> Told {
    let text = (s.as_ptr(), s.len());
    match reader {
        Reader::StringToTimestampNanos => wide(cullpethi_string_to_timestamp_nanos, text),
        Reader::StringToTimeNanoseconds => wide(cullpethi_string_to_time_nanoseconds, text),
        Reader::TimestampNanosecond => wide(cullpethi_parse_timestamp_nanosecond, text),
        Reader::TimestampMicrosecond => wide(cullpethi_parse_timestamp_microsecond, text),
        Reader::TimestampMillisecond => wide(cullpethi_parse_timestamp_millisecond, text),
        Reader::TimestampSecond => wide(cullpethi_parse_timestamp_second, text),
        Reader::Time64Nanosecond => wide(cullpethi_parse_time64_nanosecond, text),
        Reader::Time64Microsecond => wide(cullpethi_parse_time64_microsecond, text),
        Reader::Time32Millisecond => narrow(cullpethi_parse_time32_millisecond, text),
        Reader::Time32Second => narrow(cullpethi_parse_time32_second, text),
        Reader::Date32 => narrow(cullpethi_parse_date32, text),
        Reader::Date64 => wide(cullpethi_parse_date64, text),
        Reader::IntervalYearMonth => year_month(text),
        Reader::IntervalDayTime => day_time(text),
        Reader::IntervalMonthDayNano => {
            three(|m, d, n, place| unsafe { cullpethi_parse_interval_month_day_nano(text.0, text.1, m, d, n, place) })
        }
        Reader::IntervalConfig(unit) => {
            three(|m, d, n, place| unsafe { cullpethi_parse_interval_month_day_nano_config(text.0, text.1, unit, m, d, n, place) })
        }
    }
}

/// The nanoseconds, and 1 with the mark of second 60, else 0.
pub fn site_stamp(s: &[u8]) -> Answer {
    let value = |(nanos, leap)| Two(nanos, leap as i64);
    placed((BEFORE, 0x5A), value, |(nanos, leap), _| unsafe { cullpethi_site_stamp(s.as_ptr(), s.len(), nanos, leap) }).0
}

/// The same as `told`, without the place.
pub fn library(reader: Reader, s: &[u8]) -> Answer {
    told(reader, s).0
}
