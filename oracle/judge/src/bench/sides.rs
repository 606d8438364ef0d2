//! The three sides of a comparison, with a loop for each side of each reader: the Rust from bytes, the Rust from `&str`, the library.
use crate::generate::Generator;
use crate::library::raw::*;
use crate::{Reader, UNITS};
use arrow_array::types::*;
use arrow_cast::parse::*;
use std::hint::black_box;
use std::time::Instant;

/// Rounds, in each of which every side reads the set once.
pub const ROUNDS: usize = 301;

/// Nanoseconds of a call. Around it is only what keeps its result from being dropped.
#[inline(never)]
fn round<R>(texts: &[&str], call: impl Fn(&str) -> R) -> f64 {
    let start = Instant::now();
    for text in texts {
        black_box(call(text));
    }
    start.elapsed().as_nanos() as f64 / texts.len() as f64
}

/// A set's texts in another order each time, so that a processor cannot foretell the branches from the round before; or in the same.
pub struct Order<'a> {
    texts: Vec<&'a str>,
    shuffle: Option<Generator>,
}

impl<'a> Order<'a> {
    pub fn new(texts: &'a [String], same: bool) -> Self {
        Order { texts: texts.iter().map(String::as_str).collect(), shuffle: (!same).then(|| Generator::new(1)) }
    }

    fn next(&mut self) -> &[&'a str] {
        if let Some(g) = &mut self.shuffle {
            (1..self.texts.len()).rev().for_each(|i| self.texts.swap(i, g.below(i as u64 + 1) as usize));
        }
        &self.texts
    }
}

pub fn median(mut of: Vec<f64>) -> f64 {
    of.sort_by(f64::total_cmp);
    of[of.len() / 2]
}

/// Medians of the rounds: nanoseconds of a call on each side, and the library's time over the Rust's from bytes.
#[derive(Clone, Copy)]
pub struct Times {
    pub bytes: f64,
    pub strs: f64,
    pub library: f64,
    pub ratio: f64,
}

/// The sides take turns, so that a round's ratio is of times close to each other.
fn measure<R, L>(mut order: Order, rust: impl Fn(&str) -> R, library: impl Fn(&[u8]) -> L) -> Times {
    let (mut bytes, mut strs, mut ours) = (vec![], vec![], vec![]);
    for _ in 0..ROUNDS {
        bytes.push(round(order.next(), |s| rust(std::str::from_utf8(s.as_bytes()).unwrap())));
        strs.push(round(order.next(), &rust));
        ours.push(round(order.next(), |s| library(s.as_bytes())));
    }
    let ratios = ours.iter().zip(&bytes).map(|(ours, bytes)| ours / bytes).collect();
    Times { ratio: median(ratios), bytes: median(bytes), strs: median(strs), library: median(ours) }
}

type One<V> = unsafe extern "C" fn(*const u8, usize, &mut V) -> u8;

/// A call of the library with one cell.
#[inline(always)]
fn one<V: Default>(f: One<V>, s: &[u8]) -> (u8, V) {
    let mut cell = V::default();
    // SAFETY: the text is lent for the call, and the cell is a local.
    let status = unsafe { f(s.as_ptr(), s.len(), &mut cell) };
    (status, cell)
}

fn year_month(s: &[u8]) -> (u8, i32, usize) {
    let (mut months, mut place) = (0, 0);
    // SAFETY: as in `one`.
    let status = unsafe { cullpethi_parse_interval_year_month(s.as_ptr(), s.len(), &mut months, &mut place) };
    (status, months, place)
}

fn day_time(s: &[u8]) -> (u8, i32, i32, usize) {
    let (mut days, mut millis, mut place) = (0, 0, 0);
    // SAFETY: as in `one`.
    let status = unsafe { cullpethi_parse_interval_day_time(s.as_ptr(), s.len(), &mut days, &mut millis, &mut place) };
    (status, days, millis, place)
}

fn month_day_nano(s: &[u8]) -> (u8, i32, i32, i64, usize) {
    let (mut months, mut days, mut nanos, mut place) = (0, 0, 0, 0);
    // SAFETY: as in `one`.
    let status =
        unsafe { cullpethi_parse_interval_month_day_nano(s.as_ptr(), s.len(), &mut months, &mut days, &mut nanos, &mut place) };
    (status, months, days, nanos, place)
}

fn in_unit(s: &[u8], unit: u8) -> (u8, i32, i32, i64, usize) {
    let (mut months, mut days, mut nanos, mut place) = (0, 0, 0, 0);
    let (text, len) = (s.as_ptr(), s.len());
    // SAFETY: as in `one`.
    let status =
        unsafe { cullpethi_parse_interval_month_day_nano_config(text, len, unit, &mut months, &mut days, &mut nanos, &mut place) };
    (status, months, days, nanos, place)
}

/// The times of a reader on a set.
pub fn times(reader: Reader, texts: Order) -> Times {
    use Reader::*;
    match reader {
        StringToTimestampNanos => measure(texts, string_to_timestamp_nanos, |s| one(cullpethi_string_to_timestamp_nanos, s)),
        StringToTimeNanoseconds => measure(texts, string_to_time_nanoseconds, |s| one(cullpethi_string_to_time_nanoseconds, s)),
        TimestampNanosecond => measure(texts, TimestampNanosecondType::parse, |s| one(cullpethi_parse_timestamp_nanosecond, s)),
        TimestampMicrosecond => measure(texts, TimestampMicrosecondType::parse, |s| one(cullpethi_parse_timestamp_microsecond, s)),
        TimestampMillisecond => measure(texts, TimestampMillisecondType::parse, |s| one(cullpethi_parse_timestamp_millisecond, s)),
        TimestampSecond => measure(texts, TimestampSecondType::parse, |s| one(cullpethi_parse_timestamp_second, s)),
        Time64Nanosecond => measure(texts, Time64NanosecondType::parse, |s| one(cullpethi_parse_time64_nanosecond, s)),
        Time64Microsecond => measure(texts, Time64MicrosecondType::parse, |s| one(cullpethi_parse_time64_microsecond, s)),
        Time32Millisecond => measure(texts, Time32MillisecondType::parse, |s| one(cullpethi_parse_time32_millisecond, s)),
        Time32Second => measure(texts, Time32SecondType::parse, |s| one(cullpethi_parse_time32_second, s)),
        Date32 => measure(texts, Date32Type::parse, |s| one(cullpethi_parse_date32, s)),
        Date64 => measure(texts, Date64Type::parse, |s| one(cullpethi_parse_date64, s)),
        IntervalYearMonth => measure(texts, parse_interval_year_month, year_month),
        IntervalDayTime => measure(texts, parse_interval_day_time, day_time),
        IntervalMonthDayNano => measure(texts, parse_interval_month_day_nano, month_day_nano),
        IntervalConfig(unit) => measure(
            texts,
            |s| parse_interval_month_day_nano_config(s, IntervalParseConfig::new(UNITS[unit as usize])),
            |s| in_unit(s, unit),
        ),
    }
}
