//! The texts that are timed: a thousand of each set, seeded, such as a gateway meets.
use crate::generate::Generator;
use crate::Reader;

const SEED: u64 = 20261116;
/// Texts in a set.
pub const TEXTS: usize = 1_000;

/// A set of texts.
#[derive(Clone, Copy, Debug, PartialEq, Eq)]
pub enum Set {
    /// As they come.
    Realistic,
    /// The shortest that are read.
    Short,
    /// With 30 fraction digits, or as many components as there may be.
    Long,
    /// Not read, for various reasons.
    Refused,
    /// Read by a column at its second or third attempt.
    Later,
    /// Realistic, with an offset in place of Z or nothing.
    Offset,
}

pub const SETS: [Set; 6] = [Set::Realistic, Set::Short, Set::Long, Set::Refused, Set::Later, Set::Offset];

/// What a reader's texts are.
#[derive(Clone, Copy, Debug, PartialEq, Eq)]
pub enum Kind {
    Stamp,
    Time,
    Date,
    YearMonth,
    DayTime,
    Interval,
}

pub fn kind(reader: Reader) -> Kind {
    match reader {
        Reader::StringToTimestampNanos
        | Reader::TimestampNanosecond
        | Reader::TimestampMicrosecond
        | Reader::TimestampMillisecond
        | Reader::TimestampSecond => Kind::Stamp,
        Reader::StringToTimeNanoseconds
        | Reader::Time64Nanosecond
        | Reader::Time64Microsecond
        | Reader::Time32Millisecond
        | Reader::Time32Second => Kind::Time,
        Reader::Date32 | Reader::Date64 => Kind::Date,
        Reader::IntervalYearMonth => Kind::YearMonth,
        Reader::IntervalDayTime => Kind::DayTime,
        Reader::IntervalMonthDayNano | Reader::IntervalConfig(_) => Kind::Interval,
    }
}

/// Whether a reader makes a later attempt: all columns but Date64 do.
fn attempts(reader: Reader) -> bool {
    let one = matches!(reader, Reader::StringToTimestampNanos | Reader::StringToTimeNanoseconds | Reader::Date64);
    !one && matches!(kind(reader), Kind::Stamp | Kind::Time | Kind::Date)
}

/// The texts of a reader's set; none where it makes no later attempt, or takes no offset.
pub fn texts(reader: Reader, set: Set) -> Option<Vec<String>> {
    if set == Set::Later && !attempts(reader) || set == Set::Offset && kind(reader) != Kind::Stamp {
        return None;
    }
    Some(seeded(kind(reader), set, TEXTS))
}

/// So many realistic texts of a reader.
pub fn realistic(reader: Reader, count: usize) -> Vec<String> {
    seeded(kind(reader), Set::Realistic, count)
}

fn seeded(kind: Kind, set: Set, count: usize) -> Vec<String> {
    let mut g = Generator::new(SEED ^ (kind as u64) << 56 ^ (set as u64) << 48);
    (0..count).map(|_| text(&mut g, kind, set)).collect()
}

fn text(g: &mut Generator, kind: Kind, set: Set) -> String {
    match (kind, set) {
        (_, Set::Later) => later(g, kind),
        (Kind::Stamp, _) => stamp(g, set),
        (Kind::Time, _) => time(g, set),
        (Kind::Date, _) => date(g, set),
        (_, Set::Refused) => refused_interval(g),
        (Kind::YearMonth, _) => interval(g, set, &[&["month", "mons", "mon"], &["year", "years", "y"], &["decades"], &["century"]]),
        (Kind::DayTime, _) => interval(g, set, &UNITS[3..]),
        (Kind::Interval, _) => interval(g, set, &UNITS),
    }
}

/// A day that every month has.
fn day(g: &mut Generator) -> (u64, u64, u64) {
    (2020 + g.below(15), 1 + g.below(12), 1 + g.below(28))
}

fn ymd(g: &mut Generator) -> String {
    let (y, m, d) = day(g);
    format!("{y}-{m:02}-{d:02}")
}

fn hms(g: &mut Generator) -> String {
    format!("{:02}:{:02}:{:02}", g.below(24), g.below(60), g.below(60))
}

fn stamp(g: &mut Generator, set: Set) -> String {
    let (date, time) = (ymd(g), hms(g));
    match (set, g.below(3)) {
        (Set::Short, _) => date,
        (Set::Long, _) => format!("{date}T{time}.{}Z", g.digits(30)),
        (Set::Refused, 0) => format!("{}-02-30T{time}Z", &date[..4]),
        (Set::Refused, 1) => format!("{date}T{}", &time[..5]),
        (Set::Refused, _) => format!("{date}T24{}Z", &time[2..]),
        (Set::Offset, 0) => format!("{date}T{time}{}:00", offset(g)),
        (Set::Offset, 1) => format!("{date} {time}.{} {}", g.digits(3), offset(g)),
        (Set::Offset, _) => format!("{date}T{time}.{}{}30", g.digits(9), offset(g)),
        (_, 0) => format!("{date}T{time}Z"),
        (_, 1) => format!("{date} {time}.{}", g.digits(3)),
        _ => format!("{date}T{time}.{}Z", g.digits(9)),
    }
}

/// A sign and hours, as dealers abroad have them.
fn offset(g: &mut Generator) -> String {
    format!("{}{:02}", ["+", "-"][g.below(2) as usize], g.below(13))
}

fn time(g: &mut Generator, set: Set) -> String {
    let (time, hour, minute, second) = (hms(g), 1 + g.below(12), g.below(60), g.below(60));
    let half = ["AM", "PM", "am", "pm"][g.below(4) as usize];
    match (set, g.below(4)) {
        (Set::Short, _) => format!("{}:{minute:02}", g.below(10)),
        (Set::Long, _) => format!("{hour:02}:{minute:02}:{second:02}.{} {half}", g.digits(30)),
        (Set::Refused, 0) => format!("24{}", &time[2..]),
        (Set::Refused, 1) => format!("{hour}:{} {half}", minute % 10),
        (Set::Refused, 2) => format!("{}:{minute:02} {half}", 13 + g.below(11)),
        (Set::Refused, _) => format!("{}.", &time[..8]),
        (_, 0) => time,
        (_, 1) => format!("{hour}:{minute:02} {half}"),
        (_, 2) => format!("{time}.{}", g.digits(3)),
        _ => format!("{hour:02}:{minute:02}:{second:02} {half}"),
    }
}

fn date(g: &mut Generator, set: Set) -> String {
    let (y, m, d) = day(g);
    match (set, g.below(3)) {
        (Set::Short, _) => format!("{y}-{}-{}", 1 + m % 9, 1 + d % 9),
        (Set::Long, _) => format!("{y}-{m:02}-{d:02}T{}Z", hms(g)),
        (Set::Refused, 0) => format!("{y}-02-30"),
        (Set::Refused, 1) => format!("{y}-{}-{d}", 13 + m),
        (Set::Refused, _) => format!("{y}/{m:02}/{d:02}"),
        (_, 0) => format!("{y}-{m:02}-{d:02}"),
        (_, 1) => format!("{y}-{m}-{d}"),
        _ => format!("{y}{m:02}{d:02}"),
    }
}

/// Trimmed, or for times half of them an integer.
fn later(g: &mut Generator, kind: Kind) -> String {
    match kind {
        Kind::Time if g.below(2) == 0 => g.below(86_400_000).to_string(),
        _ => format!(" {}{}", text(g, kind, Set::Realistic), ["", " ", "\n"][g.below(3) as usize]),
    }
}

/// Spellings of each unit, from century to nanosecond.
const UNITS: [&[&str]; 12] = [
    &["century", "centuries"],
    &["decade", "decades"],
    &["year", "years", "y"],
    &["month", "months", "mon"],
    &["week", "weeks", "w"],
    &["day", "days", "d"],
    &["hour", "hours", "h"],
    &["minute", "minutes", "min", "m"],
    &["second", "seconds", "sec", "s"],
    &["millisecond", "milliseconds", "ms"],
    &["microsecond", "microseconds", "us"],
    &["nanosecond", "nanoseconds"],
];

fn spelled(g: &mut Generator, of: &[&str]) -> String {
    of[g.below(of.len() as u64) as usize].to_string()
}

/// An amount and one of the units.
fn component(g: &mut Generator, amount: &str, units: &[&[&str]]) -> String {
    let unit = units[g.below(units.len() as u64) as usize];
    format!("{amount} {}", spelled(g, unit))
}

/// Long ones have each unit once; below milliseconds whole milliseconds, which days and milliseconds can hold.
fn long_interval(g: &mut Generator, units: &[&[&str]]) -> String {
    let part = |unit: &&[&str], g: &mut Generator| {
        let amount = 1 + g.below(20);
        let zeros = if unit[0].starts_with("micro") { "000" } else if unit[0].starts_with("nano") { "000000" } else { "" };
        format!("{amount}{zeros} {}", spelled(g, unit))
    };
    let parts: Vec<String> = units.iter().map(|unit| part(unit, g)).collect();
    parts.join(" ")
}

fn interval(g: &mut Generator, set: Set, units: &[&[&str]]) -> String {
    let (a, b, tenths) = ((1 + g.below(90)).to_string(), (1 + g.below(30)).to_string(), g.below(10));
    let months = units.len() == 4;
    match (set, g.below(4)) {
        (Set::Long, _) => long_interval(g, units),
        (Set::Short, 0) => a,
        (Set::Short, _) => a + if months { "y" } else { ["d", "h", "m", "s"][g.below(4) as usize] },
        (_, 0) if months => component(g, &format!("-{a}"), units),
        (_, _) if months => format!("{} {}", component(g, &a, &units[1..]), component(g, &b, &units[..1])),
        (_, 0) => component(g, &a, &UNITS[5..10]),
        (_, 1) => format!("{} {}", component(g, &a, &UNITS[4..6]), component(g, &b, &UNITS[6..9])),
        (_, 2) => component(g, &format!("{a}.{tenths}"), &UNITS[6..9]),
        _ => format!("1 month -{b} days {a} hours {b} minutes"),
    }
}

fn refused_interval(g: &mut Generator) -> String {
    let (a, b) = (1 + g.below(90), 1 + g.below(30));
    match g.below(5) {
        0 => format!("{a} {}", ["dy", "houres", "fortnights", "secnd"][g.below(4) as usize]),
        1 => format!("{a} day {b} days"),
        2 => format!("{a}  hours"),
        3 => format!("+{a} days {b} hours"),
        _ => format!("{a} days {b}00000000000 months"),
    }
}
