//! Times of the library beside the Rust's: which readers, what they may take, and the table.
pub mod columns;
pub mod records;
pub mod sides;
pub mod svg;
pub mod texts;

use crate::library::library;
use crate::{rust_bytes, Reader, Refused};
use sides::Times;
use texts::{Set, SETS};

/// A bar on one more set of a reader's texts, by its place in `SETS`, and what the table calls it.
pub type Other = Option<(usize, &'static str, f64)>;

const LONG: Other = Some((2, "long", 1.15));
const OFFSET: Other = Some((5, "offset", 1.00));

/// A reader by the name that its table has, the most that it may take of the Rust's time on realistic texts, and on others, if that is set.
pub const READERS: [(&str, Reader, f64, Other); 16] = [
    ("string_to_timestamp_nanos", Reader::StringToTimestampNanos, 1.00, OFFSET),
    ("TimestampNanosecondType", Reader::TimestampNanosecond, 1.00, OFFSET),
    ("TimestampMicrosecondType", Reader::TimestampMicrosecond, 1.00, OFFSET),
    ("TimestampMillisecondType", Reader::TimestampMillisecond, 1.00, OFFSET),
    ("TimestampSecondType", Reader::TimestampSecond, 1.00, OFFSET),
    ("string_to_time_nanoseconds", Reader::StringToTimeNanoseconds, 1.00, LONG),
    ("Time64NanosecondType", Reader::Time64Nanosecond, 1.00, LONG),
    ("Time64MicrosecondType", Reader::Time64Microsecond, 1.00, LONG),
    ("Time32MillisecondType", Reader::Time32Millisecond, 1.00, LONG),
    ("Time32SecondType", Reader::Time32Second, 1.00, LONG),
    ("Date32Type", Reader::Date32, 1.30, None),
    ("Date64Type", Reader::Date64, 1.30, None),
    ("parse_interval_year_month", Reader::IntervalYearMonth, 0.40, None),
    ("parse_interval_day_time", Reader::IntervalDayTime, 0.40, None),
    ("parse_interval_month_day_nano", Reader::IntervalMonthDayNano, 0.40, None),
    ("parse_interval_month_day_nano_config", Reader::IntervalConfig(5), 0.40, None),
];

/// A reader's times on each set.
pub struct Row {
    pub name: &'static str,
    pub reader: Reader,
    pub bar: f64,
    pub other: Other,
    pub times: [Option<Times>; 6],
}

impl Row {
    /// The library's time over the Rust's from bytes, on realistic texts.
    pub fn ratio(&self) -> f64 {
        self.times[0].map_or(f64::NAN, |t| t.ratio)
    }

    pub fn met(&self) -> bool {
        let ratio = |set: usize| self.times[set].map_or(f64::NAN, |t| t.ratio);
        self.ratio() <= self.bar && self.other.is_none_or(|(set, _, bar)| ratio(set) <= bar)
    }

    fn cell(&self, i: usize) -> String {
        self.times[i].map_or(String::new(), |t| format!("{:.2} ({:.0}, {:.0}, {:.0})", t.ratio, t.bytes, t.strs, t.library))
    }

    fn line(&self) -> String {
        let [realistic, short, long, refused, later, offset] = [0, 1, 2, 3, 4, 5].map(|i| self.cell(i));
        let bar = self.other.map_or(format!("{:.2}", self.bar), |(_, set, bar)| format!("{:.2}, {set} {bar:.2}", self.bar));
        format!("| `{}` | {realistic} | {bar} | {short} | {long} | {refused} | {later} | {offset} |", self.name)
    }
}

/// Sees that both sides read the texts as their set says, and to the same values.
fn see(reader: Reader, set: Set, texts: &[String]) {
    for text in texts {
        let (rust, ours) = (rust_bytes(reader, text.as_bytes()), library(reader, text.as_bytes()));
        assert_eq!(rust, ours, "{reader:?} {text:?}");
        assert_eq!(matches!(ours, Refused(_)), set == Set::Refused, "{reader:?} {set:?} {text:?}");
    }
}

/// Times each reader on each set, in another order each round or in the same. A processor that was idle is slow at first, so one
/// measurement is thrown away.
pub fn rows(same_order: bool) -> Vec<Row> {
    let timed = |reader, set| {
        let texts = texts::texts(reader, set)?;
        see(reader, set, &texts);
        Some(sides::times(reader, sides::Order::new(&texts, same_order)))
    };
    timed(READERS[0].1, Set::Realistic);
    READERS
        .iter()
        .map(|&(name, reader, bar, other)| Row { name, reader, bar, other, times: SETS.map(|set| timed(reader, set)) })
        .collect()
}

/// The table, in Markdown.
pub fn table(rows: &[Row]) -> String {
    let head = "| reader | realistic | bar | short | long | refused | a later attempt | with an offset |\n|---|---|---|---|---|---|---|---|";
    let lines: Vec<String> = rows.iter().map(Row::line).collect();
    let missed: Vec<&str> = rows.iter().filter(|r| !r.met()).map(|r| r.name).collect();
    let verdict = if missed.is_empty() { "Every bar is met".to_string() } else { format!("Above a bar: {}", missed.join(", ")) };
    format!("{head}\n{}\n\n{verdict}.", lines.join("\n"))
}

/// Two texts of each set, in Markdown.
pub fn examples() -> String {
    let of = [
        ("stamps", Reader::TimestampSecond),
        ("times of day", Reader::Time32Second),
        ("dates", Reader::Date32),
        ("years and months", Reader::IntervalYearMonth),
        ("days and milliseconds", Reader::IntervalDayTime),
        ("intervals", Reader::IntervalMonthDayNano),
    ];
    let cell = |reader, set| {
        let texts = texts::texts(reader, set).unwrap_or_default();
        texts.iter().take(2).map(|t| format!("`{}`", t.replace('\n', "\\n"))).collect::<Vec<_>>().join("<br>")
    };
    let line = |(what, reader)| format!("| {what} | {} |", SETS.map(|set| cell(reader, set)).join(" | "));
    format!("| texts | realistic | short | long | refused | a later attempt | with an offset |\n|---|---|---|---|---|---|---|\n{}", of.map(line).join("\n"))
}
