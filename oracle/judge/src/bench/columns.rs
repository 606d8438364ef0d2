//! Times of whole columns: the library's one call beside the Rust doing the same work over the same slices.
use super::sides::median;
use super::texts::{kind, realistic, Kind};
use crate::column::{parse_column, Texts, COLUMNS};
use crate::generate::Generator;
use crate::Reader;
use arrow_array::types::*;
use arrow_cast::parse::*;
use std::hint::black_box;
use std::time::Instant;

/// Texts in a column, and how many rounds each side reads it.
pub const SIZES: [(usize, usize); 2] = [(1_000, 301), (100_000, 21)];

/// Medians of the rounds: nanoseconds of a text on each side, and the library's time over the Rust's.
#[derive(Clone, Copy)]
pub struct Times {
    pub rust: f64,
    pub library: f64,
    pub ratio: f64,
}

/// A column's times at each size.
pub struct Row {
    pub reader: Reader,
    pub bar: f64,
    pub times: [Times; 2],
}

impl Row {
    pub fn met(&self) -> bool {
        self.times.iter().all(|t| t.ratio <= self.bar)
    }

    /// How much longer a text takes in the longer column: the Rust, the library.
    fn growth(&self) -> (f64, f64) {
        let [short, long] = self.times;
        (long.rust / short.rust, long.library / short.library)
    }

    fn line(&self) -> String {
        let [short, long] = self.times.map(|t| format!("{:.2} ({:.1}, {:.1})", t.ratio, t.rust, t.library));
        let (rust, library) = self.growth();
        format!("| `{:?}` | {short} | {long} | {:.2} | {rust:.2}, {library:.2} |", self.reader, self.bar)
    }
}

/// The most that a column may take of the Rust's time.
fn bar(reader: Reader) -> f64 {
    match kind(reader) {
        Kind::Stamp => 1.20,
        Kind::Date => 1.50,
        _ => 2.20,
    }
}

/// The Rust's loop: each slice checked, read and pushed.
#[inline(never)]
fn rust<V>(texts: &Texts, parse: impl Fn(&str) -> Option<V>) -> Vec<V> {
    let mut values = Vec::with_capacity(texts.ends.len());
    let mut from = 0;
    for &end in &texts.ends {
        let text = std::str::from_utf8(&texts.bytes[from..end as usize]).unwrap();
        values.push(parse(text).unwrap());
        from = end as usize;
    }
    values
}

/// The sides take turns, on another order of the texts each round.
fn measure<V: Into<i64> + Copy>(column: u8, size: (usize, usize), parse: impl Fn(&str) -> Option<V>) -> Times {
    let mut all = realistic(COLUMNS[column as usize], size.0);
    let mut g = Generator::new(1);
    let mut cells = vec![0; size.0];
    let (mut theirs, mut ours) = (vec![], vec![]);
    for round in 0..size.1 {
        (1..all.len()).rev().for_each(|i| all.swap(i, g.below(i as u64 + 1) as usize));
        let texts = Texts::of(&all);
        let start = Instant::now();
        let values = black_box(rust(&texts, &parse));
        theirs.push(start.elapsed().as_nanos() as f64 / size.0 as f64);
        let start = Instant::now();
        let (status, _) = black_box(parse_column(column, &texts.bytes, &texts.ends, &mut cells, 0));
        ours.push(start.elapsed().as_nanos() as f64 / size.0 as f64);
        if round == 0 {
            let values: Vec<i64> = values.into_iter().map(Into::into).collect();
            assert_eq!((status, &cells), (0, &values), "column {column}");
        }
    }
    let ratios = ours.iter().zip(&theirs).map(|(ours, theirs)| ours / theirs).collect();
    Times { ratio: median(ratios), rust: median(theirs), library: median(ours) }
}

fn times(column: u8, size: (usize, usize)) -> Times {
    match column {
        0 => measure(column, size, TimestampNanosecondType::parse),
        1 => measure(column, size, TimestampMicrosecondType::parse),
        2 => measure(column, size, TimestampMillisecondType::parse),
        3 => measure(column, size, TimestampSecondType::parse),
        4 => measure(column, size, Time64NanosecondType::parse),
        5 => measure(column, size, Time64MicrosecondType::parse),
        6 => measure(column, size, Time32MillisecondType::parse),
        7 => measure(column, size, Time32SecondType::parse),
        8 => measure(column, size, Date32Type::parse),
        _ => measure(column, size, Date64Type::parse),
    }
}

/// Times each column at each size. A processor that was idle is slow at first, so one measurement is thrown away.
pub fn rows() -> Vec<Row> {
    times(0, SIZES[1]);
    (0..10u8).map(|c| Row { reader: COLUMNS[c as usize], bar: bar(COLUMNS[c as usize]), times: SIZES.map(|size| times(c, size)) }).collect()
}

/// The table, in Markdown.
pub fn table(rows: &[Row]) -> String {
    let head = "| column | 1,000 texts | 100,000 texts | bar | growth |\n|---|---|---|---|---|";
    let lines: Vec<String> = rows.iter().map(Row::line).collect();
    let missed: Vec<String> = rows.iter().filter(|r| !r.met()).map(|r| format!("{:?}", r.reader)).collect();
    let verdict = if missed.is_empty() { "Every bar is met".to_string() } else { format!("Above its bar: {}", missed.join(", ")) };
    format!("{head}\n{}\n\n{verdict}.", lines.join("\n"))
}
