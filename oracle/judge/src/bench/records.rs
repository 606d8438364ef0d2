//! Times of conversions of records: the library's call beside a Rust loop over the records.
use super::columns::Times;
use super::sides::median;
use crate::generate::Generator;
use crate::library::raw::{cullpethi_day_time_to_month_day_nano, cullpethi_month_day_nano_to_day_time};
use crate::records::{new, old, NEW, OLD};
use std::hint::black_box;
use std::time::Instant;

/// Records in a slice, and how many rounds each side converts it.
pub const SIZES: [(usize, usize); 2] = [(1_000, 301), (100_000, 101)];

/// A conversion's times at each size, and the most that it may take of the Rust's time.
pub struct Row {
    pub name: &'static str,
    pub bar: f64,
    pub times: [Times; 2],
}

impl Row {
    pub fn met(&self) -> bool {
        self.times.iter().all(|t| t.ratio <= self.bar)
    }

    fn line(&self) -> String {
        let [short, long] = self.times.map(|t| format!("{:.2} ({:.2}, {:.2})", t.ratio, t.rust, t.library));
        format!("| `{}` | {short} | {long} | {:.2} |", self.name, self.bar)
    }
}

#[inline(never)]
fn rust_to_new(from: &[u8], to: &mut [u8]) -> Result<(), usize> {
    for (record, new) in from.chunks_exact(OLD).zip(to.chunks_exact_mut(NEW)) {
        let millis = i32::from_le_bytes(record[4..8].try_into().unwrap());
        new[..4].copy_from_slice(&0_i32.to_le_bytes());
        new[4..8].copy_from_slice(&record[..4]);
        new[8..].copy_from_slice(&(i64::from(millis) * 1_000_000).to_le_bytes());
    }
    Ok(())
}

#[inline(never)]
fn rust_to_old(from: &[u8], to: &mut [u8]) -> Result<(), usize> {
    for (i, (record, old)) in from.chunks_exact(NEW).zip(to.chunks_exact_mut(OLD)).enumerate() {
        let months = i32::from_le_bytes(record[..4].try_into().unwrap());
        let nanos = i64::from_le_bytes(record[8..].try_into().unwrap());
        if months != 0 || nanos % 1_000_000 != 0 {
            return Err(i);
        }
        let Ok(millis) = i32::try_from(nanos / 1_000_000) else { return Err(i) };
        old[..4].copy_from_slice(&record[4..8]);
        old[4..].copy_from_slice(&millis.to_le_bytes());
    }
    Ok(())
}

fn library_to_new(from: &[u8], to: &mut [u8]) -> u8 {
    // SAFETY: the records are lent for the call, and the buffer to it alone.
    unsafe { cullpethi_day_time_to_month_day_nano(from.as_ptr(), from.len(), to.as_mut_ptr(), to.len()) }
}

fn library_to_old(from: &[u8], to: &mut [u8]) -> u8 {
    let mut index = 0;
    // SAFETY: the records are lent for the call, the buffer to it alone, and the index is a local.
    unsafe { cullpethi_month_day_nano_to_day_time(from.as_ptr(), from.len(), to.as_mut_ptr(), to.len(), &mut index) }
}

/// Nanoseconds of a record in one call.
fn time<R>(count: usize, call: impl FnOnce() -> R) -> f64 {
    let start = Instant::now();
    black_box(call());
    start.elapsed().as_nanos() as f64 / count as f64
}

/// The sides take turns, each into a buffer of its own.
fn measure(
    (count, rounds): (usize, usize),
    from: &[u8],
    room: usize,
    rust: impl Fn(&[u8], &mut [u8]) -> Result<(), usize>,
    library: impl Fn(&[u8], &mut [u8]) -> u8,
) -> Times {
    let (mut to, mut other) = (vec![0; room], vec![0; room]);
    let (mut theirs, mut ours) = (vec![], vec![]);
    for _ in 0..rounds {
        theirs.push(time(count, || rust(black_box(from), black_box(&mut to))));
        ours.push(time(count, || library(black_box(from), black_box(&mut other))));
    }
    assert_eq!((rust(from, &mut to), library(from, &mut other), &to), (Ok(()), 0, &other));
    let ratios = ours.iter().zip(&theirs).map(|(ours, theirs)| ours / theirs).collect();
    Times { ratio: median(ratios), rust: median(theirs), library: median(ours) }
}

/// Times both conversions at each size, of days of up to a year and times of up to a day. A processor that was idle is slow at first, so one
/// measurement is thrown away.
pub fn rows() -> Vec<Row> {
    let slices = |count: usize| {
        let mut g = Generator::new(1);
        let each: Vec<(i32, i32)> = (0..count).map(|_| (g.below(366) as i32, g.below(86_400_000) as i32)).collect();
        let olds: Vec<u8> = each.iter().flat_map(|&(days, millis)| old(days, millis)).collect();
        let news: Vec<u8> = each.iter().flat_map(|&(days, millis)| new(0, days, i64::from(millis) * 1_000_000)).collect();
        (olds, news)
    };
    let to_new = |size: (usize, usize)| measure(size, &slices(size.0).0, NEW * size.0, rust_to_new, library_to_new);
    let to_old = |size: (usize, usize)| measure(size, &slices(size.0).1, OLD * size.0, rust_to_old, library_to_old);
    to_new(SIZES[1]);
    vec![
        Row { name: "cullpethi_day_time_to_month_day_nano", bar: 1.50, times: SIZES.map(to_new) },
        Row { name: "cullpethi_month_day_nano_to_day_time", bar: 2.00, times: SIZES.map(to_old) },
    ]
}

/// The table, in Markdown.
pub fn table(rows: &[Row]) -> String {
    let lines: Vec<String> = rows.iter().map(Row::line).collect();
    let missed: Vec<&str> = rows.iter().filter(|r| !r.met()).map(|r| r.name).collect();
    let verdict = if missed.is_empty() { "Every bar is met".to_string() } else { format!("Above its bar: {}", missed.join(", ")) };
    format!("| conversion | 1,000 records | 100,000 records | bar |\n|---|---|---|---|\n{}\n\n{verdict}.", lines.join("\n"))
}
