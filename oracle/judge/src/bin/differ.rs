//! differ SEED COUNT [stamps]: the Rust and the library on the same texts, COUNT for each family and besides all short texts over small alphabets,
//! COUNT / 4 more intervals with a fault, and the listing of each interval; of each stamp, and of more about second 60, the site stamp; then
//! COUNT / 4 intervals and extreme ones printed; then whole columns, COUNT / 20 of each of the ten; then COUNT / 4 slices of records each way,
//! and extreme ones; and all keypad texts.
use judge::column::{accepted, by_library, by_rust, Texts, Whole, COLUMNS};
use judge::generate::{extremes, Family, Generator};
use judge::keypad;
use judge::library::told;
use judge::place::Placed;
use judge::printing::Printings;
use judge::records::{new, old, Conversions};
use judge::site::{on_each_day, Sites};
use judge::*;

const STAMPS: [Reader; 7] = [
    Reader::StringToTimestampNanos,
    Reader::TimestampNanosecond,
    Reader::TimestampMicrosecond,
    Reader::TimestampMillisecond,
    Reader::TimestampSecond,
    Reader::Date32,
    Reader::Date64,
];
const TIMES: [Reader; 5] = [
    Reader::StringToTimeNanoseconds,
    Reader::Time64Nanosecond,
    Reader::Time64Microsecond,
    Reader::Time32Millisecond,
    Reader::Time32Second,
];
const DATES: [Reader; 3] = [Reader::Date32, Reader::Date64, Reader::StringToTimestampNanos];
/// The default unit of the last is drawn for each text.
const INTERVALS: [Reader; 4] =
    [Reader::IntervalYearMonth, Reader::IntervalDayTime, Reader::IntervalMonthDayNano, Reader::IntervalConfig(0)];

fn readers(family: Family) -> &'static [Reader] {
    match family {
        Family::Stamp => &STAMPS,
        Family::Time => &TIMES,
        Family::Date => &DATES,
        Family::Interval => &INTERVALS,
    }
}

#[derive(Clone, Copy, Default)]
struct Counts {
    compared: u64,
    accepted: u64,
    not_utf8: u64,
    number_untold: u64,
    /// Places, of 8, 9 and 10.
    places: [u64; 3],
    differ: u64,
}

impl std::ops::AddAssign for Counts {
    fn add_assign(&mut self, of: Self) {
        self.compared += of.compared;
        self.accepted += of.accepted;
        self.not_utf8 += of.not_utf8;
        self.number_untold += of.number_untold;
        self.places.iter_mut().zip(of.places).for_each(|(n, more)| *n += more);
        self.differ += of.differ;
    }
}

/// Whether the answers agree; where the Rust does not tell the number of a refusal, 2 and 6 are possible.
fn agree(rust: Answer, ours: Answer) -> bool {
    rust == ours || (rust == Refused(None) && matches!(ours, Refused(Some(2 | 6))))
}

fn compare(reader: Reader, placed: &Placed, n: &mut Counts) {
    let (ours, our_place) = told(reader, placed.text);
    let theirs = rust_bytes(reader, placed.text);
    let their_place = placed.place(reader, theirs);
    n.compared += 1;
    n.not_utf8 += (theirs == Refused(Some(1))) as u64;
    n.accepted += !matches!(ours, Refused(_)) as u64;
    n.number_untold += (theirs == Refused(None)) as u64;
    if let Refused(Some(number @ 8..=10)) = theirs {
        n.places[number as usize - 8] += 1;
    }
    if !agree(theirs, ours) || their_place != our_place {
        n.differ += 1;
        if n.differ <= 20 {
            let text = String::from_utf8_lossy(placed.text);
            println!("differ: {reader:?} {text:?} Rust {theirs:?} at {their_place:?} library {ours:?} at {our_place:?}");
        }
    }
}

/// The counts of a family's readers, in their order, of the listings of its texts, and of these as site stamps.
#[derive(Default)]
struct Counted {
    readers: [Counts; 7],
    listings: Printings,
    sites: Sites,
}

fn on_all(family: Family, g: &mut Generator, text: &[u8], n: &mut Counted) {
    let placed = Placed::new(text);
    for (reader, counts) in readers(family).iter().zip(&mut n.readers) {
        match reader {
            Reader::IntervalConfig(_) => {
                let unit = g.below(12) as u8;
                compare(Reader::IntervalConfig(unit), &placed, counts);
                n.listings.listing(&placed, unit);
            }
            _ => compare(*reader, &placed, counts),
        }
    }
    if family == Family::Stamp {
        n.sites.site(text);
    }
}

/// All texts over an alphabet of at most so many symbols, behind a beginning.
fn exhaust(family: Family, begin: &str, alphabet: &[&str], most: u32, g: &mut Generator, n: &mut Counted) {
    let k = alphabet.len() as u64;
    for length in 0..=most {
        for mut code in 0..k.pow(length) {
            let mut text = begin.to_string();
            for _ in 0..length {
                text += alphabet[(code % k) as usize];
                code /= k;
            }
            on_all(family, g, text.as_bytes(), n);
        }
    }
}

/// All short texts of a family.
fn short(family: Family, g: &mut Generator) -> Counted {
    let mut n = Counted::default();
    match family {
        Family::Stamp => {
            exhaust(family, "1970-01-0", &["1", "T", " ", "0", ":", "Z", "."], 6, g, &mut n);
            for time in ["1970-01-01T23:59:60", "1970-01-01 000000", "1970-01-01"] {
                exhaust(family, time, &["+", "-", "0", "2", "6", ":", " ", "\u{3000}"], 6, g, &mut n);
            }
        }
        Family::Time => exhaust(family, "", &["0", "1", "2", "6", ":", ".", " ", "A", "M", "p"], 6, g, &mut n),
        Family::Date => exhaust(family, "", &["0", "1", "2", "-", "+", "x", "é"], 7, g, &mut n),
        Family::Interval => exhaust(family, "", &["1", "0", "-", ".", " ", "d", "m", "s", "\u{212A}", "w"], 6, g, &mut n),
    }
    n
}

/// Intervals most of which are refused at a place: all short texts whose amounts reach a limit, with white space of one byte and of three
/// bytes, and generated ones.
fn faulty(count: u64, g: &mut Generator, n: &mut Counted) {
    exhaust(Family::Interval, "", &["1", "-", "2147483647", " ", "\u{3000}", "d", "w", "mon"], 6, g, n);
    for _ in 0..count {
        let text = g.faulty_interval();
        on_all(Family::Interval, g, &text, n);
    }
}

fn sum(of: &Counted) -> Counts {
    let mut all = Counts::default();
    of.readers.iter().for_each(|n| all += *n);
    all
}

/// What share of the generated texts is accepted: of all comparisons, and of each reader's.
fn shares(family: Family, generated: &Counted) -> String {
    let share = |n: &Counts| format!("{:.1} %", 100.0 * n.accepted as f64 / n.compared.max(1) as f64);
    let each: Vec<String> = readers(family).iter().zip(&generated.readers).map(|(r, n)| format!("{} {}", named(*r), share(n))).collect();
    format!("{} ({})", share(&sum(generated)), each.join(", "))
}

fn named(reader: Reader) -> String {
    match reader {
        Reader::IntervalConfig(_) => "IntervalConfig".to_string(),
        _ => format!("{reader:?}"),
    }
}

/// The family whose texts a column is given.
fn family(column: u8) -> Family {
    match column {
        0..=3 => Family::Stamp,
        4..=7 => Family::Time,
        _ => Family::Date,
    }
}

/// Up to eight texts; in three columns of four only texts that the Rust accepts, but perhaps one.
fn texts(column: u8, g: &mut Generator) -> Texts {
    let mut all = Texts::default();
    let any = g.below(4) == 0;
    let count = g.below(9);
    let odd = g.below(2 * count + 1);
    for i in 0..count {
        let mut text = g.text(family(column));
        while !any && i != odd && !accepted(column, &text) {
            text = g.text(family(column));
        }
        all.push(&text);
    }
    all
}

/// Bytes behind the last end, an end that is moved, a column's number that is none, cells fewer or more than ends.
fn damaged(column: u8, g: &mut Generator) -> (u8, Texts, usize) {
    let mut all = texts(column, g);
    if g.below(3) == 0 {
        let more = g.text(family(column));
        all.bytes.extend_from_slice(&more);
    }
    if !all.ends.is_empty() && g.below(8) == 0 {
        let i = g.below(all.ends.len() as u64) as usize;
        all.ends[i] = match g.below(4) {
            0 => all.ends[i].wrapping_sub(1 + g.below(12) as u32),
            1 => all.ends[i] + 1 + g.below(12) as u32,
            2 => all.bytes.len() as u32 + g.below(2) as u32,
            _ => u32::MAX - g.below(2) as u32,
        };
    }
    let cells = all.ends.len() + [0, 0, 1, 3][g.below(4) as usize] - (!all.ends.is_empty() && g.below(16) == 0) as usize;
    let column = if g.below(64) == 0 { 10 + g.below(246) as u8 } else { column };
    (column, all, cells)
}

/// Whether the answers agree, as for one text.
fn agree_whole(rust: &Whole, ours: &Option<Whole>) -> bool {
    match (rust, ours) {
        (Whole::FirstRefused(None, i), Some(Whole::FirstRefused(Some(2 | 6), j))) => i == j,
        _ => ours.as_ref() == Some(rust),
    }
}

/// Columns compared: all, accepted, refused at a text, not read, different.
fn columns(seed: u64, count: u64) -> [u64; 5] {
    let mut n = [0; 5];
    for column in 0..COLUMNS.len() as u8 {
        let mut g = Generator::new(seed ^ (column as u64 + 16) << 56);
        for _ in 0..count {
            let (column, all, cells) = damaged(column, &mut g);
            let theirs = by_rust(column, &all.bytes, &all.ends, cells);
            let ours = by_library(column, &all.bytes, &all.ends, cells);
            n[0] += 1;
            n[match theirs {
                Whole::Accepted(_) => 1,
                Whole::FirstRefused(..) => 2,
                Whole::NotRead(_) => 3,
            }] += 1;
            if !agree_whole(&theirs, &ours) {
                n[4] += 1;
                if n[4] <= 20 {
                    let bytes = String::from_utf8_lossy(&all.bytes);
                    println!("differ: column {column} {bytes:?} {:?} {cells} cells: Rust {theirs:?} library {ours:?}", all.ends);
                }
            }
        }
    }
    n
}

/// Intervals printed: of all combinations of extreme counts, and generated ones.
fn intervals(seed: u64, count: u64) -> Printings {
    let mut n = Printings::default();
    let narrow = extremes(i32::MIN.into(), i32::MAX.into());
    for months in &narrow {
        for days in &narrow {
            extremes(i64::MIN, i64::MAX).into_iter().for_each(|nanos| n.interval((*months as i32, *days as i32, nanos)));
        }
    }
    let mut g = Generator::new(seed ^ 32 << 56);
    (0..count).for_each(|_| n.interval(g.counts()));
    n
}

/// Records converted: of all combinations of extreme numbers one each, and generated slices.
fn records(seed: u64, count: u64) -> Conversions {
    let mut n = Conversions::default();
    let narrow = extremes(i32::MIN.into(), i32::MAX.into());
    let wide = extremes(i64::MIN, i64::MAX).into_iter().chain(narrow.iter().flat_map(|z| [z * 1_000_000, z * 1_000_000 - 1, z * 1_000_000 + 1]));
    let wide: Vec<i64> = wide.chain([1 << 31, -(1 << 31) - 1].map(|z| z * 1_000_000)).collect();
    for days in &narrow {
        narrow.iter().for_each(|millis| n.slice(&old(*days as i32, *millis as i32), false));
        for months in [0, 1, -1, i32::MIN, i32::MAX] {
            wide.iter().for_each(|nanos| n.slice(&new(months, *days as i32, *nanos), true));
        }
    }
    let mut g = Generator::new(seed ^ 33 << 56);
    for _ in 0..count {
        n.slice(&g.old_records(), false);
        n.slice(&g.new_records(), true);
    }
    n
}

/// Tells the places and the listings of the intervals.
fn tell_intervals(n: &Counts, l: &Printings) {
    let [of_8, of_9, of_10] = n.places;
    println!("  places compared: {} (of 8 {of_8}, of 9 {of_9}, of 10 {of_10})", of_8 + of_9 + of_10);
    println!(
        "Listings: compared {}, printed {}, refused {}, buffer too short {}, different {}",
        l.compared, l.printed, l.refused, l.too_short, l.differ
    );
}

/// Compares a family's texts, and tells; how many comparisons there were, and how many differ.
fn compare_family(family: Family, seed: u64, count: u64) -> [u64; 2] {
    let mut g = Generator::new(seed ^ (family as u64) << 56);
    let mut all = short(family, &mut g);
    let mut generated = Counted::default();
    for _ in 0..count {
        let text = g.text(family);
        on_all(family, &mut g, &text, &mut generated);
    }
    match family {
        Family::Interval => faulty(count / 4, &mut g, &mut all),
        Family::Stamp => on_each_day(|text| on_all(family, &mut g, text, &mut all)),
        Family::Time | Family::Date => (),
    }
    let mut n = sum(&all);
    n += sum(&generated);
    println!(
        "{family:?}: compared {}, accepted {}, not UTF-8 {}, number untold by the Rust {}, different {}",
        n.compared, n.accepted, n.not_utf8, n.number_untold, n.differ
    );
    println!("  accepted of the generated: {}", shares(family, &generated));
    let (mut l, mut s) = (all.listings, all.sites);
    l += generated.listings;
    s += generated.sites;
    match family {
        Family::Interval => tell_intervals(&n, &l),
        Family::Stamp => println!(
            "Site stamps: compared {}, accepted {}, of these at second 60 {}, refused with 12 {}, different {}",
            s.compared, s.accepted, s.second_60, s.no_site, s.differ
        ),
        Family::Time | Family::Date => (),
    }
    [n.compared + l.compared + s.compared, n.differ + l.differ + s.differ]
}

fn main() {
    let number = |a: String| a.parse::<u64>().expect("differ SEED COUNT [stamps]");
    let mut args = std::env::args().skip(1);
    let (seed, count) = (args.next().map_or(1, number), args.next().map_or(1_000_000, number));
    println!("seed {seed}, {count} texts a family");
    if args.next().is_some() {
        let [compared, differ] = compare_family(Family::Stamp, seed, count);
        finish(compared, differ);
    }
    let families = [Family::Stamp, Family::Time, Family::Date, Family::Interval].map(|family| compare_family(family, seed, count));
    let n = intervals(seed, count / 4);
    println!(
        "Printed intervals: compared {}, printed {}, buffer too short {}, readings of it by the Rust {}, different {}",
        n.compared, n.printed, n.too_short, n.read_back, n.differ
    );
    let [all, accepted, refused, not_read, differ] = columns(seed, count / 20);
    println!("Whole columns: compared {all}, accepted {accepted}, a text refused {refused}, not read {not_read}, different {differ}");
    let r = records(seed, count / 4);
    println!(
        "Records: compared {}, converted {}, a record stays {}, buffer too short {}, no whole number {}, came back {}, different {}",
        r.compared, r.converted, r.stays, r.too_short, r.uneven, r.came_back, r.differ
    );
    let k = keypad::all();
    println!(
        "Keypad texts: compared {}, written {}, buffer too short {}, no such text {}, readings of it by the Rust {}, different {}",
        k.compared, k.printed, k.too_short, k.refused, k.read_back, k.differ
    );
    let (mut compared, mut failed) = (all + n.compared + r.compared + k.compared, differ + n.differ + r.differ + k.differ);
    families.iter().for_each(|[all, differ]| (compared, failed) = (compared + all, failed + differ));
    finish(compared, failed);
}

fn finish(compared: u64, failed: u64) -> ! {
    println!("{} passed, {failed} failed", compared - failed);
    std::process::exit((failed != 0) as i32);
}
