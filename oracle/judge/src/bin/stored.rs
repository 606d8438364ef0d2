//! The data of the program `replay`: lines `READER ANSWER TEXT` with the Rust's answers, the same at each run. Half of each reader's texts
//! are accepted; the rest is spread over the numbers of its refusals.
use judge::generate::{Family, Generator, EDGES};
use judge::lines::{escape, NAMES};
use judge::*;
use std::collections::{HashMap, HashSet};
use std::io::Write;

const SEED: u64 = 20261116;
/// Lines for each reader.
const EACH: usize = 750;
/// Of these, texts that are no UTF-8.
const NOT_UTF8: usize = 50;
/// A short text's bytes, a long one's, and how many long ones a reader gets.
const SHORT: usize = 80;
const LONG: usize = 2_000;
const LONG_ONES: usize = 4;

/// What the lines of a reader are balanced by.
#[derive(Clone, Copy, PartialEq, Eq, Hash)]
enum Kind {
    Accepted,
    /// Another default unit would give another answer.
    AcceptedByDefault,
    Refused(Option<u8>),
}

fn kind(reader: Reader, text: &[u8], answer: Answer) -> Kind {
    match (answer, reader) {
        (Refused(n), _) => Kind::Refused(n),
        (_, Reader::IntervalConfig(u)) if rust_bytes(Reader::IntervalConfig((u + 1) % 12), text) != answer => Kind::AcceptedByDefault,
        _ => Kind::Accepted,
    }
}

fn families(reader: Reader) -> &'static [Family] {
    match reader {
        Reader::StringToTimestampNanos
        | Reader::TimestampNanosecond
        | Reader::TimestampMicrosecond
        | Reader::TimestampMillisecond
        | Reader::TimestampSecond => &[Family::Stamp, Family::Stamp, Family::Stamp, Family::Date],
        Reader::Date32 | Reader::Date64 => &[Family::Date, Family::Date, Family::Stamp],
        Reader::StringToTimeNanoseconds
        | Reader::Time64Nanosecond
        | Reader::Time64Microsecond
        | Reader::Time32Millisecond
        | Reader::Time32Second => &[Family::Time],
        _ => &[Family::Interval],
    }
}

/// The numbers that a reader refuses with.
fn refusals(reader: Reader) -> &'static [Option<u8>] {
    match (families(reader)[0], reader) {
        (Family::Stamp, _) => &[Some(1), Some(2), Some(3), Some(4), Some(5), Some(6)],
        (Family::Time, _) => &[Some(1), Some(7)],
        (_, Reader::Date32) => &[Some(1), Some(2), Some(3), Some(4), Some(5), None],
        (Family::Date, _) => &[Some(1), Some(2), Some(3), Some(4), Some(5)],
        (_, Reader::IntervalYearMonth | Reader::IntervalDayTime) => &[Some(1), Some(8), Some(9), Some(10), Some(11)],
        (Family::Interval, _) => &[Some(1), Some(8), Some(9), Some(10)],
    }
}

/// The kinds of a reader's lines, and how many of each it gets.
fn shares(reader: Reader) -> HashMap<Kind, usize> {
    let refused = refusals(reader);
    let spread = (EACH - EACH / 2 - NOT_UTF8) / (refused.len() - 1);
    let mut of: HashMap<Kind, usize> = refused.iter().map(|n| (Kind::Refused(*n), if *n == Some(1) { NOT_UTF8 } else { spread })).collect();
    if let Reader::IntervalConfig(_) = reader {
        of.extend([(Kind::Accepted, EACH / 4), (Kind::AcceptedByDefault, EACH / 4)]);
    } else {
        of.insert(Kind::Accepted, EACH / 2);
    }
    of
}

/// The next candidate; one in 50 is lengthened.
fn candidate(reader: Reader, i: u64, g: &mut Generator) -> Vec<u8> {
    if let Some(edge) = EDGES.get(i as usize) {
        return edge.as_bytes().to_vec();
    }
    let of = families(reader);
    let mut text = g.text(of[(i % of.len() as u64) as usize]);
    if g.below(50) == 0 {
        let at = g.below(text.len() as u64 + 1) as usize;
        let (byte, n) = (b"0 1a"[g.below(4) as usize], g.below(LONG as u64) as usize);
        text.splice(at..at, vec![byte; n]);
    }
    text
}

fn written(answer: Answer) -> String {
    match answer {
        One(z) => format!("{z}"),
        Two(y, z) => format!("{y},{z}"),
        Three(x, y, z) => format!("{x},{y},{z}"),
        Refused(Some(n)) => format!("r{n}"),
        Refused(None) => "r?".to_string(),
    }
}

/// The lines of a reader: candidates in turn, each once, as long as their kind has room.
fn lines_of(name: &str, reader: Reader, out: &mut impl Write) -> usize {
    let mut g = Generator::new(SEED ^ name.bytes().fold(0, |h, b| h * 257 + b as u64));
    let (mut held, mut room, mut long) = (HashSet::new(), shares(reader), 0);
    let all: usize = room.values().sum();
    for i in 0.. {
        let text = candidate(reader, i, &mut g);
        let is_long = text.len() > SHORT;
        if text.len() > LONG || is_long && long == LONG_ONES || held.contains(&text) || beyond_the_claim(reader, &text) {
            continue;
        }
        let answer = rust_bytes(reader, &text);
        let room = room.get_mut(&kind(reader, &text, answer)).expect("a kind that this reader has");
        if *room > 0 {
            *room -= 1;
            long += is_long as usize;
            writeln!(out, "{name} {} {}", written(answer), escape(&text)).unwrap();
            held.insert(text);
        }
        if held.len() == all {
            break;
        }
    }
    all
}

fn main() {
    let mut out = std::io::BufWriter::new(std::io::stdout().lock());
    let n: usize = NAMES.iter().map(|(name, reader)| lines_of(name, *reader, &mut out)).sum();
    eprintln!("stored: {n} lines");
}
