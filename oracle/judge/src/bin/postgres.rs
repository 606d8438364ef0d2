//! postgres texts: the interval texts that `oracle/postgres` puts to PostgreSQL, in hexadecimal digits.
//! postgres compare PAGE: PostgreSQL's answers from standard input, in the same order, beside the library's; PAGE gets the tables of
//! differences between its marks.
use judge::library::library;
use judge::lines::escape;
use judge::postgres::told::{SAME, TOLD};
use judge::postgres::{kind, texts, Kind, Reading};
use judge::*;
use std::collections::BTreeMap;
use std::io::{BufRead, Write};

/// A text with the two answers.
struct Compared {
    text: String,
    /// The number of the refusal here, and the code of the error there.
    number: u8,
    code: String,
    ours: Reading,
    theirs: Reading,
}

/// Texts of a kind by who reads them: both, this library alone, PostgreSQL alone.
type Kinds<'a> = BTreeMap<(Reads, Kind), Vec<&'a Compared>>;

#[derive(Clone, Copy, Debug, PartialEq, Eq, PartialOrd, Ord)]
enum Reads {
    Both,
    Here,
    There,
    Neither,
}

/// The interval's 16 bytes: 64 bits of microseconds, 32 of days, 32 of months. An error's code begins with E.
fn theirs(answer: &str) -> Reading {
    if answer.starts_with('E') {
        return None;
    }
    let bits = u128::from_str_radix(answer, 16).expect("16 bytes");
    let (micros, days, months) = ((bits >> 64) as i64, (bits >> 32) as i32, bits as i32);
    Some((months as i128, days as i128, micros as i128 * 1_000))
}

fn compared(text: String, answer: String) -> Compared {
    let (number, ours) = match library(Reader::IntervalMonthDayNano, text.as_bytes()) {
        Three(m, d, n) => (0, Some((m as i128, d as i128, n as i128))),
        Refused(Some(n)) => (n, None),
        other => panic!("{text:?} {other:?}"),
    };
    let theirs = theirs(&answer);
    Compared { text, number, code: answer.trim_start_matches('E').to_string(), ours, theirs }
}

impl Compared {
    fn reads(&self) -> Reads {
        match (self.ours, self.theirs) {
            (Some(_), Some(_)) => Reads::Both,
            (Some(_), None) => Reads::Here,
            (None, Some(_)) => Reads::There,
            (None, None) => Reads::Neither,
        }
    }

    fn here(&self) -> String {
        self.ours.map_or(format!("{}", self.number), |(m, d, n)| counts(m, d, n, "ns"))
    }

    fn there(&self) -> String {
        self.theirs.map_or(format!("error {}", self.code), |(m, d, n)| counts(m, d, n / 1_000, "us"))
    }

    /// The text between bars; a long one is told by its length.
    fn shown(&self) -> String {
        if self.text.len() > 80 {
            return format!("{} bytes, `{}`..", self.text.len(), escape(&self.text.as_bytes()[..8]));
        }
        format!("`\\|{}\\|`", escape(self.text.as_bytes()).replace('|', "\\x7C"))
    }
}

/// With a comma before each three digits.
fn grouped(z: i128) -> String {
    let digits = z.unsigned_abs().to_string();
    let groups: Vec<&str> = digits.as_bytes().rchunks(3).rev().map(|g| std::str::from_utf8(g).unwrap()).collect();
    format!("{}{}", if z < 0 { "−" } else { "" }, groups.join(","))
}

fn counts(months: i128, days: i128, time: i128, unit: &str) -> String {
    let plural = |n: i128, word: &str| format!("{} {word}{}", grouped(n), if n.abs() == 1 { "" } else { "s" });
    let parts = [(months, plural(months, "month")), (days, plural(days, "day")), (time, format!("{} {unit}", grouped(time)))];
    let told: Vec<String> = parts.into_iter().filter(|(n, _)| *n != 0).map(|(_, s)| s).collect();
    if told.is_empty() { "0".to_string() } else { told.join(" ") }
}

/// A row: what differs, the smallest text and the example, and the answers to them.
fn row(what: &str, example: &str, of: &[&Compared]) -> String {
    let smallest = of.iter().min_by_key(|c| (c.text.len(), &c.text)).unwrap();
    let more = of.iter().find(|c| c.text == example && c.text != smallest.text);
    let each = |f: fn(&Compared) -> String| {
        let mut told: Vec<String> = [Some(smallest), more].into_iter().flatten().map(|c| f(c)).collect();
        told.dedup();
        told.join("; ")
    };
    format!("| {what} | {} | {} | {} | {} |", each(Compared::shown), each(Compared::here), each(Compared::there), grouped(of.len() as i128))
}

/// The table of those that are read so.
fn table(title: &str, reads: Reads, kinds: &Kinds, out: &mut impl Write) -> std::io::Result<()> {
    writeln!(out, "{title}\n\n| what differs | smallest text; example | here | PostgreSQL | texts |\n|---|---|---|---|---|")?;
    for (kind, what, example) in TOLD {
        if let Some(of) = kinds.get(&(reads, kind)) {
            writeln!(out, "{}", row(what, example, of))?;
        }
    }
    if let Some(of) = kinds.get(&(reads, Kind::Several)) {
        writeln!(out, "| more than one of these or of the other tables | | | | {} |", grouped(of.len() as i128))?;
    }
    writeln!(out)
}

/// The page's part, which begins with the counts.
fn page(all: &[Compared], kinds: &Kinds, out: &mut impl Write) -> std::io::Result<()> {
    let differ: usize = kinds.values().map(Vec::len).sum();
    let read = all.iter().filter(|c| c.reads() == Reads::Both && c.ours == c.theirs).count();
    let n = |n: usize| grouped(n as i128);
    let alike = all.len() - differ;
    writeln!(out, "{} texts: {} answered alike ({} read, {} refused), {} not.", n(all.len()), n(alike), n(read), n(alike - read), n(differ))?;
    let examples = SAME.iter().filter_map(|s| all.iter().find(|c| c.text == *s));
    let same: Vec<String> = examples.map(|c| format!("{} ({})", c.shown(), c.here())).collect();
    writeln!(out, "Alike, for example: {}.\n", same.join(", "))?;
    table("Both read the text, as different intervals:", Reads::Both, kinds, out)?;
    table("Only this library reads it:", Reads::Here, kinds, out)?;
    table("Only PostgreSQL reads it:", Reads::There, kinds, out)
}

/// Whether a kind's example is of that kind, and the examples of what is alike are alike.
fn examples_hold(all: &[Compared], kinds: &Kinds) -> bool {
    let held = |kind: &Kind, text: &str| kinds.iter().any(|((_, k), of)| k == kind && of.iter().any(|c| text.is_empty() || c.text == text));
    TOLD.iter().all(|(kind, _, example)| held(kind, example)) && all.iter().all(|c| !SAME.contains(&c.text.as_str()) || c.ours == c.theirs)
}

fn main() {
    let texts = texts::all();
    let args: Vec<String> = std::env::args().skip(1).collect();
    if args[0] == "texts" {
        let mut out = std::io::BufWriter::new(std::io::stdout().lock());
        texts.iter().for_each(|t| writeln!(out, "{}", t.bytes().map(|b| format!("{b:02x}")).collect::<String>()).unwrap());
        return;
    }
    let answers: Vec<String> = std::io::stdin().lock().lines().map(Result::unwrap).collect();
    assert_eq!(texts.len(), answers.len());
    let all: Vec<Compared> = texts.into_iter().zip(answers).map(|(t, a)| compared(t, a)).collect();
    let mut kinds = Kinds::new();
    for c in &all {
        if let Some(kind) = kind(&c.text, c.ours, c.theirs) {
            kinds.entry((c.reads(), kind)).or_default().push(c);
        }
    }
    let mut tables = vec![];
    page(&all, &kinds, &mut tables).unwrap();
    judge::page::rewrite(&args[1], "oracle/postgres", &String::from_utf8(tables).unwrap()).unwrap();
    let unknown: Vec<&&Compared> = kinds.iter().filter(|((_, k), _)| *k == Kind::Unknown).flat_map(|(_, of)| of).collect();
    unknown.iter().take(20).for_each(|c| println!("no known kind: {:?}, here {}, there {}", c.text, c.here(), c.there()));
    kinds.iter().for_each(|((reads, kind), of)| println!("read by {reads:?}, {kind:?}: {}", of.len()));
    let failed = unknown.len() + !examples_hold(&all, &kinds) as usize;
    println!("{} passed, {failed} failed", all.len() - unknown.len());
    std::process::exit((failed != 0) as i32);
}
