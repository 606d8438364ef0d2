//! The texts that both sides read: each once, well-formed UTF-8 without a zero byte, which PostgreSQL's texts cannot hold.
use super::told::{SAME, TOLD};
use crate::generate::{Family, Generator, UNITS};
use std::collections::HashSet;

const SEED: u64 = 20261116;
const GENERATED: usize = 200_000;

const AMOUNTS: &[&str] = &[
    "0", "1", "2", "-1", "+1", "- 1", "--1", ".5", "-.5", "0.5", "1.5", "-1.5", "-0.5", "1.", "007", "0.13", "0.04", "0.375",
    "0.1234567", "0.0000001", "0.0000005", "0.000000001", "1.000000000000000", "1.0000000000000000", "0.999999999999999", "2147483647",
    "-2147483648", "2147483648", "178956971", "306783378", "2562048", "9223372036854", "9223372036855", "9223372036854775807",
    "-9223372036854775808", "9223372036854775808", "1e3", "",
];
/// PostgreSQL's words that are no units here, and words of neither.
const WORDS: &[&str] = &[
    "mil", "mils", "millennium", "millennia", "millenniums", "microsecon", "millisecondss", "microsecondx", "quarter", "ns",
    "fortnight", "Day", "HOURS", "wee\u{212A}", "wee\u{212A}s",
];
const SHORT: &[&str] = &["c", "dec", "y", "mon", "w", "d", "h", "m", "s", "ms", "us", "nanosecond", "millennium", ""];
const PAIRED: &[&str] = &["1", "-2", "0.5", ".25", "2147483647", "-306783378", "9223372036854"];
/// How a component is written.
const WAYS: &[(&str, &str, &str)] = &[
    ("", " ", ""), ("", "", ""), ("", "  ", ""), (" ", " ", ""), ("", " ", " "), ("", "\t", ""), ("", "\u{A0}", ""), ("", " ", " ago"),
    ("@ ", " ", ""), ("", " ", ","), ("P", "", ""), ("PT", "", ""),
];
/// Forms of section 8.5.4, and texts at the ends of the ranges.
const FORMS: &[&str] = &[
    "1-2", "-1-2", "1-2 3", "3 4:05:06", "4:05", "4:05:06.789", "-4:05:06", "1 day 4:05:06", "1-2 3 4:05:06", "P1Y2M3DT4H5M6S",
    "P1.5M", "PT36H", "P0001-02-03T04:05:06", "P00010203T040506", "P1W", "1 year 2 months 3 days 4 hours 5 minutes 6 seconds ago",
    "1 day, 2 hours", "day 1", "days 1 hour", "1 2 days", "1 day 2 days", "1 day 1 d", "1 month 2", "1 second 2", "1.5 seconds 1 ms",
    "1 second 1 ms", "1d2h", "1day2hours", "1 week -7 days", "306783378 weeks -2 days 0.1 months",
    "306783378 weeks 0.1 months -2 days", "-2 days 0.1 months 306783378 weeks", "178956971 years -12 months", "1 century -1200 months",
    "-.5 days", "1.0000000000000000 days", "1 wee\u{212A}", "", " ", "ago", "1 ago", "@",
];

fn systematic() -> Vec<String> {
    let fractions = (0..100).map(|n| format!(".{n:02}")).chain((0..10).map(|n| format!(".{n}")));
    let amounts: Vec<String> = AMOUNTS.iter().map(|a| a.to_string()).chain(fractions).collect();
    let mut all: Vec<String> = FORMS.iter().map(|s| s.to_string()).collect();
    for unit in UNITS.iter().chain(WORDS) {
        for amount in &amounts {
            all.extend(WAYS.iter().map(|(before, between, behind)| format!("{before}{amount}{between}{unit}{behind}")));
        }
    }
    for (a, b) in PAIRED.iter().flat_map(|a| PAIRED.iter().map(move |b| (a, b))) {
        for (u, v) in SHORT.iter().flat_map(|u| SHORT.iter().map(move |v| (u, v))) {
            all.extend([format!("{a} {u} {b} {v}"), format!("{a}{u} {b}{v}"), format!("{a}{u}{b}{v}")]);
        }
    }
    all.extend((240..270).flat_map(|n| ["", "d", " 1 day"].map(|end| format!("{}{end}", "0".repeat(n)))));
    all.extend(TOLD.iter().map(|(_, _, example)| *example).chain(SAME).map(str::to_string));
    all
}

/// All texts of at most four symbols.
fn short() -> Vec<String> {
    let symbols = ["0", "1", "3", "5", ".", "-", "+", " ", "c", "y", "w", "d", "h", "s", "P", ":", "@", "\u{A0}"];
    let mut all = vec![String::new()];
    let mut last = all.clone();
    for _ in 0..4 {
        last = last.iter().flat_map(|t| symbols.iter().map(move |s| format!("{t}{s}"))).collect();
        all.extend(last.iter().cloned());
    }
    all
}

fn generated() -> Vec<String> {
    let mut g = Generator::new(SEED);
    (0..GENERATED).filter_map(|_| String::from_utf8(g.text(Family::Interval)).ok()).collect()
}

pub fn all() -> Vec<String> {
    let mut seen = HashSet::new();
    let texts = systematic().into_iter().chain(short()).chain(generated());
    texts.filter(|t| !t.contains('\0') && seen.insert(t.clone())).collect()
}
