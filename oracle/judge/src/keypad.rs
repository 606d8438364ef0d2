//! The keypad texts: made by nested loops over their components in document 02's order, each with the interval that it comes to.
use crate::library::raw::cullpethi_keypad_text;
use crate::printing::{called, Counts, Print, Printings};
use crate::Three;

/// The most that a text takes.
const LONGEST_TEXT: usize = 21;

/// Each unit's word, and one of it in months, days and nanoseconds.
const UNITS: [(&str, Counts); 12] = [
    ("c", (1200, 0, 0)),
    ("dec", (120, 0, 0)),
    ("y", (12, 0, 0)),
    ("mon", (1, 0, 0)),
    ("w", (0, 7, 0)),
    ("d", (0, 1, 0)),
    ("h", (0, 0, 3_600_000_000_000)),
    ("m", (0, 0, 60_000_000_000)),
    ("s", (0, 0, 1_000_000_000)),
    ("ms", (0, 0, 1_000_000)),
    ("us", (0, 0, 1_000)),
    ("nanosecond", (0, 0, 1)),
];

/// A digit and the number of a unit.
type Component = (i32, usize);

/// All components with a unit that none of these has: by digit, then by unit.
fn components(others: &[Component]) -> Vec<Component> {
    let unused: Vec<usize> = (0..UNITS.len()).filter(|unit| others.iter().all(|(_, other)| other != unit)).collect();
    (0..10).flat_map(|digit| unused.iter().map(move |&unit| (digit, unit))).collect()
}

/// All lists of components, in order.
fn lists() -> Vec<Vec<Component>> {
    let mut all: Vec<Vec<Component>> = components(&[]).into_iter().map(|a| vec![a]).collect();
    for a in components(&[]) {
        for b in components(&[a]) {
            all.push(vec![a, b]);
        }
    }
    for a in components(&[]) {
        for b in components(&[a]) {
            for c in components(&[a, b]) {
                all.push(vec![a, b, c]);
            }
        }
    }
    all
}

fn text(list: &[Component]) -> String {
    let each: Vec<String> = list.iter().map(|&(digit, unit)| format!("{digit}{}", UNITS[unit].0)).collect();
    each.join(" ")
}

fn counts(list: &[Component]) -> Counts {
    list.iter().fold((0, 0, 0), |(months, days, nanos), &(digit, unit)| {
        let (m, d, n) = UNITS[unit].1;
        (months + digit * m, days + digit * d, nanos + i64::from(digit) * n)
    })
}

fn keypad_text(k: u64, room: usize) -> Print {
    // SAFETY: the buffer is lent to the call alone, and the length is a local.
    called(room, |buffer, length, _| unsafe { cullpethi_keypad_text(k, buffer, room, length) })
}

/// Every text by its number, which the Rust reads with each default unit; and numbers past the last.
pub fn all() -> Printings {
    let mut n = Printings::default();
    let lists = lists();
    for (k, list) in lists.iter().enumerate() {
        let (text, (months, days, nanos)) = (text(list), counts(list));
        n.reads_back(&text, Three(months.into(), days.into(), nanos));
        n.calls(&Print::Printed(text), LONGEST_TEXT, |room| keypad_text(k as u64, room), || format!("keypad text {k}"));
    }
    let past = lists.len() as u64;
    for k in (past..past + 1000).chain((21..64).map(|bit| 1 << bit)).chain(u64::MAX - 1000..=u64::MAX) {
        n.calls(&Print::Refused(17, None), LONGEST_TEXT, |room| keypad_text(k, room), || format!("keypad text {k}"));
    }
    n
}
