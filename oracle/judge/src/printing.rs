//! Printing: an interval as a text, which `format!` makes here and the Rust reads back, and the listing of a text's components, made of the
//! Rust's own.
use crate::library::raw::{cullpethi_list_interval, cullpethi_write_interval};
use crate::place::Placed;
use crate::{rust, rust_bytes, Answer, Reader, Refused, Three, UNITS};
use arrow_cast::components::components;
use std::fmt::Debug;

/// Months, days and nanoseconds.
pub type Counts = (i32, i32, i64);

/// What is printed, or a refusal and its place; 254 where a byte or a cell is not as a call must leave it.
#[derive(Debug, PartialEq, Eq)]
pub enum Print {
    Printed(String),
    Refused(u8, Option<usize>),
}

/// What each byte of a buffer holds before a call, and no byte of a text does.
const BEFORE: u8 = 0xA5;
/// Bytes behind the buffer, which are not lent.
const BEHIND: usize = 8;
/// What `length` and `place` hold before a call, and neither tells.
const NOWHERE: usize = usize::MAX;
/// The most that an interval takes, and that a listing does.
const LONGEST_TEXT: usize = 68;
const LONGEST_LISTING: usize = 12 * 66;

/// A call with a buffer of so many bytes, the length and the place.
pub fn called(room: usize, call: impl FnOnce(*mut u8, &mut usize, &mut usize) -> u8) -> Print {
    let mut buffer = vec![BEFORE; room + BEHIND];
    let (mut length, mut place) = (NOWHERE, NOWHERE);
    let status = call(buffer.as_mut_ptr(), &mut length, &mut place);
    let at = (place != NOWHERE).then_some(place);
    let kept = |from: usize| buffer[from..].iter().all(|&b| b == BEFORE);
    match status {
        0 if length <= room && kept(length) && at.is_none() => Print::Printed(String::from_utf8_lossy(&buffer[..length]).into_owned()),
        1.. if length == NOWHERE && kept(0) && at.is_some() == matches!(status, 8..=10) => Print::Refused(status, at),
        _ => Print::Refused(254, None),
    }
}

fn write_interval((months, days, nanos): Counts, room: usize) -> Print {
    // SAFETY: the buffer is lent to the call alone, and the length is a local.
    called(room, |buffer, length, _| unsafe { cullpethi_write_interval(months, days, nanos, buffer, room, length) })
}

fn list_interval(text: &[u8], unit: u8, room: usize) -> Print {
    // SAFETY: the text is lent for the call, the buffer to it alone, and the cells are locals.
    called(room, |buffer, length, place| unsafe {
        cullpethi_list_interval(text.as_ptr(), text.len(), unit, buffer, room, length, place)
    })
}

/// Document 02's text of an interval.
fn text((months, days, nanos): Counts) -> String {
    let parts: [(i64, &str); 3] = [(months.into(), "months"), (days.into(), "days"), (nanos, "nanoseconds")];
    let all: Vec<String> = parts.iter().filter(|(z, _)| *z != 0).map(|(z, word)| format!("{z} {word}")).collect();
    if all.is_empty() { "0 months".to_string() } else { all.join(" ") }
}

/// The Rust's name of a unit, in small letters.
fn name(unit: impl Debug) -> String {
    format!("{unit:?}").to_lowercase()
}

/// Document 02's listing: 255, then the Rust's refusal of the text, else the Rust's components.
fn listing(placed: &Placed, unit: u8) -> Print {
    let Some(default_unit) = UNITS.get(unit as usize) else { return Print::Refused(255, None) };
    let reader = Reader::IntervalConfig(unit);
    let answer = rust_bytes(reader, placed.text);
    if let Refused(number) = answer {
        return Print::Refused(number.unwrap_or(0), placed.place(reader, answer));
    }
    let text = std::str::from_utf8(placed.text).unwrap();
    let line = |(whole, frac, unit)| format!("unit={} whole={whole} frac={frac}\n", name(unit));
    Print::Printed(components(text, &name(default_unit)).unwrap().into_iter().map(line).collect())
}

/// Printings compared: what prints, what refuses a text or finds the buffer too short, what the Rust reads back; and what differs.
#[derive(Clone, Copy, Default)]
pub struct Printings {
    pub compared: u64,
    pub printed: u64,
    pub refused: u64,
    pub too_short: u64,
    pub read_back: u64,
    pub differ: u64,
}

impl std::ops::AddAssign for Printings {
    fn add_assign(&mut self, of: Self) {
        self.compared += of.compared;
        self.printed += of.printed;
        self.refused += of.refused;
        self.too_short += of.too_short;
        self.read_back += of.read_back;
        self.differ += of.differ;
    }
}

impl Printings {
    fn differs(&mut self, how: impl FnOnce() -> String) {
        self.differ += 1;
        if self.differ <= 20 {
            println!("differ: {}", how());
        }
    }

    /// One call, with a buffer that may be too short for what is to be printed.
    fn call(&mut self, want: &Print, room: usize, call: impl FnOnce(usize) -> Print, what: impl FnOnce() -> String) {
        let too_short = Print::Refused(14, None);
        let want = match want {
            Print::Printed(text) if text.len() > room => &too_short,
            _ => want,
        };
        self.compared += 1;
        *match want {
            Print::Printed(_) => &mut self.printed,
            Print::Refused(14, _) => &mut self.too_short,
            Print::Refused(..) => &mut self.refused,
        } += 1;
        let ours = call(room);
        if ours != *want {
            self.differs(|| format!("{} into {room} bytes: wanted {want:?} library {ours:?}", what()));
        }
    }

    /// A buffer of the most that is printed, of just enough, of one byte less and of some length below; or, with a refusal, of any.
    pub fn calls(&mut self, want: &Print, most: usize, call: impl Fn(usize) -> Print, what: impl Fn() -> String) {
        let rooms = match want {
            Print::Printed(text) => vec![most, text.len(), text.len() - 1, self.compared as usize % text.len()],
            Print::Refused(..) => vec![0, self.compared as usize % most],
        };
        if matches!(want, Print::Printed(text) if text.len() > most) {
            self.differs(|| format!("{}: {want:?} has more than {most} bytes", what()));
        }
        rooms.into_iter().for_each(|room| self.call(want, room, &call, &what));
    }

    /// The listing of a text with that default unit, and now and then with a number that is no unit's.
    pub fn listing(&mut self, placed: &Placed, unit: u8) {
        let unit = if self.compared % 64 == 0 { 12 + (self.compared / 64 % 244) as u8 } else { unit };
        let text = placed.text;
        let what = || format!("listing {:?} in unit {unit}", String::from_utf8_lossy(text));
        self.calls(&listing(placed, unit), LONGEST_LISTING, |room| list_interval(text, unit, room), what);
    }

    /// Whether the Rust reads a text as that interval: its plain reader, and the other with each default unit.
    pub fn reads_back(&mut self, text: &str, want: Answer) {
        for reader in std::iter::once(Reader::IntervalMonthDayNano).chain((0..12).map(Reader::IntervalConfig)) {
            self.compared += 1;
            self.read_back += 1;
            let read = rust(reader, text);
            if read != want {
                self.differs(|| format!("{want:?} written {text:?} read as {read:?} by {reader:?}"));
            }
        }
    }

    /// The text of an interval, which the Rust reads back.
    pub fn interval(&mut self, counts: Counts) {
        if let Print::Printed(text) = write_interval(counts, LONGEST_TEXT) {
            self.reads_back(&text, Three(counts.0.into(), counts.1.into(), counts.2));
        }
        let want = Print::Printed(text(counts));
        self.calls(&want, LONGEST_TEXT, |room| write_interval(counts, room), || format!("printing {counts:?}"));
    }
}
