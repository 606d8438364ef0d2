//! Where in an interval text the Rust's refusal lies. The Rust does not tell: here the text is cut as its private splitter cuts it, and its
//! own reader says which piece it does not take, or which beginning of the text it first refuses.
use crate::{rust, Answer, Reader, Refused};
use std::cell::OnceCell;

/// An amount or a unit: where it begins, and its characters.
type Piece<'a> = (usize, &'a str);

fn words(s: &str) -> impl Iterator<Item = Piece<'_>> {
    let mut next = 0;
    s.split(char::is_whitespace).map(move |word| {
        let (begin, end) = (next, next + word.len());
        next = end + s[end..].chars().next().map_or(0, char::len_utf8);
        (begin, word)
    })
}

/// The amounts and units, as `split_interval_components` pairs them.
fn components(s: &str) -> impl Iterator<Item = (Piece<'_>, Option<Piece<'_>>)> {
    let mut words = words(s);
    std::iter::from_fn(move || {
        let (begin, word) = words.next()?;
        Some(match word.find(|c: char| !c.is_ascii_digit() && c != '.' && c != '-') {
            Some(i) => ((begin, &word[..i]), Some((begin + i, &word[i..]))),
            None => ((begin, word), words.next()),
        })
    })
}

/// The first piece that the Rust does not take beside a good one, the amount of a component before its unit.
fn bad_piece(s: &str) -> Option<usize> {
    let refused = |text: String| rust(Reader::IntervalMonthDayNano, &text) == Refused(Some(8));
    components(s).find_map(|((begin, amount), unit)| {
        if refused(format!("{amount} nanosecond")) {
            return Some(begin);
        }
        unit.filter(|(_, word)| refused(format!("1 {word}"))).map(|(begin, _)| begin)
    })
}

/// The last component of the shortest beginning, whole components, that the Rust refuses with this number.
fn failing(reader: Reader, s: &str, number: u8) -> Option<usize> {
    components(s).find_map(|((begin, _), unit)| {
        let end = unit.map_or(s.len(), |(begin, word)| begin + word.len());
        (rust(reader, &s[..end]) == Refused(Some(number))).then_some(begin)
    })
}

/// The month-day-nano reader with the default unit of this one.
fn with_default(reader: Reader) -> Reader {
    match reader {
        Reader::IntervalYearMonth => Reader::IntervalConfig(2),
        Reader::IntervalDayTime => Reader::IntervalConfig(5),
        other => other,
    }
}

/// A text whose refusals are placed. The place of 8 is the same for every reader, and is looked for once.
pub struct Placed<'a> {
    pub text: &'a [u8],
    bad_piece: OnceCell<Option<usize>>,
}

impl<'a> Placed<'a> {
    pub fn new(text: &'a [u8]) -> Self {
        Placed { text, bad_piece: OnceCell::new() }
    }

    /// Where a reader's refusal by the Rust lies; none of an answer that has no place.
    pub fn place(&self, reader: Reader, answer: Answer) -> Option<usize> {
        let Refused(Some(number @ 8..=10)) = answer else { return None };
        let s = std::str::from_utf8(self.text).ok()?;
        if number == 8 { *self.bad_piece.get_or_init(|| bad_piece(s)) } else { failing(with_default(reader), s, number) }
    }
}
