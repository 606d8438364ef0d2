//! Whole columns: texts end to end with their ends, what the Rust makes of them one by one, and the library's call.
use crate::library::raw::cullpethi_parse_column;
use crate::{rust_bytes, Answer, One, Reader, Refused};

/// The ten columns, in the order of their numbers.
pub const COLUMNS: [Reader; 10] = [
    Reader::TimestampNanosecond,
    Reader::TimestampMicrosecond,
    Reader::TimestampMillisecond,
    Reader::TimestampSecond,
    Reader::Time64Nanosecond,
    Reader::Time64Microsecond,
    Reader::Time32Millisecond,
    Reader::Time32Second,
    Reader::Date32,
    Reader::Date64,
];

/// Texts end to end, and their ends.
#[derive(Default)]
pub struct Texts {
    pub bytes: Vec<u8>,
    pub ends: Vec<u32>,
}

impl Texts {
    pub fn of<T: AsRef<[u8]>>(texts: &[T]) -> Self {
        let mut all = Texts::default();
        texts.iter().for_each(|t| all.push(t.as_ref()));
        all
    }

    pub fn push(&mut self, text: &[u8]) {
        self.bytes.extend_from_slice(text);
        self.ends.push(self.bytes.len() as u32);
    }

    /// Each text.
    pub fn iter(&self) -> impl Iterator<Item = &[u8]> {
        let mut from = 0;
        self.ends.iter().map(move |&end| &self.bytes[std::mem::replace(&mut from, end as usize)..end as usize])
    }
}

/// The call; status and index.
pub fn parse_column(column: u8, bytes: &[u8], ends: &[u32], cells: &mut [i64], mut index: usize) -> (u8, usize) {
    // SAFETY: bytes and ends are lent for the call, the cells alone, and the index is a local.
    let status = unsafe {
        cullpethi_parse_column(column, bytes.as_ptr(), bytes.len(), ends.as_ptr(), ends.len(), cells.as_mut_ptr(), cells.len(), &mut index)
    };
    (status, index)
}

/// What a column answers: the values, or the first refused text's number and index, or the number that comes before any text.
#[derive(Debug, PartialEq, Eq)]
pub enum Whole {
    Accepted(Vec<i64>),
    FirstRefused(Option<u8>, usize),
    NotRead(u8),
}

/// Document 02's rule over the Rust's reader of a text. The Rust has no such call: `pieces` stands for Arrow's own slicing.
pub fn by_rust(column: u8, bytes: &[u8], ends: &[u32], cells: usize) -> Whole {
    let Some(&reader) = COLUMNS.get(column as usize) else { return Whole::NotRead(255) };
    let Some(texts) = pieces(bytes, ends).filter(|t| t.len() <= cells) else { return Whole::NotRead(13) };
    let mut values = vec![];
    for (i, text) in texts.iter().enumerate() {
        match rust_bytes(reader, text) {
            One(z) => values.push(z),
            Refused(number) => return Whole::FirstRefused(number, i),
            other => unreachable!("a column's answer is one number: {other:?}"),
        }
    }
    Whole::Accepted(values)
}

/// The texts, if each end lies between the one before it and the last byte.
fn pieces<'a>(bytes: &'a [u8], ends: &[u32]) -> Option<Vec<&'a [u8]>> {
    let starts = std::iter::once(&0).chain(ends);
    starts.zip(ends).map(|(&from, &end)| bytes.get(from as usize..end as usize)).collect()
}

/// What the call answers and leaves in cells and index; none where a cell or the index is not as it must be.
pub fn by_library(column: u8, bytes: &[u8], ends: &[u32], cells: usize) -> Option<Whole> {
    const CELL: i64 = 0x5A5A_5A5A;
    const INDEX: usize = usize::MAX;
    let mut held = vec![CELL; cells];
    match parse_column(column, bytes, ends, &mut held, INDEX) {
        (0, INDEX) => {
            let kept = held.split_off(ends.len());
            kept.iter().all(|&c| c == CELL).then_some(Whole::Accepted(held))
        }
        (n, index) if held.iter().all(|&c| c == CELL) => match (n, index) {
            (13 | 255, INDEX) => Some(Whole::NotRead(n)),
            (1..=12 | 15, i) if i < ends.len() => Some(Whole::FirstRefused(Some(n), i)),
            _ => None,
        },
        _ => None,
    }
}

/// A text's answer in the library's terms, for whoever makes columns of accepted texts.
pub fn accepted(column: u8, text: &[u8]) -> bool {
    !matches!(rust_bytes(COLUMNS[column as usize], text), Answer::Refused(_))
}
