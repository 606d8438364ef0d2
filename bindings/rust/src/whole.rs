//! Whole columns at a time.
use crate::{library, Refusal, Text};
use std::fmt;

/// A column by its number in the library, each with the reader of its name.
#[derive(Clone, Copy, Debug, PartialEq, Eq, Hash)]
#[repr(u8)]
pub enum Column {
    /// As [`parse_timestamp_nanosecond`](crate::parse_timestamp_nanosecond) reads.
    TimestampNanosecond = 0,
    /// As [`parse_timestamp_microsecond`](crate::parse_timestamp_microsecond) reads.
    TimestampMicrosecond = 1,
    /// As [`parse_timestamp_millisecond`](crate::parse_timestamp_millisecond) reads.
    TimestampMillisecond = 2,
    /// As [`parse_timestamp_second`](crate::parse_timestamp_second) reads.
    TimestampSecond = 3,
    /// As [`parse_time64_nanosecond`](crate::parse_time64_nanosecond) reads.
    Time64Nanosecond = 4,
    /// As [`parse_time64_microsecond`](crate::parse_time64_microsecond) reads.
    Time64Microsecond = 5,
    /// As [`parse_time32_millisecond`](crate::parse_time32_millisecond) reads.
    Time32Millisecond = 6,
    /// As [`parse_time32_second`](crate::parse_time32_second) reads.
    Time32Second = 7,
    /// As [`parse_date32`](crate::parse_date32) reads.
    Date32 = 8,
    /// As [`parse_date64`](crate::parse_date64) reads.
    Date64 = 9,
}

impl Column {
    /// Every column, by its number.
    pub const ALL: [Column; 10] = [
        Column::TimestampNanosecond,
        Column::TimestampMicrosecond,
        Column::TimestampMillisecond,
        Column::TimestampSecond,
        Column::Time64Nanosecond,
        Column::Time64Microsecond,
        Column::Time32Millisecond,
        Column::Time32Second,
        Column::Date32,
        Column::Date64,
    ];
}

/// Why a column is refused: the first refused text's refusal and its index, or [`Refusal::Column`] and none.
#[derive(Clone, Copy, Debug, PartialEq, Eq, Hash)]
pub struct ColumnRefusal {
    /// Why.
    pub refusal: Refusal,
    /// Which text, from 0; none where no text was read.
    pub index: Option<usize>,
}

impl ColumnRefusal {
    /// The refusal's number: what the C interface returns.
    pub const fn number(self) -> u8 {
        self.refusal.number()
    }
}

impl fmt::Display for ColumnRefusal {
    fn fmt(&self, f: &mut fmt::Formatter<'_>) -> fmt::Result {
        match self.index {
            Some(index) => write!(f, "text {index}: {}", self.refusal),
            None => self.refusal.fmt(f),
        }
    }
}

impl std::error::Error for ColumnRefusal {}

/// Reads a whole column: texts that lie end to end, by their ends.
///
/// Text `i` is the bytes from the end before it, 0 for the first, up to `ends[i]`. Either every text is accepted, and the first cells hold
/// the values in order, later cells as they were; or the first refused text gives its refusal and index, and no cell is touched. A value of
/// 32 bits keeps its number. Where an end falls or passes the bytes, or there are fewer cells than ends, no text is read, and the refusal
/// is [`Column`](Refusal::Column).
///
/// ```
/// use cullpethi::{parse_column, Column, ColumnRefusal, Refusal};
///
/// let mut cells = [7; 3];
/// assert_eq!(parse_column(Column::Date32, "1970-01-021969-12-31", &[10, 20], &mut cells), Ok(()));
/// assert_eq!(cells, [1, -1, 7]);
///
/// let refused = parse_column(Column::Date32, "1970-01-02x", &[10, 11], &mut cells);
/// assert_eq!(refused, Err(ColumnRefusal { refusal: Refusal::Date, index: Some(1) }));
/// assert_eq!(cells, [1, -1, 7]);
///
/// let refused = parse_column(Column::Date32, "1970-01-02", &[11], &mut cells);
/// assert_eq!(refused, Err(ColumnRefusal { refusal: Refusal::Column, index: None }));
/// ```
pub fn parse_column<T: Text + ?Sized>(
    column: Column,
    texts: &T,
    ends: &[u32],
    cells: &mut [i64],
) -> Result<(), ColumnRefusal> {
    let texts = texts.text_bytes();
    let mut index = 0;
    // SAFETY: texts and ends are lent for the call, the cells are lent to it alone, and the index is a local.
    let status = unsafe {
        library::cullpethi_parse_column(
            column as u8,
            texts.as_ptr(),
            texts.len(),
            ends.as_ptr(),
            ends.len(),
            cells.as_mut_ptr(),
            cells.len(),
            &mut index,
        )
    };
    Refusal::unless_ok(status).map_err(|refusal| ColumnRefusal {
        refusal,
        index: (refusal != Refusal::Column).then_some(index),
    })
}

/// Reads a column of texts that are held apart: their values in order, or why the first refused one is refused.
///
/// The texts are copied end to end first. Where that is more bytes than an end of 32 bits can tell, the refusal is
/// [`Column`](Refusal::Column).
///
/// ```
/// use cullpethi::{parse_texts, Column, ColumnRefusal, Refusal};
///
/// assert_eq!(parse_texts(Column::Time32Second, ["1:00", "2:00"]), Ok(vec![3_600, 7_200]));
/// let refused = ColumnRefusal { refusal: Refusal::TimeOfDay, index: Some(1) };
/// assert_eq!(parse_texts(Column::Time32Second, ["1:00", "x", "2:00"]), Err(refused));
/// ```
pub fn parse_texts<T: Text>(
    column: Column,
    texts: impl IntoIterator<Item = T>,
) -> Result<Vec<i64>, ColumnRefusal> {
    let too_long = ColumnRefusal {
        refusal: Refusal::Column,
        index: None,
    };
    let (mut bytes, mut ends) = (Vec::new(), Vec::new());
    for text in texts {
        bytes.extend_from_slice(text.text_bytes());
        ends.push(u32::try_from(bytes.len()).map_err(|_| too_long)?);
    }
    let mut cells = vec![0; ends.len()];
    parse_column(column, &bytes, &ends, &mut cells)?;
    Ok(cells)
}
