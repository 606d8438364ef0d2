//! Arrow's records of intervals, slices of them converted.
use crate::{library, Refusal};
use std::fmt;

/// Bytes of a day-time record, and of a month-day-nano record.
const DAY_TIME: usize = 8;
const MONTH_DAY_NANO: usize = 16;

/// Why month-day-nano records are not converted: [`Refusal::Narrowed`] and which record has no day-time record, or [`Refusal::Records`] or
/// [`Refusal::Buffer`] and none.
#[derive(Clone, Copy, Debug, PartialEq, Eq, Hash)]
pub struct RecordsRefusal {
    /// Why.
    pub refusal: Refusal,
    /// Which record, from 0; none where no record was read.
    pub index: Option<usize>,
}

impl RecordsRefusal {
    /// The refusal's number: what the C interface returns.
    pub const fn number(self) -> u8 {
        self.refusal.number()
    }
}

impl fmt::Display for RecordsRefusal {
    fn fmt(&self, f: &mut fmt::Formatter<'_>) -> fmt::Result {
        match self.index {
            Some(index) => write!(f, "record {index}: {}", self.refusal),
            None => self.refusal.fmt(f),
        }
    }
}

impl std::error::Error for RecordsRefusal {}

/// Converts day-time records to month-day-nano records, from the front of a buffer on; the bytes past the last one are kept.
///
/// A day-time record is 8 bytes, days and then milliseconds of 32 signed bits each, little endian. A month-day-nano record is 16 bytes,
/// months, days and nanoseconds in 32, 32 and 64 bits, likewise. Records lie one behind another. Every record goes, with months 0, its days,
/// and its milliseconds times 1,000,000, and [`month_day_nano_to_day_time`] gives it back.
///
/// Refused with [`Records`](Refusal::Records) where the bytes are no whole number of records, then with [`Buffer`](Refusal::Buffer) where the
/// buffer is too short. It is not touched then.
///
/// ```
/// # use cullpethi::*;
/// let mut to = [b'.'; 18];
/// assert_eq!(day_time_to_month_day_nano(&[7, 0, 0, 0, 1, 0, 0, 0], &mut to), Ok(()));
/// assert_eq!(&to, b"\0\0\0\0\x07\0\0\0\x40\x42\x0F\0\0\0\0\0..");
/// assert_eq!(day_time_to_month_day_nano(&[0; 8], &mut to[..15]), Err(Refusal::Buffer));
/// ```
pub fn day_time_to_month_day_nano(from: &[u8], to: &mut [u8]) -> Result<(), Refusal> {
    // SAFETY: the records are lent for the call, and the buffer to it alone.
    Refusal::unless_ok(unsafe {
        library::cullpethi_day_time_to_month_day_nano(
            from.as_ptr(),
            from.len(),
            to.as_mut_ptr(),
            to.len(),
        )
    })
}

/// What [`day_time_to_month_day_nano`] makes of records, or [`Records`](Refusal::Records).
///
/// ```
/// # use cullpethi::*;
/// let new = day_time_to_month_day_nano_vec(&[7, 0, 0, 0, 1, 0, 0, 0]);
/// assert_eq!(new.as_deref(), Ok(&[0, 0, 0, 0, 7, 0, 0, 0, 0x40, 0x42, 0x0F, 0, 0, 0, 0, 0][..]));
/// ```
pub fn day_time_to_month_day_nano_vec(from: &[u8]) -> Result<Vec<u8>, Refusal> {
    let mut to = vec![0; from.len() / DAY_TIME * MONTH_DAY_NANO];
    day_time_to_month_day_nano(from, &mut to)?;
    Ok(to)
}

/// Converts month-day-nano records to day-time records, from the front of a buffer on; the bytes past the last one are kept.
///
/// The records are those of [`day_time_to_month_day_nano`], which gives them back. All are converted, or nothing is written: a record goes
/// where its months are 0, its nanoseconds a multiple of 1,000,000, and the milliseconds fit 32 bits. Months are not turned into days.
///
/// Refused with [`Records`](Refusal::Records) where the bytes are no whole number of records, then with [`Buffer`](Refusal::Buffer) where the
/// buffer is too short, then with [`Narrowed`](Refusal::Narrowed) and the index of the first record that has no day-time record. With any
/// refusal the buffer is not touched.
///
/// ```
/// # use cullpethi::*;
/// let new = [0, 0, 0, 0, 7, 0, 0, 0, 0x40, 0x42, 0x0F, 0, 0, 0, 0, 0];
/// let mut to = [0; 8];
/// assert_eq!(month_day_nano_to_day_time(&new, &mut to), Ok(()));
/// assert_eq!(to, [7, 0, 0, 0, 1, 0, 0, 0]);
///
/// let a_month = [1, 0, 0, 0, 0, 0, 0, 0, 0, 0, 0, 0, 0, 0, 0, 0];
/// let refused = month_day_nano_to_day_time(&a_month, &mut to);
/// assert_eq!(refused, Err(RecordsRefusal { refusal: Refusal::Narrowed, index: Some(0) }));
/// ```
pub fn month_day_nano_to_day_time(from: &[u8], to: &mut [u8]) -> Result<(), RecordsRefusal> {
    let mut index = 0;
    // SAFETY: the records are lent for the call, the buffer to it alone, and the index is a local that nothing else refers to.
    let status = unsafe {
        library::cullpethi_month_day_nano_to_day_time(
            from.as_ptr(),
            from.len(),
            to.as_mut_ptr(),
            to.len(),
            &mut index,
        )
    };
    Refusal::unless_ok(status).map_err(|refusal| RecordsRefusal {
        refusal,
        index: (refusal == Refusal::Narrowed).then_some(index),
    })
}

/// What [`month_day_nano_to_day_time`] makes of records, or why it makes nothing, but for [`Buffer`](Refusal::Buffer).
///
/// ```
/// # use cullpethi::*;
/// let new = [0, 0, 0, 0, 7, 0, 0, 0, 0x40, 0x42, 0x0F, 0, 0, 0, 0, 0];
/// let old = month_day_nano_to_day_time_vec(&new)?;
/// assert_eq!(old, [7, 0, 0, 0, 1, 0, 0, 0]);
/// assert_eq!(day_time_to_month_day_nano_vec(&old).unwrap(), new);
/// # Ok::<(), RecordsRefusal>(())
/// ```
pub fn month_day_nano_to_day_time_vec(from: &[u8]) -> Result<Vec<u8>, RecordsRefusal> {
    let mut to = vec![0; from.len() / MONTH_DAY_NANO * DAY_TIME];
    month_day_nano_to_day_time(from, &mut to)?;
    Ok(to)
}
