//! Printing: an interval as a text, and the components of an interval text.
use crate::{library, IntervalMonthDayNano, IntervalParseConfig, Refusal, Text};
use std::fmt;

/// The longest text of an interval, that of the least counts.
const LONGEST_TEXT: usize = 68;
/// The longest listing: a line for each unit.
const LONGEST_LISTING: usize = 12 * 66;

/// Writes an interval as a text from the front of a buffer on, and gives its length; the bytes past it are kept.
///
/// The text has whole amounts of months, days and nanoseconds in that order, with single spaces, those of 0 left out, and `0 months` where all
/// are 0. A reader of months, days and nanoseconds reads it back as the same interval, with any default unit. 68 bytes are always enough.
///
/// Refused with [`Buffer`](Refusal::Buffer) where the buffer is too short, which is not touched then.
///
/// ```
/// # use cullpethi::*;
/// let interval = IntervalMonthDayNano::new(1, -2, 0);
/// let mut buffer = [b'.'; 20];
/// assert_eq!(write_interval(interval, &mut buffer), Ok(16));
/// assert_eq!(&buffer, b"1 months -2 days....");
/// assert_eq!(parse_interval_month_day_nano(&buffer[..16]), Ok(interval));
/// assert_eq!(write_interval(interval, &mut buffer[..15]), Err(Refusal::Buffer));
/// ```
pub fn write_interval(interval: IntervalMonthDayNano, buffer: &mut [u8]) -> Result<usize, Refusal> {
    let mut length = 0;
    // SAFETY: the buffer is lent to the call alone, and the length is a local that nothing else refers to.
    Refusal::unless_ok(unsafe {
        library::cullpethi_write_interval(
            interval.months,
            interval.days,
            interval.nanoseconds,
            buffer.as_mut_ptr(),
            buffer.len(),
            &mut length,
        )
    })?;
    Ok(length)
}

/// The text that [`write_interval`] writes, whatever width and precision are asked for.
///
/// ```
/// # use cullpethi::*;
/// assert_eq!(IntervalMonthDayNano::new(1, 15, 0).to_string(), "1 months 15 days");
/// assert_eq!(IntervalMonthDayNano::default().to_string(), "0 months");
/// ```
impl fmt::Display for IntervalMonthDayNano {
    fn fmt(&self, f: &mut fmt::Formatter<'_>) -> fmt::Result {
        let mut buffer = [0; LONGEST_TEXT];
        let length = write_interval(*self, &mut buffer).expect("68 bytes are enough");
        f.write_str(std::str::from_utf8(&buffer[..length]).expect("the text is ASCII"))
    }
}

/// Lists the components of an interval text in their order, a line each; the caller says which unit may be left out.
///
/// A line has the unit's name in the singular, the amount's whole part, and its fraction with the sign, times ten to the fifteenth.
///
/// Refused as the text is by [`parse_interval_month_day_nano_config`](crate::parse_interval_month_day_nano_config).
///
/// ```
/// # use cullpethi::*;
/// let in_days = IntervalParseConfig::new(IntervalUnit::Day);
/// let listed = list_interval("1.5 months -.5", in_days);
/// let lines = "unit=month whole=1 frac=500000000000000\nunit=day whole=0 frac=-500000000000000\n";
/// assert_eq!(listed.as_deref(), Ok(lines));
/// assert_eq!(list_interval("1 day 2", in_days), Err(Refusal::RepeatedUnit { place: 6 }));
/// ```
pub fn list_interval<T: Text + ?Sized>(
    text: &T,
    config: IntervalParseConfig,
) -> Result<String, Refusal> {
    let mut buffer = vec![0; LONGEST_LISTING];
    let length = list_interval_into(text, config, &mut buffer)?;
    buffer.truncate(length);
    Ok(String::from_utf8(buffer).expect("a listing is ASCII"))
}

/// Writes what [`list_interval`] gives from the front of a buffer on, and gives its length; the bytes past it are kept.
///
/// Refused as by [`list_interval`]; then with [`Buffer`](Refusal::Buffer) where the buffer is too short. With any refusal the buffer is not
/// touched. There are at most 12 lines, each of at most 66 bytes.
///
/// ```
/// # use cullpethi::*;
/// let in_months = IntervalParseConfig::new(IntervalUnit::Month);
/// let mut buffer = [b'.'; 28];
/// assert_eq!(list_interval_into("2 h", in_months, &mut buffer), Ok(25));
/// assert_eq!(&buffer, b"unit=hour whole=2 frac=0\n...");
/// ```
pub fn list_interval_into<T: Text + ?Sized>(
    text: &T,
    config: IntervalParseConfig,
    buffer: &mut [u8],
) -> Result<usize, Refusal> {
    let text = text.text_bytes();
    let (mut length, mut place) = (0, 0);
    // SAFETY: the text is lent for the call, the buffer to it alone, and the cells are locals that nothing else refers to.
    let status = unsafe {
        library::cullpethi_list_interval(
            text.as_ptr(),
            text.len(),
            config.default_unit as u8,
            buffer.as_mut_ptr(),
            buffer.len(),
            &mut length,
            &mut place,
        )
    };
    Refusal::unless_ok_at(status, place)?;
    Ok(length)
}
