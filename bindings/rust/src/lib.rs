//! Readers of dates, times of day, timestamps and intervals, proved in Rattle, under the names of arrow-cast's `parse` module; printing of
//! intervals; conversion of their records; and every small interval text, for a keypad's test.
//!
//! | what is read | readers |
//! |---|---|
//! | a stamp, as `2026-03-01T06:30:00Z` | [`string_to_timestamp_nanos`], [`site_stamp`], the four `parse_timestamp_*` |
//! | a time of day, as `6:30 pm` | [`string_to_time_nanoseconds`], the four `parse_time*` |
//! | a date, as `2026-03-01` | [`parse_date32`], [`parse_date64`] |
//! | an interval, as `1 month -2.5 days` | [`parse_interval_month_day_nano`], [`parse_interval_day_time`], [`parse_interval_year_month`] |
//! | a whole column of stamps, times or dates | [`parse_column`], [`parse_texts`] |
//!
//! | what is printed | by |
//! |---|---|
//! | an interval, as `1 months 15 days` | its `Display`, [`write_interval`] |
//! | the components of an interval text, as `unit=month whole=1 frac=500000000000000` | [`list_interval`], [`list_interval_into`] |
//!
//! | what is converted | by |
//! |---|---|
//! | Arrow's day-time records of 8 bytes to month-day-nano records of 16 | [`day_time_to_month_day_nano`], [`day_time_to_month_day_nano_vec`] |
//! | and back | [`month_day_nano_to_day_time`], [`month_day_nano_to_day_time_vec`] |
//!
//! | what a keypad's test wants | by |
//! |---|---|
//! | interval text k of all of one to three components, as `9d 0c 1ms` | [`keypad_text`] |
//! | all of them, in order | [`keypad_texts`] |
//!
//! Each reader takes a [`Text`], bytes or characters, and gives its value or one [`Refusal`]. Three refusals of an interval tell where in
//! the text they lie: see [`Refusal::place`]. The columns of arrow are types with a `parse` besides, as in arrow-cast: see [`Parser`].
//!
//! ```
//! use cullpethi::{parse_interval_day_time, string_to_timestamp_nanos, Refusal};
//!
//! assert_eq!(string_to_timestamp_nanos("1970-01-01T00:00:01.5Z"), Ok(1_500_000_000));
//! assert_eq!(string_to_timestamp_nanos(b"1970-01-01_"), Err(Refusal::Separator));
//! assert_eq!(parse_interval_day_time("1 day 2 hous"), Err(Refusal::Interval { place: 8 }));
//! ```
#![warn(missing_docs)]

mod columns;
mod intervals;
mod keypad;
mod library;
mod printing;
mod records;
mod refusal;
mod site;
mod text;
mod units;
mod whole;

pub use columns::*;
pub use intervals::*;
pub use keypad::*;
pub use printing::*;
pub use records::*;
pub use refusal::Refusal;
pub use site::{site_stamp, SiteStamp};
pub use text::Text;
pub use units::IntervalUnit;
pub use whole::{parse_column, parse_texts, Column, ColumnRefusal};

use library::one;

/// Reads a stamp, and gives nanoseconds since 1970-01-01T00:00:00Z.
///
/// A stamp is `yyyy-mm-dd` alone, which is midnight, or with `T`, `t` or a space behind it and `hh:mm:ss`, `hh:mm:ss` with a point and
/// digits, or `hhmmss`; a final `Z` or `z` may follow, or an offset: white space or none, a sign, and `hh:mm`, `hhmm` or `hh`, of up to
/// `23:59`. Without colons in the time white space stands before an offset. Local time less the offset is UTC; without one it is UTC. Second 60
/// is read in any minute, and is the next minute's first. The text is not trimmed. Refused with [`NotUtf8`](Refusal::NotUtf8),
/// [`Date`](Refusal::Date), [`Separator`](Refusal::Separator), [`Time`](Refusal::Time), [`Tail`](Refusal::Tail),
/// [`Offset`](Refusal::Offset) or [`Range`](Refusal::Range).
///
/// ```
/// # use cullpethi::*;
/// assert_eq!(string_to_timestamp_nanos("1997-01-31T09:26:56.123Z"), Ok(854_702_816_123_000_000));
/// assert_eq!(string_to_timestamp_nanos("1997-01-31 09:26:56"), Ok(854_702_816_000_000_000));
/// assert_eq!(string_to_timestamp_nanos("1997-01-31T09:26:56+01:00"), Ok(854_699_216_000_000_000));
/// assert_eq!(string_to_timestamp_nanos("1997-02-31"), Err(Refusal::Date));
/// ```
pub fn string_to_timestamp_nanos<T: Text + ?Sized>(text: &T) -> Result<i64, Refusal> {
    one(text, library::cullpethi_string_to_timestamp_nanos)
}

/// Reads a time of day, and gives nanoseconds since midnight.
///
/// A time of day is `h:mm` or `hh:mm`, with `:ss` behind it or not, and behind the seconds a point and digits or not; at the end a space
/// and `AM` or `PM` in either case may follow, with hours 1 to 12. The text is not trimmed. Refused with [`NotUtf8`](Refusal::NotUtf8) or
/// [`TimeOfDay`](Refusal::TimeOfDay).
///
/// ```
/// # use cullpethi::*;
/// assert_eq!(string_to_time_nanoseconds("6:00 pm"), Ok(64_800_000_000_000));
/// assert_eq!(string_to_time_nanoseconds("6 pm"), Err(Refusal::TimeOfDay));
/// ```
pub fn string_to_time_nanoseconds<T: Text + ?Sized>(text: &T) -> Result<i64, Refusal> {
    one(text, library::cullpethi_string_to_time_nanoseconds)
}
