//! The ten column types: a function each, and arrow-cast's types with their `parse`.
use crate::library::{self, one};
use crate::{Refusal, Text};

/// A column that reads texts, as arrow-cast's `Parser`: `parse` gives `None` for a refused text, and `read` says why it is refused.
///
/// ```
/// use cullpethi::{Date32Type, Parser, Refusal};
///
/// assert_eq!(Date32Type::parse("1970-01-02"), Some(1));
/// assert_eq!(Date32Type::parse("1970-13-02"), None);
/// assert_eq!(Date32Type::read("1970-13-02"), Err(Refusal::Date));
/// ```
pub trait Parser {
    /// A value of the column.
    type Native;

    /// The value of a text, or why there is none.
    fn read<T: Text + ?Sized>(text: &T) -> Result<Self::Native, Refusal>;

    /// The value of a text, or none.
    fn parse<T: Text + ?Sized>(text: &T) -> Option<Self::Native> {
        Self::read(text).ok()
    }
}

/// A column: its function, and its type.
macro_rules! column {
    ($(#[$doc:meta])* $function:ident, $kind:ident, $native:ty, $call:ident) => {
        $(#[$doc])*
        pub fn $function<T: Text + ?Sized>(text: &T) -> Result<$native, Refusal> {
            one(text, library::$call)
        }

        #[doc = concat!("The column whose texts [`", stringify!($function), "`] reads, with arrow's name; see [`Parser`].")]
        #[derive(Clone, Copy, Debug)]
        pub struct $kind;

        impl Parser for $kind {
            type Native = $native;

            fn read<T: Text + ?Sized>(text: &T) -> Result<$native, Refusal> {
                $function(text)
            }
        }
    };
}

column! {
    /// Reads a stamp, as given or else trimmed, and gives nanoseconds since 1970-01-01.
    ///
    /// A stamp is what [`string_to_timestamp_nanos`](crate::string_to_timestamp_nanos) reads, and the refusals are the same: those of the
    /// trimmed text. Trimming takes tabs, line feeds, form feeds, carriage returns and spaces from both ends.
    ///
    /// ```
    /// assert_eq!(cullpethi::parse_timestamp_nanosecond(" 1970-01-01T00:00:01.9\n"), Ok(1_900_000_000));
    /// ```
    parse_timestamp_nanosecond, TimestampNanosecondType, i64, cullpethi_parse_timestamp_nanosecond
}

column! {
    /// Reads a stamp as [`parse_timestamp_nanosecond`] does, and gives microseconds since 1970-01-01, cut toward zero.
    ///
    /// A stamp whose nanoseconds do not fit 64 bits is refused with [`Range`](Refusal::Range).
    ///
    /// ```
    /// assert_eq!(cullpethi::parse_timestamp_microsecond("1970-01-01T00:00:01.9"), Ok(1_900_000));
    /// ```
    parse_timestamp_microsecond, TimestampMicrosecondType, i64, cullpethi_parse_timestamp_microsecond
}

column! {
    /// Reads a stamp as [`parse_timestamp_nanosecond`] does, and gives milliseconds since 1970-01-01, cut toward zero.
    ///
    /// A stamp whose nanoseconds do not fit 64 bits is refused with [`Range`](Refusal::Range).
    ///
    /// ```
    /// assert_eq!(cullpethi::parse_timestamp_millisecond("1969-12-31T23:59:59.0005"), Ok(-999));
    /// ```
    parse_timestamp_millisecond, TimestampMillisecondType, i64, cullpethi_parse_timestamp_millisecond
}

column! {
    /// Reads a stamp as [`parse_timestamp_nanosecond`] does, and gives seconds since 1970-01-01, cut toward zero.
    ///
    /// A stamp whose nanoseconds do not fit 64 bits is refused with [`Range`](Refusal::Range).
    ///
    /// ```
    /// assert_eq!(cullpethi::parse_timestamp_second(" 1970-01-01T00:00:01.9\n"), Ok(1));
    /// ```
    parse_timestamp_second, TimestampSecondType, i64, cullpethi_parse_timestamp_second
}

column! {
    /// Reads a time of day, and gives nanoseconds since midnight; failing that, an integer of 64 bits, which stands as it is; failing
    /// that, a time of day once trimmed.
    ///
    /// A time of day is what [`string_to_time_nanoseconds`](crate::string_to_time_nanoseconds) reads. Refused with
    /// [`NotUtf8`](Refusal::NotUtf8) or [`TimeOfDay`](Refusal::TimeOfDay).
    ///
    /// ```
    /// assert_eq!(cullpethi::parse_time64_nanosecond("00:01"), Ok(60_000_000_000));
    /// assert_eq!(cullpethi::parse_time64_nanosecond("1234"), Ok(1234));
    /// ```
    parse_time64_nanosecond, Time64NanosecondType, i64, cullpethi_parse_time64_nanosecond
}

column! {
    /// Reads a time of day, and gives microseconds since midnight, cut; failing that, an integer of 64 bits, which stands as it is;
    /// failing that, a time of day once trimmed. Refused as by [`parse_time64_nanosecond`].
    ///
    /// ```
    /// assert_eq!(cullpethi::parse_time64_microsecond("00:01"), Ok(60_000_000));
    /// assert_eq!(cullpethi::parse_time64_microsecond("1234"), Ok(1234));
    /// ```
    parse_time64_microsecond, Time64MicrosecondType, i64, cullpethi_parse_time64_microsecond
}

column! {
    /// Reads a time of day, and gives milliseconds since midnight, cut; failing that, an integer of 32 bits, which stands as it is;
    /// failing that, a time of day once trimmed. Refused as by [`parse_time64_nanosecond`].
    ///
    /// ```
    /// assert_eq!(cullpethi::parse_time32_millisecond("00:01"), Ok(60_000));
    /// assert_eq!(cullpethi::parse_time32_millisecond("1234"), Ok(1234));
    /// ```
    parse_time32_millisecond, Time32MillisecondType, i32, cullpethi_parse_time32_millisecond
}

column! {
    /// Reads a time of day, and gives seconds since midnight, cut; failing that, an integer of 32 bits, which stands as it is; failing
    /// that, a time of day once trimmed. Refused as by [`parse_time64_nanosecond`].
    ///
    /// ```
    /// assert_eq!(cullpethi::parse_time32_second("00:01"), Ok(60));
    /// assert_eq!(cullpethi::parse_time32_second("1234"), Ok(1234));
    /// ```
    parse_time32_second, Time32SecondType, i32, cullpethi_parse_time32_second
}

column! {
    /// Reads a date or a stamp, as given or else trimmed, and gives the days from 1970-01-01 to its day, of a stamp to its day in UTC.
    ///
    /// A date is `yyyy-mm-dd`, `yyyy-m-d`, `yyyymmdd`, or a sign, a year of four or more digits, a month and a day. Refused with
    /// [`NotUtf8`](Refusal::NotUtf8), [`Date`](Refusal::Date), or what a stamp longer than 10 bytes is refused with;
    /// [`Range`](Refusal::Range) is a signed date whose day does not fit 32 bits.
    ///
    /// ```
    /// assert_eq!(cullpethi::parse_date32("1970-1-2"), Ok(1));
    /// assert_eq!(cullpethi::parse_date32(" 1970-01-02T23:59:59"), Ok(1));
    /// assert_eq!(cullpethi::parse_date32("-0001-01-01"), Ok(-719_893));
    /// ```
    parse_date32, Date32Type, i32, cullpethi_parse_date32
}

column! {
    /// Reads a date of up to 10 bytes, or a stamp of more, and gives milliseconds since 1970-01-01, rounded down; nothing is trimmed.
    ///
    /// A date is what [`parse_date32`] reads, and the refusals are the same, without [`Range`](Refusal::Range).
    ///
    /// ```
    /// assert_eq!(cullpethi::parse_date64("1970-01-02"), Ok(86_400_000));
    /// assert_eq!(cullpethi::parse_date64("1969-12-31T23:59:59.0005"), Ok(-1000));
    /// ```
    parse_date64, Date64Type, i64, cullpethi_parse_date64
}
