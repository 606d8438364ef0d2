//! Why a text is refused, and where.
use std::fmt;

/// Why a text is refused. Where several reasons hold, the reader gives the first of this order. Each has a [`number`](Refusal::number), and
/// is an error with a sentence. Three refusals of an interval tell their [`place`](Refusal::place) in the text besides, in bytes from 0.
///
/// ```
/// use cullpethi::*;
///
/// assert_eq!(string_to_timestamp_nanos(b"\xFF"), Err(Refusal::NotUtf8));
/// assert_eq!(string_to_timestamp_nanos("1970-02-30"), Err(Refusal::Date));
/// assert_eq!(string_to_timestamp_nanos("1970-01-01_00:00:00"), Err(Refusal::Separator));
/// assert_eq!(string_to_timestamp_nanos("1970-01-01T24:00:00"), Err(Refusal::Time));
/// assert_eq!(string_to_timestamp_nanos("1970-01-01T00:00:00+1:00"), Err(Refusal::Tail));
/// assert_eq!(string_to_timestamp_nanos("1970-01-01T00:00:00+24:00"), Err(Refusal::Offset));
/// assert_eq!(string_to_timestamp_nanos("2263-01-01"), Err(Refusal::Range));
/// assert_eq!(string_to_time_nanoseconds("24:00"), Err(Refusal::TimeOfDay));
/// assert_eq!(parse_interval_month_day_nano("1  day"), Err(Refusal::Interval { place: 2 }));
/// assert_eq!(parse_interval_month_day_nano("1 day 1 d"), Err(Refusal::RepeatedUnit { place: 6 }));
/// assert_eq!(parse_interval_month_day_nano("2147483648 months"), Err(Refusal::Overflow { place: 0 }));
/// assert_eq!(parse_interval_year_month("1 day"), Err(Refusal::Narrowed));
/// assert_eq!(site_stamp("1970-01-01 00:00:00Z"), Err(Refusal::SiteStamp));
/// assert_eq!(parse_column(Column::Date32, "", &[1], &mut [0]).unwrap_err().refusal, Refusal::Column);
/// assert_eq!(write_interval(IntervalMonthDayNano::new(1, 0, 0), &mut [0; 7]), Err(Refusal::Buffer));
/// assert_eq!(day_time_to_month_day_nano(&[0; 9], &mut [0; 32]), Err(Refusal::Records));
/// assert_eq!(keypad_text(1_333_320, &mut [0; 21]), Err(Refusal::Keypad));
/// ```
#[derive(Clone, Copy, Debug, PartialEq, Eq, Hash, PartialOrd, Ord)]
pub enum Refusal {
    /// The bytes are not well-formed UTF-8: `b"\xFF"`.
    NotUtf8,
    /// No date: no shape of one, no day of the calendar, or a stamp of fewer than 10 bytes: `1970-02-30`.
    Date,
    /// Byte 10 of a longer stamp is not T, t or a space: `1970-01-01_00:00:00`.
    Separator,
    /// No time part of a stamp, or a field of it is out of range: `1970-01-01T24:00:00`.
    Time,
    /// Bytes remain after the time that are neither a single final z or Z nor of an offset's shape: `1970-01-01T00:00:00+1:00`.
    Tail,
    /// The hours or minutes of an offset are out of range: `1970-01-01T00:00:00+24:00`.
    Offset,
    /// The nanoseconds do not fit 64 signed bits, or the day number does not fit 32: `2263-01-01`.
    Range,
    /// A time-of-day text is neither a time nor, for a time column, an integer of its width: `24:00`.
    TimeOfDay,
    /// An interval text has no division: `1  day`, with two spaces.
    ///
    /// A text is split at each White_Space character, empty words included. A word with a character other than 0 to 9, point and minus is
    /// an amount and a unit, parted before the first such character. Any other word is an amount, and its unit is the next word, or there
    /// is none if it is the last. An amount and its unit are a component.
    Interval {
        /// Where the first piece begins that is no amount or no unit, components from the left, the amount before its unit.
        place: usize,
    },
    /// A unit comes twice: `1 day 1 d`.
    RepeatedUnit {
        /// Where the amount of the first component begins whose unit came before.
        place: usize,
    },
    /// A contribution or a running total does not fit: `2147483648 months`.
    Overflow {
        /// Where the amount of the component begins whose contribution or running total first does not fit.
        place: usize,
    },
    /// The narrowed interval form cannot hold the result: `1 day` in months.
    Narrowed,
    /// The plain stamp reader accepts the text, but it is no site stamp: `1970-01-01 00:00:00Z`.
    SiteStamp,
    /// The ends of a column's texts fall or pass the bytes, or there are fewer cells than ends: `""` with an end of 1.
    Column,
    /// The buffer is too short: `1 months` into 7 bytes.
    Buffer,
    /// The bytes are no whole number of records: `[0; 9]`, of day-time records.
    Records,
    /// No keypad text has this number: `1_333_320`.
    Keypad,
}

impl Refusal {
    /// The refusal's number, from 1 to 17: what the C interface returns.
    ///
    /// ```
    /// assert_eq!(cullpethi::Refusal::Tail.number(), 5);
    /// ```
    pub const fn number(self) -> u8 {
        match self {
            Refusal::NotUtf8 => 1,
            Refusal::Date => 2,
            Refusal::Separator => 3,
            Refusal::Time => 4,
            Refusal::Tail => 5,
            Refusal::Offset => 15,
            Refusal::Range => 6,
            Refusal::TimeOfDay => 7,
            Refusal::Interval { .. } => 8,
            Refusal::RepeatedUnit { .. } => 9,
            Refusal::Overflow { .. } => 10,
            Refusal::Narrowed => 11,
            Refusal::SiteStamp => 12,
            Refusal::Column => 13,
            Refusal::Buffer => 14,
            Refusal::Records => 16,
            Refusal::Keypad => 17,
        }
    }

    /// Where in the interval text the refusal lies, in bytes from 0 to the text's length; none where the refusal has no place.
    ///
    /// ```
    /// use cullpethi::*;
    ///
    /// assert_eq!(parse_interval_month_day_nano("1 day x").unwrap_err().place(), Some(6));
    /// assert_eq!(parse_interval_year_month("1 day").unwrap_err().place(), None);
    /// ```
    pub const fn place(self) -> Option<usize> {
        match self {
            Refusal::Interval { place }
            | Refusal::RepeatedUnit { place }
            | Refusal::Overflow { place } => Some(place),
            _ => None,
        }
    }

    /// What a status says of a call that has no place, so of any but those that read an interval.
    pub(crate) fn unless_ok(status: u8) -> Result<(), Refusal> {
        Err(match status {
            0 => return Ok(()),
            1 => Refusal::NotUtf8,
            2 => Refusal::Date,
            3 => Refusal::Separator,
            4 => Refusal::Time,
            5 => Refusal::Tail,
            15 => Refusal::Offset,
            6 => Refusal::Range,
            7 => Refusal::TimeOfDay,
            11 => Refusal::Narrowed,
            12 => Refusal::SiteStamp,
            13 => Refusal::Column,
            14 => Refusal::Buffer,
            16 => Refusal::Records,
            17 => Refusal::Keypad,
            // 255 comes only of a number that `Column` does not have.
            n => unreachable!("{n} is no refusal of a call that has no place"),
        })
    }

    /// What a status says of a call that reads an interval, with the cell that it writes together with 8, 9 and 10.
    pub(crate) fn unless_ok_at(status: u8, place: usize) -> Result<(), Refusal> {
        Err(match status {
            0 => return Ok(()),
            1 => Refusal::NotUtf8,
            8 => Refusal::Interval { place },
            9 => Refusal::RepeatedUnit { place },
            10 => Refusal::Overflow { place },
            11 => Refusal::Narrowed,
            14 => Refusal::Buffer,
            // 255 comes only of a number that `IntervalUnit` does not have.
            n => unreachable!("{n} is no refusal of an interval"),
        })
    }
}

/// The sentence, and behind it the place where there is one.
///
/// ```
/// let refused = cullpethi::parse_interval_month_day_nano("1  day").unwrap_err();
/// assert_eq!(refused.to_string(), "an interval text has no division, at byte 2");
/// ```
impl fmt::Display for Refusal {
    fn fmt(&self, f: &mut fmt::Formatter<'_>) -> fmt::Result {
        f.write_str(match self {
            Refusal::NotUtf8 => "the bytes are not well-formed UTF-8",
            Refusal::Date => "no date: no shape of one, no day of the calendar, or a stamp of fewer than 10 bytes",
            Refusal::Separator => "byte 10 of a longer stamp is not T, t or a space",
            Refusal::Time => "no time part of a stamp, or a field of it is out of range",
            Refusal::Tail => "bytes remain after the time that are neither a single final z or Z nor of an offset's shape",
            Refusal::Offset => "the hours or minutes of an offset are out of range",
            Refusal::Range => "the nanoseconds do not fit 64 signed bits, or the day number does not fit 32",
            Refusal::TimeOfDay => "a time-of-day text is neither a time nor, for a time column, an integer of its width",
            Refusal::Interval { .. } => "an interval text has no division",
            Refusal::RepeatedUnit { .. } => "a unit comes twice",
            Refusal::Overflow { .. } => "a contribution or a running total does not fit",
            Refusal::Narrowed => "the narrowed interval form cannot hold the result",
            Refusal::SiteStamp => "the plain stamp reader accepts the text, but it is no site stamp",
            Refusal::Column => "the ends of a column's texts fall or pass the bytes, or there are fewer cells than ends",
            Refusal::Buffer => "the buffer is too short",
            Refusal::Records => "the bytes are no whole number of records",
            Refusal::Keypad => "no keypad text has this number",
        })?;
        match self.place() {
            Some(place) => write!(f, ", at byte {place}"),
            None => Ok(()),
        }
    }
}

impl std::error::Error for Refusal {}
