//! The units of an interval, and their spellings.
use crate::Refusal;
use std::str::FromStr;

/// A unit of an interval, by its number in the library: 0 to 11, from the longest to the shortest. (In arrow-cast the number is a bit.)
///
/// ```
/// # use cullpethi::*;
/// assert_eq!("hrs".parse(), Ok(IntervalUnit::Hour));
/// assert_eq!("Months".parse(), Ok(IntervalUnit::Month));
/// assert_eq!("fortnight".parse::<IntervalUnit>(), Err(Refusal::Interval { place: 0 }));
/// ```
#[derive(Clone, Copy, Debug, PartialEq, Eq, Hash)]
#[repr(u8)]
pub enum IntervalUnit {
    /// 1200 months; a fraction counts in months, cut.
    Century = 0,
    /// 120 months; a fraction counts in months, cut.
    Decade = 1,
    /// 12 months; a fraction counts in months, cut.
    Year = 2,
    /// A month; a fraction counts in days, 30 to a month, cut.
    Month = 3,
    /// 7 days; a fraction counts in nanoseconds, 7 times 24 hours to a week, cut.
    Week = 4,
    /// A day; a fraction counts in nanoseconds, 24 hours to a day, cut.
    Day = 5,
    /// 3,600,000,000,000 nanoseconds.
    Hour = 6,
    /// 60,000,000,000 nanoseconds.
    Minute = 7,
    /// 1,000,000,000 nanoseconds.
    Second = 8,
    /// 1,000,000 nanoseconds.
    Millisecond = 9,
    /// 1,000 nanoseconds.
    Microsecond = 10,
    /// A nanosecond; a fraction counts nothing.
    Nanosecond = 11,
}

impl IntervalUnit {
    /// Every unit, by its number.
    pub const ALL: [IntervalUnit; 12] = [
        IntervalUnit::Century,
        IntervalUnit::Decade,
        IntervalUnit::Year,
        IntervalUnit::Month,
        IntervalUnit::Week,
        IntervalUnit::Day,
        IntervalUnit::Hour,
        IntervalUnit::Minute,
        IntervalUnit::Second,
        IntervalUnit::Millisecond,
        IntervalUnit::Microsecond,
        IntervalUnit::Nanosecond,
    ];

    /// The spellings of the unit in small letters. A text may have them in any case, and with U+212A, the sign of kelvin, for k.
    ///
    /// ```
    /// # use cullpethi::*;
    /// assert_eq!(IntervalUnit::Day.spellings(), ["d", "day", "days"]);
    /// ```
    pub const fn spellings(self) -> &'static [&'static str] {
        match self {
            Self::Century => &["c", "cent", "cents", "century", "centuries"],
            Self::Decade => &["dec", "decs", "decade", "decades"],
            Self::Year => &["y", "yr", "yrs", "year", "years"],
            Self::Month => &["mon", "mons", "month", "months"],
            Self::Week => &["w", "week", "weeks"],
            Self::Day => &["d", "day", "days"],
            Self::Hour => &["h", "hr", "hrs", "hour", "hours"],
            Self::Minute => &["m", "min", "mins", "minute", "minutes"],
            Self::Second => &["s", "sec", "secs", "second", "seconds"],
            Self::Millisecond => &[
                "ms",
                "msec",
                "msecs",
                "msecond",
                "mseconds",
                "millisecond",
                "milliseconds",
            ],
            Self::Microsecond => &[
                "us",
                "usec",
                "usecs",
                "usecond",
                "useconds",
                "microsecond",
                "microseconds",
            ],
            Self::Nanosecond => &["nanosecond", "nanoseconds"],
        }
    }
}

/// A unit by one of its spellings. Another word gives [`Refusal::Interval`], as an interval with that word for a unit does; its place is 0,
/// where the word begins.
///
/// This is written in Rust, and the crate's tests hold it to what the library's readers take for a unit.
impl FromStr for IntervalUnit {
    type Err = Refusal;

    fn from_str(word: &str) -> Result<Self, Refusal> {
        let word = word.to_lowercase();
        let mut units = Self::ALL.into_iter();
        units
            .find(|unit| unit.spellings().contains(&word.as_str()))
            .ok_or(Refusal::Interval { place: 0 })
    }
}
