//! Intervals: amounts with their units, as in `1 month -2.5 days`.
use crate::{library, IntervalUnit, Refusal, Text};

/// How [`parse_interval_month_day_nano_config`] reads an interval: with which unit for a last amount that has none.
///
/// ```
/// # use cullpethi::*;
/// let in_hours = IntervalParseConfig::new(IntervalUnit::Hour);
/// assert_eq!(parse_interval_month_day_nano_config("2", in_hours), parse_interval_month_day_nano("2 hours"));
/// ```
#[derive(Clone, Copy, Debug, PartialEq, Eq)]
pub struct IntervalParseConfig {
    pub(crate) default_unit: IntervalUnit,
}

impl IntervalParseConfig {
    /// With this unit for a last amount that has none.
    pub const fn new(default_unit: IntervalUnit) -> Self {
        Self { default_unit }
    }
}

/// An interval in days and milliseconds, which do not pass for one another. The fields are those of arrow-buffer's type.
#[derive(Clone, Copy, Debug, Default, PartialEq, Eq, Hash)]
pub struct IntervalDayTime {
    /// Days, 30 for each month of the text.
    pub days: i32,
    /// Milliseconds.
    pub milliseconds: i32,
}

impl IntervalDayTime {
    /// So many days and milliseconds.
    ///
    /// ```
    /// # use cullpethi::*;
    /// assert_eq!(parse_interval_day_time("1 day 2 ms"), Ok(IntervalDayTime::new(1, 2)));
    /// ```
    pub const fn new(days: i32, milliseconds: i32) -> Self {
        Self { days, milliseconds }
    }
}

/// An interval in months, days and nanoseconds, which do not pass for one another. The fields are those of arrow-buffer's type.
#[derive(Clone, Copy, Debug, Default, PartialEq, Eq, Hash)]
pub struct IntervalMonthDayNano {
    /// Months, 12 for each year of the text.
    pub months: i32,
    /// Days, 7 for each week of the text.
    pub days: i32,
    /// Nanoseconds: hours and shorter units, and fractions of weeks and days.
    pub nanoseconds: i64,
}

impl IntervalMonthDayNano {
    /// So many months, days and nanoseconds.
    ///
    /// ```
    /// # use cullpethi::*;
    /// assert_eq!(parse_interval_month_day_nano("1.5 months"), Ok(IntervalMonthDayNano::new(1, 15, 0)));
    /// ```
    pub const fn new(months: i32, days: i32, nanoseconds: i64) -> Self {
        Self {
            months,
            days,
            nanoseconds,
        }
    }
}

/// Months, days and nanoseconds of an interval as a tuple.
///
/// ```
/// # use cullpethi::*;
/// let (months, days, nanos): MonthDayNano = parse_interval_month_day_nano("1.5 months")?.into();
/// assert_eq!((months, days, nanos), (1, 15, 0));
/// # Ok::<(), Refusal>(())
/// ```
pub type MonthDayNano = (i32, i32, i64);

/// The three counts in their order.
impl From<IntervalMonthDayNano> for MonthDayNano {
    fn from(of: IntervalMonthDayNano) -> Self {
        (of.months, of.days, of.nanoseconds)
    }
}

/// The cells that a call of the library fills, which gets them and the cell of the place; or its refusal, with that place.
fn cells<V: Default>(call: impl FnOnce(&mut V, &mut usize) -> u8) -> Result<V, Refusal> {
    let (mut cells, mut place) = (V::default(), 0);
    let status = call(&mut cells, &mut place);
    Refusal::unless_ok_at(status, place)?;
    Ok(cells)
}

/// Reads an interval that has no days and no nanoseconds, and gives its months; years are the unit of a last amount that has none.
///
/// Refused with [`NotUtf8`](Refusal::NotUtf8); [`Interval`](Refusal::Interval), [`RepeatedUnit`](Refusal::RepeatedUnit) or
/// [`Overflow`](Refusal::Overflow), which tell the place; or [`Narrowed`](Refusal::Narrowed) where it has days or nanoseconds.
///
/// ```
/// # use cullpethi::*;
/// assert_eq!(parse_interval_year_month("-1 year 1 month"), Ok(-11));
/// assert_eq!(parse_interval_year_month("1 week"), Err(Refusal::Narrowed));
/// assert_eq!(parse_interval_year_month("1 year 2"), Err(Refusal::RepeatedUnit { place: 7 }));
/// ```
pub fn parse_interval_year_month<T: Text + ?Sized>(text: &T) -> Result<i32, Refusal> {
    let text = text.text_bytes();
    // SAFETY: the text is lent for the call, and the cells are locals that nothing else refers to.
    cells(|months, place| unsafe {
        library::cullpethi_parse_interval_year_month(text.as_ptr(), text.len(), months, place)
    })
}

/// Reads an interval, and gives its days, 30 to a month, and milliseconds; days are the unit of a last amount that has none.
///
/// Refused with [`NotUtf8`](Refusal::NotUtf8); [`Interval`](Refusal::Interval), [`RepeatedUnit`](Refusal::RepeatedUnit) or
/// [`Overflow`](Refusal::Overflow), which tell the place; or [`Narrowed`](Refusal::Narrowed) where its nanoseconds are no whole
/// milliseconds, or a count does not fit 32 bits.
///
/// ```
/// # use cullpethi::*;
/// assert_eq!(parse_interval_day_time("1.5"), Ok(IntervalDayTime::new(1, 43_200_000)));
/// assert_eq!(parse_interval_day_time("1 us"), Err(Refusal::Narrowed));
/// assert_eq!(parse_interval_day_time("1 day x"), Err(Refusal::Interval { place: 6 }));
/// ```
pub fn parse_interval_day_time<T: Text + ?Sized>(text: &T) -> Result<IntervalDayTime, Refusal> {
    let text = text.text_bytes();
    // SAFETY: as in `parse_interval_year_month`.
    cells(|r: &mut IntervalDayTime, place| unsafe {
        library::cullpethi_parse_interval_day_time(
            text.as_ptr(),
            text.len(),
            &mut r.days,
            &mut r.milliseconds,
            place,
        )
    })
}

/// Reads an interval, and gives its months, days and nanoseconds; months are the unit of a last amount that has none.
///
/// Refused with [`NotUtf8`](Refusal::NotUtf8); or [`Interval`](Refusal::Interval), [`RepeatedUnit`](Refusal::RepeatedUnit) or
/// [`Overflow`](Refusal::Overflow), which tell the place.
///
/// ```
/// # use cullpethi::*;
/// let r = parse_interval_month_day_nano("1.5 months 1 second");
/// assert_eq!(r, Ok(IntervalMonthDayNano::new(1, 15, 1_000_000_000)));
/// assert_eq!(parse_interval_month_day_nano("1 day 1 day"), Err(Refusal::RepeatedUnit { place: 6 }));
/// ```
pub fn parse_interval_month_day_nano<T: Text + ?Sized>(
    text: &T,
) -> Result<IntervalMonthDayNano, Refusal> {
    let text = text.text_bytes();
    // SAFETY: as in `parse_interval_year_month`.
    cells(|r: &mut IntervalMonthDayNano, place| unsafe {
        library::cullpethi_parse_interval_month_day_nano(
            text.as_ptr(),
            text.len(),
            &mut r.months,
            &mut r.days,
            &mut r.nanoseconds,
            place,
        )
    })
}

/// Reads an interval, and gives its months, days and nanoseconds; the unit of a last amount that has none is the caller's.
///
/// Refused as by [`parse_interval_month_day_nano`].
///
/// ```
/// # use cullpethi::*;
/// let in_hours = IntervalParseConfig::new(IntervalUnit::Hour);
/// let r = parse_interval_month_day_nano_config("1 day 2", in_hours);
/// assert_eq!(r, Ok(IntervalMonthDayNano::new(0, 1, 7_200_000_000_000)));
/// let r = parse_interval_month_day_nano_config("1 day 2 h 3", in_hours);
/// assert_eq!(r, Err(Refusal::RepeatedUnit { place: 10 }));
/// ```
pub fn parse_interval_month_day_nano_config<T: Text + ?Sized>(
    text: &T,
    config: IntervalParseConfig,
) -> Result<IntervalMonthDayNano, Refusal> {
    let text = text.text_bytes();
    // SAFETY: as in `parse_interval_year_month`.
    cells(|r: &mut IntervalMonthDayNano, place| unsafe {
        library::cullpethi_parse_interval_month_day_nano_config(
            text.as_ptr(),
            text.len(),
            config.default_unit as u8,
            &mut r.months,
            &mut r.days,
            &mut r.nanoseconds,
            place,
        )
    })
}
