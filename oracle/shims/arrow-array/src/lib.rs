//! What `parse.rs` names of arrow-array: names of types, checked operations, and a `Tz` that reads offsets within RFC 3339's ranges.
use arrow_schema::ArrowError;

pub trait ArrowNativeTypeOp: arrow_buffer::ArrowNativeType {
    const ZERO: Self;
    const ONE: Self;
    fn is_zero(self) -> bool;
    fn add_checked(self, rhs: Self) -> Result<Self, ArrowError>;
    fn sub_checked(self, rhs: Self) -> Result<Self, ArrowError>;
    fn mul_checked(self, rhs: Self) -> Result<Self, ArrowError>;
    fn add_wrapping(self, rhs: Self) -> Self;
    fn sub_wrapping(self, rhs: Self) -> Self;
}

fn over<T>() -> Result<T, ArrowError> {
    Err(ArrowError::ArithmeticOverflow(String::new()))
}

macro_rules! native_type_op {
    ($($t:ty),*) => {
        $(impl ArrowNativeTypeOp for $t {
            const ZERO: Self = 0;
            const ONE: Self = 1;
            fn is_zero(self) -> bool {
                self == 0
            }
            fn add_checked(self, rhs: Self) -> Result<Self, ArrowError> {
                self.checked_add(rhs).map_or_else(over, Ok)
            }
            fn sub_checked(self, rhs: Self) -> Result<Self, ArrowError> {
                self.checked_sub(rhs).map_or_else(over, Ok)
            }
            fn mul_checked(self, rhs: Self) -> Result<Self, ArrowError> {
                self.checked_mul(rhs).map_or_else(over, Ok)
            }
            fn add_wrapping(self, rhs: Self) -> Self {
                self.wrapping_add(rhs)
            }
            fn sub_wrapping(self, rhs: Self) -> Self {
                self.wrapping_sub(rhs)
            }
        })*
    };
}
native_type_op!(i32, i64, i128);

pub mod types {
    use super::ArrowNativeTypeOp;

    pub trait ArrowPrimitiveType {
        type Native;
    }

    /// Nothing implements it: decimal columns are not compared.
    pub trait DecimalType: ArrowPrimitiveType<Native: ArrowNativeTypeOp + 'static> {
        const MAX_PRECISION: u8;
        const PREFIX: &'static str;
        const MAX_FOR_EACH_PRECISION: &'static [Self::Native];
        fn is_valid_decimal_precision(value: Self::Native, precision: u8) -> bool;
    }

    macro_rules! types {
        ($($name:ident: $native:ty),* $(,)?) => {
            $(pub struct $name;
            impl ArrowPrimitiveType for $name {
                type Native = $native;
            })*
        };
    }
    types! {
        Float16Type: half::f16, Float32Type: f32, Float64Type: f64,
        Int8Type: i8, Int16Type: i16, Int32Type: i32, Int64Type: i64,
        UInt8Type: u8, UInt16Type: u16, UInt32Type: u32, UInt64Type: u64,
        TimestampSecondType: i64, TimestampMillisecondType: i64, TimestampMicrosecondType: i64, TimestampNanosecondType: i64,
        Date32Type: i32, Date64Type: i64,
        Time32SecondType: i32, Time32MillisecondType: i32, Time64MicrosecondType: i64, Time64NanosecondType: i64,
        DurationSecondType: i64, DurationMillisecondType: i64, DurationMicrosecondType: i64, DurationNanosecondType: i64,
        IntervalYearMonthType: i32, IntervalDayTimeType: (i32, i32), IntervalMonthDayNanoType: (i32, i32, i64),
    }

    impl IntervalYearMonthType {
        pub fn make_value(years: i32, months: i32) -> i32 {
            years * 12 + months
        }
    }

    impl IntervalDayTimeType {
        pub fn make_value(days: i32, millis: i32) -> (i32, i32) {
            (days, millis)
        }
    }

    impl IntervalMonthDayNanoType {
        pub fn make_value(months: i32, days: i32, nanos: i64) -> (i32, i32, i64) {
            (months, days, nanos)
        }
    }
}

pub mod timezone {
    use arrow_schema::ArrowError;
    use chrono::{FixedOffset, LocalResult, NaiveDate, NaiveDateTime, TimeZone};

    /// An offset of hours to 23 and minutes to 59, held by chrono. What else is refused tells its step: no offset's shape, or out of range.
    /// The Rust's own reads zone names too, if it is built so, and what it says of the rest is not known here.
    #[derive(Clone, Copy, Debug)]
    pub struct Tz(FixedOffset);

    impl std::str::FromStr for Tz {
        type Err = ArrowError;

        fn from_str(s: &str) -> Result<Self, ArrowError> {
            let refused = |why: &str| ArrowError::ParseError(format!("{why}: {s}"));
            let (east, figures) = match s.as_bytes() {
                [b'+', figures @ ..] => (1, figures),
                [b'-', figures @ ..] => (-1, figures),
                _ => return Err(refused("no time zone")),
            };
            let (h, m) = match figures {
                [h, i] => ([h, i], [&b'0'; 2]),
                [h, i, m, n] | [h, i, b':', m, n] => ([h, i], [m, n]),
                _ => return Err(refused("no time zone")),
            };
            if h.iter().chain(&m).any(|b| !b.is_ascii_digit()) {
                return Err(refused("no time zone"));
            }
            let number = |[a, b]: [&u8; 2]| i32::from(a - b'0') * 10 + i32::from(b - b'0');
            if number(h) > 23 || number(m) > 59 {
                return Err(refused("offset out of range"));
            }
            let offset = FixedOffset::east_opt(east * (number(h) * 3_600 + number(m) * 60));
            offset.map(Tz).ok_or_else(|| refused("not held by chrono"))
        }
    }

    impl TimeZone for Tz {
        type Offset = FixedOffset;

        fn from_offset(offset: &FixedOffset) -> Self {
            Tz(*offset)
        }
        fn offset_from_local_date(&self, local: &NaiveDate) -> LocalResult<FixedOffset> {
            self.0.offset_from_local_date(local)
        }
        fn offset_from_local_datetime(&self, local: &NaiveDateTime) -> LocalResult<FixedOffset> {
            self.0.offset_from_local_datetime(local)
        }
        fn offset_from_utc_date(&self, utc: &NaiveDate) -> FixedOffset {
            self.0.offset_from_utc_date(utc)
        }
        fn offset_from_utc_datetime(&self, utc: &NaiveDateTime) -> FixedOffset {
            self.0.offset_from_utc_datetime(utc)
        }
    }
}
