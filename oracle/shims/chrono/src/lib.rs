//! Debian's chrono 0.4.23, and the three items of later versions that `parse.rs` names.
pub use real::*;

/// `NaiveTime::MIN`, since 0.4.24.
pub trait Midnight {
    const MIN: NaiveTime;
}

impl Midnight for NaiveTime {
    const MIN: NaiveTime = MIDNIGHT;
}

// chrono 0.4.23 has no constant constructor of a time: its two 32-bit fields, both 0 (`midnight` below sees that).
const MIDNIGHT: NaiveTime = unsafe { std::mem::transmute::<[u32; 2], NaiveTime>([0, 0]) };

/// `NaiveDateTime::and_utc`, since 0.4.25.
pub trait AndUtc {
    fn and_utc(&self) -> DateTime<Utc>;
}

impl AndUtc for NaiveDateTime {
    fn and_utc(&self) -> DateTime<Utc> {
        DateTime::from_utc(*self, Utc)
    }
}

/// `DateTime::timestamp_nanos_opt`, since 0.4.31: below zero it counts back from the next second, so that all 64 bits are reached.
pub trait NanosOpt {
    fn timestamp_nanos_opt(&self) -> Option<i64>;
}

impl NanosOpt for DateTime<Utc> {
    fn timestamp_nanos_opt(&self) -> Option<i64> {
        let mut seconds = self.timestamp();
        let mut nanos = self.timestamp_subsec_nanos() as i64;
        if seconds < 0 {
            nanos -= 1_000_000_000;
            seconds += 1;
        }
        seconds.checked_mul(1_000_000_000)?.checked_add(nanos)
    }
}

pub mod prelude {
    pub use super::{AndUtc, Midnight, NanosOpt};
    pub use real::prelude::*;
}

#[cfg(test)]
mod tests {
    use super::prelude::*;

    #[test]
    fn midnight() {
        assert_eq!(NaiveTime::MIN, NaiveTime::from_hms_opt(0, 0, 0).unwrap());
    }

    /// chrono's calendar beside a plain count of days, from year -400 to 10400.
    #[test]
    fn calendar() {
        let leap = |y: i32| y % 4 == 0 && (y % 100 != 0 || y % 400 == 0);
        let mut day = (NaiveDate::from_ymd_opt(-400, 1, 1).unwrap() - NaiveDate::from_ymd_opt(1970, 1, 1).unwrap()).num_days();
        assert_eq!(day, -(719_528 + 146_097));
        for y in -400..=10_400 {
            for (i, n) in [31, 28, 31, 30, 31, 30, 31, 31, 30, 31, 30, 31].into_iter().enumerate() {
                let n = n + (i == 1 && leap(y)) as u32;
                for d in 1..=n {
                    let date = NaiveDate::from_ymd_opt(y, i as u32 + 1, d).unwrap();
                    assert_eq!(date.and_time(NaiveTime::MIN).and_utc().timestamp(), day * 86_400);
                    day += 1;
                }
                assert!(NaiveDate::from_ymd_opt(y, i as u32 + 1, n + 1).is_none());
            }
        }
    }

    #[test]
    fn ends_of_64_bits() {
        let at = |s: i64, n: u32| NaiveDateTime::from_timestamp_opt(s, n).unwrap().and_utc().timestamp_nanos_opt();
        assert_eq!(at(9_223_372_036, 854_775_807), Some(i64::MAX));
        assert_eq!(at(9_223_372_036, 854_775_808), None);
        assert_eq!(at(-9_223_372_037, 145_224_192), Some(i64::MIN));
        assert_eq!(at(-9_223_372_037, 145_224_191), None);
        assert_eq!(at(-1, 999_999_999), Some(-1));
    }
}
