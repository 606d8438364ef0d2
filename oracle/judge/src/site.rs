//! The site stamp, which is not in the Rust: the Rust's answer to the text with the mark of second 60, and 12 for a text that is not written
//! as document 01 and document 02, No. 5, write its value. The library looks at the text, the texts compared with are made here of the value.
use crate::{library, rust_bytes, Answer, One, Reader, Refused, Two};
use chrono::{NaiveDateTime, Timelike};

/// The value as a site stamp with so many fraction digits, and perhaps by a second 60: 23:59:60 of 30 June and of 31 December.
fn written(nanos: i64, digits: usize) -> [Option<String>; 2] {
    let (seconds, part) = (nanos.div_euclid(1_000_000_000), format!(".{:09}", nanos.rem_euclid(1_000_000_000)));
    let fraction = if digits == 0 { "" } else { &part[..=digits] };
    let at = |seconds| NaiveDateTime::from_timestamp_opt(seconds, 0).unwrap();
    let before = at(seconds - 1).format("%Y-%m-%dT%H:%M").to_string();
    let ends = at(seconds).second() == 0 && ["-06-30T23:59", "-12-31T23:59"].iter().any(|end| before.ends_with(end));
    [Some(format!("{}{fraction}Z", at(seconds).format("%Y-%m-%dT%H:%M:%S"))), ends.then(|| format!("{before}:60{fraction}Z"))]
}

fn wanted(text: &[u8]) -> Answer {
    let answer = rust_bytes(Reader::StringToTimestampNanos, text);
    let One(z) = answer else { return answer };
    let digits = match text.len() {
        20 => 0,
        n @ 22..=30 => n - 21,
        _ => return Refused(Some(12)),
    };
    let by = written(z, digits).iter().position(|site| site.as_ref().is_some_and(|site| site.as_bytes() == text));
    // The second of the two is by a second 60.
    by.map_or(Refused(Some(12)), |leap| Two(z, leap as i64))
}

/// Site stamps compared: all, accepted, of these by a second 60, refused with 12, different.
#[derive(Clone, Copy, Default)]
pub struct Sites {
    pub compared: u64,
    pub accepted: u64,
    pub second_60: u64,
    pub no_site: u64,
    pub differ: u64,
}

impl std::ops::AddAssign for Sites {
    fn add_assign(&mut self, of: Self) {
        self.compared += of.compared;
        self.accepted += of.accepted;
        self.second_60 += of.second_60;
        self.no_site += of.no_site;
        self.differ += of.differ;
    }
}

impl Sites {
    pub fn site(&mut self, text: &[u8]) {
        let (want, ours) = (wanted(text), library::site_stamp(text));
        let accepted = matches!(want, Two(..));
        self.compared += 1;
        self.accepted += accepted as u64;
        self.second_60 += matches!(want, Two(_, 1)) as u64;
        self.no_site += (want == Refused(Some(12))) as u64;
        if ours != want {
            self.differ += 1;
            if self.differ <= 20 {
                println!("differ: site stamp {:?}: wanted {want:?} library {ours:?}", String::from_utf8_lossy(text));
            }
        }
    }
}

/// Each day of some years and some that are none, at second 60 of some minutes, at seconds beside it, and with what is no site stamp.
pub fn on_each_day(mut on: impl FnMut(&[u8])) {
    for year in ["0000", "1677", "1700", "1969", "1972", "2000", "2015", "2016", "2100", "2262"] {
        for (month, day) in (0..14).flat_map(|month| (0..33).map(move |day| (month, day))) {
            for clock in ["T23:59:60", "T23:59:59", "T23:59:61", "T23:58:60", "T22:59:60", "T00:00:60", "T235960", "t23:59:60", " 23:59:60"] {
                for tail in ["Z", ".5Z", ".000Z", ".123456789Z", ".1234567890Z", ".Z", "z", "", "ZZ"] {
                    on(format!("{year}-{month:02}-{day:02}{clock}{tail}").as_bytes());
                }
            }
        }
    }
}
