//! Records of intervals, converted by the library and by Rust's `from_le_bytes` and `to_le_bytes`, each at its own place, in 128 bits.
use crate::library::raw::{cullpethi_day_time_to_month_day_nano, cullpethi_month_day_nano_to_day_time};

/// Bytes of an old record and of a new one.
pub const OLD: usize = 8;
pub const NEW: usize = 16;

/// What a conversion answers; 254 where a byte or the index is not as a call must leave it.
#[derive(Debug, PartialEq, Eq)]
pub enum Converted {
    All(Vec<u8>),
    Stays(usize),
    NotRead(u8),
}
use Converted::{All, NotRead, Stays};

/// What each byte of a buffer holds before a call, and what the index does.
const BEFORE: u8 = 0xA5;
const NOWHERE: usize = usize::MAX;
/// Bytes behind the buffer, which are not lent.
const BEHIND: usize = 8;

pub fn old(days: i32, millis: i32) -> Vec<u8> {
    [days.to_le_bytes(), millis.to_le_bytes()].concat()
}

pub fn new(months: i32, days: i32, nanos: i64) -> Vec<u8> {
    let nanos = nanos.to_le_bytes();
    [&months.to_le_bytes(), &days.to_le_bytes(), &nanos[..]].concat()
}

fn number32(bytes: &[u8]) -> i32 {
    i32::from_le_bytes(bytes.try_into().unwrap())
}

fn to_new(record: &[u8]) -> Option<Vec<u8>> {
    let nanos = i128::from(number32(&record[4..])) * 1_000_000;
    Some(new(0, number32(&record[..4]), nanos.try_into().unwrap()))
}

fn to_old(record: &[u8]) -> Option<Vec<u8>> {
    let nanos = i128::from(i64::from_le_bytes(record[8..].try_into().unwrap()));
    let millis = i32::try_from(nanos.div_euclid(1_000_000)).ok()?;
    (number32(&record[..4]) == 0 && nanos.rem_euclid(1_000_000) == 0).then(|| old(number32(&record[4..8]), millis))
}

/// Document 02's answer: 16, then 14, then each record in turn.
fn wanted(from: &[u8], room: usize, back: bool) -> Converted {
    let (size, other) = if back { (NEW, OLD) } else { (OLD, NEW) };
    if from.len() % size != 0 {
        return NotRead(16);
    }
    if room < from.len() / size * other {
        return NotRead(14);
    }
    let mut all = vec![];
    for (i, record) in from.chunks(size).enumerate() {
        match if back { to_old(record) } else { to_new(record) } {
            Some(bytes) => all.extend(bytes),
            None => return Stays(i),
        }
    }
    All(all)
}

/// The library's answer with a buffer of so many bytes.
fn called(from: &[u8], room: usize, back: bool) -> Converted {
    let mut to = vec![BEFORE; room + BEHIND];
    let mut index = NOWHERE;
    // SAFETY: the records are lent for the call, the buffer to it alone, and the index is a local.
    let status = unsafe {
        match back {
            true => cullpethi_month_day_nano_to_day_time(from.as_ptr(), from.len(), to.as_mut_ptr(), room, &mut index),
            false => cullpethi_day_time_to_month_day_nano(from.as_ptr(), from.len(), to.as_mut_ptr(), room),
        }
    };
    let written = if back { from.len() / 2 } else { from.len() * 2 };
    let kept = |at: usize| to[at..].iter().all(|&b| b == BEFORE);
    match status {
        0 if index == NOWHERE && written <= room && kept(written) => All(to[..written].to_vec()),
        11 if index != NOWHERE && kept(0) => Stays(index),
        n @ (14 | 16) if index == NOWHERE && kept(0) => NotRead(n),
        _ => NotRead(254),
    }
}

/// Conversions compared: all, of them converted, with a record that stays, with a buffer too short, of no whole number of records; slices that
/// came back as they were; and what differs.
#[derive(Clone, Copy, Default)]
pub struct Conversions {
    pub compared: u64,
    pub converted: u64,
    pub stays: u64,
    pub too_short: u64,
    pub uneven: u64,
    pub came_back: u64,
    pub differ: u64,
}

impl Conversions {
    fn differs(&mut self, how: impl FnOnce() -> String) {
        self.differ += 1;
        if self.differ <= 20 {
            println!("differ: {}", how());
        }
    }

    /// One call; what was converted is converted back.
    fn call(&mut self, from: &[u8], room: usize, back: bool) {
        let (want, ours) = (wanted(from, room, back), called(from, room, back));
        self.compared += 1;
        *match want {
            All(_) => &mut self.converted,
            Stays(_) => &mut self.stays,
            NotRead(14) => &mut self.too_short,
            NotRead(_) => &mut self.uneven,
        } += 1;
        if ours != want {
            self.differs(|| format!("records {from:02x?} into {room} bytes, back {back}: wanted {want:02x?} library {ours:02x?}"));
        }
        if let All(there) = ours {
            self.compared += 1;
            self.came_back += 1;
            if called(&there, from.len(), !back) != All(from.to_vec()) {
                self.differs(|| format!("records {from:02x?} did not come back, back {back}"));
            }
        }
    }

    /// A slice of records one way, with a buffer of just enough, one byte less, some bytes more and some length below.
    pub fn slice(&mut self, from: &[u8], back: bool) {
        let enough = if back { from.len() / 2 } else { from.len() * 2 };
        let below = self.compared as usize % (enough + 1);
        for room in [enough, enough.saturating_sub(1), enough + 1 + below % 33, below] {
            self.call(from, room, back);
        }
    }
}
