//! Texts for the comparison: every shape, the limits on both sides, damage, white space, long texts; and records. Seeded.
use crate::records::{new, old, NEW, OLD};

/// A family of texts, which its readers are tried on.
#[derive(Clone, Copy, Debug, PartialEq, Eq)]
pub enum Family {
    Stamp,
    Time,
    Date,
    Interval,
}

pub struct Generator(u64);

const WHITE: [char; 25] = [
    '\t', '\n', '\x0B', '\x0C', '\r', ' ', '\u{85}', '\u{A0}', '\u{1680}', '\u{2000}', '\u{2001}', '\u{2002}', '\u{2003}', '\u{2004}',
    '\u{2005}', '\u{2006}', '\u{2007}', '\u{2008}', '\u{2009}', '\u{200A}', '\u{2028}', '\u{2029}', '\u{202F}', '\u{205F}', '\u{3000}',
];

pub const UNITS: &[&str] = &[
    "c", "cent", "cents", "century", "centuries", "dec", "decs", "decade", "decades", "y", "yr", "yrs", "year", "years", "mon", "mons",
    "month", "months", "w", "week", "weeks", "d", "day", "days", "h", "hr", "hrs", "hour", "hours", "m", "min", "mins", "minute", "minutes",
    "s", "sec", "secs", "second", "seconds", "ms", "msec", "msecs", "msecond", "mseconds", "millisecond", "milliseconds", "us", "usec",
    "usecs", "usecond", "useconds", "microsecond", "microseconds", "nanosecond", "nanoseconds",
];

/// Where each unit's spellings begin in `UNITS`, from century to nanosecond, and their end.
const FIRST: [usize; 13] = [0, 5, 9, 14, 18, 21, 24, 29, 34, 39, 46, 53, 55];

/// Numbers at which something stops fitting.
const LIMITS: &[i128] = &[
    0, 1, 7, 10, 12, 30, 999, 1000, 86_400, 1_789_569, 17_895_697, 71_582_788, 153_722_867, 178_956_970, 306_783_378, 2_562_047,
    2_147_483_647, 4_294_967_295, 9_223_372_036, 9_223_372_036_854, 9_223_372_036_854_775, 9_223_372_036_854_775_807,
    18_446_744_073_709_551_615,
];

/// What is no amount, and what is no unit; some of it is cut in two.
const NO_AMOUNTS: &[&str] =
    &["", "-", ".", "-.", "1-2", "1-", "--1", "1.2.3", "1..2", "+1", "0.1234567890123456", "-99999999999999999999", "1e3", "\u{212A}1"];
const NO_UNITS: &[&str] = &["", "x", "dayz", "2day", "day2", "5", "-", "1.5", "\u{212A}", "wee\u{212A}\u{212A}", "é", "dayſ", "🕐"];

/// Units that add up to the same count, with how many of it each is, and the most that it holds.
const ALIKE: &[(&[(&str, i128)], i128)] = &[
    (&[("centuries", 1_200), ("dec", 120), ("y", 12), ("mons", 1)], i32::MAX as i128),
    (&[("wee\u{212A}s", 7), ("d", 1)], i32::MAX as i128),
    (&[("h", 3_600_000_000_000), ("m", 60_000_000_000), ("s", 1_000_000_000), ("us", 1_000), ("nanoseconds", 1)], i64::MAX as i128),
];

/// Amounts and units, as yet apart.
type Components = Vec<(String, String)>;

/// Texts from which damage starts.
pub const EDGES: &[&str] = &[
    "2262-04-11T23:47:16.854775807", "1677-09-21T00:12:43.145224192", "1969-12-31T23:59:59.5", "1969-12-31T23:59:59.0005",
    "1997-01-31 092656+04:00", "2020-1-1xy", "+5881580-07-11", "-5877641-06-23", "+2147483647-01-01", "-2147483648-12-31", "0000-01-01",
    "9999-12-31T23:59:60.999999999Z", "2262-04-12T00:47:16.854775807+01:00", "1677-09-20T23:12:43.145224192-01",
    "0000-01-01T00:00:00+00:01", "9999-12-31T23:59:59-00:01", "2020-01-01T23:59:60\u{3000}-0001", "23:59:60", "12:00 AM", "0:00 AM", "1234", "306783378 weeks -2 days 0.1 months", "1 day 2",
    "1.000000000000000 days", "2147483647", "-2147483648", "9223372036854775807", "-9223372036854775808",
];

impl Generator {
    pub fn new(seed: u64) -> Self {
        Generator(seed)
    }

    pub fn next(&mut self) -> u64 {
        self.0 = self.0.wrapping_add(0x9E37_79B9_7F4A_7C15);
        let mut z = self.0;
        z = (z ^ (z >> 30)).wrapping_mul(0xBF58_476D_1CE4_E5B9);
        z = (z ^ (z >> 27)).wrapping_mul(0x94D0_49BB_1331_11EB);
        z ^ (z >> 31)
    }

    pub fn below(&mut self, n: u64) -> u64 {
        ((self.next() as u128 * n as u128) >> 64) as u64
    }

    fn one_in(&mut self, n: u64) -> bool {
        self.below(n) == 0
    }

    fn pick<'a, T: ?Sized>(&mut self, of: &[&'a T]) -> &'a T {
        of[self.below(of.len() as u64) as usize]
    }

    pub fn digits(&mut self, n: u64) -> String {
        (0..n).map(|_| (b'0' + self.below(10) as u8) as char).collect()
    }

    fn limit(&mut self) -> i128 {
        LIMITS[self.below(LIMITS.len() as u64) as usize] + self.below(5) as i128 - 2
    }

    fn year(&mut self) -> u64 {
        match self.below(4) {
            0 => self.below(10_000),
            1 => 1965 + self.below(70),
            2 => [1677, 1678, 2262, 1969, 1970, 2000, 1900, 0, 9999, 2263][self.below(10) as usize],
            _ => 1600 + self.below(800),
        }
    }

    fn date(&mut self) -> String {
        format!("{:04}-{:02}-{:02}", self.year(), self.below(14).max(self.below(2)), self.below(33))
    }

    fn clock(&mut self) -> String {
        let (h, m, s) = (self.below(25), self.below(61), self.below(62));
        if self.one_in(6) {
            return format!("{h:02}{m:02}{s:02}");
        }
        format!("{h:02}:{m:02}:{s:02}{}", self.fraction())
    }

    fn fraction(&mut self) -> String {
        match self.below(8) {
            0..=2 => String::new(),
            3 => ".".into(),
            4 => {
                let n = 9 + self.below(30);
                format!(".{}", self.digits(n))
            }
            _ => {
                let n = 1 + self.below(10);
                format!(".{}", self.digits(n))
            }
        }
    }

    fn stamp(&mut self) -> String {
        let date = self.date();
        if self.one_in(12) {
            return date;
        }
        let separator = self.pick(&["T", "T", "T", " ", " ", "t", "_", "  ", ""]);
        let clock = self.clock();
        let tail = match self.below(3) {
            0 => self.offset(),
            _ => self.pick(&["", "", "", "Z", "Z", "z", " ", "ZZ", " Z", " UTC", "Zz", "x", "é", "."]).to_string(),
        };
        format!("{date}{separator}{clock}{tail}")
    }

    /// An offset, as a rule in range and of its shape: white space or what looks like it, a sign, hours and minutes.
    fn offset(&mut self) -> String {
        let white: String = match self.below(8) {
            0..=3 => String::new(),
            4 => " ".into(),
            5 => (0..1 + self.below(3)).map(|_| self.white()).collect(),
            6 => self.white().to_string(),
            _ => self.pick(&["\u{200B}", "\u{180E}", "\u{FEFF}", "_"]).into(),
        };
        let sign = if self.one_in(12) { self.pick(&["", "\u{2212}", "\u{B1}", "++", "+-"]) } else { self.pick(&["+", "-"]) };
        let hours = if self.one_in(8) { 22 + self.below(78) } else { self.below(24) };
        let minutes = if self.one_in(8) { 57 + self.below(43) } else { self.below(60) };
        let figures = match self.below(16) {
            0..=6 => format!("{hours:02}:{minutes:02}"),
            7..=9 => format!("{hours:02}{minutes:02}"),
            10..=12 => format!("{hours:02}"),
            13 => format!("{hours}:{minutes}"),
            14 => self.pick(&["", "0", "00:", "00:0", "000", "00:00:00", "000000", "00.00", "0:000", "UTC", ":00"]).into(),
            _ => format!("{hours:02}:{minutes:02}{}", self.pick(&["Z", " ", "x", "\u{3000}", "0"])),
        };
        format!("{white}{sign}{figures}")
    }

    fn time(&mut self) -> String {
        if self.one_in(8) {
            return self.limit().to_string();
        }
        let hour = self.below(25);
        let hour = if self.one_in(2) { format!("{hour:02}") } else { hour.to_string() };
        let minute = self.below(61);
        let second = match self.below(3) {
            0 => String::new(),
            _ => format!(":{:02}{}", self.below(62), self.fraction()),
        };
        let ending = self.pick(&["", "", "", " AM", " PM", " am", " pm", " aM", " Pm", "AM", " A", "  PM", " XM"]);
        format!("{hour}:{minute:02}{second}{ending}")
    }

    fn day(&mut self) -> String {
        match self.below(6) {
            0 => format!("{:04}{:02}{:02}", self.year(), self.below(14), self.below(33)),
            1 => format!("{:04}-{}-{}", self.year(), self.below(14), self.below(33)),
            2 => {
                let tail = self.pick(&["x", "xy", " ", "é", "Z", "1", "-", "T1"]);
                format!("{:04}-{}-{}{tail}", self.year(), self.below(14), self.below(33))
            }
            3 => {
                let year = if self.one_in(2) { self.limit() } else { 5_877_600 + self.below(4_000) as i128 };
                let (plus, zeros) = (self.pick(&["", "", "+"]), self.pick(&["", "", "0", "000"]));
                format!("{}{year}-{plus}{zeros}{}-{}", self.pick(&["+", "-"]), self.below(14), self.below(33))
            }
            4 => self.date(),
            _ => self.stamp(),
        }
    }

    fn amount(&mut self) -> String {
        let sign = self.pick(&["", "", "", "-", "-", "+", "--"]);
        let whole = match self.below(6) {
            0 => self.limit().to_string(),
            1 => {
                let n = self.below(21);
                self.digits(n)
            }
            2 => String::new(),
            _ => self.below(100).to_string(),
        };
        let fraction = match self.below(6) {
            0 => {
                let n = 13 + self.below(5);
                format!(".{}", self.digits(n))
            }
            1 | 2 => {
                let n = self.below(8);
                format!(".{}", self.digits(n))
            }
            _ => String::new(),
        };
        format!("{sign}{whole}{fraction}")
    }

    fn unit(&mut self) -> String {
        let unit = self.pick(UNITS);
        self.in_cases(unit)
    }

    /// A spelling of the unit of that rank.
    fn spelled(&mut self, rank: usize) -> String {
        let unit = self.pick(&UNITS[FIRST[rank]..FIRST[rank + 1]]);
        self.in_cases(unit)
    }

    fn in_cases(&mut self, unit: &str) -> String {
        let how = self.below(4);
        unit.chars()
            .map(|c| match how {
                0 if c == 'k' => '\u{212A}',
                1 => c.to_ascii_uppercase(),
                2 if self.one_in(2) => c.to_ascii_uppercase(),
                _ => c,
            })
            .collect()
    }

    fn white(&mut self) -> char {
        if self.one_in(2) { ' ' } else { WHITE[self.below(25) as usize] }
    }

    fn interval(&mut self) -> String {
        if self.one_in(4) { self.loose_interval() } else { self.divided_interval() }
    }

    /// An amount of the grammar, as a rule small.
    fn plain_amount(&mut self) -> String {
        let whole = match self.below(16) {
            0 => self.limit().unsigned_abs().to_string(),
            1 => format!("{:03}", self.below(10_000)),
            _ => self.below(100).to_string(),
        };
        let n = [1, 1, 2, 3, 15][self.below(5) as usize];
        let fraction = match self.below(12) {
            0 => return format!("{}.{}", self.pick(&["", "-"]), self.digits(n)),
            1 | 2 => format!(".{}", self.digits(n)),
            _ => String::new(),
        };
        format!("{}{whole}{fraction}", self.pick(&["", "", "-"]))
    }

    /// An interval that has a division, with each unit once: of one in three years and months alone, of most nothing below milliseconds.
    fn divided_interval(&mut self) -> String {
        let among = [0..4, 0..4, 3..10, 3..10, 4..9, 0..12][self.below(6) as usize].clone();
        let mut ranks: Vec<usize> = among.collect();
        let n = if self.one_in(20) { ranks.len() } else { 1 + self.below(3) as usize };
        let mut text = String::new();
        for i in 0..n {
            let rank = ranks.swap_remove(self.below(ranks.len() as u64) as usize);
            if i > 0 {
                text.push(self.white());
            }
            text += &self.plain_amount();
            if i + 1 == n && self.one_in(8) {
                break;
            }
            if !self.one_in(3) {
                text.push(self.white());
            }
            text += &self.spelled(rank);
        }
        text
    }

    /// Amounts and units with what the grammar does not have: signs, white space, components without a unit, units twice.
    fn loose_interval(&mut self) -> String {
        let mut text = String::new();
        let n = if self.one_in(20) { self.below(14) } else { 1 + self.below(4) };
        for i in 0..n {
            if i > 0 && !self.one_in(12) {
                for _ in 0..1 + self.below(8) / 6 {
                    text.push(self.white());
                }
            }
            text += &self.amount();
            if !self.one_in(4) {
                text.push(self.white());
            }
            if i + 1 < n || !self.one_in(5) {
                text += &self.unit();
            }
        }
        text
    }

    fn damage(&mut self, text: &mut Vec<u8>) {
        let at = self.below(text.len() as u64 + 1) as usize;
        match self.below(8) {
            0 if at < text.len() => text[at] = self.next() as u8,
            1 if at < text.len() => drop(text.remove(at)),
            2 => text.insert(at, self.next() as u8),
            3 => text.truncate(at),
            4 => {
                let white = self.white();
                let bytes = white.to_string().into_bytes();
                text.splice(at..at, bytes);
            }
            5 => {
                let c = char::from_u32(self.below(0x11_0000) as u32).unwrap_or('\u{FFFD}');
                let bytes = c.to_string().into_bytes();
                text.splice(at..at, bytes);
            }
            6 if at < text.len() => text[at] = b"0123456789-:. +TZ"[self.below(17) as usize],
            _ => text.insert(at, b"0123456789-:. +TZ"[self.below(17) as usize]),
        }
    }

    /// A text of a family, now and then damaged, padded or long; intervals less often, since hardly one survives it.
    pub fn text(&mut self, family: Family) -> Vec<u8> {
        let rarer = if family == Family::Interval { 2 } else { 1 };
        let mut text = match (self.below(24), family) {
            (0, _) => self.pick(EDGES).to_string(),
            (_, Family::Stamp) => self.stamp(),
            (_, Family::Time) => self.time(),
            (_, Family::Date) => self.day(),
            (_, Family::Interval) => self.interval(),
        }
        .into_bytes();
        if self.one_in(3 * rarer) {
            for _ in 0..1 + self.below(8) / 5 {
                self.damage(&mut text);
            }
        }
        if self.one_in(8 * rarer) {
            let pads = self.pick(&[" ", "\t", "\n", "\r", "\x0C", "\x0B", "  "]).as_bytes().to_vec();
            if self.one_in(2) {
                text.splice(0..0, pads);
            } else {
                text.extend(pads);
            }
        }
        if self.one_in(20_000) {
            let byte = b"0 1aZ"[self.below(5) as usize];
            let at = self.below(text.len() as u64 + 1) as usize;
            let n = self.below(5_000) as usize;
            text.splice(at..at, vec![byte; n]);
        }
        text
    }
}

/// 0, 1, each power of ten and one less, with either sign, the least and the greatest.
pub fn extremes(least: i64, greatest: i64) -> Vec<i64> {
    let powers = (0..19).map(|k| 10_i64.pow(k)).filter(|power| *power <= greatest);
    let mut all: Vec<i64> = powers.flat_map(|power| [power, power - 1, -power, 1 - power]).chain([least, greatest]).collect();
    all.sort();
    all.dedup();
    all
}

/// Intervals to print.
impl Generator {
    /// A count of at most so many bits, each width as often.
    fn count(&mut self, bits: u64) -> i64 {
        let width = 1 + self.below(bits);
        self.next() as i64 >> (64 - width)
    }

    /// Months, days and nanoseconds, any of them left out.
    pub fn counts(&mut self) -> (i32, i32, i64) {
        let out = self.below(8);
        let mut count = |bit: u64, bits: u64| if out & bit == 0 { self.count(bits) } else { 0 };
        (count(1, 32) as i32, count(2, 32) as i32, count(4, 64))
    }
}

/// Records of intervals.
impl Generator {
    /// Up to eight old records, and now and then a part of one more.
    pub fn old_records(&mut self) -> Vec<u8> {
        let mut all: Vec<u8> = (0..self.below(9)).flat_map(|_| old(self.count(32) as i32, self.count(32) as i32)).collect();
        self.part(&mut all, OLD);
        all
    }

    /// Up to eight new records, of which one may have no old one, and now and then a part of one more.
    pub fn new_records(&mut self) -> Vec<u8> {
        let count = self.below(9);
        let (odd, any) = (self.below(2 * count + 1), self.below(8) == 0);
        let mut all: Vec<u8> = (0..count).flat_map(|i| if any || i == odd { self.new_record() } else { self.going() }).collect();
        self.part(&mut all, NEW);
        all
    }

    fn going(&mut self) -> Vec<u8> {
        new(0, self.count(32) as i32, self.count(32) * 1_000_000)
    }

    /// A record that has an old one, or months, a remainder, more milliseconds than fit, perhaps by one; or any.
    fn new_record(&mut self) -> Vec<u8> {
        let (days, small) = (self.count(32) as i32, self.below(5) as i64 - 2);
        let end = [i32::MIN, i32::MAX][self.below(2) as usize] as i64;
        match self.below(6) {
            0 => new(self.count(32) as i32, days, self.count(32) * 1_000_000),
            1 => new(0, days, self.count(32) * 1_000_000 + small),
            2 => new(0, days, (end + small) * 1_000_000),
            3 => new(0, days, end * 1_000_000 + small),
            4 => new(0, days, self.count(64)),
            _ => {
                let (months, days, nanos) = self.counts();
                new(months, days, nanos)
            }
        }
    }

    /// Now and then a part of one more record.
    fn part(&mut self, all: &mut Vec<u8>, size: usize) {
        if self.below(8) == 0 {
            let more = self.below(size as u64) as usize;
            all.extend((0..more).map(|_| self.next() as u8));
        }
    }
}

/// Intervals with a fault, whose place is to be found.
impl Generator {
    /// A piece that is none in any component, units that come again, a total that does not fit and perhaps recovers; or more than one.
    pub fn faulty_interval(&mut self) -> Vec<u8> {
        let mut all = match self.below(4) {
            0 => self.drawn(),
            1 => self.repeating(),
            _ => self.failing(),
        };
        let spoilt = [0, 0, 1, 1, 2][self.below(5) as usize];
        for _ in 0..spoilt {
            self.spoil(&mut all);
        }
        self.joined(&all).into_bytes()
    }

    fn drawn(&mut self) -> Components {
        (0..1 + self.below(5)).map(|_| (self.plain_amount(), self.unit())).collect()
    }

    /// Three units, and two or three of them again, anywhere.
    fn repeating(&mut self) -> Components {
        let first = self.below(10) as usize;
        let mut all: Components = (first..first + 3).map(|rank| (self.plain_amount(), self.spelled(rank))).collect();
        for _ in 0..2 + self.below(2) {
            let (at, rank) = (self.below(all.len() as u64 + 1) as usize, first + self.below(3) as usize);
            all.insert(at, (self.plain_amount(), self.spelled(rank)));
        }
        all
    }

    /// Amounts around the most of a count, or small, with either sign, in any order; now and then a component of another count among them.
    fn failing(&mut self) -> Components {
        let (units, most) = ALIKE[self.below(ALIKE.len() as u64) as usize];
        let mut all: Components = units.iter().map(|(unit, size)| (self.around(most / size), self.in_cases(unit))).collect();
        (1..all.len()).rev().for_each(|i| all.swap(i, self.below(i as u64 + 1) as usize));
        if self.one_in(3) {
            let at = self.below(all.len() as u64 + 1) as usize;
            all.insert(at, (self.around(3), self.pick(&["month", "ms", "days"]).to_string()));
        }
        all
    }

    fn around(&mut self, most: i128) -> String {
        let whole = match self.below(5) {
            0 | 1 => most - self.below(3) as i128,
            2 => most + 1 + self.below(3) as i128,
            _ => self.below(30) as i128,
        };
        format!("{}{whole}{}", self.pick(&["", "", "-"]), self.pick(&["", "", "", ".1", ".999"]))
    }

    /// Puts a piece that is none in the place of an amount or a unit, in the first, the last or any component.
    fn spoil(&mut self, all: &mut Components) {
        let last = all.len() - 1;
        let at = [0, last, self.below(all.len() as u64) as usize][self.below(3) as usize];
        if self.one_in(2) {
            all[at].0 = self.pick(NO_AMOUNTS).to_string();
        } else {
            all[at].1 = self.pick(NO_UNITS).to_string();
        }
    }

    /// A text of these, with white space of any kind between, now and then at the ends; of one in six the last unit is left out.
    fn joined(&mut self, all: &Components) -> String {
        let mut text = String::new();
        if self.one_in(24) {
            text.push(self.white());
        }
        for (i, (amount, unit)) in all.iter().enumerate() {
            if i > 0 {
                self.gap(&mut text);
            }
            text += amount;
            if i + 1 == all.len() && self.one_in(6) {
                break;
            }
            if self.one_in(2) {
                self.gap(&mut text);
            }
            text += unit;
        }
        if self.one_in(8) {
            self.gap(&mut text);
        }
        text
    }

    /// One white space, seldom two.
    fn gap(&mut self, text: &mut String) {
        for _ in 0..1 + self.below(40) / 39 {
            text.push(self.white());
        }
    }
}
