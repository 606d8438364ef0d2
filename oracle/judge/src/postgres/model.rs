//! Texts that have a division here: the sum of their components, by this library's rules or with some of PostgreSQL's in their place.
use super::Reading;
use arrow_cast::parse::IntervalUnit;

/// A rule of PostgreSQL that differs.
#[derive(Clone, Copy, Debug, PartialEq, Eq, PartialOrd, Ord)]
pub enum Rule {
    /// A last amount without a unit is seconds, here months.
    Default,
    /// A fraction of a year, a decade or a century is rounded to months, here cut.
    Years,
    /// What a month's fraction has beyond whole days goes into the time, here it is dropped.
    Months,
    /// A week's fraction goes into days and time, here into nanoseconds.
    Weeks,
    /// A time is rounded to microseconds.
    Micros,
    /// A time has 64 bits of microseconds, here of nanoseconds.
    Range,
    /// Years and months are added up apart, each of 32 bits.
    YearsApart,
    /// The totals run from the last component to the first.
    FromTheLast,
    /// A fraction of a second excludes milliseconds and microseconds.
    FractionOfSecond,
    /// There are no nanoseconds.
    Nanoseconds,
    /// `cents` is no century.
    Cents,
    /// U+212A is no k.
    Kelvin,
    /// White space is ASCII's.
    White,
    /// Behind a minus a digit stands before the point.
    MinusPoint,
    /// Numbers and words have room in 256 bytes, with one behind each.
    Room,
}

pub const RULES: [Rule; 15] = [
    Rule::Default,
    Rule::Years,
    Rule::Months,
    Rule::Weeks,
    Rule::Micros,
    Rule::Range,
    Rule::YearsApart,
    Rule::FromTheLast,
    Rule::FractionOfSecond,
    Rule::Nanoseconds,
    Rule::Cents,
    Rule::Kelvin,
    Rule::White,
    Rule::MinusPoint,
    Rule::Room,
];

pub struct Component {
    whole: i64,
    /// The digits behind the point.
    fraction: String,
    negative: bool,
    /// The rank of the unit, from century 0 to nanosecond 11.
    unit: Option<u32>,
}

const MONTH: u32 = 3;
const SECOND: u32 = 8;
/// Nanoseconds of a day, and of the units from hour to nanosecond.
const DAY: i128 = 86_400_000_000_000;
const TIMES: [i128; 6] = [3_600_000_000_000, 60_000_000_000, 1_000_000_000, 1_000_000, 1_000, 1];

/// The characters that `take` is true of, cut off the front of a text.
fn front<'a>(s: &mut &'a str, take: impl Fn(char) -> bool) -> &'a str {
    let end = s.find(|c| !take(c)).unwrap_or(s.len());
    let (front, rest) = s.split_at(end);
    *s = rest;
    front
}

/// One character of white space, cut off the front.
fn white(s: &mut &str) -> bool {
    let rest = s.strip_prefix(char::is_whitespace);
    *s = rest.unwrap_or(s);
    rest.is_some()
}

/// The component at the front of a text, by document 01's grammar.
fn component(s: &mut &str) -> Option<Component> {
    let start = *s;
    let negative = s.starts_with('-');
    *s = s.strip_prefix('-').unwrap_or(s);
    let digits = front(s, |c| c.is_ascii_digit()).len();
    let amount = &start[..negative as usize + digits];
    let mut fraction = String::new();
    if let Some(rest) = s.strip_prefix('.') {
        *s = rest;
        fraction = front(s, |c| c.is_ascii_digit()).to_string();
        if !(1..=15).contains(&fraction.len()) {
            return None;
        }
    } else if digits == 0 {
        return None;
    }
    let whole = if digits == 0 { 0 } else { amount.parse().ok()? };
    let white = white(s);
    let word = front(s, |c| !c.is_whitespace() && !c.is_ascii_digit());
    if word.is_empty() && (white || !s.is_empty()) {
        return None;
    }
    let unit = if word.is_empty() { None } else { Some((word.parse::<IntervalUnit>().ok()? as u16).trailing_zeros()) };
    Some(Component { whole, fraction, negative, unit })
}

/// The components of a text, where it has a division.
pub fn divide(text: &str) -> Option<Vec<Component>> {
    let mut s = text;
    let mut all = vec![component(&mut s)?];
    while !s.is_empty() {
        if !white(&mut s) {
            return None;
        }
        all.push(component(&mut s)?);
    }
    Some(all)
}

#[derive(Clone, Copy, Default)]
struct Counts {
    years: i128,
    months: i128,
    days: i128,
    nanos: i128,
}

fn fits(z: i128, bits: u32) -> bool {
    -(1 << (bits - 1)) <= z && z < 1 << (bits - 1)
}

impl Counts {
    /// Whether each count fits; nanoseconds that are microseconds have room for a thousand times as many.
    fn fit(&self, rules: &[Rule]) -> bool {
        let nanos = if rules.contains(&Rule::Range) { self.nanos / 1_000 } else { self.nanos };
        fits(self.years, 32) && fits(self.months, 32) && fits(self.days, 32) && fits(nanos, 64)
    }

    fn plus(self, other: Counts) -> Counts {
        Counts {
            years: self.years + other.years,
            months: self.months + other.months,
            days: self.days + other.days,
            nanos: self.nanos + other.nanos,
        }
    }
}

impl Component {
    fn sign(&self) -> i128 {
        if self.negative { -1 } else { 1 }
    }

    /// The fraction of a unit of so many, cut toward zero.
    fn cut(&self, of: i128) -> i128 {
        let digits = format!("{:0<15}", self.fraction);
        self.sign() * (digits.parse::<i128>().unwrap() * of / 1_000_000_000_000_000)
    }

    /// The fraction as PostgreSQL has it.
    fn float(&self) -> f64 {
        let f = format!("0.{}", self.fraction).parse::<f64>().unwrap_or(0.0);
        if self.negative { -f } else { f }
    }

    /// The fraction of a unit of so many nanoseconds.
    fn time(&self, of: i128, rules: &[Rule]) -> i128 {
        if rules.contains(&Rule::Micros) { micros(self.float(), of) } else { self.cut(of) }
    }

    /// The fraction of so many days, spilled into days and time.
    fn spilled(&self, days: i128, rules: &[Rule]) -> (i128, i128) {
        if !rules.contains(&Rule::Micros) {
            let nanos = self.cut(days * DAY);
            return (nanos / DAY, nanos % DAY);
        }
        let of = self.float() * days as f64;
        (of.trunc() as i128, micros(of - of.trunc(), DAY))
    }

    fn contribution(&self, rules: &[Rule]) -> Counts {
        let has = |r| rules.contains(&r);
        let whole = self.whole as i128;
        let unit = self.unit.unwrap_or(if has(Rule::Default) { SECOND } else { MONTH });
        let mut of = Counts::default();
        match unit {
            0..=2 => {
                let scale = [100, 10, 1][unit as usize];
                let rounded = (self.float() * scale as f64 * 12.0).round_ties_even() as i128;
                let part = if has(Rule::Years) { rounded } else { self.cut(scale * 12) };
                if has(Rule::YearsApart) {
                    (of.years, of.months) = (whole * scale, part);
                } else {
                    of.months = whole * scale * 12 + part;
                }
            }
            3 => {
                let (days, nanos) = self.spilled(30, rules);
                (of.months, of.days, of.nanos) = (whole, days, if has(Rule::Months) { nanos } else { 0 });
            }
            4 if has(Rule::Weeks) => {
                let (days, nanos) = self.spilled(7, rules);
                (of.days, of.nanos) = (whole * 7 + days, nanos);
            }
            4 => (of.days, of.nanos) = (whole * 7, self.time(7 * DAY, rules)),
            5 => (of.days, of.nanos) = (whole, self.time(DAY, rules)),
            _ => of.nanos = whole * TIMES[unit as usize - 6] + self.time(TIMES[unit as usize - 6], rules),
        }
        of
    }
}

/// A fraction of so many nanoseconds, rounded to microseconds as PostgreSQL does.
fn micros(fraction: f64, of: i128) -> i128 {
    let micros = fraction * (of / 1_000) as f64;
    let rest = micros - micros.trunc();
    let round = if rest > 0.5 { 1 } else if rest < -0.5 { -1 } else { 0 };
    (micros.trunc() as i128 + round) * 1_000
}

/// Whether a unit comes twice.
fn repeated(division: &[Component], rules: &[Rule]) -> bool {
    let mut seen = 0u32;
    division.iter().any(|c| {
        let unit = c.unit.unwrap_or(if rules.contains(&Rule::Default) { SECOND } else { MONTH });
        let all_seconds = unit == SECOND && c.float() != 0.0 && rules.contains(&Rule::FractionOfSecond);
        let mask = if all_seconds { 0b111 << SECOND } else { 1 << unit };
        let twice = seen & mask != 0;
        seen |= mask;
        twice
    })
}

/// Whether PostgreSQL's syntax refuses a text that has a division.
fn refused(text: &str, division: &[Component], rules: &[Rule]) -> bool {
    rules.iter().any(|rule| match rule {
        Rule::Nanoseconds => division.iter().any(|c| c.unit == Some(11)),
        Rule::Cents => text.to_ascii_lowercase().contains("cents"),
        Rule::Kelvin => text.contains('\u{212A}'),
        Rule::White => text.contains(|c: char| c.is_whitespace() && !c.is_ascii()),
        Rule::MinusPoint => text.contains("-."),
        Rule::Room => {
            let words = division.iter().map(|c| 1 + c.unit.is_some() as usize).sum::<usize>();
            text.bytes().filter(|b| !b.is_ascii_whitespace() && *b != 0x0B).count() + words > 256
        }
        _ => false,
    })
}

/// The sum of a division, with these rules of PostgreSQL.
pub fn read(text: &str, division: &[Component], rules: &[Rule]) -> Reading {
    if refused(text, division, rules) || repeated(division, rules) {
        return None;
    }
    let mut order: Vec<&Component> = division.iter().collect();
    if rules.contains(&Rule::FromTheLast) {
        order.reverse();
    }
    let mut total = Counts::default();
    for component in order {
        let more = component.contribution(rules);
        total = total.plus(more);
        if !more.fit(rules) || !total.fit(rules) {
            return None;
        }
    }
    let months = total.years * 12 + total.months;
    fits(months, 32).then_some((months, total.days, total.nanos))
}
