//! Texts that have no division here: what in them only PostgreSQL takes.

#[derive(Clone, Copy, Debug, PartialEq, Eq, PartialOrd, Ord)]
pub enum Shape {
    /// White space at an end, or more than one between.
    Blanks,
    Plus,
    /// White space behind a sign.
    SignAlone,
    /// A point with no digit behind it.
    PointAlone,
    /// More than 15 fraction digits.
    LongFraction,
    /// A component right behind a unit.
    Glued,
    Ago,
    /// Marks that are skipped.
    Punctuation,
    Millennium,
    /// Words count by their first ten letters.
    TenLetters,
    /// A unit with no amount before it, which is skipped.
    NoAmount,
    /// An amount without a unit before hours, which is days.
    NoUnit,
    Clock,
    YearMonth,
    Iso,
}

/// The words of a text, in small letters.
fn words(text: &str) -> Vec<String> {
    text.split(|c: char| !c.is_ascii_alphabetic()).filter(|w| !w.is_empty()).map(str::to_ascii_lowercase).collect()
}

fn is_unit(word: &str) -> bool {
    crate::generate::UNITS.contains(&word)
}

/// Whether a place is followed by another, byte by byte.
fn pair(text: &str, first: impl Fn(u8) -> bool, second: impl Fn(u8) -> bool) -> bool {
    text.as_bytes().windows(2).any(|w| first(w[0]) && second(w[1]))
}

/// Runs of letters, of digits and points, and of other bytes of one sort.
pub fn runs(text: &str) -> Vec<&str> {
    let sort = |b: u8| match b {
        b'0'..=b'9' | b'.' => 0,
        _ if b.is_ascii_alphabetic() => 1,
        _ if is_white(b) => 2,
        _ => 3,
    };
    let mut rest = text;
    std::iter::from_fn(|| {
        let first = sort(*rest.as_bytes().first()?);
        let end = rest.char_indices().find(|(_, c)| !c.is_ascii() && first != 3 || c.is_ascii() && sort(*c as u8) != first);
        let (run, behind) = rest.split_at(end.map_or(rest.len(), |(i, _)| i));
        rest = behind;
        Some(run)
    })
    .collect()
}

pub fn amount(run: &str) -> bool {
    run.starts_with(|c: char| c.is_ascii_digit() || c == '.')
}

fn letters(run: &str) -> bool {
    run.starts_with(|c: char| c.is_ascii_alphabetic())
}

pub fn is_white(b: u8) -> bool {
    b.is_ascii_whitespace() || b == 0x0B
}

fn has(text: &str, shape: Shape) -> bool {
    let digit = |b: u8| b.is_ascii_digit();
    let sign = |b: u8| b == b'-' || b == b'+';
    match shape {
        Shape::Blanks => {
            text.as_bytes().first().is_some_and(|b| is_white(*b))
                || text.as_bytes().last().is_some_and(|b| is_white(*b))
                || pair(text, is_white, is_white)
        }
        Shape::Plus => text.contains('+'),
        Shape::SignAlone => pair(text, sign, is_white),
        Shape::PointAlone => pair(&format!("{text} "), |b| b == b'.', |b| !digit(b)),
        Shape::LongFraction => text.split('.').skip(1).any(|f| f.bytes().take_while(u8::is_ascii_digit).count() > 15),
        Shape::Glued => {
            let parts: Vec<&str> = runs(text).into_iter().filter(|r| !r.bytes().all(is_white)).collect();
            let touch = pair(text, |b| b.is_ascii_alphabetic(), |b| digit(b) || sign(b) || b == b'.');
            touch && parts.windows(3).any(|w| amount(w[0]) && letters(w[1]) && (amount(w[2]) || w[2] == "-" || w[2] == "+"))
        }
        Shape::Ago => words(text).iter().any(|w| w == "ago"),
        Shape::Punctuation => text.bytes().any(|b| b.is_ascii_punctuation() && !b"+-.:".contains(&b)),
        Shape::Millennium => words(text).iter().any(|w| w == "mil" || w == "mils" || w.starts_with("millenni")),
        Shape::TenLetters => words(text).iter().any(|w| w.len() >= 10 && !is_unit(w) && ["millisecon", "microsecon"].contains(&&w[..10])),
        Shape::NoAmount => {
            let parts: Vec<&str> = runs(text).into_iter().filter(|r| amount(r) || letters(r) && !r.eq_ignore_ascii_case("ago")).collect();
            parts.iter().enumerate().any(|(i, r)| letters(r) && (i == 0 || letters(parts[i - 1])))
        }
        Shape::NoUnit => {
            let white = |c: char| c.is_ascii() && is_white(c as u8);
            let fields: Vec<&str> = text.split(white).map(|f| f.trim_start_matches(['+', '-'])).collect();
            let alone = |f: &str| amount(f) && f.bytes().all(|b| digit(b) || b == b'.');
            let two_points = runs(text).iter().any(|r| r.matches('.').count() > 1);
            let plus = runs(text).windows(3).any(|w| amount(w[0]) && w[1] == "+" && amount(w[2]));
            plus || two_points || fields.windows(2).any(|w| alone(w[0]) && amount(w[1]) && !w[1].contains(':'))
        }
        Shape::Clock => text.contains(':'),
        Shape::YearMonth => pair(text, digit, |b| b == b'-'),
        Shape::Iso => text.starts_with('P'),
    }
}

const SHAPES: [Shape; 15] = [
    Shape::Blanks,
    Shape::Plus,
    Shape::SignAlone,
    Shape::PointAlone,
    Shape::LongFraction,
    Shape::Glued,
    Shape::Ago,
    Shape::Punctuation,
    Shape::Millennium,
    Shape::TenLetters,
    Shape::NoAmount,
    Shape::NoUnit,
    Shape::Clock,
    Shape::YearMonth,
    Shape::Iso,
];

/// All that only PostgreSQL takes; of ISO 8601's own form nothing else is told.
pub fn shapes(text: &str) -> Vec<Shape> {
    if has(text, Shape::Iso) {
        return vec![Shape::Iso];
    }
    SHAPES.into_iter().filter(|s| has(text, *s)).collect()
}
