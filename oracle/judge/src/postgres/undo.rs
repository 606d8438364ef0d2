//! A text that only PostgreSQL takes, written so that it has a division here and means the same to PostgreSQL.
use super::shape::{amount, is_white, runs, shapes, Shape};
use super::{model, Reading};

/// With a mark put between neighbours of which `apart` is true.
fn between(text: &str, mark: &str, apart: impl Fn(char, char) -> bool) -> String {
    let mut out = String::new();
    let mut last = None;
    for c in text.chars() {
        if last.is_some_and(|l| apart(l, c)) {
            out += mark;
        }
        out.push(c);
        last = Some(c);
    }
    out
}

/// Without white space at the ends, and one character of it between.
fn trimmed(text: &str) -> String {
    runs(text).into_iter().map(|r| if r.bytes().all(is_white) { " " } else { r }).collect::<String>().trim_matches(' ').to_string()
}

/// Without white space behind a minus.
fn behind_minus(text: &str, white: impl Fn(char) -> bool) -> String {
    let mut out = String::new();
    text.chars().for_each(|c| {
        if !(white(c) && out.ends_with('-')) {
            out.push(c);
        }
    });
    out
}

fn long_unit(run: &str) -> &str {
    match run.get(..10).map(str::to_ascii_lowercase).as_deref() {
        Some("millisecon") => "milliseconds",
        Some("microsecon") => "microseconds",
        _ => run,
    }
}

/// With the unit of days behind each amount that has none, but the last. A second point in a row of digits begins an amount.
fn in_days(text: &str) -> String {
    let apart: String = runs(text).into_iter().map(|r| between(r, " ", |_, b| r.matches('.').count() > 1 && b == '.')).collect();
    let mut fields: Vec<String> = trimmed(&apart).split(' ').map(str::to_string).collect();
    let last = fields.pop();
    for f in &mut fields {
        if amount(f.trim_start_matches('-')) && !f.contains(|c: char| c.is_alphabetic()) {
            f.push('d');
        }
    }
    fields.into_iter().chain(last).collect::<Vec<_>>().join(" ")
}

/// The text without one thing that only PostgreSQL takes; none where there is no other way to write it.
fn without(text: &str, shape: Shape) -> Option<String> {
    let white = |c: char| c.is_ascii() && is_white(c as u8);
    Some(match shape {
        Shape::Punctuation => trimmed(&text.replace(|c: char| c.is_ascii_punctuation() && !"+-.:".contains(c), " ")),
        Shape::Blanks => trimmed(text),
        Shape::Plus => trimmed(&text.replace('+', " ")),
        Shape::SignAlone => behind_minus(text, white),
        Shape::PointAlone => between(&format!("{text} "), "0", |a, b| a == '.' && !b.is_ascii_digit()).trim_end_matches(white).to_string(),
        Shape::Glued => between(text, " ", |a, b| a.is_ascii_alphabetic() && (b.is_ascii_digit() || "+-.".contains(b))),
        Shape::TenLetters => runs(text).into_iter().map(long_unit).collect(),
        Shape::NoUnit => in_days(text),
        _ => return None,
    })
}

/// Whether PostgreSQL's answer is what its rules say of the text written otherwise; also where there is no other way to write it.
pub fn explains(text: &str, theirs: Reading) -> bool {
    let mut plain = text.to_string();
    for _ in 0..8 {
        let Some(shape) = shapes(&plain).first().copied() else { break };
        match without(&plain, shape) {
            Some(next) => plain = next,
            None => return true,
        }
    }
    model::divide(&plain).is_some_and(|division| model::read(&plain, &division, &model::RULES) == theirs)
}
