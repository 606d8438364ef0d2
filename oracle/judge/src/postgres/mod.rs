//! PostgreSQL 15's interval input beside the library's: what each rule of PostgreSQL changes, and which texts only PostgreSQL takes.
pub mod model;
pub mod shape;
pub mod texts;
pub mod told;
pub mod undo;

/// Months, days and nanoseconds, which for PostgreSQL are more than 64 bits; or none, where the text is refused.
pub type Reading = Option<(i128, i128, i128)>;

/// A kind of difference.
#[derive(Clone, Copy, Debug, PartialEq, Eq, PartialOrd, Ord)]
pub enum Kind {
    Rule(model::Rule),
    Shape(shape::Shape),
    /// More than one at once.
    Several,
    /// None that is known.
    Unknown,
}

/// Why the two answers differ; nothing where they are the same. Of a text that has a division both answers must be what the rules say.
pub fn kind(text: &str, ours: Reading, theirs: Reading) -> Option<Kind> {
    let Some(division) = model::divide(text) else {
        return match (ours, theirs) {
            (None, None) => None,
            (None, _) if !undo::explains(text, theirs) => Some(Kind::Unknown),
            (None, _) => Some(only(shape::shapes(text).into_iter().map(Kind::Shape), Kind::Unknown)),
            _ => Some(Kind::Unknown),
        };
    };
    let of = |rules: &[model::Rule]| model::read(text, &division, rules);
    if of(&[]) != ours || of(&model::RULES) != theirs {
        return Some(Kind::Unknown);
    }
    if ours == theirs {
        return None;
    }
    Some(only(model::RULES.iter().filter(|r| of(&[**r]) != ours).map(|r| Kind::Rule(*r)), Kind::Several))
}

/// The one kind there is, or several.
fn only(mut kinds: impl Iterator<Item = Kind>, none: Kind) -> Kind {
    match (kinds.next(), kinds.next()) {
        (Some(kind), None) => kind,
        (Some(_), Some(_)) => Kind::Several,
        (None, _) => none,
    }
}
