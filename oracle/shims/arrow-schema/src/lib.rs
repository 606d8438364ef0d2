//! The errors that `parse.rs` names.
use std::fmt;

#[derive(Debug)]
pub enum ArrowError {
    ParseError(String),
    CastError(String),
    InvalidArgumentError(String),
    ArithmeticOverflow(String),
}

impl fmt::Display for ArrowError {
    fn fmt(&self, f: &mut fmt::Formatter<'_>) -> fmt::Result {
        match self {
            Self::ParseError(s) => write!(f, "Parser error: {s}"),
            Self::CastError(s) => write!(f, "Cast error: {s}"),
            Self::InvalidArgumentError(s) => write!(f, "Invalid argument error: {s}"),
            Self::ArithmeticOverflow(s) => write!(f, "Arithmetic overflow: {s}"),
        }
    }
}

impl std::error::Error for ArrowError {}
