//! What is said of each kind of difference, with an example.
use super::{model::Rule, shape::Shape, Kind};

pub const TOLD: [(Kind, &str, &str); 30] = [
    (Kind::Rule(Rule::Default), "a last amount without a unit is seconds there, months here", "1 day 2"),
    (Kind::Rule(Rule::Years), "a fraction of a year, a decade or a century is rounded to months there, cut here", "0.13 years"),
    (Kind::Rule(Rule::Months), "what a month's fraction has beyond whole days goes into the time there, is dropped here", "0.55 months"),
    (Kind::Rule(Rule::Weeks), "a week's fraction spills into days and time there, is nanoseconds here", "0.5 weeks"),
    (Kind::Rule(Rule::Micros), "a time is rounded to microseconds there, cut to nanoseconds here", "0.0000015 seconds"),
    (Kind::Rule(Rule::Range), "a time has 64 bits of microseconds there, of nanoseconds here", "2562048 hours"),
    (Kind::Rule(Rule::YearsApart), "years and months are added up apart there, and joined at the end", "178956971 years -12 months"),
    (Kind::Rule(Rule::FromTheLast), "components are added from the last to the first there", ""),
    (Kind::Rule(Rule::FractionOfSecond), "a fraction of a second there stands for milliseconds and microseconds too", "1.5 seconds 1 ms"),
    (Kind::Rule(Rule::Nanoseconds), "no unit nanosecond there", "1 nanosecond"),
    (Kind::Rule(Rule::Cents), "no spelling `cents` there", "1 cents"),
    (Kind::Rule(Rule::Kelvin), "U+212A is k here", "1 wee\u{212A}"),
    (Kind::Rule(Rule::White), "white space outside ASCII", "1\u{3000}day"),
    (Kind::Rule(Rule::MinusPoint), "no digit between a minus and the point", "-.5 days"),
    (Kind::Rule(Rule::Room), "amounts and units, with a byte behind each, are at most 256 bytes there", ""),
    (Kind::Shape(Shape::Blanks), "white space at an end, or more than one character of it between", "1  day"),
    (Kind::Shape(Shape::Plus), "a plus", "+1 day"),
    (Kind::Shape(Shape::SignAlone), "white space behind a sign", "- 1 day"),
    (Kind::Shape(Shape::PointAlone), "a point with no digit behind it", "1. day"),
    (Kind::Shape(Shape::LongFraction), "more than 15 fraction digits", "1.0000000000000000 days"),
    (Kind::Shape(Shape::Glued), "no white space between components, behind some units", "1d2h"),
    (Kind::Shape(Shape::Ago), "`ago`, which turns the signs", "1 day ago"),
    (Kind::Shape(Shape::Punctuation), "other marks, which are skipped", "@ 1 minute"),
    (Kind::Shape(Shape::Millennium), "millennia", "1 millennium"),
    (Kind::Shape(Shape::TenLetters), "units by their first ten letters", "1 microsecondx"),
    (Kind::Shape(Shape::NoAmount), "a unit without an amount, which is skipped", "days 1 hour"),
    (Kind::Shape(Shape::NoUnit), "an amount without a unit before hours, which is days", "3 4 hours"),
    (Kind::Shape(Shape::Clock), "hours, minutes and seconds with colons", "3 4:05:06"),
    (Kind::Shape(Shape::YearMonth), "years and months with a hyphen", "1-2"),
    (Kind::Shape(Shape::Iso), "ISO 8601's durations", "P1Y2M3DT4H5M6S"),
];

/// Texts that both sides answer alike.
pub const SAME: [&str; 4] = ["1 week -7 days", "1.5 months", "1 day 2 days", "1 mon 1 months"];
