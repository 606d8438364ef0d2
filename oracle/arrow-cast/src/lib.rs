//! `src/parse.rs` of arrow-cast 60.1.0, unchanged; and `components`, the same with a function behind it that tells what is private there.
#![allow(dead_code, deprecated)]
include!(concat!(env!("OUT_DIR"), "/parse_at.rs"));
