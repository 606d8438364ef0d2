//! Answers lines `READER TEXT` of standard input as the program `readings` does, with the Rust's answers; a refusal that has a place is
//! written `refused 8 at 2`. A number that the Rust does not tell is written `?`.
use judge::lines::{reader_named, unescape};
use judge::place::Placed;
use judge::*;
use std::io::{BufRead, Write};

fn main() {
    let mut out = std::io::stdout().lock();
    for line in std::io::stdin().lock().split(b'\n') {
        let line = line.unwrap();
        out.write_all(&line).unwrap();
        if !line.is_empty() && line[0] != b'#' {
            let k = line.iter().position(|b| *b == b' ').unwrap_or(line.len());
            let text = unescape(line.get(k + 1..).unwrap_or(b""));
            let Some(reader) = reader_named(&line[..k]) else {
                out.write_all(b" = not compared\n").unwrap();
                continue;
            };
            let answer = rust_bytes(reader, &text);
            let written = match answer {
                One(z) => format!("{z}"),
                Two(y, z) => format!("{y} {z}"),
                Three(x, y, z) => format!("{x} {y} {z}"),
                Refused(Some(n)) => format!("refused {n}"),
                Refused(None) => "refused ?".to_string(),
            };
            let at = Placed::new(&text).place(reader, answer).map_or(String::new(), |place| format!(" at {place}"));
            write!(out, " = {written}{at}").unwrap();
        }
        out.write_all(b"\n").unwrap();
    }
}
