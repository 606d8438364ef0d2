//! Each row of the tables of docs/DIFFERENCES.md is what the library answers.
use cullpethi::*;

fn told<V: ToString>(read: Result<V, Refusal>) -> String {
    read.map_or_else(|why| format!("refused {}", why.number()), |v| v.to_string())
}

/// The answer of a reader, by its name in the tables.
fn answer(reader: &str, text: &str) -> Option<String> {
    Some(match reader {
        "stamp" => told(string_to_timestamp_nanos(text)),
        "site stamp" => told(site_stamp(text).map(|x| x.nanos)),
        "time of day" => told(string_to_time_nanoseconds(text)),
        "time column" => told(parse_time64_nanosecond(text)),
        "Date32" => told(parse_date32(text)),
        "Date64" => told(parse_date64(text)),
        "interval" => told(parse_interval_month_day_nano(text).map(|i| format!("{i:?}"))),
        _ => return None,
    })
}

#[test]
fn tables() {
    let page = concat!(env!("CARGO_MANIFEST_DIR"), "/../../docs/DIFFERENCES.md");
    let page = std::fs::read_to_string(page).unwrap();
    let (mut rows, mut refused) = (0, false);
    for line in page.lines() {
        // A text stands between `\|` and `\|`, which are no borders of cells.
        let line = line.replace("\\|", "\0");
        let cells: Vec<&str> = line.split('|').map(str::trim).collect();
        let [_, reader, text, said, ..] = cells[..] else {
            continue;
        };
        if reader == "reader" {
            refused = said == "refusal";
            continue;
        }
        let text = text.strip_prefix("`\0").and_then(|t| t.strip_suffix("\0`"));
        let Some((text, answer)) = text.and_then(|t| Some((t, answer(reader, t)?))) else {
            continue;
        };
        let said = said.replace(',', "").replace('−', "-");
        let said = if refused {
            format!("refused {said}")
        } else {
            said
        };
        assert_eq!(answer, said, "{reader} {text:?}");
        rows += 1;
    }
    assert_eq!(rows, page.matches("| `\\|").count());
    assert!(rows > 50);
}
