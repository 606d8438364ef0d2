//! bench WHEN [PAGE PICTURE]: prints the tables of times; PAGE gets them between their marks, and PICTURE the readers' ratios as an SVG.
//! bench WHEN same-order: prints the readers' table for texts in one order. bench WHEN columns, bench WHEN records: prints that table alone.
use judge::bench::{columns, examples, records, rows, sides::ROUNDS, svg, table, texts::TEXTS};
use judge::page;

fn processor() -> String {
    let info = std::fs::read_to_string("/proc/cpuinfo").unwrap_or_default();
    let model = info.lines().find_map(|line| line.strip_prefix("model name")?.split_once(": "));
    model.map_or("an unknown processor".to_string(), |(_, name)| name.to_string())
}

/// The table of whole columns, and how it was measured.
fn whole(when: &str) -> String {
    let rounds = columns::SIZES.map(|(texts, rounds)| format!("{rounds} rounds of {texts} texts"));
    format!("{when}, on {}; {}.\n\n{}", processor(), rounds.join(", "), columns::table(&columns::rows()))
}

/// The table of conversions of records, and how it was measured.
fn conversions(when: &str) -> String {
    let rounds = records::SIZES.map(|(count, rounds)| format!("{rounds} rounds of {count} records"));
    format!("{when}, on {}; {}.\n\n{}", processor(), rounds.join(", "), records::table(&records::rows()))
}

fn main() -> std::io::Result<()> {
    let args: Vec<String> = std::env::args().skip(1).collect();
    let when = args.first().expect("bench WHEN [PAGE PICTURE]");
    let word = args.get(1).map_or("", String::as_str);
    if word == "columns" {
        println!("{}", whole(when));
        return Ok(());
    }
    if word == "records" {
        println!("{}", conversions(when));
        return Ok(());
    }
    let same_order = word == "same-order";
    let rows = rows(same_order);
    let table = table(&rows);
    let how = format!("{when}, on {}; {ROUNDS} rounds of {TEXTS} texts a set{}.", processor(), if same_order { ", in one order" } else { "" });
    println!("{how}\n\n{table}");
    if same_order {
        return Ok(());
    }
    let whole = whole(when);
    let conversions = conversions(when);
    println!("\n{whole}\n\n{conversions}");
    if let [_, to, picture] = &args[..] {
        page::rewrite(to, "oracle/bench", &format!("{how}\n\n{table}\n\nThe first two texts of each set:\n\n{}", examples()))?;
        page::rewrite(to, "oracle/bench columns", &whole)?;
        page::rewrite(to, "oracle/bench records", &conversions)?;
        std::fs::write(picture, svg::picture(&rows))?;
    }
    Ok(())
}
