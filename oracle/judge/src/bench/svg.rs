//! The picture: a bar a reader, as long as its ratio, and a mark at the most that it may be.
use super::texts::kind;
use super::Row;

const LEFT: f64 = 300.0;
const WIDTH: f64 = 860.0;
const TOP: f64 = 84.0;
/// A row, its bar, and the gap between families.
const STEP: f64 = 26.0;
const BAR: f64 = 18.0;
const GAP: f64 = 12.0;

/// Pixels of a ratio of 1, so that the longest bar or mark fits with its label.
fn scale(rows: &[Row]) -> f64 {
    let most = rows.iter().map(|r| r.ratio().max(r.bar)).fold(1.3, f64::max);
    (WIDTH - LEFT - 70.0) / most
}

fn line(x: f64, top: f64, bottom: f64, style: &str) -> String {
    format!("<line x1=\"{x:.1}\" y1=\"{top:.1}\" x2=\"{x:.1}\" y2=\"{bottom:.1}\" {style}/>\n")
}

fn text(x: f64, y: f64, style: &str, words: &str) -> String {
    format!("<text x=\"{x:.1}\" y=\"{y:.1}\" {style}>{words}</text>\n")
}

/// The name, the bar with its ratio, and the mark.
fn row(r: &Row, y: f64, one: f64) -> String {
    let (long, mark) = (r.ratio() * one, LEFT + r.bar * one);
    let colour = if r.met() { "#2f6690" } else { "#b3541e" };
    let middle = y + BAR / 2.0 + 4.5;
    let mut out = text(LEFT - 10.0, middle, "text-anchor=\"end\" font-family=\"monospace\" font-size=\"12\"", r.name);
    out += &format!("<rect x=\"{LEFT}\" y=\"{y:.1}\" width=\"{long:.1}\" height=\"{BAR}\" fill=\"{colour}\"/>\n");
    out += &text(LEFT + long - 6.0, middle, "text-anchor=\"end\" fill=\"#fff\" font-weight=\"bold\"", &format!("{:.2}", r.ratio()));
    out += &line(mark, y - 3.0, y + BAR + 3.0, "stroke=\"#111\" stroke-width=\"2.5\"");
    let over_the_grid = "fill=\"#444\" font-size=\"12\" stroke=\"#fff\" stroke-width=\"4\" paint-order=\"stroke\"";
    out + &text(mark + 6.0, middle, over_the_grid, &format!("≤ {:.2}", r.bar))
}

/// The lines of the scale, that of the Rust's own time darker.
fn grid(one: f64, bottom: f64) -> String {
    let steps = ((WIDTH - LEFT - 20.0) / one / 0.2) as usize;
    let mut out = String::new();
    for i in 0..=steps {
        let x = LEFT + i as f64 * 0.2 * one;
        let style = if i == 5 { "stroke=\"#888\" stroke-dasharray=\"5 3\"" } else { "stroke=\"#ddd\"" };
        out += &line(x, TOP - 8.0, bottom, style);
        out += &text(x, TOP - 14.0, "text-anchor=\"middle\" fill=\"#444\" font-size=\"12\"", &format!("{:.1}", i as f64 * 0.2));
    }
    out
}

pub fn picture(rows: &[Row]) -> String {
    let one = scale(rows);
    let (mut y, mut bars) = (TOP, String::new());
    for (i, r) in rows.iter().enumerate() {
        let apart = i > 0 && (kind(rows[i - 1].reader) as usize).min(3) != (kind(r.reader) as usize).min(3);
        y += if apart { GAP } else { 0.0 };
        bars += &row(r, y, one);
        y += STEP;
    }
    let height = y + 14.0;
    let head = format!("<svg xmlns=\"http://www.w3.org/2000/svg\" width=\"{WIDTH}\" height=\"{height}\" viewBox=\"0 0 {WIDTH} {height}\"");
    let title = text(16.0, 26.0, "font-size=\"16\" font-weight=\"bold\"", "The library's time over the Rust's, realistic texts");
    let what = text(16.0, 46.0, "fill=\"#444\"", "1.0 is the Rust from bytes; shorter is faster; a mark and ≤: the most that a reader may take");
    let page = format!("<rect width=\"{WIDTH}\" height=\"{height}\" fill=\"#fff\"/>\n");
    format!("{head} font-family=\"sans-serif\" font-size=\"13\">\n{page}{title}{what}{}{bars}</svg>\n", grid(one, y - 2.0))
}
