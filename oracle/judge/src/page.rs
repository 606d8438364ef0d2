//! Pages of docs/ with a part that a program writes.
use std::{fs, io};

/// Puts the text between the lines `<!-- NAME begins -->` and `<!-- NAME ends -->` of a page.
pub fn rewrite(page: &str, name: &str, text: &str) -> io::Result<()> {
    let (begin, end) = (format!("<!-- {name} begins -->\n"), format!("<!-- {name} ends -->"));
    let old = fs::read_to_string(page)?;
    let marks = old.find(&begin).map(|i| i + begin.len()).zip(old.find(&end)).filter(|(i, j)| i <= j);
    let (i, j) = marks.ok_or_else(|| io::Error::other(format!("{page} lacks the marks of {name}")))?;
    fs::write(page, format!("{}{}\n\n{}", &old[..i], text.trim_end(), &old[j..]))
}
