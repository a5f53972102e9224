//! The letter order: its texts, and what is printed of their costs. The crate has no such check, so a cost is set
//! beside that of reading the same text.
use crate::cases;
use crate::cost::{mean, one, Cost};
use std::fmt::Write;
use std::path::Path;

/// The works, as their costs name them.
pub const WORKS: [&str; 2] = ["read", "order"];

/// The lines of the texts that double, without values: so a text has as many of them as may be.
const LINES: [(&str, &str); 4] =
    [("times", "t=\n"), ("zones", "t=\nr=\nz=\n"), ("attributes", "a=\n"), ("medias", "m=\n")];

/// From 256 bytes to the limit.
fn sizes() -> impl Iterator<Item = usize> {
    (8..=15).map(|power| 1 << power)
}

pub struct Case {
    pub name: String,
    pub text: Vec<u8>,
    pub in_order: bool,
}

impl Case {
    fn new((name, text): (String, Vec<u8>)) -> Case {
        let in_order = compare::letter_order(&text).yes == 1;
        Case { name, text, in_order }
    }
}

/// All texts of the folder, with their k lines: the crate isn't called.
pub fn folder(texts: &Path) -> Result<Vec<Case>, String> {
    Ok(cases::stored(texts, |_| true)?.into_iter().map(Case::new).collect())
}

/// For each kind of lines, texts each twice as long as the one before. All are in order, so that they are gone through
/// to their end.
pub fn doubling() -> Result<Vec<Case>, String> {
    let mut cases = Vec::new();
    for (name, lines) in LINES {
        for size in sizes() {
            let mut text = b"v=\no=\ns=\nt=\n".to_vec();
            text.extend(lines.repeat((size - text.len()) / lines.len()).bytes());
            text.resize(size, b'\n');
            cases.push(Case::new((format!("{name}-{size}"), text)));
        }
    }
    match cases.iter().find(|case| !case.in_order) {
        Some(case) => Err(format!("{}: out of order", case.name)),
        None => Ok(cases),
    }
}

/// The ends of the ratios and their mean, of the texts in order and of the others, which are left where the order ends.
pub fn table(cases: &[Case], counts: &[Cost]) -> Result<String, String> {
    let mut out = format!("{:<50} {:>9} {:>9} {:>6}\n", "the letter order", "order", "reading", "ratio");
    for (title, in_order) in [("in order", true), ("out of order", false)] {
        let mut rows = Vec::new();
        for Case { name, .. } in cases.iter().filter(|case| case.in_order == in_order) {
            let [read, order] = [one(counts, name, WORKS[0])?, one(counts, name, WORKS[1])?];
            rows.push((order / read, order, read, name));
        }
        rows.sort_by(|a, b| a.0.total_cmp(&b.0));
        let ends = rows.first().zip(rows.last()).zip(mean(rows.iter().map(|row| row.0)));
        let ((least, most), mean) = ends.ok_or_else(|| format!("no text is {title}"))?;
        for (end, (ratio, order, read, name)) in [("least", least), ("most", most)] {
            let said = format!("{title}, {end}: {name}");
            let _ = writeln!(out, "{said:<50} {order:>9} {read:>9} {ratio:>6.3}");
        }
        let said = format!("{title}, geometric mean of {} texts", rows.len());
        let _ = writeln!(out, "{said:<50} {:>9} {:>9} {mean:>6.3}", "", "");
    }
    Ok(out)
}

/// The instructions for each byte of the texts that double.
pub fn growth(counts: &[Cost]) -> Result<String, String> {
    let titles = LINES.map(|(name, _)| format!(" {name:>10}")).concat();
    let mut out = format!("instructions of the letter order for each byte\n{:>7}{titles}\n", "bytes");
    for size in sizes() {
        let _ = write!(out, "{size:>7}");
        for (name, _) in LINES {
            let cost = one(counts, &format!("{name}-{size}"), WORKS[1])?;
            let _ = write!(out, " {:>10.2}", cost / size as f64);
        }
        out += "\n";
    }
    Ok(out)
}
