//! Writing in two calls: the length alone, and the length and then the filling of an output of just that length. Only ours
//! has them. Their costs are set beside one filling with room, which is ours of `Work::Write`, and beside the crate's
//! writing.
use crate::cost::{mean, one, rows, Cost, Row};
use crate::sides::{Ours, Work};
use std::fmt::Write;
use std::hint::black_box;

/// The works, as their costs name them.
pub const WORKS: [&str; 2] = ["length", "exact"];
const TITLES: [&str; 2] = ["the length alone", "length, then fill"];

/// A call of one of the works, on what was kept: how many bytes.
pub fn call(ours: &mut Ours, work: &str, text: &[u8]) -> usize {
    let text = black_box(text);
    if work == WORKS[0] {
        ours.length(text)
    } else {
        ours.exact(text)
    }
}

/// Each text that was written, with what one of the works costs.
fn with(costs: &[Cost], work: &str) -> Result<Vec<(Row, f64)>, String> {
    let written = rows(costs, Work::Write)?.into_iter();
    written.map(|row| one(costs, &row.name, work).map(|cost| (row, cost))).collect()
}

/// Four lines: each work beside one filling and beside the crate, the mean of the ratios and the highest one.
fn lines(out: &mut String, costs: &[Cost], unit: &str) -> Result<(), String> {
    type Beside = fn(&Row) -> f64;
    let sides: [(&str, Beside); 2] = [("one fill with room", |row| row.ours), ("the crate's writing", |row| row.theirs)];
    for (work, title) in WORKS.into_iter().zip(TITLES) {
        let all = with(costs, work)?;
        for (beside, of) in sides {
            let ratios = || all.iter().map(|(row, cost)| (cost / of(row), &row.name));
            let highest = ratios().max_by(|a, b| a.0.total_cmp(&b.0));
            let found = mean(ratios().map(|(ratio, _)| ratio)).zip(highest);
            let (mean, (highest, name)) = found.ok_or("no text was written")?;
            let _ = writeln!(out, "{title:<20} {beside:<20} {unit:<12} {mean:>6.3} {highest:>8.3} ({name})");
        }
    }
    Ok(())
}

/// The lines by instructions and, where they were taken, by time.
pub fn table(counts: &[Cost], times: Option<&[Cost]>) -> Result<String, String> {
    let heads = ("writing in two calls", "beside", "ratios of", "mean", "highest");
    let mut out = format!("{:<20} {:<20} {:<12} {:>6} {:>8}\n", heads.0, heads.1, heads.2, heads.3, heads.4);
    lines(&mut out, counts, "instructions")?;
    times.map_or(Ok(()), |times| lines(&mut out, times, "time"))?;
    Ok(out)
}

/// Both calls together must cost less than so much of the crate's writing, on each text.
const MOST: f64 = 1.0;

/// What must hold of the ratios, and doesn't.
pub fn direction(counts: &[Cost]) -> Result<Vec<String>, String> {
    let ratios = with(counts, WORKS[1])?.into_iter().map(|(row, cost)| (cost / row.theirs, row.name));
    let said = |(ratio, name): (f64, String)| format!("{}, {name}: the ratio is {ratio:.3}", TITLES[1]);
    Ok(ratios.filter(|(ratio, _)| *ratio >= MOST).map(said).collect())
}
