//! The tables that are printed.
use crate::cost::{geometric_mean, rows, Cost, Row};
use crate::sides::Work;
use crate::two;
use std::fmt::Write;

/// For each work a row for each text, with the instructions and, where they were taken, the nanoseconds. And writing in two
/// calls.
pub fn texts(counts: &[Cost], times: Option<&[Cost]>) -> Result<String, String> {
    let mut out = String::new();
    for work in Work::ALL {
        let counted = rows(counts, work)?;
        let timed = times.map(|times| rows(times, work)).transpose()?;
        let _ = write!(out, "{:<27} {:>6} {:>9} {:>9} {:>7}", work.title(), "bytes", "ours", "the crate", "ratio");
        out += if timed.is_some() { "     ours ns    crate ns   ratio\n" } else { "\n" };
        for (at, row) in counted.iter().enumerate() {
            let _ = write!(out, "{:<27} {:>6} {:>9} {:>9} {:>7.3}", row.name, row.bytes, row.ours, row.theirs, row.ratio());
            if let Some(timed) = &timed {
                let time = timed.get(at).filter(|time| time.name == row.name);
                let time = time.ok_or_else(|| format!("{}: no time", row.name))?;
                let _ = write!(out, " {:>11.0} {:>11.0} {:>7.3}", time.ours, time.theirs, time.ratio());
            }
            out += "\n";
        }
        means(&mut out, &counted, timed.as_deref());
    }
    Ok(out + &two::table(counts, times)? + "\n")
}

fn means(out: &mut String, counted: &[Row], timed: Option<&[Row]>) {
    let groups: [(&str, fn(&&Row) -> bool); 3] =
        [("accepted", |row| row.accepted), ("refused", |row| !row.accepted), ("all", |_| true)];
    let (mut some, mut others) = (0, 0);
    for row in counted {
        *(if row.accepted { &mut some } else { &mut others }) += 1;
    }
    for (name, of) in groups {
        // all is worth a line only beside two others
        if name == "all" && (some == 0 || others == 0) {
            continue;
        }
        let Some(mean) = geometric_mean(counted.iter().filter(of)) else {
            continue;
        };
        let _ = write!(out, "{:<27} {:>6} {:>9} {:>9} {mean:>7.3}", format!("geometric mean, {name}"), "", "", "");
        if let Some(mean) = timed.and_then(|timed| geometric_mean(timed.iter().filter(of))) {
            let _ = write!(out, " {:>11} {:>11} {mean:>7.3}", "", "");
        }
        let count = counted.iter().filter(of).count();
        let more = counted.iter().filter(of).filter(|row| row.ratio() >= 1.0).count();
        let _ = write!(out, "\n{:<27} {count} texts; ratio not below 1: {more}", "");
        if let Some(timed) = timed {
            let _ = write!(out, ", by time {}", timed.iter().filter(of).filter(|row| row.ratio() >= 1.0).count());
        }
        out.push('\n');
    }
    out.push('\n');
}

/// Only the means, one line for each work, and the lines of writing in two calls.
pub fn short(counts: &[Cost]) -> Result<String, String> {
    let mut out = String::new();
    for work in Work::ALL {
        let rows = rows(counts, work)?;
        let accepted = || rows.iter().filter(|row| row.accepted);
        let Some(mean) = geometric_mean(accepted()) else {
            continue;
        };
        let Some(worst) = accepted().max_by(|a, b| a.ratio().total_cmp(&b.ratio())) else {
            continue;
        };
        let _ = writeln!(
            out,
            "{:<20} geometric mean {mean:.3} over {} accepted texts, highest {:.3} ({})",
            work.title(),
            accepted().count(),
            worst.ratio(),
            worst.name
        );
    }
    Ok(out + &two::table(counts, None)?)
}

/// The cost for each byte, of texts of doubling size.
pub fn growth(counts: &[Cost]) -> Result<String, String> {
    let mut out = format!("instructions for each byte, of texts of doubling size\n{:>7}", "bytes");
    for work in Work::ALL {
        let _ = write!(out, " {:>12} {:>10}", format!("{}: ours", work.name()), "the crate");
    }
    out += "\n";
    let all = [rows(counts, Work::Read)?, rows(counts, Work::Write)?, rows(counts, Work::Both)?];
    for at in 0..all[0].len() {
        let bytes = all[0][at].bytes;
        let _ = write!(out, "{bytes:>7}");
        for rows in &all {
            let row = rows.get(at).filter(|row| row.bytes == bytes).ok_or("the texts of a work are missing")?;
            let _ = write!(out, " {:>12.2} {:>10.2}", row.ours / bytes as f64, row.theirs / bytes as f64);
        }
        out += "\n";
    }
    Ok(out)
}

/// The goal: half of what the crate costs, in the geometric mean.
const GOAL: f64 = 0.5;

/// What must hold of the ratios, and what doesn't: reading, writing, and both cost less than the crate on each accepted
/// text, and in the mean no more than the goal; writing in two calls costs less than the crate's on each.
pub fn direction(counts: &[Cost]) -> Result<Vec<String>, String> {
    let mut wrong = Vec::new();
    for work in Work::ALL {
        let rows: Vec<Row> = rows(counts, work)?.into_iter().filter(|row| row.accepted).collect();
        let mean = geometric_mean(rows.iter()).ok_or_else(|| format!("{}: no accepted text", work.title()))?;
        if mean > GOAL {
            wrong.push(format!("{}: the geometric mean is {mean:.3}", work.title()));
        }
        let slower = rows.iter().filter(|row| row.ratio() >= 1.0);
        wrong.extend(slower.map(|row| format!("{}, {}: the ratio is {:.3}", work.title(), row.name, row.ratio())));
    }
    wrong.extend(two::direction(counts)?);
    Ok(wrong)
}
