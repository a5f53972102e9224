//! The list of starts: its cases, from a usual one to the worst that the tables allow, and what is printed of their costs.
//! The crate has nothing of the kind, so a list's cost is set beside that of reading the same text.
use crate::cost::{one, Cost};
use crate::sides::{Ours, Side};
use std::fmt::Write;
use std::ops::Range;
use std::path::Path;

/// The works, as their costs name them.
pub const WORKS: [&str; 2] = ["read", "starts"];

/// Rows that the tables of repeats, offsets and zones have at most.
const REPEATS: usize = 64;
const OFFSETS: usize = 256;
const ZONES: usize = 64;

/// Rows of a table that doubles.
const ROWS: [usize; 9] = [1, 2, 4, 8, 16, 32, 64, 128, 256];

/// When the made texts begin, seconds from one offset to the next, and seconds from one zone to the next.
const BEGIN: u64 = 4_000_000_000;
const STEP: u64 = 600;
const ZONE_STEP: u64 = 2_400;

pub struct Case {
    pub name: String,
    pub text: Vec<u8>,
    pub window: Range<u64>,
    /// How many starts it lists, or the refusal.
    pub due: Result<usize, u64>,
    /// How many progressions there are to look at: one for each offset of a repeat, and each stretch between zones.
    pub parts: usize,
}

impl Case {
    fn new(name: &str, text: Vec<u8>, window: Range<u64>, due: Result<usize, u64>) -> Result<Case, String> {
        let mut ours = Ours::default();
        let read = ours.keep(&text);
        let found = ours.list(&text, &window);
        if !read || found != due {
            return Err(format!("{name}: {found:?} in place of {due:?} starts"));
        }
        let parts = parts(&text);
        Ok(Case { name: name.into(), text, window, due, parts })
    }
}

/// As the lines of the text say.
fn parts(text: &[u8]) -> usize {
    let lines = text.split(|byte| *byte == b'\n');
    let words = |line: &[u8]| line.split(|byte| *byte == b' ').count();
    let (mut offsets, mut zones) = (0, 0);
    for line in lines {
        match line.first() {
            Some(b'r') => offsets += (words(line) - 2).max(1),
            Some(b'z') => zones = words(line) / 2,
            _ => {}
        }
    }
    offsets * (zones + 1)
}

/// A time with one repeat that has so many offsets, in falling order, so many repeats that have none, and so many zones,
/// with these two shifts in turn. All come again after ten years only: in a shorter window each offset is one start.
fn text(offsets: usize, others: usize, zones: usize, shifts: [i64; 2]) -> Vec<u8> {
    let mut text = format!("v=0\no=- 1 1 IN IP4 192.0.2.1\ns=Starts\nt={BEGIN} 0\n");
    let interval = 3_653 * 86_400;
    if offsets > 0 {
        let offsets: String = (1..=offsets as u64).rev().map(|number| format!(" {}", number * STEP)).collect();
        let _ = writeln!(text, "r={interval} 60{offsets}");
    }
    text += &format!("r={interval} 60\n").repeat(others);
    let zone = |number: usize| format!("{} {}", BEGIN + number as u64 * ZONE_STEP, shifts[number % 2]);
    let zones: Vec<String> = (1..=zones).map(zone).collect();
    let _ = writeln!(text, "z={}", zones.join(" "));
    text.into_bytes()
}

/// A minute on and a minute back.
const SMALL: [i64; 2] = [60, -60];

/// As full as may be: a repeat without offsets has one too.
fn full(shifts: [i64; 2]) -> Vec<u8> {
    text(OFFSETS, REPEATS - 1, ZONES, shifts)
}

/// From the beginning on, with the first so many offsets.
fn first(offsets: usize) -> Range<u64> {
    BEGIN..BEGIN + offsets as u64 * STEP + STEP / 2
}

/// With one offset in it.
fn only(offset: u64) -> Range<u64> {
    BEGIN + offset * STEP - STEP / 2..BEGIN + offset * STEP + STEP / 2
}

/// Full tables with as many starts as may be.
pub fn worst() -> Result<Case, String> {
    Case::new("full-256", full(SMALL), first(256 - (REPEATS - 1)), Ok(256))
}

/// A usual text; full tables with few starts, with as many as may be, with one more; and with shifts so far back that
/// nearly all sums are below 0.
pub fn cases(texts: &Path) -> Result<Vec<Case>, String> {
    let file = texts.join("kinds/festival-hours.sdp");
    let festival = std::fs::read(&file).map_err(|e| format!("{}: {e}", file.display()))?;
    let spring = 4_012_848_000..4_016_736_000; // March and half of April 2027
    Ok(vec![
        Case::new("festival-hours", festival, spring, Ok(12))?,
        Case::new("full-1", full(SMALL), only(100), Ok(1))?,
        worst()?,
        Case::new("full-257", full(SMALL), first(257 - (REPEATS - 1)), Err(29))?,
        Case::new("full-below", full([-(BEGIN as i64) * 2; 2]), first(3), Ok(REPEATS + 2))?,
    ])
}

/// Texts in which one table doubles: repeats without offsets, and offsets of one repeat, both with all zones; and zones,
/// with all repeats and offsets.
pub fn doubling() -> Result<Vec<Case>, String> {
    let mut cases = Vec::new();
    for rows in ROWS {
        let mut add = |table: &str, text: Vec<u8>, due| {
            Case::new(&format!("{table}-{rows}"), text, only(1), Ok(due)).map(|case| cases.push(case))
        };
        if rows <= REPEATS {
            add("repeats", text(0, rows, ZONES, SMALL), 0)?;
            add("zones", text(OFFSETS, REPEATS - 1, rows, SMALL), 1)?;
        }
        add("offsets", text(rows, 0, ZONES, SMALL), 1)?;
    }
    Ok(cases)
}

/// The instructions of a list for each of its parts.
fn each_part(case: &Case, counts: &[Cost]) -> Result<f64, String> {
    Ok(one(counts, &case.name, WORKS[1])? / case.parts as f64)
}

/// A row for each case: reading it and listing its starts, in instructions and in nanoseconds.
pub fn table(cases: &[Case], counts: &[Cost], times: &[Cost]) -> Result<String, String> {
    let mut out = "the list of starts  bytes starts  parts".to_string();
    out += "   reading   listing  ratio  a part  read ns  list ns  ratio\n";
    for case in cases {
        let Case { name, text, due, parts, .. } = case;
        let [read, list] = [one(counts, name, WORKS[0])?, one(counts, name, WORKS[1])?];
        let [read_ns, list_ns] = [one(times, name, WORKS[0])?, one(times, name, WORKS[1])?];
        let starts = due.map_or_else(|number| format!("({number})"), |count| count.to_string());
        let (bytes, each) = (text.len(), each_part(case, counts)?);
        let _ = write!(out, "{name:<18} {bytes:>6} {starts:>6} {parts:>6} {read:>9} {list:>9} {:>6.2}", list / read);
        let _ = writeln!(out, " {each:>7.1} {read_ns:>8.0} {list_ns:>8.0} {:>6.2}", list_ns / read_ns);
    }
    Ok(out)
}

/// The instructions for each part, where one table doubles.
pub fn growth(cases: &[Case], counts: &[Cost]) -> Result<String, String> {
    const TABLES: [&str; 3] = ["repeats", "offsets", "zones"];
    let titles = TABLES.map(|table| format!(" {table:>9}")).concat();
    let mut out = format!("instructions for each part of the list, where one table doubles\n{:>7}{titles}\n", "rows");
    for rows in ROWS {
        let _ = write!(out, "{rows:>7}");
        for table in TABLES {
            let each = match cases.iter().find(|case| case.name == format!("{table}-{rows}")) {
                Some(case) => format!("{:.2}", each_part(case, counts)?),
                None => String::new(),
            };
            let _ = write!(out, " {each:>9}");
        }
        out.truncate(out.trim_end().len());
        out += "\n";
    }
    Ok(out)
}

/// No list may take more instructions for each part, where the tables are full.
const MOST: f64 = 200.0;

/// What a list takes, and what is over the most.
pub fn held(case: &Case, counts: &[Cost]) -> Result<(String, Vec<String>), String> {
    let each = each_part(case, counts)?;
    let said = format!("{:<20} {each:.2} instructions for each of {} parts\n", "the list of starts", case.parts);
    let over = format!("the list of starts: {each:.2} instructions for each part, and {MOST} are the most");
    Ok((said, if each > MOST { vec![over] } else { Vec::new() }))
}
