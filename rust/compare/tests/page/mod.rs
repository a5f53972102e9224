//! docs/AREA.md as data: its tables and its example.
#![allow(dead_code)] // each test file takes what it needs
use compare::area::SIZE;
use std::fs;

/// A file of the repository, by its path from the root.
pub fn file(path: &str) -> String {
    let path = format!("{}/../../{path}", env!("CARGO_MANIFEST_DIR"));
    fs::read_to_string(&path).unwrap_or_else(|error| panic!("{path}: {error}"))
}

/// The rows of the table under a heading, without its head; the cells without quotes and spaces.
pub fn table(heading: &str) -> Vec<Vec<String>> {
    let page = file("docs/AREA.md");
    let is_heading = |line: &&str| line.starts_with('#') && line.trim_start_matches('#').trim() == heading;
    let under = page.lines().skip_while(|line| !is_heading(line));
    let rows = under.skip(1).take_while(|line| !line.starts_with('#')).filter(|line| line.starts_with('|'));
    let rows: Vec<Vec<String>> = rows
        .map(|row| {
            let cells = row.trim_matches('|').split('|');
            cells.map(|cell| cell.trim().trim_matches('`').to_string()).collect()
        })
        .collect();
    assert!(rows.len() > 2, "docs/AREA.md has a table under {heading}");
    rows[2..].to_vec()
}

pub fn number(cell: &str) -> usize {
    cell.parse().unwrap_or_else(|_| panic!("docs/AREA.md: {cell:?} is not a number"))
}

/// The page's example: the text, each line ended by LF, and the area by its table of cells that are not zero.
pub fn example() -> (Vec<u8>, Vec<u8>) {
    let page = file("docs/AREA.md");
    let under = page.lines().skip_while(|line| *line != "## An example");
    let code: Vec<&str> = under.filter_map(|line| line.strip_prefix("    ")).collect();
    let text = code.iter().map(|line| format!("{line}\n")).collect::<String>().into_bytes();
    let mut area = vec![0; SIZE];
    for row in table("An example") {
        let (at, bytes) = (number(&row[0]), number(&row[1]));
        // a string's cell is `place, length`
        let value = match row[2].split_once(", ") {
            Some((place, len)) => number(place) as u64 | (number(len) as u64) << 16,
            None => row[2].parse::<i64>().map(|value| value as u64).expect("a number"),
        };
        assert!(value != 0 && area[at..at + bytes].iter().all(|byte| *byte == 0));
        area[at..at + bytes].copy_from_slice(&value.to_le_bytes()[..bytes]);
    }
    (text, area)
}
