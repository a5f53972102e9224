//! Files of the repository, and tables of its pages.
#![allow(dead_code)] // each test file takes what it needs
use std::fs;

/// A path of the repository, from its root.
pub fn path(of: &str) -> String {
    format!("{}/../../{of}", env!("CARGO_MANIFEST_DIR"))
}

pub fn file(of: &str) -> String {
    fs::read_to_string(path(of)).unwrap_or_else(|error| panic!("{of}: {error}"))
}

/// The rows of the page's table under a heading, without its head.
pub fn table(page: &str, heading: &str) -> Vec<Vec<String>> {
    rows(page, &format!("## {heading}"))
}

/// The same under a smaller heading: the fields of one part.
pub fn fields(page: &str, part: &str) -> Vec<Vec<String>> {
    rows(page, &format!("### {part}"))
}

fn rows(page: &str, heading: &str) -> Vec<Vec<String>> {
    let text = file(page);
    let under = text.lines().skip_while(|line| *line != heading).skip(1);
    let rows = under.take_while(|line| !line.starts_with('#')).filter(|line| line.starts_with('|'));
    let cells = |row: &str| row[1..row.len() - 1].split('|').map(|cell| cell.trim().to_string()).collect();
    let rows: Vec<Vec<String>> = rows.skip(2).map(cells).collect();
    assert!(!rows.is_empty(), "{page} has a table under {heading}");
    rows
}
