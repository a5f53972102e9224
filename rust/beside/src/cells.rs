//! How bytes are shown: character by character, with every one that can't be seen as an escape, and counted in columns.
use std::str::from_utf8;
use unicode_width::UnicodeWidthChar;

/// What is shown at one place and never divided: a character with the marks that combine with it, or an escape.
#[derive(Debug, Clone, PartialEq, Eq)]
pub struct Cell {
    pub shown: String,
    pub width: usize,
    /// In the part of a line that differs from the other column, or the byte that a text is refused for.
    pub marked: bool,
}

/// After a character that may be a picture: it is shown as one, and may take two columns then.
const AS_PICTURE: char = '\u{fe0f}';

/// Columns of a character that is shown as it is, by the crate `unicode-width`. Where a terminal joins characters, a row is
/// shorter than it was counted, and never longer.
fn width(char: char) -> usize {
    char.width().unwrap_or(1).max(1)
}

enum Look {
    Seen,
    /// It stands on the character before.
    Combines,
    Hidden,
}

/// By std's own tables: a character that `escape_debug` lets pass can be seen, and one that it lets pass inside a
/// string only combines.
fn look(char: char) -> Look {
    let alone = |mut escape: std::char::EscapeDebug| escape.next() == Some(char) && escape.next().is_none();
    if char.is_ascii() {
        // a backslash counts as hidden, so that an escape can't be mistaken for what stands in the text
        let seen = (char.is_ascii_graphic() || char == ' ') && char != '\\';
        return if seen { Look::Seen } else { Look::Hidden };
    }
    if alone(char.escape_debug()) {
        Look::Seen
    } else if format!("x{char}").escape_debug().eq(['x', char]) {
        Look::Combines
    } else {
        Look::Hidden
    }
}

/// The bytes of a line as they are shown: `\t`, `\\`, `\xff` for a byte that is not UTF-8, `\u{a0}` for a character that
/// can't be seen, and `\x20` for a space at the line's end.
pub fn cells(line: &[u8]) -> Vec<Cell> {
    let mut cells: Vec<Cell> = Vec::new();
    let cell = |shown: String, width: usize| Cell { shown, width, marked: false };
    let escape = |shown: String| cell(shown.clone(), shown.len());
    let hex = |byte: &u8| escape(format!("\\x{byte:02x}"));
    let mut rest = line;
    while !rest.is_empty() {
        let (text, bad) = match from_utf8(rest) {
            Ok(text) => (text, 0),
            Err(error) => {
                let end = error.valid_up_to();
                (from_utf8(&rest[..end]).unwrap_or_default(), error.error_len().unwrap_or(rest.len() - end))
            }
        };
        for char in text.chars() {
            match (look(char), cells.last_mut()) {
                (Look::Seen, _) => cells.push(cell(char.into(), width(char))),
                (Look::Combines, Some(base)) if !base.shown.starts_with('\\') => {
                    base.shown.push(char);
                    base.width = base.width.max(1 + usize::from(char == AS_PICTURE));
                }
                _ if char.is_ascii() && !matches!(char, '\\' | '\t' | '\r') => cells.push(hex(&(char as u8))),
                _ => cells.push(escape(char.escape_default().to_string())),
            }
        }
        cells.extend(rest[text.len()..text.len() + bad].iter().map(hex));
        rest = &rest[text.len() + bad..];
    }
    if let Some(last) = cells.last_mut().filter(|last| last.shown == " ") {
        *last = hex(&b' ');
    }
    cells
}

/// Marks what differs between two lines: all but their common beginning and their common end.
pub fn mark_difference(left: &mut [Cell], right: &mut [Cell]) {
    let same = |pair: &(&Cell, &Cell)| pair.0.shown == pair.1.shown;
    let start = left.iter().zip(right.iter()).take_while(same).count();
    let end = left[start..].iter().rev().zip(right[start..].iter().rev()).take_while(same).count();
    for side in [left, right] {
        let len = side.len();
        side[start..len - end].iter_mut().for_each(|cell| cell.marked = true);
    }
}

/// Marks the bad byte at a place of a line with these cells. What stands before it is UTF-8, so it is a cell of its own.
pub fn mark_byte(line: &[u8], at: usize, of_line: &mut [Cell]) {
    let before = cells(&line[..at]).len();
    of_line[before].marked = true;
}

/// Columns that the cells take.
pub fn columns(cells: &[Cell]) -> usize {
    cells.iter().map(|cell| cell.width).sum()
}

/// The cells in pieces of at most `most` columns; one piece where there are none. `most` is wider than any cell.
pub fn pieces(cells: &[Cell], most: usize) -> Vec<&[Cell]> {
    let (mut pieces, mut start, mut taken) = (Vec::new(), 0, 0);
    for (at, cell) in cells.iter().enumerate() {
        if taken + cell.width > most {
            pieces.push(&cells[start..at]);
            (start, taken) = (at, 0);
        }
        taken += cell.width;
    }
    pieces.push(&cells[start..]);
    pieces
}
