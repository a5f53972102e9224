//! The page: the text on the left, its canonical form on the right, a mark between them. For a refused text the text
//! alone, with the refused line marked, and the byte where one is not UTF-8.
use crate::align::{align, lines, Dropped, Row};
use crate::cells::{cells, columns, mark_byte, mark_difference, pieces, Cell};
use crate::Accepted;
use sdp::{Counts, Error};

/// No row is wider than this.
pub const WIDTH: usize = 100;
/// A text may have so many bytes.
pub const LONGEST: usize = 32_768;

/// How a part of a row looks on a terminal.
#[derive(Debug, Clone, Copy, PartialEq, Eq)]
enum Ink {
    Plain,
    /// Numbers and notes.
    Faint,
    Changed,
    Dropped,
    Added,
    Moved,
    Refused,
}

impl Ink {
    fn code(self) -> &'static str {
        match self {
            Ink::Plain => "",
            Ink::Faint => "2",
            Ink::Changed => "33",
            Ink::Dropped => "31",
            Ink::Added => "32",
            Ink::Moved => "36",
            Ink::Refused => "1;31",
        }
    }
}

/// What stands in one column of a row.
struct Side {
    /// The line's number, from 1; notes and titles have none.
    number: Option<usize>,
    cells: Vec<Cell>,
    ink: Ink,
}

fn line(at: usize, bytes: &[u8], ink: Ink) -> Side {
    Side { number: Some(at + 1), cells: cells(bytes), ink }
}

fn note(words: &str) -> Side {
    let cells = cells(words.as_bytes());
    Side { number: None, cells, ink: if words.starts_with('(') { Ink::Faint } else { Ink::Plain } }
}

fn why_dropped(why: Dropped) -> &'static str {
    match why {
        Dropped::Empty => "(an empty line)",
        Dropped::LaterVersion => "(only the first v has a use)",
        Dropped::InSession => "(no use for this letter)",
        Dropped::InMedia => "(no use for this letter after m)",
        Dropped::Key => "(k is obsolete: RFC 8866, section 5.12)",
        Dropped::Nothing => "(no zones in it)",
    }
}

fn why_added(line: &[u8]) -> &'static str {
    match line.first() {
        Some(b'o') => "(no origin: the placeholder)",
        Some(b's') => "(no name)",
        Some(b't') => "(no times)",
        _ => "(not in the text)",
    }
}

/// How a text's lines end, for its title.
fn endings(text: &[u8]) -> String {
    let ended: Vec<&[u8]> = text.split_inclusive(|byte| *byte == b'\n').filter(|line| line.ends_with(b"\n")).collect();
    let with_cr = ended.iter().filter(|line| line.ends_with(b"\r\n")).count();
    let kinds = match (ended.len() - with_cr, with_cr) {
        (0, 0) => "",
        (_, 0) => "LF",
        (0, _) => "CR LF",
        _ => "LF and CR LF",
    };
    match (kinds, text.last()) {
        (_, None) => "empty".into(),
        (kinds, Some(b'\n')) => kinds.into(),
        ("", _) => "no line end".into(),
        (kinds, _) => format!("{kinds}, the last without"),
    }
}

/// Writes rows: columns of numbers, text and marks, with colour or without.
struct Pen {
    out: String,
    colour: bool,
    /// Spaces that are due before the next part; at a row's end they are dropped.
    spaces: usize,
}

impl Pen {
    fn put(&mut self, ink: Ink, shown: &str, width: usize, column: usize) {
        if !shown.is_empty() {
            self.out.extend(std::iter::repeat(' ').take(std::mem::take(&mut self.spaces)));
            match (self.colour, ink.code()) {
                (false, _) | (_, "") => self.out.push_str(shown),
                (true, code) => self.out.push_str(&format!("\x1b[{code}m{shown}\x1b[0m")),
            }
        }
        self.spaces += column - width;
    }

    fn number(&mut self, number: Option<usize>, digits: usize) {
        let shown = number.map_or(String::new(), |number| format!("{number:>digits$}"));
        self.put(Ink::Faint, &shown, shown.len(), digits);
    }

    /// A piece of a line, in a column of this width. What is marked is also in reverse.
    fn piece(&mut self, piece: &[Cell], ink: Ink, column: usize) {
        let width = columns(piece);
        let mut rest = piece;
        while let Some(first) = rest.first() {
            let len = rest.iter().take_while(|cell| cell.marked == first.marked).count();
            let shown: String = rest[..len].iter().map(|cell| cell.shown.as_str()).collect();
            if first.marked && self.colour {
                self.put(ink, &format!("\x1b[7m{shown}"), 0, 0);
            } else {
                self.put(ink, &shown, 0, 0);
            }
            rest = &rest[len..];
        }
        self.spaces += column - width;
    }

    fn mark(&mut self, mark: char, ink: Ink) {
        self.spaces += 1;
        let shown = if mark == ' ' { String::new() } else { mark.to_string() };
        self.put(ink, &shown, shown.len(), 1);
        self.spaces += 1;
    }

    fn end(&mut self) {
        self.spaces = 0;
        self.out.push('\n');
    }
}

/// What becomes of a text, and the page that shows it.
pub fn page(text: &[u8], answer: &Result<Accepted, Error>, colour: bool) -> String {
    let pen = Pen { out: String::new(), colour, spaces: 0 };
    match answer {
        Ok(Accepted { written, from, counts }) => both(pen, text, written, from) + &told(counts),
        Err(refusal) => refused(pen, text, *refusal),
    }
}

/// What the reader made of the text's lines. It begins with a word of its own, as no row and no refusal does.
fn told(counts: &Counts) -> String {
    let Counts { empty, ignored, kept } = counts;
    let all = counts.lines();
    let lines = if all == 1 { "line" } else { "lines" };
    format!("text: {all} {lines}, {kept} kept, {ignored} ignored, {empty} empty\n")
}

fn both(mut pen: Pen, text: &[u8], written: &[u8], from: &[u64]) -> String {
    let (left, right) = (lines(text), lines(written));
    let aligned = align(&left, &right, from);
    let mut rows = vec![(
        note(&format!("text ({})", endings(text))),
        ' ',
        note(&format!("canonical form ({})", endings(written))),
    )];
    rows.extend(aligned.iter().map(|row| row_of(row, &left, &right)));

    let digits = left.len().max(right.len()).to_string().len().max(2);
    // even, so that lines that are too long for both columns go on at the same place in both
    let room = (WIDTH - 2 * digits - 5) / 2 * 2;
    let widest = |side: fn(&(Side, char, Side)) -> &Side| rows.iter().map(|row| columns(&side(row).cells)).max();
    let (left_needs, right_needs) = (widest(|row| &row.0), widest(|row| &row.2));
    let left_width = left_needs.unwrap_or(0).min((room / 2).max(room.saturating_sub(right_needs.unwrap_or(0))));
    let right_width = room - left_width;
    for (left, mark, right) in &rows {
        let (left_pieces, right_pieces) = (pieces(&left.cells, left_width), pieces(&right.cells, right_width));
        for at in 0..left_pieces.len().max(right_pieces.len()) {
            let first = at == 0;
            pen.number(left.number.filter(|_| first), digits);
            pen.spaces += 1;
            pen.piece(left_pieces.get(at).copied().unwrap_or(&[]), left.ink, left_width);
            pen.mark(if first { *mark } else { ' ' }, if left.number.is_some() { left.ink } else { right.ink });
            pen.number(right.number.filter(|_| first), digits);
            pen.spaces += 1;
            pen.piece(right_pieces.get(at).copied().unwrap_or(&[]), right.ink, right_width);
            pen.end();
        }
    }
    let count = |of: fn(&Row) -> bool| aligned.iter().filter(|row| of(row)).count();
    pen.end();
    pen.out.push_str(&format!(
        "= {} same   ~ {} changed   - {} dropped   + {} added   > < {} moved\n",
        count(|row| matches!(row, Row::Same { .. })),
        count(|row| matches!(row, Row::Changed { .. })),
        count(|row| matches!(row, Row::Dropped { .. })),
        count(|row| matches!(row, Row::Added { .. })),
        count(|row| matches!(row, Row::MovedFrom { .. })),
    ));
    pen.out
}

fn row_of(row: &Row, left: &[&[u8]], right: &[&[u8]]) -> (Side, char, Side) {
    let pair = |at: usize, to: usize, ink: Ink| {
        let (mut from, mut became) = (line(at, left[at], ink), line(to, right[to], ink));
        mark_difference(&mut from.cells, &mut became.cells);
        (from, became)
    };
    let also = |at: usize, to: usize| if left[at] == right[to] { "" } else { ", changed" };
    match *row {
        Row::Same { left: at, right: to } => {
            let (from, became) = pair(at, to, Ink::Plain);
            (from, '=', became)
        }
        Row::Changed { left: at, right: to } => {
            let (from, became) = pair(at, to, Ink::Changed);
            (from, '~', became)
        }
        Row::Dropped { left: at, why } => (line(at, left[at], Ink::Dropped), '-', note(why_dropped(why))),
        Row::Added { right: to } => (note(why_added(right[to])), '+', line(to, right[to], Ink::Added)),
        Row::MovedFrom { left: at, right: to } => {
            (pair(at, to, Ink::Moved).0, '>', note(&format!("(to line {}{})", to + 1, also(at, to))))
        }
        Row::MovedTo { left: at, right: to } => {
            (note(&format!("(from line {}{})", at + 1, also(at, to))), '<', pair(at, to, Ink::Moved).1)
        }
    }
}

fn refused(mut pen: Pen, text: &[u8], error: Error) -> String {
    let at = error.line();
    // of a text that is too long only the beginning was read
    let shown = if text.len() > LONGEST { &[][..] } else { text };
    let title = if text.len() > LONGEST { "more than 32,768 bytes, not shown".into() } else { endings(text) };
    let left = lines(shown);
    let digits = left.len().to_string().len().max(2);
    let width = WIDTH - digits - 3;
    pen.spaces = digits + 3;
    pen.put(Ink::Plain, &format!("text ({title})"), 0, 0);
    pen.end();
    for (count, bytes) in left.iter().enumerate() {
        let this = count as u64 + 1 == at;
        let mut side = line(count, bytes, if this { Ink::Refused } else { Ink::Plain });
        if let Some(nth) = error.byte_in_line().filter(|_| this) {
            mark_byte(bytes, nth as usize - 1, &mut side.cells);
        }
        for (n, piece) in pieces(&side.cells, width).into_iter().enumerate() {
            pen.number(side.number.filter(|_| n == 0), digits);
            pen.mark(if this && n == 0 { '!' } else { ' ' }, side.ink);
            pen.piece(piece, side.ink, width);
            pen.end();
            // carets below the byte; the ! tells them from a line that goes on
            if let Some(cell) = piece.iter().position(|cell| cell.marked) {
                pen.number(None, digits);
                pen.mark('!', side.ink);
                pen.spaces += columns(&piece[..cell]);
                pen.put(side.ink, &"^".repeat(piece[cell].width), 0, 0);
                pen.end();
            }
        }
    }
    pen.end();
    pen.out + &format!("refused {} line {at} field {}\n{}", error.number(), error.field(), rows(&error.to_string()))
}

/// A sentence in rows of whole words.
pub fn rows(sentence: &str) -> String {
    let mut out = String::new();
    let mut width = 0;
    for word in sentence.split(' ') {
        if width > 0 && width + 1 + word.len() > WIDTH {
            out.push('\n');
            width = 0;
        } else if width > 0 {
            out.push(' ');
            width += 1;
        }
        out.push_str(word);
        width += word.len();
    }
    out.push('\n');
    out
}
