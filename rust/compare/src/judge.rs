//! Which areas can be written: document 01, "Writing", in its words, and document 02, P9, over the layout of docs/AREA.md.
//! Every cell of an area is either judged or, past a count or in an absent field, not looked at.
use crate::area::{all_zero, Column, Part, COLUMNS, PARTS, SIZE};
use std::collections::BTreeSet;
use std::sync::OnceLock;
use std::time::{Duration, Instant};

/// A reason for 23. "A number is out of its Rust type" is none here: every pattern of bytes in a number's cell is a
/// number of that type.
#[derive(Debug, Clone, Copy, PartialEq, Eq, PartialOrd, Ord)]
pub enum Fault {
    /// A count is above its table.
    Count,
    /// A place lies outside the text.
    Outside,
    /// A string is not UTF-8.
    Encoding,
    /// An owner is 0 where that names nothing.
    OwnerZero,
    /// An owner points past its table's count.
    OwnerPast,
    /// An owner is lower than that of the row before.
    OwnerFalls,
    /// A presence mark is neither present nor absent.
    Mark,
    /// "23 also for a line above 32,768."
    Line,
}

pub const FAULTS: [Fault; 8] = [
    Fault::Count,
    Fault::Outside,
    Fault::Encoding,
    Fault::OwnerZero,
    Fault::OwnerPast,
    Fault::OwnerFalls,
    Fault::Mark,
    Fault::Line,
];

#[derive(Debug, Clone, Copy, PartialEq, Eq)]
pub enum Kind {
    Count,
    Mark,
    Owner,
    Text,
    Number,
    Line,
}

/// A cell of the area. Row 0 is the first one. Of a line the part is that of the record.
#[derive(Debug, Clone, Copy)]
pub struct Cell {
    pub part: &'static Part,
    pub row: usize,
    pub name: &'static str,
    pub kind: Kind,
    pub at: usize,
    pub width: usize,
    /// Neither past a count nor of an absent field.
    pub judged: bool,
}

/// Each mark by its part and name, and the last of the fields after it that it speaks for.
const MARKS: [(&str, &str, &str); 12] = [
    ("origin", "mark", "unicast-address"),
    ("origin", "username mark", "username"),
    ("description", "mark", "description"),
    ("uri", "mark", "uri"),
    ("connection", "mark", "address"),
    ("key", "mark", "text"),
    ("key", "text mark", "text"),
    ("attributes", "value mark", "value"),
    ("medias", "num-ports mark", "num-ports"),
    ("medias", "title mark", "title"),
    ("medias", "key mark", "key text"),
    ("medias", "key text mark", "key text"),
];

/// Each column with the part whose lines it has, what its cells are called, and the mark by which its line is there: the name
/// has none, and a row of a table needs none.
const LINES: [(&str, &str, &str, Option<&str>); 18] = [
    ("origin", "origin", "line", Some("mark")),
    ("name", "name", "line", None),
    ("description", "description", "line", Some("mark")),
    ("uri", "uri", "line", Some("mark")),
    ("connection", "connection", "line", Some("mark")),
    ("key", "key", "line", Some("mark")),
    ("emails", "emails", "line", None),
    ("phones", "phones", "line", None),
    ("media connections", "media connections", "line", None),
    ("bandwidths", "bandwidths", "line", None),
    ("times", "times", "line", None),
    ("repeats", "repeats", "line", None),
    ("offsets", "offsets", "line", None),
    ("zones", "zones", "line", None),
    ("attributes", "attributes", "line", None),
    ("medias", "medias", "line", None),
    ("media titles", "medias", "title line", Some("title mark")),
    ("media keys", "medias", "key line", Some("key mark")),
];

/// Each table with owners: the lowest owner, and the table that an owner names a row of.
pub const OWNED: [(&str, usize, &str); 5] = [
    ("media connections", 1, "medias"),
    ("bandwidths", 0, "medias"),
    ("repeats", 1, "times"),
    ("offsets", 1, "repeats"),
    ("attributes", 0, "medias"),
];

/// The lowest owner of a table, and the table that its owners name.
pub fn owners_of(part: &Part) -> (usize, &'static str) {
    let of = OWNED.iter().find(|(name, ..)| *name == part.name);
    of.map(|(_, lowest, of)| (*lowest, *of)).expect("a table with owners")
}

pub fn part(name: &str) -> &'static Part {
    PARTS.iter().find(|part| part.name == name).expect("a part of the area")
}

pub fn two(area: &[u8], at: usize) -> usize {
    usize::from(area[at]) + 256 * usize::from(area[at + 1])
}

fn kind(name: &str, width: usize) -> Kind {
    match width {
        2 if name.ends_with("mark") => Kind::Mark,
        2 if name == "owner" => Kind::Owner,
        4 => Kind::Text,
        _ => Kind::Number,
    }
}

/// The cells of each part, one after another, with none judged; and of a mark the place behind the last field that it
/// speaks for. Made once: they are the same in every area.
fn layout() -> &'static [Vec<(Cell, usize)>] {
    static LAYOUT: OnceLock<Vec<Vec<(Cell, usize)>>> = OnceLock::new();
    LAYOUT.get_or_init(|| {
        let parts: Vec<_> = PARTS.iter().map(laid).collect();
        let cells = parts.iter().flatten().map(|(cell, _)| cell).chain(lines().iter().flatten().map(|(cell, _)| cell));
        let end = cells.fold(0, |at, cell| {
            assert_eq!(cell.at, at, "{} {}: no byte lies between two cells", cell.part.name, cell.name);
            at + cell.width
        });
        assert_eq!(end, SIZE);
        parts
    })
}

/// The cells of each column, in the same way, and of each the place of the mark that it needs.
fn lines() -> &'static [Vec<(Cell, Option<usize>)>] {
    static LAYOUT: OnceLock<Vec<Vec<(Cell, Option<usize>)>>> = OnceLock::new();
    LAYOUT.get_or_init(|| COLUMNS.iter().zip(LINES).map(|(column, of)| lined(column, of)).collect())
}

fn lined(column: &Column, of: (&str, &str, &'static str, Option<&str>)) -> Vec<(Cell, Option<usize>)> {
    let (of_column, of_part, name, mark) = of;
    assert_eq!(column.name, of_column);
    let part = part(of_part);
    assert_eq!(column.cells, part.rows.max(1), "{of_column} has a cell for each row");
    let at = |row: usize| Cell { part, row, name, kind: Kind::Line, at: column.at + 2 * row, width: 2, judged: false };
    let mark = mark.map(|mark| {
        let field = part.fields.iter().find(|(.., name)| *name == mark).expect("a mark of the part");
        part.at + if part.rows > 0 { 2 } else { 0 } + field.0
    });
    (0..column.cells).map(|row| (at(row), mark.map(|mark| mark + row * part.width))).collect()
}

fn laid(part: &'static Part) -> Vec<(Cell, usize)> {
    let cell = |row, name, kind, at, width| Cell { part, row, name, kind, at, width, judged: false };
    let (mut cells, mut at) = (Vec::new(), part.at);
    if part.rows > 0 {
        cells.push((cell(0, "count", Kind::Count, at, 2), 0));
        at += 2;
    }
    for row in 0..part.rows.max(1) {
        for (offset, width, name) in part.fields {
            cells.push((cell(row, name, kind(name, *width), at + offset, *width), at + behind(part, name)));
        }
        at += part.width;
    }
    cells
}

/// The cells that are judged, in their order.
fn judged(area: &[u8]) -> impl Iterator<Item = &'static Cell> + '_ {
    let lines = lines().iter().flatten().filter(move |(cell, mark)| {
        let used = cell.part.rows == 0 || cell.row < two(area, cell.part.at);
        used && mark.map_or(true, |mark| two(area, mark) == 1)
    });
    let parts = layout().iter().zip(&PARTS).flat_map(move |(cells, part)| {
        let used = match part.rows {
            0 => cells.len(),
            rows => 1 + rows.min(two(area, part.at)) * part.fields.len(),
        };
        let mut absent_to = 0;
        cells[..used].iter().filter(move |(cell, behind)| {
            let judged = cell.at >= absent_to;
            if judged && cell.kind == Kind::Mark && two(area, cell.at) != 1 {
                absent_to = *behind;
            }
            judged
        })
    });
    parts.map(|(cell, _)| cell).chain(lines.map(|(cell, _)| cell))
}

/// All cells of the area, one after another.
pub fn cells(area: &[u8]) -> Vec<Cell> {
    let mut judged = judged(area).map(|cell| cell.at).peekable();
    let marked = |cell: &Cell| Cell { judged: judged.next_if_eq(&cell.at).is_some(), ..*cell };
    let parts = layout().iter().flatten().map(|(cell, _)| cell);
    parts.chain(lines().iter().flatten().map(|(cell, _)| cell)).map(marked).collect()
}

/// Where in a row the fields end that a mark speaks for; 0 for another field.
fn behind(part: &Part, name: &str) -> usize {
    let of = MARKS.iter().find(|(of, mark, _)| *of == part.name && *mark == name);
    assert_eq!(of.is_some(), name.ends_with("mark"), "{} {name}: each mark is in the list", part.name);
    of.map_or(0, |(_, _, last)| {
        let field = part.fields.iter().find(|(.., name)| name == last);
        field.map(|(offset, width, _)| offset + width).expect("a field of the part")
    })
}

/// All reasons to refuse this area with 23; none for a good one.
pub fn faults(text: &[u8], area: &[u8]) -> BTreeSet<Fault> {
    let mut faults = BTreeSet::new();
    let mut before = (None, 0);
    for cell in judged(area) {
        match cell.kind {
            Kind::Number => {}
            Kind::Count => {
                if two(area, cell.at) > cell.part.rows {
                    faults.insert(Fault::Count);
                }
            }
            Kind::Mark => {
                if two(area, cell.at) > 1 {
                    faults.insert(Fault::Mark);
                }
            }
            Kind::Line => {
                if two(area, cell.at) > 32_768 {
                    faults.insert(Fault::Line);
                }
            }
            Kind::Text => {
                let place = two(area, cell.at);
                match text.get(place..place + two(area, cell.at + 2)) {
                    None => drop(faults.insert(Fault::Outside)),
                    Some(bytes) if std::str::from_utf8(bytes).is_err() => drop(faults.insert(Fault::Encoding)),
                    Some(_) => {}
                }
            }
            Kind::Owner => {
                let owner = two(area, cell.at);
                let (lowest, of) = owners_of(cell.part);
                if owner < lowest {
                    faults.insert(Fault::OwnerZero);
                }
                if owner > two(area, part(of).at) {
                    faults.insert(Fault::OwnerPast);
                }
                if before.0 == Some(cell.part.name) && owner < before.1 {
                    faults.insert(Fault::OwnerFalls);
                }
                before = (Some(cell.part.name), owner);
            }
        }
    }
    faults
}

/// Whether the writer must take it.
pub fn judge(text: &[u8], area: &[u8]) -> bool {
    faults(text, area).is_empty()
}

/// The area as a reader would have left it: zero in every cell that isn't judged, and nothing beyond.
pub fn cleaned(area: &[u8]) -> Vec<u8> {
    let mut clean = vec![0; SIZE];
    for cell in judged(area) {
        let at = cell.at..cell.at + cell.width;
        clean[at.clone()].copy_from_slice(&area[at]);
    }
    clean
}

/// To make a failing area small.
const LONG_ENOUGH: Duration = Duration::from_secs(20);

/// The area with zero in each cell that isn't needed for `differs` to hold, as it does for `area`.
pub fn emptiest(area: &[u8], mut differs: impl FnMut(&[u8]) -> bool) -> Vec<u8> {
    let mut small = area.to_vec();
    let start = Instant::now();
    loop {
        let before = small.clone();
        for cell in cells(&before) {
            let cell_at = cell.at..cell.at + cell.width;
            if all_zero(&small[cell_at.clone()]) || start.elapsed() > LONG_ENOUGH {
                continue;
            }
            let mut less = small.clone();
            less[cell_at].fill(0);
            if differs(&less) {
                small = less;
            }
        }
        if small == before {
            return small;
        }
    }
}

/// The cells of an area that are not zero, a line for each.
pub fn in_words(area: &[u8]) -> String {
    let mut report = String::new();
    for cell in cells(area) {
        let bytes = &area[cell.at..cell.at + cell.width];
        let (part, row, name, at) = (cell.part.name, cell.row + 1, cell.name, cell.at);
        if !all_zero(bytes) {
            report += &format!("{part} row {row} {name} at {at}: {bytes:02x?}\n");
        }
    }
    report + "all other cells are zero\n"
}
