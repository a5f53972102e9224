//! The lines that an area must have (document 02, P9), found from the text alone: a walk along its lines that knows which
//! letters have a use, and nothing of what stands in the area. It is for accepted texts.
use crate::area::{lines, Column, COLUMNS};

/// Each column by its name, with the line of each of its cells.
pub type Lines = Vec<(&'static Column, Vec<usize>)>;

/// How many words stand between runs of spaces.
fn words(value: &[u8]) -> usize {
    value.split(|byte| *byte == b' ').filter(|word| !word.is_empty()).count()
}

/// Where each record of an accepted text stands.
pub fn found(text: &[u8]) -> Lines {
    let mut found: Lines = COLUMNS.iter().map(|column| (column, Vec::new())).collect();
    let mut put = |name: &str, cell: Option<usize>, line: usize| {
        let (_, lines) = found.iter_mut().find(|(column, _)| column.name == name).expect("a column");
        let cell = cell.unwrap_or(lines.len());
        lines.resize(lines.len().max(cell + 1), 0);
        lines[cell] = line;
    };
    let (mut begun, mut medias) = (false, 0);
    for (line, bytes) in (1..).zip(text.split(|byte| *byte == b'\n')) {
        let bytes = bytes.strip_suffix(b"\r").unwrap_or(bytes);
        let Some(letter) = bytes.first() else { continue };
        // the first one is the version's
        if !std::mem::replace(&mut begun, true) {
            continue;
        }
        let value = bytes.get(2..).unwrap_or(b"");
        let mut next = |name: &str| put(name, None, line);
        match (medias > 0, letter) {
            (false, b'o') => next("origin"),
            (false, b's') => next("name"),
            (false, b'i') => next("description"),
            (false, b'u') => next("uri"),
            (false, b'e') => next("emails"),
            (false, b'p') => next("phones"),
            (false, b'c') => next("connection"),
            (false, b't') => next("times"),
            (false, b'r') => {
                next("repeats");
                // behind interval and duration
                (2..words(value)).for_each(|_| next("offsets"));
            }
            (false, b'z') => (0..words(value) / 2).for_each(|_| next("zones")),
            (_, b'b') => next("bandwidths"),
            (_, b'a') => next("attributes"),
            (_, b'm') => {
                next("medias");
                medias += 1;
            }
            (true, b'c') => next("media connections"),
            (true, b'i') => put("media titles", Some(medias - 1), line),
            _ => {}
        }
    }
    // nothing has a line in the cells that are left
    found.iter_mut().for_each(|(column, lines)| lines.resize(column.cells.max(lines.len()), 0));
    found
}

/// Holds all cells of an accepted text's lines to the text: those of its records, and the others to 0.
pub fn check(text: &[u8], area: &[u8]) -> Result<(), String> {
    for (column, due) in found(text) {
        let ours = lines(area, column);
        if ours != due {
            let cell = ours.iter().zip(&due).position(|(ours, due)| ours != due).unwrap_or(ours.len());
            let of = |lines: &[usize]| lines.get(cell).copied();
            return Err(format!("{} {}: line {:?}, and it stands in {:?}", column.name, cell + 1, of(&ours), of(&due)));
        }
    }
    Ok(())
}
