//! Areas that no reader made: good ones with any strings, numbers, owners and lines, and damage to an area.
use crate::area::{Column, Part, COLUMNS, PARTS, SESSION, SIZE};
use crate::judge::{cells, owners_of, part, two, Cell, Kind, OWNED};
use generate::{fields, Random};

pub fn put_two(area: &mut [u8], at: usize, value: usize) {
    area[at..at + 2].copy_from_slice(&(value as u16).to_le_bytes());
}

pub fn put_eight(area: &mut [u8], at: usize, value: u64) {
    area[at..at + 8].copy_from_slice(&value.to_le_bytes());
}

/// The offset of a field in the area; for a part that is no table the row is 0.
pub fn at(name: &str, row: usize, field: &str) -> usize {
    let part = part(name);
    let (offset, ..) = part.fields.iter().find(|(.., known)| *known == field).expect("a field of the part");
    part.at + if part.rows > 0 { 2 + row * part.width } else { 0 } + offset
}

/// The offset of a line in the area, by its column and row.
pub fn line_at(column: &str, row: usize) -> usize {
    COLUMNS.iter().find(|known| known.name == column).expect("a column").at + 2 * row
}

/// A text for strings to stand in: characters of every length, NUL, CR and LF among them, and some bytes that are no
/// character.
pub fn text(random: &mut Random) -> Vec<u8> {
    let mut text = Vec::new();
    for _ in 0..random.below(9) {
        match random.below(6) {
            0 => text.extend(fields::BROKEN[random.below(fields::BROKEN.len())]),
            1 => text.extend(random.pick(&[&b"\r"[..], b"\n", b"\0", b"\r\n", b"-", b"IN IP4", b"in", b":", b" "])),
            _ => text.extend(fields::string(random, 30)),
        }
    }
    if random.once_in(250) {
        text.resize(32_768 - random.below(3), random.letter(b"x\n\xff"));
    }
    text
}

/// A string that is UTF-8, as place and length: often empty, often short, now and then up to the text's end.
pub fn string(random: &mut Random, text: &[u8]) -> (usize, usize) {
    for _ in 0..4 {
        let place = random.below(text.len() + 1);
        let most = text.len() - place;
        let len = match random.below(6) {
            0 => 0,
            1 => most,
            2 => random.below(most + 1).min(200),
            _ => random.below(most + 1).min(12),
        };
        if std::str::from_utf8(&text[place..place + len]).is_ok() {
            return (place, len);
        }
    }
    (random.below(text.len() + 1), 0)
}

/// A number near an end of its type or of a unit, or any.
pub fn number(random: &mut Random) -> u64 {
    let unit = [1, 60, 3_600, 86_400][random.below(4)];
    match random.below(6) {
        0 => random.below(3) as u64,
        1 => (random.below(400) as u64 * unit).wrapping_add(random.below(2) as u64),
        2 => u64::MAX / unit * unit,
        3 => (1u64 << 63).wrapping_add(random.below(3) as u64).wrapping_sub(1),
        4 => (random.below(100_000) as u64 * unit).wrapping_neg(),
        _ => random.next(),
    }
}

/// A line that is good, at an end or between.
fn line(random: &mut Random) -> usize {
    match random.below(6) {
        0 => 0,
        1 => 32_768,
        2 => 32_767,
        3 => random.below(300),
        _ => random.below(32_769),
    }
}

fn count(random: &mut Random, part: &Part) -> usize {
    match random.below(14) {
        0 => part.rows,
        1..=5 => 0,
        6 => random.below(part.rows + 1),
        _ => random.between(1, 5),
    }
}

/// A good area: every judged cell holds something that the writer must take. The others are zero or noise.
pub fn area(random: &mut Random, text: &[u8]) -> Vec<u8> {
    let mut area = vec![0; SIZE];
    let present = random.between(1, 4);
    for part in PARTS.iter().filter(|part| part.rows > 0) {
        let rows = count(random, part);
        put_two(&mut area, part.at, rows);
    }
    // before the owners: a table whose owners would name nothing is empty
    for (name, lowest, of) in OWNED {
        if lowest > two(&area, part(of).at) {
            put_two(&mut area, part(name).at, 0);
        }
    }
    for (name, lowest, of) in OWNED {
        let (rows, most) = (two(&area, part(name).at), two(&area, part(of).at));
        let mut owners: Vec<usize> = (0..rows).map(|_| random.between(lowest, most)).collect();
        owners.sort();
        for (row, owner) in owners.into_iter().enumerate() {
            put_two(&mut area, at(name, row, "owner"), owner);
        }
    }
    let all = cells(&area);
    for cell in all.iter().filter(|cell| cell.kind == Kind::Mark) {
        put_two(&mut area, cell.at, usize::from(random.below(present) == 0));
    }
    let noise = random.once_in(2);
    for cell in cells(&area) {
        if !cell.judged {
            if noise {
                area[cell.at..cell.at + cell.width].fill_with(|| random.byte());
            } else {
                area[cell.at..cell.at + cell.width].fill(0);
            }
            continue;
        }
        match cell.kind {
            Kind::Text => {
                let (place, len) = string(random, text);
                put_two(&mut area, cell.at, place);
                put_two(&mut area, cell.at + 2, len);
            }
            Kind::Number if cell.width == 8 => {
                let value = number(random);
                put_eight(&mut area, cell.at, value);
            }
            Kind::Number => {
                let value = number(random);
                put_two(&mut area, cell.at, value as u16 as usize);
            }
            Kind::Line => {
                let value = line(random);
                put_two(&mut area, cell.at, value);
            }
            Kind::Count | Kind::Mark | Kind::Owner => {}
        }
    }
    area
}

/// The area as a release before P9 left it, and zeros behind: no line is known.
pub fn earlier(area: &[u8]) -> Vec<u8> {
    let mut earlier = area[..SESSION].to_vec();
    earlier.resize(SIZE, 0);
    earlier
}

/// The area of an accepted text with the keys that a release put there which read k lines: the first one of the session and
/// of each media is its key. It refused a second one, and one that is not UTF-8; these give no key here. `area` is what is
/// read of the text today. That release noted no lines; see `earlier`.
pub fn keyed(text: &[u8], area: &[u8]) -> Vec<u8> {
    let mut keyed = area.to_vec();
    let (mut start, mut begun, mut medias) = (0, false, 0);
    for whole in text.split_inclusive(|byte| *byte == b'\n') {
        let line = whole.strip_suffix(b"\n").map_or(whole, |line| line.strip_suffix(b"\r").unwrap_or(line));
        let mark = match medias {
            0 => at("key", 0, "mark"),
            _ => at("medias", medias - 1, "key mark"),
        };
        match line.first() {
            Some(b'm') => medias += 1,
            Some(b'k') if begun && two(&keyed, mark) == 0 && std::str::from_utf8(line).is_ok() => {
                let (place, value) = (start + 2, &line[2..]);
                let method = value.iter().position(|byte| *byte == b':').unwrap_or(value.len());
                let mut cells = vec![1, place, method];
                if method < value.len() {
                    cells.extend([1, place + method + 1, value.len() - method - 1]);
                }
                cells.into_iter().zip((mark..).step_by(2)).for_each(|(cell, at)| put_two(&mut keyed, at, cell));
            }
            _ => {}
        }
        begun |= !line.is_empty();
        start += whole.len();
    }
    keyed
}

/// The kinds of damage.
pub const DAMAGES: [&str; 10] = [
    "count", "place", "length", "owner", "fallen owner", "mark", "line", "judged cell", "cell not judged", "bytes",
];

fn pick<'a>(random: &mut Random, cells: &'a [Cell], wanted: impl Fn(&Cell) -> bool) -> Option<&'a Cell> {
    let of: Vec<&Cell> = cells.iter().filter(|cell| wanted(cell)).collect();
    (!of.is_empty()).then(|| of[random.below(of.len())])
}

/// Changes one cell, or a few bytes. What was wanted may have no cell in this area: then nothing changes.
pub fn damage(random: &mut Random, kind: &str, text: &[u8], area: &mut [u8]) {
    let all = cells(area);
    let len = text.len();
    match kind {
        "count" => {
            let Some(cell) = pick(random, &all, |cell| cell.kind == Kind::Count) else { return };
            let (count, rows) = (two(area, cell.at), cell.part.rows);
            let value = match random.below(8) {
                0 | 1 => rows + 1,
                2 => rows,
                3 => count + 1,
                4 => count.saturating_sub(1),
                5 => count + 256,
                6 => 0xffff,
                _ => random.below(0x1_0000),
            };
            put_two(area, cell.at, value);
        }
        "place" | "length" => {
            let Some(cell) = pick(random, &all, |cell| cell.judged && cell.kind == Kind::Text) else { return };
            let (place, used) = (two(area, cell.at), two(area, cell.at + 2));
            let (at, before, end) = match kind {
                "place" => (cell.at, place, len.saturating_sub(used)),
                _ => (cell.at + 2, used, len.saturating_sub(place)),
            };
            let value = match random.below(9) {
                0 => end,
                1 | 2 => end + 1,
                3 => before + 1,
                4 => before.saturating_sub(1),
                5 => 0xffff,
                6 => len,
                7 => random.below(end + 2),
                _ => random.below(0x1_0000),
            };
            put_two(area, at, value);
        }
        "owner" | "fallen owner" => {
            let later = kind == "fallen owner";
            let is_owner = |cell: &Cell| cell.judged && cell.kind == Kind::Owner && (!later || cell.row > 0);
            let Some(cell) = pick(random, &all, is_owner) else { return };
            let most = two(area, part(owners_of(cell.part).1).at);
            let owner = two(area, cell.at);
            let value = if later {
                // one less than the row before
                two(area, cell.at - cell.part.width).saturating_sub(1)
            } else {
                match random.below(8) {
                    0 | 1 => 0,
                    2 | 3 => most + 1,
                    4 => most,
                    5 => owner + 1,
                    6 => owner.saturating_sub(1),
                    _ => random.below(0x1_0000),
                }
            };
            put_two(area, cell.at, value);
        }
        "mark" => {
            let Some(cell) = pick(random, &all, |cell| cell.judged && cell.kind == Kind::Mark) else { return };
            let value = match random.below(8) {
                0 => 0,
                1 => 1,
                2 => 2,
                3 => 256,
                4 => 257,
                5 => 0xffff,
                6 => 0x0101,
                _ => random.below(0x1_0000),
            };
            put_two(area, cell.at, value);
        }
        "line" => {
            // each column that has such a cell as often as another, and not attributes most of all
            let judged = !random.once_in(6);
            let wanted = |cell: &&Cell, column: &Column| {
                cell.judged == judged && (column.at..column.at + 2 * column.cells).contains(&cell.at)
            };
            let of_column = |column| all.iter().filter(|cell| wanted(cell, column)).collect::<Vec<&Cell>>();
            let columns: Vec<Vec<&Cell>> = COLUMNS.iter().map(of_column).filter(|cells| !cells.is_empty()).collect();
            if columns.is_empty() {
                return;
            }
            let cells = &columns[random.below(columns.len())];
            let cell = cells[random.below(cells.len())];
            let value = match random.below(8) {
                0 => 0,
                1 => 32_767,
                2 => 32_768,
                3 | 4 => 32_769,
                5 => 0xffff,
                6 => 0x8100,
                _ => random.below(0x1_0000),
            };
            put_two(area, cell.at, value);
        }
        "judged cell" => {
            let Some(cell) = pick(random, &all, |cell| cell.judged) else { return };
            area[cell.at..cell.at + cell.width].fill_with(|| random.byte());
        }
        "cell not judged" => {
            for _ in 0..random.between(1, 40) {
                let Some(cell) = pick(random, &all, |cell| !cell.judged) else { return };
                area[cell.at..cell.at + cell.width].fill_with(|| random.byte());
            }
        }
        "bytes" => {
            for _ in 0..random.between(1, 6) {
                let at = random.below(area.len());
                area[at] = random.byte();
            }
        }
        _ => panic!("no damage of the kind {kind}"),
    }
}
