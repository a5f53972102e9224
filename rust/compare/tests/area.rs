//! docs/AREA.md, the decoder and the Rattle code have one layout, and the decoder finds what breaks the page's rules.
mod page;
mod plain;
use compare::area::{decode, lines, Part, COLUMNS, PARTS, SESSION, SIZE};
use compare::made::{keyed, line_at, put_two};
use compare::{lined, Answer};
use page::{file, number, table};
use plain::Plain;

#[test]
fn the_parts_fill_the_area() {
    let mut at = 0;
    for part in &PARTS {
        assert_eq!(part.at, at, "{}", part.name);
        let mut offset = 0;
        for (field, width, name) in part.fields {
            assert_eq!(*field, offset, "{} {name}", part.name);
            offset += width;
        }
        assert_eq!(part.width, offset, "{}", part.name);
        at += part.bytes();
    }
    assert_eq!(at, SESSION);
    // behind them the lines: a column for each part, in the parts' order, and two more
    for (number, column) in COLUMNS.iter().enumerate() {
        assert_eq!(column.at, at, "{}", column.name);
        let of = PARTS.get(number).map_or(("medias", 32), |part| (part.name, part.rows.max(1)));
        assert_eq!(column.cells, of.1, "{} of {}", column.name, of.0);
        assert!(number >= PARTS.len() || column.name == of.0, "{}", column.name);
        at += 2 * column.cells;
    }
    assert_eq!(at, SIZE);
}

#[test]
fn the_page_has_the_decoder_s_parts() {
    let rows = table("The parts");
    assert_eq!(rows.len(), PARTS.len());
    for (row, part) in rows.iter().zip(&PARTS) {
        let [name, at, bytes, count, width] = &row[..5] else {
            panic!("a row of the parts has five cells or more")
        };
        assert_eq!(name, part.name);
        assert_eq!((number(at), number(bytes)), (part.at, part.bytes()), "{name}");
        let table = (count != "-").then(|| (number(count), number(width)));
        assert_eq!(table, (part.rows > 0).then_some((part.rows, part.width)), "{name}");
    }
    assert!(file("docs/AREA.md").contains(&format!("{SIZE} bytes, which `sdp_area_size` answers too: {SESSION} for")));
}

#[test]
fn the_page_has_the_decoder_s_columns() {
    let rows = table("Lines");
    let page: Vec<_> = rows.iter().map(|row| (&row[0][..], number(&row[1]), number(&row[2]))).collect();
    let due: Vec<_> = COLUMNS.iter().map(|column| (column.name, column.at, column.cells)).collect();
    assert_eq!(page, due);
    // from the same lines as the parts
    for (row, part) in rows.iter().zip(table("The parts")) {
        assert_eq!(row[3][..1], part[5][..1], "{}", row[0]);
    }
}

#[test]
fn the_page_has_the_decoder_s_fields() {
    let mut compared = 0;
    for part in &PARTS {
        let rows = table(part.name);
        let fields: Vec<_> = rows.iter().map(|row| (number(&row[0]), number(&row[1]), &row[2][..])).collect();
        assert_eq!(fields, part.fields, "{}", part.name);
        compared += fields.len();
    }
    println!("area: {compared} fields of the page compared");
}

#[test]
fn the_example_is_what_a_reader_leaves() {
    let (text, area) = page::example();
    let mut left = vec![0xa5; SIZE];
    assert_eq!(Plain { slip: "" }.read(&text, &mut left).answer, Answer::default());
    for (at, (page, left)) in area.iter().zip(&left).enumerate() {
        assert_eq!(page, left, "byte {at} of the example");
    }
    assert!(decode(&area).unwrap().strings(&text).is_ok());
    // its lines are those that the text has by itself
    assert_eq!(lined::check(&text, &area), Ok(()));
}

/// The constant that the Rattle code has for a part.
fn constant(part: &Part) -> String {
    part.name.strip_prefix("media ").unwrap_or(part.name).to_uppercase()
}

#[test]
fn the_code_has_the_decoder_s_places() {
    let code = file("crates/sdp_area/src/lib.rt");
    let value = |name: &str| {
        let lines = code.lines().map(|line| line.strip_prefix("pub ").unwrap_or(line));
        let mut values = lines.filter_map(|line| line.strip_prefix(&format!("const {name}: usize = ")));
        let value = values.next().unwrap_or_else(|| panic!("lib.rt has a constant {name}"));
        assert_eq!(values.next(), None);
        number(value.trim_end_matches(';'))
    };
    assert_eq!(value("AREA_SIZE"), SIZE);
    for column in &COLUMNS {
        // EMAIL_LINES, CONNECTION_LINE and CONNECTION_LINES
        let name = column.name.strip_prefix("media ").unwrap_or(column.name).to_uppercase();
        let name = match column.cells {
            1 => name + "_LINE",
            _ => name.strip_suffix('S').expect("a table").to_string() + "_LINES",
        };
        assert_eq!(value(&name), column.at, "{name}");
    }
    for part in &PARTS {
        assert_eq!(value(&constant(part)), part.at, "{}", part.name);
        if part.rows > 0 {
            // its one call that adds a row; emails and phones share one
            let call = match part.name {
                "emails" | "phones" => {
                    assert!(code.contains(&format!("=> {},\n", constant(part))), "contacts_at knows {}", part.name);
                    "push_words(area, contacts_at(which), ".to_string()
                }
                _ => format!("push_words(area, {}, ", constant(part)),
            };
            let calls: Vec<&str> = code.split(&call[..]).skip(1).collect();
            let [rest] = calls[..] else { panic!("lib.rt pushes {} in one place", part.name) };
            assert_eq!(number(rest.split(',').next().unwrap()), part.rows, "{}", part.name);
        }
    }
}

#[test]
fn the_definition_has_the_decoder_s_tables() {
    let definition = file("crates/sdp_area/specs/Area.antt");
    let after = |name: &str| {
        let mut values = definition.lines().filter_map(|line| line.strip_prefix(&format!("{name} = ")));
        number(values.next().unwrap_or_else(|| panic!("Area.antt defines {name}")))
    };
    assert_eq!(after("size"), SESSION);
    // a table's limit is named there, and stands on the page of the paper's numbers
    let numbers = file("crates/sdp_numbers/specs/Tables.antt");
    let limit = |name: &str| {
        let mut values = numbers.lines().filter_map(|line| line.strip_prefix(&format!("{name} = ")));
        number(values.next().unwrap_or_else(|| panic!("Tables.antt defines {name}")))
    };
    let mut tables = Vec::new();
    for line in definition.lines() {
        if let Some((_, rest)) = line.split_once(" tab ") {
            let words: Vec<&str> = rest.split([' ', '(', ')']).collect();
            tables.push((limit(words[0]), number(words[1])));
        }
    }
    let due: Vec<_> = PARTS[6..].iter().map(|part| (part.rows, part.width)).collect();
    assert_eq!(tables, due);
    for part in &PARTS {
        assert_eq!(after(&format!("{}_at", constant(part).to_lowercase())), part.at);
    }
}

#[test]
fn the_definition_has_the_decoder_s_columns() {
    let definition = file("crates/sdp_area/specs/Columns.antt");
    let after = |name: &str| {
        let mut values = definition.lines().filter_map(|line| line.strip_prefix(&format!("{name} = ")));
        number(values.next().unwrap_or_else(|| panic!("Columns.antt defines {name}")))
    };
    let mut cells = 0;
    for column in &COLUMNS {
        let name = column.name.strip_prefix("media ").unwrap_or(column.name);
        assert_eq!((after(&format!("{name}_cell")), column.at), (cells, SESSION + 2 * cells), "{name}");
        cells += column.cells;
    }
    assert_eq!((after("cells"), after("area_size")), (cells, SIZE));
    assert!(definition.contains("\ncell_at i = size + i * 2\n"));
}

/// A session with something in every part, and also absent fields. Its keys are those of an area that was kept, with lines.
fn rich() -> (Vec<u8>, Vec<u8>) {
    let text = b"v=0\no=u 1 2 IN IP4 h\ns=n\ni=d\nu=u\ne=e\ne=f\np=p\nc=IN IP4 h\nb=AS:1\nt=1 2\nr=1 2 3 4\nt=3 4\n\
        r=5 6 7\nz=1 -2\nk=m:t\na=x\na=y:z\nm=a 1 p f\ni=t\nc=A B C\nb=CT:5\nk=q\na=w:\nm=b 2/3 p f\nc=D E F\nk=m:t\na=v\n";
    let mut area = vec![0xa5; SIZE];
    assert_eq!(Plain { slip: "" }.read(text, &mut area).answer, Answer::default());
    let mut area = keyed(text, &area);
    for (column, cell, line) in [("key", 0, 16), ("media keys", 0, 24), ("media keys", 1, 28)] {
        put_two(&mut area, line_at(column, cell), line);
    }
    (text.to_vec(), area)
}

/// No byte of the area is passed over: a change is a broken rule, another session or another line.
#[test]
fn every_byte_counts() {
    let (_, area) = rich();
    let decode = |area: &[u8]| decode(area).map(|seen| (seen, COLUMNS.iter().map(|column| lines(area, column)).collect::<Vec<_>>()));
    let seen = decode(&area).unwrap();
    assert!(seen.1.iter().all(|lines| lines[0] > 0), "every column has a line");
    let (mut broken, mut other) = (0, 0);
    for at in 0..SIZE {
        for value in [0, 1, 2, 0x80, 0xff] {
            let mut changed = area.clone();
            changed[at] = value;
            if changed == area {
                continue;
            }
            match decode(&changed) {
                Err(_) => broken += 1,
                Ok(read) => {
                    assert_ne!(read, seen, "byte {at} with {value}");
                    other += 1;
                }
            }
        }
    }
    println!("area: {broken} changes break a rule, {other} give another session or another line");
    assert!(broken > 4 * 15_000 && other > 600);
}

#[test]
fn broken_rules_are_found() {
    let (text, area) = rich();
    let two = |at: usize, value: u16| {
        let mut changed = area.clone();
        changed[at..at + 2].copy_from_slice(&value.to_le_bytes());
        decode(&changed).and_then(|seen| seen.strings(&text).map(|_| seen))
    };
    let at = |name: &str, row: usize, offset: usize| {
        let part = PARTS.iter().find(|part| part.name == name).unwrap();
        part.at + if part.rows > 0 { 2 + row * part.width } else { 0 } + offset
    };
    assert!(decode(&area[..SIZE - 1]).unwrap_err().contains("16938"));
    // marks
    for place in [
        at("origin", 0, 0),
        at("origin", 0, 2),
        at("uri", 0, 0),
        at("key", 0, 0),
        at("key", 0, 6),
        at("attributes", 1, 6),
        at("medias", 0, 18),
        at("medias", 1, 6),
        at("medias", 1, 24),
        at("medias", 1, 30),
    ] {
        assert!(two(place, 1).is_ok());
        assert!(two(place, 2).unwrap_err().contains("mark is 2"));
        assert!(two(place, 0).unwrap_err().contains("absent and not zero"));
    }
    // places: the text's end is still inside, for an empty string
    let len = text.len() as u16;
    assert!(two(at("name", 0, 0), len).unwrap_err().contains("outside"));
    assert!(two(at("name", 0, 0), len - 1).is_ok());
    assert!(two(at("name", 0, 2), len).unwrap_err().contains("outside"));
    // counts
    for part in &PARTS[6..] {
        assert!(two(part.at, part.rows as u16 + 1).unwrap_err().contains("fit"), "{}", part.name);
        let count = u16::from(area[part.at]);
        assert!(two(part.at, count - 1).unwrap_err().contains("not all zero"), "{}", part.name);
    }
    // owners: within their table, never falling, and never 0 where that names nothing
    for (name, rows, most) in [
        ("media connections", 2, 2),
        ("bandwidths", 2, 2),
        ("repeats", 2, 2),
        ("offsets", 3, 2),
        ("attributes", 4, 2),
    ] {
        assert!(two(at(name, rows - 1, 0), most).is_ok());
        assert!(two(at(name, rows - 1, 0), most + 1).unwrap_err().contains("of 2"), "{name}");
        assert!(two(at(name, 0, 0), 3).unwrap_err().contains("owner"), "{name}");
        if name != "bandwidths" {
            assert!(two(at(name, rows - 1, 0), 0).unwrap_err().contains("after"), "{name}");
        }
    }
    assert!(two(at("bandwidths", 0, 0), 2).unwrap_err().contains("after"));
    assert!(two(at("media connections", 0, 0), 0).unwrap_err().contains("after"));
    assert!(two(at("repeats", 0, 0), 0).unwrap_err().contains("after"));
    // lines: of counted rows and of what is there up to the limit, and else none
    for column in &COLUMNS {
        let place = line_at(column.name, 0);
        assert!(two(place, 0).is_ok() && two(place, 32_768).is_ok(), "{}", column.name);
        for line in [32_769, 0xffff] {
            assert!(two(place, line).unwrap_err().contains("above 32768"), "{}", column.name);
        }
        if column.cells > 1 {
            assert!(two(line_at(column.name, column.cells - 1), 1).unwrap_err().contains("of nothing"), "{}", column.name);
        }
    }
    assert!(two(line_at("media titles", 1), 1).unwrap_err().contains("of nothing"), "the second media has no title");
    let mut none = vec![0; SIZE];
    for (column, there) in [("origin", false), ("name", true), ("uri", false), ("key", false)] {
        put_two(&mut none, line_at(column, 0), 7);
        assert_eq!(decode(&none).is_ok(), there, "{column}");
        put_two(&mut none, line_at(column, 0), 0);
    }
}

/// The finder of lines, on a text whose lines are numbered by hand.
#[test]
fn the_finder_of_lines() {
    let text = b"\r\n\nv=0\r\nx=\no=- 1 2 I J h\n\ns=n\nk=\nt=1 0\nr=1 1\nr=1  1 2 3 \nz=1 -1h  2 0\r\n\ne=x\nc=A B C\nv=0\n\
        m=a 1 p f\nt=junk\ns=\nm=b 2 p f\r\ni=t\r\n\r\nc=A B C\nb=:1\na=x";
    let due: &[(&str, &[usize])] = &[
        ("origin", &[5]),
        ("name", &[7]),
        ("times", &[9]),
        ("repeats", &[10, 11]),
        ("offsets", &[11, 11]),
        ("zones", &[12, 12]),
        ("emails", &[14]),
        ("connection", &[15]),
        ("medias", &[17, 20]),
        ("media titles", &[0, 21]),
        ("media connections", &[23]),
        ("bandwidths", &[24]),
        ("attributes", &[25]),
    ];
    for (column, lines) in lined::found(text) {
        let of = due.iter().find(|(name, _)| *name == column.name).map_or(&[][..], |(_, lines)| lines);
        assert_eq!(lines[..of.len()], *of, "{}", column.name);
        assert!(lines.len() == column.cells && lines[of.len()..].iter().all(|line| *line == 0), "{}", column.name);
    }
}
