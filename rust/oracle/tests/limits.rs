//! Document 01's rules 1 and 21, which the crate doesn't have.
mod common;
use common::{accepted, join, refused};
use generate::{random::count, texts, Random};
use oracle::limits::{counts, full, TABLES, TEXT};
use oracle::refusal::{line_start, parse};
use oracle::{keys, read, Refusal};

#[test]
fn the_generator_has_the_same_limits() {
    assert_eq!(generate::sessions::TABLES, TABLES);
    assert_eq!(generate::sessions::LONGEST, TEXT);
}

#[test]
fn text_too_long() {
    let mut text = b"v=0\ns=".to_vec();
    text.resize(32_768, b'x');
    assert!(read(&text).is_ok());
    text.push(b'x');
    assert_eq!(
        read(&text),
        Err(Refusal {
            number: 1,
            ..Refusal::default()
        })
    );
    // before anything of the text is looked at
    assert_eq!(
        read(&vec![0; 32_769]),
        Err(Refusal {
            number: 1,
            ..Refusal::default()
        })
    );
}

/// The tables that fill line by line: number, size, the lines before, and a line that adds one record. Offsets and
/// zones, many to a line, are below.
const ONE: [(usize, usize, &[&[u8]], &[u8]); 8] = [
    (1, 16, &[b"v=0"], b"e=x"),
    (2, 16, &[b"v=0"], b"p=x"),
    (3, 64, &[b"v=0", b"m=a 1 p f"], b"c=IN IP4 h"),
    (4, 64, &[b"v=0"], b"b=AS:1"),
    (5, 32, &[b"v=0"], b"t=0 0"),
    (6, 64, &[b"v=0", b"t=0 0"], b"r=1 1"),
    (9, 512, &[b"v=0"], b"a=x"),
    (10, 32, &[b"v=0"], b"m=a 1 p f"),
];

#[test]
fn each_table_one_by_one() {
    for (table, most, before, line) in ONE {
        let mut lines = before.to_vec();
        lines.resize(before.len() + most, line);
        assert_eq!(counts(&accepted(&lines))[table - 1], most);
        lines.push(line);
        let full = (21, lines.len() as u64, table as u64);
        assert_eq!(refused(&lines), full);
        // a bad value on that line comes first
        let (spoilt, number) = match line[0] {
            b'e' | b'p' | b'a' => ([&line[..2], b"\xff"].concat(), 8),
            _ => (line[..2].to_vec(), 10),
        };
        let mut bad = lines.clone();
        *bad.last_mut().unwrap() = &spoilt;
        assert_eq!((refused(&bad).0, refused(&bad).1), (number, full.1));
        // what follows doesn't matter, what stands before does
        let later = [&lines[..], &[&spoilt, b"no form"]].concat();
        assert_eq!(refused(&later), full);
        let mut earlier = lines.clone();
        earlier[1] = b"no form";
        assert_eq!(refused(&earlier), (4, 2, 0));
    }
}

#[test]
fn offsets_and_zones() {
    let repeat = |offsets: usize| format!("r=1 1{}", " 0".repeat(offsets)).into_bytes();
    let zones = |pairs: usize| format!("z={}", "0 1 ".repeat(pairs)).into_bytes();
    accepted(&[&repeat(256)]);
    assert_eq!(refused(&[&repeat(257)]), (21, 3, 7));
    accepted(&[&repeat(200), b"t=0 0", &repeat(56), &repeat(0)]);
    assert_eq!(refused(&[&repeat(200), b"t=0 0", &repeat(56), &repeat(1)]), (21, 6, 7));
    accepted(&[&zones(64)]);
    assert_eq!(refused(&[&zones(65)]), (21, 2, 8));
    // a bad value anywhere on the line comes before 21
    assert_eq!(refused(&[&[&zones(65)[..], b"0 x"].concat()]), (9, 2, 22));
    assert_eq!(refused(&[&[&zones(65)[..], b"0"].concat()]), (10, 2, 22));
    assert_eq!(refused(&[&[&repeat(300)[..], b" \xff"].concat()]), (8, 3, 20));
}

#[test]
fn of_two_full_tables_the_lower() {
    let mut lines: Vec<&[u8]> = vec![b"v=0", b"t=0 0", b"r=1 1 2"];
    let many = format!("r=1 1{}", " 0".repeat(256));
    lines.resize(2 + 64, b"r=1 1 2");
    assert_eq!(counts(&accepted(&lines))[5..7], [64, 64]);
    lines.push(many.as_bytes());
    assert_eq!(refused(&lines), (21, 67, 6));
    // offsets alone don't fit one line earlier
    lines.remove(65);
    assert_eq!(refused(&lines), (21, 66, 7));
}

#[test]
fn session_and_medias_count_together() {
    let m: &[u8] = b"m=a 1 p f";
    for (line, table, most) in [(&b"b=AS:1"[..], 4, 64), (b"a=x", 9, 512)] {
        let mut lines: Vec<&[u8]> = vec![b"v=0"];
        lines.resize(1 + most / 2, line);
        lines.push(m);
        lines.resize(2 + most - 1, line);
        lines.push(m);
        lines.push(line);
        accepted(&lines);
        lines.push(line);
        assert_eq!(refused(&lines), (21, most as u64 + 4, table));
    }
    // the session's own connection is not in the table of media connections
    let mut lines: Vec<&[u8]> = vec![b"v=0", b"c=IN IP4 h", m];
    lines.resize(3 + 64, b"c=IN IP4 h");
    accepted(&lines);
}

/// The same rule said plainly: the first beginning of whole lines that the crate, without its k lines, refuses or that
/// doesn't fit. The line is that at which the beginning ends.
fn line_by_line(text: &[u8]) -> Result<oracle::Session, Refusal> {
    let lines = text.split_inclusive(|byte| *byte == b'\n').count();
    for line in 1..=lines {
        let end = if line == lines {
            text.len()
        } else {
            line_start(text, line + 1)
        };
        match parse(&keys::without(&text[..end]).text) {
            Ok(session) => {
                if let Some(table) = full(&session) {
                    return Err(Refusal {
                        number: 21,
                        line: line as u64,
                        field: table,
                        place: 0,
                        len: 0,
                    });
                }
            }
            // a beginning of empty lines has no version yet
            Err(Refusal { number: 6, .. }) if text[..end].iter().all(|byte| matches!(byte, b'\r' | b'\n')) => {}
            Err(refusal) => {
                let line = if refusal.number == 6 { 0 } else { line as u64 };
                return Err(Refusal { line, ..refusal });
            }
        }
    }
    parse(&keys::without(text).text)
}

#[test]
fn halving_gives_what_going_line_by_line_gives() {
    let mut random = Random::of_test("limits");
    let (mut compared, mut full) = (0, 0);
    for _ in 0..count(1_500) {
        // good texts with one kind of line repeated until some table is near its end
        let (letter, most) = [
            (b'e', 20),
            (b'p', 20),
            (b'b', 80),
            (b't', 40),
            (b'r', 90),
            (b'a', 530),
            (b'm', 40),
            (b'c', 80),
            (b'z', 2),
        ][random.below(9)];
        let mut lines: Vec<Vec<u8>> = vec![b"v=0".to_vec(), b"t=0 0".to_vec()];
        if letter == b'c' {
            lines.push(b"m=a 1 p f".to_vec());
        }
        for _ in 0..random.between(most / 2, most) {
            let value = match letter {
                b'r' => format!("1 1{}", " 5".repeat(random.below(9))).into_bytes(),
                b'z' => "0 1 ".repeat(random.between(60, 70)).into_bytes(),
                b'm' => b"a 1 p f".to_vec(),
                b'c' => b"IN IP4 h".to_vec(),
                b'b' => b"AS:1".to_vec(),
                b't' => b"0 0".to_vec(),
                _ => b"x".to_vec(),
            };
            lines.push([&[letter, b'='], &value[..]].concat());
        }
        for _ in 0..random.below(3) {
            let at = random.between(1, lines.len());
            let bad = random.pick(&["", "x=\u{e9}", "k=\u{e9}", "k=", "nothing", "t=x", "m=a 1 p f", "i="]);
            lines.insert(at, bad.as_bytes().to_vec());
        }
        let text = join(&lines.iter().map(|line| &line[..]).collect::<Vec<_>>());
        let answer = read(&text);
        full += u64::from(matches!(answer, Err(Refusal { number: 21, .. })));
        assert_eq!(answer, line_by_line(&text));
        compared += 1;
    }
    for _ in 0..count(1_500) {
        let text = texts::text(&mut random);
        assert_eq!(read(&text), line_by_line(&text));
        compared += 1;
    }
    println!("limits: {compared} random texts compared, {full} with a full table");
    assert!(full * 20 > compared, "the generator fills tables often");
}
