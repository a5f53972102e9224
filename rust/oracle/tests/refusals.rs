//! Each refusal number and each field of document 01 comes out of the crate by our mapping.
mod common;
use common::{accepted, refusal, refused, sample};
use generate::{fields, random::count, texts, Random};
use oracle::refusal::{field, parse, FIELDS};
use oracle::Refusal;
use std::collections::BTreeSet;

#[test]
fn every_number() {
    assert_eq!(refusal(&vec![b'\n'; 32_769]).number, 1); // 2, the record area, is no question to the crate
    assert_eq!(refused(&[b"v=0", b"a=\0"]), (3, 2, 0));
    assert_eq!(refused(&[b"v=0", b"", b"a"]), (4, 3, 0));
    assert_eq!(refused(&[b"v=0", b"aa="]), (5, 2, 0));
    assert_eq!(
        refusal(b"\n\n"),
        Refusal {
            number: 6,
            ..Refusal::default()
        }
    );
    assert_eq!(
        refusal(b"\n\r\nv=\n"),
        Refusal {
            number: 7,
            line: 3,
            field: 0,
            place: 5,
            len: 0
        }
    );
    assert_eq!(refused(&[b"s=\xff"]), (8, 2, 34));
    assert_eq!(refused(&[b"t=a 0"]), (9, 2, 15));
    assert_eq!(refused(&[b"t="]), (10, 2, 15));
    assert_eq!(refused(&[b"t=0 0 0"]), (11, 2, 17));
    let second: [(u64, &[u8], &[u8]); 6] = [
        (12, b"o=- 0 0 IN IP4 h", b"o="),
        (13, b"s=", b"s=\xff"),
        (14, b"i=", b"i=\xff"),
        (15, b"u=", b"u=\xff"),
        (16, b"c=IN IP4 h", b"c="),
        (17, b"z=", b"z=x"),
    ];
    for (number, first, second) in second {
        accepted(&[first]);
        assert_eq!(refused(&[first, second]), (number, 3, 0));
    }
    // in a media, and again in the next one
    assert_eq!(
        refused(&[b"m=a 1 p f", b"i=", b"m=a 1 p f", b"i=", b"i=\xff"]),
        (18, 6, 0)
    );
    // 19 never occurs: a second k line is ignored as the first one is
    for second in [b"k=".as_slice(), b"k=\xff"] {
        accepted(&[b"k=x", second]);
        accepted(&[b"m=a 1 p f", b"k=", b"m=a 1 p f", b"k=", second]);
    }
    assert_eq!(refused(&[b"a=", b"r=x"]), (20, 3, 0));
    let mut lines: Vec<&[u8]> = vec![b"v=0"];
    lines.resize(18, b"e=");
    assert_eq!(refused(&lines), (21, 18, 1));
}

#[test]
fn the_line_that_is_due_wins() {
    // form before use: also in ignored lines, whose values are free
    assert_eq!(refused(&[b"v=0", b"x=\r"]), (3, 2, 0));
    accepted(&[b"x=\xff"]);
    // the version line's own form comes before 6 and 7
    assert_eq!(refusal(b"v=1\r").number, 3);
    assert_eq!(refusal(b"x").number, 4);
    assert_eq!(refusal(b"x=").number, 6);
    // a bad value before a later line's form
    assert_eq!(refused(&[b"t=", b"x"]), (10, 2, 15));
    assert_eq!(refused(&[b"m=", b"x"]), (10, 2, 28));
}

#[test]
fn every_field() {
    // in document 01's order, "Fields"
    let lines: [&[u8]; 38] = [
        b"o=",
        b"o=-",
        b"o=- 0 x",
        b"o=- 0 0 (",
        b"o=- 0 0 IN (",
        b"o=- 0 0 IN IP4",
        b"o=- 0 0 IN IP4 h x",
        b"c=(",
        b"c=IN (",
        b"c=IN IP4",
        b"c=IN IP4 h x",
        b"b=\xff",
        b"b=AS:x",
        b"b=AS:1:",
        b"t=x",
        b"t=0 x",
        b"t=0 0 0",
        b"r=x",
        b"r=1 x",
        b"r=1 1 x",
        b"z=x",
        b"z=0 x",
        b"a=\xff",
        b"a=x:\xff",
        b"k=\xff",
        b"k=x:\xff",
        b"m=\xff",
        b"m=a x p f",
        b"m=a \xff p f",
        b"m=a 1/x p f",
        b"m=a 1",
        b"m=a 1 p",
        b"i=\xff",
        b"s=\xff",
        b"i=\xff",
        b"u=\xff",
        b"e=\xff",
        b"p=\xff",
    ];
    for (at, line) in lines.iter().enumerate() {
        let number = at as u64 + 1;
        let text = if number == 33 {
            sample(&[b"m=a 1 p f", line])
        } else {
            sample(&[line])
        };
        // those of a k line are reserved: the crate alone names them
        if RESERVED.contains(&number) {
            assert_eq!(parse(&text).unwrap_err().field, number);
            accepted(&[line]);
        } else {
            assert_eq!(refusal(&text).field, number, "{}", String::from_utf8_lossy(line));
        }
        assert_eq!(field(FIELDS[at]), number);
    }
}

/// The fields of a k line.
const RESERVED: [u64; 2] = [25, 26];

/// Which of 8 (encoding), 9 (format), 10 (missing) and 11 (trailing) each field can have by the crate alone: 65 pairs.
fn possible() -> BTreeSet<(u64, u64)> {
    let by_field: [&[u64]; 38] = [
        &[8, 10],
        &[8, 10],
        &[8, 9, 10],
        &[9, 10],
        &[9, 10],
        &[8, 10],
        &[11], // o
        &[9, 10],
        &[9, 10],
        &[8, 10],
        &[11], // c
        &[8],
        &[8, 9, 10],
        &[11], // b
        &[8, 9, 10],
        &[8, 9, 10],
        &[11], // t
        &[8, 9, 10],
        &[8, 9, 10],
        &[8, 9], // r
        &[8, 9],
        &[8, 9, 10], // z
        &[8],
        &[8], // a
        &[8],
        &[8], // k
        &[8],
        &[9, 10],
        &[8],
        &[9],
        &[8, 10],
        &[8, 10],
        &[8], // m and its i
        &[8],
        &[8],
        &[8],
        &[8],
        &[8], // s i u e p
    ];
    let pairs = by_field.iter().enumerate();
    pairs
        .flat_map(|(at, numbers)| numbers.iter().map(move |number| (*number, at as u64 + 1)))
        .collect()
}

#[test]
fn pairs_of_number_and_field() {
    // each field of each line replaced by bad bytes, left out, or followed by one more
    let lines: [(u8, &[&str], &str); 14] = [
        (b'o', &["-", "0", "0", "IN", "IP4", "h"], " "),
        (b'c', &["IN", "IP4", "h"], " "),
        (b'b', &["AS", "5"], ":"),
        (b't', &["0", "0"], " "),
        (b'r', &["1d", "1h", "0"], " "),
        (b'z', &["0", "-1h"], " "),
        (b'a', &["x", "y"], ":"),
        (b'k', &["x", "y"], ":"),
        (b'm', &["a", "1", "p", "f"], " "),
        (b's', &["x"], ""),
        (b'i', &["x"], ""),
        (b'u', &["x"], ""),
        (b'e', &["x"], ""),
        (b'p', &["x"], ""),
    ];
    let (mut seen, mut by_the_crate) = (BTreeSet::new(), BTreeSet::new());
    for (letter, good, between) in lines {
        for at in 0..=good.len() {
            for bad in [&b"\xff"[..], b"(", b"1/x", b"1/\xff"] {
                for keep in 0..=good.len() + 1 {
                    let mut parts: Vec<&[u8]> = good.iter().map(|part| part.as_bytes()).collect();
                    parts.push(bad);
                    parts.swap(at, good.len()); // the last round leaves the bad bytes as an extra field
                    parts.truncate(keep);
                    let line = [&[letter, b'='], &parts.join(between.as_bytes())[..]].concat();
                    // once in the session and once in a media
                    for text in [sample(&[&line]), sample(&[b"m=a 1 p f", &line])] {
                        for (answer, pairs) in [(oracle::read(&text), &mut seen), (parse(&text), &mut by_the_crate)] {
                            if let Err(Refusal {
                                number: number @ 8..=11,
                                field,
                                ..
                            }) = answer
                            {
                                pairs.insert((number, field));
                            }
                        }
                    }
                }
            }
        }
    }
    assert_eq!(by_the_crate, possible());
    assert_eq!(by_the_crate.len(), 65);
    by_the_crate.retain(|(_, field)| !RESERVED.contains(field));
    assert_eq!(seen, by_the_crate);
    assert_eq!(seen.len(), 63);
    // the generator aims at these
    assert_eq!(seen, generate::sessions::PAIRS.into_iter().collect());
}

#[test]
fn random_texts_stay_within_the_pairs() {
    let mut random = Random::of_test("pairs");
    let possible = possible();
    let (mut compared, mut accepted) = (0, 0);
    let (mut numbers, mut without_keys) = (BTreeSet::new(), BTreeSet::new());
    for _ in 0..count(200_000) {
        let mut text = texts::text(&mut random);
        if random.once_in(3) {
            fields::damage(&mut random, &mut text);
        }
        if let Err(refusal) = oracle::read(&text) {
            without_keys.insert(refusal.number);
            assert!(refusal.number == 21 || !RESERVED.contains(&refusal.field), "{refusal:?}");
        }
        match parse(&text) {
            Ok(_) => accepted += 1,
            Err(refusal) => {
                numbers.insert(refusal.number);
                match refusal.number {
                    8..=11 => assert!(possible.contains(&(refusal.number, refusal.field)), "{refusal:?}"),
                    3..=7 | 12..=20 => assert_eq!(refusal.field, 0),
                    number => panic!("the crate has no refusal {number}"),
                }
            }
        }
        compared += 1;
    }
    println!("pairs: {compared} random texts read, {accepted} accepted, numbers seen {numbers:?}");
    println!("pairs: without k lines {without_keys:?}");
    // the generator reaches both sides well
    assert!(accepted * 5 > compared && accepted * 5 < compared * 4);
    if compared >= 100_000 {
        assert_eq!(numbers, (3..=20).collect());
        assert_eq!(without_keys, (3..=20).filter(|number| *number != 19).collect());
    }
}
