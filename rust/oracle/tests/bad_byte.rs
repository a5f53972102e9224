//! The bad byte of a refusal with 8, by hand for each field that can have one, below lines of every kind.
mod common;
use common::refusal;
use generate::sessions::{self, fields_of};
use generate::{random::count, texts, Random};
use oracle::bad_byte::find;
use oracle::Refusal;
use std::collections::BTreeMap;

/// A line, its field that isn't UTF-8, where the bad byte stands in the line, from 0, and how the field starts and ends.
type Sample = (&'static [u8], u64, usize, Range);
type Range = (usize, usize);

#[rustfmt::skip] // a row for each field
const SAMPLES: [Sample; 56] = [
    (b"o=\xff 0 0 I J h", 1, 2, (2, 3)), (b"o=  \xc3\xa9\xff", 1, 6, (4, 7)), (b"o=a\xc3 0 0 I J h", 1, 3, (2, 4)),
    (b"o=- \xff", 2, 4, (4, 5)), (b"o=-   x\xe2\x82 0 \xff", 2, 7, (6, 9)),
    (b"o=- 0 1\xff I J h", 3, 7, (6, 8)), (b"o= \xc3\xa9 \xc3\xa9 \xc3", 3, 9, (9, 10)),
    (b"o=- 0 0 I J h\xed\xa0\x80", 6, 13, (12, 16)), (b"o=- 0 0 I J \xf0\x9f\x8e x", 6, 12, (12, 15)),
    (b"c=I J \xff", 10, 6, (6, 7)), (b"c=  I  J  h\xc2 x", 10, 11, (10, 12)),
    (b"b=\xff", 12, 2, (2, 3)), (b"b=A\xc3:1", 12, 3, (2, 4)), (b"b= \xff :\xff", 12, 3, (2, 5)),
    (b"b=:\xff", 13, 3, (3, 4)), (b"b=AS:1\xe2\x82:x", 13, 6, (5, 8)), (b"b=\xc3\xa9: \xff:", 13, 6, (5, 7)),
    (b"t=\xff 0", 15, 2, (2, 3)), (b"t= 1\xc3 0", 15, 4, (3, 5)),
    (b"t=0 \xff", 16, 4, (4, 5)), (b"t=0  1\xf0\x9f 5", 16, 6, (5, 8)),
    (b"r=\xffd 1", 18, 2, (2, 4)), (b"r=7\xc3d 1", 18, 3, (2, 5)), (b"r=\xc3", 18, 2, (2, 3)),
    (b"r=7d \xffh", 19, 5, (5, 7)), (b"r= 7d  1\xc3s", 19, 8, (7, 10)),
    (b"r=1 1 0 9\xff 5", 20, 9, (8, 10)), (b"r=1 1 2\xc3", 20, 7, (6, 8)), (b"r=1 1 \xffm \xff", 20, 6, (6, 8)),
    (b"z=\xff", 21, 2, (2, 3)), (b"z=0 1 2\xc3 0", 21, 7, (6, 8)), (b"z=0 -1h \xc2 \xff", 21, 8, (8, 9)),
    (b"z=0 -\xff", 22, 5, (4, 6)), (b"z=0 -1h 1 -2\xc2h", 22, 12, (10, 14)), (b"z=0 \xff -\xff", 22, 4, (4, 5)),
    (b"a=\xff", 23, 2, (2, 3)), (b"a=x\xc3:\xa9", 23, 3, (2, 4)), (b"a= \xff :y", 23, 3, (2, 5)),
    (b"a=x:\xff", 24, 4, (4, 5)), (b"a=x:y:\xe2\x82", 24, 6, (4, 8)), (b"a=:\xe2\x82\xac \xff z", 24, 7, (3, 10)),
    (b"m=\xff 1 p f", 27, 2, (2, 3)), (b"m=\xc3 \xa9", 27, 2, (2, 3)),
    (b"m=a \xff p f", 29, 4, (4, 5)), (b"m=a 1/\xff p f", 29, 6, (4, 7)), (b"m= 1/2\xc3/ p", 29, 6, (3, 8)),
    (b"m=a 1 \xff f", 31, 6, (6, 7)), (b"m= 1 x\xc3 f", 31, 6, (5, 7)),
    (b"m=a 1 p \xff", 32, 8, (8, 9)), (b"m=a 1  96 \xc3\xa9 \xf4\x90", 32, 13, (7, 15)),
    (b"i=a\xe2\x82", 33, 3, (2, 5)),
    (b"s=Stage \xff1", 34, 8, (2, 10)),
    (b"i=\xc3\xa9:\xff", 35, 5, (2, 6)),
    (b"u=http://\xff\xff", 36, 9, (2, 11)),
    (b"e= \xf5 ", 37, 3, (2, 5)),
    (b"p=+\xc0\x80", 38, 3, (2, 5)),
];

/// What may stand above a line, all of it accepted: LF, CR LF, empty lines, lines that are ignored, whatever they have.
const ABOVE: [&[u8]; 7] = [
    b"v=0\n",
    b"v=0\r\n",
    b"\n\r\nv=0\n\n\r\n",
    b"v=0\nx=\xff\ny=\xc3\r\n",
    b"v=0\r\nk=\xff\n\nk=\xe2\x82\r\n",
    "v=0\na=\u{e9}\r\n\r\nx=\u{20ac}\n".as_bytes(),
    b"v=0\nb=A:1\n\n\n",
];

#[test]
fn by_hand() {
    let mut seen: Vec<u64> = SAMPLES.iter().map(|sample| sample.1).collect();
    seen.dedup();
    let mut compared = 0;
    for (line, field, at, (from, to)) in SAMPLES {
        for above in ABOVE {
            let before: &[u8] = match (line[0], field) {
                (b'r', _) => b"t=0 0\r\n",
                (_, 33) => b"m=a 1 p f\n",
                _ => b"",
            };
            for end in [&b""[..], b"\n", b"\r\n", b"\r\n\r\nv=\xff\nnothing", b"\ns=\xff"] {
                let start = above.len() + before.len();
                let text = [above, before, line, end].concat();
                let number = text[..start].iter().filter(|byte| **byte == b'\n').count() + 1;
                assert_eq!(refusal(&text), Refusal::at_field(8, number, field), "{}", text.escape_ascii());
                let bad = find(&text, number as u64, field).unwrap();
                assert_eq!((bad.place, bad.field), (start + at, start + from..start + to), "{}", text.escape_ascii());
                compared += 1;
            }
        }
    }
    println!("bad byte: {compared} texts by hand");
    assert_eq!(seen, fields_of(8), "each field has samples, in its order");
}

/// Where no field of that number is bad, none is found; nor where one before it is.
#[test]
fn nothing_to_find() {
    let text = b"v=0\no=a b 0 \xff (\nb=\xff:\xff\nt=1 2 \xff\ns=\n\nm=\xc3\xa9 1/2 p f\n=";
    for (line, fields) in [(2, &[1, 2, 3, 5, 7, 34][..]), (4, &[15, 16, 17]), (5, &[34, 37]), (6, &[34]), (8, &[34])] {
        for field in fields {
            assert!(find(text, line, *field).is_err(), "line {line}, field {field}");
        }
    }
    assert_eq!(find(text, 3, 12).map(|bad| bad.place), Ok(18));
    assert!(find(text, 3, 13).is_err(), "the type is bad before it");
    // a list's number names no word of another number
    for (line, field) in [(2, 20), (3, 21), (4, 22), (5, 18), (5, 19)] {
        assert!(find(b"v=0\nr=1 \xff 1\nz=0 \xff\nz=\xff 0\nr=1 1 \xff", line, field).is_err(), "line {line}");
    }
    for field in [0, 25, 26, 27, 28, 29, 30, 31, 32, 39] {
        assert!(find(text, 7, field).is_err(), "field {field}");
    }
}

/// Wherever the crate says 8, the field that it names has a bad byte, and it is the first of the value.
#[test]
fn of_generated_texts() {
    let mut random = Random::of_test("bad byte");
    let mut seen: BTreeMap<u64, u64> = BTreeMap::new();
    let texts = count(30_000);
    for round in 0..texts {
        let text = if round % 3 > 0 { sessions::text(&mut random) } else { texts::text(&mut random) };
        let Err(Refusal { number: 8, line, field, .. }) = oracle::read(&text) else { continue };
        let bad = find(&text, line, field).unwrap_or_else(|why| panic!("{}: {why}", text.escape_ascii()));
        let valid = |to: usize| std::str::from_utf8(&text[bad.field.start..to]).is_ok();
        // any longer beginning of the field is not UTF-8
        assert!(valid(bad.place) && (bad.place + 1..=bad.field.end).all(|to| !valid(to)), "{}", text.escape_ascii());
        *seen.entry(field).or_default() += 1;
    }
    println!("bad byte: {} of {texts} generated texts, by field {seen:?}", seen.values().sum::<u64>());
    assert!(texts < 20_000 || seen.keys().copied().eq(fields_of(8)), "each field is seen");
}
