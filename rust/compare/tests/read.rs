//! Our reader beside the crate: answers, the counts of lines, and all that stands in the area afterwards. The lines of records
//! are none of the crate's, and are held to the text.
mod page;
use compare::account::read;
use compare::area::{all_zero, decode, lines as area_lines, COLUMNS, PARTS, SESSION, SIZE};
use compare::bench::{Bench, Tally};
use compare::{area_size, lined, Answer, Counts, Told};
use generate::random::{count, from_env};
use generate::sessions::{self, fields_of, LONGEST, PAIRS, TABLES};
use generate::{every_string, texts, Random};
use oracle::{bad_byte, leaf};
use std::collections::BTreeMap;

fn bench() -> Bench<fn(&[u8], &mut [u8]) -> Told> {
    Bench::new(compare::read)
}

/// Document 01's way to write a sample: after `v=0`, and for an r line after `t=0 0` too, unless it has its own `v`.
fn sample(lines: &[&[u8]]) -> Vec<u8> {
    let before: &[&[u8]] = match lines[0].first() {
        Some(b'v') => &[],
        Some(b'r') => &[b"v=0", b"t=0 0"],
        _ => &[b"v=0"],
    };
    [before, lines].concat().join(&b'\n')
}

/// Number, line and field of a sample; compared with the crate as well.
fn answer(lines: &[&[u8]]) -> (u64, u64, u64) {
    let answer = bench().same(&sample(lines));
    assert!(matches!(answer.number, 7 | 8) || answer.place == 0);
    assert!(answer.number == 7 || answer.len == 0);
    (answer.number, answer.line, answer.field)
}

const ACCEPTED: (u64, u64, u64) = (0, 0, 0);

/// Of the tables after an accepted reading.
fn rows(text: &[u8]) -> [usize; 10] {
    let mut area = vec![0xa5; SIZE];
    assert_eq!(read(text, &mut area), Answer::default());
    decode(&area).unwrap().counts()
}

#[test]
fn size() {
    assert_eq!(area_size(), SIZE);
}

#[test]
fn samples() {
    let mut bench = bench();
    assert_eq!(bench.same(b"").number, 6);
    let seven = Answer {
        number: 7,
        line: 1,
        field: 0,
        place: 2,
        len: 2,
    };
    assert_eq!(bench.same(b"v=0 "), seven);
    let ones: [(&[&[u8]], (u64, u64, u64)); 31] = [
        (&[b"v=0"], ACCEPTED),
        (&[b"v=0\r"], (3, 1, 0)),
        (&[b"v=0", b"=x"], (5, 2, 0)),
        (&[b"v=0", b"abc"], (4, 2, 0)),
        (&[b"v=0", b"t=0 0", b"r=d 1"], (9, 3, 18)),
        (&[b"r=213503982334601d 1"], ACCEPTED),
        (&[b"r=213503982334602d 1"], (9, 3, 18)),
        (&[b"z=0 -9223372036854775808"], ACCEPTED),
        (&[b"z=0 9223372036854775808"], (9, 2, 22)),
        (&[b"z=0 -+5"], ACCEPTED),
        (&[b"z=0 --5"], (9, 2, 22)),
        (&[b"z=", b"z="], (17, 3, 0)),
        (&[b"o=- 0 0 IN IP4 h", b"o=junk"], (12, 3, 0)),
        (&[b"a=x:"], ACCEPTED),
        (&[b"a=x"], ACCEPTED),
        (&[b"b=AS:5:"], (11, 2, 14)),
        (&[b"m=a 65535/ p f"], (9, 2, 30)),
        (&[b"m=a 65536 p f"], (9, 2, 28)),
        (&[b"m=a 1 p"], (10, 2, 32)),
        (&[b"m=a 1 p "], ACCEPTED),
        (&[b"m=a 1 p f", b"r=junk"], ACCEPTED),
        (&[b"s=\xed\xa0\x80"], (8, 2, 34)),
        (&[b"s=\xf4\x8f\xbf\xbf"], ACCEPTED),
        // what the running crate does where document 01 is short
        (&[b"c=\xff IP4 h"], (9, 2, 8)),
        (&[b"t=0 0 \xff"], (11, 2, 17)),
        (&[b"m=a 1/\xff p f"], (8, 2, 29)),
        (&[b"t=0\t0"], (9, 2, 15)),
        (&[b"z=5"], (10, 2, 22)),
        (&[b"r=\xffd 1"], (8, 3, 18)),
        (&[b"v=0", b"v=0", b"v=9"], ACCEPTED),
        (&[b"a=", b"r=x"], (20, 3, 0)),
    ];
    for (lines, due) in ones {
        assert_eq!(answer(lines), due, "{}", sample(lines).escape_ascii());
    }
    // values that the samples name
    let seen = |lines: &[&[u8]]| {
        let text = sample(lines);
        let mut area = vec![0xa5; SIZE];
        assert_eq!(read(&text, &mut area), Answer::default());
        decode(&area).unwrap().strings(&text).unwrap()
    };
    assert_eq!(seen(&[b"r=213503982334601d 1"]).repeats[0].interval, 18_446_744_073_709_526_400);
    assert_eq!(seen(&[b"z=0 -9223372036854775808"]).zones[0].offset, i64::MIN);
    assert_eq!(seen(&[b"z=0 -+5"]).zones[0].offset, -5);
    assert_eq!(seen(&[b"a=x:"]).attributes[0].value.as_deref(), Some(&b""[..]));
    assert_eq!(seen(&[b"a=x"]).attributes[0].value, None);
    assert_eq!(seen(&[b"m=a 1 p "]).medias[0].fmt, b"");
    assert_eq!(seen(&[b"s=\xf4\x8f\xbf\xbf"]).name, b"\xf4\x8f\xbf\xbf");
    assert_eq!(seen(&[b"v=0"]).origin, None);
}

/// Document 02, P4: a k line has no use, and is counted and tested for its form as any other.
#[test]
fn k_lines() {
    let m: &[u8] = b"m=a 1 p f";
    let ones: [(&[&[u8]], (u64, u64, u64)); 20] = [
        (&[b"k="], ACCEPTED),
        (&[b"k=clear:x", b"k=clear:x"], ACCEPTED),
        (&[b"k=\xff", b"k=:\xff", b"k=\xed\xa0\x80"], ACCEPTED),
        (&[m, b"k=x", b"k=", m, b"k=\xff", b"k=x:y:z"], ACCEPTED),
        (&[b"k=x\r", b"k=x"], ACCEPTED), // CR LF
        (&[b"k=x", b"k=x\r"], (3, 3, 0)),
        (&[b"k=x\r."], (3, 2, 0)),
        (&[b"k=\0"], (3, 2, 0)),
        (&[b"k\0"], (3, 2, 0)),
        (&[m, b"k=", b"k=\r\r", b"k=x"], (3, 4, 0)),
        (&[b"k"], (4, 2, 0)),
        (&[b"k:x"], (4, 2, 0)),
        (&[m, b"k=x", b"k x"], (4, 4, 0)),
        (&[b"kk=x"], (5, 2, 0)),
        (&[b"k =x"], (5, 2, 0)),
        (&[b"k=\xff", b"t=x"], (9, 3, 15)),
        (&[b"z=", b"k=", b"z="], (17, 4, 0)),
        (&[m, b"i=", b"k=", b"k=", b"i="], (18, 6, 0)),
        (&[b"k=", b"r=1 1"], (20, 3, 0)),
        (&[m, b"k=", b"a=\xff"], (8, 4, 23)),
    ];
    for (lines, due) in ones {
        assert_eq!(answer(lines), due, "{}", sample(lines).escape_ascii());
    }
    // the first line that isn't empty must be the version's
    let mut bench = bench();
    for text in [&b"k=x"[..], b"k=\nv=0", b"\r\n\nk=\xff\nv=0\n", b"k=x\nk=y\nv=0"] {
        assert_eq!(bench.same(text), Answer { number: 6, ..Answer::default() });
    }
    assert_eq!(bench.same(b"k\nv=0"), Answer { number: 4, line: 1, ..Answer::default() });
    assert_eq!(bench.same(b"\nv=\nk=x").place, 3);
    // many of them, and one more record than a table has
    let mut lines: Vec<&[u8]> = vec![b"v=0"];
    lines.resize(1 + 5_000, b"k=x:y");
    assert_eq!(answer(&lines), ACCEPTED);
    lines.resize(lines.len() + 17, b"e=");
    assert_eq!(answer(&lines), (21, 1 + 5_000 + 17, 1));
}

/// Document 02, P11: the empty, the ignored and the kept lines of an accepted text, and zeros of a refused one.
/// rust/oracle/tests/counts.rs has samples of every letter.
#[test]
fn the_counts() {
    let mut bench = bench();
    let ones: [(&[u8], u64, [u64; 3]); 20] = [
        (b"v=0", 0, [0, 0, 1]),
        (b"v=0\n", 0, [0, 0, 1]),
        (b"v=0\r\n\r\n", 0, [1, 0, 1]),
        (b"\n\r\n\nv=0", 0, [3, 0, 1]),
        (b"v=0\nv=0\nv=\xff", 0, [0, 2, 1]),
        (b"v=0\nk=\nk=x\nm=a 1 p f\nk=\xff\n", 0, [0, 3, 2]),
        (b"v=0\nx=\n =\n\xff=\xff\r\n", 0, [0, 3, 1]),
        (b"v=0\nz=", 0, [0, 0, 2]),
        (b"v=0\nz=\n\nm=a 1 p f\nz=junk\nt=junk\ns=\xff\n", 0, [1, 3, 3]),
        (b"v=0\ns=\nm=a 1 p f\ns=\nm=a 1 p f\ni=\na=", 0, [0, 1, 6]),
        (b"\nv=0\no=- 0 0 I J h\n\nx=\nk=\nt=0 0\nr=1 1\n\n", 0, [3, 2, 4]),
        // whatever was counted before the refused line
        (b"", 6, [0; 3]),
        (b"\n\n", 6, [0; 3]),
        (b"\nx=\nv=0", 6, [0; 3]),
        (b"\n\nv=1\n", 7, [0; 3]),
        (b"\nv=0\ns=x\nx=\n\r", 3, [0; 3]),
        (b"v=0\nx=\n\nabc", 4, [0; 3]),
        (b"v=0\nx=\n\n=x", 5, [0; 3]),
        (b"v=0\n\nx=\nz=\nz=", 17, [0; 3]),
        (b"v=0\n\nx=\ns=\xff", 8, [0; 3]),
    ];
    for (text, number, [empty, ignored, kept]) in ones {
        assert_eq!(bench.same(text).number, number, "{}", text.escape_ascii());
        assert_eq!(bench.counts(), Counts { empty, ignored, kept }, "{}", text.escape_ascii());
    }
    // as many of each kind as the longest text has room for, and a byte more
    let behind = |line: &[u8]| line.repeat((LONGEST - 4) / line.len());
    for (line, [empty, ignored, kept]) in [
        (&b"\n"[..], [32_764, 0, 1]),
        (b"\r\n", [16_382, 0, 1]),
        (b"x=\n", [0, 10_921, 1]),
        (b"k=\r\n", [0, 8_191, 1]),
        (b"v=\n\n", [8_191, 8_191, 1]),
    ] {
        let mut text = [b"v=0\n", &behind(line)[..]].concat();
        assert_eq!(bench.same(&text).number, 0);
        assert_eq!(bench.counts(), Counts { empty, ignored, kept }, "{}", line.escape_ascii());
        text.resize(LONGEST + 1, b'\n');
        assert_eq!(bench.same(&text).number, 1);
        assert_eq!(bench.counts(), Counts::default());
    }
    // every table full: all lines are kept; one attribute too many, and none is counted
    let text = generate::hostile::full();
    assert_eq!(bench.same(&text).number, 0);
    let Counts { empty, ignored, kept } = bench.counts();
    assert_eq!((empty, ignored), (0, 0));
    assert_eq!(kept, text.iter().filter(|byte| **byte == b'\n').count() as u64);
    assert_eq!(bench.same(&[&text[..], b"\nx=\na=\n"].concat()).number, 21);
    assert_eq!(bench.counts(), Counts::default());
}

/// The columns of an area that have a line, without the zeros at their ends.
fn lines_in(area: &[u8]) -> Vec<(&'static str, Vec<usize>)> {
    let all = COLUMNS.iter().map(|column| (column.name, area_lines(area, column)));
    let cut = all.map(|(name, mut lines)| {
        lines.truncate(lines.iter().rposition(|line| *line > 0).map_or(0, |last| last + 1));
        (name, lines)
    });
    cut.filter(|(_, lines)| !lines.is_empty()).collect()
}

/// Document 02, P9: the line of each record and of each field, by hand. rust/sdp/tests/session.rs has a text with everything.
#[test]
fn the_lines() {
    let mut bench = bench();
    let ones: [(&[u8], &[(&str, &[usize])]); 19] = [
        (b"v=0", &[]),
        (b"\n\r\nv=0\r\n\n", &[]),
        (b"v=0\ns=", &[("name", &[2])]),
        (b"v=0\r\n\r\n\r\ns=x\r\n", &[("name", &[4])]),
        (b"\n\nv=0\nv=0\nv=1\ns=", &[("name", &[6])]),
        (b"v=0\nx=\nk=\no=- 0 0 IN IP4 0.0.0.0", &[("origin", &[4])]),
        (b"v=0\ni=\nu=\nc=I J h", &[("description", &[2]), ("uri", &[3]), ("connection", &[4])]),
        (b"v=0\np=\ne=\np=\ne=", &[("emails", &[3, 5]), ("phones", &[2, 4])]),
        (b"v=0\nz=\nt=0 0", &[("times", &[3])]), // a z line without pairs has no record
        (b"v=0\nz=1 1 2 2\n", &[("zones", &[2, 2])]),
        (b"v=0\nt=0 0\n\nr=1 1\nr=1 1 5\n", &[("times", &[2]), ("repeats", &[4, 5]), ("offsets", &[5])]),
        (
            b"v=0\nt=0 0\nr=1 1 1 2\nz=1 1\nt=0 0\nr=1 1 3",
            &[("times", &[2, 5]), ("repeats", &[3, 6]), ("offsets", &[3, 3, 6]), ("zones", &[4])],
        ),
        // b and a of the session and of medias are in one column
        (
            b"v=0\nb=:1\na=\nm=a 1 p f\na=\nb=:2\nm=a 1 p f\nb=:3\na=",
            &[("bandwidths", &[2, 6, 8]), ("attributes", &[3, 5, 9]), ("medias", &[4, 7])],
        ),
        (b"v=0\nc=I J h\nm=a 1 p f\nc=I J h", &[("connection", &[2]), ("media connections", &[4]), ("medias", &[3])]),
        // a title has the cell of its media
        (b"v=0\ni=\nm=a 1 p f\ni=", &[("description", &[2]), ("medias", &[3]), ("media titles", &[4])]),
        (b"v=0\nm=a 1 p f\nm=a 1 p f\ni=", &[("medias", &[2, 3]), ("media titles", &[0, 4])]),
        (
            b"v=0\nm=a 1 p f\ni=\nm=a 1 p f\nm=a 1 p f\na=\ni=",
            &[("attributes", &[6]), ("medias", &[2, 4, 5]), ("media titles", &[3, 0, 7])],
        ),
        // without a use after m, and keys anywhere
        (b"v=0\nm=a 1 p f\ns=\no=junk\nt=\nk=\na=", &[("attributes", &[7]), ("medias", &[2])]),
        (b"v=0\nk=x\nk=x:y\nm=a 1 p f\nk=x", &[("medias", &[4])]),
    ];
    for (text, due) in ones {
        assert_eq!(bench.same(text).number, 0, "{}", text.escape_ascii());
        let due: Vec<_> = due.iter().map(|(name, lines)| (*name, lines.to_vec())).collect();
        assert_eq!(lines_in(bench.area()), due, "{}", text.escape_ascii());
    }
    // whatever stood above the refused line
    for text in [&b"v=0\ns=x\ne=\nm=a 1 p f\ni=\na=x\na=\xff"[..], b"v=0\nt=0 0\nr=1 1 1\nz=1 1\nz=", b"s=x\nv=0"] {
        assert!(bench.same(text).number > 0 && lines_in(bench.area()).is_empty(), "{}", text.escape_ascii());
    }
    // at the ends of a byte, and behind as many empty lines as the longest text has room for
    for (last, name, below) in [("s=", "name", 0), ("z=1 1 1 1", "zones", 0), ("m= 0  \ni=", "media titles", 1)] {
        for above in [253, 254, 255, 256, LONGEST - 4 - last.len()] {
            let text = [&b"v=0\n"[..], &b"\n".repeat(above), last.as_bytes()].concat();
            assert_eq!(bench.same(&text).number, 0);
            let found = lines_in(bench.area());
            let (_, lines) = found.iter().find(|(column, _)| *column == name).expect("its column");
            assert!(lines.iter().all(|line| *line == 2 + above + below), "{name} behind {above} empty lines: {lines:?}");
        }
    }
    // every table full: each row has its own line, but offsets and zones
    let text = generate::hostile::full();
    assert_eq!(bench.same(&text).number, 0);
    for (name, lines) in lines_in(bench.area()) {
        let rising = lines.windows(2).all(|pair| pair[0] < pair[1] || pair[0] == pair[1] && ["offsets", "zones"].contains(&name));
        assert!(rising && COLUMNS.iter().any(|column| (column.name, column.cells) == (name, lines.len())), "{name}");
    }
}

/// The lines that are found from the text are those that the crate's own cutter counts, and have the letters of their columns;
/// each kept line is that of a record, but the version's and a z line without pairs.
#[test]
fn the_lines_by_the_crate_s_cutter() {
    let letters = *b"osiuckepcbtrrzamik"; // of each column
    let mut random = Random::of_test("lines by the crate's cutter");
    let (mut compared, mut texts) = (0, 0);
    while texts < count(10_000) {
        let good = sessions::good(&mut random);
        let text = match texts % 3 {
            0 => texts::text(&mut random),
            1 => sessions::text(&mut random),
            _ => sessions::ended(&mut random, &good),
        };
        texts += 1;
        if oracle::read(&text).is_err() {
            continue;
        }
        let cuts = leaf::cuts(&text);
        let letter_of = |line: usize| cuts.iter().find(|cut| cut.line as usize == line).map(|cut| cut.letter as u8);
        let mut named = std::collections::BTreeSet::new();
        for ((column, lines), letter) in lined::found(&text).into_iter().zip(letters) {
            for line in lines.into_iter().filter(|line| *line > 0) {
                assert_eq!(letter_of(line), Some(letter), "{}: line {line} of {}", column.name, text.escape_ascii());
                named.insert(line);
                compared += 1;
            }
        }
        let mut kept = oracle::counts::of(&text).kept as usize - 1;
        // the only line with a use that may leave nothing
        kept -= usize::from(oracle::read(&text).unwrap().time_zones.is_empty() && has_zone_line(&text));
        assert_eq!(named.len(), kept, "{}", text.escape_ascii());
    }
    println!("lines: {compared} of {texts} texts are those of the crate's cutter");
    assert!(compared > texts);
}

/// Whether a z line stands before the first m line.
fn has_zone_line(text: &[u8]) -> bool {
    let mut lines = text.split(|byte| *byte == b'\n').take_while(|line| !line.starts_with(b"m="));
    lines.any(|line| line.starts_with(b"z="))
}

/// Document 02, P2: 8 has the place of the first byte that is not part of the field's longest well-formed beginning.
/// rust/oracle/tests/bad_byte.rs has samples of every field.
#[test]
fn the_bad_byte() {
    let mut bench = bench();
    let ones: [(&[u8], u64, u64, u64); 14] = [
        (b"v=0\ns=\xed\xa0\x80", 2, 34, 6),
        (b"v=0\r\n\r\n\ns=x\xff\xff\r\n", 4, 34, 11),
        (b"v=0\nx=\xff\nk=\xff\ns=\xff", 4, 34, 14),
        // a character that is cut off at the field's end: its first byte
        (b"v=0\no=- \xc3\xa9\xe2\x82 0 I J h", 2, 2, 10),
        (b"v=0\nb=A\xc3:\xa9", 2, 12, 7),
        (b"v=0\na=x:\xf0\x9f\x8e\r\n", 2, 24, 8),
        // a unit and a sign belong to the field
        (b"v=0\nt=0 0\nr=\xffd 1", 3, 18, 12),
        (b"v=0\nt=0 0\nr=7d 1\xc3h", 3, 19, 16),
        (b"v=0\nt=0 0\nr=7d 1h 0 5\xff 6\xff", 3, 20, 21),
        (b"v=0\nz=0 -\xff", 2, 22, 9),
        (b"v=0\nz=0 -1h  7\xff", 2, 21, 14),
        // 29 is the whole port, also behind the slash
        (b"v=0\nm=a \xff/2 p f", 2, 29, 8),
        (b"v=0\nm=a 1/2\xff p f", 2, 29, 11),
        (b"v=0\nm=a 1  9 \xff", 2, 32, 13),
    ];
    for (text, line, field, place) in ones {
        assert_eq!(bench.same(text), Answer { number: 8, line, field, place, len: 0 }, "{}", text.escape_ascii());
    }
    // up to the last place of the longest text
    for len in [LONGEST - 1, LONGEST] {
        let mut text = b"v=0\ns=".to_vec();
        text.resize(len - 1, b'x');
        text.push(0xff);
        assert_eq!(bench.same(&text).place, len as u64 - 1);
    }
}

/// Each field with 8, in whole texts, and in each of the ways that are easily missed.
#[test]
fn the_bad_byte_of_each_field() {
    let mut random = Random::of_test("bad bytes");
    let mut bench = bench();
    let due = count(200);
    let mut ways: BTreeMap<&str, u64> = BTreeMap::new();
    for field in fields_of(8) {
        let mut seen = 0;
        for _ in 0..due {
            let text = sessions::aimed_text(&mut random, 8, field);
            let answer = bench.same(&text);
            if (answer.number, answer.field) != (8, field) {
                continue; // a CR at the text's end, or another line before it
            }
            seen += 1;
            let place = answer.place as usize;
            let whole = bad_byte::find(&text, answer.line, field).unwrap().field;
            let (before, bytes) = (&text[whole.start..place], &text[whole.clone()]);
            let cut_off = std::str::from_utf8(bytes).unwrap_err().error_len().is_none();
            let separated = text.get(whole.end).map_or(false, |byte| b" :".contains(byte));
            let listed = text[..whole.start].rsplit(|byte| *byte == b'\n').next().unwrap();
            for (way, holds) in [
                ("first of its field", before.is_empty()),
                ("behind characters of several bytes", !before.is_ascii()),
                ("a character cut off by the field's end", cut_off),
                ("one cut off, with a field behind it", cut_off && separated),
                ("in a time with a unit", matches!(field, 18..=20 | 22) && b"dhms".contains(&bytes[bytes.len() - 1])),
                ("behind a sign", field == 22 && before.starts_with(b"-")),
                ("behind the slash of a port", field == 29 && before.contains(&b'/')),
                ("before the slash of a port", field == 29 && !before.contains(&b'/') && bytes.contains(&b'/')),
                ("behind an earlier pair", matches!(field, 21 | 22) && listed.split(|byte| *byte == b' ').count() > 3),
                ("below CR LF", text[..place].windows(2).any(|two| two == b"\r\n")),
                ("below LF alone", !text[..place].contains(&b'\r')),
                ("below an empty line", text[..place].windows(2).any(|two| two == b"\n\n")),
                ("below a k line", text[..place].windows(3).any(|three| three == b"\nk=")),
            ] {
                *ways.entry(way).or_default() += u64::from(holds);
            }
        }
        assert!(seen * 2 > due, "field {field} was refused with 8 in {seen} of {due} texts");
    }
    println!("bad bytes: {due} texts for each of {} fields, {ways:#?}", fields_of(8).len());
    assert!(due < 100 || ways.values().all(|seen| *seen > 0), "each way is met");
}

/// Demand 3: lines without a use, put in behind the first line that isn't empty, change nothing but the line of a refusal,
/// which moves by the lines above it, with 8 the place, which moves by their bytes, and of an accepted text the counts of
/// empty and of ignored lines, which rise by as many as were put in, and the lines of the records, each of which moves by
/// those above it.
fn put_in(name: &str, idle: impl Fn(&mut Random, bool) -> Vec<u8>) -> Counts {
    let mut random = Random::of_test(name);
    let (mut accepted, mut refused, mut lines) = (0, 0, 0);
    let mut risen = Counts::default();
    let mut moved: BTreeMap<u64, u64> = BTreeMap::new();
    let mut lines_moved: BTreeMap<&str, u64> = BTreeMap::new();
    let mut bench = bench();
    let (due, fields) = (count(6_000), fields_of(8));
    for round in 0..due {
        let text = match round % 3 {
            0 => sessions::text(&mut random),
            1 => texts::text(&mut random),
            _ => sessions::aimed_text(&mut random, 8, fields[round as usize / 3 % fields.len()]),
        };
        let whole: Vec<&[u8]> = text.split_inclusive(|byte| *byte == b'\n').collect();
        let Some(first) = whole.iter().position(|line| !matches!(line, [b'\n'] | [b'\r', b'\n'])) else { continue };
        // how many lines and bytes were put in above each line
        let (mut with, mut above, mut more) = (Vec::new(), vec![(0, 0)], Counts::default());
        for (at, line) in whole.iter().enumerate() {
            with.extend(*line);
            let (mut put, start) = (0, with.len());
            let in_media = whole[..=at].iter().any(|line| line.starts_with(b"m="));
            // none is put after a last line that has no LF
            while at >= first && line.ends_with(b"\n") && random.once_in(3) {
                let line = idle(&mut random, in_media);
                *if line.is_empty() { &mut more.empty } else { &mut more.ignored } += 1;
                with.extend(line);
                with.extend(random.pick(&[&b"\n"[..], b"\r\n"]));
                put += 1;
            }
            above.push((above[at].0 + put, above[at].1 + (with.len() - start) as u64));
        }
        if with.len() > LONGEST {
            continue;
        }
        let (before, mut area) = (bench.same(&text), bench.area().to_vec());
        let counts = bench.counts();
        let after = bench.same(&with);
        let (more_lines, more_bytes) = (before.line as usize).checked_sub(1).map_or((0, 0), |line| above[line]);
        let more_bytes = if before.number == 8 { more_bytes } else { 0 };
        let due = Answer { line: before.line + more_lines, place: before.place + more_bytes, ..before };
        assert_eq!(after, due, "{}", with.escape_ascii());
        lines += above[whole.len()].0;
        if more_bytes > 0 {
            *moved.entry(before.field).or_default() += 1;
        }
        if before.number > 0 {
            assert_eq!((counts, bench.counts()), (Counts::default(), Counts::default()));
            refused += 1;
            continue;
        }
        accepted += 1;
        let (empty, ignored) = (counts.empty + more.empty, counts.ignored + more.ignored);
        assert_eq!(bench.counts(), Counts { empty, ignored, ..counts }, "{}", with.escape_ascii());
        risen.empty += more.empty;
        risen.ignored += more.ignored;
        let strings = |text: &[u8], area: &[u8]| decode(area).unwrap().strings(text).unwrap();
        assert_eq!(strings(&with, bench.area()), strings(&text, &area), "{}", with.escape_ascii());
        for column in &COLUMNS {
            let (before, after) = (area_lines(&area, column), area_lines(bench.area(), column));
            let further = |line: usize| line.checked_sub(1).map_or(0, |at| above[at].0 as usize);
            let due: Vec<usize> = before.iter().map(|line| line + further(*line)).collect();
            assert_eq!(after, due, "{}: {}", column.name, with.escape_ascii());
            let seen = before.iter().filter(|line| further(**line) > 0).count();
            *lines_moved.entry(column.name).or_default() += seen as u64;
        }
        area.fill(0xa5);
        assert_eq!(read(&with, &mut area), Answer::default());
        assert_eq!(area, bench.area());
    }
    println!("{name}: {lines} lines, {accepted} texts accepted and {refused} refused");
    println!("{name}: the counts of accepted texts rose by {} empty and {} ignored lines", risen.empty, risen.ignored);
    println!("{name}: {} places of 8 moved, by field {moved:?}", moved.values().sum::<u64>());
    println!("{name}: lines of records moved, by column {lines_moved:?}");
    let keys = |name: &str| ["key", "media keys"].contains(&name);
    assert!(due < 3_000 || lines_moved.iter().all(|(name, seen)| (*seen > 100) != keys(name)), "a line of each column was moved");
    assert!(accepted * 5 > due && refused * 5 > due && lines > due);
    assert!(due < 3_000 || moved.keys().copied().eq(fields), "a place of each field was moved");
    risen
}

#[test]
fn k_lines_put_in() {
    let risen = put_in("k lines put in", |random, _| sessions::key_line(random));
    assert!(risen.empty == 0 && risen.ignored > 0);
}

/// Empty lines, and lines of any letter that has no use where they stand.
#[test]
fn idle_lines_put_in() {
    let risen = put_in("idle lines put in", |random, in_media| match random.below(3) {
        0 => Vec::new(),
        _ => sessions::ignored(random, sessions::useless(in_media)),
    });
    assert!(risen.empty > 0 && risen.ignored > 0);
}

#[test]
fn sample_512_attributes() {
    let mut lines: Vec<&[u8]> = vec![b"v=0"];
    lines.resize(513, b"a=x");
    assert_eq!(answer(&lines), ACCEPTED);
    lines.push(b"a=x");
    assert_eq!(answer(&lines), (21, 514, 9));
    lines[513] = b"a=\xff";
    assert_eq!(answer(&lines), (8, 514, 23));
}

/// docs/AREA.md has the text of `canon` in document 01 as its example.
#[test]
fn the_page_s_example() {
    let (text, cells) = page::example();
    bench().same(&text);
    let mut area = vec![0xa5; SIZE];
    assert_eq!(read(&text, &mut area), Answer::default());
    assert_eq!(area, cells);
}

/// A line for each table that adds one record, and the same with a bad value and its refusal.
const ONE: [(&[u8], &[u8], (u64, u64)); 10] = [
    (b"e=x", b"e=\xff", (8, 37)),
    (b"p=x", b"p=\xff", (8, 38)),
    (b"c=IN IP4 h", b"c=IN IP4 h x", (11, 11)),
    (b"b=AS:1", b"b=AS:", (9, 13)),
    (b"t=0 0", b"t=0", (10, 16)),
    (b"r=1 1", b"r=1", (10, 19)),
    (b"r=1 1 1", b"r=1 1 1 x", (9, 20)),
    (b"z=0 1", b"z=0 1 0", (10, 22)),
    (b"a=x", b"a=x:\xff", (8, 24)),
    (b"m=a 1 p f", b"m=a 1 p", (10, 32)),
];

#[test]
fn each_table_at_its_limit_and_one_over() {
    let mut random = Random::of_test("tables");
    let mut bench = bench();
    let (mut compared, mut full) = (0, [0; 10]);
    for _ in 0..count(20) {
        for table in 1..=10usize {
            for (records, over) in [(TABLES[table - 1], false), (TABLES[table - 1] + 1, true)] {
                let (mut session, mut media) = (vec![b"v=0".to_vec()], Vec::new());
                sessions::fill(&mut random, table, records, &mut session, &mut media);
                // for 6 a line with more offsets than fit may stand at the end
                session.retain(|line| table != 6 || line.len() < 500);
                let lines = [&session[..], &media].concat();
                let text = sessions::ended(&mut random, &lines);
                let text = text.strip_suffix(b"\r").unwrap_or(&text);
                let answer = bench.same(text);
                compared += 1;
                if over {
                    assert_eq!((answer.number, answer.field), (21, table as u64));
                    full[table - 1] += 1;
                } else {
                    assert_eq!(answer.number, 0, "{answer:?}");
                    assert_eq!(rows(text)[table - 1], records);
                }
            }
        }
    }
    println!("tables: {compared} texts, {full:?} full");
}

#[test]
fn a_bad_value_comes_before_a_full_table() {
    let m: &[u8] = b"m=a 1 p f";
    for (table, (good, bad, (number, field))) in (1..).zip(ONE) {
        let mut lines: Vec<&[u8]> = vec![b"v=0"];
        if b"rt".contains(&good[0]) && table != 5 {
            lines.push(b"t=0 0");
        }
        let many_zones = format!("z={}", "0 1 ".repeat(65)).into_bytes();
        let bad_zones = [&many_zones[..], b"0"].concat();
        let many_offsets = format!("r=1 1{}", " 1".repeat(257)).into_bytes();
        let bad_offsets = [&many_offsets[..], b" x"].concat();
        let (over, bad): (&[u8], &[u8]) = match table {
            7 => (&many_offsets, &bad_offsets),
            8 => (&many_zones, &bad_zones),
            3 => {
                lines.push(m);
                lines.resize(lines.len() + 64, good);
                (good, bad)
            }
            _ => {
                lines.resize(lines.len() + TABLES[table - 1], good);
                (good, bad)
            }
        };
        let line = lines.len() as u64 + 1;
        let with = |last: &[u8]| answer(&[&lines[..], &[last]].concat());
        assert_eq!(with(over), (21, line, table as u64));
        assert_eq!(with(bad), (number, line, field));
        // what follows doesn't matter any more
        assert_eq!(answer(&[&lines[..], &[over, b"nothing", bad]].concat()), (21, line, table as u64));
    }
}

#[test]
fn two_full_tables() {
    // one line that overflows both: the lower number
    let mut lines: Vec<&[u8]> = vec![b"v=0", b"t=0 0"];
    let many = format!("r=1 1{}", " 0".repeat(257)).into_bytes();
    lines.resize(2 + 64, b"r=1 1");
    assert_eq!(answer(&lines), ACCEPTED);
    assert_eq!(answer(&[&lines[..], &[&many]].concat()), (21, 67, 6));
    lines.pop();
    assert_eq!(answer(&[&lines[..], &[&many]].concat()), (21, 66, 7));
    // two tables full before it: the one that the line is for
    let singles: [(usize, &[u8]); 6] = [
        (1, b"e=x"),
        (2, b"p=x"),
        (4, b"b=AS:1"),
        (5, b"t=0 0"),
        (9, b"a=x"),
        (10, b"m=a 1 p f"),
    ];
    let mut compared = 0;
    for (first, one) in singles {
        for (second, other) in singles {
            let (mut lines, mut more): (Vec<&[u8]>, Vec<&[u8]>) = (vec![b"v=0"], Vec::new());
            for (table, line) in [(first, one), (second, other)] {
                let to = if table == 10 { &mut more } else { &mut lines };
                to.resize(to.len() + TABLES[table - 1], line);
            }
            if first == second {
                continue;
            }
            let lines = [lines, more].concat();
            assert_eq!(answer(&lines), ACCEPTED);
            // after a media line the session's own letters are ignored
            let due = |table: usize, line: &[u8]| match (first == 10 || second == 10, line[0]) {
                (true, b'e' | b'p' | b't') => ACCEPTED,
                _ => (21, lines.len() as u64 + 1, table as u64),
            };
            for (table, line) in [(first, one), (second, other)] {
                assert_eq!(answer(&[&lines[..], &[line]].concat()), due(table, line));
                compared += 1;
            }
        }
    }
    println!("two full tables: {compared} texts");
    assert_eq!(compared, 6 * 5 * 2);
}

#[test]
fn each_pair_of_number_and_field() {
    let mut random = Random::of_test("read pairs");
    let mut bench = bench();
    let mut tally = Tally::default();
    for (number, field) in PAIRS {
        for _ in 0..count(60) {
            let (letter, value) = sessions::aimed(&mut random, number, field);
            let line = sessions::line(letter, &value);
            let mut lines: Vec<&[u8]> = vec![b"v=0"];
            match letter {
                b'r' => lines.push(b"t=0 0"),
                b'i' if field == 33 => lines.push(b"m=a 1 p f"),
                _ => {}
            }
            lines.push(&line);
            let answer = bench.same(&lines.join(&b'\n'));
            tally.add(answer);
            let text = sessions::aimed_text(&mut random, number, field);
            tally.add(bench.same(&text));
        }
    }
    println!("pairs:\n{tally}");
    for pair in PAIRS {
        assert!(tally.0.get(&pair).map_or(false, |seen| *seen >= count(60)), "few of {pair:?}");
    }
    let mut others = tally.0.keys().filter(|pair| (8..=11).contains(&pair.0) && !PAIRS.contains(pair));
    assert_eq!(others.next(), None, "no other pair can occur");
}

/// Every short value of every letter in use, and of v, k and x, in the session and in a media.
#[test]
fn every_short_value() {
    let mut bench = bench();
    let mut tally = Tally::default();
    for before in [&b"v=0\nt=0 0\n"[..], b"v=0\nm=a 1 p f\n"] {
        for letter in *b"vosiuepcbtrzkamx" {
            let few = b"osiuepvx".contains(&letter);
            let mut each = |value: &[u8]| tally.add(bench.same(&[before, &[letter, b'='], value].concat()));
            every_string(b" 1:/-+d\xff(", if few { 3 } else { 4 }, &mut each);
            // a character of two bytes, whole and cut off at every border
            every_string(b" 1:/-d\xc3\xa9", if few { 3 } else { 4 }, &mut each);
        }
    }
    println!("short values:\n{tally}");
    assert!(tally.of(0) > 10_000 && tally.of(8) > 10_000 && tally.of(9) > 10_000);
}

#[test]
fn every_short_text() {
    let mut bench = bench();
    let mut tally = Tally::default();
    every_string(b"v=0\n\r\0", 6, |text| tally.add(bench.same(text)));
    println!("short texts:\n{tally}");
    assert!([0, 3, 4, 5, 6, 7].iter().all(|number| tally.of(*number) > 0));
}

#[test]
fn the_longest_texts() {
    let mut random = Random::of_test("longest");
    let mut bench = bench();
    let mut seen = [[0; 2]; 3];
    for _ in 0..count(40) {
        for (at, due) in [LONGEST - 1, LONGEST, LONGEST + 1].into_iter().enumerate() {
            let good = sessions::good(&mut random);
            let (number, field) = PAIRS[random.below(PAIRS.len())];
            let texts = [
                sessions::ended(&mut random, &good),
                sessions::aimed_text(&mut random, number, field),
                b"v=0\n".to_vec(),
                b"v=0\ns=".to_vec(),
            ];
            for text in texts {
                let text = sessions::lengthened(&mut random, text, due);
                assert_eq!(text.len(), due);
                let answer = bench.same(&text);
                seen[at][usize::from(answer.number != 0)] += 1;
                assert_eq!(answer.number == 1, due > LONGEST);
            }
            // all of it in one value, and nothing but empty lines
            let mut text = b"v=0\ns=".to_vec();
            text.resize(due, b'x');
            assert_eq!(bench.same(&text).number, u64::from(due > LONGEST));
            assert_eq!(bench.same(&vec![b'\n'; due]).number, if due > LONGEST { 1 } else { 6 });
        }
    }
    println!("longest: accepted and refused {seen:?} at 32,767, 32,768 and 32,769 bytes");
    assert!(seen[0][0] > 0 && seen[0][1] > 0 && seen[1][0] > 0 && seen[1][1] > 0 && seen[2][0] == 0);
}

/// Accepted, refused at a late line, refused at once, and too long.
fn four_texts() -> [(Vec<u8>, u64); 4] {
    [
        (sample(&[b"s=x", b"e=y", b"a=b:c", b"m=a 1/2 p f", b"a=z", b"k=q"]), 0),
        (sample(&[b"s=x", b"e=y", b"m=a 1 p f", b"i=z", b"i=z"]), 18),
        (b"".to_vec(), 6),
        (vec![b'\n'; LONGEST + 1], 1),
    ]
}

#[test]
fn areas_of_every_length() {
    let two = Answer {
        number: 2,
        ..Answer::default()
    };
    let pattern: Vec<u8> = (0..SIZE + 300).map(|at| (at * 31) as u8 | 1).collect();
    let mut tried = 0;
    for (text, number) in four_texts() {
        // too short: 2 comes before 1, and nothing is written
        for len in (0..300).chain([SIZE / 2, SESSION - 1, SESSION, SESSION + 1, SIZE - 2, SIZE - 1]) {
            let mut area = pattern[..len].to_vec();
            assert_eq!(read(&text, &mut area), two, "an area of {len} bytes");
            assert_eq!(area, pattern[..len]);
            tried += 1;
        }
        // exact and longer: the same answer and the same area, and what stands beyond stays
        let mut exact = pattern[..SIZE].to_vec();
        let answer = read(&text, &mut exact);
        assert_eq!(answer.number, number);
        for more in [1, 2, 7, 8, 300] {
            let mut area = pattern[..SIZE + more].to_vec();
            assert_eq!(read(&text, &mut area), answer);
            assert_eq!(area[..SIZE], exact);
            assert_eq!(area[SIZE..], pattern[SIZE..SIZE + more]);
            tried += 1;
        }
        match number {
            0 => assert!(decode(&exact).is_ok()),
            1 => assert_eq!(exact, pattern[..SIZE]),
            _ => assert!(all_zero(&exact)),
        }
        // whatever the area held before
        for byte in [0, 1, 0x7f, 0x80, 0xff] {
            let mut area = vec![byte; SIZE];
            assert_eq!(read(&text, &mut area), answer);
            assert!(number == 1 && area == vec![byte; SIZE] || number != 1 && area == exact);
            tried += 1;
        }
    }
    println!("areas: {tried} tried");
}

/// One reading leaves nothing for the next.
#[test]
fn an_area_is_used_again() {
    let mut random = Random::of_test("again");
    let mut used = vec![0; SIZE];
    let (mut compared, mut accepted) = (0, 0);
    for _ in 0..count(2_000) {
        let text = sessions::text(&mut random);
        let mut fresh = used.clone();
        fresh.fill(0);
        let before = used.clone();
        let (first, second) = (read(&text, &mut used), read(&text, &mut fresh));
        assert_eq!(first, second);
        if first.number == 1 {
            assert_eq!(used, before);
        } else {
            assert_eq!(used, fresh);
        }
        compared += 1;
        accepted += u64::from(first.number == 0);
    }
    println!("areas: {compared} readings into a used area, {accepted} accepted");
    assert!(accepted * 5 > compared);
}

/// Good texts, and copies of them with more and more damage.
#[test]
fn good_texts_and_damaged_copies() {
    let mut random = Random::of_test("copies");
    let mut bench = bench();
    let (mut good, mut tally) = (0u64, Tally::default());
    for _ in 0..count(8_000) {
        let lines = sessions::good(&mut random);
        let mut text = sessions::ended(&mut random, &lines);
        if text.last() != Some(&b'\r') {
            assert_eq!(bench.same(&text).number, 0, "{}", text.escape_ascii());
            good += 1;
        }
        for _ in 0..3 {
            sessions::damage(&mut random, &mut text);
            tally.add(bench.same(&text));
        }
    }
    println!("copies: {good} good texts accepted, and damaged copies:\n{tally}");
    assert!(good > 0 && tally.of(0) > 0 && tally.of(0) < tally.all());
    if tally.all() >= 20_000 {
        for field in fields_of(8) {
            assert!(tally.0.get(&(8, field)).map_or(false, |seen| *seen >= 12), "few bad bytes in field {field}");
        }
    }
}

/// The main run: at least a hundred thousand texts unless `COUNT` says otherwise.
#[test]
fn generated() {
    let seed = from_env("SEED", 8866);
    let texts = count(120_000);
    println!("read: seed {seed}");
    let mut bench = bench();
    let (mut tally, mut lines) = (Tally::default(), Counts::default());
    let mut of_records: BTreeMap<&str, u64> = BTreeMap::new();
    for number in 0..texts {
        let text = sessions::nth(seed, number);
        match bench.compare(&text) {
            Ok(answer) => {
                tally.add(answer);
                let Counts { empty, ignored, kept } = bench.counts();
                lines = Counts { empty: lines.empty + empty, ignored: lines.ignored + ignored, kept: lines.kept + kept };
                for column in COLUMNS.iter().filter(|_| answer.number == 0) {
                    let seen = area_lines(bench.area(), column).into_iter().filter(|line| *line > 0).count();
                    *of_records.entry(column.name).or_default() += seen as u64;
                }
            }
            Err(_) => panic!("text {number} of seed {seed}: {}", bench.smallest(&text)),
        }
    }
    println!("read: {texts} generated texts compared\n{tally}");
    println!("read: lines of the accepted ones: {lines:?}");
    println!("read: lines of their records: {of_records:?}");
    let keys = |name: &str| ["key", "media keys"].contains(&name);
    assert!(texts < 1_000 || of_records.iter().all(|(name, seen)| (seen * 20 > tally.of(0)) != keys(name)), "of each column");
    assert!(texts < 1_000 || lines.empty * 5 > tally.of(0) && lines.ignored > tally.of(0), "each kind of lines is counted");
    assert_eq!(tally.of(19), 0, "a second k line is ignored");
    assert!(tally.of(0) * 5 > texts && tally.of(0) * 5 < texts * 4, "both sides are reached well");
    if texts >= 100_000 {
        for number in (3..=21).filter(|number| *number != 19).chain([0, 1]) {
            assert!(tally.of(number) >= 36, "few answers {number}");
        }
        for pair in PAIRS {
            assert!(tally.0.get(&pair).map_or(false, |seen| *seen >= 36), "few answers {pair:?}");
        }
        for table in 1..=10 {
            assert!(tally.0.get(&(21, table)).map_or(false, |seen| *seen >= 12), "table {table} is full too seldom");
        }
    }
}

/// The other generators' texts, which are nearer to noise.
#[test]
fn lines_and_plain_texts() {
    let mut random = Random::of_test("lines");
    let mut bench = bench();
    let mut tally = Tally::default();
    for _ in 0..count(10_000) {
        let mut lines = texts::lines(&mut random);
        tally.add(bench.same(&lines));
        lines.splice(..0, b"v=0\n".iter().copied());
        tally.add(bench.same(&lines));
        tally.add(bench.same(&texts::text(&mut random)));
    }
    println!("lines and plain texts:\n{tally}");
    assert!(tally.of(0) > 0 && tally.of(6) > 0);
    assert_eq!(PARTS[6..].iter().map(|part| part.rows).collect::<Vec<_>>(), TABLES);
}
