//! Our writer beside the crate's: on what was read, and on areas that no reader made.
mod plain;
use compare::area::{
    decode, Attribute, Bandwidth, Connection, Key, Media, MediaConnection, Offset, Origin, Repeat, Seen, Span, Time,
    Zone, PARTS, SESSION, SIZE,
};
use compare::judge::{self, cells, faults, judge, two, Fault, Kind, FAULTS};
use compare::made::{self, at, line_at, put_eight, put_two, DAMAGES};
use compare::whole::Whole;
use compare::writing::{is_key, at_once_from, ours, Fill, Length, Outcome};
use compare::{account, fill, length, read, theirs, Answer, Told};
use generate::fields::BROKEN;
use generate::random::count;
use generate::sessions::{self, LONGEST};
use generate::{texts, Random};
use oracle::written;
use std::collections::BTreeMap;
use std::fs;

fn only(number: u64, len: usize) -> Answer {
    Answer {
        number,
        len: len as u64,
        ..Answer::default()
    }
}

/// The area of an accepted text.
fn area_of(text: &[u8]) -> Option<Vec<u8>> {
    let mut area = vec![0xa5; SIZE];
    (account::read(text, &mut area).number == 0).then_some(area)
}

/// Texts through both readers and both writers; what was written is read back.
fn both_sides() -> Whole<fn(&[u8], &mut [u8]) -> Told, Length, Fill> {
    Whole::new(read, ours())
}

// ---- what was read

#[test]
fn generated() {
    let seed = generate::random::from_env("SEED", 8866);
    let mut both = both_sides();
    let texts = count(40_000);
    for number in 0..texts {
        // other numbers than the reader's own comparison has
        both.same(&sessions::nth(seed, 1_000_000_000 + number));
    }
    println!("write: seed {seed}, {texts} generated texts: {:?}", both.counts);
    assert!(both.counts.accepted * 5 > texts && both.counts.refused > 0 && both.counts.read_back > 0);
}

#[test]
fn good_texts() {
    let mut random = Random::of_test("write good texts");
    let mut both = both_sides();
    for _ in 0..count(10_000) {
        let lines = sessions::good(&mut random);
        both.same(&sessions::ended(&mut random, &lines));
        both.same(&texts::text(&mut random));
    }
    println!("write: good texts: {:?}", both.counts);
    assert!(both.counts.accepted > both.counts.refused);
}

#[test]
fn full_tables() {
    let mut random = Random::of_test("write full tables");
    let mut both = both_sides();
    for _ in 0..count(8) {
        for table in 1..=10 {
            let (mut session, mut media) = (vec![b"v=0".to_vec()], Vec::new());
            sessions::fill(&mut random, table, sessions::TABLES[table - 1], &mut session, &mut media);
            session.retain(|line| line.len() < 500); // table 6 may have a line that is too much
            both.same(&[session, media].concat().join(&b'\n'));
        }
    }
    // all ten full at once
    let (mut session, mut media) = (vec![b"v=0".to_vec()], Vec::new());
    for (letter, times) in [("e=", 16), ("p=", 16), ("b=:1", 32), ("t=0 0", 32), ("a=", 256)] {
        session.resize(session.len() + times, letter.as_bytes().to_vec());
    }
    session.resize(session.len() + 64, b"r=1 1 1d 60 0 3600".to_vec());
    session.push([&b"z="[..], &b"0 -1h ".repeat(64)].concat());
    for _ in 0..32 {
        media.extend(["m= 1  ", "c=I J h", "c=I J h", "b=:1"].map(|line| line.as_bytes().to_vec()));
        media.resize(media.len() + 8, b"a=:".to_vec());
    }
    let text = [session, media].concat().join(&b'\n');
    let area = area_of(&text).expect("all tables are full, and none is too small");
    assert_eq!(decode(&area).unwrap().counts(), sessions::TABLES);
    both.same(&text);
    println!("write: full tables: {:?}", both.counts);
    assert!(both.counts.accepted > 80 / 2 && both.counts.refused == 0);
}

/// Texts as long as they may be: some are written longer than a text may be.
#[test]
fn longest_texts() {
    let mut random = Random::of_test("write longest");
    let mut both = both_sides();
    for _ in 0..count(60) {
        let lines = sessions::good(&mut random);
        let text = sessions::ended(&mut random, &lines);
        let due = LONGEST - random.below(3);
        both.same(&sessions::lengthened(&mut random, text, due));
    }
    // many short kept lines, each one byte longer when written
    let mut text = b"v=0\n".to_vec();
    (0..512).for_each(|_| text.extend(b"a=\n"));
    (0..32).for_each(|_| text.extend(b"m= 0  \n"));
    text.extend(b"i=");
    text.resize(LONGEST, b'x');
    both.same(&text);
    println!("write: longest texts: {:?}", both.counts);
    assert!(both.counts.accepted > 0 && both.counts.too_long > 0 && both.counts.longest > LONGEST);
}

/// Document 01: `v=0` writes 40 bytes, and the bound is reached.
#[test]
fn the_bound_is_tight() {
    let mut both = both_sides();
    both.same(b"v=0");
    assert_eq!((both.counts.longest, both.counts.nearest), (40, Some(0)));
    both.same(b"v=0\n");
    both.same(b"v=0\r\ns=\r\n");
    both.same(b"\n\nv=0\nx=\xff\nt=+1 01\nz=\n");
    assert_eq!(both.counts.read_back, 4);
    assert_eq!((both.counts.empty, both.counts.ignored, both.counts.kept), (2, 1, 1 + 1 + 2 + 3));
}

/// Every text in the folder `texts`, with the nettypes and addrtypes as they stand.
#[test]
fn the_folder_of_texts() {
    let mut both = both_sides();
    for folder in ["published", "kinds"] {
        let folder = format!("{}/../../texts/{folder}", env!("CARGO_MANIFEST_DIR"));
        for entry in fs::read_dir(&folder).unwrap_or_else(|error| panic!("{folder}: {error}")) {
            let path = entry.unwrap().path();
            if path.extension().map_or(false, |end| end == "sdp") {
                both.same(&fs::read(path).unwrap());
            }
        }
    }
    println!("write: the folder of texts: {:?}", both.counts);
    assert!(both.counts.accepted >= 25 && both.counts.refused >= 5);
}

// ---- areas that no reader made

#[derive(Default)]
struct Classes {
    good: u64,
    /// Good with cells that are not judged and not zero.
    noisy: u64,
    bad: u64,
    /// By reason: how often at all, and how often alone.
    any: BTreeMap<Fault, u64>,
    alone: BTreeMap<Fault, u64>,
}

impl Classes {
    fn add(&mut self, text: &[u8], area: &[u8]) {
        match ours().same(text, area) {
            Outcome::Written(_) => {
                self.good += 1;
                self.noisy += u64::from(decode(area).is_err());
            }
            Outcome::Bad(faults) => {
                self.bad += 1;
                for fault in &faults {
                    *self.any.entry(*fault).or_default() += 1;
                    if faults.len() == 1 {
                        *self.alone.entry(*fault).or_default() += 1;
                    }
                }
            }
        }
    }

    fn print(&self, what: &str) {
        let Classes { good, noisy, bad, .. } = self;
        println!("{what}: {good} good, {noisy} of them with noise in cells that aren't judged; {bad} bad");
        for fault in FAULTS {
            let of = |counts: &BTreeMap<Fault, u64>| counts.get(&fault).copied().unwrap_or(0);
            if of(&self.any) > 0 {
                println!("    {:<12} {:>8}, alone {:>8}", format!("{fault:?}"), of(&self.any), of(&self.alone));
            }
        }
    }

    fn alone(&self, fault: Fault) -> u64 {
        self.alone.get(&fault).copied().unwrap_or(0)
    }
}

#[test]
fn made_areas() {
    let mut random = Random::of_test("made areas");
    let mut classes = Classes::default();
    for _ in 0..count(6_000) {
        let text = made::text(&mut random);
        let area = made::area(&mut random, &text);
        assert!(judge(&text, &area), "{:?}", faults(&text, &area));
        classes.add(&text, &area);
    }
    classes.print("made areas");
    assert!(classes.bad == 0 && classes.noisy * 4 > classes.good);
}

/// Made areas, and those of texts that were read, with damage to one cell or to several.
#[test]
fn damaged_areas() {
    let mut random = Random::of_test("damaged areas");
    let mut classes = Classes::default();
    let mut by_kind: BTreeMap<&str, [u64; 2]> = BTreeMap::new();
    let rounds = count(2_500);
    for round in 0..rounds {
        let (text, area) = if round % 3 == 0 {
            let lines = sessions::good(&mut random);
            let mut text = sessions::ended(&mut random, &lines);
            let Some(area) = area_of(&text) else { continue };
            // strings that are moved may stand in bytes that no reader would take
            text.extend(made::text(&mut random));
            text.truncate(LONGEST);
            (text, area)
        } else {
            let text = made::text(&mut random);
            let area = made::area(&mut random, &text);
            (text, area)
        };
        for kind in DAMAGES {
            let mut damaged = area.clone();
            made::damage(&mut random, kind, &text, &mut damaged);
            by_kind.entry(kind).or_default()[usize::from(!judge(&text, &damaged))] += 1;
            classes.add(&text, &damaged);
            if random.once_in(6) {
                for _ in 0..random.between(1, 3) {
                    let more = DAMAGES[random.below(DAMAGES.len())];
                    made::damage(&mut random, more, &text, &mut damaged);
                }
                classes.add(&text, &damaged);
            }
        }
    }
    classes.print("damaged areas");
    println!("    good and bad by the first damage: {by_kind:?}");
    if rounds >= 2_500 {
        for fault in FAULTS {
            assert!(classes.alone(fault) >= rounds / 25, "{fault:?} came too seldom");
        }
    }
    assert!(classes.good >= rounds && classes.noisy >= rounds / 4);
    assert_eq!(by_kind["cell not judged"][1], 0);
}

/// Noise from end to end: nearly always bad. With the counts put right, a mark or a place is bad.
#[test]
fn areas_of_noise() {
    let mut random = Random::of_test("noise");
    let mut classes = Classes::default();
    for round in 0..count(2_000) {
        let text = made::text(&mut random);
        let mut area: Vec<u8> = (0..SIZE).map(|_| random.byte()).collect();
        if round % 2 == 0 {
            for part in PARTS.iter().filter(|part| part.rows > 0) {
                put_two(&mut area, part.at, random.below(3));
            }
        }
        if round % 4 == 0 {
            // absent fields and empty tables: then only the name is left
            for cell in cells(&area) {
                match cell.kind {
                    Kind::Mark if cell.part.rows == 0 => put_two(&mut area, cell.at, 0),
                    Kind::Count => put_two(&mut area, cell.at, 0),
                    _ => {}
                }
            }
            if round % 8 == 0 {
                let (place, len) = made::string(&mut random, &text);
                put_two(&mut area, at("name", 0, "name"), place);
                put_two(&mut area, at("name", 0, "name") + 2, len);
            }
        }
        classes.add(&text, &area);
    }
    classes.print("areas of noise");
    assert!(classes.good > 0 && classes.bad > classes.good);
}

/// A session with something in every part, twice where it is a table, and a text for it with other bytes behind. Its keys
/// are those of an area that was kept, with lines.
fn rich() -> (Vec<u8>, Vec<u8>) {
    let text = b"v=0\no=u 1 2 IN IP4 h\ns=n\ni=d\nu=u\ne=e\ne=f\np=p\np=q\nc=IN IP4 h\nb=AS:1\nb=X:2\nt=1 2\n\
        r=1 2 3 4\nt=3 4\nr=5 6 7\nz=1 -2 3 4\nk=m:t\na=x\na=y:z\nm=a 1/2 p f\ni=t\nc=A B C\nb=CT:5\nk=q:r\na=w:\n\
        m=b 2/3 p f\ni=g\nc=D E F\nb=Y:6\nk=m:t\na=v:s\n";
    let mut area = made::keyed(text, &area_of(text).unwrap());
    for (column, cell, line) in [("key", 0, 18), ("media keys", 0, 25), ("media keys", 1, 31)] {
        put_two(&mut area, line_at(column, cell), line);
    }
    let seen = decode(&area).unwrap();
    assert!(seen.key.is_some() && seen.medias.iter().all(|media| media.key.is_some()));
    (text.to_vec(), area)
}

/// Two characters, of two and of four bytes.
const GOOD: &[u8] = b"\xc3\xa9\xf4\x8f\xbf\xbf";

/// Every judged cell of a rich session in turn: each mark with values that are no mark, each string with a place or a
/// length that is one too much or where no characters stand, each owner, each count.
#[test]
fn every_cell_in_turn() {
    let (text, area) = rich();
    let mut classes = Classes::default();
    let mut add = |at: usize, value: usize| {
        let mut changed = area.clone();
        put_two(&mut changed, at, value);
        classes.add(&text, &changed);
    };
    let len = text.len();
    let mut seen = BTreeMap::new();
    for cell in cells(&area).iter().filter(|cell| cell.judged) {
        *seen.entry(format!("{:?}", cell.kind)).or_insert(0u64) += 1;
        match cell.kind {
            Kind::Text => {
                let (place, used) = (two(&area, cell.at), two(&area, cell.at + 2));
                for value in [len - used, len - used + 1, len, len + 1, 0xffff, 0, 256] {
                    add(cell.at, value);
                }
                for value in [len - place, len - place + 1, len, 0xffff, 0, 256] {
                    add(cell.at + 2, value);
                }
            }
            Kind::Number if cell.width == 8 => (0..4).for_each(|word| add(cell.at + 2 * word, 0xffff)),
            Kind::Line => {
                assert!(two(&area, cell.at) > 0, "{} row {}: {}", cell.part.name, cell.row, cell.name);
                for value in [0, 1, 255, 256, 32_767, 32_768, 32_769, 32_770, 0x80ff, 0x8100, 0xff00, 0xffff] {
                    add(cell.at, value);
                }
            }
            Kind::Mark | Kind::Owner | Kind::Count | Kind::Number => {
                for value in [0, 1, 2, 3, 128, 255, 256, 257, 258, 512, 0x8001, 0xff00, 0xffff] {
                    add(cell.at, value);
                }
                if cell.kind == Kind::Count {
                    add(cell.at, cell.part.rows);
                    add(cell.at, cell.part.rows + 1);
                }
            }
        }
    }
    // an empty string at the end of the text is inside, one place further it is not
    for cell in cells(&area).iter().filter(|cell| cell.judged && cell.kind == Kind::Text) {
        for place in [len, len + 1] {
            let mut changed = area.clone();
            put_two(&mut changed, cell.at, place);
            put_two(&mut changed, cell.at + 2, 0);
            assert_eq!(judge(&text, &changed), place == len);
            classes.add(&text, &changed);
        }
    }
    // each string where bytes stand that are no character, or only a part of one
    for cell in cells(&area).iter().filter(|cell| cell.judged && cell.kind == Kind::Text) {
        for broken in BROKEN.iter().copied().chain([GOOD]) {
            let good = broken == GOOD;
            let text = [&text[..], broken].concat();
            let mut changed = area.clone();
            put_two(&mut changed, cell.at, len);
            put_two(&mut changed, cell.at + 2, broken.len());
            assert_eq!(judge(&text, &changed), good);
            classes.add(&text, &changed);
            // its last byte alone, and all but its last
            put_two(&mut changed, cell.at, text.len() - 1);
            put_two(&mut changed, cell.at + 2, 1);
            classes.add(&text, &changed);
            put_two(&mut changed, cell.at, len);
            put_two(&mut changed, cell.at + 2, broken.len() - 1);
            classes.add(&text, &changed);
        }
    }
    classes.print("every cell in turn");
    println!("    judged cells: {seen:?}");
    // an owner of 0 doesn't fall in the first row only, and is bad in three tables
    assert!(FAULTS.iter().all(|fault| classes.alone(*fault) >= 3));
}

/// Document 02, P9: "23 also for a line above 32,768". Every line of a session that has everything, and every other cell of
/// the columns: those past a count, and those of what is made absent, may hold anything.
#[test]
fn every_line_in_turn() {
    let (text, area) = rich();
    let due = whole(&text, &area);
    let (mut judged, mut others) = (0, 0);
    for cell in cells(&area).iter().filter(|cell| cell.kind == Kind::Line) {
        let mut changed = area.clone();
        for line in [0, 1, 32_767, 32_768, 32_769, 0xffff] {
            put_two(&mut changed, cell.at, line);
            let outcome = ours().same(&text, &changed);
            let (part, row) = (cell.part.name, cell.row);
            if cell.judged && line > 32_768 {
                assert_eq!(outcome, Outcome::Bad([Fault::Line].into()), "{part} {row} {}: {line}", cell.name);
            } else {
                assert_eq!(outcome, Outcome::Written(due.clone().into()), "{part} {row} {}: {line}", cell.name);
            }
        }
        *if cell.judged { &mut judged } else { &mut others } += 1;
    }
    println!("write: {judged} lines in turn, {others} cells of lines that aren't judged");
    // the six fields, the ten tables, titles and keys
    assert_eq!((judged, others), (6 + (2 + 2 + 2 + 4 + 2 + 2 + 3 + 2 + 4 + 2) + 2 + 2, 1_190 - 35));
    // each field, and each media's title and key, made absent by its mark
    let mut absent = 0;
    for mark in cells(&area).iter().filter(|cell| cell.judged && cell.kind == Kind::Mark) {
        let of_mark = |cell: &&judge::Cell| {
            let name = mark.name.strip_suffix("mark").unwrap();
            cell.kind == Kind::Line && cell.name == format!("{name}line") && (cell.part.name, cell.row) == (mark.part.name, mark.row)
        };
        let all = cells(&area);
        let Some(line) = all.iter().find(of_mark) else { continue };
        let mut changed = area.clone();
        put_two(&mut changed, line.at, 0xffff);
        assert_eq!(ours().same(&text, &changed), Outcome::Bad([Fault::Line].into()));
        put_two(&mut changed, mark.at, 0);
        let without = whole(&text, &changed);
        put_two(&mut changed, line.at, 0);
        assert_eq!(without, whole(&text, &changed), "{} {}", mark.part.name, mark.name);
        absent += 1;
    }
    assert_eq!(absent, 5 + 2 * 2, "origin, description, uri, connection, key; titles and keys of two medias");
}

/// Every table with its count at the most and one over, the rows being good and the text long enough.
#[test]
fn counts_at_their_ends() {
    let text = b"x".repeat(40);
    let mut classes = Classes::default();
    for part in PARTS.iter().filter(|part| part.rows > 0) {
        let mut area = vec![0; SIZE];
        // something that owners can name
        for name in ["times", "repeats", "medias"] {
            put_two(&mut area, at(name, 0, PARTS.iter().find(|part| part.name == name).unwrap().fields[0].2) - 2, 1);
        }
        put_two(&mut area, at("repeats", 0, "owner"), 1);
        for row in 0..part.rows {
            if part.fields[0].2 == "owner" {
                put_two(&mut area, at(part.name, row, "owner"), 1);
            }
        }
        for count in [part.rows - 1, part.rows, part.rows + 1, part.rows + 256, 0xffff] {
            put_two(&mut area, part.at, count);
            assert_eq!(judge(&text, &area), count <= part.rows, "{} {count}", part.name);
            classes.add(&text, &area);
        }
    }
    classes.print("counts at their ends");
    assert_eq!((classes.good, classes.alone(Fault::Count)), (20, 30));
}

/// The text of a session by hand: strings are put in one behind the other.
#[derive(Default)]
struct Hand {
    text: Vec<u8>,
}

impl Hand {
    fn put(&mut self, bytes: &[u8]) -> Span {
        let place = self.text.len();
        self.text.extend(bytes);
        Span { place, len: bytes.len() }
    }
}

#[rustfmt::skip] // in one row what is left out, in the other what is kept beside it
const HARD: [&str; 12] = [
    "", "\r", "\n", "\0", "\r\n", "\0\r\n\0",
    "a\rb", "a\nb=c\n", "\0a\0", "\u{e9}\r\u{10ffff}", "\t \u{7f}", "a\r\nm=x 1 y z\r\n",
];

/// Strings with NUL, CR and LF in every place that a string can have, in keys too, which are not written.
#[test]
fn hard_strings() {
    let mut classes = Classes::default();
    for hard in HARD {
        for other in ["x", "", "\r\n"] {
            let mut hand = Hand::default();
            let first = hand.put(hard.as_bytes());
            let second = hand.put(other.as_bytes());
            for (one, two) in [(first, second), (second, first)] {
                let connection = || Connection {
                    nettype: one,
                    addrtype: two,
                    address: one,
                };
                let key = |text| Some(Key { method: one, text });
                let seen = Seen {
                    origin: Some(Origin {
                        username: Some(one),
                        sess_id: two,
                        sess_version: u64::MAX,
                        nettype: one,
                        addrtype: two,
                        unicast_address: one,
                    }),
                    name: one,
                    description: Some(one),
                    uri: Some(two),
                    connection: Some(connection()),
                    key: key(Some(two)),
                    emails: vec![one, two],
                    phones: vec![two, one],
                    connections: vec![MediaConnection {
                        owner: 1,
                        connection: connection(),
                    }],
                    bandwidths: (0..3).map(|owner| Bandwidth { owner, bwtype: one, value: owner }).collect(),
                    attributes: (0..3)
                        .map(|owner| Attribute {
                            owner,
                            name: one,
                            value: (owner != 1).then_some(two),
                        })
                        .collect(),
                    medias: (0..2)
                        .map(|at| Media {
                            media: one,
                            port: 65_535 * at,
                            num_ports: (at == 1).then_some(0),
                            proto: two,
                            fmt: one,
                            title: Some(two),
                            key: key((at == 1).then_some(one)),
                        })
                        .collect(),
                    ..Seen::default()
                };
                classes.add(&hand.text, &plain::encode(&seen));
            }
        }
    }
    classes.print("hard strings");
    assert_eq!((classes.good, classes.bad), (12 * 3 * 2, 0));
}

/// Of a text that is all ASCII the strings need no look. So one byte is changed, in each place: within a string, where it
/// may make it bad, and between the strings, where it may not.
#[test]
fn one_byte_beyond_ascii() {
    let text = b"v=0\ns=abc\nx=def\nm=audio 1 RTP/AVP 0\n".to_vec();
    let area = area_of(&text).unwrap();
    let mut classes = Classes::default();
    for byte in [0, b'\n', 0x7f, 0x80, 0x81, 0xc2, 0xff] {
        for place in 0..text.len() {
            let mut text = text.clone();
            text[place] = byte;
            classes.add(&text, &area);
        }
    }
    classes.print("one byte beyond ASCII");
    let bad = 4 * "abcaudioRTP/AVP0".len();
    assert_eq!((classes.good as usize, classes.bad as usize), (7 * text.len() - bad, bad));
}

/// A session's whole text, written by ours and compared with the crate.
fn whole(text: &[u8], area: &[u8]) -> String {
    match ours().same(text, area) {
        Outcome::Written(bytes) => String::from_utf8(bytes).unwrap(),
        Outcome::Bad(faults) => panic!("{faults:?}"),
    }
}

/// The line with this letter.
fn line(text: &[u8], area: &[u8], letter: &str) -> String {
    let whole = whole(text, area);
    assert!(whole.ends_with("\r\n"));
    let lines: Vec<&str> = whole.split("\r\n").filter(|line| line.starts_with(letter)).collect();
    assert_eq!(lines.len(), 1, "{whole:?}");
    lines[0].to_string()
}

/// "An absent or empty username is `-`, judged before the dropping."
#[test]
fn usernames() {
    let text = b"\r\0\n-u";
    let origin = |mark: usize, place: usize, len: usize| {
        let mut area = vec![0; SIZE];
        put_two(&mut area, at("origin", 0, "mark"), 1);
        put_two(&mut area, at("origin", 0, "username mark"), mark);
        put_two(&mut area, at("origin", 0, "username"), place);
        put_two(&mut area, at("origin", 0, "username") + 2, len);
        line(text, &area, "o=")
    };
    assert_eq!(origin(0, 0, 0), "o=-  0   ");
    assert_eq!(origin(0, 9, 9), "o=-  0   ");
    assert_eq!(origin(1, 0, 0), "o=-  0   ");
    assert_eq!(origin(1, 5, 0), "o=-  0   ");
    for len in 1..=3 {
        assert_eq!(origin(1, 0, len), "o=  0   ");
    }
    assert_eq!(origin(1, 0, 4), "o=-  0   ");
    assert_eq!(origin(1, 0, 5), "o=-u  0   ");
    assert_eq!(origin(1, 4, 1), "o=u  0   ");
}

/// Document 01's rule for times, and the crate's.
#[test]
fn times_and_zones() {
    let mut compared = 0u64;
    let mut values: Vec<u64> = vec![0, 1, 59, 60, 61, 3_599, 3_600, 3_601, 86_399, 86_400, 86_401, 90_000, 604_800];
    for unit in [1u64, 60, 3_600, 86_400] {
        for middle in [u64::MAX / unit * unit, (1 << 63) / unit * unit, unit * 7, unit * 24, unit * 60, unit * 1_440] {
            values.extend([middle, middle.wrapping_add(1), middle.wrapping_sub(1), middle.wrapping_neg()]);
        }
    }
    values.extend([1 << 63, (1 << 63) - 1, (1 << 63) + 1, u64::MAX, u64::MAX - 1]);
    let mut area = vec![0; SIZE];
    put_two(&mut area, at("zones", 0, "adjustment") - 2, 1);
    put_two(&mut area, at("times", 0, "start") - 2, 1);
    put_two(&mut area, at("repeats", 0, "owner") - 2, 1);
    put_two(&mut area, at("repeats", 0, "owner"), 1);
    put_two(&mut area, at("offsets", 0, "owner") - 2, 2);
    put_two(&mut area, at("offsets", 0, "owner"), 1);
    put_two(&mut area, at("offsets", 1, "owner"), 1);
    for value in &values {
        let mut area = area.clone();
        put_eight(&mut area, at("zones", 0, "adjustment"), *value);
        put_eight(&mut area, at("zones", 0, "offset"), *value);
        put_eight(&mut area, at("times", 0, "start"), *value);
        put_eight(&mut area, at("times", 0, "stop"), value.wrapping_sub(1));
        put_eight(&mut area, at("repeats", 0, "interval"), *value);
        put_eight(&mut area, at("repeats", 0, "duration"), value.wrapping_add(60));
        put_eight(&mut area, at("offsets", 0, "value"), *value);
        put_eight(&mut area, at("offsets", 1, "value"), value.wrapping_add(1));
        ours().same(b"", &area);
        compared += 1;
    }
    // with the answers in document 01's words
    let zone = |value: i64| {
        let mut area = vec![0; SIZE];
        put_two(&mut area, at("zones", 0, "adjustment") - 2, 1);
        put_eight(&mut area, at("zones", 0, "offset"), value as u64);
        line(b"", &area, "z=")
    };
    for (value, due) in [
        (0, "z=0 0"),
        (1, "z=0 1"),
        (-1, "z=0 -1"),
        (60, "z=0 1m"),
        (-60, "z=0 -1m"),
        (3_600, "z=0 1h"),
        (-3_600, "z=0 -1h"),
        (86_400, "z=0 1d"),
        (-86_400, "z=0 -1d"),
        (-86_460, "z=0 -1441m"),
        (i64::MIN, "z=0 -9223372036854775808"),
        (i64::MAX, "z=0 9223372036854775807"),
    ] {
        assert_eq!(zone(value), due);
    }
    println!("write: {compared} numbers as times, repeats, offsets and zones");
}

/// Rows in many shapes of ownership, and each fallen by one at one row.
#[test]
fn owners() {
    let mut random = Random::of_test("owners");
    let mut classes = Classes::default();
    for _ in 0..count(400) {
        let medias = random.between(1, 6) as u64;
        let times = random.between(1, 5) as u64;
        let rows = |random: &mut Random, low: u64, most: u64| {
            let rows = random.between(2, 12);
            let mut owners: Vec<u64> = (0..rows).map(|_| random.between(low as usize, most as usize) as u64).collect();
            owners.sort();
            owners
        };
        let text = b"abcdef";
        let span = |at: u64| Span { place: at as usize % 6, len: 1 };
        let repeats: Vec<Repeat> = rows(&mut random, 1, times)
            .into_iter()
            .zip(0..)
            .map(|(owner, at)| Repeat { owner, interval: at, duration: 60 * at })
            .collect();
        let offsets = rows(&mut random, 1, repeats.len() as u64).into_iter();
        let seen = Seen {
            times: (0..times).map(|at| Time { start: at, stop: 9 }).collect(),
            offsets: offsets.map(|owner| Offset { owner, value: owner }).collect(),
            repeats,
            zones: vec![Zone { adjustment: 1, offset: -7_200 }],
            connections: rows(&mut random, 1, medias)
                .into_iter()
                .zip(0..)
                .map(|(owner, at)| MediaConnection {
                    owner,
                    connection: Connection {
                        nettype: span(at),
                        addrtype: span(at + 1),
                        address: span(at + 2),
                    },
                })
                .collect(),
            bandwidths: rows(&mut random, 0, medias)
                .into_iter()
                .zip(0..)
                .map(|(owner, at)| Bandwidth { owner, bwtype: span(at), value: at })
                .collect(),
            attributes: rows(&mut random, 0, medias)
                .into_iter()
                .zip(0..)
                .map(|(owner, at)| Attribute {
                    owner,
                    name: span(at),
                    value: (at % 2 == 0).then_some(span(at)),
                })
                .collect(),
            medias: (0..medias)
                .map(|at| Media {
                    media: span(at),
                    port: at,
                    num_ports: None,
                    proto: span(at),
                    fmt: span(at),
                    title: None,
                    key: None,
                })
                .collect(),
            ..Seen::default()
        };
        let area = plain::encode(&seen);
        assert!(judge(text, &area));
        classes.add(text, &area);
        for cell in cells(&area).iter().filter(|cell| cell.judged && cell.kind == Kind::Owner && cell.row > 0) {
            let before = usize::from(area[cell.at - cell.part.width]);
            if before > 0 {
                let mut fallen = area.clone();
                put_two(&mut fallen, cell.at, before - 1);
                assert!(faults(text, &fallen).contains(&Fault::OwnerFalls));
                classes.add(text, &fallen);
            }
        }
    }
    classes.print("owners");
    assert!(classes.good > 0 && classes.alone(Fault::OwnerFalls) > 10 * classes.good);
}

/// Each string is the whole of the longest text: the longest output that an area of ten tables can give.
#[test]
fn the_longest_output() {
    let text = vec![b'x'; LONGEST];
    let mut area = vec![0; SIZE];
    for part in PARTS.iter().filter(|part| part.rows > 0) {
        put_two(&mut area, part.at, part.rows);
    }
    for cell in cells(&area) {
        match cell.kind {
            Kind::Mark => put_two(&mut area, cell.at, 1),
            Kind::Owner => put_two(&mut area, cell.at, 1 + 31 * usize::from(cell.row + 1 == cell.part.rows)),
            Kind::Text => put_two(&mut area, cell.at + 2, LONGEST),
            Kind::Number => area[cell.at..cell.at + cell.width].fill(0xff),
            Kind::Line => put_two(&mut area, cell.at, 32_768),
            Kind::Count => {}
        }
    }
    assert!(judge(&text, &area), "{:?}", faults(&text, &area));
    let due = compare::writing::by_the_crate(&text, &area).unwrap();
    assert_eq!(length(&text, &area), only(0, due.len()));
    assert_eq!(fill(&text, &area, &mut []), only(22, due.len()));
    let mut out = vec![b'.'; due.len() + 3];
    assert_eq!(fill(&text, &area, &mut out[..due.len() - 1]), only(22, due.len()));
    assert!(out.iter().all(|byte| *byte == b'.'));
    assert_eq!(fill(&text, &area, &mut out[..due.len()]), only(0, due.len()));
    assert!(out[..due.len()] == due[..] && out[due.len()..] == b"..."[..]);
    out.fill(b'.');
    assert_eq!(fill(&text, &area, &mut out), only(0, due.len()));
    assert!(out[..due.len()] == due[..] && out[due.len()..] == b"..."[..]);
    println!("write: the longest output has {} bytes", due.len());
    assert!(due.len() > 40_000_000);
}

// ---- the order of refusals, and the lent memory

/// 2, then 1, then 23, of the length and of the filling, then 22 of the filling alone, whatever else holds.
#[test]
fn the_order_of_refusals() {
    let (text, good) = rich();
    let (mut bad, mut bad_line) = (good.clone(), good.clone());
    put_two(&mut bad, at("uri", 0, "mark"), 2);
    put_two(&mut bad_line, line_at("name", 0), 32_769);
    let mut long = text.clone();
    long.resize(LONGEST + 1, b'\n');
    let mut limit = text.clone();
    limit.resize(LONGEST, b'\n');
    let needed = whole(&text, &good).len();
    let mut tried = 0;
    for text in [&text, &limit, &long] {
        for area in [&good, &bad, &bad_line] {
            for size in [0, 1, 31, SIZE / 2, SESSION, SIZE - 1, SIZE, SIZE + 1, SIZE + 50] {
                // beyond the size stands what would be bad anywhere
                let mut lent = area.clone();
                lent.resize(SIZE + 50, 0xff);
                lent.truncate(size);
                let asked = if size < SIZE {
                    only(2, 0)
                } else if text.len() > LONGEST {
                    only(1, 0)
                } else if area != &good {
                    only(23, 0)
                } else {
                    only(0, needed)
                };
                let (text_before, area_before) = (text.clone(), lent.clone());
                assert_eq!(length(text, &lent), asked, "area {size}, text {}", text.len());
                assert!(*text == text_before && lent == area_before);
                for room in [0, 1, needed - 1, needed, needed + 1, needed + 1_000] {
                    // what the length is refused with, the filling is too
                    let due = if asked.number == 0 && room < needed { only(22, needed) } else { asked };
                    let mut out = vec![0xa5; room];
                    assert_eq!(fill(text, &lent, &mut out), due, "area {size}, text {}, output {room}", text.len());
                    let done = if due.number == 0 { needed } else { 0 };
                    assert!(out[done..].iter().all(|byte| *byte == 0xa5));
                    assert!(done == 0 || out[..done] == *whole(text, &good).as_bytes());
                    assert!(*text == text_before && lent == area_before);
                    tried += 1;
                }
            }
        }
    }
    println!("write: {tried} calls for the order of refusals");
    assert_eq!(tried, 3 * 3 * 9 * 6);
}

/// Outputs of these lengths: too short is 22 and leaves the output as it was.
fn into_outputs(text: &[u8], area: &[u8], rooms: impl Iterator<Item = usize>) -> usize {
    let due = whole(text, area).into_bytes();
    assert_eq!(length(text, area), only(0, due.len()));
    let mut tried = 0;
    for room in rooms {
        let before: Vec<u8> = (0..room).map(|at| (at * 31) as u8 | 0x80).collect();
        let mut out = before.clone();
        let answer = fill(text, area, &mut out);
        if room < due.len() {
            assert_eq!((answer, &out), (only(22, due.len()), &before), "{room} bytes of output");
        } else {
            assert_eq!(answer, only(0, due.len()), "{room} bytes of output");
            assert!(out[..due.len()] == due[..] && out[due.len()..] == before[due.len()..], "{room} bytes of output");
        }
        tried += 1;
    }
    tried
}

/// An output of every length, from none to twice that from which on the length isn't asked for: the switch between the two ways
/// is surely among them.
#[test]
fn outputs_of_every_length() {
    let numbers = [u64::MAX, 0, 86_400, 59];
    let times = Seen {
        times: (0..4).map(|at| Time { start: numbers[at], stop: u64::MAX }).collect(),
        repeats: (0..4).map(|at| Repeat { owner: 1 + at / 2, interval: u64::MAX, duration: 7 * at }).collect(),
        offsets: (0..8).map(|at| Offset { owner: 1 + at / 2, value: numbers[at as usize % 4] }).collect(),
        zones: (0..6).map(|at| Zone { adjustment: u64::MAX, offset: i64::MIN + at }).collect(),
        bandwidths: (0..6).map(|_| Bandwidth { owner: 0, bwtype: Span::default(), value: u64::MAX }).collect(),
        ..Seen::default()
    };
    // of most strings nothing is left
    let (mut dropped, mut dropping) = rich();
    for byte in dropped.iter_mut().filter(|byte| !b" 0123456789".contains(byte)).step_by(2) {
        *byte = b"\r\n\0"[usize::from(*byte) % 3];
    }
    let drops = b"\r\n\0".repeat(200);
    put_two(&mut dropping, at("name", 0, "name"), dropped.len());
    put_two(&mut dropping, at("name", 0, "name") + 2, drops.len());
    dropped.extend(drops);
    let mut noisy = vec![0; SIZE];
    put_two(&mut noisy, at("uri", 0, "uri") + 2, 1_500); // absent, and counted all the same
    let (text, area) = rich();
    let mut tried = 0;
    for (text, area) in [
        (text, area),
        (Vec::new(), plain::encode(&times)),
        (dropped, dropping),
        (Vec::new(), vec![0; SIZE]),
        (Vec::new(), noisy),
    ] {
        let at_once = at_once_from(&area);
        assert!(whole(&text, &area).len() < at_once);
        tried += into_outputs(&text, &area, 0..2 * at_once);
    }
    println!("write: outputs of {tried} lengths");
    assert!(tried > 5_000);
}

/// Every string in turn is so long that all else is little beside it. If one weren't counted in the room that is surely
/// enough, or not wholly, the length would not be asked for before an output that is too short.
#[test]
fn outputs_beside_a_long_string() {
    let (mut text, area) = rich();
    let place = text.len();
    text.extend(b"x".repeat(5_000));
    let mut tried = 0;
    for cell in cells(&area).iter().filter(|cell| cell.judged && cell.kind == Kind::Text) {
        let mut long = area.clone();
        put_two(&mut long, cell.at, place);
        put_two(&mut long, cell.at + 2, 5_000);
        let (needed, at_once) = (whole(&text, &long).len(), at_once_from(&long));
        if is_key(cell.part, cell.name) {
            // neither written nor counted
            assert_eq!((needed, at_once), (whole(&text, &area).len(), at_once_from(&area)));
        } else {
            assert!(needed > 5_000 && needed < at_once && at_once / 2 < needed);
        }
        let rooms = [0, 1, at_once / 2, needed - 1, needed, at_once - 1, at_once, at_once + 1];
        tried += into_outputs(&text, &long, rooms.into_iter());
    }
    println!("write: outputs of {tried} lengths beside a long string");
    assert!(tried >= 8 * 40);
}

/// The area that a refused reading leaves is all zero: the session of `v=0`.
#[test]
fn the_empty_session() {
    let area = vec![0; SIZE];
    for text in [&b""[..], b"v=0", b"\xff"] {
        assert_eq!(whole(text, &area), "v=0\r\no=- 0 0 IN IP4 0.0.0.0\r\ns=\r\nt=0 0\r\n");
    }
}

/// Document 01's text for `canon`.
#[test]
fn the_sample() {
    let text = b"v=0\ns=Desk 4\nx=new\nt=+60 0\nr=168h 3600 0 90\nz=60 -1h 61 +0\na=recvonly\n\
        m=audio 5004/2 RTP/AVP 96\na=note:\n";
    let due = "v=0\r\no=- 0 0 IN IP4 0.0.0.0\r\ns=Desk 4\r\nt=60 0\r\nr=7d 1h 0 90\r\nz=60 -1h 61 0\r\na=recvonly\r\n\
        m=audio 5004/2 RTP/AVP 96\r\na=note:\r\n";
    assert_eq!(whole(text, &area_of(text).unwrap()), due);
}

/// Keys with every mark and any good strings: what is written is what is written without them.
#[test]
fn keys_are_not_written() {
    let mut random = Random::of_test("keys are not written");
    let (mut compared, mut keys) = (0, 0);
    for _ in 0..count(1_500) {
        let text = made::text(&mut random);
        let area = made::area(&mut random, &text);
        let mut without = area.clone();
        for cell in cells(&area).iter().filter(|cell| is_key(cell.part, cell.name)) {
            keys += u64::from(cell.judged && cell.kind == Kind::Mark && two(&area, cell.at) == 1);
            without[cell.at..cell.at + cell.width].fill(0);
        }
        assert_eq!(whole(&text, &area), whole(&text, &without));
        compared += 1;
    }
    println!("write: {compared} areas with and without their keys, {keys} marks of keys");
    assert!(keys > compared / 2);
}

// ---- the tools of these tests

/// `theirs::session` is the other way round than `theirs::of`.
#[test]
fn the_builder_gives_the_crate_s_session_back() {
    let mut random = Random::of_test("builder");
    let (mut compared, rounds) = (0, count(3_000));
    for _ in 0..rounds {
        let lines = sessions::good(&mut random);
        let text = sessions::ended(&mut random, &lines);
        let Ok(session) = oracle::read(&text) else { continue };
        let seen = theirs::of(&session);
        let built = theirs::session(&seen).unwrap();
        assert_eq!(theirs::of(&built), seen);
        assert_eq!(written(&built), written(&session));
        compared += 1;
    }
    println!("write: {compared} sessions built");
    assert!(compared * 2 > rounds);
}
