//! Whole texts with a structure, for the comparison of readers: good ones of many shapes, good ones with one line that
//! aims at a given refusal, full tables, texts as long as they may be, and damaged copies.
use crate::{fields, texts, Random};

/// Document 01's tables in their order: the most records of each.
pub const TABLES: [usize; 10] = [16, 16, 64, 64, 32, 64, 256, 64, 512, 32];
/// The longest text.
pub const LONGEST: usize = 32_768;

/// The text with this number among those of a seed. Each has a generator of its own, so that one can be made alone.
pub fn nth(seed: u64, number: u64) -> Vec<u8> {
    let mut random = Random::new(seed.wrapping_add(number.wrapping_mul(0x9e37_79b9_7f4a_7c15)), "sessions");
    text(&mut random)
}

pub fn text(random: &mut Random) -> Vec<u8> {
    match random.below(48) {
        0..=15 => {
            let lines = good(random);
            ended(random, &lines)
        }
        16..=27 => {
            let (number, field) = PAIRS[random.below(PAIRS.len())];
            aimed_text(random, number, field)
        }
        28..=31 => misplaced(random),
        32..=33 => filled(random),
        34..=41 => damaged(random),
        42..=44 => short(random),
        45 if random.once_in(4) => long(random),
        _ => texts::text(random),
    }
}

// ---- values

/// A string without NUL, CR and LF, and without the bytes of `none`: often ASCII with many marks, now and then any
/// characters.
fn free(random: &mut Random, longest: usize, none: &[u8]) -> Vec<u8> {
    let mut string = match random.below(6) {
        0 => Vec::new(),
        1 => fields::string(random, longest),
        2 => (0..random.below(longest + 1)).map(|_| random.letter(b" :/=-+.0")).collect(),
        _ => (0..random.below(longest + 1)).map(|_| random.letter(b"abcdhmsXYZ0129 .:/=-+_@\t\x7f")).collect(),
    };
    string.retain(|byte| !matches!(byte, 0 | b'\r' | b'\n') && !none.contains(byte));
    string
}

/// A field between spaces: never empty.
fn word(random: &mut Random) -> Vec<u8> {
    match random.below(4) {
        0 => random.pick(&["jdoe", "--", "-x", "-", "host.example/127", "::1", "\u{e9}"]).as_bytes().to_vec(),
        _ => {
            let mut word = free(random, 12, b" ");
            word.push(random.letter(b"xyz019-:/"));
            word
        }
    }
}

/// A number of at most `most`, in one of its spellings: with `+`, with zeros before it, at an end.
fn number(random: &mut Random, most: u64) -> Vec<u8> {
    let value = match random.below(5) {
        0 => most - (random.below(3) as u64).min(most),
        1 => random.below(3) as u64,
        2 => random.next() % (most / 2 + 1),
        _ => random.next() % most.min(100_000),
    };
    let sign = if random.once_in(8) { "+" } else { "" };
    let zeros = if random.once_in(8) { "0".repeat(random.between(1, 25)) } else { String::new() };
    format!("{sign}{zeros}{value}").into_bytes()
}

/// A typed time of at most `most` seconds.
fn typed(random: &mut Random, most: u64) -> Vec<u8> {
    let (unit, factor) = [("", 1), ("s", 1), ("m", 60), ("h", 3_600), ("d", 86_400)][random.below(5)];
    [&number(random, most / factor)[..], unit.as_bytes()].concat()
}

fn zone_offset(random: &mut Random) -> Vec<u8> {
    if random.once_in(2) {
        [b"-", &typed(random, 1 << 63)[..]].concat()
    } else {
        typed(random, i64::MAX as u64)
    }
}

/// Token characters; for nettypes and addrtypes often one whose casing the crate folds.
fn token(random: &mut Random) -> Vec<u8> {
    const KNOWN: [&str; 14] = [
        "IN", "TN", "ATM", "PSTN", "IP4", "IP6", "in", "Tn", "aTm", "pstN", "ip4", "Ip6", "IP5", "i",
    ];
    if random.once_in(3) {
        fields::token(random)
    } else {
        random.pick(&KNOWN).as_bytes().to_vec()
    }
}

/// Fields with one space between, or runs of them, also before and behind.
fn spaced(random: &mut Random, fields: &[Vec<u8>]) -> Vec<u8> {
    let odd = random.once_in(4);
    let mut run = |least: usize| vec![b' '; if odd { random.between(least, 3) } else { least }];
    let mut value = run(0);
    for (at, field) in fields.iter().enumerate() {
        if at > 0 {
            value.extend(run(1));
        }
        value.extend(field);
    }
    value.extend(run(0));
    value
}

/// A value that the reader accepts for this letter.
pub fn good_value(random: &mut Random, letter: u8) -> Vec<u8> {
    let number = |random: &mut Random| number(random, u64::MAX);
    match letter {
        b'v' => b"0".to_vec(),
        b'o' => {
            let user = if random.once_in(2) { b"-".to_vec() } else { word(random) };
            let rest = [word(random), number(random), token(random), token(random), word(random)];
            spaced(random, &[&[user][..], &rest].concat())
        }
        b'c' => {
            let all = [token(random), token(random), word(random)];
            spaced(random, &all)
        }
        b'b' => [&free(random, 8, b":")[..], b":", &number(random)].concat(),
        b't' => {
            let all = [number(random), number(random)];
            spaced(random, &all)
        }
        b'r' => {
            let count = 2 + random.below(5);
            let all: Vec<_> = (0..count).map(|_| typed(random, u64::MAX)).collect();
            spaced(random, &all)
        }
        b'z' => {
            let mut all = Vec::new();
            for _ in 0..random.below(5) {
                all.push(number(random));
                all.push(zone_offset(random));
            }
            spaced(random, &all)
        }
        b'a' | b'k' => match random.below(3) {
            0 => free(random, 16, b":"),
            _ => [&free(random, 10, b":")[..], b":", &free(random, 20, b"")].concat(),
        },
        b'm' => {
            let mut port = self::number(random, 65_535);
            if random.once_in(3) {
                port = [&port[..], b"/", &self::number(random, 65_535)].concat();
            }
            [free(random, 8, b" "), port, free(random, 8, b" "), free(random, 16, b"")].join(&b' ')
        }
        _ => free(random, 24, b""),
    }
}

pub fn line(letter: u8, value: &[u8]) -> Vec<u8> {
    [&[letter, b'='], value].concat()
}

fn good_line(random: &mut Random, letter: u8) -> Vec<u8> {
    let value = good_value(random, letter);
    line(letter, &value)
}

// ---- good texts

/// A k line, which has no use anywhere: a value that was good once, or any bytes.
pub fn key_line(random: &mut Random) -> Vec<u8> {
    match random.below(4) {
        0 => line(b'k', b""),
        1 => {
            let mut value: Vec<u8> = (0..random.below(12)).map(|_| random.byte()).collect();
            value.retain(|byte| !matches!(byte, 0 | b'\r' | b'\n'));
            line(b'k', &value)
        }
        2 => line(b'k', &broken(random, b"")),
        _ => good_line(random, b'k'),
    }
}

/// The letters of SDP that have no use before the first m line, or from it on.
pub fn useless(in_media: bool) -> &'static [u8] {
    if in_media {
        b"vosueptrzk"
    } else {
        b"vk"
    }
}

/// A line that has no use where it stands: an unknown letter with any bytes, or one of `useless` with any value.
pub fn ignored(random: &mut Random, useless: &[u8]) -> Vec<u8> {
    let letter = match random.below(3) {
        0 => random.letter(useless),
        1 => random.letter(b"xqVMAO \xff\x7f"),
        _ => random.letter(b"xfgjlnwy"),
    };
    let mut value: Vec<u8> = match random.below(3) {
        0 => (0..random.below(12)).map(|_| random.byte()).collect(),
        _ => free(random, 12, b""),
    };
    value.retain(|byte| !matches!(byte, 0 | b'\r' | b'\n'));
    line(letter, &value)
}

/// A few more than none, seldom many.
fn several(random: &mut Random) -> usize {
    match random.below(12) {
        0 => random.below(12),
        1..=4 => 0,
        _ => random.below(3),
    }
}

/// The lines of a text that is accepted, the tables being far from full: v first, r only where a t came before, media
/// lines after an m; often in RFC 8866's order and often not. A k line may stand anywhere behind the first, and more than
/// once.
pub fn good(random: &mut Random) -> Vec<Vec<u8>> {
    let mut session = Vec::new();
    for letter in *b"osiuepcbtzka" {
        let most = match letter {
            b'e' | b'p' | b'b' | b't' | b'k' | b'a' => several(random),
            _ => random.below(2),
        };
        for _ in 0..most {
            session.push(if letter == b'k' { key_line(random) } else { good_line(random, letter) });
            if letter == b't' {
                for _ in 0..several(random).min(4) {
                    session.push(good_line(random, b'r'));
                }
            }
        }
    }
    if random.once_in(3) {
        mix(random, &mut session);
    }
    // a repeat with no time before it would be refused
    let first_time = session.iter().position(|line| line[0] == b't').unwrap_or(session.len());
    let mut at = 0;
    session.retain(|line| {
        at += 1;
        line[0] != b'r' || at > first_time
    });
    let mut lines = vec![b"v=0".to_vec()];
    lines.extend(session);
    for _ in 0..several(random) {
        let mut media = Vec::new();
        for letter in *b"icbka" {
            let most = match letter {
                b'i' => random.below(2),
                _ => several(random),
            };
            for _ in 0..most {
                media.push(if letter == b'k' { key_line(random) } else { good_line(random, letter) });
            }
        }
        if random.once_in(3) {
            mix(random, &mut media);
        }
        lines.push(good_line(random, b'm'));
        lines.extend(media);
    }
    for _ in 0..several(random) {
        let at = random.between(1, lines.len());
        let in_media = lines[..at].iter().any(|line| line[0] == b'm');
        lines.insert(at, ignored(random, useless(in_media)));
    }
    lines
}

/// Puts lines in another order.
fn mix(random: &mut Random, lines: &mut [Vec<u8>]) {
    for at in (1..lines.len()).rev() {
        lines.swap(at, random.below(at + 1));
    }
}

/// The lines with their endings: LF, CR LF or both, empty lines among them, and the last ending left out at times.
pub fn ended(random: &mut Random, lines: &[Vec<u8>]) -> Vec<u8> {
    let style = random.below(3);
    let empty = random.once_in(4);
    let mut text = Vec::new();
    let end = |random: &mut Random, text: &mut Vec<u8>| {
        let crlf = style == 1 || style == 2 && random.once_in(2);
        text.extend(if crlf { &b"\r\n"[..] } else { b"\n" });
    };
    for (at, line) in lines.iter().enumerate() {
        while empty && random.once_in(5) {
            end(random, &mut text);
        }
        text.extend(line);
        if at + 1 < lines.len() || !random.once_in(4) {
            end(random, &mut text);
        }
    }
    if random.once_in(30) {
        text.push(b'\r'); // a CR at the end of the text stays in its line
    }
    text
}

// ---- texts that aim at a refusal

/// The 63 pairs of the refusal numbers 8 to 11 and fields that can occur.
#[rustfmt::skip] // a row for each letter
pub const PAIRS: [(u64, u64); 63] = [
    (8, 1), (10, 1), (8, 2), (10, 2), (8, 3), (9, 3), (10, 3), (9, 4), (10, 4), (9, 5), (10, 5), (8, 6),
    (10, 6), (11, 7),
    (9, 8), (10, 8), (9, 9), (10, 9), (8, 10), (10, 10), (11, 11),
    (8, 12), (8, 13), (9, 13), (10, 13), (11, 14),
    (8, 15), (9, 15), (10, 15), (8, 16), (9, 16), (10, 16), (11, 17),
    (8, 18), (9, 18), (10, 18), (8, 19), (9, 19), (10, 19), (8, 20), (9, 20),
    (8, 21), (9, 21), (8, 22), (9, 22), (10, 22),
    (8, 23), (8, 24),
    (8, 27), (9, 28), (10, 28), (8, 29), (9, 30), (8, 31), (10, 31), (8, 32), (10, 32), (8, 33),
    (8, 34), (8, 35), (8, 36), (8, 37), (8, 38),
];

/// The fields that a refusal with this number can name.
pub fn fields_of(number: u64) -> Vec<u64> {
    PAIRS.iter().filter(|pair| pair.0 == number).map(|pair| pair.1).collect()
}

/// Not UTF-8, and without the bytes of `none`.
fn broken(random: &mut Random, none: &[u8]) -> Vec<u8> {
    let middle = fields::BROKEN[random.below(fields::BROKEN.len())];
    // what follows must not complete the character
    [&free(random, 4, none)[..], middle, &random.pick(&[&b""[..], b"z", b"0"])[..]].concat()
}

/// The same, with a unit or none behind it.
fn broken_time(random: &mut Random, none: &[u8]) -> Vec<u8> {
    [&broken(random, none)[..], random.pick(&["", "d", "h", "m", "s"]).as_bytes()].concat()
}

/// No number: beyond the bits, with a sign or mark that has no place, or nothing at all where that is possible.
fn no_number(random: &mut Random, most: u64) -> Vec<u8> {
    match random.below(4) {
        0 => (u128::from(most) + 1 + random.below(3) as u128).to_string().into_bytes(),
        1 => [&number(random, most)[..], random.pick(&["x", "-", "+", ".5", "\t", "\u{e9}", "w"]).as_bytes()].concat(),
        2 => random.pick(&["+", "-", "++1", "-1", "+-0", "0x1", "\u{661}", "x", "("]).as_bytes().to_vec(),
        _ => format!("{}{}", "9".repeat(random.between(20, 40)), random.below(10)).into_bytes(),
    }
}

/// No typed time within `most` seconds.
fn no_typed(random: &mut Random, most: u64) -> Vec<u8> {
    let (unit, factor) = [("d", 86_400), ("h", 3_600), ("m", 60), ("s", 1)][random.below(4)];
    match random.below(3) {
        0 => format!("{}{unit}", u128::from(most / factor) + 1 + random.below(2) as u128).into_bytes(),
        1 => random.pick(&["d", "h", "+s", "1dd", "1sm", "1D", "-1h", "1h+"]).as_bytes().to_vec(),
        _ => no_number(random, most),
    }
}

fn no_token(random: &mut Random) -> Vec<u8> {
    let mut token = fields::token(random);
    let at = random.below(token.len() + 1);
    token.insert(at, random.letter(b"(),/:;<=>?@[\\]\"\x7f\x80\xff\t"));
    token
}

/// A letter and a value that are refused with this number and field, where the line has a use.
pub fn aimed(random: &mut Random, number: u64, field: u64) -> (u8, Vec<u8>) {
    #[derive(Clone, Copy)]
    enum Kind {
        Word,
        Number,
        Token,
        Typed,
        Zone,
    }
    use Kind::*;
    let spaced_lines: [(u8, u64, &[Kind]); 5] = [
        (b'o', 1, &[Word, Word, Number, Token, Token, Word]),
        (b'c', 8, &[Token, Token, Word]),
        (b't', 15, &[Number, Number]),
        (b'r', 18, &[Typed, Typed, Typed]),
        (b'z', 21, &[Number, Zone]),
    ];
    let whole = |random: &mut Random, letter: u8| (letter, broken(random, b""));
    for (letter, first, kinds) in spaced_lines {
        let trailing = first + kinds.len() as u64;
        let last = if number == 11 { trailing } else { trailing - 1 };
        if field < first || field > last {
            continue;
        }
        let mut all = Vec::new();
        // earlier pairs, or earlier offsets
        if letter == b'z' {
            for _ in 0..several(random) {
                all.push(self::number(random, u64::MAX));
                all.push(zone_offset(random));
            }
        }
        for (kind, at) in kinds.iter().zip(first..) {
            if at == field && number == 10 {
                break;
            }
            all.push(match (kind, at == field, number) {
                (Zone, true, 8) => [random.pick(&[&b""[..], b"-"]), &broken_time(random, b" -")[..]].concat(),
                (Typed, true, 8) => broken_time(random, b" "),
                (_, true, 8) => broken(random, b" "),
                (Number, true, _) => no_number(random, u64::MAX),
                (Typed, true, _) => no_typed(random, u64::MAX),
                (Zone, true, _) => match random.below(4) {
                    0 => [b"-", &no_typed(random, 1 << 63)[..]].concat(),
                    1 => b"-".to_vec(),
                    _ => format!("{}", (1u64 << 63) + random.below(2) as u64).into_bytes(),
                },
                (Token, true, _) => no_token(random),
                (Word, ..) => word(random),
                (Number, ..) => self::number(random, u64::MAX),
                (Token, ..) => token(random),
                (Typed, ..) => typed(random, u64::MAX),
                (Zone, ..) => zone_offset(random),
            });
            if at == field {
                break;
            }
        }
        if number != 10 {
            // what follows isn't looked at any more; for 11 it is what is too much
            let more = if number == 11 { 1 + random.below(2) } else { random.below(3) };
            (0..more).for_each(|_| all.push(random.pick(&[&b"x"[..], b"\xff", b"0", b"-"]).to_vec()));
        }
        return (letter, spaced(random, &all));
    }
    match (number, field) {
        (8, 12) => (b'b', [&broken(random, b":")[..], random.pick(&[&b""[..], b":", b":1", b":x:"])].concat()),
        (10, 13) => (b'b', free(random, 8, b":")),
        (8, 13) => (b'b', [&free(random, 8, b":")[..], b":", &broken(random, b":")].concat()),
        (9, 13) => {
            let bad = if random.once_in(3) { Vec::new() } else { no_number(random, u64::MAX) };
            (b'b', [&free(random, 8, b":")[..], b":", &bad, random.pick(&[&b""[..], b":"])].concat())
        }
        (11, 14) => {
            let more = random.pick(&[&b":"[..], b":x", b":\xff", b"::"]);
            (b'b', [&free(random, 8, b":")[..], b":", &self::number(random, u64::MAX), more].concat())
        }
        (8, 23) => {
            let more = random.pick(&[&b""[..], b":", b":x", b":\xff"]);
            (b'a', [&broken(random, b":")[..], more].concat())
        }
        (8, 24) => (b'a', [&free(random, 8, b":")[..], b":", &broken(random, b"")].concat()),
        (8..=10, 27..=32) => (b'm', aimed_media(random, number, field)),
        (8, 33) | (8, 35) => whole(random, b'i'),
        (8, 34) => whole(random, b's'),
        (8, 36) => whole(random, b'u'),
        (8, 37) => whole(random, b'e'),
        (8, 38) => whole(random, b'p'),
        _ => panic!("refusal {number} has no field {field}"),
    }
}

fn aimed_media(random: &mut Random, number: u64, field: u64) -> Vec<u8> {
    let name = free(random, 8, b" ");
    let mut port = self::number(random, 65_535);
    if random.once_in(3) {
        port = [&port[..], b"/", &self::number(random, 65_535)].concat();
    }
    let proto = free(random, 8, b" ");
    let fmt = free(random, 8, b"");
    // behind the bad field nothing is looked at
    let rest: Vec<u8> = random.pick(&[&b""[..], b" ", b" p f", b" \xff \xff"]).to_vec();
    let bad_port = match random.below(4) {
        0 => Vec::new(),
        _ => no_number(random, 65_535),
    };
    match (number, field) {
        (8, 27) => [broken(random, b" "), rest].concat(),
        (10, 28) => name,
        (9, 28) => {
            let more = random.pick(&[&b""[..], b"/", b"/1", b"/x"]);
            [&name[..], b" ", &bad_port, more, &rest].concat()
        }
        (8, 29) => {
            let bad = match random.below(3) {
                0 => broken(random, b" "),
                1 => [&port[..], b"/", &broken(random, b" ")].concat(),
                _ => [&broken(random, b" /")[..], b"/x"].concat(),
            };
            [&name[..], b" ", &bad, &rest].concat()
        }
        (9, 30) => {
            let port = self::number(random, 65_535);
            let bad = match random.below(3) {
                0 => [&self::number(random, 65_535)[..], b"/"].concat(),
                _ => bad_port,
            };
            [&name[..], b" ", &port, b"/", &bad, &rest].concat()
        }
        (10, 31) => [&name[..], b" ", &port].concat(),
        (8, 31) => [&name[..], b" ", &port, b" ", &broken(random, b" "), &rest].concat(),
        (10, 32) => [&name[..], b" ", &port, b" ", &proto].concat(),
        (8, 32) => {
            let bad = [fmt, broken(random, b"")].concat();
            [&name[..], b" ", &port, b" ", &proto, b" ", &bad].concat()
        }
        _ => panic!("a media line has no refusal {number} with field {field}"),
    }
}

/// Where a line is, for what may stand before it.
fn medias_begin(lines: &[Vec<u8>]) -> usize {
    lines.iter().position(|line| line[0] == b'm').unwrap_or(lines.len())
}

/// A good text in which one line was put that is refused with this number and field, and perhaps anything after it.
pub fn aimed_text(random: &mut Random, number: u64, field: u64) -> Vec<u8> {
    let (letter, value) = aimed(random, number, field);
    let mut lines = good(random);
    let in_session = b"osiueptrz".contains(&letter) && field != 33;
    let in_media = field == 33;
    // one of the letters that may stand once must not stand there before
    lines.retain(|line| line[0] != letter || !b"osiucz".contains(&letter));
    if letter == b'r' {
        let at = random.between(1, medias_begin(&lines));
        lines.insert(at, good_line(random, b't'));
    }
    if in_media && medias_begin(&lines) == lines.len() {
        lines.push(good_line(random, b'm'));
    }
    let (from, to) = match (in_session, in_media) {
        (true, _) => {
            let first = if letter == b'r' { lines.iter().position(|line| line[0] == b't').unwrap() + 1 } else { 1 };
            (first, medias_begin(&lines))
        }
        (_, true) => (medias_begin(&lines) + 1, lines.len()),
        _ => (1, lines.len()),
    };
    let at = random.between(from, to);
    lines.insert(at, line(letter, &value));
    if random.once_in(4) {
        let junk: [&[u8]; 5] = [b"nothing", b"=", b"t=x", b"a=\xff", b"\0"];
        let at = random.between(at + 1, lines.len());
        lines.insert(at, random.pick(&junk).to_vec());
    }
    ended(random, &lines)
}

/// Lines that are good by themselves and stand where they must not: a second one (which a k line may be), a repeat before
/// any time, no version.
fn misplaced(random: &mut Random) -> Vec<u8> {
    let mut lines = good(random);
    let begin = medias_begin(&lines);
    match random.below(12) {
        0 => {
            lines[0] = random.pick(&[&b"v=1"[..], b"v=", b"v=00", b"v=0 ", b"v= 0", b"v=\xff", b"v=+0"]).to_vec();
        }
        1 => {
            lines.remove(0);
        }
        2 => {
            let first = [&b"x=1"[..], b"s=x", b"m=a 1 p f", b"k=", b"k=\xff", b"=", b"nothing", b"\0", b"vv=0"];
            lines.insert(0, random.pick(&first).to_vec());
        }
        3 => {
            let at = random.between(1, lines.len());
            let forms = [&b"="[..], b"nothing", b"aa=", b"\0", b"a=\0", b"a=\r.", b" a=", b"\r"];
            let of_k = [&b"k"[..], b"k:x", b"kk=x", b" k=", b"k =x", b"k=\0", b"k=x\r.", b"k=\xff\r"];
            let forms = if random.once_in(2) { forms } else { of_k };
            lines.insert(at, random.pick(&forms).to_vec());
        }
        4..=5 => {
            lines.retain(|line| line[0] != b't' && line[0] != b'r');
            let at = random.between(1, medias_begin(&lines));
            let repeat = if random.once_in(2) { good_line(random, b'r') } else { b"r=x".to_vec() };
            lines.insert(at, repeat);
        }
        6..=7 if begin < lines.len() => {
            // twice in one media, or once in each of two, which is allowed
            let letter = random.letter(b"ik");
            for _ in 0..2 {
                let at = random.between(begin + 1, lines.len());
                lines.insert(at, good_line(random, letter));
            }
        }
        _ => {
            let letter = random.letter(b"osiuczk");
            for _ in 0..2 {
                let value = if random.once_in(4) { b"\xff".to_vec() } else { good_value(random, letter) };
                let at = random.between(1, medias_begin(&lines));
                lines.insert(at, line(letter, &value));
            }
        }
    }
    ended(random, &lines)
}

// ---- full tables

/// Lines that bring one or two tables to within one record of their size, or one over it; the last may have a bad value.
pub fn filled(random: &mut Random) -> Vec<u8> {
    let (mut session, mut media) = (vec![b"v=0".to_vec()], Vec::new());
    // of these only the time is in a table
    for letter in *b"tsiuck" {
        if random.once_in(2) {
            session.push(good_line(random, letter));
        }
    }
    let mut table = 0;
    for _ in 0..random.between(1, 2) {
        table = random.between(1, 10);
        let records = TABLES[table - 1] + random.below(4) - 1;
        fill(random, table, records, &mut session, &mut media);
    }
    if random.once_in(3) {
        mix(random, &mut session[1..]);
    }
    if random.once_in(3) {
        // a bad value for the table that was filled last, often at its end
        let (letter, value) = loop {
            let (number, field) = PAIRS[random.below(PAIRS.len())];
            let (letter, value) = aimed(random, number, field);
            if letter == b"epcbtrrzam"[table - 1] {
                break (letter, value);
            }
        };
        let lines = if media.is_empty() || b"eptrz".contains(&letter) { &mut session } else { &mut media };
        let at = if random.once_in(2) { lines.len() } else { random.between(1, lines.len()) };
        lines.insert(at, line(letter, &value));
    }
    ended(random, &[session, media].concat())
}

/// Lines with this many records for one table, put behind those of the session or of its medias.
pub fn fill(random: &mut Random, table: usize, records: usize, session: &mut Vec<Vec<u8>>, media: &mut Vec<Vec<u8>>) {
    let m = || b"m=a 1 p f".to_vec();
    match table {
        1 | 2 => {
            let letter = if table == 1 { b'e' } else { b'p' };
            (0..records).for_each(|_| session.push(line(letter, b"")));
        }
        3 => {
            if media.is_empty() {
                media.push(m());
            }
            (0..records).for_each(|_| {
                if random.once_in(20) {
                    media.push(m());
                }
                media.push(b"c=IN IP4 h".to_vec());
            });
        }
        4 | 9 => {
            let one: &[u8] = if table == 4 { b"b=AS:1" } else { b"a=x" };
            let first = random.below(records + 1);
            session.resize(session.len() + first, one.to_vec());
            if first < records && media.is_empty() {
                media.push(m());
            }
            (first..records).for_each(|_| {
                if random.once_in(40) {
                    media.push(m());
                }
                media.push(one.to_vec());
            });
        }
        5 => (0..records).for_each(|_| session.push(good_line(random, b't'))),
        6 => {
            session.push(b"t=0 0".to_vec());
            (0..records).for_each(|_| {
                session.push(if random.once_in(9) { b"r=1 1 5".to_vec() } else { b"r=1 1".to_vec() });
            });
            if random.once_in(4) {
                session.push(format!("r=1 1{}", " 0".repeat(257)).into_bytes()); // two tables at once
            }
        }
        7 => {
            session.push(b"t=0 0".to_vec());
            let mut left = records;
            while left > 0 {
                let some = random.between(1, left.min(100));
                session.push(format!("r=7d 1h{}", " 25h".repeat(some)).into_bytes());
                left -= some;
                if random.once_in(4) {
                    session.push(b"t=1 2".to_vec());
                }
            }
        }
        8 => session.push(format!("z={}", "0 -1h ".repeat(records)).into_bytes()),
        10 => (0..records).for_each(|_| media.push(m())),
        _ => panic!("there are ten tables, no {table}"),
    }
}

// ---- damage, noise, length

fn damaged(random: &mut Random) -> Vec<u8> {
    let lines = good(random);
    let mut text = ended(random, &lines);
    damage(random, &mut text);
    text
}

/// Damage to bytes or to whole lines of a text.
pub fn damage(random: &mut Random, text: &mut Vec<u8>) {
    for _ in 0..random.between(1, 3) {
        if random.once_in(3) {
            let mut lines: Vec<Vec<u8>> = text.split_inclusive(|byte| *byte == b'\n').map(<[u8]>::to_vec).collect();
            if lines.len() > 1 {
                let (a, b) = (random.below(lines.len()), random.below(lines.len()));
                match random.below(3) {
                    0 => lines.swap(a, b),
                    1 => {
                        lines.remove(a);
                    }
                    _ => lines.insert(b, lines[a].clone()),
                }
                *text = lines.concat();
            }
        } else {
            fields::damage(random, text);
        }
    }
}

/// A few short lines of letters in use, their values over a small alphabet.
fn short(random: &mut Random) -> Vec<u8> {
    let mut lines = Vec::new();
    if !random.once_in(12) {
        lines.push(b"v=0".to_vec());
    }
    if random.once_in(3) {
        lines.push(b"t=0 0".to_vec());
    }
    for _ in 0..random.between(0, 4) {
        let letter = random.letter(b"vosiuepcbtrzkamm");
        let value: Vec<u8> = (0..random.below(9)).map(|_| random.letter(b"  011:/+-dhms9(\xff\xc3\xa9=\r")).collect();
        lines.push(line(letter, &value));
    }
    ended(random, &lines)
}

/// A text within two bytes of the longest.
fn long(random: &mut Random) -> Vec<u8> {
    let mut lines = good(random);
    if random.once_in(3) {
        let (number, field) = PAIRS[random.below(PAIRS.len())];
        let (letter, value) = aimed(random, number, field);
        lines.push(line(letter, &value));
    }
    let text = ended(random, &lines);
    let due = LONGEST - 2 + random.below(5);
    lengthened(random, text, due)
}

/// The text with bytes put into one of its lines, or with empty lines, so that it has `due` bytes.
pub fn lengthened(random: &mut Random, mut text: Vec<u8>, due: usize) -> Vec<u8> {
    let missing = due.saturating_sub(text.len());
    let at = random.below(text.len() + 1);
    let more = match random.below(4) {
        0 => vec![b'\n'; missing],
        1 => vec![b' '; missing],
        2 => [random.letter(b"xk"), b'=', b'\n'].into_iter().cycle().take(missing).collect(),
        _ => vec![random.letter(b"0x:/ "); missing],
    };
    text.splice(at..at, more);
    text
}
